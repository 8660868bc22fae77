/* Nodes, steps, depth and cost from C: two groups 05 holding aaa, three steps 01, as a run and as a fold, at unit costs and where
 * a group costs 4. The seven numbers of each answer must be those worked out by hand, and what stands behind them as it was. */
#include "runfold.h"

#include <stdio.h>
#include <string.h>

static int expect(const char *call, const uint64_t *answer, const uint64_t *wanted, size_t entries)
{
    if (memcmp(answer, wanted, entries * sizeof *answer) == 0)
        return 0;
    printf("%s: another answer\n", call);
    return 1;
}

int main(void)
{
    const uint8_t run[] = {0x11, 5, 0x10, 1, 0x10, 1, 0x10, 1, 0x12, 0x11, 5, 0x10, 1, 0x10, 1, 0x10, 1, 0x12};
    const uint8_t fold[] = {0x20, 0, 2, 0, 1, 0x11, 5, 0x20, 0, 3, 0, 1, 0x10, 1, 0x21, 0x12, 0x21};
    /* refusal, place, nodes, length, cost, steps, depth; and an entry that is not the answer's */
    const uint64_t of_run[] = {0, 0, 8, 0, 0, 6, 1, 99};
    const uint64_t of_fold[] = {0, 0, 8, 18, 4, 6, 1, 99};
    const uint64_t of_dear_fold[] = {0, 0, 8, 18, 7, 6, 1, 99};
    const uint64_t of_dear_folding[] = {0, 0, 0, 17, 7, 0, 0, 99};
    const uint64_t of_cut_run[] = {RUNFOLD_UNFINISHED, sizeof run - 1, 0, 0, 0, 0, 0, 99};
    uint64_t answer[RUNFOLD_ENTRIES + 1];
    uint16_t one[256], four[256];
    const uint8_t marks[256] = {0};
    uint32_t costs[RUNFOLD_WORK(8)], choices[RUNFOLD_WORK(8)];
    uint8_t out[RUNFOLD_ROOM(8)];
    int failures = 0;

    for (int label = 0; label < 256; label++) {
        one[label] = 1;
        four[label] = 4;
    }
    answer[RUNFOLD_ENTRIES] = 99;
    runfold_read_run(run, sizeof run, answer, RUNFOLD_ENTRIES + 1);
    failures += expect("runfold_read_run", answer, of_run, RUNFOLD_ENTRIES + 1);
    runfold_read_fold(fold, sizeof fold, RUNFOLD_MAX_WIDTH, one, 256, one, 256, marks, 256, 1, 0, answer, RUNFOLD_ENTRIES + 1);
    failures += expect("runfold_read_fold", answer, of_fold, RUNFOLD_ENTRIES + 1);
    runfold_read_fold(fold, sizeof fold, RUNFOLD_MAX_WIDTH, one, 256, four, 256, marks, 256, 1, 0, answer, RUNFOLD_ENTRIES + 1);
    failures += expect("runfold_read_fold, a group for 4", answer, of_dear_fold, RUNFOLD_ENTRIES + 1);
    runfold_fold(run, sizeof run, RUNFOLD_MAX_WIDTH, one, 256, four, 256, marks, 256, 1, 0, costs, RUNFOLD_WORK(8), choices,
                 RUNFOLD_WORK(8), out, sizeof out, answer, RUNFOLD_ENTRIES + 1);
    failures += expect("runfold_fold, a group for 4", answer, of_dear_folding, RUNFOLD_ENTRIES + 1);
    if (memcmp(out, fold, sizeof fold) != 0) {
        printf("runfold_fold, a group for 4: another fold\n");
        failures++;
    }
    runfold_read_run(run, sizeof run - 1, answer, RUNFOLD_ENTRIES + 1);
    failures += expect("runfold_read_run, cut", answer, of_cut_run, RUNFOLD_ENTRIES + 1);
    return failures > 0;
}
