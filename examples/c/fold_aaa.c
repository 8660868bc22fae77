/* Folds aaa, three steps of label 01, at unit costs and prints the fold, which it then unrolls again. */
#include "runfold.h"

#include <stdio.h>
#include <string.h>

int main(void)
{
    const uint8_t run[] = {0x10, 0x01, 0x10, 0x01, 0x10, 0x01};
    uint16_t steps[256], groups[256];
    const uint8_t marks[256] = {0}; /* no label is marked: a 1 would keep it out of all repeats */
    uint32_t costs[RUNFOLD_WORK(3)];
    uint32_t choices[RUNFOLD_WORK(3)];
    uint8_t out[RUNFOLD_ROOM(3)];
    uint8_t back[sizeof run];
    uint64_t answer[RUNFOLD_ENTRIES];
    size_t length;

    for (int label = 0; label < 256; label++)
        steps[label] = groups[label] = 1;
    if (runfold_read_run(run, sizeof run, answer, RUNFOLD_ENTRIES) != RUNFOLD_OK)
        goto refused;
    printf("nodes %llu, steps %llu, depth %llu\n", (unsigned long long)answer[RUNFOLD_NODES],
           (unsigned long long)answer[RUNFOLD_STEPS], (unsigned long long)answer[RUNFOLD_DEPTH]);
    if (runfold_fold(run, sizeof run, RUNFOLD_MAX_WIDTH, steps, 256, groups, 256, marks, 256, 1, 0, costs, RUNFOLD_WORK(3),
                     choices, RUNFOLD_WORK(3), out, sizeof out, answer, RUNFOLD_ENTRIES) != RUNFOLD_OK)
        goto refused;
    length = (size_t)answer[RUNFOLD_LENGTH];
    printf("cost %llu\n", (unsigned long long)answer[RUNFOLD_COST]);
    printf("fold ");
    for (size_t i = 0; i < length; i++)
        printf("%02X", out[i]);
    printf("\n");
    if (runfold_unroll(out, length, RUNFOLD_MAX_WIDTH, back, sizeof back, answer, RUNFOLD_ENTRIES) != RUNFOLD_OK)
        goto refused;
    if (answer[RUNFOLD_LENGTH] != sizeof run || memcmp(back, run, sizeof run) != 0)
        return 1;
    return 0;

refused:
    printf("refused %llu at %llu: %s\n", (unsigned long long)answer[RUNFOLD_REFUSAL],
           (unsigned long long)answer[RUNFOLD_PLACE], runfold_refusal_text(answer[RUNFOLD_REFUSAL]));
    return 1;
}
