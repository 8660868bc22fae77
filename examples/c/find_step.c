/* Finds nodes of a folded run without unrolling it. The fold is a step 01, 300 times a step 02 and a group 05 that holds a step
 * 03, and a step 04: 902 nodes. */
#include "runfold.h"

#include <stdio.h>

int main(void)
{
    const uint8_t fold[] = {0x10, 0x01, 0x20, 0x01, 0x2C, 0x00, 0x02, 0x10, 0x02, 0x11, 0x05, 0x10, 0x03, 0x12, 0x21, 0x10, 0x04};
    const uint64_t wanted[] = {700, 701, 902};
    uint32_t offsets[RUNFOLD_MAX_NODES], before[RUNFOLD_MAX_NODES];
    uint64_t answer[RUNFOLD_ENTRIES];
    size_t entries;

    if (runfold_index(fold, sizeof fold, offsets, RUNFOLD_MAX_NODES, before, RUNFOLD_MAX_NODES, answer, RUNFOLD_ENTRIES) !=
        RUNFOLD_OK)
        return 1;
    entries = (size_t)answer[RUNFOLD_INDEXED];
    printf("index of %zu entries\n", entries);
    for (int i = 0; i < 3; i++) {
        uint8_t refusal = runfold_find(fold, sizeof fold, offsets, entries, before, entries, wanted[i], answer, RUNFOLD_ENTRIES);
        printf("node %u: ", (unsigned)wanted[i]);
        if (refusal == RUNFOLD_OK)
            printf("%s %02X at offset %u\n", answer[RUNFOLD_COMMAND] == 0x10 ? "step" : "group", (unsigned)answer[RUNFOLD_LABEL],
                   (unsigned)answer[RUNFOLD_OFFSET]);
        else
            printf("refused %u: %s\n", refusal, runfold_refusal_text(refusal));
    }
    return 0;
}
