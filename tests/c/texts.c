/* The texts of the refusals: each number has its own, and any other number a text of none of them. Prints the version and the
 * texts of all refusals, which scripts/c.sh compares with those in runfold.pc and docs/REFUSALS.md. */
#include "runfold.h"

#include <stdio.h>
#include <string.h>

enum { LAST = RUNFOLD_GROUP_IN_SEASON };

int main(void)
{
    const char *texts[257];
    char version[64];

    for (unsigned i = 0; i < 256; i++)
        texts[i] = runfold_refusal_text(i);
    texts[256] = runfold_refusal_text(UINT64_MAX);
    for (int i = 0; i <= 256; i++)
        for (int j = 0; j < i; j++) {
            int both_none = (i > LAST && i != RUNFOLD_SHORT) && (j > LAST && j != RUNFOLD_SHORT);
            if ((strcmp(texts[i], texts[j]) == 0) != both_none) {
                printf("%d: %s, %d: %s\n", j, texts[j], i, texts[i]);
                return 1;
            }
        }

    snprintf(version, sizeof version, "%d.%d.%d", RUNFOLD_VERSION_MAJOR, RUNFOLD_VERSION_MINOR, RUNFOLD_VERSION_PATCH);
    if (strcmp(version, RUNFOLD_VERSION) != 0) {
        printf("%s is not %s\n", RUNFOLD_VERSION, version);
        return 1;
    }
    puts(RUNFOLD_VERSION);
    for (int i = 1; i <= LAST; i++)
        printf("%d %s\n", i, texts[i]);
    return 0;
}
