/* The folder of another archive of the library beside that of this one, on the benchmark's runs and prices, which are read from
 * standard input. Its folder has to take the same arguments; no label is marked. Both are called in turn; a line for each run at
 * each prices gives the lowest time of either. They have to agree in cost, and how many folds differ is said at the end.
 * scripts/beside.sh links it. */
#define _GNU_SOURCE
#include "runfold.h"

#include <stdio.h>
#include <stdlib.h>
#include <string.h>
#include <time.h>

typedef uint8_t folder(const uint8_t *run, size_t run_len, size_t limit, const uint16_t *steps, size_t steps_len,
                       const uint16_t *groups, size_t groups_len, const uint8_t *marks, size_t marks_len, uint16_t first,
                       uint16_t each, uint32_t *costs, size_t costs_len, uint32_t *choices, size_t choices_len, uint8_t *out,
                       size_t out_len, uint64_t *answer, size_t answer_len);

/* Those of the two archives, under other names. */
folder other_fold, this_fold;

enum { NODES = RUNFOLD_MAX_NODES, PRICES = 8, ROUNDS = 7, OTHER = 0, THIS = 1 };

/* Costs of steps and of groups, and the repeat prices first and each. */
struct prices {
    char name[64];
    uint16_t costs[2][256], first, each;
};

static struct prices prices[PRICES];
/* No label is marked. */
static const uint8_t marks[256];
static uint32_t costs[RUNFOLD_WORK(NODES)], choices[RUNFOLD_WORK(NODES)];
static uint8_t run[RUNFOLD_MAX_RUN], out[2][RUNFOLD_ROOM(NODES)];
static int differ, cases;

static double now(void) {
    struct timespec t;
    clock_gettime(CLOCK_MONOTONIC, &t);
    return (double)t.tv_sec * 1e9 + (double)t.tv_nsec;
}

static void fail(const char *what) {
    fprintf(stderr, "beside: %s\n", what);
    exit(1);
}

static void read_prices(struct prices *p, const char *name, char *numbers) {
    uint16_t all[514];
    for (int i = 0; i < 514; i++)
        all[i] = (uint16_t)strtoul(numbers, &numbers, 10);
    snprintf(p->name, sizeof p->name, "%s", name);
    memcpy(p->costs, all, sizeof p->costs);
    p->first = all[512];
    p->each = all[513];
}

static size_t read_run(const char *hex) {
    size_t length = strlen(hex) / 2;
    if (length > sizeof run)
        fail("a run is too long");
    for (size_t i = 0; i < length; i++)
        if (sscanf(hex + 2 * i, "%2hhx", &run[i]) != 1)
            fail("a run is no hexadecimal");
    return length;
}

/* The run by either folder, into its own output. */
static uint8_t fold_by(int which, size_t length, const struct prices *p, uint64_t *answer) {
    folder *const fold = which == OTHER ? other_fold : this_fold;
    return fold(run, length, RUNFOLD_MAX_WIDTH, p->costs[0], 256, p->costs[1], 256, marks, 256, p->first, p->each, costs,
                RUNFOLD_WORK(NODES), choices, RUNFOLD_WORK(NODES), out[which], RUNFOLD_ROOM(NODES), answer, RUNFOLD_ENTRIES);
}

/* At least some rounds, and for as many nanoseconds as are given. */
static void measure(const char *family, size_t length, const struct prices *p, double budget) {
    double best[2] = {1e18, 1e18}, began = now();
    uint64_t answer[2][RUNFOLD_ENTRIES];
    for (int round = 0; round < ROUNDS || now() - began < budget; round++)
        for (int turn = 0; turn < 2; turn++) {
            int which = (turn + round) % 2;
            double start = now();
            uint8_t refusal = fold_by(which, length, p, answer[which]);
            double time = now() - start;
            if (refusal != RUNFOLD_OK)
                fail("a run is refused");
            best[which] = time < best[which] ? time : best[which];
        }
    if (answer[OTHER][RUNFOLD_COST] != answer[THIS][RUNFOLD_COST])
        fail("the two differ in cost");
    uint64_t size = answer[OTHER][RUNFOLD_LENGTH];
    differ += size != answer[THIS][RUNFOLD_LENGTH] || memcmp(out[OTHER], out[THIS], (size_t)size) != 0;
    cases++;
    printf("%s\t%s\t%.0f\t%.0f\n", family, p->name, best[OTHER], best[THIS]);
}

int main(int argc, char **argv) {
    double budget = argc > 1 ? atof(argv[1]) * 1e6 : 0;
    char *line = NULL;
    size_t room = 0, known = 0;
    while (getline(&line, &room, stdin) > 0) {
        line[strcspn(line, "\n")] = 0;
        const char *kind = strtok(line, "\t"), *name = strtok(NULL, "\t");
        char *rest = strtok(NULL, "\t");
        if (kind == NULL || name == NULL || rest == NULL)
            fail("a line has not three parts");
        if (strcmp(kind, "prices") == 0) {
            if (known == PRICES)
                fail("too many prices");
            read_prices(&prices[known++], name, rest);
            continue;
        }
        size_t length = read_run(rest);
        for (size_t i = 0; i < known; i++)
            measure(name, length, &prices[i], budget);
    }
    free(line);
    fprintf(stderr, "%d of %d folds differ, no cost does\n", differ, cases);
    return 0;
}
