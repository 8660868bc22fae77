/* Marked labels from C, at unit costs: what the folder writes, what the fold reader answers, and marks that both refuse, all
 * worked out by hand. */
#include "runfold.h"

#include <stdio.h>
#include <string.h>

enum { LIMIT = RUNFOLD_MAX_WIDTH, ALL = RUNFOLD_ENTRIES, NODES = 8, MOST = 24, UNWRITTEN = 99 };

/* A run with the cheapest fold of it where one label is marked. */
struct folding {
    const char *name;
    uint8_t marked;
    size_t run_len;
    uint8_t run[MOST];
    size_t fold_len;
    uint8_t fold[MOST];
    uint64_t cost;
};

#define AAA .run_len = 6, .run = {0x10, 1, 0x10, 1, 0x10, 1}
#define GROUPS .run_len = 18, .run = {0x11, 5, 0x10, 1, 0x10, 1, 0x10, 1, 0x12, 0x11, 5, 0x10, 1, 0x10, 1, 0x10, 1, 0x12}

static const struct folding foldings[] = {
    {"aaa, its label free", .marked = 2, AAA,
     .fold_len = 8, .fold = {0x20, 0, 3, 0, 1, 0x10, 1, 0x21}, .cost = 2},
    {"aaa, its label marked", .marked = 1, AAA,
     .fold_len = 6, .fold = {0x10, 1, 0x10, 1, 0x10, 1}, .cost = 3},
    {"two groups of aaa, both labels free", .marked = 2, GROUPS,
     .fold_len = 17, .fold = {0x20, 0, 2, 0, 1, 0x11, 5, 0x20, 0, 3, 0, 1, 0x10, 1, 0x21, 0x12, 0x21}, .cost = 4},
    /* What a marked group holds may be repeated in it. */
    {"two groups of aaa, the label of the groups marked", .marked = 5, GROUPS,
     .fold_len = 22, .fold = {0x11, 5, 0x20, 0, 3, 0, 1, 0x10, 1, 0x21, 0x12, 0x11, 5, 0x20, 0, 3, 0, 1, 0x10, 1, 0x21, 0x12},
     .cost = 6},
    /* A group that holds a marked label may not be repeated either. */
    {"two groups of aaa, the label of the steps marked", .marked = 1, GROUPS,
     .fold_len = 18, .fold = {0x11, 5, 0x10, 1, 0x10, 1, 0x10, 1, 0x12, 0x11, 5, 0x10, 1, 0x10, 1, 0x10, 1, 0x12}, .cost = 8},
};
enum { FOLDINGS = sizeof foldings / sizeof foldings[0] };

/* A fold where label 07 is marked, with its answer: refusal, place, nodes, length, cost, steps and depth. */
struct reading {
    const char *name;
    size_t len;
    uint8_t fold[MOST];
    uint64_t answer[ALL];
};

static const struct reading readings[] = {
    {"a step in a repeat", 8, {0x20, 0, 2, 0, 1, 0x10, 7, 0x21}, {RUNFOLD_MARKED_IN_REPEAT, 5}},
    {"a group in a repeat", 11, {0x20, 0, 2, 0, 1, 0x11, 7, 0x10, 1, 0x12, 0x21}, {RUNFOLD_MARKED_IN_REPEAT, 5}},
    {"a step in a group in a repeat", 11, {0x20, 0, 2, 0, 1, 0x11, 5, 0x10, 7, 0x12, 0x21}, {RUNFOLD_MARKED_IN_REPEAT, 7}},
    {"behind a repeat in a repeat", 16, {0x20, 0, 2, 0, 3, 0x20, 0, 2, 0, 1, 0x10, 1, 0x21, 0x10, 7, 0x21},
     {RUNFOLD_MARKED_IN_REPEAT, 13}},
    {"before and behind a repeat", 12, {0x10, 7, 0x20, 0, 2, 0, 1, 0x10, 1, 0x21, 0x10, 7}, {0, 0, 4, 8, 4, 4, 0}},
    {"a group that holds a repeat", 11, {0x11, 7, 0x20, 0, 2, 0, 1, 0x10, 1, 0x21, 0x12}, {0, 0, 3, 7, 3, 2, 1}},
    /* 3 and 8 go before 19, and 19 before 10. */
    {"a step cut off", 6, {0x20, 0, 2, 0, 1, 0x10}, {RUNFOLD_UNFINISHED, 6}},
    {"a ninth group", 23, {0x11, 1, 0x11, 1, 0x11, 1, 0x11, 1, 0x11, 1, 0x11, 1, 0x11, 1, 0x11, 1, 0x20, 0, 2, 0, 1, 0x11, 7},
     {RUNFOLD_DEEP, 21}},
    {"node 1,025", 16, {0x20, 4, 0, 0, 1, 0x10, 1, 0x21, 0x20, 0, 2, 0, 1, 0x10, 7, 0x21}, {RUNFOLD_MARKED_IN_REPEAT, 13}},
};
enum { READINGS = sizeof readings / sizeof readings[0] };

static uint16_t ones[256];
/* One more than there are labels, for marks that are too long. */
static uint8_t marks[257];
static uint32_t costs[RUNFOLD_WORK(NODES)], choices[RUNFOLD_WORK(NODES)];
static uint8_t out[RUNFOLD_ROOM(NODES)];
static uint64_t answer[ALL];
static int failures;

static void expect(const char *name, const char *function, unsigned result, const uint64_t *wanted)
{
    if (result == wanted[RUNFOLD_REFUSAL] && memcmp(answer, wanted, sizeof answer) == 0)
        return;
    printf("%s, %s: another answer\n", name, function);
    failures++;
}

static unsigned read_fold(const uint8_t *fold, size_t len, size_t limit, size_t groups_len, size_t marks_len)
{
    return runfold_read_fold(fold, len, limit, ones, 256, ones, groups_len, marks, marks_len, 1, 0, answer, ALL);
}

static unsigned fold_run(const uint8_t *run, size_t len, size_t limit, size_t groups_len, size_t marks_len)
{
    return runfold_fold(run, len, limit, ones, 256, ones, groups_len, marks, marks_len, 1, 0, costs, RUNFOLD_WORK(NODES),
                        choices, RUNFOLD_WORK(NODES), out, sizeof out, answer, ALL);
}

static void folds(const struct folding *f)
{
    const uint64_t wanted[ALL] = {0, 0, 0, f->fold_len, f->cost, 0, 0};

    marks[f->marked] = 1;
    expect(f->name, "folder", fold_run(f->run, f->run_len, LIMIT, 256, 256), wanted);
    if (memcmp(out, f->fold, f->fold_len) != 0) {
        printf("%s: another fold\n", f->name);
        failures++;
    }
    /* The fold reader accepts it under the same marks, at the same cost. */
    if (read_fold(f->fold, f->fold_len, LIMIT, 256, 256) != RUNFOLD_OK || answer[RUNFOLD_COST] != f->cost) {
        printf("%s: not read back\n", f->name);
        failures++;
    }
    marks[f->marked] = 0;
}

/* Both functions refuse at place 0, and no output is written. The input is 13, which is no command: the commands come last. */
static void refused(const char *name, size_t limit, size_t groups_len, size_t marks_len, uint64_t refusal)
{
    const uint8_t input[] = {0x13};
    const uint64_t wanted[ALL] = {refusal};

    out[0] = UNWRITTEN;
    expect(name, "fold reader", read_fold(input, 1, limit, groups_len, marks_len), wanted);
    expect(name, "folder", fold_run(input, 1, limit, groups_len, marks_len), wanted);
    if (out[0] != UNWRITTEN) {
        printf("%s: output was written\n", name);
        failures++;
    }
}

int main(void)
{
    for (int label = 0; label < 256; label++)
        ones[label] = 1;

    for (const struct folding *f = foldings; f < foldings + FOLDINGS; f++)
        folds(f);

    marks[7] = 1;
    for (const struct reading *r = readings; r < readings + READINGS; r++)
        expect(r->name, "fold reader", read_fold(r->fold, r->len, LIMIT, 256, 256), r->answer);
    marks[7] = 0;

    refused("all 0", LIMIT, 256, 256, RUNFOLD_UNKNOWN_COMMAND);
    refused("one too few", LIMIT, 256, 255, RUNFOLD_WRONG_MARKS);
    refused("one too many", LIMIT, 256, 257, RUNFOLD_WRONG_MARKS);
    for (int label = 0; label < 256; label++) {
        marks[label] = 2;
        refused("a 2", LIMIT, 256, 256, RUNFOLD_WRONG_MARKS);
        marks[label] = 255;
        refused("a 255", LIMIT, 256, 256, RUNFOLD_WRONG_MARKS);
        /* 15 and 12 go before 18. */
        refused("a 255, groups too short", LIMIT + 1, 255, 256, RUNFOLD_GROUP_TABLE_SIZE);
        refused("a 255, limit too high", LIMIT + 1, 256, 256, RUNFOLD_LIMIT_SIZE);
        marks[label] = 1;
        refused("a 1", LIMIT, 256, 256, RUNFOLD_UNKNOWN_COMMAND);
        marks[label] = 0;
    }
    return failures > 0;
}
