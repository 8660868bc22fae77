/* The short command family from C, at unit costs: folds and their short forms, what short reader, short folder and both
 * conversions answer, and their refusals, all worked out by hand. What a call has no business to write must be as it was. */
#include "expect.h"

enum { LIMIT = RUNFOLD_MAX_WIDTH, NODES = RUNFOLD_MAX_NODES, MOST = 40, ROOM = 600 };

/* A fold, its short form, and what a reader answers of either: refusal, place, nodes, length, cost, steps and depth. */
struct form {
    const char *name;
    size_t fold_len;
    uint8_t fold[MOST];
    size_t brief_len;
    uint8_t brief[MOST];
    uint64_t answer[ALL];
    /* Whether it is the cheapest fold of its run. */
    int cheapest;
};

static const struct form forms[] = {
    {.name = "the empty fold", .cheapest = 1},
    {"a step and a group, labels as commands", 7, {0x10, 0x22, 0x11, 0x20, 0x10, 0x21, 0x12},
     7, {0x10, 0x22, 0x11, 0x20, 0x10, 0x21, 0x12}, {0, 0, 3, 7, 3, 2, 1}, 1},
    {"aaa", 8, {0x20, 0, 3, 0, 1, 0x10, 1, 0x21}, 6, {0x22, 3, 1, 0x10, 1, 0x21}, {0, 0, 3, 6, 2, 3, 0}, 1},
    {"two groups of aaa", 17, {0x20, 0, 2, 0, 1, 0x11, 5, 0x20, 0, 3, 0, 1, 0x10, 1, 0x21, 0x12, 0x21},
     13, {0x22, 2, 1, 0x11, 5, 0x22, 3, 1, 0x10, 1, 0x21, 0x12, 0x21}, {0, 0, 8, 18, 4, 6, 1}, 1},
    {"a count of 255", 8, {0x20, 0, 255, 0, 1, 0x10, 1, 0x21}, 6, {0x22, 255, 1, 0x10, 1, 0x21},
     {0, 0, 255, 510, 2, 255, 0}, 1},
    {"a count of 256", 8, {0x20, 1, 0, 0, 1, 0x10, 1, 0x21}, 8, {0x20, 1, 0, 0, 1, 0x10, 1, 0x21},
     {0, 0, 256, 512, 2, 256, 0}, 1},
    {"a 22 in a 20", 14, {0x20, 1, 0, 0, 2, 0x20, 0, 2, 0, 1, 0x10, 1, 0x21, 0x21},
     12, {0x20, 1, 0, 0, 2, 0x22, 2, 1, 0x10, 1, 0x21, 0x21}, {0, 0, 512, 1024, 3, 512, 0}, 0},
    /* The 20 inside is as wide as 256 siblings: only as what a group holds it fits in a 22. */
    {"a 20 in a 22", 17, {0x20, 0, 2, 0, 1, 0x11, 5, 0x20, 1, 0, 0, 1, 0x10, 1, 0x21, 0x12, 0x21},
     15, {0x22, 2, 1, 0x11, 5, 0x20, 1, 0, 0, 1, 0x10, 1, 0x21, 0x12, 0x21}, {0, 0, 514, 1030, 4, 512, 1}, 1},
};
enum { FORMS = sizeof forms / sizeof forms[0] };

/* Bytes that the short reader refuses at a limit, label 07 marked, and what the conversion, which takes neither, answers. */
struct refused {
    const char *name;
    size_t len;
    uint8_t bytes[MOST];
    size_t limit;
    uint64_t refusal, place, converted, converted_place;
};

#define FIVE 0x22, 2, 1, 0x22, 2, 1, 0x22, 2, 1, 0x22, 2, 1, 0x22, 2, 1

static const struct refused refusals[] = {
    {"23", 1, {0x23}, LIMIT, RUNFOLD_UNKNOWN_COMMAND, 0, RUNFOLD_UNKNOWN_COMMAND, 0},
    {"no operands", 1, {0x22}, LIMIT, RUNFOLD_UNFINISHED, 1, RUNFOLD_UNFINISHED, 1},
    {"no width", 2, {0x22, 3}, LIMIT, RUNFOLD_UNFINISHED, 2, RUNFOLD_UNFINISHED, 2},
    {"an open repeat", 3, {0x22, 3, 1}, LIMIT, RUNFOLD_UNFINISHED, 3, RUNFOLD_UNFINISHED, 3},
    {"a wrong close", 4, {0x22, 2, 1, 0x12}, LIMIT, RUNFOLD_WRONG_CLOSE, 3, RUNFOLD_WRONG_CLOSE, 3},
    {"an empty repeat", 4, {0x22, 2, 1, 0x21}, LIMIT, RUNFOLD_EMPTY_BODY, 3, RUNFOLD_EMPTY_BODY, 3},
    {"count 1", 6, {0x22, 1, 1, 0x10, 1, 0x21}, LIMIT, RUNFOLD_SMALL_COUNT, 0, RUNFOLD_SMALL_COUNT, 0},
    {"over the limit", 8, {0x22, 2, 2, 0x10, 1, 0x10, 1, 0x21}, 1, RUNFOLD_WIDE, 0, RUNFOLD_OK, 0},
    {"an eleventh 22", 35, {FIVE, FIVE, 0x22, 2, 1, 0x10, 1}, LIMIT, RUNFOLD_DEEP, 30, RUNFOLD_DEEP, 30},
    {"a false width", 6, {0x22, 2, 2, 0x10, 1, 0x21}, LIMIT, RUNFOLD_FALSE_WIDTH, 5, RUNFOLD_FALSE_WIDTH, 5},
    {"1,275 nodes", 14, {0x22, 255, 5, 0x10, 1, 0x10, 1, 0x10, 1, 0x10, 1, 0x10, 1, 0x21}, LIMIT,
     RUNFOLD_MANY_NODES, 13, RUNFOLD_MANY_NODES, 13},
    {"a width over every limit", 8, {0x20, 0, 2, 4, 1, 0x10, 1, 0x21}, LIMIT, RUNFOLD_WIDE, 0, RUNFOLD_FALSE_WIDTH, 7},
    {"a marked step", 6, {0x22, 2, 1, 0x10, 7, 0x21}, LIMIT, RUNFOLD_MARKED_IN_REPEAT, 3, RUNFOLD_OK, 0},
    {"a 20 for a 22", 8, {0x20, 0, 2, 0, 1, 0x10, 7, 0x21}, LIMIT, RUNFOLD_LONG_IN_SHORT, 0, RUNFOLD_LONG_IN_SHORT, 0},
    {"a 20 in a 22", 12, {0x22, 2, 2, 0x20, 0, 2, 0, 1, 0x10, 1, 0x21, 0x21}, LIMIT,
     RUNFOLD_LONG_IN_SHORT, 3, RUNFOLD_LONG_IN_SHORT, 3},
    /* 6 and 7 go before 20, and 20 before 8. */
    {"a 20 for a 22, count 1", 8, {0x20, 0, 1, 0, 1, 0x10, 1, 0x21}, LIMIT, RUNFOLD_SMALL_COUNT, 0, RUNFOLD_SMALL_COUNT, 0},
    {"a 20 for a 22, over the limit", 10, {0x20, 0, 2, 0, 2, 0x10, 1, 0x10, 1, 0x21}, 1,
     RUNFOLD_WIDE, 0, RUNFOLD_LONG_IN_SHORT, 0},
    {"an eleventh, a 20 for a 22", 37, {FIVE, FIVE, 0x20, 0, 2, 0, 1, 0x10, 1}, LIMIT, RUNFOLD_LONG_IN_SHORT, 30,
     RUNFOLD_LONG_IN_SHORT, 30},
    {"an eleventh, a 20 of count 256", 37, {FIVE, FIVE, 0x20, 1, 0, 0, 1, 0x10, 1}, LIMIT, RUNFOLD_DEEP, 30, RUNFOLD_DEEP, 30},
};
enum { REFUSALS = sizeof refusals / sizeof refusals[0] };

typedef uint8_t conversion(const uint8_t *fold, size_t fold_len, uint8_t *out, size_t out_len, uint64_t *answer,
                           size_t answer_len);

static uint16_t ones[256];
static uint8_t marks[256];
static uint32_t costs[RUNFOLD_WORK(NODES)], choices[RUNFOLD_WORK(NODES)];
static uint8_t out[RUNFOLD_MAX_RUN];

/* The entries of both work slices that a run of so many nodes needs are 0, and the next ones are not written. */
static void expect_cleared(const char *name, size_t nodes)
{
    const size_t needed = RUNFOLD_WORK(nodes);
    int right = costs[needed] == UNWRITTEN && choices[needed] == UNWRITTEN;

    for (size_t i = 0; i < needed; i++)
        right = right && costs[i] == 0 && choices[i] == 0;
    if (!right)
        fail(name, "work of the short folder");
}

static unsigned read_fold(const uint8_t *fold, size_t len, size_t limit)
{
    return runfold_read_fold(fold, len, limit, ones, 256, ones, 256, marks, 256, 1, 0, answer, ALL);
}

static unsigned read_short(const uint8_t *fold, size_t len, size_t limit)
{
    return runfold_read_short(fold, len, limit, ones, 256, ones, 256, marks, 256, 1, 0, answer, ALL);
}

static unsigned fold_short(const uint8_t *run, size_t len, size_t out_len)
{
    for (size_t i = 0; i < RUNFOLD_WORK(NODES); i++)
        costs[i] = choices[i] = UNWRITTEN;
    return runfold_fold_short(run, len, LIMIT, ones, 256, ones, 256, marks, 256, 1, 0, costs, RUNFOLD_WORK(NODES), choices,
                              RUNFOLD_WORK(NODES), out, out_len, answer, ALL);
}

/* A conversion with an output just long enough, a longer one, and one that is a byte too short. */
static void converts(const char *name, const char *function, conversion *convert, const uint8_t *from, size_t from_len,
                     const uint8_t *to, size_t to_len)
{
    const uint64_t written[ALL] = {0, 0, 0, to_len}, too_short[ALL] = {RUNFOLD_OUTPUT_SIZE};

    for (size_t more = 0; more <= 5; more += 5) {
        memset(out, UNWRITTEN, sizeof out);
        expect(name, function, convert(from, from_len, out, to_len + more, answer, ALL), written);
        expect_bytes(name, function, out, sizeof out, to, to_len);
    }
    if (to_len > 0) {
        memset(out, UNWRITTEN, sizeof out);
        expect(name, function, convert(from, from_len, out, to_len - 1, answer, ALL), too_short);
        expect_bytes(name, function, out, sizeof out, to, 0);
    }
}

static void both_ways(const char *name, const uint8_t *fold, size_t fold_len, const uint8_t *brief, size_t brief_len)
{
    converts(name, "to the short form", runfold_to_short, fold, fold_len, brief, brief_len);
    converts(name, "to the fold", runfold_to_long, brief, brief_len, fold, fold_len);
}

/* The run of a fold is folded to the short form, where there is just room for that and not where a byte is missing. */
static void folds(const struct form *f)
{
    const uint64_t written[ALL] = {0, 0, 0, f->brief_len, f->answer[RUNFOLD_COST]}, too_short[ALL] = {RUNFOLD_OUTPUT_SIZE};
    uint8_t run[RUNFOLD_MAX_RUN];
    size_t len;

    runfold_unroll(f->fold, f->fold_len, LIMIT, run, sizeof run, answer, ALL);
    len = (size_t)answer[RUNFOLD_LENGTH];
    memset(out, UNWRITTEN, sizeof out);
    expect(f->name, "short folder", fold_short(run, len, f->brief_len), written);
    expect_bytes(f->name, "short folder", out, sizeof out, f->brief, f->brief_len);
    expect_cleared(f->name, (size_t)f->answer[RUNFOLD_NODES]);
    if (f->brief_len > 0) {
        memset(out, UNWRITTEN, sizeof out);
        expect(f->name, "short folder, a byte too short", fold_short(run, len, f->brief_len - 1), too_short);
        expect_bytes(f->name, "short folder, a byte too short", out, sizeof out, f->brief, 0);
        expect_cleared(f->name, (size_t)f->answer[RUNFOLD_NODES]);
    }
}

/* So many steps twice: a repeat of that width, opened by a 22 of 3 bytes or a 20 of 5. */
static void width(const char *name, size_t steps, const uint8_t *open, size_t open_len)
{
    uint8_t fold[ROOM] = {0x20, 0, 2, (uint8_t)(steps / 256), (uint8_t)(steps % 256)}, brief[ROOM];
    size_t fold_len = 5, brief_len = open_len;

    memcpy(brief, open, open_len);
    for (size_t i = 0; i < 2 * steps; i++)
        fold[fold_len++] = brief[brief_len++] = i % 2 == 0 ? 0x10 : 1;
    fold[fold_len++] = brief[brief_len++] = 0x21;
    both_ways(name, fold, fold_len, brief, brief_len);
    if (read_short(brief, brief_len, steps) != RUNFOLD_OK || answer[RUNFOLD_NODES] != 2 * steps)
        fail(name, "short reader");
    if (read_short(brief, brief_len, steps - 1) != RUNFOLD_WIDE || answer[RUNFOLD_PLACE] != 0)
        fail(name, "short reader, over the limit");
}

static void refuses(const struct refused *r)
{
    const uint64_t read[ALL] = {r->refusal, r->place}, converted[ALL] = {r->converted, r->converted_place};

    expect(r->name, "short reader", read_short(r->bytes, r->len, r->limit), read);
    if (r->converted == RUNFOLD_OK)
        return;
    memset(out, UNWRITTEN, sizeof out);
    expect(r->name, "to the fold", runfold_to_long(r->bytes, r->len, out, sizeof out, answer, ALL), converted);
    expect_bytes(r->name, "to the fold", out, sizeof out, r->bytes, 0);
}

/* Every function that takes a run or a fold refuses a 22 by 1. */
static void unknown(const uint8_t *bytes, size_t len, uint64_t place)
{
    const uint64_t wanted[ALL] = {RUNFOLD_UNKNOWN_COMMAND, place};
    uint32_t offsets[1] = {0}, before[1] = {0};
    uint8_t result;

    expect("a 22", "run reader", runfold_read_run(bytes, len, answer, ALL), wanted);
    expect("a 22", "fold reader", read_fold(bytes, len, LIMIT), wanted);
    expect("a 22", "unroller", runfold_unroll(bytes, len, LIMIT, out, sizeof out, answer, ALL), wanted);
    result = runfold_fold(bytes, len, LIMIT, ones, 256, ones, 256, marks, 256, 1, 0, costs, RUNFOLD_WORK(NODES), choices,
                          RUNFOLD_WORK(NODES), out, sizeof out, answer, ALL);
    expect("a 22", "folder", result, wanted);
    expect("a 22", "short folder", fold_short(bytes, len, sizeof out), wanted);
    expect("a 22", "index builder", runfold_index(bytes, len, offsets, 1, before, 1, answer, ALL), wanted);
    expect("a 22", "finder", runfold_find(bytes, len, offsets, 1, before, 1, 0, answer, ALL), wanted);
    expect("a 22", "to the short form", runfold_to_short(bytes, len, out, sizeof out, answer, ALL), wanted);
    if (runfold_part(bytes, len, 0) != 0)
        fail("a 22", "part of a node");
}

int main(void)
{
    const uint8_t brief[] = {0x10, 1, 0x22, 3, 1, 0x10, 1, 0x21}, wide_22[] = {0x22, 2, 255}, wide_20[] = {0x20, 0, 2, 1, 0};

    for (int label = 0; label < 256; label++)
        ones[label] = 1;

    for (const struct form *f = forms; f < forms + FORMS; f++) {
        expect(f->name, "fold reader", read_fold(f->fold, f->fold_len, LIMIT), f->answer);
        expect(f->name, "short reader", read_short(f->brief, f->brief_len, LIMIT), f->answer);
        both_ways(f->name, f->fold, f->fold_len, f->brief, f->brief_len);
        if (f->cheapest)
            folds(f);
    }
    width("a width of 255", 255, wide_22, sizeof wide_22);
    width("a width of 256", 256, wide_20, sizeof wide_20);

    unknown(brief + 2, 6, 0);
    unknown(brief, 8, 2);
    /* Also where it is cut off. */
    unknown(brief, 4, 2);

    marks[7] = 1;
    for (const struct refused *r = refusals; r < refusals + REFUSALS; r++)
        refuses(r);
    return failures > 0;
}
