/* The index builder and the finder from C: the index and every node of a few folds, worked out by hand, and each refusal of the
 * two. Whatever a call has no business to write must be as it was. */
#include "runfold.h"

#include <stdio.h>
#include <string.h>

enum { STEP = 0x10, GROUP = 0x11, MOST = 12, ALL = RUNFOLD_ENTRIES, MARK = 99 };

struct node {
    uint64_t label, command, offset;
};

/* A fold with its index and its nodes, or with its refusal. */
struct sample {
    const char *name;
    size_t len;
    uint8_t fold[28];
    size_t entries;
    uint32_t offsets[3], before[3];
    size_t total;
    struct node nodes[MOST];
    unsigned refusal;
    uint64_t place;
};

static const struct sample samples[] = {
    {.name = "the empty fold"},
    {.name = "labels that look like commands",
     .len = 5, .fold = {0x11, 0x10, 0x10, 0x12, 0x12},
     .entries = 1, .offsets = {0}, .before = {0},
     .total = 2, .nodes = {{0x10, GROUP, 0}, {0x12, STEP, 2}}},
    {.name = "a repeat in a repeat: abbbabbb",
     .len = 16, .fold = {0x20, 0, 2, 0, 4, 0x10, 1, 0x20, 0, 3, 0, 1, 0x10, 2, 0x21, 0x21},
     .entries = 1, .offsets = {0}, .before = {0},
     .total = 8, .nodes = {{1, STEP, 5}, {2, STEP, 12}, {2, STEP, 12}, {2, STEP, 12},
                           {1, STEP, 5}, {2, STEP, 12}, {2, STEP, 12}, {2, STEP, 12}}},
    {.name = "two steps, then a group in a repeat",
     .len = 21, .fold = {0x10, 1, 0x10, 2, 0x20, 0, 2, 0, 1, 0x11, 5, 0x20, 0, 3, 0, 1, 0x10, 3, 0x21, 0x12, 0x21},
     .entries = 3, .offsets = {0, 2, 4}, .before = {0, 1, 2},
     .total = 10, .nodes = {{1, STEP, 0}, {2, STEP, 2}, {5, GROUP, 9}, {3, STEP, 16}, {3, STEP, 16}, {3, STEP, 16},
                            {5, GROUP, 9}, {3, STEP, 16}, {3, STEP, 16}, {3, STEP, 16}}},
    {.name = "a group in a repeat in a group, a step, a repeat",
     .len = 28, .fold = {0x11, 5, 0x10, 1, 0x20, 0, 2, 0, 2, 0x10, 2, 0x11, 6, 0x10, 3, 0x12, 0x21, 0x12,
                         0x10, 4, 0x20, 0, 3, 0, 1, 0x10, 7, 0x21},
     .entries = 3, .offsets = {0, 18, 20}, .before = {0, 8, 9},
     .total = 12, .nodes = {{5, GROUP, 0}, {1, STEP, 2}, {2, STEP, 9}, {6, GROUP, 11}, {3, STEP, 13}, {2, STEP, 9},
                            {6, GROUP, 11}, {3, STEP, 13}, {4, STEP, 18}, {7, STEP, 25}, {7, STEP, 25}, {7, STEP, 25}}},
    {.name = "13", .len = 1, .fold = {0x13}, .refusal = RUNFOLD_UNKNOWN_COMMAND, .place = 0},
    {.name = "an open group", .len = 2, .fold = {0x11, 5}, .refusal = RUNFOLD_UNFINISHED, .place = 2},
    {.name = "a wrong close", .len = 3, .fold = {0x10, 7, 0x12}, .refusal = RUNFOLD_WRONG_CLOSE, .place = 2},
    {.name = "an empty group", .len = 3, .fold = {0x11, 5, 0x12}, .refusal = RUNFOLD_EMPTY_BODY, .place = 2},
    {.name = "count 1", .len = 8, .fold = {0x20, 0, 1, 0, 1, 0x10, 7, 0x21}, .refusal = RUNFOLD_SMALL_COUNT, .place = 0},
    {.name = "nine groups", .len = 18,
     .fold = {0x11, 1, 0x11, 1, 0x11, 1, 0x11, 1, 0x11, 1, 0x11, 1, 0x11, 1, 0x11, 1, 0x11, 1},
     .refusal = RUNFOLD_DEEP, .place = 16},
    {.name = "a false width", .len = 8, .fold = {0x20, 0, 2, 0, 2, 0x10, 7, 0x21}, .refusal = RUNFOLD_FALSE_WIDTH, .place = 7},
    /* There is no width limit here: it is not refused by 7 at its 20, as by the fold reader at any limit. */
    {.name = "width 1,025", .len = 8, .fold = {0x20, 0, 2, 4, 1, 0x10, 7, 0x21}, .refusal = RUNFOLD_FALSE_WIDTH, .place = 7},
    {.name = "1,025 nodes", .len = 8, .fold = {0x20, 4, 1, 0, 1, 0x10, 7, 0x21}, .refusal = RUNFOLD_MANY_NODES, .place = 7},
    {.name = "a false width and 1,025 nodes", .len = 8, .fold = {0x20, 4, 1, 0, 2, 0x10, 7, 0x21},
     .refusal = RUNFOLD_MANY_NODES, .place = 7},
};
enum { SAMPLES = sizeof samples / sizeof samples[0] };

static const struct node none = {0, 0, 0};
static int failures;

static void fail(const struct sample *s, const char *what)
{
    printf("%s, %s\n", s->name, what);
    failures++;
}

/* The result and the answer of a call, with the entry behind: refusal, place, and values of which the last two are 0 for both
 * functions. Where the answer is too short none of it is written. */
static void expect(const struct sample *s, const char *what, unsigned result, const uint64_t *answer, unsigned refusal,
                   struct node values)
{
    const uint64_t place = refusal == s->refusal ? s->place : 0;
    const uint64_t written[ALL + 1] = {refusal, place, values.label, values.command, values.offset, 0, 0, MARK};
    int right = result == refusal;

    for (int i = 0; i <= ALL; i++)
        right = right && answer[i] == (refusal == RUNFOLD_SHORT ? MARK : written[i]);
    if (!right)
        fail(s, what);
}

static void mark(uint64_t *answer)
{
    for (int i = 0; i <= ALL; i++)
        answer[i] = MARK;
}

/* The index builder with slices of so many entries, in marked memory of more. */
static void build(const struct sample *s, const char *what, size_t offsets_len, size_t before_len, size_t answer_len,
                  unsigned refusal)
{
    const size_t entries = refusal == RUNFOLD_OK ? s->entries : 0;
    const struct node values = {entries, 0, 0};
    uint32_t offsets[MOST], before[MOST];
    uint64_t answer[ALL + 1];

    for (int i = 0; i < MOST; i++)
        offsets[i] = before[i] = MARK;
    mark(answer);
    expect(s, what, runfold_index(s->fold, s->len, offsets, offsets_len, before, before_len, answer, answer_len), answer,
           refusal, values);
    for (size_t i = 0; i < MOST; i++)
        if (offsets[i] != (i < entries ? s->offsets[i] : MARK) || before[i] != (i < entries ? s->before[i] : MARK))
            fail(s, what);
}

/* The finder by any index, which stays as it is. */
static void find(const struct sample *s, const char *what, const uint32_t *offsets, size_t offsets_len, const uint32_t *before,
                 size_t before_len, uint64_t position, unsigned refusal, struct node values)
{
    uint32_t o[MOST], b[MOST];
    uint64_t answer[ALL + 1];

    memcpy(o, offsets, sizeof *o * offsets_len);
    memcpy(b, before, sizeof *b * before_len);
    mark(answer);
    expect(s, what,
           runfold_find(s->fold, s->len, o, offsets_len, b, before_len, position, answer,
                        refusal == RUNFOLD_SHORT ? ALL - 1 : ALL),
           answer, refusal, values);
    if (memcmp(o, offsets, sizeof *o * offsets_len) != 0 || memcmp(b, before, sizeof *b * before_len) != 0)
        fail(s, what);
}

/* Slices just long enough, longer, and one too short. */
static void slices(const struct sample *s)
{
    const size_t n = s->entries;

    build(s, "slices long enough", n, n, ALL, RUNFOLD_OK);
    build(s, "longer slices", n + 2, n + 1, ALL, RUNFOLD_OK);
    build(s, "an answer too short", n, n, ALL - 1, RUNFOLD_SHORT);
    if (n == 0)
        return;
    build(s, "offsets too short", n - 1, n, ALL, RUNFOLD_OUTPUT_SIZE);
    build(s, "before too short", n, n - 1, ALL, RUNFOLD_OUTPUT_SIZE);
    build(s, "both too short", 0, 0, ALL, RUNFOLD_OUTPUT_SIZE);
}

/* Every position of a fold, and some that it does not have. */
static void positions(const struct sample *s)
{
    const uint64_t past[] = {s->total, s->total + 1, (uint64_t)1 << 32, UINT64_MAX};

    for (size_t i = 0; i < s->total; i++)
        find(s, "a position", s->offsets, s->entries, s->before, s->entries, i, RUNFOLD_OK, s->nodes[i]);
    for (int i = 0; i < 4; i++)
        find(s, "past the total", s->offsets, s->entries, s->before, s->entries, past[i], RUNFOLD_PAST_END, none);
    find(s, "an answer too short", s->offsets, s->entries, s->before, s->entries, 0, RUNFOLD_SHORT, none);
}

/* An index that is not the fold's: 17 at every position, also where the fold has none. */
static void mismatch(const struct sample *s, const char *what, const uint32_t *offsets, size_t offsets_len,
                     const uint32_t *before, size_t before_len)
{
    for (size_t i = 0; i <= s->total; i++)
        find(s, what, offsets, offsets_len, before, before_len, i, RUNFOLD_FALSE_INDEX, none);
    find(s, what, offsets, offsets_len, before, before_len, UINT64_MAX, RUNFOLD_FALSE_INDEX, none);
}

/* The fold's index with one fault, and the indexes of the folds above it. */
static void other_indexes(const struct sample *s)
{
    const size_t n = s->entries;
    uint32_t offsets[MOST] = {0}, before[MOST] = {0};

    memcpy(offsets, s->offsets, sizeof s->offsets);
    memcpy(before, s->before, sizeof s->before);
    mismatch(s, "offsets one too long", offsets, n + 1, before, n);
    mismatch(s, "before one too long", offsets, n, before, n + 1);
    mismatch(s, "both one too long", offsets, n + 1, before, n + 1);
    if (n > 0) {
        mismatch(s, "offsets one too short", offsets, n - 1, before, n);
        mismatch(s, "before one too short", offsets, n, before, n - 1);
        mismatch(s, "both one too short", offsets, n - 1, before, n - 1);
    }
    for (size_t i = 0; i < n; i++) {
        offsets[i]++;
        mismatch(s, "an offset one too high", offsets, n, before, n);
        offsets[i] -= 2;
        mismatch(s, "an offset one too low", offsets, n, before, n);
        offsets[i]++;
        before[i]++;
        mismatch(s, "a number before one too high", offsets, n, before, n);
        before[i] -= 2;
        mismatch(s, "a number before one too low", offsets, n, before, n);
        before[i]++;
    }
    for (const struct sample *other = samples; other < s; other++)
        /* All folds of one outermost item have the same index. */
        if (other->entries != 1 || n != 1)
            mismatch(s, other->name, other->offsets, other->entries, other->before, other->entries);
}

int main(void)
{
    const uint32_t no_index[] = {1};

    for (const struct sample *s = samples; s < samples + SAMPLES; s++)
        if (s->refusal == RUNFOLD_OK) {
            slices(s);
            positions(s);
            other_indexes(s);
        } else {
            /* The fold's own refusal goes before 14, and before 17 and 16. */
            build(s, "no slices", 0, 0, ALL, s->refusal);
            find(s, "no index", no_index, 1, no_index, 0, UINT64_MAX, s->refusal, none);
        }
    return failures > 0;
}
