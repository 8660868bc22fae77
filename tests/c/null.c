/* Null pointers: a slice of 0 entries may have one. Each function is called with such slices, first at spare memory, which must
 * stay as it is, and then at null. Both times the answer must be the one of docs/REFUSALS.md, worked out by hand. */
#include "runfold.h"

#include <stdio.h>
#include <string.h>

enum { LIMIT = RUNFOLD_MAX_WIDTH, SEASON = RUNFOLD_SEASON_WIDTH, ALL = RUNFOLD_ENTRIES, UNWRITTEN = 9 };

static uint64_t answer[ALL];
static int failures;

/* Compares a call's result, and the answer: the refusal and zeros, for in all cases here the place is 0 and what is read
 * without a refusal is empty; or, where the answer is too short, nothing written. */
static void expect(const char *function, const char *call, const char *where, unsigned result, unsigned wanted)
{
    int written = wanted != RUNFOLD_SHORT;
    int right = result == wanted;

    for (int i = 0; i < ALL; i++) {
        right = right && answer[i] == (!written ? UNWRITTEN : i == RUNFOLD_REFUSAL ? wanted : 0);
        answer[i] = UNWRITTEN;
    }
    if (!right) {
        printf("%s %s at %s: %u, not %u, or another answer\n", function, call, where, result, wanted);
        failures++;
    }
}

#define EXPECT(wanted, call) expect("", #call, where, call, wanted)
/* The same of a function that goes by another name in the call. */
#define EXPECT_OF(wanted, call) expect(function, #call, where, call, wanted)

/* The readers of folds take the same and answer the same here, but for the highest limit; so do both unrollers; and so do the
 * first two folders, and both conversions. */
typedef uint8_t reader(const uint8_t *fold, size_t fold_len, size_t limit, const uint16_t *steps, size_t steps_len,
                       const uint16_t *groups, size_t groups_len, const uint8_t *marks, size_t marks_len, uint16_t first,
                       uint16_t each, uint64_t *answer, size_t answer_len);
typedef uint8_t unroller(const uint8_t *fold, size_t fold_len, size_t limit, uint8_t *out, size_t out_len, uint64_t *answer,
                         size_t answer_len);
typedef uint8_t folder(const uint8_t *run, size_t run_len, size_t limit, const uint16_t *steps, size_t steps_len,
                       const uint16_t *groups, size_t groups_len, const uint8_t *marks, size_t marks_len, uint16_t first,
                       uint16_t each, uint32_t *costs, size_t costs_len, uint32_t *choices, size_t choices_len, uint8_t *out,
                       size_t out_len, uint64_t *answer, size_t answer_len);
typedef uint8_t conversion(const uint8_t *fold, size_t fold_len, uint8_t *out, size_t out_len, uint64_t *answer,
                           size_t answer_len);

static const uint8_t step[] = {0x10, 0x07}, marks[256];
static const uint16_t table[256];

static void reads(const char *function, reader *read, size_t limit, const char *where, uint8_t *b, uint16_t *t, uint64_t *a)
{
    EXPECT_OF(RUNFOLD_OK, read(b, 0, limit, table, 256, table, 256, marks, 256, 1, 0, answer, ALL));
    EXPECT_OF(RUNFOLD_STEP_TABLE_SIZE, read(step, 2, limit, t, 0, table, 256, marks, 256, 1, 0, answer, ALL));
    EXPECT_OF(RUNFOLD_STEP_TABLE_SIZE, read(b, 0, limit, t, 0, t, 0, b, 0, 1, 0, answer, ALL));
    EXPECT_OF(RUNFOLD_GROUP_TABLE_SIZE, read(step, 2, limit, table, 256, t, 0, marks, 256, 1, 0, answer, ALL));
    EXPECT_OF(RUNFOLD_GROUP_TABLE_SIZE, read(b, 0, limit + 1, table, 256, t, 0, b, 0, 1, 0, answer, ALL));
    EXPECT_OF(RUNFOLD_LIMIT_SIZE, read(b, 0, limit + 1, table, 256, table, 256, b, 0, 1, 0, answer, ALL));
    EXPECT_OF(RUNFOLD_WRONG_MARKS, read(step, 2, limit, table, 256, table, 256, b, 0, 1, 0, answer, ALL));
    EXPECT_OF(RUNFOLD_WRONG_MARKS, read(b, 0, limit, table, 256, table, 256, b, 0, 1, 0, answer, ALL));
    EXPECT_OF(RUNFOLD_SHORT, read(step, 2, limit, table, 256, table, 256, marks, 256, 1, 0, a, 0));
    EXPECT_OF(RUNFOLD_SHORT, read(b, 0, limit, t, 0, t, 0, b, 0, 1, 0, a, 0));
}

static void folds(const char *function, folder *fold, const char *where, uint8_t *b, uint16_t *t, uint32_t *w, uint64_t *a)
{
    uint32_t costs[1], choices[1];
    uint8_t out[4];

    EXPECT_OF(RUNFOLD_OK,
              fold(b, 0, LIMIT, table, 256, table, 256, marks, 256, 1, 0, costs, 1, choices, 1, out, 4, answer, ALL));
    EXPECT_OF(RUNFOLD_OK, fold(b, 0, LIMIT, table, 256, table, 256, marks, 256, 1, 0, w, 0, w, 0, b, 0, answer, ALL));
    EXPECT_OF(RUNFOLD_STEP_TABLE_SIZE,
              fold(step, 2, LIMIT, t, 0, table, 256, marks, 256, 1, 0, costs, 1, choices, 1, out, 4, answer, ALL));
    EXPECT_OF(RUNFOLD_STEP_TABLE_SIZE, fold(b, 0, LIMIT, t, 0, t, 0, b, 0, 1, 0, w, 0, w, 0, b, 0, answer, ALL));
    EXPECT_OF(RUNFOLD_GROUP_TABLE_SIZE,
              fold(step, 2, LIMIT, table, 256, t, 0, marks, 256, 1, 0, costs, 1, choices, 1, out, 4, answer, ALL));
    EXPECT_OF(RUNFOLD_GROUP_TABLE_SIZE, fold(b, 0, LIMIT + 1, table, 256, t, 0, b, 0, 1, 0, w, 0, w, 0, b, 0, answer, ALL));
    EXPECT_OF(RUNFOLD_LIMIT_SIZE, fold(b, 0, LIMIT + 1, table, 256, table, 256, b, 0, 1, 0, w, 0, w, 0, b, 0, answer, ALL));
    EXPECT_OF(RUNFOLD_WRONG_MARKS,
              fold(step, 2, LIMIT, table, 256, table, 256, b, 0, 1, 0, costs, 1, choices, 1, out, 4, answer, ALL));
    EXPECT_OF(RUNFOLD_WRONG_MARKS, fold(b, 0, LIMIT, table, 256, table, 256, b, 0, 1, 0, w, 0, w, 0, b, 0, answer, ALL));
    EXPECT_OF(RUNFOLD_WORK_SIZE,
              fold(step, 2, LIMIT, table, 256, table, 256, marks, 256, 1, 0, w, 0, choices, 1, out, 4, answer, ALL));
    EXPECT_OF(RUNFOLD_WORK_SIZE,
              fold(step, 2, LIMIT, table, 256, table, 256, marks, 256, 1, 0, costs, 1, w, 0, out, 4, answer, ALL));
    EXPECT_OF(RUNFOLD_WORK_SIZE,
              fold(step, 2, LIMIT, table, 256, table, 256, marks, 256, 1, 0, w, 0, w, 0, b, 0, answer, ALL));
    EXPECT_OF(RUNFOLD_OUTPUT_SIZE,
              fold(step, 2, LIMIT, table, 256, table, 256, marks, 256, 1, 0, costs, 1, choices, 1, b, 0, answer, ALL));
    EXPECT_OF(RUNFOLD_SHORT,
              fold(step, 2, LIMIT, table, 256, table, 256, marks, 256, 1, 0, costs, 1, choices, 1, out, 4, a, 0));
    EXPECT_OF(RUNFOLD_SHORT, fold(b, 0, LIMIT, t, 0, t, 0, b, 0, 1, 0, w, 0, w, 0, b, 0, a, 0));
}

/* The season folder's work has 256 entries even where there is nothing to fold. */
static void folds_season(const char *where, uint8_t *b, uint16_t *t, uint32_t *w, uint64_t *a)
{
    uint32_t work[RUNFOLD_SEASON_WORK(1)];
    uint8_t out[4];

    EXPECT(RUNFOLD_OK,
           runfold_fold_season(b, 0, SEASON, table, 256, table, 256, marks, 256, 1, 0, work, 256, out, 4, answer, ALL));
    EXPECT(RUNFOLD_OK,
           runfold_fold_season(b, 0, SEASON, table, 256, table, 256, marks, 256, 1, 0, work, 256, b, 0, answer, ALL));
    EXPECT(RUNFOLD_STEP_TABLE_SIZE,
           runfold_fold_season(step, 2, SEASON, t, 0, table, 256, marks, 256, 1, 0, work, 512, out, 4, answer, ALL));
    EXPECT(RUNFOLD_STEP_TABLE_SIZE, runfold_fold_season(b, 0, SEASON, t, 0, t, 0, b, 0, 1, 0, w, 0, b, 0, answer, ALL));
    EXPECT(RUNFOLD_GROUP_TABLE_SIZE,
           runfold_fold_season(step, 2, SEASON, table, 256, t, 0, marks, 256, 1, 0, work, 512, out, 4, answer, ALL));
    EXPECT(RUNFOLD_GROUP_TABLE_SIZE,
           runfold_fold_season(b, 0, SEASON + 1, table, 256, t, 0, b, 0, 1, 0, w, 0, b, 0, answer, ALL));
    EXPECT(RUNFOLD_LIMIT_SIZE,
           runfold_fold_season(b, 0, SEASON + 1, table, 256, table, 256, b, 0, 1, 0, w, 0, b, 0, answer, ALL));
    EXPECT(RUNFOLD_WRONG_MARKS,
           runfold_fold_season(step, 2, SEASON, table, 256, table, 256, b, 0, 1, 0, work, 512, out, 4, answer, ALL));
    EXPECT(RUNFOLD_WRONG_MARKS, runfold_fold_season(b, 0, SEASON, table, 256, table, 256, b, 0, 1, 0, w, 0, b, 0, answer, ALL));
    EXPECT(RUNFOLD_WORK_SIZE,
           runfold_fold_season(step, 2, SEASON, table, 256, table, 256, marks, 256, 1, 0, w, 0, out, 4, answer, ALL));
    EXPECT(RUNFOLD_WORK_SIZE,
           runfold_fold_season(step, 2, SEASON, table, 256, table, 256, marks, 256, 1, 0, w, 0, b, 0, answer, ALL));
    EXPECT(RUNFOLD_WORK_SIZE,
           runfold_fold_season(b, 0, SEASON, table, 256, table, 256, marks, 256, 1, 0, w, 0, b, 0, answer, ALL));
    EXPECT(RUNFOLD_OUTPUT_SIZE,
           runfold_fold_season(step, 2, SEASON, table, 256, table, 256, marks, 256, 1, 0, work, 512, b, 0, answer, ALL));
    EXPECT(RUNFOLD_SHORT,
           runfold_fold_season(step, 2, SEASON, table, 256, table, 256, marks, 256, 1, 0, work, 512, out, 4, a, 0));
    EXPECT(RUNFOLD_SHORT, runfold_fold_season(b, 0, SEASON, t, 0, t, 0, b, 0, 1, 0, w, 0, b, 0, a, 0));
}

static void unrolls(const char *function, unroller *unroll, size_t limit, const char *where, uint8_t *b, uint64_t *a)
{
    uint8_t out[4];

    EXPECT_OF(RUNFOLD_OK, unroll(b, 0, limit, out, 4, answer, ALL));
    EXPECT_OF(RUNFOLD_OK, unroll(b, 0, limit, b, 0, answer, ALL));
    EXPECT_OF(RUNFOLD_OUTPUT_SIZE, unroll(step, 2, limit, b, 0, answer, ALL));
    EXPECT_OF(RUNFOLD_LIMIT_SIZE, unroll(b, 0, limit + 1, b, 0, answer, ALL));
    EXPECT_OF(RUNFOLD_SHORT, unroll(step, 2, limit, out, 4, a, 0));
    EXPECT_OF(RUNFOLD_SHORT, unroll(b, 0, limit, b, 0, a, 0));
}

static void converts(const char *function, conversion *convert, const char *where, uint8_t *b, uint64_t *a)
{
    uint8_t out[4];

    EXPECT_OF(RUNFOLD_OK, convert(b, 0, out, 4, answer, ALL));
    EXPECT_OF(RUNFOLD_OK, convert(b, 0, b, 0, answer, ALL));
    EXPECT_OF(RUNFOLD_OUTPUT_SIZE, convert(step, 2, b, 0, answer, ALL));
    EXPECT_OF(RUNFOLD_SHORT, convert(step, 2, out, 4, a, 0));
    EXPECT_OF(RUNFOLD_SHORT, convert(b, 0, b, 0, a, 0));
}

/* All calls, with the empty slices of bytes or marks, cost tables, work or index, and answers at these pointers. */
static void calls(const char *where, uint8_t *b, uint16_t *t, uint32_t *w, uint64_t *a)
{
    uint32_t offsets[1] = {0}, before[1] = {0};

    EXPECT(RUNFOLD_OK, runfold_read_run(b, 0, answer, ALL));
    EXPECT(RUNFOLD_SHORT, runfold_read_run(step, 2, a, 0));
    EXPECT(RUNFOLD_SHORT, runfold_read_run(b, 0, a, 0));

    if (runfold_part(b, 0, 0) != 0 || runfold_part(b, 0, 1) != 0 || runfold_part(b, 0, SIZE_MAX) != 0) {
        printf("runfold_part at %s: not 0\n", where);
        failures++;
    }

    EXPECT(RUNFOLD_OK, runfold_read_season_run(b, 0, answer, ALL));
    EXPECT(RUNFOLD_SHORT, runfold_read_season_run(step, 2, a, 0));
    EXPECT(RUNFOLD_SHORT, runfold_read_season_run(b, 0, a, 0));

    reads("runfold_read_fold", runfold_read_fold, LIMIT, where, b, t, a);
    reads("runfold_read_short", runfold_read_short, LIMIT, where, b, t, a);
    reads("runfold_read_season", runfold_read_season, SEASON, where, b, t, a);

    unrolls("runfold_unroll", runfold_unroll, LIMIT, where, b, a);
    unrolls("runfold_unroll_season", runfold_unroll_season, SEASON, where, b, a);

    folds("runfold_fold", runfold_fold, where, b, t, w, a);
    folds("runfold_fold_short", runfold_fold_short, where, b, t, w, a);
    folds_season(where, b, t, w, a);

    EXPECT(RUNFOLD_OK, runfold_index(b, 0, offsets, 1, before, 1, answer, ALL));
    EXPECT(RUNFOLD_OK, runfold_index(b, 0, w, 0, w, 0, answer, ALL));
    EXPECT(RUNFOLD_OUTPUT_SIZE, runfold_index(step, 2, w, 0, before, 1, answer, ALL));
    EXPECT(RUNFOLD_OUTPUT_SIZE, runfold_index(step, 2, offsets, 1, w, 0, answer, ALL));
    EXPECT(RUNFOLD_OUTPUT_SIZE, runfold_index(step, 2, w, 0, w, 0, answer, ALL));
    EXPECT(RUNFOLD_SHORT, runfold_index(step, 2, offsets, 1, before, 1, a, 0));
    EXPECT(RUNFOLD_SHORT, runfold_index(b, 0, w, 0, w, 0, a, 0));

    EXPECT(RUNFOLD_PAST_END, runfold_find(b, 0, w, 0, w, 0, 0, answer, ALL));
    EXPECT(RUNFOLD_FALSE_INDEX, runfold_find(b, 0, offsets, 1, w, 0, 0, answer, ALL));
    EXPECT(RUNFOLD_FALSE_INDEX, runfold_find(b, 0, w, 0, before, 1, 0, answer, ALL));
    EXPECT(RUNFOLD_FALSE_INDEX, runfold_find(step, 2, w, 0, before, 1, 0, answer, ALL));
    EXPECT(RUNFOLD_FALSE_INDEX, runfold_find(step, 2, offsets, 1, w, 0, 0, answer, ALL));
    EXPECT(RUNFOLD_FALSE_INDEX, runfold_find(step, 2, w, 0, w, 0, 0, answer, ALL));
    EXPECT(RUNFOLD_SHORT, runfold_find(step, 2, offsets, 1, before, 1, 0, a, 0));
    EXPECT(RUNFOLD_SHORT, runfold_find(b, 0, w, 0, w, 0, 0, a, 0));

    converts("runfold_to_short", runfold_to_short, where, b, a);
    converts("runfold_to_long", runfold_to_long, where, b, a);
}

int main(void)
{
    uint64_t spare[64], before[64];
    uint64_t *middle = spare + 32;

    memset(spare, 0xA5, sizeof spare);
    memcpy(before, spare, sizeof spare);
    for (int i = 0; i < ALL; i++)
        answer[i] = UNWRITTEN;
    calls("spare memory", (uint8_t *)middle, (uint16_t *)middle, (uint32_t *)middle, middle);
    if (memcmp(before, spare, sizeof spare) != 0) {
        printf("spare memory was written\n");
        failures++;
    }
    calls("null", NULL, NULL, NULL, NULL);
    return failures > 0;
}
