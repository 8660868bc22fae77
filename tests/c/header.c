/* The header alone, in C and in C++ with the warnings of scripts/c.sh: its constants, also as sizes of arrays, and its text
 * function, for a call's result and for an answer's entry. It is compiled, not run. */
#include "runfold.h"

/* Does not compile where the condition is false; C99 has no assertion of its own. */
#define HOLDS(name, condition) typedef char name[(condition) ? 1 : -1]

HOLDS(version, RUNFOLD_VERSION_MAJOR + RUNFOLD_VERSION_MINOR + RUNFOLD_VERSION_PATCH > 0 && sizeof RUNFOLD_VERSION >= 6);
HOLDS(limits, RUNFOLD_MAX_NODES == 1024 && RUNFOLD_MAX_GROUPS == 8 && RUNFOLD_MAX_REPEATS == 10 && RUNFOLD_MAX_WIDTH == 1024);
HOLDS(season, RUNFOLD_SEASON_NODES == 65535 && RUNFOLD_SEASON_WIDTH == 32);
HOLDS(work, RUNFOLD_WORK(0) == 0 && RUNFOLD_WORK(3) == 6 && RUNFOLD_WORK(RUNFOLD_MAX_NODES) == 524800);
HOLDS(season_work, RUNFOLD_SEASON_WORK(0) == 256 && RUNFOLD_SEASON_WORK(3) == 1024 &&
      RUNFOLD_SEASON_WORK(RUNFOLD_SEASON_NODES) == 16777216);
HOLDS(room, RUNFOLD_ROOM(0) == 0 && RUNFOLD_ROOM(3) == 12 && RUNFOLD_ROOM(RUNFOLD_MAX_NODES) == 4096);
HOLDS(grouped, RUNFOLD_WORK(1 + 2) == 6 && 12 / RUNFOLD_WORK(3) == 2 && RUNFOLD_ROOM(1 + 2) == 12 && 24 / RUNFOLD_ROOM(3) == 2);
HOLDS(season_grouped, RUNFOLD_SEASON_WORK(1 + 2) == 1024 && 2048 / RUNFOLD_SEASON_WORK(3) == 2);
HOLDS(sizes, sizeof RUNFOLD_WORK(3) == sizeof(size_t) && sizeof RUNFOLD_ROOM(3) == sizeof(size_t) &&
      sizeof RUNFOLD_SEASON_WORK(3) == sizeof(size_t));
/* A step has 2 bytes, a group 3. */
HOLDS(longest, RUNFOLD_MAX_RUN == 3 * RUNFOLD_MAX_NODES && RUNFOLD_SEASON_RUN == 2 * RUNFOLD_SEASON_NODES);
/* Whole pages, as scripts/stack.sh needs it. */
HOLDS(stack, RUNFOLD_STACK > 0 && RUNFOLD_STACK % 4096 == 0);
HOLDS(entries, RUNFOLD_REFUSAL == 0 && RUNFOLD_PLACE == 1 && RUNFOLD_NODES == 2 && RUNFOLD_LENGTH == 3 &&
      RUNFOLD_COST == 4 && RUNFOLD_STEPS == 5 && RUNFOLD_DEPTH == 6 && RUNFOLD_ENTRIES == 7);
HOLDS(found, RUNFOLD_INDEXED == 2 && RUNFOLD_LABEL == 2 && RUNFOLD_COMMAND == 3 && RUNFOLD_OFFSET == 4);
HOLDS(refusals, RUNFOLD_OK == 0 && RUNFOLD_UNKNOWN_COMMAND == 1 && RUNFOLD_REPEAT_IN_RUN == 2 && RUNFOLD_UNFINISHED == 3 &&
      RUNFOLD_WRONG_CLOSE == 4 && RUNFOLD_EMPTY_BODY == 5 && RUNFOLD_SMALL_COUNT == 6 && RUNFOLD_WIDE == 7 &&
      RUNFOLD_DEEP == 8 && RUNFOLD_FALSE_WIDTH == 9 && RUNFOLD_MANY_NODES == 10 && RUNFOLD_STEP_TABLE_SIZE == 11 &&
      RUNFOLD_LIMIT_SIZE == 12 && RUNFOLD_WORK_SIZE == 13 && RUNFOLD_OUTPUT_SIZE == 14 && RUNFOLD_GROUP_TABLE_SIZE == 15 &&
      RUNFOLD_PAST_END == 16 && RUNFOLD_FALSE_INDEX == 17 && RUNFOLD_WRONG_MARKS == 18 && RUNFOLD_MARKED_IN_REPEAT == 19 &&
      RUNFOLD_LONG_IN_SHORT == 20 && RUNFOLD_GROUP_IN_SEASON == 21 && RUNFOLD_SHORT == 255);

const char *fold_small(const uint8_t *run, size_t run_len, const uint16_t *steps, const uint16_t *groups, const uint8_t *marks);

const char *fold_small(const uint8_t *run, size_t run_len, const uint16_t *steps, const uint16_t *groups, const uint8_t *marks)
{
    uint32_t costs[RUNFOLD_WORK(3)];
    uint32_t choices[RUNFOLD_WORK(3)];
    uint8_t out[RUNFOLD_ROOM(3)];
    uint64_t answer[RUNFOLD_ENTRIES];
    uint8_t result = runfold_fold(run, run_len, RUNFOLD_MAX_WIDTH, steps, 256, groups, 256, marks, 256, 1, 0, costs,
                                  RUNFOLD_WORK(3), choices, RUNFOLD_WORK(3), out, sizeof out, answer, RUNFOLD_ENTRIES);

    if (result == RUNFOLD_SHORT)
        return runfold_refusal_text(result);
    return runfold_refusal_text(answer[RUNFOLD_REFUSAL]);
}

uint64_t find_first(const uint8_t *fold, size_t fold_len);

uint64_t find_first(const uint8_t *fold, size_t fold_len)
{
    uint32_t offsets[RUNFOLD_MAX_NODES], before[RUNFOLD_MAX_NODES];
    uint64_t answer[RUNFOLD_ENTRIES];
    size_t indexed;

    runfold_index(fold, fold_len, offsets, RUNFOLD_MAX_NODES, before, RUNFOLD_MAX_NODES, answer, RUNFOLD_ENTRIES);
    indexed = RUNFOLD_SIZE(answer[RUNFOLD_INDEXED]);
    runfold_find(fold, fold_len, offsets, indexed, before, indexed, 0, answer, RUNFOLD_ENTRIES);
    return answer[RUNFOLD_OFFSET];
}

uint64_t there_and_back(const uint8_t *fold, size_t fold_len);

uint64_t there_and_back(const uint8_t *fold, size_t fold_len)
{
    uint8_t short_form[RUNFOLD_ROOM(RUNFOLD_MAX_NODES)], back[RUNFOLD_ROOM(RUNFOLD_MAX_NODES)];
    uint64_t answer[RUNFOLD_ENTRIES];

    runfold_to_short(fold, fold_len, short_form, sizeof short_form, answer, RUNFOLD_ENTRIES);
    runfold_to_long(short_form, RUNFOLD_SIZE(answer[RUNFOLD_LENGTH]), back, sizeof back, answer, RUNFOLD_ENTRIES);
    return answer[RUNFOLD_LENGTH];
}

uint64_t fold_season(const uint8_t *run, size_t run_len, const uint16_t *steps, const uint8_t *marks);

uint64_t fold_season(const uint8_t *run, size_t run_len, const uint16_t *steps, const uint8_t *marks)
{
    static uint32_t lent[RUNFOLD_SEASON_WORK(RUNFOLD_SEASON_NODES)];
    static uint8_t out[RUNFOLD_ROOM(RUNFOLD_SEASON_NODES)], back[RUNFOLD_SEASON_RUN];
    uint64_t answer[RUNFOLD_ENTRIES];
    size_t length;

    if (runfold_read_season_run(run, run_len, answer, RUNFOLD_ENTRIES) != RUNFOLD_OK)
        return answer[RUNFOLD_PLACE];
    runfold_fold_season(run, run_len, RUNFOLD_SEASON_WIDTH, steps, 256, steps, 256, marks, 256, 1, 0, lent,
                        RUNFOLD_SEASON_WORK(answer[RUNFOLD_NODES]), out, sizeof out, answer, RUNFOLD_ENTRIES);
    length = RUNFOLD_SIZE(answer[RUNFOLD_LENGTH]);
    runfold_unroll_season(out, length, RUNFOLD_SEASON_WIDTH, back, sizeof back, answer, RUNFOLD_ENTRIES);
    runfold_read_season(out, length, RUNFOLD_SEASON_WIDTH, steps, 256, steps, 256, marks, 256, 1, 0, answer, RUNFOLD_ENTRIES);
    return answer[RUNFOLD_COST];
}
