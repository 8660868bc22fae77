/* Whole seasons from C, at unit costs: runs of up to 65,535 steps and their folds, what the two readers, the unroller and the
 * folder answer, and their refusals, all worked out by hand. What a call has no business to write must be as it was. Up to
 * 1,024 steps the season folder is also held to runfold_fold. */
#include "expect.h"

enum { LIMIT = RUNFOLD_SEASON_WIDTH, NODES = RUNFOLD_SEASON_NODES, MOST = 64 };

/* A fold and what the season reader answers: refusal, place, nodes, length, cost, steps and depth. */
struct form {
    const char *name;
    size_t len;
    uint8_t fold[MOST];
    uint64_t answer[ALL];
    /* The limit at which it is the cheapest fold of its run. */
    size_t limit;
};

static const struct form forms[] = {
    {.name = "the empty fold", .limit = LIMIT},
    {"a", 2, {0x10, 1}, {0, 0, 1, 2, 1, 1, 0}, LIMIT},
    {"aa, a tie", 4, {0x10, 1, 0x10, 1}, {0, 0, 2, 4, 2, 2, 0}, LIMIT},
    {"aaa", 8, {0x20, 0, 3, 0, 1, 0x10, 1, 0x21}, {0, 0, 3, 6, 2, 3, 0}, LIMIT},
    {"aaa, limit 1", 8, {0x20, 0, 3, 0, 1, 0x10, 1, 0x21}, {0, 0, 3, 6, 2, 3, 0}, 1},
    {"aaa, limit 0", 6, {0x10, 1, 0x10, 1, 0x10, 1}, {0, 0, 3, 6, 3, 3, 0}, 0},
    {"labels as commands", 6, {0x10, 0x11, 0x10, 0x20, 0x10, 0x21}, {0, 0, 3, 6, 3, 3, 0}, LIMIT},
    {"1,025 steps, more than other runs have", 8, {0x20, 4, 1, 0, 1, 0x10, 1, 0x21}, {0, 0, 1025, 2050, 2, 1025, 0}, LIMIT},
    {"65,535 steps", 8, {0x20, 0xFF, 0xFF, 0, 1, 0x10, 1, 0x21}, {0, 0, NODES, 2 * NODES, 2, NODES, 0}, LIMIT},
    /* Of those for 4 that have one repeat, the one that a plain step begins. */
    {"a, then ba 32,767 times", 12, {0x10, 1, 0x20, 0x7F, 0xFF, 0, 2, 0x10, 2, 0x10, 1, 0x21},
     {0, 0, NODES, 2 * NODES, 4, NODES, 0}, LIMIT},
    {"aaab 16,383 times", 16, {0x20, 0x3F, 0xFF, 0, 4, 0x20, 0, 3, 0, 1, 0x10, 1, 0x21, 0x10, 2, 0x21},
     {0, 0, 65532, 131064, 4, 65532, 0}, LIMIT},
};
enum { FORMS = sizeof forms / sizeof forms[0] };

/* Bytes that the season reader refuses at a limit, label 07 marked, and what the unroller, which knows no marks, answers. */
struct refused {
    const char *name;
    size_t len;
    uint8_t bytes[MOST];
    size_t limit;
    uint64_t refusal, place, unrolled, unrolled_place;
};

#define FIVE 0x20, 0, 2, 0, 1, 0x20, 0, 2, 0, 1, 0x20, 0, 2, 0, 1, 0x20, 0, 2, 0, 1, 0x20, 0, 2, 0, 1
#define BOTH(refusal, place) refusal, place, refusal, place

static const struct refused refusals[] = {
    {"13", 1, {0x13}, LIMIT, BOTH(RUNFOLD_UNKNOWN_COMMAND, 0)},
    {"22", 6, {0x22, 2, 1, 0x10, 1, 0x21}, LIMIT, BOTH(RUNFOLD_UNKNOWN_COMMAND, 0)},
    {"a group", 5, {0x11, 5, 0x10, 1, 0x12}, LIMIT, BOTH(RUNFOLD_GROUP_IN_SEASON, 0)},
    {"a group that holds nothing", 3, {0x11, 5, 0x12}, LIMIT, BOTH(RUNFOLD_GROUP_IN_SEASON, 0)},
    {"a group without its label", 3, {0x10, 1, 0x11}, LIMIT, BOTH(RUNFOLD_GROUP_IN_SEASON, 2)},
    {"a marked group in a repeat", 11, {0x20, 0, 2, 0, 1, 0x11, 7, 0x10, 1, 0x12, 0x21}, LIMIT,
     BOTH(RUNFOLD_GROUP_IN_SEASON, 5)},
    {"no label", 3, {0x10, 1, 0x10}, LIMIT, BOTH(RUNFOLD_UNFINISHED, 3)},
    {"an open repeat", 7, {0x20, 0, 2, 0, 1, 0x10, 1}, LIMIT, BOTH(RUNFOLD_UNFINISHED, 7)},
    {"12", 3, {0x10, 1, 0x12}, LIMIT, BOTH(RUNFOLD_WRONG_CLOSE, 2)},
    {"12 in a repeat", 8, {0x20, 0, 2, 0, 1, 0x10, 1, 0x12}, LIMIT, BOTH(RUNFOLD_WRONG_CLOSE, 7)},
    {"an empty repeat", 6, {0x20, 0, 2, 0, 1, 0x21}, LIMIT, BOTH(RUNFOLD_EMPTY_BODY, 5)},
    {"count 1", 8, {0x20, 0, 1, 0, 1, 0x10, 1, 0x21}, LIMIT, BOTH(RUNFOLD_SMALL_COUNT, 0)},
    {"over the limit", 10, {0x20, 0, 2, 0, 2, 0x10, 1, 0x10, 1, 0x21}, 1, BOTH(RUNFOLD_WIDE, 0)},
    {"over every limit", 8, {0x20, 0, 2, 0, 33, 0x10, 1, 0x21}, LIMIT, BOTH(RUNFOLD_WIDE, 0)},
    {"an eleventh repeat", 57, {FIVE, FIVE, 0x20, 0, 2, 0, 1, 0x10, 1}, LIMIT, BOTH(RUNFOLD_DEEP, 50)},
    {"65,536 steps, at a close", 10, {0x10, 1, 0x20, 0xFF, 0xFF, 0, 1, 0x10, 1, 0x21}, LIMIT, BOTH(RUNFOLD_MANY_NODES, 9)},
    {"65,536 steps, a false width too", 10, {0x10, 1, 0x20, 0xFF, 0xFF, 0, 2, 0x10, 1, 0x21}, LIMIT,
     BOTH(RUNFOLD_MANY_NODES, 9)},
    {"65,536 steps, at a step", 10, {0x20, 0xFF, 0xFF, 0, 1, 0x10, 1, 0x21, 0x10, 1}, LIMIT, BOTH(RUNFOLD_MANY_NODES, 8)},
    {"65,535 steps, a false width", 8, {0x20, 0xFF, 0xFF, 0, 2, 0x10, 1, 0x21}, LIMIT, BOTH(RUNFOLD_FALSE_WIDTH, 7)},
    {"a limit of 33", 1, {0x13}, LIMIT + 1, BOTH(RUNFOLD_LIMIT_SIZE, 0)},
    {"a limit of other folds", 1, {0x13}, RUNFOLD_MAX_WIDTH, BOTH(RUNFOLD_LIMIT_SIZE, 0)},
    {"a marked step", 8, {0x20, 0, 2, 0, 1, 0x10, 7, 0x21}, LIMIT, RUNFOLD_MARKED_IN_REPEAT, 5, RUNFOLD_OK, 0},
};
enum { REFUSALS = sizeof refusals / sizeof refusals[0] };

/* Bytes that run reader and folder refuse. */
static const struct refused_run {
    const char *name;
    size_t len;
    uint8_t bytes[MOST];
    uint64_t refusal, place;
} refused_runs[] = {
    {"13", 3, {0x10, 1, 0x13}, RUNFOLD_UNKNOWN_COMMAND, 2},
    {"22", 3, {0x10, 1, 0x22}, RUNFOLD_UNKNOWN_COMMAND, 2},
    {"20", 3, {0x10, 1, 0x20}, RUNFOLD_REPEAT_IN_RUN, 2},
    {"21", 3, {0x10, 1, 0x21}, RUNFOLD_REPEAT_IN_RUN, 2},
    {"a group", 7, {0x10, 1, 0x11, 5, 0x10, 1, 0x12}, RUNFOLD_GROUP_IN_SEASON, 2},
    {"a group without its label", 3, {0x10, 1, 0x11}, RUNFOLD_GROUP_IN_SEASON, 2},
    {"no label", 3, {0x10, 1, 0x10}, RUNFOLD_UNFINISHED, 3},
    {"12", 3, {0x10, 1, 0x12}, RUNFOLD_WRONG_CLOSE, 2},
};
enum { REFUSED_RUNS = sizeof refused_runs / sizeof refused_runs[0] };

static uint16_t ones[256];
/* One more than there are labels, for marks that are too long. */
static uint8_t marks[257];
/* Some more than is needed, for what has to stay as it is. */
static uint32_t work[RUNFOLD_SEASON_WORK(NODES) + 2];
static uint8_t out[RUNFOLD_ROOM(NODES) + 1];
/* Two bytes more than the longest run has. */
static uint8_t run[RUNFOLD_SEASON_RUN + 2];

/* The first entries of the work are so, all of them, and the next one is not written. */
static void expect_work(const char *name, size_t needed, uint32_t wanted)
{
    int right = work[needed] == UNWRITTEN;

    for (size_t i = 0; i < needed; i++)
        right = right && work[i] == wanted;
    if (!right)
        fail(name, "work of the season folder");
}

static unsigned read_season(const uint8_t *fold, size_t len, size_t limit)
{
    return runfold_read_season(fold, len, limit, ones, 256, ones, 256, marks, 256, 1, 0, answer, ALL);
}

static unsigned unroll_season(const uint8_t *fold, size_t len, size_t limit, size_t out_len)
{
    memset(out, UNWRITTEN, sizeof out);
    return runfold_unroll_season(fold, len, limit, out, out_len, answer, ALL);
}

/* Lends so many entries of work, with one more behind them, and so many bytes of output. */
static unsigned fold_season(size_t len, size_t limit, size_t work_len, size_t out_len)
{
    memset(out, UNWRITTEN, sizeof out);
    for (size_t i = 0; i <= work_len; i++)
        work[i] = UNWRITTEN;
    return runfold_fold_season(run, len, limit, ones, 256, ones, 256, marks, 256, 1, 0, work, work_len, out, out_len, answer,
                               ALL);
}

/* A fold is read, is unrolled to outputs of several sizes, and is what its run is folded to. */
static void forms_of(const struct form *f)
{
    const size_t nodes = (size_t)f->answer[RUNFOLD_NODES], len = (size_t)f->answer[RUNFOLD_LENGTH];
    const size_t needed = RUNFOLD_SEASON_WORK(nodes);
    const uint64_t of_run[ALL] = {0, 0, nodes, 0, 0, nodes, 0}, unrolled[ALL] = {0, 0, 0, len};
    const uint64_t folded[ALL] = {0, 0, 0, f->len, f->answer[RUNFOLD_COST]};
    const uint64_t no_room[ALL] = {RUNFOLD_OUTPUT_SIZE}, no_work[ALL] = {RUNFOLD_WORK_SIZE};

    expect(f->name, "season reader", read_season(f->fold, f->len, LIMIT), f->answer);
    expect(f->name, "season unroller", unroll_season(f->fold, f->len, LIMIT, len), unrolled);
    memcpy(run, out, len);
    expect(f->name, "season unroller, more room", unroll_season(f->fold, f->len, LIMIT, len + 5), unrolled);
    expect_bytes(f->name, "run of the season unroller", out, sizeof out, run, len);
    if (len > 0) {
        expect(f->name, "season unroller, a byte too short", unroll_season(f->fold, f->len, LIMIT, len - 1), no_room);
        expect_bytes(f->name, "season unroller, a byte too short", out, sizeof out, run, 0);
    }

    expect(f->name, "season run reader", runfold_read_season_run(run, len, answer, ALL), of_run);
    for (size_t more = 0; more <= 1; more++) {
        expect(f->name, "season folder", fold_season(len, f->limit, needed + more, f->len + more), folded);
        expect_bytes(f->name, "fold of the season folder", out, sizeof out, f->fold, f->len);
        expect_work(f->name, needed, 0);
    }
    expect(f->name, "season folder, an entry too short", fold_season(len, f->limit, needed - 1, 0), no_work);
    expect_bytes(f->name, "season folder, an entry too short", out, sizeof out, f->fold, 0);
    expect_work(f->name, needed - 1, UNWRITTEN);
    if (f->len > 0) {
        expect(f->name, "season folder, a byte too short", fold_season(len, f->limit, needed, f->len - 1), no_room);
        expect_bytes(f->name, "season folder, a byte too short", out, sizeof out, f->fold, 0);
        expect_work(f->name, needed, 0);
    }
}

/* So many different steps twice, at a limit, and the cost: a repeat where that is wide enough, and plain elsewhere. */
static void wide(const char *name, size_t steps, size_t limit, uint64_t cost)
{
    const int repeated = steps <= limit;
    const uint64_t wanted[ALL] = {0, 0, 0, repeated ? 2 * steps + 6 : 4 * steps, cost};
    uint8_t fold[4 * MOST] = {0x20, 0, 2, 0, (uint8_t)steps};

    for (size_t i = 0; i < 2 * steps; i++) {
        run[2 * i] = 0x10;
        run[2 * i + 1] = (uint8_t)(i % steps);
    }
    memcpy(fold + 5, run, 2 * steps);
    fold[5 + 2 * steps] = 0x21;
    expect(name, "season folder", fold_season(4 * steps, limit, RUNFOLD_SEASON_WORK(2 * steps), sizeof out - 1), wanted);
    expect_bytes(name, "fold of the season folder", out, sizeof out, repeated ? fold : run, (size_t)wanted[RUNFOLD_LENGTH]);
}

/* Run reader and folder refuse a run by the same; the folder leaves its slices as they are. */
static void refuses_run(const char *name, size_t len, uint64_t refusal, uint64_t place)
{
    const uint64_t wanted[ALL] = {refusal, place};

    expect(name, "season run reader", runfold_read_season_run(run, len, answer, ALL), wanted);
    expect(name, "season folder", fold_season(len, LIMIT, RUNFOLD_SEASON_WORK(2), sizeof out - 1), wanted);
    expect_bytes(name, "season folder", out, sizeof out, run, 0);
    expect_work(name, RUNFOLD_SEASON_WORK(2), UNWRITTEN);
}

static void refuses(const struct refused *r)
{
    const uint64_t read[ALL] = {r->refusal, r->place}, unrolled[ALL] = {r->unrolled, r->unrolled_place};

    expect(r->name, "season reader", read_season(r->bytes, r->len, r->limit), read);
    if (r->unrolled == RUNFOLD_OK)
        return;
    expect(r->name, "season unroller", unroll_season(r->bytes, r->len, r->limit, sizeof out - 1), unrolled);
    expect_bytes(r->name, "season unroller", out, sizeof out, r->bytes, 0);
}

/* The longest run, and with another command behind it. */
static void edges(void)
{
    for (size_t i = 0; i < sizeof run; i++)
        run[i] = i % 2 == 0 ? 0x10 : 1;
    refuses_run("65,536 steps", RUNFOLD_SEASON_RUN + 2, RUNFOLD_MANY_NODES, RUNFOLD_SEASON_RUN);
    refuses_run("a 65,536th step without its label", RUNFOLD_SEASON_RUN + 1, RUNFOLD_UNFINISHED, RUNFOLD_SEASON_RUN + 1);
    run[RUNFOLD_SEASON_RUN] = 0x11;
    refuses_run("65,535 steps and a group", RUNFOLD_SEASON_RUN + 2, RUNFOLD_GROUP_IN_SEASON, RUNFOLD_SEASON_RUN);
}

/* 11, 15, 12 and 18 go in this order and before the run's own refusal; then 13, then 14. The work is left as it is. */
static void order(void)
{
    static const struct {
        size_t steps_len, groups_len, limit, marks_len, run_len;
        uint64_t refusal;
    } calls[] = {
        {255, 255, LIMIT + 1, 257, 1, RUNFOLD_STEP_TABLE_SIZE}, {256, 255, LIMIT + 1, 257, 1, RUNFOLD_GROUP_TABLE_SIZE},
        {256, 256, LIMIT + 1, 257, 1, RUNFOLD_LIMIT_SIZE},      {256, 256, LIMIT, 257, 1, RUNFOLD_WRONG_MARKS},
        {256, 256, LIMIT, 255, 1, RUNFOLD_WRONG_MARKS},         {256, 256, LIMIT, 256, 1, RUNFOLD_UNFINISHED},
        {256, 256, LIMIT, 256, 2, RUNFOLD_WORK_SIZE},           {256, 256, LIMIT, 256, 0, RUNFOLD_WORK_SIZE},
    };

    run[0] = 0x10;
    for (size_t i = 0; i <= 255; i++)
        work[i] = UNWRITTEN;
    for (size_t i = 0; i < sizeof calls / sizeof calls[0]; i++) {
        const uint64_t place = calls[i].refusal == RUNFOLD_UNFINISHED ? 1 : 0, wanted[ALL] = {calls[i].refusal, place};
        uint8_t result = runfold_fold_season(run, calls[i].run_len, calls[i].limit, ones, calls[i].steps_len, ones,
                                             calls[i].groups_len, marks, calls[i].marks_len, 1, 0, work, 255, out, 0, answer,
                                             ALL);
        expect("the order of refusals", "season folder", result, wanted);
        /* The run's own refusals and 13 are no reader's. */
        if (i > 4)
            continue;
        result = runfold_read_season(run, 1, calls[i].limit, ones, calls[i].steps_len, ones, calls[i].groups_len, marks,
                                     calls[i].marks_len, 1, 0, answer, ALL);
        expect("the order of refusals", "season reader", result, wanted);
    }
    expect_work("the order of refusals", 255, UNWRITTEN);
    marks[9] = 2;
    if (read_season(run, 1, LIMIT) != RUNFOLD_WRONG_MARKS || fold_season(1, LIMIT, 0, 0) != RUNFOLD_WRONG_MARKS)
        fail("a mark above 1", "season reader and season folder");
    marks[9] = 0;
}

/* The marked label stands in no repeat: what is between is folded. */
static void marked(void)
{
    const uint8_t fold[] = {0x20, 0, 3, 0, 1, 0x10, 1, 0x21, 0x10, 7, 0x20, 0, 3, 0, 1, 0x10, 1, 0x21, 0x10, 7};
    const uint64_t wanted[ALL] = {0, 0, 0, sizeof fold, 6};

    for (size_t i = 0; i < 8; i++) {
        run[2 * i] = 0x10;
        run[2 * i + 1] = i % 4 == 3 ? 7 : 1;
    }
    expect("aaag twice, g marked", "season folder", fold_season(16, LIMIT, RUNFOLD_SEASON_WORK(8), sizeof fold), wanted);
    expect_bytes("aaag twice, g marked", "season folder", out, sizeof out, fold, sizeof fold);
}

/* Runs of several make as both folders fold them, at every limit. */
static void as_first(void)
{
    static uint32_t costs[RUNFOLD_WORK(RUNFOLD_MAX_NODES)], choices[RUNFOLD_WORK(RUNFOLD_MAX_NODES)];
    static uint8_t other[RUNFOLD_ROOM(RUNFOLD_MAX_NODES)];
    static const size_t lengths[] = {1, 64, 257, RUNFOLD_MAX_NODES};

    for (size_t limit = 0; limit <= LIMIT; limit++)
        for (size_t k = 0; k < 4; k++)
            for (uint16_t first = 0; first < 3; first++) {
                const size_t nodes = lengths[k];
                uint64_t theirs[ALL];

                for (size_t i = 0; i < nodes; i++) {
                    run[2 * i] = 0x10;
                    run[2 * i + 1] = (uint8_t)(i / 50 % 2 == 0 ? i % (k + 2) : i * i % 7 / 3);
                }
                runfold_fold(run, 2 * nodes, limit, ones, 256, ones, 256, marks, 256, first, 1, costs, RUNFOLD_WORK(nodes),
                             choices, RUNFOLD_WORK(nodes), other, sizeof other, theirs, ALL);
                runfold_fold_season(run, 2 * nodes, limit, ones, 256, ones, 256, marks, 256, first, 1, work,
                                    RUNFOLD_SEASON_WORK(nodes), out, sizeof out, answer, ALL);
                if (theirs[RUNFOLD_REFUSAL] != RUNFOLD_OK || memcmp(answer, theirs, sizeof theirs) != 0 ||
                    memcmp(out, other, (size_t)theirs[RUNFOLD_LENGTH]) != 0)
                    fail("a run as both folders fold it", "season folder");
            }
}

int main(void)
{
    for (int label = 0; label < 256; label++)
        ones[label] = 1;

    for (const struct form *f = forms; f < forms + FORMS; f++)
        forms_of(f);
    wide("32 labels twice", 32, LIMIT, 33);
    wide("32 labels twice, limit 31", 32, 31, 64);
    wide("33 labels twice", 33, LIMIT, 66);
    as_first();

    marks[7] = 1;
    marked();
    for (const struct refused *r = refusals; r < refusals + REFUSALS; r++)
        refuses(r);
    for (const struct refused_run *r = refused_runs; r < refused_runs + REFUSED_RUNS; r++) {
        memcpy(run, r->bytes, r->len);
        refuses_run(r->name, r->len, r->refusal, r->place);
    }
    edges();
    order();
    return failures > 0;
}
