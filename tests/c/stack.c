/* The stack that each exported function takes, arguments and return address included: measured on a painted stack by the lowest
 * byte that a call has changed, less what an empty call takes there; and seen again by whether the call lives on a stack of so
 * many pages with a guard below. */
#define _GNU_SOURCE
#include "runfold.h"

#include <signal.h>
#include <stdio.h>
#include <stdlib.h>
#include <string.h>
#include <sys/mman.h>
#include <sys/resource.h>
#include <sys/wait.h>
#include <ucontext.h>
#include <unistd.h>

enum { PAGE = 4096, PAINTED = 64 * PAGE };

/* Steps in repeats of count 2 in groups, with the refusals that the functions on runs and those on folds answer, and those for
 * seasons. A width operand is the true width, or the widest that there is to be. */
struct input {
    const char *name;
    int groups, repeats, steps, widest;
    uint8_t run_refusal, fold_refusal, season_run_refusal, season_fold_refusal;
};

#define BOTH(refusal) refusal, refusal

static const struct input inputs[] = {
    {"no steps", 0, 0, 0, RUNFOLD_MAX_WIDTH, BOTH(RUNFOLD_OK), BOTH(RUNFOLD_OK)},
    {"1 step", 0, 0, 1, RUNFOLD_MAX_WIDTH, BOTH(RUNFOLD_OK), BOTH(RUNFOLD_OK)},
    {"1024 steps", 0, 0, 1024, RUNFOLD_MAX_WIDTH, BOTH(RUNFOLD_OK), BOTH(RUNFOLD_OK)},
    {"1016 steps in 8 groups", 8, 0, 1016, RUNFOLD_MAX_WIDTH, BOTH(RUNFOLD_OK), BOTH(RUNFOLD_GROUP_IN_SEASON)},
    {"512 steps in 8 groups", 8, 0, 512, RUNFOLD_MAX_WIDTH, BOTH(RUNFOLD_OK), BOTH(RUNFOLD_GROUP_IN_SEASON)},
    {"1 step in 9 repeats in 8 groups", 8, 9, 1, RUNFOLD_MAX_WIDTH, RUNFOLD_REPEAT_IN_RUN, RUNFOLD_OK,
     BOTH(RUNFOLD_GROUP_IN_SEASON)},
    {"1 step in 10 repeats in 8 groups", 8, 10, 1, RUNFOLD_MAX_WIDTH, RUNFOLD_REPEAT_IN_RUN, RUNFOLD_MANY_NODES,
     BOTH(RUNFOLD_GROUP_IN_SEASON)},
    {"1 step in 6 repeats", 0, 6, 1, RUNFOLD_MAX_WIDTH, RUNFOLD_REPEAT_IN_RUN, RUNFOLD_OK, RUNFOLD_REPEAT_IN_RUN, RUNFOLD_OK},
    /* As many open as may be, though what is more than 64 steps has a false width then. */
    {"1 step in 10 repeats of a season", 0, 10, 1, RUNFOLD_SEASON_WIDTH, RUNFOLD_REPEAT_IN_RUN, RUNFOLD_FALSE_WIDTH,
     RUNFOLD_REPEAT_IN_RUN, RUNFOLD_FALSE_WIDTH},
    {"65535 steps", 0, 0, 65535, RUNFOLD_MAX_WIDTH, BOTH(RUNFOLD_MANY_NODES), BOTH(RUNFOLD_OK)},
};
enum { INPUTS = sizeof inputs / sizeof inputs[0] };

/* What a call is given, and what it answered. A repeat costs 0 and each further copy 1, and no label is marked, so that the
 * folder nests as many repeats as it can: ten round 1,024 steps, nine round 512; and the season folder six, up to 32 wide. */
static uint8_t bytes[RUNFOLD_SEASON_RUN];
static size_t len;
/* The same with its repeats opened as in the short family. */
static uint8_t brief[RUNFOLD_SEASON_RUN];
static size_t brief_len;
static uint16_t table[256];
static const uint8_t marks[256];
static uint32_t costs[RUNFOLD_WORK(RUNFOLD_MAX_NODES)], choices[RUNFOLD_WORK(RUNFOLD_MAX_NODES)];
static uint32_t work[RUNFOLD_SEASON_WORK(RUNFOLD_SEASON_NODES)];
static uint8_t out[RUNFOLD_ROOM(RUNFOLD_SEASON_NODES)];
/* The index of the input as a fold, and the position of its last node, one of those that stand deepest. */
static uint32_t offsets[RUNFOLD_MAX_NODES], before[RUNFOLD_MAX_NODES];
static size_t indexed;
static uint64_t last;
static uint64_t answer[RUNFOLD_ENTRIES];
static uint8_t result;

static void nothing(void)
{
}

static void read_run(void)
{
    result = runfold_read_run(bytes, len, answer, RUNFOLD_ENTRIES);
}

static void part(void)
{
    /* A part is no refusal; that the input is as meant is seen by the run reader. */
    answer[RUNFOLD_LENGTH] = runfold_part(bytes, len, 0);
}

static void read_fold(void)
{
    result = runfold_read_fold(bytes, len, RUNFOLD_MAX_WIDTH, table, 256, table, 256, marks, 256, 0, 1, answer,
                               RUNFOLD_ENTRIES);
}

static void unroll(void)
{
    result = runfold_unroll(bytes, len, RUNFOLD_MAX_WIDTH, out, sizeof out, answer, RUNFOLD_ENTRIES);
}

static void fold(void)
{
    result = runfold_fold(bytes, len, RUNFOLD_MAX_WIDTH, table, 256, table, 256, marks, 256, 0, 1, costs,
                          RUNFOLD_WORK(RUNFOLD_MAX_NODES), choices, RUNFOLD_WORK(RUNFOLD_MAX_NODES), out, sizeof out, answer,
                          RUNFOLD_ENTRIES);
}

static void index_fold(void)
{
    result = runfold_index(bytes, len, offsets, RUNFOLD_MAX_NODES, before, RUNFOLD_MAX_NODES, answer, RUNFOLD_ENTRIES);
}

static void find(void)
{
    result = runfold_find(bytes, len, offsets, indexed, before, indexed, last, answer, RUNFOLD_ENTRIES);
}

static void read_short(void)
{
    result = runfold_read_short(brief, brief_len, RUNFOLD_MAX_WIDTH, table, 256, table, 256, marks, 256, 0, 1, answer,
                                RUNFOLD_ENTRIES);
}

static void fold_short(void)
{
    result = runfold_fold_short(bytes, len, RUNFOLD_MAX_WIDTH, table, 256, table, 256, marks, 256, 0, 1, costs,
                                RUNFOLD_WORK(RUNFOLD_MAX_NODES), choices, RUNFOLD_WORK(RUNFOLD_MAX_NODES), out, sizeof out,
                                answer, RUNFOLD_ENTRIES);
}

static void to_short(void)
{
    result = runfold_to_short(bytes, len, out, sizeof out, answer, RUNFOLD_ENTRIES);
}

static void to_long(void)
{
    result = runfold_to_long(brief, brief_len, out, sizeof out, answer, RUNFOLD_ENTRIES);
}

static void read_season_run(void)
{
    result = runfold_read_season_run(bytes, len, answer, RUNFOLD_ENTRIES);
}

static void read_season(void)
{
    result = runfold_read_season(bytes, len, RUNFOLD_SEASON_WIDTH, table, 256, table, 256, marks, 256, 0, 1, answer,
                                 RUNFOLD_ENTRIES);
}

static void unroll_season(void)
{
    result = runfold_unroll_season(bytes, len, RUNFOLD_SEASON_WIDTH, out, sizeof out, answer, RUNFOLD_ENTRIES);
}

static void fold_season(void)
{
    result = runfold_fold_season(bytes, len, RUNFOLD_SEASON_WIDTH, table, 256, table, 256, marks, 256, 0, 1, work,
                                 RUNFOLD_SEASON_WORK(RUNFOLD_SEASON_NODES), out, sizeof out, answer, RUNFOLD_ENTRIES);
}

static const struct function {
    const char *name;
    void (*call)(void);
    int on_runs, on_seasons;
} functions[] = {
    {"runfold_read_run", read_run, 1, 0},
    {"runfold_part", part, 1, 0},
    {"runfold_read_fold", read_fold, 0, 0},
    {"runfold_unroll", unroll, 0, 0},
    {"runfold_fold", fold, 1, 0},
    {"runfold_index", index_fold, 0, 0},
    {"runfold_find", find, 0, 0},
    {"runfold_read_short", read_short, 0, 0},
    {"runfold_fold_short", fold_short, 1, 0},
    {"runfold_to_short", to_short, 0, 0},
    {"runfold_to_long", to_long, 0, 0},
    {"runfold_read_season_run", read_season_run, 1, 1},
    {"runfold_read_season", read_season, 0, 1},
    {"runfold_unroll_season", unroll_season, 0, 1},
    {"runfold_fold_season", fold_season, 1, 1},
};
enum { FUNCTIONS = sizeof functions / sizeof functions[0] };

static void fail(const char *what)
{
    printf("%s\n", what);
    exit(1);
}

/* Writes the commands of an input, a repeat opened by 22 where that is wanted and its width allows it. */
static size_t write_commands(const struct input *in, int with_22, uint8_t *to)
{
    uint8_t *p = to;

    for (int i = 0; i < in->groups; i++) {
        *p++ = 0x11;
        *p++ = 0x07;
    }
    for (int i = in->repeats; i > 0; i--) {
        int true_width = in->steps << (i - 1), width = true_width < in->widest ? true_width : in->widest;
        int small = with_22 && width < 256;
        *p++ = small ? 0x22 : 0x20;
        if (!small)
            *p++ = 0;
        *p++ = 2;
        if (!small)
            *p++ = (uint8_t)(width / 256);
        *p++ = (uint8_t)(width % 256);
    }
    for (int i = 0; i < in->steps; i++) {
        *p++ = 0x10;
        *p++ = 0x07;
    }
    for (int i = 0; i < in->repeats; i++)
        *p++ = 0x21;
    for (int i = 0; i < in->groups; i++)
        *p++ = 0x12;
    return (size_t)(p - to);
}

static void build(const struct input *in)
{
    int nodes = in->groups + (in->steps << in->repeats);

    len = write_commands(in, 0, bytes);
    brief_len = write_commands(in, 1, brief);

    /* One outermost item, or the steps themselves, as many as may be. */
    indexed = in->groups + in->repeats > 0 ? 1 : (size_t)in->steps;
    if (indexed > RUNFOLD_MAX_NODES)
        indexed = RUNFOLD_MAX_NODES;
    for (uint32_t i = 0; i < indexed; i++) {
        offsets[i] = 2 * i;
        before[i] = i;
    }
    last = nodes > 0 ? (uint64_t)nodes - 1 : 0;
}

/* The refusal that a function has to answer on an input. */
static uint8_t wanted(const struct function *f, const struct input *in)
{
    /* There is no node to find. */
    if (f->call == find && in->steps == 0)
        return RUNFOLD_PAST_END;
    if (f->on_seasons)
        return f->on_runs ? in->season_run_refusal : in->season_fold_refusal;
    return f->on_runs ? in->run_refusal : in->fold_refusal;
}

/* A stack of so many bytes above a page that nothing may touch. */
static uint8_t *lend(size_t size)
{
    uint8_t *p = mmap(NULL, size + PAGE, PROT_READ | PROT_WRITE, MAP_PRIVATE | MAP_ANONYMOUS, -1, 0);

    if (p == MAP_FAILED || mprotect(p, PAGE, PROT_NONE) != 0)
        fail("no memory for a stack");
    return p + PAGE;
}

static void run_on(uint8_t *stack, size_t size, void (*call)(void))
{
    ucontext_t here, there;

    getcontext(&there);
    there.uc_stack.ss_sp = stack;
    there.uc_stack.ss_size = size;
    there.uc_link = &here;
    makecontext(&there, call, 0);
    swapcontext(&here, &there);
}

/* The bytes from the stack's upper end to the lowest word that is changed: the stack is written in words of eight, and a word may
 * end in bytes that were there before. A byte that happens to be written in one colour is seen in the other, so that the figure is
 * the same each time. */
static size_t used(void (*call)(void))
{
    static uint8_t *stack;
    size_t most = 0;

    if (stack == NULL)
        stack = lend(PAINTED);
    for (int colour = 0x5A; colour <= 0xA5; colour += 0xA5 - 0x5A) {
        size_t kept = 0;
        memset(stack, colour, PAINTED);
        run_on(stack, PAINTED, call);
        while (kept < PAINTED && stack[kept] == colour)
            kept++;
        kept -= kept % 8;
        if (PAINTED - kept > most)
            most = PAINTED - kept;
    }
    return most;
}

/* Whether a call returns on a stack of so many bytes, whole pages; else it has run into the guard. */
static int lives(void (*call)(void), size_t size)
{
    uint8_t *stack = lend(size);
    int status = 0;
    pid_t child = fork();

    if (child == 0) {
        const struct rlimit none = {0, 0};
        setrlimit(RLIMIT_CORE, &none);
        run_on(stack, size, call);
        _exit(0);
    }
    munmap(stack - PAGE, size + PAGE);
    if (child < 0 || waitpid(child, &status, 0) != child)
        fail("no child process");
    if (WIFSIGNALED(status) && WTERMSIG(status) == SIGSEGV)
        return 0;
    if (!WIFEXITED(status) || WEXITSTATUS(status) != 0)
        fail("a child process ended in another way");
    return 1;
}

/* The most stack that each function takes, and on which input. */
static size_t most[FUNCTIONS];
static int worst[FUNCTIONS];

/* Measures every call and prints a table, beside what an empty call takes. */
static void measure(size_t own)
{
    printf("bytes of stack on\n");
    for (int i = 0; i < INPUTS; i++)
        printf("%3d  %s\n", i + 1, inputs[i].name);
    printf("\n%23s", "");
    for (int i = 0; i < INPUTS; i++)
        printf("%8d", i + 1);
    printf("\n");
    for (int f = 0; f < FUNCTIONS; f++) {
        printf("%-23s", functions[f].name);
        for (int i = 0; i < INPUTS; i++) {
            size_t bytes_used;
            build(&inputs[i]);
            bytes_used = used(functions[f].call) - own;
            printf("%8zu", bytes_used);
            if (functions[f].call != part && result != wanted(&functions[f], &inputs[i]))
                fail(": another answer than it should be");
            if (bytes_used > most[f]) {
                most[f] = bytes_used;
                worst[f] = i;
            }
        }
        printf("\n");
    }
    printf("\n");
}

int main(void)
{
    size_t own, largest = 0;

    for (int i = 0; i < 256; i++)
        table[i] = 1;

    /* First, while no call has bound memset: binding it takes stack too, on the first call of a program. */
    for (int i = 0; i < INPUTS; i++) {
        build(&inputs[i]);
        for (int f = 0; f < FUNCTIONS; f++)
            if (!lives(functions[f].call, RUNFOLD_STACK))
                fail("a call overflows a stack of RUNFOLD_STACK bytes");
    }

    own = used(nothing);
    measure(own);
    for (int f = 0; f < FUNCTIONS; f++) {
        size_t pages = RUNFOLD_STACK / PAGE;
        build(&inputs[worst[f]]);
        while (lives(functions[f].call, (pages - 1) * PAGE))
            pages--;
        printf("%-23s %6zu at most, on %s; a stack of %zu is enough and one of %zu is not\n", functions[f].name, most[f],
               inputs[worst[f]].name, pages * PAGE, (pages - 1) * PAGE);
        if (pages != (most[f] + own + PAGE - 1) / PAGE)
            fail("that is not what was measured, in whole pages");
        if (most[f] > largest)
            largest = most[f];
    }
    if (largest + PAGE > RUNFOLD_STACK)
        fail("RUNFOLD_STACK leaves less than a page to spare");
    printf("RUNFOLD_STACK, %d, is enough for every call, also a program's first; it leaves %zu to spare\n", RUNFOLD_STACK,
           RUNFOLD_STACK - largest);
    return 0;
}
