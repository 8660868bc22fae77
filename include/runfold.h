/* The run folder for C and C++: run reader, part of a node, fold reader, unroller, folder, index builder and finder; of the
 * short command family a reader, a folder and both conversions; and for whole seasons, flat runs of up to 65,535 steps, a run
 * reader, a fold reader, an unroller and a folder.
 *
 * For C99 or C++11 and later. The functions are those of the crate `embed`, proved. scripts/library.sh builds
 * target/lib/librunfold.a (x86-64 Linux), and scripts/install.sh installs it with this header. Build a program with one of
 *
 *     cc YOURS.c $(pkg-config --cflags --libs runfold)
 *     cc -Iinclude YOURS.c target/lib/librunfold.a
 *
 * A call, for a run of at most 3 nodes; examples/ has whole programs, docs/FORMAT.md the bytes of runs and folds:
 *
 *     const uint8_t run[] = {0x10, 0x01, 0x10, 0x01, 0x10, 0x01};
 *     uint16_t steps[256], groups[256];                             (what steps and groups cost by their labels, filled in before)
 *     uint8_t marks[256] = {0};                                     (no label is marked: each may stand in repeats)
 *     uint32_t costs[RUNFOLD_WORK(3)], choices[RUNFOLD_WORK(3)];    (work; for long runs better not on the stack)
 *     uint8_t out[RUNFOLD_ROOM(3)];
 *     uint64_t answer[RUNFOLD_ENTRIES];
 *     uint8_t refusal = runfold_fold(run, sizeof run, RUNFOLD_MAX_WIDTH, steps, 256, groups, 256, marks, 256, 1, 0, costs,
 *                                    RUNFOLD_WORK(3), choices, RUNFOLD_WORK(3), out, sizeof out, answer, RUNFOLD_ENTRIES);
 *     if (refusal != RUNFOLD_OK)
 *         puts(runfold_refusal_text(refusal));
 *
 * Memory. The caller lends all of it, so there is nothing to free: no function allocates or keeps anything, and the library
 * calls nothing but memset. Calls may run in several threads at once. RUNFOLD_WORK and RUNFOLD_ROOM say how much to lend to the
 * folder for as many nodes as the run reader counts, RUNFOLD_MAX_RUN how much to the unroller, RUNFOLD_MAX_NODES how many
 * entries to the index builder, RUNFOLD_STACK how much stack a call takes. What is enough for the folder is enough for the
 * short folder, and RUNFOLD_ROOM(RUNFOLD_MAX_NODES) bytes are for either conversion. The season folder is lent
 * RUNFOLD_SEASON_WORK entries and RUNFOLD_ROOM bytes, the season unroller RUNFOLD_SEASON_RUN.
 *
 * Slices. A slice passes as a pointer and a number of entries. One of 0 entries may have a null pointer, for nothing is read or
 * written there (tested by scripts/c.sh, not proved): an empty `answer` is answered with RUNFOLD_SHORT, else an empty `steps`
 * with refusal 11, else an empty `groups` with 15, else an empty `marks` with 18 where the limit is not refused by 12. Any
 * other points to so many entries, aligned for their type. A slice that is written (`out`, `costs`, `choices`, `work`,
 * `answer`, and the index that runfold_index writes) overlaps no other slice of the call; `steps` and `groups` may be one
 * table. Nothing else is asked of a caller: every input has a defined answer.
 *
 * Prices. `steps` prices the steps by their labels and `groups` the groups, 256 entries each; a repeat of count h costs
 * first + each * (h - 2). The cost of a fold is the sum over the commands that stand in it.
 *
 * Marks. `marks` has 256 entries too: 1 for a label that may stand in no repeat, as that of a premix bag which is tipped by
 * hand, and 0 for any other. A marked label, of a step or of a group, stands nowhere inside a repeat, also not in a group or
 * another repeat in it: the readers of folds refuse that by 19, and no folder writes such a fold. A marked group may hold
 * repeats. The other functions know no marks.
 *
 * Short folds. In the short command family a repeat is opened by 22, with one byte of count and one byte of width, wherever
 * both are below 256, and by 20 elsewhere; 21 closes either. So every fold has one short form, and comes back from it as it
 * was. Short reader and runfold_to_long take short folds, short folder and runfold_to_short write them. No other function
 * knows 22, and it stands in no run: it is refused there by 1.
 *
 * Seasons. A season run is flat: steps alone, up to RUNFOLD_SEASON_NODES of them. A season fold is a fold of one, of steps and
 * repeats no wider than RUNFOLD_SEASON_WIDTH, opened by 20. The four functions for them do what the first readers, unroller
 * and folder do; a group is refused by 21, at its 11. The season folder's work grows with the steps, not with their square,
 * and for a run of up to RUNFOLD_MAX_NODES steps it writes the bytes that runfold_fold writes at the same limit and prices. It
 * takes a table of groups as all folders do, though nothing is priced by it.
 *
 * Index. `offsets` and `before` have an entry each for every outermost item of a fold, that is for each step, group and repeat
 * that stands in nothing else: its byte offset in the fold, and the number of the run's nodes before it. Kept beside the fold,
 * an index serves to find a node without unrolling the fold. A position counts the nodes of the unrolled run from 0, in the
 * order of the run's bytes: a group comes right before what it holds.
 *
 * Answers. `answer` has at least RUNFOLD_ENTRIES entries. The first seven are then written, and the others stay as they are. The
 * first two are always refusal and place, whichever function was called:
 *
 *     answer[RUNFOLD_REFUSAL]   refusal number, 0 for success
 *     answer[RUNFOLD_PLACE]     place of the refusal: a byte offset in the input, 0 for refusals 11 to 18 and on success
 *
 * What the other five are depends on the function, so an entry can have several names; they are 0 where the function has no
 * such value. Of readers, unrollers, folders and conversions (the readers of short folds and of seasons have what the first
 * ones have, and so with unrollers and folders):
 *
 *     answer[RUNFOLD_NODES]     nodes of the run (run reader, fold reader; the folder leaves 0, so ask the run reader first)
 *     answer[RUNFOLD_LENGTH]    bytes: of the run that the fold unrolls to (fold reader), or those written (unroller, folder,
 *                               conversions)
 *     answer[RUNFOLD_COST]      cost of the fold (fold reader, folder)
 *     answer[RUNFOLD_STEPS]     nodes of the run that are steps (run reader, fold reader)
 *     answer[RUNFOLD_DEPTH]     the most groups of the run open together, 0 for a run without groups (run reader, fold reader)
 *
 * Of the index builder:
 *
 *     answer[RUNFOLD_INDEXED]   entries of the index
 *
 * Of the finder:
 *
 *     answer[RUNFOLD_LABEL]     label of the node
 *     answer[RUNFOLD_COMMAND]   its command, 0x10 for a step or 0x11 for a group
 *     answer[RUNFOLD_OFFSET]    byte offset of that command in the fold; all copies that a repeat makes of a node have the same
 *
 * After a refusal the last five are 0. The result of each call is the refusal number again, or RUNFOLD_SHORT where `answer`
 * has fewer entries: then nothing at all is written.
 */
#ifndef RUNFOLD_H
#define RUNFOLD_H

#include <stddef.h>
#include <stdint.h>

#ifdef __cplusplus
extern "C" {
#endif

/* The version of the library, as numbers and as text. */
#define RUNFOLD_VERSION_MAJOR 0
#define RUNFOLD_VERSION_MINOR 9
#define RUNFOLD_VERSION_PATCH 0
#define RUNFOLD_VERSION \
    RUNFOLD_QUOTE(RUNFOLD_VERSION_MAJOR) "." RUNFOLD_QUOTE(RUNFOLD_VERSION_MINOR) "." RUNFOLD_QUOTE(RUNFOLD_VERSION_PATCH)

/* Helpers of this header: a macro's value as text, and a number as a size, without a C-style cast in C++. */
#define RUNFOLD_QUOTE(value) RUNFOLD_QUOTE_AS_IS(value)
#define RUNFOLD_QUOTE_AS_IS(value) #value
#ifdef __cplusplus
#define RUNFOLD_SIZE(n) static_cast<size_t>(n)
#else
#define RUNFOLD_SIZE(n) ((size_t)(n))
#endif

/* The limits of the format. */
#define RUNFOLD_MAX_NODES 1024
#define RUNFOLD_MAX_GROUPS 8
#define RUNFOLD_MAX_REPEATS 10
#define RUNFOLD_MAX_WIDTH 1024

/* Those of season runs and season folds; as many repeats may be open there. */
#define RUNFOLD_SEASON_NODES 65535
#define RUNFOLD_SEASON_WIDTH 32

/* The entries that each work slice of the folder needs for a run of n nodes; n is evaluated twice. */
#define RUNFOLD_WORK(n) (RUNFOLD_SIZE(n) * (RUNFOLD_SIZE(n) + 1) / 2)

/* The entries that the season folder's work slice needs for a run of n steps, the empty one too. */
#define RUNFOLD_SEASON_WORK(n) (RUNFOLD_SIZE(256) * (RUNFOLD_SIZE(n) + 1))

/* A fold of a run of n nodes, or a season fold of n steps, has at most so many bytes, also where it is longer than the run; a
 * short form is no longer. */
#define RUNFOLD_ROOM(n) (RUNFOLD_SIZE(n) * 4)

/* A run that is not refused has at most so many bytes: room for whatever the unroller writes. */
#define RUNFOLD_MAX_RUN 3072

/* The same of a season run, for the season unroller. */
#define RUNFOLD_SEASON_RUN 131070

/* A call takes at most so many bytes of stack, arguments and return address included: measured by scripts/stack.sh, which
 * prints each function's own, and not proved. */
#define RUNFOLD_STACK 98304

/* The entries of an answer, and where each stands: the first two for every function, then the others of readers, unrollers,
 * folders and conversions, that of the index builder, and those of the finder. */
#define RUNFOLD_ENTRIES 7
enum {
    RUNFOLD_REFUSAL = 0,
    RUNFOLD_PLACE = 1,

    RUNFOLD_NODES = 2,
    RUNFOLD_LENGTH = 3,
    RUNFOLD_COST = 4,
    RUNFOLD_STEPS = 5,
    RUNFOLD_DEPTH = 6,

    RUNFOLD_INDEXED = 2,

    RUNFOLD_LABEL = 2,
    RUNFOLD_COMMAND = 3,
    RUNFOLD_OFFSET = 4
};

/* What a call returns: success, a refusal, or that the answer slice is too short. */
enum {
    RUNFOLD_OK = 0,
    RUNFOLD_UNKNOWN_COMMAND = 1,
    RUNFOLD_REPEAT_IN_RUN = 2,      /* 20 or 21 in a run */
    RUNFOLD_UNFINISHED = 3,         /* operands missing, or the end with something open; the place is the input's size */
    RUNFOLD_WRONG_CLOSE = 4,        /* 12 or 21 where nothing is open, or the innermost open thing is of the other kind */
    RUNFOLD_EMPTY_BODY = 5,         /* a close right after its open */
    RUNFOLD_SMALL_COUNT = 6,        /* count 0 or 1 */
    RUNFOLD_WIDE = 7,               /* width operand over the limit */
    RUNFOLD_DEEP = 8,               /* a 9th open group or an 11th open repeat */
    RUNFOLD_FALSE_WIDTH = 9,        /* width operand not the true width; tested after 10 */
    RUNFOLD_MANY_NODES = 10,        /* more than 1,024 nodes, or than 65,535 in a season */
    RUNFOLD_STEP_TABLE_SIZE = 11,   /* step cost table not of 256 entries */
    RUNFOLD_LIMIT_SIZE = 12,        /* width limit over 1,024, or over 32 for a season */
    RUNFOLD_WORK_SIZE = 13,         /* a work slice too short */
    RUNFOLD_OUTPUT_SIZE = 14,       /* output shorter than the result, or a slice of the index than its entries */
    RUNFOLD_GROUP_TABLE_SIZE = 15,  /* group cost table not of 256 entries; tested right after 11 */
    RUNFOLD_PAST_END = 16,          /* position not below the node total; tested after 17 */
    RUNFOLD_FALSE_INDEX = 17,       /* index not the one that the builder writes */
    RUNFOLD_WRONG_MARKS = 18,       /* marks not of 256 entries, or an entry above 1; tested right after 12 */
    RUNFOLD_MARKED_IN_REPEAT = 19,  /* a marked label inside a repeat, of a step or a group; tested right before 10 */
    RUNFOLD_LONG_IN_SHORT = 20,     /* 20 in a short fold where 22 would do; tested right after 7 */
    RUNFOLD_GROUP_IN_SEASON = 21,   /* 11 in a season run or a season fold; tested right after 2, so before 3 */
    RUNFOLD_SHORT = 255             /* the answer slice has fewer than RUNFOLD_ENTRIES entries */
};

/* The meaning of a refusal number, a call's result or answer[RUNFOLD_REFUSAL], in the words of docs/REFUSALS.md. */
static inline const char *runfold_refusal_text(uint64_t number)
{
    switch (number) {
    case RUNFOLD_OK:
        return "success";
    case RUNFOLD_UNKNOWN_COMMAND:
        return "unknown command";
    case RUNFOLD_REPEAT_IN_RUN:
        return "20 or 21 in a run";
    case RUNFOLD_UNFINISHED:
        return "operands missing, or the end with something open";
    case RUNFOLD_WRONG_CLOSE:
        return "12 or 21 where nothing is open or the innermost open thing is not of its kind";
    case RUNFOLD_EMPTY_BODY:
        return "a close right after its open";
    case RUNFOLD_SMALL_COUNT:
        return "count 0 or 1";
    case RUNFOLD_WIDE:
        return "width operand over the limit";
    case RUNFOLD_DEEP:
        return "a 9th open group or an 11th open repeat";
    case RUNFOLD_FALSE_WIDTH:
        return "width operand not the true width, found at 21";
    case RUNFOLD_MANY_NODES:
        return "node total would pass 1,024, or 65,535 in a season";
    case RUNFOLD_STEP_TABLE_SIZE:
        return "step cost table not of 256 entries";
    case RUNFOLD_LIMIT_SIZE:
        return "width limit over 1,024, or over 32 for a season";
    case RUNFOLD_WORK_SIZE:
        return "a work slice too short";
    case RUNFOLD_OUTPUT_SIZE:
        return "output shorter than the result";
    case RUNFOLD_GROUP_TABLE_SIZE:
        return "group cost table not of 256 entries";
    case RUNFOLD_PAST_END:
        return "position not below the node total";
    case RUNFOLD_FALSE_INDEX:
        return "index not the one that the builder writes";
    case RUNFOLD_WRONG_MARKS:
        return "marks not of 256 entries, or an entry above 1";
    case RUNFOLD_MARKED_IN_REPEAT:
        return "a marked label inside a repeat";
    case RUNFOLD_LONG_IN_SHORT:
        return "20 in the short family with count and width both below 256";
    case RUNFOLD_GROUP_IN_SEASON:
        return "a group in a season run or a season fold";
    case RUNFOLD_SHORT:
        return "answer slice too short";
    default:
        return "no refusal has this number";
    }
}

/* The run reader: refusals 1 to 5, 8 and 10, or the nodes, the steps and the depth of the run. Writes `answer` alone. */
uint8_t runfold_read_run(const uint8_t *run, size_t run_len, uint64_t *answer, size_t answer_len);

/* The part of a node: the step or group that starts at the offset `at` of the run, with all it holds, is the bytes from `at`
 * on, as many as the result says; 0 where the run reader refuses the run or no node starts there. Writes nothing. */
size_t runfold_part(const uint8_t *run, size_t run_len, size_t at);

/* The fold reader: refusals 1, 3 to 12, 15, 18 and 19, or the nodes, the bytes, the steps and the depth of the run, and the
 * fold's cost at these prices. Writes `answer` alone. */
uint8_t runfold_read_fold(const uint8_t *fold, size_t fold_len, size_t limit, const uint16_t *steps, size_t steps_len,
                          const uint16_t *groups, size_t groups_len, const uint8_t *marks, size_t marks_len, uint16_t first,
                          uint16_t each, uint64_t *answer, size_t answer_len);

/* The unroller: refusals 1, 3 to 10, 12 and 14, or the length of the run. On success the run stands in the first bytes of
 * `out`, that many, and the others stay as they are; after a refusal `out` stays as it is. */
uint8_t runfold_unroll(const uint8_t *fold, size_t fold_len, size_t limit, uint8_t *out, size_t out_len, uint64_t *answer,
                       size_t answer_len);

/* The folder: refusals 1 to 5, 8, 10 to 15 and 18, or the length and the cost of the cheapest fold of the run at these prices
 * whose widths are within the limit and whose repeats hold no marked label; of several, the one with the fewest 20 commands,
 * each counted once; and of several such, the one whose bytes come first. `costs` and `choices` are work, of at least
 * RUNFOLD_WORK(nodes) entries each and with any contents; they hold no prices. RUNFOLD_ROOM(nodes) bytes of output are always
 * enough: refusal 14 does not say how many are missing.
 * On success the fold stands in the first bytes of `out`, as many as the length says, and the others stay as they are; after a
 * refusal `out` stays as it is. On success and after refusal 14 the first RUNFOLD_WORK(nodes) entries of both work slices are
 * 0 and the others stay as they are; after any other refusal both stay as they are. */
uint8_t runfold_fold(const uint8_t *run, size_t run_len, size_t limit, const uint16_t *steps, size_t steps_len,
                     const uint16_t *groups, size_t groups_len, const uint8_t *marks, size_t marks_len, uint16_t first,
                     uint16_t each, uint32_t *costs, size_t costs_len, uint32_t *choices, size_t choices_len, uint8_t *out,
                     size_t out_len, uint64_t *answer, size_t answer_len);

/* The index builder: refusals 1, 3 to 6, 8 to 10 and 14, or the number of outermost items of the fold, which is the number of
 * entries. It takes neither limit nor marks: a fold that it does not refuse, the fold reader accepts at RUNFOLD_MAX_WIDTH where
 * no label is marked. As many entries in each slice as the fold has nodes are always enough, so RUNFOLD_MAX_NODES are for any
 * fold.
 * On success the index stands in the first entries of `offsets` and `before`, that many of each, and the others stay as they
 * are; after a refusal both slices stay as they are. */
uint8_t runfold_index(const uint8_t *fold, size_t fold_len, uint32_t *offsets, size_t offsets_len, uint32_t *before,
                      size_t before_len, uint64_t *answer, size_t answer_len);

/* The finder: refusals 1, 3 to 6, 8 to 10, 17 and 16, or label, command and offset of the node at the position. `offsets` and
 * `before` are the index of this fold, with the number of entries that runfold_index answered as the length of each: any other
 * number or length is refusal 17. Writes `answer` alone. */
uint8_t runfold_find(const uint8_t *fold, size_t fold_len, const uint32_t *offsets, size_t offsets_len, const uint32_t *before,
                     size_t before_len, uint64_t position, uint64_t *answer, size_t answer_len);

/* The short reader, the fold reader of short folds: refusals 1, 3 to 12, 15 and 18 to 20, or what the fold reader answers for
 * the fold that it is the short form of. Writes `answer` alone. */
uint8_t runfold_read_short(const uint8_t *fold, size_t fold_len, size_t limit, const uint16_t *steps, size_t steps_len,
                           const uint16_t *groups, size_t groups_len, const uint8_t *marks, size_t marks_len, uint16_t first,
                           uint16_t each, uint64_t *answer, size_t answer_len);

/* The short folder, which folds as runfold_fold does and writes the short form of that fold: refusals, cost and work slices
 * are as there; `out` and the length are those of the short form, which is also what refusal 14 measures. That it is shorter
 * decides nothing about which fold it is. */
uint8_t runfold_fold_short(const uint8_t *run, size_t run_len, size_t limit, const uint16_t *steps, size_t steps_len,
                           const uint16_t *groups, size_t groups_len, const uint8_t *marks, size_t marks_len, uint16_t first,
                           uint16_t each, uint32_t *costs, size_t costs_len, uint32_t *choices, size_t choices_len,
                           uint8_t *out, size_t out_len, uint64_t *answer, size_t answer_len);

/* The conversion of a fold to its short form: refusals 1, 3 to 6, 8 to 10 and 14, or the length of the short form. Like the
 * index builder it takes neither limit nor marks. As many bytes of output as the fold has are always enough.
 * On success the short form stands in the first bytes of `out`, that many, and the others stay as they are; after a refusal
 * `out` stays as it is. */
uint8_t runfold_to_short(const uint8_t *fold, size_t fold_len, uint8_t *out, size_t out_len, uint64_t *answer,
                         size_t answer_len);

/* The conversion of a short fold to the fold that it is the short form of: refusals 1, 3 to 6, 8 to 10, 20 and 14, or the
 * length of the fold. It takes neither limit nor marks. RUNFOLD_ROOM(nodes) bytes of output are always enough.
 * On success the fold stands in the first bytes of `out`, that many, and the others stay as they are; after a refusal `out`
 * stays as it is. */
uint8_t runfold_to_long(const uint8_t *fold, size_t fold_len, uint8_t *out, size_t out_len, uint64_t *answer,
                        size_t answer_len);

/* The season run reader: refusals 1 to 4, 10 and 21, or the nodes and the steps of the run, which are as many, and the depth
 * 0. Writes `answer` alone. */
uint8_t runfold_read_season_run(const uint8_t *run, size_t run_len, uint64_t *answer, size_t answer_len);

/* The season reader, the fold reader of season folds: refusals 1, 3 to 12, 15, 18, 19 and 21, or the nodes, the bytes and the
 * steps of the run, the depth 0, and the fold's cost at these prices. Writes `answer` alone. */
uint8_t runfold_read_season(const uint8_t *fold, size_t fold_len, size_t limit, const uint16_t *steps, size_t steps_len,
                            const uint16_t *groups, size_t groups_len, const uint8_t *marks, size_t marks_len, uint16_t first,
                            uint16_t each, uint64_t *answer, size_t answer_len);

/* The season unroller: refusals 1, 3 to 10, 12, 14 and 21, or the length of the run. RUNFOLD_SEASON_RUN bytes of output are
 * always enough. `out` is written as by runfold_unroll. */
uint8_t runfold_unroll_season(const uint8_t *fold, size_t fold_len, size_t limit, uint8_t *out, size_t out_len,
                              uint64_t *answer, size_t answer_len);

/* The season folder: refusals 1 to 4, 10 to 15, 18 and 21, or the length and the cost of the cheapest fold of a season run, in
 * the order that the folder goes by. `work` has at least RUNFOLD_SEASON_WORK(nodes) entries, of any contents.
 * RUNFOLD_ROOM(nodes) bytes of output are always enough.
 * `out` is written as by runfold_fold. On success and after refusal 14 the first RUNFOLD_SEASON_WORK(nodes) entries of `work`
 * are 0 and the others stay as they are; after any other refusal all of it stays as it is. */
uint8_t runfold_fold_season(const uint8_t *run, size_t run_len, size_t limit, const uint16_t *steps, size_t steps_len,
                            const uint16_t *groups, size_t groups_len, const uint8_t *marks, size_t marks_len, uint16_t first,
                            uint16_t each, uint32_t *work, size_t work_len, uint8_t *out, size_t out_len, uint64_t *answer,
                            size_t answer_len);

#ifdef __cplusplus
}
#endif

#endif
