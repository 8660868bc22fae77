/* What the tests of the short family and of seasons share: the answer, and how a wrong one is told. */
#include "runfold.h"

#include <stdio.h>
#include <string.h>

/* The entries of an answer, and what memory is filled with that a call may not write. */
enum { ALL = RUNFOLD_ENTRIES, UNWRITTEN = 99 };

static uint64_t answer[ALL];
static int failures;

static void fail(const char *name, const char *what)
{
    printf("%s, %s\n", name, what);
    failures++;
}

static void expect(const char *name, const char *function, unsigned result, const uint64_t *wanted)
{
    if (result != wanted[RUNFOLD_REFUSAL] || memcmp(answer, wanted, sizeof answer) != 0)
        fail(name, function);
}

/* The first bytes of an output are these, and the others are not written. */
static void expect_bytes(const char *name, const char *function, const uint8_t *out, size_t room, const uint8_t *wanted,
                         size_t len)
{
    int right = memcmp(out, wanted, len) == 0;

    for (size_t i = len; i < room; i++)
        right = right && out[i] == UNWRITTEN;
    if (!right)
        fail(name, function);
}
