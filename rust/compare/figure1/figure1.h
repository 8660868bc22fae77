// The report's dynamic programme for a shortest repetition representation string (its Figure 1, ShortestRRS), for the
// benchmark: as it stands, and in two faster forms. All compute the same table: l[i][j] is the length of a shortest
// representation of the letters i to j.
#ifndef FIGURE1_H
#define FIGURE1_H

#include <stddef.h>
#include <stdint.h>

// A row of a table has room for 1,024 letters and for whole vectors, and is no power of two. A table has as many rows.
#define FIGURE1_STRIDE 1040

// Longer than every length; twice as much still fits.
#define FIGURE1_INFINITE 0x7fffffffu

// What h copies add to the length of one: the repetition weight function.
static inline uint32_t figure1_repeat(uint32_t first, uint32_t each, uint32_t h)
{
    return first + each * (h - 2);
}

// Figure 1 line by line, from 0 instead of 1. `type` is the case and its number, case * 65536 + d or h. Answers l[0][n - 1];
// n is 1 to 1,024.
uint32_t figure1_plain(size_t n, const uint32_t *label, const uint32_t *weight, uint32_t first, uint32_t each, uint32_t *l,
                       uint32_t *type);

// The same with a transposed copy t of the table, so that the inner loop runs over two contiguous rows, from the last row to
// the first. How far the copies of a stretch go is counted once for each pair of letters, in `match`, n + 1 numbers.
uint32_t figure1_transposed(size_t n, const uint32_t *label, const uint32_t *weight, uint32_t first, uint32_t each,
                            uint32_t *l, uint32_t *t, uint32_t *match);

// The same in blocks of four rows by four columns, so that what is loaded serves sixteen sums. `match` has room for
// five rows. The tables stand at multiples of 64 bytes.
uint32_t figure1_blocked(size_t n, const uint32_t *label, const uint32_t *weight, uint32_t first, uint32_t each, uint32_t *l,
                         uint32_t *match);

// The processor time of this thread in seconds.
double figure1_seconds(void);

#endif
