// Figure 1 of the report in blocks of four rows by four columns. Where the entries of a block are known, each serves all
// entries to its right at once: l[i][q] is at most l[i][k] + l[k + 1][q], in whole vectors over q.
#include "figure1.h"

#include <string.h>

enum { BLOCK = 4, LANES = 16 };

static inline uint32_t least(uint32_t a, uint32_t b)
{
    return a < b ? a : b;
}

// Four entries k of each of four rows x against the four rows y behind them, from the vector of column `from` on.
static void push_block(size_t from, size_t n, uint32_t *restrict x, const uint32_t *restrict y, size_t k)
{
    uint32_t *restrict x0 = __builtin_assume_aligned(x, 64);
    uint32_t *restrict x1 = __builtin_assume_aligned(x + FIGURE1_STRIDE, 64);
    uint32_t *restrict x2 = __builtin_assume_aligned(x + 2 * FIGURE1_STRIDE, 64);
    uint32_t *restrict x3 = __builtin_assume_aligned(x + 3 * FIGURE1_STRIDE, 64);
    const uint32_t *restrict y0 = __builtin_assume_aligned(y, 64);
    const uint32_t *restrict y1 = __builtin_assume_aligned(y + FIGURE1_STRIDE, 64);
    const uint32_t *restrict y2 = __builtin_assume_aligned(y + 2 * FIGURE1_STRIDE, 64);
    const uint32_t *restrict y3 = __builtin_assume_aligned(y + 3 * FIGURE1_STRIDE, 64);
    uint32_t a0 = x0[k], a1 = x0[k + 1], a2 = x0[k + 2], a3 = x0[k + 3];
    uint32_t b0 = x1[k], b1 = x1[k + 1], b2 = x1[k + 2], b3 = x1[k + 3];
    uint32_t c0 = x2[k], c1 = x2[k + 1], c2 = x2[k + 2], c3 = x2[k + 3];
    uint32_t d0 = x3[k], d1 = x3[k + 1], d2 = x3[k + 2], d3 = x3[k + 3];
    size_t end = (n + LANES - 1) / LANES * LANES;
    // Columns of the first vector that are known already stay as they are: the sums there are no lower.
    for (size_t q = from / LANES * LANES; q < end; q++) {
        uint32_t z0 = y0[q], z1 = y1[q], z2 = y2[q], z3 = y3[q];
        x0[q] = least(least(least(least(x0[q], a0 + z0), a1 + z1), a2 + z2), a3 + z3);
        x1[q] = least(least(least(least(x1[q], b0 + z0), b1 + z1), b2 + z2), b3 + z3);
        x2[q] = least(least(least(least(x2[q], c0 + z0), c1 + z1), c2 + z2), c3 + z3);
        x3[q] = least(least(least(least(x3[q], d0 + z0), d1 + z1), d2 + z2), d3 + z3);
    }
}

// One entry of one row against the row behind it.
static void push_one(size_t from, size_t n, uint32_t *restrict x, const uint32_t *restrict y, size_t k)
{
    uint32_t a = x[k];
    for (size_t q = from; q < n; q++)
        x[q] = least(x[q], a + y[q]);
}

// The entry (i, q), to which all but the splits inside the block of rows and inside the block of columns were pushed; then
// its repeats.
static inline void settle(size_t i, size_t q, size_t rows_end, size_t from, uint32_t first, uint32_t each, uint32_t *l,
                          const uint32_t *match)
{
    uint32_t *row = l + i * FIGURE1_STRIDE;
    uint32_t best = row[q];
    size_t near = rows_end - 1 < q ? rows_end - 1 : q;
    for (size_t k = i; k < near; k++)
        best = least(best, row[k] + l[(k + 1) * FIGURE1_STRIDE + q]);
    for (size_t k = from > near ? from : near; k < q; k++)
        best = least(best, row[k] + l[(k + 1) * FIGURE1_STRIDE + q]);
    row[q] = best;
    size_t w = q - i + 1;
    for (size_t h = 2; (h - 1) * w <= match[w]; h++) {
        uint32_t *whole = row + i + h * w - 1;
        *whole = least(*whole, best + figure1_repeat(first, each, (uint32_t)h));
    }
}

uint32_t figure1_blocked(size_t n, const uint32_t *label, const uint32_t *weight, uint32_t first, uint32_t each, uint32_t *l,
                         uint32_t *match)
{
    // The matches of the four rows, and below them those of the row behind the block.
    uint32_t *below = match + BLOCK * FIGURE1_STRIDE;
    memset(below, 0, (n + 1) * sizeof *match);
    for (size_t top = (n + BLOCK - 1) / BLOCK * BLOCK; top > 0; top -= BLOCK) {
        size_t start = top - BLOCK, end = top < n ? top : n;
        for (size_t i = end; i-- > start;) {
            uint32_t *mine = match + (i - start) * FIGURE1_STRIDE;
            const uint32_t *next = i + 1 == end ? below : mine + FIGURE1_STRIDE;
            for (size_t w = 1; i + w < n; w++)
                mine[w] = label[i] == label[i + w] ? next[w] + 1 : 0;
            mine[n - i] = 0;
            for (size_t j = start / LANES * LANES; j < FIGURE1_STRIDE; j++)
                l[i * FIGURE1_STRIDE + j] = FIGURE1_INFINITE;
            l[i * FIGURE1_STRIDE + i] = weight[i];
        }
        memcpy(below, match, (n + 1) * sizeof *match);
        // The first block of columns is the triangle on the diagonal.
        for (size_t from = start, to = end; from < n; from = to, to = to + BLOCK < n ? to + BLOCK : n) {
            for (size_t i = end; i-- > start;)
                for (size_t q = from < i ? i : from; q < to; q++)
                    settle(i, q, end, from, first, each, l, match + (i - start) * FIGURE1_STRIDE);
            if (to == n)
                break;
            // Only the rows behind the block are whole.
            size_t k = from < end - 1 ? end - 1 : from;
            if (to - k == BLOCK) {
                push_block(to, n, l + start * FIGURE1_STRIDE, l + (k + 1) * FIGURE1_STRIDE, k);
                continue;
            }
            for (; k < to; k++)
                for (size_t i = start; i < end; i++)
                    push_one(to, n, l + i * FIGURE1_STRIDE, l + (k + 1) * FIGURE1_STRIDE, k);
        }
    }
    return l[n - 1];
}
