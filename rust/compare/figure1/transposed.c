// Figure 1 of the report with a transposed copy: both operands of the inner loop are contiguous, and the compiler makes
// vectors of it.
#include "figure1.h"

#include <string.h>

uint32_t figure1_transposed(size_t n, const uint32_t *label, const uint32_t *weight, uint32_t first, uint32_t each,
                            uint32_t *l, uint32_t *t, uint32_t *match)
{
    memset(match, 0, (n + 1) * sizeof *match);
    for (size_t i = n; i-- > 0;) {
        uint32_t *row = l + i * FIGURE1_STRIDE;
        // How many letters from i on equal the one w further.
        for (size_t w = 1; i + w < n; w++)
            match[w] = label[i] == label[i + w] ? match[w] + 1 : 0;
        match[n - i] = 0;
        for (size_t j = i; j < n; j++)
            row[j] = FIGURE1_INFINITE;
        row[i] = weight[i];
        for (size_t j = i; j < n; j++) {
            const uint32_t *left = row + i;
            const uint32_t *right = t + j * FIGURE1_STRIDE + i + 1;
            uint32_t best = row[j];
            for (size_t d = 0; d < j - i; d++) {
                uint32_t sum = left[d] + right[d];
                best = sum < best ? sum : best;
            }
            row[j] = best;
            t[j * FIGURE1_STRIDE + i] = best;
            size_t w = j - i + 1;
            for (size_t h = 2; (h - 1) * w <= match[w]; h++) {
                uint32_t sum = best + figure1_repeat(first, each, (uint32_t)h);
                uint32_t *whole = row + i + h * w - 1;
                *whole = sum < *whole ? sum : *whole;
            }
        }
    }
    return l[n - 1];
}
