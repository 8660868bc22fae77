// Figure 1 of the report, line by line.
#define _POSIX_C_SOURCE 199309L
#include "figure1.h"

#include <string.h>
#include <time.h>

uint32_t figure1_plain(size_t n, const uint32_t *label, const uint32_t *weight, uint32_t first, uint32_t each, uint32_t *l,
                       uint32_t *type)
{
    // Lines 1 and 2.
    for (size_t i = 0; i < n; i++) {
        for (size_t j = i + 1; j < n; j++)
            l[i * FIGURE1_STRIDE + j] = FIGURE1_INFINITE;
        l[i * FIGURE1_STRIDE + i] = weight[i];
    }
    for (size_t h = 1; h <= n; h++) {
        for (size_t i = 0; i + h <= n; i++) {
            uint32_t *here = &l[i * FIGURE1_STRIDE + i + h - 1];
            // Lines 5 to 10: two stretches one after the other.
            for (size_t d = 0; d + 1 < h; d++) {
                uint32_t sum = l[i * FIGURE1_STRIDE + i + d] + l[(i + d + 1) * FIGURE1_STRIDE + i + h - 1];
                if (sum < *here) {
                    *here = sum;
                    type[i * FIGURE1_STRIDE + i + h - 1] = 2 * 65536 + (uint32_t)d;
                }
            }
            // Lines 11 to 17: this stretch repeated.
            for (size_t s = i + h; s + h <= n; s += h) {
                if (memcmp(label + s, label + i, h * sizeof *label) != 0)
                    break;
                uint32_t sum = *here + figure1_repeat(first, each, (uint32_t)((s - i) / h + 1));
                if (sum < l[i * FIGURE1_STRIDE + s + h - 1]) {
                    l[i * FIGURE1_STRIDE + s + h - 1] = sum;
                    type[i * FIGURE1_STRIDE + s + h - 1] = 65536 + (uint32_t)h;
                }
            }
        }
    }
    return l[n - 1];
}

double figure1_seconds(void)
{
    struct timespec now;
    clock_gettime(CLOCK_THREAD_CPUTIME_ID, &now);
    return (double)now.tv_sec + (double)now.tv_nsec / 1e9;
}
