/* The checksum of the largest plane, 4096 by 4096 samples of 12 bits that each add the most under their mask: 6543114240 before it wraps
 * once, 2248146944 after. In one call, and in as many as there are rows of 64. The same sum is worked out here. */
#include <stdint.h>
#include <stdio.h>

#include "salvrunde.h"

enum { SIDE = 4096, ROWS = 64 };

static uint8_t plane[2 * SIDE * SIDE];

static uint32_t sum_of(uint32_t first, uint32_t end, uint32_t sum) {
    uint8_t out[SALVRUNDE_SUM_BYTES];
    if (salvrunde_checksum(12, SIDE, SIDE, first, end, sum, plane, sizeof plane, out, sizeof out) != SALVRUNDE_DONE) return 0;
    return (uint32_t)out[0] | (uint32_t)out[1] << 8 | (uint32_t)out[2] << 16 | (uint32_t)out[3] << 24;
}

int main(void) {
    uint64_t all = 0;
    uint32_t split = 0;
    for (uint32_t y = 0; y < SIDE; y++)
        for (uint32_t x = 0; x < SIDE; x++) {
            uint32_t mask = (x & 255) ^ (y & 255) ^ (x >> 8) ^ (y >> 8), low = 255 ^ mask, high = 15 & ~mask;
            uint8_t *sample = plane + 2 * ((size_t)y * SIDE + x);
            sample[0] = (uint8_t)low, sample[1] = (uint8_t)high;
            all += (low ^ mask) + (high ^ mask);
        }
    for (uint32_t y = 0; y < SIDE; y += ROWS) split = sum_of(y, y + ROWS, split);
    if (all != 6543114240u || sum_of(0, SIDE, 0) != 2248146944u || split != 2248146944u) {
        fprintf(stderr, "largest.c: %u in one call, %u in %d, of %llu\n", (unsigned)sum_of(0, SIDE, 0), (unsigned)split, SIDE / ROWS,
                (unsigned long long)all);
        return 1;
    }
    printf("largest plane: 4096 by 4096 samples of 12 bits, %llu wraps to %u, in one call and in %d\n", (unsigned long long)all,
           (unsigned)split, SIDE / ROWS);
    return 0;
}
