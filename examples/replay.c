/* Replays a still as the camera would: a few blocks a call, with the progress record passed on from call to call, and shows the
 * plane and its checksum.
 * Every call checks the whole plan and all residuals before it writes, so grant as many blocks as the time between calls allows.
 *
 *     tests/archive camera
 *     gcc -std=c99 -Iinclude examples/replay.c target/archive/libcamera.a -o target/replay && target/replay
 *
 * The still is 32 by 16 samples of 130, eight blocks of 8 by 8 in mode 1, four to a CTU of 16. The first block has no neighbour and is
 * predicted at 128, so its residuals are 2; the others are predicted from blocks before them, and their residuals are 0. */
#include <stdint.h>
#include <stdio.h>
#include <string.h>

#include "salvrunde.h"

enum { WIDTH = 32, HEIGHT = 16, SAMPLES = WIDTH * HEIGHT, BLOCKS = 8, A_FEW = 3 };

static uint32_t number_at(const uint8_t *bytes) {
    return (uint32_t)bytes[0] | (uint32_t)bytes[1] << 8 | (uint32_t)bytes[2] << 16 | (uint32_t)bytes[3] << 24;
}

int main(void) {
    /* row, column (two bytes each, the lower first), side, mode */
    static const uint8_t plan[6 * BLOCKS] = {0, 0, 0,  0, 8, 1, 0, 0, 8,  0, 8, 1, 8, 0, 0,  0, 8, 1, 8, 0, 8,  0, 8, 1,
                                             0, 0, 16, 0, 8, 1, 0, 0, 24, 0, 8, 1, 8, 0, 16, 0, 8, 1, 8, 0, 24, 0, 8, 1};
    static uint8_t residuals[4 * SAMPLES], plane[2 * SAMPLES];
    uint8_t result[8];
    uint32_t done = 0;

    for (int i = 0; i < 64; i++) residuals[4 * i] = 2;
    memset(plane, 0xEE, sizeof plane); /* whatever the plane held does not matter */

    while (done < BLOCKS) {
        uint32_t no = salvrunde_replay(done, 8, WIDTH, HEIGHT, 16, A_FEW, plan, sizeof plan, residuals, sizeof residuals, plane,
                                       sizeof plane, result, sizeof result);
        if (no != SALVRUNDE_DONE) {
            printf("refused with number %u at block %u\n", (unsigned)no, (unsigned)number_at(result));
            return 1;
        }
        done = number_at(result + 4);
        printf("%u of %d blocks done\n", (unsigned)done, BLOCKS);
    }
    uint8_t sum[SALVRUNDE_SUM_BYTES];
    if (salvrunde_checksum(8, WIDTH, HEIGHT, 0, HEIGHT, 0, plane, sizeof plane, sum, sizeof sum) != SALVRUNDE_DONE) return 1;
    printf("picture checksum %u\n", (unsigned)number_at(sum));
    for (int row = 0; row < HEIGHT; row++)
        for (int col = 0; col < WIDTH; col++) {
            const uint8_t *sample = plane + 2 * (row * WIDTH + col);
            printf("%u%c", (unsigned)(sample[0] | sample[1] << 8), col + 1 < WIDTH ? ' ' : '\n');
        }
    return 0;
}
