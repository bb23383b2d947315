/* Chooses the mode of a block as an encoder would: gathers the rows around it, has the mode chosen whose prediction is nearest, predicts
 * the block in that mode, and shows the residuals.
 *
 *     tests/archive camera
 *     gcc -std=c99 -Iinclude examples/choose.c target/archive/libcamera.a -o target/choose && target/choose
 *
 * The picture is 16 by 16 samples with stripes that fall to the right, three samples down for each two across. The block is the last of
 * four, 8 by 8, and its neighbours are those of the picture itself. Ends with 1 where the residuals do not come to the sum
 * that was told. */
#include <stdint.h>
#include <stdio.h>

#include "salvrunde.h"

enum { BITS = 8, SIDE = 16, CTU = 16, UNIT = 4, N = 8, ROW = 8, COL = 8 };

static uint32_t number_at(const uint8_t *bytes) {
    return (uint32_t)bytes[0] | (uint32_t)bytes[1] << 8 | (uint32_t)bytes[2] << 16 | (uint32_t)bytes[3] << 24;
}

static int sample_at(const uint8_t *bytes, int i) { return bytes[2 * i] | bytes[2 * i + 1] << 8; }

int main(void) {
    static uint8_t plane[2 * SIDE * SIDE], source[SALVRUNDE_BLOCK_BYTES(N)], pred[SALVRUNDE_BLOCK_BYTES(N)];
    uint8_t refs[SALVRUNDE_REFS_BYTES], choice[SALVRUNDE_CHOICE_BYTES];
    const uint8_t *above = refs + 2, *left = refs + 2 + SALVRUNDE_LUMA_ROW_BYTES;

    for (int row = 0; row < SIDE; row++)
        for (int col = 0; col < SIDE; col++) plane[2 * (row * SIDE + col)] = (uint8_t)((3 * col - 2 * row + 60) / 12 % 2 ? 200 : 60);
    for (int row = 0; row < N; row++)
        for (int col = 0; col < N; col++) source[2 * (row * N + col)] = plane[2 * ((ROW + row) * SIDE + COL + col)];

    if (salvrunde_luma_refs(BITS, SIDE, SIDE, CTU, UNIT, ROW, COL, N, plane, sizeof plane, refs, sizeof refs) != SALVRUNDE_DONE) return 1;
    uint16_t corner = (uint16_t)sample_at(refs, 0);
    if (salvrunde_choose(BITS, N, corner, above, SALVRUNDE_LUMA_ROW_BYTES, left, SALVRUNDE_LUMA_ROW_BYTES, source, sizeof source, choice,
                         sizeof choice) != SALVRUNDE_DONE)
        return 1;
    uint32_t mode = number_at(choice), told = number_at(choice + 4), sum = 0;
    printf("mode %u, sum of absolute differences %u\n", (unsigned)mode, (unsigned)told);
    if (salvrunde_luma_block(BITS, N, mode, corner, above, SALVRUNDE_LUMA_ROW_BYTES, left, SALVRUNDE_LUMA_ROW_BYTES, pred, sizeof pred) !=
        SALVRUNDE_DONE)
        return 1;
    for (int i = 0; i < N * N; i++) {
        int residual = sample_at(source, i) - sample_at(pred, i);
        sum += (uint32_t)(residual < 0 ? -residual : residual);
        printf("%d%c", residual, (i + 1) % N ? ' ' : '\n');
    }
    return sum != told;
}
