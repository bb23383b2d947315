/* Replays the stills of two lenses under one plan, in turns, as a camera would that has one processor for both. Each lens has its own
 * depth, residuals, plane and progress record; they share the plan, which stays as it is while either has blocks left. Nothing more is
 * needed: an entry keeps nothing between calls and makes its own scratch. A turn that is refused leaves both lenses as they were.
 *
 *     tests/archive camera
 *     gcc -std=c99 -Iinclude examples/lenses.c target/archive/libcamera.a -o target/lenses && target/lenses
 *
 * Both stills are 32 by 16 samples in eight blocks of 8 by 8 in mode 1. Lens 0 has 8 bits and sees 130, lens 1 has 10 bits and sees 700.
 * The first block has no neighbour and is predicted at 128 or 512, so its residuals are 2 or 188; all others are 0. */
#include <stdint.h>
#include <stdio.h>
#include <string.h>

#include "salvrunde.h"

enum { WIDTH = 32, HEIGHT = 16, SAMPLES = WIDTH * HEIGHT, BLOCKS = 8, LENSES = 2 };

struct lens {
    uint32_t bits, done;
    uint8_t residuals[4 * SAMPLES], plane[2 * SAMPLES];
};

/* row, column (two bytes each, the lower first), side, mode */
static const uint8_t plan[6 * BLOCKS] = {0, 0, 0,  0, 8, 1, 0, 0, 8,  0, 8, 1, 8, 0, 0,  0, 8, 1, 8, 0, 8,  0, 8, 1,
                                         0, 0, 16, 0, 8, 1, 0, 0, 24, 0, 8, 1, 8, 0, 16, 0, 8, 1, 8, 0, 24, 0, 8, 1};

static uint32_t number_at(const uint8_t *bytes) {
    return (uint32_t)bytes[0] | (uint32_t)bytes[1] << 8 | (uint32_t)bytes[2] << 16 | (uint32_t)bytes[3] << 24;
}

/* The lens's next blocks, as many as are granted; its record goes on by what the call did. */
static uint32_t turn(struct lens *l, uint32_t grant) {
    uint8_t result[SALVRUNDE_RESULT_BYTES];
    uint32_t no = salvrunde_replay(l->done, l->bits, WIDTH, HEIGHT, 16, grant, plan, sizeof plan, l->residuals, sizeof l->residuals,
                                   l->plane, sizeof l->plane, result, sizeof result);
    l->done = number_at(result + 4);
    return no;
}

int main(void) {
    static struct lens lenses[LENSES] = {{.bits = 8}, {.bits = 10}};
    static const struct {
        int lens;
        uint32_t grant;
    } turns[] = {{0, 2}, {1, 1}, {1, 3}, {0, 1}, {1, 2}, {0, 4}, {1, 9}, {0, 9}};

    for (int i = 0; i < 64; i++) lenses[0].residuals[4 * i] = 2, lenses[1].residuals[4 * i] = 188;
    for (int i = 0; i < LENSES; i++) memset(lenses[i].plane, 0xEE, sizeof lenses[i].plane);

    for (size_t i = 0; i < sizeof turns / sizeof *turns; i++) {
        struct lens *l = &lenses[turns[i].lens];
        /* before its third turn lens 1 is handed a residual of 1024, which 10 bits do not have */
        if (i == 4) {
            l->residuals[4 * 300 + 1] = 4;
            unsigned no = (unsigned)turn(l, 1);
            printf("lens 1: refused with number %u, %u of %d blocks done\n", no, (unsigned)l->done, BLOCKS);
            l->residuals[4 * 300 + 1] = 0;
        }
        if (turn(l, turns[i].grant) != SALVRUNDE_DONE) return 1;
        printf("lens %d: %u of %d blocks done\n", turns[i].lens, (unsigned)l->done, BLOCKS);
    }
    for (int i = 0; i < LENSES; i++) {
        unsigned least = 65535, most = 0;
        for (int k = 0; k < SAMPLES; k++) {
            unsigned sample = lenses[i].plane[2 * k] | (unsigned)lenses[i].plane[2 * k + 1] << 8;
            if (sample < least) least = sample;
            if (sample > most) most = sample;
        }
        printf("lens %d: samples from %u to %u\n", i, least, most);
    }
    return 0;
}
