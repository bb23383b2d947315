/* The largest still in the smallest blocks, as a list of records: 4096 by 4096 samples, 1,048,576 blocks of 4, walked and replayed on a thread with
 * a stack of 128 KiB, in two calls each. The residuals are replayed over a plane of other contents, and the source must come back. */
#include <pthread.h>
#include <stdint.h>
#include <stdio.h>
#include <stdlib.h>
#include <string.h>

struct block { uint32_t row, col, side, mode; };
struct scratch { uint16_t refs[193]; uint32_t indices[32], fractions[32]; };
struct step { uint32_t no, block, did, done; };
struct step salvrunde_probe_walk_records(uint32_t done, uint32_t bits, uint32_t width, uint32_t height, uint32_t ctu, const struct block *plan,
    size_t plan_length, const uint16_t *source, size_t source_length, uint16_t *work, size_t work_length, int32_t *residuals,
    size_t residuals_length, struct scratch *scratch, uint32_t grant);
struct step salvrunde_probe_replay_records(uint32_t done, uint32_t bits, uint32_t width, uint32_t height, uint32_t ctu, const struct block *plan,
    size_t plan_length, const int32_t *residuals, size_t residuals_length, uint16_t *plane, size_t plane_length, struct scratch *scratch,
    uint32_t grant);

enum { SIDE = 4096, SAMPLES = SIDE * SIDE, BLOCKS = SAMPLES / 16, CTU = 64, STACK = 128 * 1024, FIRST = 700001, BAD = 1000000 };

static struct block plan[BLOCKS];
static uint16_t source[SAMPLES], plane[SAMPLES];
static int32_t residuals[SAMPLES];
static struct scratch scratch;
static const char *wrong = "not run";

/* Cells of 4 in decode order: CTUs in rows, quarters of quarters inside. */
static size_t cells(size_t at, uint32_t row, uint32_t col, uint32_t side) {
    if (side == 4) {
        plan[at] = (struct block){row, col, 4, (uint32_t)(at % 35)};
        return at + 1;
    }
    for (uint32_t q = 0; q < 4; q++) at = cells(at, row + q / 2 * (side / 2), col + q % 2 * (side / 2), side / 2);
    return at;
}

static int is(struct step s, uint32_t no, uint32_t block, uint32_t did, uint32_t done) {
    return s.no == no && s.block == block && s.did == did && s.done == done;
}

#define MUST(test) do { if (!(test)) { wrong = #test; return NULL; } } while (0)
#define WALK(done, grant) salvrunde_probe_walk_records(done, 8, SIDE, SIDE, CTU, plan, BLOCKS, source, SAMPLES, plane, SAMPLES, residuals, SAMPLES, &scratch, grant)
#define REPLAY(done, grant) salvrunde_probe_replay_records(done, 8, SIDE, SIDE, CTU, plan, BLOCKS, residuals, SAMPLES, plane, SAMPLES, &scratch, grant)

static void *run(void *nothing) {
    MUST(is(WALK(0, FIRST), 0, 0, FIRST, FIRST));
    MUST(is(WALK(FIRST, UINT32_MAX), 0, 0, BLOCKS - FIRST, BLOCKS));
    MUST(memcmp(plane, source, sizeof plane) == 0);
    memset(plane, 0x5A, sizeof plane);
    MUST(is(REPLAY(0, FIRST), 0, 0, FIRST, FIRST));
    MUST(plane[SAMPLES - 1] == 0x5A5A);
    MUST(is(REPLAY(FIRST, UINT32_MAX), 0, 0, BLOCKS - FIRST, BLOCKS));
    MUST(memcmp(plane, source, sizeof plane) == 0);
    plan[BAD].side = 5;
    MUST(is(REPLAY(7, 1), 2, BAD, 0, 7));
    wrong = NULL;
    return nothing;
}

int main(void) {
    uint32_t state = 1;
    size_t at = 0;
    pthread_attr_t attributes;
    pthread_t thread;
    for (uint32_t row = 0; row < SIDE; row += CTU)
        for (uint32_t col = 0; col < SIDE; col += CTU) at = cells(at, row, col, CTU);
    for (size_t i = 0; i < SAMPLES; i++) state = state * 1664525u + 1013904223u, source[i] = (uint16_t)(state >> 24);
    if (at != BLOCKS || pthread_attr_init(&attributes) || pthread_attr_setstacksize(&attributes, STACK)) return 2;
    if (pthread_create(&thread, &attributes, run, NULL) || pthread_join(thread, NULL)) return 2;
    if (wrong) return printf("records: %s does not hold\n", wrong), 1;
    printf("records: %d blocks walked and replayed on a stack of %d bytes\n", BLOCKS, STACK);
    return 0;
}
