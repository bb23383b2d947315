/* How much stack each of the firmware's entries takes, on x86-64, with the archive as it is shipped: paints the stack below, calls, and looks how
 * far down the paint is gone. Substitution, which no entry of the firmware reaches, is measured as the tests' archive has it. Needs start.c and no
 * C library. */
#include <stddef.h>
#include <stdint.h>

#include "salvrunde.h"

typedef unsigned long word;

enum { WIDTH = 64, HEIGHT = 64, SAMPLES = WIDTH * HEIGHT, DEEP = 64 * 1024, PAINT = 0xA5 };

static uint8_t plane[2 * SAMPLES], other[2 * SAMPLES], residuals[4 * SAMPLES], rows[524], above[130], left[130], block[2048], source[2048], result[8];
static uint8_t plan[6 * 256], report[SALVRUNDE_REPORT_BYTES], more[SALVRUNDE_REPORT_BYTES];

static long system_call(long number, long a, long b, long c) {
    long r;
    __asm__ volatile("syscall" : "=a"(r) : "a"(number), "D"(a), "S"(b), "d"(c) : "rcx", "r11", "memory");
    return r;
}

static void say(const char *text) {
    long length = 0;
    while (text[length]) length++;
    system_call(1, 1, (long)text, length);
}

static void say_number(word v) {
    char digits[24];
    int at = 23;
    for (digits[at] = 0; at == 23 || v > 0; v /= 10) digits[--at] = (char)('0' + v % 10);
    say(digits + at);
}

static uint32_t side, mode;
static uint32_t nothing(void) { return 0; }
static uint32_t luma(void) { return salvrunde_luma_refs(8, WIDTH, HEIGHT, 64, 4, 32, 32, side, plane, sizeof plane, rows, sizeof rows); }
static uint32_t chroma(void) {
    return salvrunde_chroma_refs_ctu(8, 3, WIDTH, HEIGHT, 64, 4, 32, 32, side, 32, 32, plane, sizeof plane, other, sizeof other, rows,
        sizeof rows);
}
/* rows are as short as they may be */
#define ROW SALVRUNDE_ROW_BYTES(side)
static uint32_t planar(void) { return salvrunde_planar(side, above, ROW, left, ROW, block, sizeof block); }
static uint32_t dc(void) { return salvrunde_dc(side, 1, above, ROW, left, ROW, block, sizeof block); }
static uint32_t angular(void) { return salvrunde_angular(8, side, mode, 1, 7, above, ROW, left, ROW, block, sizeof block); }
static uint32_t chroma_block(void) { return salvrunde_chroma_block(8, side, mode, 7, above, ROW, left, ROW, block, sizeof block); }
static uint32_t luma_block(void) { return salvrunde_luma_block(8, side, mode, 7, above, 130, left, 130, block, sizeof block); }
/* it tries every mode, whatever `mode` is */
static uint32_t choose(void) { return salvrunde_choose(8, side, 7, above, 130, left, 130, source, sizeof source, result, sizeof result); }
static uint32_t choose_early(void) {
    return salvrunde_choose_early(8, side, 7, above, 130, left, 130, source, sizeof source, result, sizeof result);
}
static uint32_t replay(void) {
    uint32_t count = WIDTH / side * (HEIGHT / side);
    return salvrunde_replay(0, 8, WIDTH, HEIGHT, 64, count, plan, 6 * count, residuals, sizeof residuals, plane, sizeof plane, result,
                            sizeof result);
}

/* The tests' entry of substitution. Its answer is stored where the first argument points to, as a struct of this size comes back on x86-64: so no copy
 * of the caller's is counted. */
struct references {
    uint32_t no;
    uint16_t corner, above[65], left[65];
};
void *salvrunde_probe_substitute_refs(struct references *answer, uint16_t corner, const uint16_t *above, const uint16_t *left, _Bool has_corner,
                                      const _Bool *has_above, const _Bool *has_left, size_t n, uint32_t bits);

/* The modes stand for flags: none there, all, entry 2n of each row alone, and one in three. */
static uint32_t substitution(void) {
    static struct references answer;
    static uint16_t samples[65];
    static _Bool there[65];
    for (uint32_t i = 0; i < 65; i++) there[i] = mode == 1 || (mode == 2 && i == 2 * side) || (mode == 3 && i % 3 == 1);
    salvrunde_probe_substitute_refs(&answer, 7, samples, samples, mode == 1, there, there, side, 8);
    return answer.no;
}

static uint32_t checksum(void) { return salvrunde_checksum(12, WIDTH, HEIGHT, 0, HEIGHT, 0, plane, sizeof plane, result, sizeof result); }

/* Error reports of 8 bits, fresh; what is counted is the plane that the replays left, beside itself. */
static void settle(uint8_t *r) {
    for (word i = 0; i < SALVRUNDE_REPORT_BYTES; i++) r[i] = 0;
    r[0] = 8, r[4] = WIDTH, r[8] = HEIGHT, r[12] = 64;
}
static uint32_t count_errors(void) {
    settle(report);
    return salvrunde_count_errors(plane, sizeof plane, plane, sizeof plane, plan, 6 * (WIDTH / side * (HEIGHT / side)), report, sizeof report);
}
static uint32_t join_errors(void) {
    settle(more);
    return salvrunde_join_errors(report, sizeof report, more, sizeof more);
}

/* The plan of one CTU in blocks of `side`, all of one mode: block i lies where the bits of i say, column bit below row bit. */
static void lay_plan(void) {
    for (uint32_t i = 0; i < WIDTH / side * (HEIGHT / side); i++) {
        uint32_t row = 0, col = 0;
        for (uint32_t k = 0; k < 4; k++) col |= (i >> 2 * k & 1) << k, row |= (i >> (2 * k + 1) & 1) << k;
        plan[6 * i] = (uint8_t)(row * side), plan[6 * i + 2] = (uint8_t)(col * side);
        plan[6 * i + 4] = (uint8_t)side, plan[6 * i + 5] = (uint8_t)mode;
    }
}

/* The bytes below this call's own frame that a call changed. */
static __attribute__((noinline)) word used(uint32_t (*call)(void)) {
    word depth = 0;
    volatile uint8_t *top;
    __asm__ volatile("mov %%rsp, %0" : "=r"(top));
    for (word i = 256; i < DEEP; i++) *(top - i) = PAINT;
    if (call() != 0) say("refused\n"), system_call(60, 1, 0, 0);
    for (word i = 256; i < DEEP; i++)
        if (*(top - i) != PAINT) depth = i;
    return depth;
}

static int over;

/* The greatest over every side and the modes from `first` to `last`. */
static void tell(const char *name, uint32_t (*call)(void), uint32_t first, uint32_t last, word most) {
    word least = used(nothing), greatest = 0;
    for (side = 4; side <= 32; side *= 2)
        for (mode = first; mode <= last; mode++) {
            lay_plan();
            word depth = used(call) - least;
            if (depth > greatest) greatest = depth;
        }
    say(name), say(" "), say_number(greatest), say(" of "), say_number(most), say("\n");
    if (greatest > most) over = 1;
}

int main(void) {
    for (word i = 0; i < sizeof plane; i++) plane[i] = other[i] = (uint8_t)(i * 7);
    tell("luma_refs", luma, 0, 0, 6144);
    tell("chroma_refs", chroma, 0, 0, 6144);
    tell("planar", planar, 0, 0, 6144);
    tell("dc", dc, 1, 1, 6144);
    tell("angular", angular, 2, 34, 6144);
    tell("chroma_block", chroma_block, 0, 34, 6144);
    tell("luma_block", luma_block, 0, 34, 6144);
    tell("choose", choose, 0, 0, 9216);
    tell("choose_early", choose_early, 0, 0, 9216);
    tell("replay", replay, 0, 34, 8192);
    tell("substitution", substitution, 0, 3, 768);
    tell("checksum", checksum, 0, 0, 1024); /* of the plane that the replays left: samples of 8 bits */
    tell("count_errors", count_errors, 0, 34, 6144);
    tell("join_errors", join_errors, 0, 0, 8192);
    return over;
}
