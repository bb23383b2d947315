/* Rows of exactly 2n entries, every side and mode: the doors at native types and the byte entries, with every buffer flush against a
 * page that may not be touched, behind it and then before it, so that one entry too many ends the program. The block is that of the
 * same rows made longer. One entry, or one byte, too few beside a row that is long, and rows of none, are refused with 5, and nothing
 * is written. */
#define _DEFAULT_SOURCE
#include <stdint.h>
#include <stdio.h>
#include <stdlib.h>
#include <string.h>
#include <sys/mman.h>
#include <unistd.h>

#include "salvrunde.h"

/* The doors, as crate probes exports them: a slice is a pointer and a count of elements. */
uint32_t salvrunde_probe_predict_planar_into(const uint16_t *above, size_t above_length, const uint16_t *left, size_t left_length,
    size_t n, uint16_t *pred, size_t pred_length);
uint32_t salvrunde_probe_predict_dc_into(const uint16_t *above, size_t above_length, const uint16_t *left, size_t left_length,
    size_t n, _Bool edge, uint16_t *pred, size_t pred_length);
uint32_t salvrunde_probe_predict_angular_slices(uint16_t corner, const uint16_t *above, size_t above_length, const uint16_t *left,
    size_t left_length, size_t n, uint8_t mode, _Bool edge, uint32_t bits, uint16_t *pred, size_t pred_length, uint16_t *refs,
    size_t refs_length, uint32_t *indices, size_t indices_length, uint32_t *fractions, size_t fractions_length);
uint32_t salvrunde_probe_predict_chroma_tb_slices(uint8_t mode, uint16_t corner, const uint16_t *above, size_t above_length,
    const uint16_t *left, size_t left_length, size_t n, uint32_t bits, uint16_t *pred, size_t pred_length, uint16_t *refs,
    size_t refs_length, uint32_t *indices, size_t indices_length, uint32_t *fractions, size_t fractions_length);

enum { REFS = 193, TABLE = 32, DIRT = 0xA5 };

static unsigned long calls;
static uint64_t state = 0x2545F4914F6CDD1Du;
static uint16_t refs[REFS];
static uint32_t indices[TABLE], fractions[TABLE];

static uint32_t chance(uint32_t below) {
    state ^= state << 13, state ^= state >> 7, state ^= state << 17;
    return (uint32_t)((state >> 24) % below);
}

/* One page that may be used, between two that may not. */
static uint8_t *page_between(size_t page) {
    uint8_t *all = mmap(NULL, 3 * page, PROT_NONE, MAP_PRIVATE | MAP_ANONYMOUS, -1, 0);
    if (all == MAP_FAILED || mprotect(all + page, page, PROT_READ | PROT_WRITE)) exit(2);
    return all + page;
}

/* Where a buffer of so many bytes lies: at the page's end or at its start. */
static uint8_t *flush(uint8_t *page_at, size_t page, size_t bytes, int at_end) { return at_end ? page_at + page - bytes : page_at; }

/* Such a buffer of samples; it begins at an even address. */
static uint16_t *words(uint8_t *at) { return (uint16_t *)(void *)at; }

/* A call: n, mode, edge, depth and corner; `chroma` asks for the chroma block, else the mode says which door. */
struct call { uint32_t n, mode, edge, bits; uint16_t corner; int chroma; };

static uint32_t door(struct call c, const uint16_t *a, size_t up, const uint16_t *l, size_t side, uint16_t *pred, size_t room) {
    calls++;
    if (c.chroma)
        return salvrunde_probe_predict_chroma_tb_slices((uint8_t)c.mode, c.corner, a, up, l, side, c.n, c.bits, pred, room, refs, REFS,
            indices, TABLE, fractions, TABLE);
    if (c.mode == 0) return salvrunde_probe_predict_planar_into(a, up, l, side, c.n, pred, room);
    if (c.mode == 1) return salvrunde_probe_predict_dc_into(a, up, l, side, c.n, c.edge != 0, pred, room);
    return salvrunde_probe_predict_angular_slices(c.corner, a, up, l, side, c.n, (uint8_t)c.mode, c.edge != 0, c.bits, pred, room, refs,
        REFS, indices, TABLE, fractions, TABLE);
}

static uint32_t entry(struct call c, const uint8_t *a, size_t up, const uint8_t *l, size_t side, uint8_t *out, size_t room) {
    calls++;
    if (c.chroma) return salvrunde_chroma_block(c.bits, c.n, c.mode, c.corner, a, up, l, side, out, room);
    if (c.mode == 0) return salvrunde_planar(c.n, a, up, l, side, out, room);
    if (c.mode == 1) return salvrunde_dc(c.n, c.edge, a, up, l, side, out, room);
    return salvrunde_angular(c.bits, c.n, c.mode, c.edge, c.corner, a, up, l, side, out, room);
}

static void hold(int holds, struct call c, const char *what) {
    if (holds) return;
    printf("rows: side %u, mode %u, edge %u, depth %u, chroma %d: %s\n", c.n, c.mode, c.edge, c.bits, c.chroma, what);
    exit(1);
}

static int all(const uint8_t *bytes, size_t count, uint8_t value) {
    for (size_t i = 0; i < count; i++)
        if (bytes[i] != value) return 0;
    return 1;
}

/* One call over rows of 2n entries, at either end of their pages. */
static void served(struct call c, uint8_t *const pages[3], size_t page, int at_end) {
    size_t row = SALVRUNDE_ROW_BYTES(c.n), room = SALVRUNDE_BLOCK_BYTES(c.n);
    uint8_t *a = flush(pages[0], page, row, at_end), *l = flush(pages[1], page, row, at_end), *o = flush(pages[2], page, room, at_end);
    uint16_t above[65], left[65], longer[1024];
    for (int i = 0; i < 65; i++) above[i] = (uint16_t)chance(chance(4) ? 65536 : 1), left[i] = (uint16_t)chance(chance(4) ? 65536 : 2);
    memcpy(a, above, row), memcpy(l, left, row);
    memset(o, DIRT, room);
    hold(door(c, above, 65, left, 65, longer, 1024) == 0, c, "rows of 65 entries are served");
    hold(door(c, words(a), 2 * c.n, words(l), 2 * c.n, words(o), room / 2) == 0, c, "rows of 2n entries are served");
    hold(!memcmp(o, longer, room), c, "the block of rows of 2n entries is that of longer ones");
    /* on bytes, the lower first, whatever this processor has */
    for (size_t i = 0; i < row / 2; i++) {
        a[2 * i] = (uint8_t)(above[i] & 255), a[2 * i + 1] = (uint8_t)(above[i] >> 8);
        l[2 * i] = (uint8_t)(left[i] & 255), l[2 * i + 1] = (uint8_t)(left[i] >> 8);
    }
    memset(o, DIRT, room);
    hold(entry(c, a, row, l, row, o, room) == SALVRUNDE_DONE, c, "rows of 4n bytes are served");
    for (size_t i = 0; i < room / 2; i++) hold((o[2 * i] | o[2 * i + 1] << 8) == longer[i], c, "the block in bytes");
}

/* Rows that are too short: each in turn, the other one long, and both of none. */
static void refused(struct call c, uint8_t *const pages[3], size_t page) {
    size_t row = SALVRUNDE_ROW_BYTES(c.n), room = SALVRUNDE_BLOCK_BYTES(c.n);
    size_t lengths[][2] = {{row - 2, 400}, {400, row - 2}, {0, 0}, {0, 400}, {400, 0}};
    uint8_t *o = flush(pages[2], page, room, 1);
    memset(o, DIRT, room);
    for (size_t i = 0; i < sizeof lengths / sizeof *lengths; i++) {
        size_t up = lengths[i][0], side = lengths[i][1];
        uint8_t *a = flush(pages[0], page, up, 1), *l = flush(pages[1], page, side, 1);
        hold(door(c, words(a), up / 2, words(l), side / 2, words(o), room / 2) == 5, c, "a row under 2n entries is 5");
        hold(entry(c, a, up, l, side, o, room) == SALVRUNDE_BUFFER, c, "a row under 4n bytes is 5");
    }
    for (int left = 0; left < 2; left++) {
        size_t up = left ? 400 : row - 1, side = left ? row - 1 : 400;
        uint8_t *a = flush(pages[0], page, up, 1), *l = flush(pages[1], page, side, 1);
        hold(entry(c, a, up, l, side, o, room) == SALVRUNDE_BUFFER, c, "a row of a byte under 4n is 5");
    }
    hold(all(o, room, DIRT), c, "a refused call writes nothing");
}

int main(void) {
    static const uint32_t depths[] = {8, 10, 12};
    size_t page = (size_t)sysconf(_SC_PAGESIZE);
    uint8_t *pages[3] = {page_between(page), page_between(page), page_between(page)};
    for (int turn = 0; turn < 20; turn++)
        for (uint32_t n = 4; n <= 32; n *= 2)
            for (uint32_t mode = 0; mode <= 34; mode++)
                for (uint32_t edge = 0; edge < 2; edge++)
                    for (int chroma = 0; chroma < 2; chroma++) {
                        struct call c = {n, mode, edge, depths[chance(3)], (uint16_t)chance(65536), chroma};
                        served(c, pages, page, 1), served(c, pages, page, 0), refused(c, pages, page);
                    }
    printf("rows: %lu calls, rows of 2n entries between pages that may not be touched\n", calls);
    return 0;
}
