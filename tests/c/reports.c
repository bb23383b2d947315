/* Error reports beside a count of their own: random pairs, plans and reports, honest or not, and the limits of number 15 on each side. The
 * model works out number, block and every figure anew, square by square. reports TURNS */
#include "salvrunde.h"
#include <stdio.h>
#include <stdlib.h>
#include <string.h>

static uint64_t state = 88172645463325252u;
static uint32_t chance(uint32_t below) {
    state ^= state << 13, state ^= state >> 7, state ^= state << 17;
    return (uint32_t)((state >> 20) % below);
}

__extension__ typedef unsigned __int128 wide_t;
typedef struct { uint32_t bits, width, height, ctu, pairs; uint64_t figures[3][35]; } report_t;
typedef struct { uint32_t row, col, side, mode; } block_t;

static void put(uint8_t *b, uint64_t v, int n) { while (n--) *b++ = (uint8_t)v, v >>= 8; }
static uint64_t get(const uint8_t *b, int n) { uint64_t v = 0; while (n--) v = v * 256 + b[n]; return v; }
static void spell(const report_t *r, uint8_t *b) {
    put(b, r->bits, 4), put(b + 4, r->width, 4), put(b + 8, r->height, 4), put(b + 12, r->ctu, 4);
    put(b + 16, r->pairs, 4), put(b + 20, 0, 4);
    for (int f = 0; f < 3; f++) for (int m = 0; m < 35; m++) put(b + 24 + 280 * f + 8 * m, r->figures[f][m], 8);
}

/* the quadtree in decode order, CTU by CTU; a block is split by chance or where it leaves the picture */
static block_t plan[4096];
static size_t blocks;
static void tree(const report_t *r, uint32_t row, uint32_t col, uint32_t side) {
    if (row >= r->height || col >= r->width) return;
    if (side > 32 || row + side > r->height || col + side > r->width || (side > 4 && chance(2))) {
        uint32_t h = side / 2;
        tree(r, row, col, h), tree(r, row, col + h, h), tree(r, row + h, col, h), tree(r, row + h, col + h, h);
    } else {
        block_t b = {row, col, side, chance(35)};
        plan[blocks++] = b;
    }
}

static wide_t limit(const report_t *r, int f) {
    uint64_t top = (1u << (r->bits & 31)) - 1;
    wide_t most = (wide_t)r->pairs * r->width * r->height;
    return f == 0 ? most / 16 : f == 1 ? most : most * top * top;
}
static int keeps(const report_t *r) {
    for (int f = 0; f < 3; f++) for (int m = 0; m < 35; m++) if (r->figures[f][m] > limit(r, f)) return 0;
    return 1;
}
static int good_depth(uint32_t bits) { return bits == 8 || bits == 10 || bits == 12; }
static int good_picture(const report_t *r) {
    uint32_t w = r->width, h = r->height;
    return w >= 8 && w <= 4096 && w % 8 == 0 && h >= 8 && h <= 4096 && h % 8 == 0 && (r->ctu == 16 || r->ctu == 32 || r->ctu == 64);
}

/* number of a plan, by a map of what is covered and the order of cells worked out bit by bit */
static uint32_t cell(const report_t *r, uint32_t row, uint32_t col) {
    uint32_t across = (r->width + r->ctu - 1) / r->ctu, y = row % r->ctu / 4, x = col % r->ctu / 4;
    uint32_t n = (row / r->ctu * across + col / r->ctu) * (r->ctu / 4) * (r->ctu / 4);
    for (int k = 0; k < 4; k++) n += ((y >> k & 1) << (2 * k + 1)) + ((x >> k & 1) << (2 * k));
    return n;
}
static uint8_t covered[1024];
static uint32_t plan_no(const report_t *r, size_t count, uint32_t *about) {
    uint32_t cells = r->width / 4 * (r->height / 4);
    memset(covered, 0, sizeof covered);
    for (size_t k = 0; k < count; k++) {
        block_t b = plan[k];
        *about = (uint32_t)k;
        if (b.side != 4 && b.side != 8 && b.side != 16 && b.side != 32) return 2;
        if (b.mode > 34) return 3;
        if (b.row % b.side || b.col % b.side || b.row + b.side > r->height || b.col + b.side > r->width || b.side > r->ctu) return 6;
        uint32_t first = UINT32_MAX, at = 0;
        for (uint32_t i = 0; i < cells; i++) {
            uint32_t row = i / (r->width / 4) * 4, col = i % (r->width / 4) * 4;
            if (!covered[i] && cell(r, row, col) < first) first = cell(r, row, col), at = i;
        }
        if (first == UINT32_MAX || at != b.row / 4 * (r->width / 4) + b.col / 4) return 9;
        for (uint32_t y = 0; y < b.side / 4; y++)
            for (uint32_t x = 0; x < b.side / 4; x++) covered[(b.row / 4 + y) * (r->width / 4) + b.col / 4 + x] = 1;
    }
    *about = 0;
    for (uint32_t i = 0; i < cells; i++) if (!covered[i]) return 10;
    return 0;
}

static long turns, numbers[16];
static void fail(const char *what, uint64_t got, uint64_t wanted) {
    printf("reports: turn %ld, %s: %llu, not %llu\n", turns, what, (unsigned long long)got, (unsigned long long)wanted);
    exit(1);
}
static void compare(const uint8_t *bytes, const report_t *r, uint32_t block) {
    uint8_t wanted[SALVRUNDE_REPORT_BYTES];
    spell(r, wanted), put(wanted + 20, block, 4);
    for (size_t i = 0; i < sizeof wanted; i++) if (bytes[i] != wanted[i]) fail("byte", i * 1000 + bytes[i], i * 1000 + wanted[i]);
}

static report_t random_report(void) {
    static const uint32_t depths[] = {8, 10, 12}, ctus[] = {16, 32, 64};
    uint32_t pairs = chance(3) ? chance(70) : 65534 + chance(3);
    report_t r = {depths[chance(3)], 8 * (1 + chance(8)), 8 * (1 + chance(8)), ctus[chance(3)], pairs, {{0}}};
    for (int f = 0; f < 3; f++) for (int m = 0; m < 35; m++) {
        uint64_t most = (uint64_t)limit(&r, f);
        r.figures[f][m] = chance(3) ? (most ? (((uint64_t)chance(1u << 30) << 34) + chance(1u << 30)) % (most + 1) : 0) : most;
    }
    if (!chance(6)) { int f = (int)chance(3); r.figures[f][chance(35)] = (uint64_t)limit(&r, f) + 1; }
    if (!chance(25)) r.figures[chance(3)][chance(35)] = UINT64_MAX;
    if (!chance(30)) r.bits = chance(20);
    if (!chance(30)) r.width = chance(70);
    if (!chance(30)) r.ctu = chance(100);
    if (!chance(30)) r.pairs = chance(2) ? UINT32_MAX : 65537;
    return r;
}

static void pair(void) {
    report_t r = random_report();
    size_t samples = (size_t)r.width * r.height;
    uint8_t *a = malloc(2 * samples + 1), *b = malloc(2 * samples + 1), record[SALVRUNDE_REPORT_BYTES];
    uint32_t top = good_depth(r.bits) ? (1u << r.bits) - 1 : 255, about = 0, wanted = 0;
    int same = !chance(8), far = !chance(4);
    for (size_t i = 0; i < samples; i++) {
        uint32_t x = far ? (chance(2) ? top : 0) : chance(top + 1), y = same ? x : far ? top - x : chance(top + 1);
        put(a + 2 * i, x, 2), put(b + 2 * i, y, 2);
    }
    int high = samples && !chance(10);
    if (high) put((chance(2) ? a : b) + 2 * chance((uint32_t)samples), top + 1 + chance(60000 - top), 2);
    blocks = 0;
    if (good_picture(&r))
        for (uint32_t y = 0; y < r.height; y += r.ctu) for (uint32_t x = 0; x < r.width; x += r.ctu) tree(&r, y, x, r.ctu);
    size_t count = blocks;
    if (count && !chance(5)) {
        block_t *t = &plan[chance((uint32_t)count)];
        switch (chance(6)) {
        case 0: t->side = chance(65); break;
        case 1: t->mode = chance(256); break;
        case 2: t->row = 4 * chance(20); break;
        case 3: t->col = 4 * chance(20); break;
        case 4: count -= 1; break;
        default: plan[count++] = *t;
        }
    }
    uint8_t *list = malloc(6 * count + 6);
    for (size_t k = 0; k < count; k++) {
        put(list + 6 * k, plan[k].row, 2), put(list + 6 * k + 2, plan[k].col, 2);
        list[6 * k + 4] = (uint8_t)plan[k].side, list[6 * k + 5] = (uint8_t)plan[k].mode;
    }
    size_t list_bytes = 6 * count + (chance(40) ? 0 : 1), a_bytes = 2 * samples + (chance(40) ? 0 : 1);
    size_t b_bytes = 2 * samples - (samples && !chance(40));
    list[6 * count] = 0, a[2 * samples] = b[2 * samples] = 0;
    spell(&r, record);
    int fit = list_bytes % 6 == 0 && a_bytes == 2 * samples && b_bytes == 2 * samples;
    wanted = !good_depth(r.bits) ? 1 : !good_picture(&r) ? 4 : !fit ? 5 : high ? 7 : plan_no(&r, count, &about);
    if (!wanted && (r.pairs >= 65536 || !keeps(&r))) wanted = 15;
    uint32_t no = salvrunde_count_errors(a, a_bytes, b, b_bytes, list, list_bytes, record, sizeof record);
    if (no != wanted) fail("number", no, wanted);
    numbers[no]++;
    if (!no) {
        r.pairs++;
        for (size_t k = 0; k < count; k++) {
            block_t t = plan[k];
            r.figures[0][t.mode]++, r.figures[1][t.mode] += (uint64_t)t.side * t.side;
            for (uint32_t y = t.row; y < t.row + t.side; y++) for (uint32_t x = t.col; x < t.col + t.side; x++) {
                int64_t d = (int64_t)get(a + 2 * (y * r.width + x), 2) - (int64_t)get(b + 2 * (y * r.width + x), 2);
                r.figures[2][t.mode] += (uint64_t)(d * d);
            }
        }
    }
    compare(record, &r, no == 2 || no == 3 || no == 6 || no == 9 ? about : 0);
    free(a), free(b), free(list);
}

static void join(void) {
    report_t r = random_report(), s = random_report();
    if (chance(4)) s.bits = r.bits, s.width = r.width, s.height = r.height, s.ctu = r.ctu;
    if (chance(3) && good_depth(s.bits))
        for (int f = 0; f < 3; f++)
            for (int m = 0; m < 35; m++) if (s.figures[f][m] > limit(&s, f)) s.figures[f][m] = (uint64_t)limit(&s, f);
    if (chance(3)) s.pairs = chance(3), memset(s.figures, 0, sizeof s.figures);
    uint8_t record[SALVRUNDE_REPORT_BYTES], other[SALVRUNDE_REPORT_BYTES];
    spell(&r, record), spell(&s, other);
    int alike = r.bits == s.bits && r.width == s.width && r.height == s.height && r.ctu == s.ctu;
    int roomy = good_depth(r.bits) && good_depth(s.bits) && (uint64_t)r.pairs + s.pairs <= 65536 && keeps(&r) && keeps(&s);
    uint32_t wanted = !good_depth(r.bits) ? 1 : !good_picture(&r) || !alike ? 4 : !roomy ? 15 : 0;
    uint32_t no = salvrunde_join_errors(other, sizeof other, record, sizeof record);
    if (no != wanted) fail("number of a sum", no, wanted);
    numbers[no]++;
    if (!no) {
        r.pairs += s.pairs;
        for (int f = 0; f < 3; f++) for (int m = 0; m < 35; m++) r.figures[f][m] += s.figures[f][m];
    }
    compare(record, &r, 0);
}

int main(int count, char **words) {
    long most = count > 1 ? atol(words[1]) : 20000;
    for (turns = 0; turns < most; turns++) pair(), join();
    printf("reports: %ld pairs and %ld sums as counted beside, of each number", most, most);
    for (int k = 0; k < 16; k++) if (numbers[k]) printf(" %d:%ld", k, numbers[k]);
    printf("\n");
    return 0;
}
