/* Calls the firmware's byte entries and the doors at native types side by side, many thousand times, with good and bad arguments.
 * A call's number is worked out here from document 01's table, what it must write from the door's own answer on the decoded values.
 * Every buffer begins at an odd or even address, ends where its memory ends (so that a memory checker sees a byte too many), and
 * in the other layout has guard bytes on both sides. Says how many calls agreed; ends with 1 at the first that does not. */
#include <stdint.h>
#include <stdio.h>
#include <stdlib.h>
#include <string.h>

#include "salvrunde.h"

/* The doors, as crate probes exports them: a slice is a pointer and a count of elements, and an answer of more than two words is
 * written where a first argument points, which comes back. */
struct references { uint32_t no; uint16_t corner, above[65], left[65]; };
struct pair_references { uint32_t no; struct { uint16_t corner, above[65], left[65]; } planes[2]; };
struct step { uint32_t no, block, did, done; };
struct answer { uint32_t no, value; };
struct verdict { uint32_t no, block; };
struct verdict salvrunde_probe_check_plan(uint32_t width, uint32_t height, uint32_t ctu, const uint32_t *rows, size_t rows_length,
    const uint32_t *cols, size_t cols_length, const uint32_t *sides, size_t sides_length, const uint32_t *modes, size_t modes_length);
struct answer salvrunde_probe_picture_checksum(uint32_t bits, uint32_t width, uint32_t height, uint32_t first, uint32_t end, uint32_t sum,
    const uint16_t *plane, size_t plane_length);
struct references *salvrunde_probe_get_reference_samples(struct references *out, const uint16_t *plane, size_t plane_length, uint32_t bits,
    uint32_t width, uint32_t height, uint32_t ctu, uint32_t unit, uint32_t row, uint32_t col, size_t n);
struct pair_references *salvrunde_probe_get_reference_samples_chroma_pair(struct pair_references *out, const uint16_t *cb, size_t cb_length,
    const uint16_t *cr, size_t cr_length, uint32_t bits, uint32_t format, uint32_t luma_w, uint32_t luma_h, uint32_t ctu, uint32_t min_luma_pu,
    uint32_t row, uint32_t col, size_t n, uint32_t cur_row, uint32_t cur_col);
uint32_t salvrunde_probe_predict_planar_into(const uint16_t *above, size_t above_length, const uint16_t *left, size_t left_length,
    size_t n, uint16_t *pred, size_t pred_length);
uint32_t salvrunde_probe_predict_dc_into(const uint16_t *above, size_t above_length, const uint16_t *left, size_t left_length,
    size_t n, _Bool edge, uint16_t *pred, size_t pred_length);
uint32_t salvrunde_probe_predict_angular_slices(uint16_t corner, const uint16_t *above, size_t above_length, const uint16_t *left,
    size_t left_length, size_t n, uint8_t mode, _Bool edge, uint32_t bits, uint16_t *pred, size_t pred_length, uint16_t *refs,
    size_t refs_length, uint32_t *indices, size_t indices_length, uint32_t *fractions, size_t fractions_length);
uint32_t salvrunde_probe_predict_chroma_tb_slices(uint8_t mode, uint16_t corner, const uint16_t *above, size_t above_length,
    const uint16_t *left, size_t left_length, size_t n, uint32_t bits, uint16_t *pred, size_t pred_length, uint16_t *refs,
    size_t refs_length, uint32_t *indices, size_t indices_length, uint32_t *fractions, size_t fractions_length);
uint32_t salvrunde_probe_predict_luma_tb_slices(uint8_t mode, uint16_t corner, const uint16_t above[65], const uint16_t left[65], size_t n,
    uint32_t bits, uint16_t *pred, size_t pred_length, uint16_t *refs, size_t refs_length, uint32_t *indices, size_t indices_length,
    uint32_t *fractions, size_t fractions_length);
struct choice { uint32_t no, mode, sum; };
struct choice salvrunde_probe_choose_mode(uint16_t corner, const uint16_t *above, size_t above_length, const uint16_t *left, size_t left_length,
    const uint16_t *source, size_t source_length, size_t n, uint32_t bits, uint16_t *pred, size_t pred_length, uint16_t *refs,
    size_t refs_length, uint32_t *indices, size_t indices_length, uint32_t *fractions, size_t fractions_length);
struct step salvrunde_probe_replay(uint32_t done, uint32_t bits, uint32_t width, uint32_t height, uint32_t ctu,
    const uint32_t *rows, size_t rows_length, const uint32_t *cols, size_t cols_length, const uint32_t *sides, size_t sides_length,
    const uint32_t *modes, size_t modes_length, const int32_t *residuals, size_t residuals_length, uint16_t *plane,
    size_t plane_length, uint16_t *refs, size_t refs_length, uint32_t *indices, size_t indices_length, uint32_t *fractions,
    size_t fractions_length, uint32_t grant);

enum { GUARD = 32, GUARD_BYTE = 0xA5, REFS = 193, TABLE = 32 };

static int exact_layout;
static unsigned long calls, served;
static uint64_t state = 0x9E3779B97F4A7C15u;
static uint16_t refs[REFS];
static uint32_t indices[TABLE], fractions[TABLE];

static uint32_t chance(uint32_t below) {
    state ^= state << 13, state ^= state >> 7, state ^= state << 17;
    return (uint32_t)((state >> 24) % below);
}

/* A lent buffer, and what it held before the call. */
struct lent { uint8_t *memory, *bytes, *before; size_t length; };

static struct lent lend(size_t length) {
    size_t front = exact_layout ? chance(2) : GUARD + chance(2), back = exact_layout ? 0 : GUARD;
    struct lent b;
    b.length = length;
    b.memory = malloc(front + length + back + (front + length + back == 0));
    b.before = malloc(length + (length == 0));
    if (!b.memory || !b.before) exit(2);
    memset(b.memory, GUARD_BYTE, front + length + back);
    b.bytes = b.memory + front;
    for (size_t i = 0; i < length; i++) b.bytes[i] = (uint8_t)chance(chance(4) ? 256 : 1);
    memcpy(b.before, b.bytes, length);
    return b;
}

static void fail(const char *entry, const char *what, uint32_t got, uint32_t wanted) {
    printf("%s, call %lu: %s: %u in place of %u\n", entry, calls, what, got, wanted);
    exit(1);
}

/* The buffer holds `wanted` in its first bytes and what it held before in the others, and the guards stand. */
static void check(const char *entry, const struct lent *b, const uint8_t *wanted, size_t count) {
    for (size_t i = 0; i < b->length; i++) {
        uint8_t w = i < count ? wanted[i] : b->before[i];
        if (b->bytes[i] != w) fail(entry, i < count ? "byte written" : "byte beyond", b->bytes[i], w);
    }
    if (exact_layout) return;
    for (size_t i = 1; i <= GUARD; i++) {
        if (*(b->bytes - i) != GUARD_BYTE) fail(entry, "guard before", *(b->bytes - i), GUARD_BYTE);
        if (b->bytes[b->length + i - 1] != GUARD_BYTE) fail(entry, "guard after", b->bytes[b->length + i - 1], GUARD_BYTE);
    }
}

static void give_back(struct lent *b) { free(b->memory), free(b->before); }

static uint16_t sample(const struct lent *b, size_t i) { return (uint16_t)(b->bytes[2 * i] | b->bytes[2 * i + 1] << 8); }

static int32_t residual(const struct lent *b, size_t i) {
    const uint8_t *p = b->bytes + 4 * i;
    return (int32_t)((uint32_t)p[0] | (uint32_t)p[1] << 8 | (uint32_t)p[2] << 16 | (uint32_t)p[3] << 24);
}

static void spell(uint8_t *to, const uint16_t *from, size_t count) {
    for (size_t i = 0; i < count; i++) to[2 * i] = (uint8_t)(from[i] & 255), to[2 * i + 1] = (uint8_t)(from[i] >> 8);
}

static void spell4(uint8_t *to, uint32_t v) {
    for (int i = 0; i < 4; i++) to[i] = (uint8_t)(v >> 8 * i);
}

/* A length about `right`: as it should be, a byte or some less, or more. */
static size_t about(size_t right) {
    switch (chance(10)) {
    case 0: return right ? right - 1 : 0;
    case 1: return right + 1;
    case 2: return right >= 2 ? right - 2 : 0;
    case 3: return right + chance(9);
    case 4: return chance(12) ? right : 0;
    default: return right;
    }
}

static uint32_t one_of(const uint32_t *list, uint32_t count, uint32_t bad) { return chance(12) ? list[chance(count)] : bad; }

static uint32_t some_bits(void) { static const uint32_t d[] = {8, 10, 12}; return one_of(d, 3, chance(14)); }
static uint32_t some_side(void) { static const uint32_t d[] = {4, 8, 16, 32}; return one_of(d, 4, chance(2) ? chance(70) : 256 + (4u << chance(4))); }
static uint32_t some_ctu(void) { static const uint32_t d[] = {16, 32, 64}; return one_of(d, 3, chance(130)); }
static int depth_ok(uint32_t bits) { return bits == 8 || bits == 10 || bits == 12; }
static int side_ok(uint32_t n) { return n == 4 || n == 8 || n == 16 || n == 32; }

/* Numbers 1, 2, 3, 5 of a prediction, in document 01's order; depth and mode where it takes them; row is the least bytes of a row. */
static uint32_t prediction_no(int depth, int mode, uint32_t n, size_t row, const struct lent *a, const struct lent *l, const struct lent *o) {
    if (!depth) return 1;
    if (!side_ok(n)) return 2;
    if (!mode) return 3;
    if (a->length < row || l->length < row || o->length < 2 * (size_t)n * n) return 5;
    return 0;
}

/* Bytes of a row: about as many as the side asks, 4n, or as a gather's row has, or more. */
enum { MOST_ROW = 700 };
static size_t some_row(uint32_t n) { return chance(3) ? about(SALVRUNDE_ROW_BYTES(side_ok(n) ? n : 16)) : about(chance(3) ? 130 : 400); }

static void predictions(void) {
    uint32_t n = some_side(), which = chance(5), bits = some_bits(), edge = chance(3) * chance(300), no, wanted;
    uint32_t mode = chance(12) ? chance(35) : chance(2) ? 35 + chance(40) : 256 + chance(35);
    uint16_t corner = (uint16_t)chance(65536), above[MOST_ROW], left[MOST_ROW], pred[1024];
    uint8_t bytes[2048];
    struct lent a = lend(some_row(n)), l = lend(some_row(n)), o = lend(about(side_ok(n) ? 2 * (size_t)n * n : 512));
    size_t up = a.length / 2, side = l.length / 2, least = 4 * (size_t)n;
    const char *entry;
    switch (which) {
    case 0:
        entry = "planar";
        wanted = prediction_no(1, 1, n, least, &a, &l, &o);
        no = salvrunde_planar(n, a.bytes, a.length, l.bytes, l.length, o.bytes, o.length);
        break;
    case 1:
        entry = "dc";
        wanted = prediction_no(1, 1, n, least, &a, &l, &o);
        no = salvrunde_dc(n, edge, a.bytes, a.length, l.bytes, l.length, o.bytes, o.length);
        break;
    case 2:
        entry = "angular";
        wanted = prediction_no(depth_ok(bits), mode >= 2 && mode <= 34, n, least, &a, &l, &o);
        no = salvrunde_angular(bits, n, mode, edge, corner, a.bytes, a.length, l.bytes, l.length, o.bytes, o.length);
        break;
    case 3:
        entry = "luma block";
        wanted = prediction_no(depth_ok(bits), mode <= 34, n, SALVRUNDE_LUMA_ROW_BYTES, &a, &l, &o);
        no = salvrunde_luma_block(bits, n, mode, corner, a.bytes, a.length, l.bytes, l.length, o.bytes, o.length);
        break;
    default:
        entry = "chroma block";
        wanted = prediction_no(depth_ok(bits), mode <= 34, n, least, &a, &l, &o);
        no = salvrunde_chroma_block(bits, n, mode, corner, a.bytes, a.length, l.bytes, l.length, o.bytes, o.length);
    }
    calls++;
    if (no != wanted) fail(entry, "number", no, wanted);
    if (no == 0) {
        for (size_t i = 0; i < up; i++) above[i] = sample(&a, i);
        for (size_t i = 0; i < side; i++) left[i] = sample(&l, i);
        switch (which) {
        case 0: wanted = salvrunde_probe_predict_planar_into(above, up, left, side, n, pred, 1024); break;
        case 1: wanted = salvrunde_probe_predict_dc_into(above, up, left, side, n, edge != 0, pred, 1024); break;
        case 2:
            wanted = salvrunde_probe_predict_angular_slices(corner, above, up, left, side, n, (uint8_t)mode, edge != 0, bits, pred, 1024,
                refs, REFS, indices, TABLE, fractions, TABLE);
            break;
        case 3:
            wanted = salvrunde_probe_predict_luma_tb_slices((uint8_t)mode, corner, above, left, n, bits, pred, 1024, refs, REFS, indices, TABLE,
                fractions, TABLE);
            break;
        default:
            wanted = salvrunde_probe_predict_chroma_tb_slices((uint8_t)mode, corner, above, up, left, side, n, bits, pred, 1024, refs, REFS,
                indices, TABLE, fractions, TABLE);
        }
        if (wanted != 0) fail(entry, "number of the door", no, wanted);
        spell(bytes, pred, (size_t)n * n);
        served++;
    }
    check(entry, &a, NULL, 0), check(entry, &l, NULL, 0), check(entry, &o, bytes, no ? 0 : 2 * (size_t)n * n);
    give_back(&a), give_back(&l), give_back(&o);
}

/* Numbers 1, 2, 5, 7 of a choice, by either search; the source is near one value, noise, or past the depth in one sample. */
static void choose(void) {
    uint32_t n = some_side(), bits = some_bits(), no, wanted;
    size_t area = side_ok(n) ? (size_t)n * n : 256;
    uint16_t corner = (uint16_t)chance(65536), above[MOST_ROW], left[MOST_ROW], source[2048], pred[1024];
    uint8_t bytes[8];
    struct lent a = lend(chance(5) ? 130 : about(130)), l = lend(chance(5) ? 130 : about(130));
    struct lent s = lend(chance(5) ? 2 * area : about(2 * area)), o = lend(chance(5) ? 8 : about(8));
    uint32_t top = bits == 12 ? 4095 : bits == 10 ? 1023 : 255, level = chance(top + 1), noise = chance(3) ? 4 : top + 1;
    for (size_t i = 0; 2 * i + 1 < s.length; i++) {
        uint32_t v = (level + chance(noise)) % (top + 1);
        if (i == area / 2 && !chance(20)) v = top + 1 + chance(9);
        s.bytes[2 * i] = (uint8_t)v, s.bytes[2 * i + 1] = (uint8_t)(v >> 8);
    }
    memcpy(s.before, s.bytes, s.length);
    for (size_t i = 0; i < a.length / 2; i++) above[i] = sample(&a, i);
    for (size_t i = 0; i < l.length / 2; i++) left[i] = sample(&l, i);
    for (size_t i = 0; i < s.length / 2; i++) source[i] = sample(&s, i);
    struct choice door = salvrunde_probe_choose_mode(corner, above, a.length / 2, left, l.length / 2, source, s.length / 2, n, bits, pred, 1024,
        refs, REFS, indices, TABLE, fractions, TABLE);
    no = (chance(2) ? salvrunde_choose : salvrunde_choose_early)(bits, n, corner, a.bytes, a.length, l.bytes, l.length, s.bytes, s.length, o.bytes,
        o.length);
    calls++;
    wanted = door.no == 1 || door.no == 2 || o.length >= 8 ? door.no : 5;
    if (no != wanted) fail("choose", "number", no, wanted);
    spell4(bytes, door.mode), spell4(bytes + 4, door.sum);
    check("choose", &a, NULL, 0), check("choose", &l, NULL, 0), check("choose", &s, NULL, 0), check("choose", &o, bytes, no ? 0 : 8);
    served += no == 0;
    give_back(&a), give_back(&l), give_back(&s), give_back(&o);
}

static uint32_t some_length(void) { return chance(14) ? 8 * (1 + chance(9)) : chance(90); }

/* A number of bytes that is two for each sample, the door's number with a plane as it should be, then 5 in its place. */
static uint32_t with_5(uint32_t door, int fits) { return (door == 0 || door == 6) && !fits ? 5 : door; }

static uint16_t *decoded(const struct lent *b, size_t samples) {
    uint16_t *plane = calloc(samples + 1, sizeof *plane);
    if (!plane) exit(2);
    for (size_t i = 0; i < samples && 2 * i + 1 < b->length; i++) plane[i] = sample(b, i);
    return plane;
}

static void luma(void) {
    uint32_t bits = some_bits(), width = some_length(), height = some_length(), ctu = some_ctu(), unit = chance(14) ? 4u << chance(2) : chance(20);
    uint32_t n = some_side(), row = n * chance(height / 4 + 1) + !chance(15), col = n * chance(width / 4 + 1) + !chance(15), no, wanted;
    size_t samples = (size_t)width * height;
    struct lent p = lend(about(2 * samples)), o = lend(about(262));
    uint16_t *plane = decoded(&p, samples);
    uint8_t bytes[262];
    struct references r;
    salvrunde_probe_get_reference_samples(&r, plane, samples, bits, width, height, ctu, unit, row, col, n);
    no = salvrunde_luma_refs(bits, width, height, ctu, unit, row, col, n, p.bytes, p.length, o.bytes, o.length);
    calls++;
    wanted = with_5(r.no, p.length == 2 * samples && o.length >= 262);
    if (no != wanted) fail("luma refs", "number", no, wanted);
    spell(bytes, &r.corner, 1), spell(bytes + 2, r.above, 65), spell(bytes + 132, r.left, 65);
    check("luma refs", &p, NULL, 0), check("luma refs", &o, bytes, no ? 0 : 262);
    served += no == 0;
    free(plane), give_back(&p), give_back(&o);
}

static void chroma(void) {
    uint32_t bits = some_bits(), format = chance(14) ? 1 + chance(3) : chance(6), width = some_length(), height = some_length();
    uint32_t ctu = some_ctu(), unit = chance(14) ? 4u << chance(2) : chance(20), n = some_side();
    uint32_t across = format == 1 || format == 2 ? 2 : 1, down = format == 1 ? 2 : 1, no, wanted;
    uint32_t row = n * chance(height / 4 + 1) + !chance(15), col = n * chance(width / 4 + 1) + !chance(15);
    uint32_t cur_row = chance(8) ? row * down : chance(height + 8), cur_col = chance(8) ? col * across : chance(width + 8);
    size_t samples = (size_t)(width / across) * (height / down);
    struct lent b = lend(about(2 * samples)), r = lend(about(2 * samples)), o = lend(about(524));
    uint16_t *cb = decoded(&b, samples), *cr = decoded(&r, samples);
    uint8_t bytes[524];
    struct pair_references door;
    salvrunde_probe_get_reference_samples_chroma_pair(&door, cb, samples, cr, samples, bits, format, width, height, ctu, unit,
        row, col, n, cur_row, cur_col);
    no = salvrunde_chroma_refs_ctu(bits, format, width, height, ctu, unit, row, col, n, cur_row, cur_col, b.bytes, b.length, r.bytes, r.length,
        o.bytes, o.length);
    calls++;
    wanted = with_5(door.no, b.length == 2 * samples && r.length == 2 * samples && o.length >= 524);
    if (no != wanted) fail("chroma refs", "number", no, wanted);
    for (int k = 0; k < 2; k++) {
        uint8_t *at = bytes + 262 * k;
        spell(at, &door.planes[k].corner, 1), spell(at + 2, door.planes[k].above, 65), spell(at + 132, door.planes[k].left, 65);
    }
    check("chroma refs", &b, NULL, 0), check("chroma refs", &r, NULL, 0), check("chroma refs", &o, bytes, no ? 0 : 524);
    served += no == 0;
    free(cb), free(cr), give_back(&b), give_back(&r), give_back(&o);
}

static void checksum(void) {
    uint32_t bits = some_bits(), width = 4 * (1 + chance(12)), height = 4 * (1 + chance(12)), no, wanted;
    if (!chance(15)) width = chance(60);
    if (!chance(15)) height = chance(2) ? 4100 : chance(60);
    uint32_t end = chance(8) ? chance(height + 1) : chance(height + 8), first = chance(8) ? chance(end + 1) : chance(height + 2);
    uint32_t sum = chance(4) ? (uint32_t)state : UINT32_MAX - chance(3);
    size_t samples = (size_t)width * height;
    struct lent p = lend(chance(10) ? 2 * samples : about(2 * samples)), o = lend(chance(10) ? 4 : about(4));
    if (chance(8)) {
        uint32_t high = bits > 8 && bits < 13 ? (1u << (bits - 8)) - 1 : 0;
        for (size_t i = 0; 2 * i + 1 < p.length; i++) p.bytes[2 * i + 1] &= (uint8_t)high;
        memcpy(p.before, p.bytes, p.length);
    }
    uint16_t *plane = decoded(&p, samples);
    uint8_t bytes[4];
    struct answer door = salvrunde_probe_picture_checksum(bits, width, height, first, end, sum, plane, samples);
    no = salvrunde_checksum(bits, width, height, first, end, sum, p.bytes, p.length, o.bytes, o.length);
    calls++;
    wanted = door.no == 1 || door.no == 4 || (p.length == 2 * samples && o.length >= 4) ? door.no : 5;
    if (no != wanted) fail("checksum", "number", no, wanted);
    spell4(bytes, door.value);
    check("checksum", &p, NULL, 0), check("checksum", &o, bytes, no ? 0 : 4);
    served += no == 0;
    free(plane), give_back(&p), give_back(&o);
}

/* A plan: quarters in decode order, split at random, those outside the picture left out. */
enum { MOST = 1024 };
struct plan { uint32_t blocks[MOST][4]; size_t count; };

static void quarters(struct plan *p, uint32_t width, uint32_t height, uint32_t row, uint32_t col, uint32_t side) {
    if (row >= height || col >= width) return;
    if (side > 32 || row + side > height || col + side > width || (side > 4 && chance(3))) {
        for (uint32_t q = 0; q < 4; q++) quarters(p, width, height, row + q / 2 * (side / 2), col + q % 2 * (side / 2), side / 2);
        return;
    }
    uint32_t *b = p->blocks[p->count++];
    b[0] = row, b[1] = col, b[2] = side, b[3] = chance(35);
}

/* Its records, as many as there is room for. */
static void lay(struct lent *l, const struct plan *p) {
    for (size_t i = 0; 6 * i + 5 < l->length && i < p->count; i++) {
        const uint32_t *b = p->blocks[i];
        uint8_t record[6] = {(uint8_t)b[0], (uint8_t)(b[0] >> 8), (uint8_t)b[1], (uint8_t)(b[1] >> 8), (uint8_t)b[2], (uint8_t)b[3]};
        memcpy(l->bytes + 6 * i, record, 6);
    }
    memcpy(l->before, l->bytes, l->length);
}

/* The numbers of its whole records: rows, then columns, sides and modes, each list count + 1 after the one before. */
static uint32_t *numbers(const struct lent *l, size_t count) {
    uint32_t *rows = calloc(4 * count + 4, sizeof *rows), *cols = rows + count + 1, *sides = cols + count + 1, *modes = sides + count + 1;
    if (!rows) exit(2);
    for (size_t i = 0; i < count; i++) {
        const uint8_t *at = l->bytes + 6 * i;
        rows[i] = at[0] | at[1] << 8, cols[i] = at[2] | at[3] << 8, sides[i] = at[4], modes[i] = at[5];
    }
    return rows;
}

static void replay(void) {
    uint32_t bits = some_bits(), width = 8 * (1 + chance(6)), height = 8 * (1 + chance(6)), ctu = 16u << chance(3), grant, done, no, wanted;
    static struct plan p;
    p.count = 0;
    for (uint32_t row = 0; row < height; row += ctu)
        for (uint32_t col = 0; col < width; col += ctu) quarters(&p, width, height, row, col, ctu);
    if (!chance(6)) p.count -= chance((uint32_t)p.count);
    if (!chance(6)) p.blocks[chance((uint32_t)p.count)][chance(4)] = chance(80);
    done = chance(10) ? chance(4) * chance((uint32_t)p.count + 1) / 3 : chance(2000), grant = chance(5) ? chance(9) : UINT32_MAX;
    if (!chance(15)) width = chance(60);
    if (!chance(15)) ctu = chance(70);
    size_t samples = (size_t)width * height, plan_bytes = 6 * p.count;
    struct lent l = lend(chance(10) ? plan_bytes : about(plan_bytes)), r = lend(chance(10) ? 4 * samples : about(4 * samples));
    struct lent d = lend(chance(10) ? 2 * samples : about(2 * samples)), o = lend(chance(10) ? 8 : about(8));
    lay(&l, &p);
    /* residuals of the depth, some at its ends; in one call of twenty one is beyond them, in another one out of every range */
    int32_t most = bits == 12 ? 4095 : bits == 10 ? 1023 : 255, odd = chance(20) ? 0 : most + 1 + (int32_t)chance(3);
    if (!odd && !chance(20)) odd = 65536 + (int32_t)chance(3);
    for (size_t i = 0; 4 * i + 3 < r.length; i++) {
        int32_t v = chance(9) ? (int32_t)chance(510) - 255 : chance(2) ? -most : most;
        if (i == r.length / 8 && odd) v = chance(2) ? -odd : odd < 65536 || chance(2) ? odd : INT32_MIN;
        spell4(r.bytes + 4 * i, (uint32_t)v);
    }
    memcpy(r.before, r.bytes, r.length);
    size_t count = l.length / 6;
    uint32_t *rows = numbers(&l, count), *cols = rows + count + 1, *sides = cols + count + 1, *modes = sides + count + 1;
    int32_t *residuals = calloc(samples + 1, sizeof *residuals);
    uint16_t *plane = decoded(&d, samples);
    uint8_t *bytes = calloc(2 * samples + 1, 1), result[8];
    if (!residuals || !bytes) exit(2);
    for (size_t i = 0; i < samples && 4 * i + 3 < r.length; i++) residuals[i] = residual(&r, i);
    int fits = l.length % 6 == 0 && r.length == 4 * samples && d.length == 2 * samples && o.length >= 8;
    struct step door = salvrunde_probe_replay(done, bits, width, height, ctu, rows, count, cols, count, sides, count, modes, count,
        residuals, samples, plane, samples, refs, REFS, indices, TABLE, fractions, TABLE, grant);
    no = salvrunde_replay(done, bits, width, height, ctu, grant, l.bytes, l.length, r.bytes, r.length, d.bytes, d.length, o.bytes, o.length);
    calls++;
    wanted = door.no == 1 || door.no == 4 || fits ? door.no : 5;
    if (no != wanted) fail("replay", "number", no, wanted);
    spell(bytes, plane, samples);
    spell4(result, no == 5 ? 0 : door.block), spell4(result + 4, no ? done : door.done);
    check("replay", &l, NULL, 0), check("replay", &r, NULL, 0);
    check("replay", &d, bytes, no ? 0 : 2 * samples), check("replay", &o, result, o.length >= 8 ? 8 : 0);
    served += no == 0;
    free(rows), free(residuals), free(plane), free(bytes), give_back(&l), give_back(&r), give_back(&d), give_back(&o);
}

/* What a pair of planes has by mode, block by block: a report of this pair alone, from byte 16 on. */
static void count_pair(uint8_t *report, const struct lent *planes, uint32_t width, const uint32_t *rows, size_t count) {
    const uint32_t *cols = rows + count + 1, *sides = cols + count + 1, *modes = sides + count + 1;
    uint64_t figures[3][35] = {{0}};
    for (size_t i = 0; i < count; i++) {
        figures[0][modes[i]]++, figures[1][modes[i]] += (uint64_t)sides[i] * sides[i];
        for (uint32_t k = 0; k < sides[i] * sides[i]; k++) {
            size_t at = 2 * ((size_t)(rows[i] + k / sides[i]) * width + cols[i] + k % sides[i]);
            int32_t d = (planes[0].bytes[at] | planes[0].bytes[at + 1] << 8) - (planes[1].bytes[at] | planes[1].bytes[at + 1] << 8);
            figures[2][modes[i]] += (uint64_t)(d * d);
        }
    }
    spell4(report + 16, 1);
    for (int f = 0; f < 3; f++)
        for (int m = 0; m < 35; m++) {
            uint8_t *to = report + 24 + 280 * f + 8 * m;
            spell4(to, (uint32_t)figures[f][m]), spell4(to + 4, (uint32_t)(figures[f][m] >> 32));
        }
}

/* A plane of a depth, one sample of some thousands at its end or past it; whether one is past it. */
static int fill_plane(struct lent *p, uint32_t most) {
    int high = 0;
    for (size_t i = 0; 2 * i + 1 < p->length; i++) {
        uint32_t v = chance(2000) ? chance(most + 1) : most + chance(2);
        high |= v > most;
        p->bytes[2 * i] = (uint8_t)v, p->bytes[2 * i + 1] = (uint8_t)(v >> 8);
    }
    memcpy(p->before, p->bytes, p->length);
    return high;
}

/* An error report of one pair: the plan check's door tells the plan's verdict. */
static void errors(void) {
    uint32_t bits = some_bits(), width = 8 * (1 + chance(6)), height = 8 * (1 + chance(6)), ctu = 16u << chance(3), no, wanted;
    static struct plan p;
    p.count = 0;
    for (uint32_t row = 0; row < height; row += ctu)
        for (uint32_t col = 0; col < width; col += ctu) quarters(&p, width, height, row, col, ctu);
    if (!chance(6)) p.blocks[chance((uint32_t)p.count)][chance(4)] = chance(80);
    if (!chance(15)) width = chance(60);
    size_t samples = (size_t)width * height, room = SALVRUNDE_REPORT_BYTES;
    struct lent l = lend(chance(10) ? 6 * p.count : about(6 * p.count)), o = lend(chance(10) ? room : about(room));
    struct lent planes[2] = {lend(chance(10) ? 2 * samples : about(2 * samples)), lend(chance(10) ? 2 * samples : about(2 * samples))};
    lay(&l, &p);
    uint32_t most = bits == 12 ? 4095 : bits == 10 ? 1023 : 255;
    int high = fill_plane(&planes[0], most) | fill_plane(&planes[1], most);
    uint8_t bytes[SALVRUNDE_REPORT_BYTES] = {0};
    spell4(bytes, bits), spell4(bytes + 4, width), spell4(bytes + 8, height), spell4(bytes + 12, ctu);
    memcpy(o.bytes, bytes, o.length < room ? o.length : room), memcpy(o.before, o.bytes, o.length);
    size_t count = l.length / 6;
    uint32_t *rows = numbers(&l, count), *cols = rows + count + 1, *sides = cols + count + 1, *modes = sides + count + 1;
    struct verdict door = salvrunde_probe_check_plan(width, height, ctu, rows, count, cols, count, sides, count, modes, count);
    int fits = l.length % 6 == 0 && planes[0].length == 2 * samples && planes[1].length == 2 * samples;
    wanted = o.length < room ? 5 : bits != 8 && bits != 10 && bits != 12 ? 1 : door.no == 4 ? 4 : !fits ? 5 : high ? 7 : door.no;
    no = salvrunde_count_errors(planes[0].bytes, planes[0].length, planes[1].bytes, planes[1].length, l.bytes, l.length, o.bytes, o.length);
    calls++;
    if (no != wanted) fail("errors", "number", no, wanted);
    spell4(bytes + 20, no == door.no ? door.block : 0);
    if (no == 0) count_pair(bytes, planes, width, rows, count);
    check("errors", &l, NULL, 0), check("errors", &planes[0], NULL, 0), check("errors", &planes[1], NULL, 0);
    check("errors", &o, bytes, o.length >= room ? room : 0);
    served += no == 0;
    free(rows), give_back(&l), give_back(&o), give_back(&planes[0]), give_back(&planes[1]);
}

/* entries TURNS LAYOUT: `guarded` or `exact` */
int main(int count, char **words) {
    long turns = count > 1 ? atol(words[1]) : 1000;
    exact_layout = count > 2 && !strcmp(words[2], "exact");
    for (long i = 0; i < turns; i++) predictions(), choose(), luma(), chroma(), checksum(), replay(), errors();
    printf("%lu calls, %lu served, 0 differ (%s)\n", calls, served, exact_layout ? "exact" : "guarded");
    return calls < 4 || served < calls / 8;
}
