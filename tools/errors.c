/* How far coded stills are from their sources, mode by mode, over the proved archive (document 02, Wish 14).
 *   errors count LIST REPORT [CTU]   counts the pairs of a list, writes the report's bytes and prints them. A line of the list has three
 *                                    files: source and coded still, raw PGM, and the plan, lines of row, column, side and mode in decode
 *                                    order. Depth and sides are those of the first source; the CTU is 16, 32 or 64 (64).
 *   errors add [-o SUM] REPORT..     adds reports up and prints the sum; with -o writes its bytes too.
 * Prints a line for each mode that occurs: mode, blocks, samples, squared differences, and their mean; then the same of all. A pair that is
 * refused is named with its number, and its block where the number is about one; one that cannot be read, or is of another depth or other
 * sides than the report, is named too. Such a pair changes no sum, the others are counted, and the program ends with 1. */
#include "salvrunde.h"
#include <stdio.h>
#include <stdlib.h>
#include <string.h>

enum { NAME = 1024, LINE = 3 * NAME + 8 };

static void stop(const char *what, const char *name) {
    fprintf(stderr, "errors: %s: %s\n", name, what);
    exit(2);
}

static uint64_t number(const uint8_t *b, int n) {
    uint64_t v = 0;
    while (n--) v = 256 * v + b[n];
    return v;
}

static void put_word(uint8_t *b, uint32_t v) {
    int i;
    for (i = 0; i < 4; i++) b[i] = (uint8_t)(v >> 8 * i);
}

static void *room(size_t bytes) {
    void *p = malloc(bytes ? bytes : 1);
    if (!p) stop("no memory", "errors");
    return p;
}

/* a number of a PGM's head, past white space and comments; beyond all sides and depths where there is none */
static unsigned long head(FILE *f) {
    unsigned long v = 0;
    int c = getc(f);
    while (c == ' ' || c == '\t' || c == '\n' || c == '\r' || c == '#') {
        if (c == '#') while (c != '\n' && c != EOF) c = getc(f);
        c = getc(f);
    }
    if (c < '0' || c > '9') return 100000;
    for (; c >= '0' && c <= '9' && v < 100000; c = getc(f)) v = 10 * v + (unsigned long)(c - '0');
    return v;
}

typedef struct { uint32_t width, height, bits; size_t bytes; uint8_t *samples; } plane_t;

/* a raw PGM's samples, as two bytes each, the lower first; what is wrong with it, or NULL */
static const char *read_samples(FILE *f, plane_t *p) {
    size_t i, count;
    unsigned long width, height, top;
    if (getc(f) != 'P' || getc(f) != '5') return "no raw PGM";
    width = head(f), height = head(f), top = head(f);
    p->bits = top == 255 ? 8 : top == 1023 ? 10 : top == 4095 ? 12 : 0;
    if (width > 4096 || height > 4096 || !p->bits) return "sides above 4096, or a largest sample that is not 255, 1023 or 4095";
    p->width = (uint32_t)width, p->height = (uint32_t)height;
    count = (size_t)width * height, p->bytes = 2 * count, p->samples = room(p->bytes);
    if (top > 255) {
        if (fread(p->samples, 1, 2 * count, f) != 2 * count) return "ends before its last sample";
        for (i = 0; i < count; i++) {
            uint8_t high = p->samples[2 * i];
            p->samples[2 * i] = p->samples[2 * i + 1], p->samples[2 * i + 1] = high;
        }
    } else {
        /* into the upper half: sample i is read from there before its bytes reach that place */
        if (fread(p->samples + count, 1, count, f) != count) return "ends before its last sample";
        for (i = 0; i < count; i++) p->samples[2 * i] = p->samples[count + i], p->samples[2 * i + 1] = 0;
    }
    return NULL;
}

static const char *read_pgm(const char *name, plane_t *p) {
    const char *wrong;
    FILE *f = fopen(name, "rb");
    if (!f) return "cannot be read";
    wrong = read_samples(f, p);
    fclose(f);
    return wrong;
}

typedef struct { size_t bytes; uint8_t *records; } plan_t;

/* a plan's lines as records of six bytes; a number that has no room there becomes one that is refused */
static const char *read_plan(const char *name, plan_t *plan) {
    FILE *f = fopen(name, "r");
    char line[NAME];
    size_t most = 6 * 1024;
    if (!f) return "cannot be read";
    plan->records = room(most);
    while (fgets(line, sizeof line, f)) {
        unsigned long v[4];
        uint8_t *b;
        if (sscanf(line, "%lu %lu %lu %lu", v, v + 1, v + 2, v + 3) != 4) continue;
        if (plan->bytes == most && !(plan->records = realloc(plan->records, most *= 2))) stop("no memory", name);
        b = plan->records + plan->bytes, plan->bytes += 6;
        if (v[0] > 65535) v[0] = 65535;
        if (v[1] > 65535) v[1] = 65535;
        b[0] = (uint8_t)v[0], b[1] = (uint8_t)(v[0] >> 8), b[2] = (uint8_t)v[1], b[3] = (uint8_t)(v[1] >> 8);
        b[4] = (uint8_t)(v[2] > 255 ? 255 : v[2]), b[5] = (uint8_t)(v[3] > 255 ? 255 : v[3]);
    }
    fclose(f);
    return NULL;
}

static void print(const uint8_t *report) {
    uint64_t all[3] = {0, 0, 0};
    int m, f, over = 0;
    for (m = 0; m < 35; m++) {
        uint64_t v[3];
        for (f = 0; f < 3; f++) {
            v[f] = number(report + 24 + 280 * f + 8 * m, 8), all[f] += v[f];
            over |= all[f] < v[f]; /* a report that was not counted may have sums beyond 64 bits */
        }
        if (v[0] || v[1] || v[2])
            printf("mode %d blocks %llu samples %llu squares %llu mean %.4f\n", m, (unsigned long long)v[0], (unsigned long long)v[1],
                   (unsigned long long)v[2], v[1] ? (double)v[2] / (double)v[1] : 0.0);
    }
    printf("all pairs %llu ", (unsigned long long)number(report + 16, 4));
    if (over) printf("sums beyond 64 bits\n");
    else printf("blocks %llu samples %llu squares %llu mean %.4f\n", (unsigned long long)all[0], (unsigned long long)all[1],
                (unsigned long long)all[2], all[1] ? (double)all[2] / (double)all[1] : 0.0);
}

static void write_report(const uint8_t *report, const char *name) {
    FILE *f = fopen(name, "wb");
    if (!f || fwrite(report, 1, SALVRUNDE_REPORT_BYTES, f) != SALVRUNDE_REPORT_BYTES || fclose(f)) stop("cannot be written", name);
}

static int other_settings(const uint8_t *report, const plane_t *p) {
    return p->bits != number(report, 4) || p->width != number(report + 4, 4) || p->height != number(report + 8, 4);
}

/* counts a pair of files; 1 where it is not counted, which it says. A report of no depth yet takes the first source's settings. */
static int count_pair(uint8_t *report, const char *source, const char *coded, const char *plan_name, uint32_t ctu) {
    plane_t a = {0, 0, 0, 0, NULL}, b = {0, 0, 0, 0, NULL};
    plan_t plan = {0, NULL};
    const char *of = source, *wrong = read_pgm(source, &a);
    uint32_t no;
    if (!wrong) of = coded, wrong = read_pgm(coded, &b);
    if (!wrong) of = plan_name, wrong = read_plan(plan_name, &plan);
    if (!wrong && !number(report, 4))
        put_word(report, a.bits), put_word(report + 4, a.width), put_word(report + 8, a.height), put_word(report + 12, ctu);
    if (!wrong && other_settings(report, &a)) of = source, wrong = "another depth or other sides than the report's";
    if (!wrong && other_settings(report, &b)) of = coded, wrong = "another depth or other sides than the report's";
    if (wrong) printf("not counted %s %s: %s: %s\n", source, coded, of, wrong);
    if (!wrong) {
        no = salvrunde_count_errors(a.samples, a.bytes, b.samples, b.bytes, plan.records, plan.bytes, report, SALVRUNDE_REPORT_BYTES);
        if (no) {
            printf("refused %s %s number %u block %u\n", source, coded, (unsigned)no, (unsigned)number(report + 20, 4));
            put_word(report + 20, 0), wrong = "refused";
        }
    }
    free(a.samples), free(b.samples), free(plan.records);
    return wrong != NULL;
}

static int count(const char *list, const char *out, uint32_t ctu) {
    static uint8_t report[SALVRUNDE_REPORT_BYTES];
    FILE *f = fopen(list, "r");
    char line[LINE], source[NAME], coded[NAME], plan[NAME];
    unsigned long lines = 0, done = 0;
    int left_out = 0;
    if (!f) stop("cannot be read", list);
    while (fgets(line, sizeof line, f)) lines++;
    rewind(f);
    while (fgets(line, sizeof line, f)) {
        int names = sscanf(line, "%1023s %1023s %1023s", source, coded, plan);
        done++;
        if (names == 3) left_out |= count_pair(report, source, coded, plan, ctu);
        else if (names > 0) left_out = 1, printf("not counted line %lu: three files are asked for\n", done);
        if (done % 64 == 0) fprintf(stderr, "\r%lu of %lu", done, lines), fflush(stderr);
    }
    if (done >= 64) fprintf(stderr, "\r%lu of %lu\n", done, lines);
    fclose(f);
    write_report(report, out);
    print(report);
    return left_out;
}

static int add(int files, char **names, const char *out) {
    static uint8_t report[SALVRUNDE_REPORT_BYTES], other[SALVRUNDE_REPORT_BYTES];
    static const uint8_t blank[SALVRUNDE_REPORT_BYTES];
    int i, refused = 0;
    for (i = 0; i < files; i++) {
        FILE *f = fopen(names[i], "rb");
        uint32_t no;
        if (!f || fread(other, 1, sizeof other, f) != sizeof other) stop("no report", names[i]);
        fclose(f);
        if (!memcmp(other, blank, sizeof other)) continue; /* of a list with no pair: it has no settings */
        if (!number(report, 4)) memcpy(report, other, 16); /* the sum begins with the first one's settings and no pair */
        no = salvrunde_join_errors(other, sizeof other, report, sizeof report);
        if (no) refused = 1, printf("refused %s number %u\n", names[i], (unsigned)no);
    }
    if (out) write_report(report, out);
    print(report);
    return refused;
}

int main(int words, char **word) {
    uint32_t ctu = words > 4 ? (uint32_t)strtoul(word[4], NULL, 10) : 64;
    if (words >= 4 && words <= 5 && !strcmp(word[1], "count")) return count(word[2], word[3], ctu);
    if (words >= 5 && !strcmp(word[1], "add") && !strcmp(word[2], "-o")) return add(words - 4, word + 4, word[3]);
    if (words >= 3 && !strcmp(word[1], "add") && word[2][0] != '-') return add(words - 2, word + 2, NULL);
    fprintf(stderr, "errors count LIST REPORT [CTU] | errors add [-o SUM] REPORT..\n");
    return 2;
}
