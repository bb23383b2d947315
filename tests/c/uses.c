/* Calls every entry of the header as a program would. It is compiled as C99 and as C++, and linked with the archive. */
#include "salvrunde.h"

static uint8_t plane[2 * 16 * 16], cb[2 * 8 * 8], cr[2 * 8 * 8];
static uint8_t refs[SALVRUNDE_REFS_BYTES + 2], pair[SALVRUNDE_PAIR_BYTES + 2];
static uint8_t block[SALVRUNDE_BLOCK_BYTES(32)];

static uint32_t sample(const uint8_t *bytes, size_t i) { return bytes[2 * i] + 256u * bytes[2 * i + 1]; }

static void fill(uint8_t *bytes, size_t samples, uint32_t value) {
    size_t i;
    for (i = 0; i < samples; i++) {
        bytes[2 * i] = (uint8_t)(value % 256u);
        bytes[2 * i + 1] = (uint8_t)(value / 256u);
    }
}

/* 0, or the line of the first answer that is wrong */
#define HOLDS(test) do { if (!(test)) return __LINE__; } while (0)

int main(void) {
    const uint8_t *above = refs + 2, *left = refs + 2 + 2 * 65; /* as salvrunde_luma_refs lays them */
    fill(plane, 256, 1000), fill(cb, 64, 300), fill(cr, 64, 700);
    fill(refs, 132, 9), fill(pair, 263, 9);

    /* gathering: the block at (8, 8) has neighbours; what is past the rows stays */
    HOLDS(salvrunde_luma_refs(10, 16, 16, 16, 4, 8, 8, 8, plane, sizeof plane, refs, sizeof refs) == SALVRUNDE_DONE);
    HOLDS(sample(refs, 0) == 1000 && sample(refs, 1) == 1000 && sample(refs, 66) == 1000 && sample(refs, 1 + 17) == 0 && sample(refs, 131) == 9);
    HOLDS(salvrunde_luma_refs(9, 16, 16, 16, 4, 8, 8, 8, plane, sizeof plane, refs, sizeof refs) == SALVRUNDE_DEPTH);
    HOLDS(salvrunde_luma_refs(10, 16, 16, 16, 4, 8, 8, 260, plane, sizeof plane, refs, sizeof refs) == SALVRUNDE_SIZE);
    HOLDS(salvrunde_luma_refs(10, 16, 12, 16, 4, 8, 8, 8, plane, sizeof plane, refs, sizeof refs) == SALVRUNDE_PICTURE);
    HOLDS(salvrunde_luma_refs(10, 16, 16, 16, 4, 8, 7, 8, plane, sizeof plane, refs, 261) == SALVRUNDE_BUFFER);
    HOLDS(salvrunde_luma_refs(10, 16, 16, 16, 4, 8, 7, 8, plane, sizeof plane, refs, sizeof refs) == SALVRUNDE_PLACE);
    HOLDS(salvrunde_chroma_refs_ctu(10, SALVRUNDE_YUV420, 16, 16, 16, 4, 4, 4, 4, 8, 8, cb, sizeof cb, cr, sizeof cr, pair, sizeof pair) == SALVRUNDE_DONE);
    HOLDS(sample(pair, 0) == 300 && sample(pair, 131) == 700 && sample(pair, 262) == 9);
    HOLDS(salvrunde_chroma_refs_ctu(10, 4, 16, 16, 16, 4, 4, 4, 4, 8, 8, cb, sizeof cb, cr, sizeof cr, pair, sizeof pair) == SALVRUNDE_PICTURE);
    /* the picture's own CTU: 8 is none, and a block of 16 is above a CTU of 16 whose chroma is half as wide */
    HOLDS(salvrunde_chroma_refs_ctu(10, SALVRUNDE_YUV420, 16, 16, 8, 4, 4, 4, 4, 8, 8, cb, sizeof cb, cr, sizeof cr, pair, sizeof pair) == SALVRUNDE_PICTURE);
    HOLDS(salvrunde_chroma_refs_ctu(10, SALVRUNDE_YUV420, 16, 16, 16, 4, 0, 0, 16, 0, 0, cb, sizeof cb, cr, sizeof cr, pair, sizeof pair) == SALVRUNDE_PLACE);

    /* prediction from rows that are all 1000 */
    HOLDS(salvrunde_planar(8, above, SALVRUNDE_ROW_BYTES(8), left, SALVRUNDE_ROW_BYTES(8), block, sizeof block) == SALVRUNDE_DONE && sample(block, 63) == 1000);
    HOLDS(salvrunde_dc(8, 1, above, SALVRUNDE_ROW_BYTES(8), left, SALVRUNDE_ROW_BYTES(8), block, sizeof block) == SALVRUNDE_DONE && sample(block, 0) == 1000);
    HOLDS(salvrunde_angular(10, 8, 26, 1, 1000, above, SALVRUNDE_ROW_BYTES(8), left, SALVRUNDE_ROW_BYTES(8), block, sizeof block) == SALVRUNDE_DONE);
    HOLDS(sample(block, 0) == 1000);
    HOLDS(salvrunde_angular(10, 8, 258, 1, 1000, above, SALVRUNDE_ROW_BYTES(8), left, SALVRUNDE_ROW_BYTES(8), block, sizeof block) == SALVRUNDE_MODE);
    HOLDS(salvrunde_chroma_block(10, 8, 1, 1000, above, SALVRUNDE_ROW_BYTES(8), left, SALVRUNDE_ROW_BYTES(8), block, sizeof block) == SALVRUNDE_DONE);
    HOLDS(salvrunde_chroma_block(10, 8, 1, 1000, above, SALVRUNDE_ROW_BYTES(8) - 1, left, 130, block, sizeof block) == SALVRUNDE_BUFFER);
    HOLDS(salvrunde_chroma_block(10, 8, 1, 1000, above, 130, left, SALVRUNDE_ROW_BYTES(8) - 1, block, sizeof block) == SALVRUNDE_BUFFER);
    HOLDS(salvrunde_planar(32, above, SALVRUNDE_ROW_BYTES(32), left, 130, block, sizeof block) == SALVRUNDE_DONE);
    HOLDS(salvrunde_planar(32, above, SALVRUNDE_ROW_BYTES(16), left, 130, block, sizeof block) == SALVRUNDE_BUFFER);
    HOLDS(salvrunde_dc(4, 0, above, 0, left, 0, block, sizeof block) == SALVRUNDE_BUFFER);

    /* a luma block is smoothed, so its rows have 65 samples at every side */
    HOLDS(salvrunde_luma_block(10, 8, 34, 1000, above, SALVRUNDE_LUMA_ROW_BYTES, left, SALVRUNDE_LUMA_ROW_BYTES, block, sizeof block) == SALVRUNDE_DONE);
    HOLDS(sample(block, 0) == 1000);
    HOLDS(salvrunde_luma_block(10, 4, 34, 1000, above, SALVRUNDE_LUMA_ROW_BYTES - 1, left, SALVRUNDE_LUMA_ROW_BYTES, block, sizeof block) == SALVRUNDE_BUFFER);
    HOLDS(salvrunde_luma_block(10, 4, 35, 1000, above, 0, left, 0, block, 0) == SALVRUNDE_MODE);
    HOLDS(salvrunde_luma_block(11, 5, 35, 1000, above, 0, left, 0, block, 0) == SALVRUNDE_DEPTH);

    /* the choice, with document 02's figures: all modes tie, mode 34 is exact, and a sum of more than two bytes */
    {
        static uint8_t up[SALVRUNDE_LUMA_ROW_BYTES], side[SALVRUNDE_LUMA_ROW_BYTES], source[SALVRUNDE_BLOCK_BYTES(32) + 2];
        static uint8_t choice[SALVRUNDE_CHOICE_BYTES + 1] = {9, 9, 9, 9, 9, 9, 9, 9, 9};
        uint32_t i;
        fill(up, 65, 7), fill(side, 65, 7), fill(source, 1025, 9);
        HOLDS(salvrunde_choose(8, 4, 7, up, sizeof up, side, sizeof side, source, SALVRUNDE_BLOCK_BYTES(4), choice, sizeof choice) == SALVRUNDE_DONE);
        HOLDS(choice[0] == 0 && choice[1] == 0 && choice[4] == 32 && choice[5] == 0 && choice[7] == 0 && choice[8] == 9);
        for (i = 0; i < 65; i++) up[2 * i] = (uint8_t)i;
        fill(side, 65, 0);
        for (i = 0; i < 16; i++) source[2 * i] = (uint8_t)(1 + i / 4 + i % 4);
        HOLDS(salvrunde_choose(8, 4, 0, up, sizeof up, side, sizeof side, source, SALVRUNDE_BLOCK_BYTES(4), choice, 8) == SALVRUNDE_DONE);
        HOLDS(choice[0] == 34 && choice[4] == 0);
        HOLDS(salvrunde_choose_early(8, 4, 0, up, sizeof up, side, sizeof side, source, SALVRUNDE_BLOCK_BYTES(4), choice, 8) == SALVRUNDE_DONE);
        HOLDS(choice[0] == 34 && choice[4] == 0);
        fill(up, 65, 65535), fill(side, 65, 65535), fill(source, 1025, 0);
        HOLDS(salvrunde_choose(8, 32, 65535, up, sizeof up, side, sizeof side, source, SALVRUNDE_BLOCK_BYTES(32), choice, 8) == SALVRUNDE_DONE);
        HOLDS(choice[0] == 0 && choice[4] == 0x00 && choice[5] == 0xFC && choice[6] == 0xFF && choice[7] == 0x03);
        /* mode 13 wins by exactly one */
        {
            static const uint8_t flecks[16] = {5, 5, 5, 4, 4, 4, 4, 4, 5, 4, 5, 4, 4, 4, 4, 4};
            fill(up, 65, 9), fill(up, 4, 5), fill(side, 65, 7), fill(side, 4, 4);
            for (i = 0; i < 16; i++) source[2 * i] = flecks[i], source[2 * i + 1] = 0;
            HOLDS(salvrunde_choose_early(8, 4, 5, up, sizeof up, side, sizeof side, source, SALVRUNDE_BLOCK_BYTES(4), choice, 8) == SALVRUNDE_DONE);
            HOLDS(choice[0] == 13 && choice[4] == 4);
            fill(up, 65, 65535), fill(side, 65, 65535), fill(source, 1025, 0);
        }
        /* each refusal; the sample past the block is not read */
        source[2 * 16 + 1] = 1;
        HOLDS(salvrunde_choose(8, 4, 65535, up, sizeof up, side, sizeof side, source, sizeof source, choice, 8) == SALVRUNDE_DONE && choice[0] == 10);
        HOLDS(choice[4] == (787440u & 255) && choice[5] == (787440u >> 8 & 255) && choice[6] == (787440u >> 16));
        HOLDS(salvrunde_choose(8, 8, 7, up, sizeof up, side, sizeof side, source, sizeof source, choice, 8) == SALVRUNDE_SAMPLE);
        HOLDS(salvrunde_choose(8, 8, 7, up, sizeof up, side, sizeof side, source, sizeof source, choice, 7) == SALVRUNDE_BUFFER);
        HOLDS(salvrunde_choose(8, 8, 7, up, sizeof up, side, sizeof side, source, SALVRUNDE_BLOCK_BYTES(8) - 1, choice, 8) == SALVRUNDE_BUFFER);
        HOLDS(salvrunde_choose(8, 4, 7, up, sizeof up - 1, side, sizeof side, source, sizeof source, choice, 8) == SALVRUNDE_BUFFER);
        HOLDS(salvrunde_choose(8, 12, 7, up, 0, side, sizeof side, source, sizeof source, choice, 8) == SALVRUNDE_SIZE);
        HOLDS(salvrunde_choose(7, 12, 7, up, 0, side, sizeof side, source, sizeof source, choice, 8) == SALVRUNDE_DEPTH);
        HOLDS(choice[0] == 10 && choice[8] == 9);
    }

    /* replay: two blocks of 8 by 8, one call each, then a plan that is not whole records and a record past the last block */
    {
        static const uint8_t plan[2 * SALVRUNDE_RECORD_BYTES] = {0, 0, 0, 0, 8, 1, 0, 0, 8, 0, 8, 1};
        static uint8_t still[2 * 16 * 8], residuals[4 * 16 * 8], result[SALVRUNDE_RESULT_BYTES];
        residuals[0] = 2;
        HOLDS(salvrunde_replay(0, 8, 16, 8, 16, 1, plan, sizeof plan, residuals, sizeof residuals, still, sizeof still, result, sizeof result) == SALVRUNDE_DONE);
        HOLDS(result[0] == 0 && result[4] == 1 && sample(still, 0) == 130 && sample(still, 1) == 128 && sample(still, 8) == 0);
        HOLDS(salvrunde_replay(1, 8, 16, 8, 16, 9, plan, sizeof plan, residuals, sizeof residuals, still, sizeof still, result, sizeof result) == SALVRUNDE_DONE);
        HOLDS(result[4] == 2 && sample(still, 8) == 128);
        HOLDS(salvrunde_replay(1, 8, 16, 8, 16, 9, plan, 11, residuals, sizeof residuals, still, sizeof still, result, sizeof result) == SALVRUNDE_BUFFER);
        HOLDS(salvrunde_replay(3, 8, 16, 8, 16, 9, plan, sizeof plan, residuals, sizeof residuals, still, sizeof still, result, sizeof result) == SALVRUNDE_START);
        HOLDS(result[0] == 0 && result[4] == 3);
        /* a residual above the depth's largest sample, of a block that is done and with none granted: the record as given, the plane kept */
        residuals[0] = 255;
        HOLDS(salvrunde_replay(1, 8, 16, 8, 16, 0, plan, sizeof plan, residuals, sizeof residuals, still, sizeof still, result, sizeof result) == SALVRUNDE_DONE);
        residuals[0] = 0, residuals[1] = 1, result[0] = 7;
        HOLDS(salvrunde_replay(1, 8, 16, 8, 16, 0, plan, sizeof plan, residuals, sizeof residuals, still, sizeof still, result, sizeof result) == SALVRUNDE_EXCESS);
        HOLDS(result[0] == 0 && result[4] == 1 && sample(still, 0) == 130);
        HOLDS(salvrunde_replay(0, 10, 16, 8, 16, 0, plan, sizeof plan, residuals, sizeof residuals, still, sizeof still, result, sizeof result) == SALVRUNDE_DONE);
        HOLDS(salvrunde_replay(9, 8, 16, 8, 16, 9, plan, 6, residuals, sizeof residuals, still, sizeof still, result, sizeof result) == SALVRUNDE_EXCESS);
        HOLDS(result[0] == 0 && result[4] == 9);
        result[0] = 7;
        HOLDS(salvrunde_replay(1, 8, 16, 8, 16, 9, plan, sizeof plan, residuals, sizeof residuals, still, sizeof still, result, 7) == SALVRUNDE_BUFFER);
        HOLDS(result[0] == 7 && result[4] == 9);
        residuals[4 * 127 + 2] = 1;
        HOLDS(salvrunde_replay(1, 8, 16, 8, 16, 9, plan, sizeof plan, residuals, sizeof residuals, still, sizeof still, result, sizeof result) == SALVRUNDE_RESIDUAL);
    }

    /* error reports: document 02's figures, each refusal of a record and of a pair, and a sum of two */
    {
        static const uint8_t plan[2 * SALVRUNDE_RECORD_BYTES] = {0, 0, 0, 0, 8, 1, 0, 0, 8, 0, 8, 1};
        static const uint8_t other[2 * SALVRUNDE_RECORD_BYTES] = {0, 0, 0, 0, 8, 5, 0, 0, 8, 0, 8, 1};
        static uint8_t a[2 * 16 * 8], b[2 * 16 * 8], report[SALVRUNDE_REPORT_BYTES + 1], more[SALVRUNDE_REPORT_BYTES];
        report[0] = more[0] = 8, report[4] = more[4] = 16, report[8] = more[8] = 8, report[12] = more[12] = 16;
        fill(a, 128, 10), fill(b, 128, 13), report[SALVRUNDE_REPORT_BYTES] = 9;
        HOLDS(salvrunde_count_errors(a, sizeof a, b, sizeof b, plan, sizeof plan, report, sizeof report) == SALVRUNDE_DONE);
        HOLDS(report[16] == 1 && report[24 + 8] == 2 && report[304 + 8] == 128 && report[584 + 8] == 0x80 && report[584 + 9] == 4);
        fill(a, 128, 0), fill(b, 64, 0), fill(b, 128, 255);
        HOLDS(salvrunde_count_errors(a, sizeof a, b, sizeof b, other, sizeof other, more, sizeof more) == SALVRUNDE_DONE);
        HOLDS(more[24 + 8] == 1 && more[24 + 40] == 1 && more[584 + 40] == 0x40 && more[584 + 41] == 0x80 && more[584 + 42] == 0x3f);
        HOLDS(salvrunde_join_errors(more, sizeof more, report, sizeof report) == SALVRUNDE_DONE);
        HOLDS(report[16] == 2 && report[24 + 8] == 3 && report[304 + 8] == 192 && report[584 + 8] == 0xc0 && report[584 + 9] == 0x84);
        HOLDS(report[584 + 10] == 0x3f && report[SALVRUNDE_REPORT_BYTES] == 9);
        HOLDS(salvrunde_count_errors(a, sizeof a, b, sizeof b, plan, 6, report, sizeof report) == SALVRUNDE_GAP && report[16] == 2);
        HOLDS(salvrunde_count_errors(a, sizeof a, b, sizeof b, plan + 6, 6, report, sizeof report) == SALVRUNDE_ORDER);
        HOLDS(salvrunde_count_errors(a, sizeof a, b, sizeof b - 2, plan, sizeof plan, report, sizeof report) == SALVRUNDE_BUFFER);
        HOLDS(salvrunde_count_errors(a, sizeof a, b, sizeof b, plan, sizeof plan, report, 863) == SALVRUNDE_BUFFER);
        more[24]++;
        HOLDS(salvrunde_join_errors(more, sizeof more, report, sizeof report) == SALVRUNDE_DONE && report[24] == 1 && report[16] == 3);
        more[304 + 8 * 34 + 1] = 1;
        HOLDS(salvrunde_join_errors(more, sizeof more, report, sizeof report) == SALVRUNDE_FULL && report[16] == 3);
        more[12] = 32;
        HOLDS(salvrunde_join_errors(more, sizeof more, report, sizeof report) == SALVRUNDE_PICTURE);
        report[18] = 1;
        HOLDS(salvrunde_count_errors(a, sizeof a, b, sizeof b, plan, sizeof plan, report, sizeof report) == SALVRUNDE_FULL);
        b[1] = 1;
        HOLDS(salvrunde_count_errors(a, sizeof a, b, sizeof b, plan, 6, report, sizeof report) == SALVRUNDE_SAMPLE);
        report[0] = 9;
        HOLDS(salvrunde_count_errors(a, sizeof a, b, sizeof b, plan, 6, report, sizeof report) == SALVRUNDE_DEPTH);
    }

    /* the checksum of document 02's steps, 4y + x on 4 by 4 samples: all rows, two halves, and each refusal */
    {
        static uint8_t steps[2 * 4 * 4], sum[SALVRUNDE_SUM_BYTES + 1] = {9, 9, 9, 9, 9};
        uint32_t i;
        for (i = 0; i < 16; i++) steps[2 * i] = (uint8_t)i;
        HOLDS(salvrunde_checksum(8, 4, 4, 0, 4, 0, steps, sizeof steps, sum, sizeof sum) == SALVRUNDE_DONE);
        HOLDS(sum[0] == 120 && sum[1] == 0 && sum[2] == 0 && sum[3] == 0 && sum[4] == 9);
        HOLDS(salvrunde_checksum(8, 4, 4, 0, 2, 0, steps, sizeof steps, sum, 4) == SALVRUNDE_DONE && sum[0] == 20);
        HOLDS(salvrunde_checksum(8, 4, 4, 2, 4, 20, steps, sizeof steps, sum, 4) == SALVRUNDE_DONE && sum[0] == 120);
        HOLDS(salvrunde_checksum(8, 4, 4, 4, 4, 0xFEDCBA98u, steps, sizeof steps, sum, 4) == SALVRUNDE_DONE);
        HOLDS(sum[0] == 0x98 && sum[1] == 0xBA && sum[2] == 0xDC && sum[3] == 0xFE);
        HOLDS(salvrunde_checksum(9, 4, 4, 0, 4, 0, steps, sizeof steps, sum, 4) == SALVRUNDE_DEPTH);
        HOLDS(salvrunde_checksum(8, 2, 8, 0, 4, 0, steps, sizeof steps, sum, 4) == SALVRUNDE_PICTURE);
        HOLDS(salvrunde_checksum(8, 4, 4, 0, 4, 0, steps, sizeof steps, sum, 3) == SALVRUNDE_BUFFER);
        steps[1] = 1;
        HOLDS(salvrunde_checksum(8, 4, 4, 0, 5, 0, steps, sizeof steps, sum, 4) == SALVRUNDE_SAMPLE);
        HOLDS(salvrunde_checksum(10, 4, 4, 0, 5, 0, steps, sizeof steps, sum, 4) == SALVRUNDE_START);
        HOLDS(sum[0] == 0x98 && sum[1] == 0xBA && sum[2] == 0xDC && sum[3] == 0xFE);
    }
    return 0;
}
