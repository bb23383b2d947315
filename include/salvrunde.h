/* Salvrunde: intra prediction of H.265 for still pictures, for firmware in C. C99; also C++.
 *
 * Every entry takes numbers and byte buffers, keeps nothing between calls, allocates nothing and makes its own scratch. So the stills of
 * two lenses under one plan can be replayed in turns, in any order: each has its own record, residuals and plane, and needs nothing more.
 *
 * Samples are two bytes each, residuals four (two's complement), the lowest byte first, whatever the processor. A buffer is a pointer and
 * its length in bytes. No pointer may be null, the bytes must be there, and a buffer that is written must share no byte with another
 * buffer of the same call.
 *
 * Every entry gives back a number, below. Checks are made in the order that the entry's comment names; the first that fails counts.
 * A call that is refused writes nothing, but for the replay's result. A call that is served writes what its comment says; bytes beyond
 * stay as they were. */
#ifndef SALVRUNDE_H
#define SALVRUNDE_H

#include <stddef.h>
#include <stdint.h>

#ifdef __cplusplus
extern "C" {
#endif

/* What an entry gives back. */
enum {
    SALVRUNDE_DONE = 0,
    SALVRUNDE_DEPTH = 1,   /* the depth is not 8, 10 or 12 bits */
    SALVRUNDE_SIZE = 2,    /* the block's side n is not 4, 8, 16 or 32 */
    SALVRUNDE_MODE = 3,    /* the mode is above 34; below 2 at the angular entry */
    SALVRUNDE_PICTURE = 4, /* a side is no multiple of 8 from 8 to 4096 (of 4 from 4 at the checksum), the CTU is not 16, 32 or 64, or the
                              format has no chroma */
    SALVRUNDE_BUFFER = 5,  /* a buffer is too short, a plane or residuals not exactly as long as the picture, or a plan not whole records */
    SALVRUNDE_PLACE = 6,   /* the block is not at a multiple of n or not in its plane, or n, the unit or the current place is wrong */
    SALVRUNDE_SAMPLE = 7,  /* a sample is above the depth's largest */
    SALVRUNDE_RESIDUAL = 8, /* a residual is below -65535 or above 65535 */
    SALVRUNDE_ORDER = 9,   /* a block does not start at the next uncovered cell, or none is left */
    SALVRUNDE_GAP = 10,    /* the plan ends with cells uncovered */
    SALVRUNDE_START = 11,  /* the progress record is above the count of blocks, or a range of rows runs backward or leaves the plane */
    SALVRUNDE_EXCESS = 14, /* a residual is larger than the depth's largest sample, 255, 1023 or 4095: no encoder makes one */
    SALVRUNDE_FULL = 15    /* an error report counts 65,536 pairs, or has more of a mode than its pairs can give */
};

/* chroma_format_idc, for `format`. */
enum {
    SALVRUNDE_MONOCHROME = 0, /* has no chroma: number 4 */
    SALVRUNDE_YUV420 = 1,
    SALVRUNDE_YUV422 = 2,
    SALVRUNDE_YUV444 = 3
};

/* Bytes of reference rows: the corner, 65 samples above from left to right, 65 samples left from top to bottom, so that above begins at
 * byte 2 and left at byte 132. */
#define SALVRUNDE_REFS_BYTES 262
/* Bytes of those of Cb and then those of Cr. */
#define SALVRUNDE_PAIR_BYTES 524
/* Least bytes of one row that a block of side n is predicted from: 2n samples. What a row has beyond them reaches no sample. */
#define SALVRUNDE_ROW_BYTES(n) (4 * (n))
/* Bytes of a block's record in a plan: row and column, two bytes each, the lower first, then side and mode, one byte each. */
#define SALVRUNDE_RECORD_BYTES 6
/* Bytes of the replay's result: the block's list number and the next progress record, four bytes each, the lowest first. */
#define SALVRUNDE_RESULT_BYTES 8
/* Least bytes of one row of a luma block that is smoothed where the rule says so, or whose mode is chosen: 65 samples at every side, as
 * salvrunde_luma_refs lays them. */
#define SALVRUNDE_LUMA_ROW_BYTES 130
/* Bytes of a choice: the mode and its sum of absolute differences, four bytes each, the lowest first. */
#define SALVRUNDE_CHOICE_BYTES 8
/* Bytes of a checksum, the lowest first. */
#define SALVRUNDE_SUM_BYTES 4
/* Bytes of an error report: depth, width, height, CTU, pairs and a block number, of 4 bytes each; then for modes 0 to 34 their blocks,
 * from byte 24 on, their samples, from byte 304 on, and the sums of their squared differences, from byte 584 on, of 8 bytes each. The
 * lowest byte comes first. A fresh report has its settings and zeros. */
#define SALVRUNDE_REPORT_BYTES 864
/* Bytes of a block of side n. */
#define SALVRUNDE_BLOCK_BYTES(n) (2 * (n) * (n))

/* The reference rows of a luma block, neighbours that are missing substituted.
 * plane: exactly 2 * width * height bytes. ctu: 16, 32 or 64. unit: the least unit, 4 or 8, at most n. row, col: the block's first
 * sample, multiples of n. out: at least SALVRUNDE_REFS_BYTES, which are written. Numbers 1, 2, 4, 5, 6. */
uint32_t salvrunde_luma_refs(uint32_t bits, uint32_t width, uint32_t height, uint32_t ctu, uint32_t unit, uint32_t row, uint32_t col,
                             uint32_t n, const uint8_t *plane, size_t plane_bytes, uint8_t *out, size_t out_bytes);

/* The reference rows of a chroma block in both planes, neighbours that are missing substituted.
 * format: a chroma_format_idc. luma_width, luma_height: the luma picture's sides. ctu: the picture's own, 16, 32 or 64. unit: the least
 * unit, 4 or 8, in luma samples. row, col: the block's first sample in its plane, multiples of n; n is at most ctu, or ctu / 2 where the
 * format halves the width. cur_luma_row, cur_luma_col: the luma sample that is being decoded. Where it is the block's own, row and col
 * times the subsampling of height and width, and unit is at most n times that of the width, the neighbours are H.265's.
 * cb, cr: each exactly 2 bytes a sample of its plane. out: at least SALVRUNDE_PAIR_BYTES, which are written, Cb's rows first.
 * Numbers 1, 2, 4, 5, 6.
 * Until it took ctu this entry was salvrunde_chroma_refs, which counted order in CTUs of 64. It has another name so that a program
 * compiled for that one is not linked to it; pass ctu = 64 to keep its answers. */
uint32_t salvrunde_chroma_refs_ctu(uint32_t bits, uint32_t format, uint32_t luma_width, uint32_t luma_height, uint32_t ctu, uint32_t unit,
                                   uint32_t row, uint32_t col, uint32_t n, uint32_t cur_luma_row, uint32_t cur_luma_col,
                                   const uint8_t *cb, size_t cb_bytes, const uint8_t *cr, size_t cr_bytes, uint8_t *out,
                                   size_t out_bytes);

/* Prediction: above and left have at least SALVRUNDE_ROW_BYTES(n) each; out has at least SALVRUNDE_BLOCK_BYTES(n), which are written, the
 * block's samples row by row. edge: not 0 where edges are to be filtered, as for luma; a block of side 32 has no filtered edge.
 * Rows are taken as they are: only salvrunde_luma_block smooths them. A luma block is predicted from smoothed rows where H.265 8.4.4.2.3
 * says so (never for DC or n = 4): rows of salvrunde_luma_refs handed to the first three give another block than the replay predicts, for
 * most modes from n = 8 on. Chroma of 4:2:0 and 4:2:2 is never smoothed. */

/* Planar, from rows as they are. Numbers 2, 5. */
uint32_t salvrunde_planar(uint32_t n, const uint8_t *above, size_t above_bytes, const uint8_t *left, size_t left_bytes, uint8_t *out,
                          size_t out_bytes);

/* DC, from rows as they are; H.265 smooths none for DC. Numbers 2, 5. */
uint32_t salvrunde_dc(uint32_t n, uint32_t edge, const uint8_t *above, size_t above_bytes, const uint8_t *left, size_t left_bytes,
                      uint8_t *out, size_t out_bytes);

/* An angular mode, 2 to 34, from rows as they are. Numbers 1, 2, 3, 5. */
uint32_t salvrunde_angular(uint32_t bits, uint32_t n, uint32_t mode, uint32_t edge, uint16_t corner, const uint8_t *above,
                           size_t above_bytes, const uint8_t *left, size_t left_bytes, uint8_t *out, size_t out_bytes);

/* A chroma block in any mode, 0 to 34: nothing is smoothed, no edge is filtered. Numbers 1, 2, 3, 5. */
uint32_t salvrunde_chroma_block(uint32_t bits, uint32_t n, uint32_t mode, uint16_t corner, const uint8_t *above, size_t above_bytes,
                                const uint8_t *left, size_t left_bytes, uint8_t *out, size_t out_bytes);

/* A luma block in any mode, 0 to 34, as the replay predicts it: rows smoothed where H.265 8.4.4.2.3 says so, the strong form allowed, edges
 * filtered. above and left have at least SALVRUNDE_LUMA_ROW_BYTES each, at every n. Numbers 1, 2, 3, 5. */
uint32_t salvrunde_luma_block(uint32_t bits, uint32_t n, uint32_t mode, uint16_t corner, const uint8_t *above, size_t above_bytes,
                              const uint8_t *left, size_t left_bytes, uint8_t *out, size_t out_bytes);

/* The luma mode whose block, that of salvrunde_luma_block, has the least sum of absolute differences to a source block; of several, the
 * lowest.
 * above and left have at least SALVRUNDE_LUMA_ROW_BYTES each, and may hold any samples. source: its first SALVRUNDE_BLOCK_BYTES(n) bytes
 * are the block, row by row; of these every sample is checked, and what follows is not read. out: at least SALVRUNDE_CHOICE_BYTES, which
 * are written: the mode, then its sum. Numbers 1, 2, 5, 7. */
uint32_t salvrunde_choose(uint32_t bits, uint32_t n, uint16_t corner, const uint8_t *above, size_t above_bytes, const uint8_t *left,
                          size_t left_bytes, const uint8_t *source, size_t source_bytes, uint8_t *out, size_t out_bytes);

/* The same by a search that drops a mode as soon as it cannot win: number, mode and sum are those of salvrunde_choose. */
uint32_t salvrunde_choose_early(uint32_t bits, uint32_t n, uint16_t corner, const uint8_t *above, size_t above_bytes, const uint8_t *left,
                          size_t left_bytes, const uint8_t *source, size_t source_bytes, uint8_t *out, size_t out_bytes);

/* Decodes the next blocks of a still from their residuals, as many as are granted, in the plane's own bytes; other samples stay as they
 * are.
 * done: the progress record, the number of blocks done, 0 at the start. grant: the most blocks that this call may do; 0 does nothing.
 * plan: SALVRUNDE_RECORD_BYTES for each block, in the order of decoding; together they cover the picture. residuals: exactly
 * 4 * width * height bytes, blocks one after the other in the plan's order, each row by row. plane: exactly 2 * width * height bytes.
 * result: at least SALVRUNDE_RESULT_BYTES, which are written: 0 and the next progress record; where the call is refused, the list number of
 * the block that number 2, 3, 6 or 9 is about (else 0) and `done` as it was given. A shorter result is number 5 and stays as it is.
 * Every call checks everything before it writes: numbers 1, 4, 5, then 8 and 14 over all residuals, also of blocks that are done, then each
 * block by 2, 3, 6, 9, then 10, then 11. That takes about a tenth of the time of replaying the whole still, whatever the grant: 640 by
 * 480 samples in blocks of 4, one block a call, take some two thousand times as long as in one call. Grant as many blocks as the time
 * between calls allows. */
uint32_t salvrunde_replay(uint32_t done, uint32_t bits, uint32_t width, uint32_t height, uint32_t ctu, uint32_t grant, const uint8_t *plan,
                          size_t plan_bytes, const uint8_t *residuals, size_t residuals_bytes, uint8_t *plane, size_t plane_bytes,
                          uint8_t *result, size_t result_bytes);

/* The picture checksum of one plane, of luma or of chroma, as the decoded picture hash message of H.265 Annex D has it (hash_type 2).
 * width, height: the plane's own sides, each a multiple of 4 from 4 to 4096. first, end: the rows from first up to end, end not among them;
 * equal ones are none. sum: the sum so far, 0 at the start. A plane may be summed in several calls, each from the sum that the one before
 * gave: over all rows that is the message's number, whatever the calls. plane: exactly 2 * width * height bytes, all of them checked in
 * every call. out: at least SALVRUNDE_SUM_BYTES, which are written. Numbers 1, 4, 5, 7, 11. */
uint32_t salvrunde_checksum(uint32_t bits, uint32_t width, uint32_t height, uint32_t first, uint32_t end, uint32_t sum,
                            const uint8_t *plane, size_t plane_bytes, uint8_t *out, size_t out_bytes);

/* Counts a pair of planes into an error report: how far b is from a, each block of the plan under its mode, exactly. Luma alone.
 * a, b: exactly 2 * width * height bytes each, of the report's depth. plan: block records as for replay, which cover the picture.
 * report: at least SALVRUNDE_REPORT_BYTES, else 5 before all else, and nothing is written. A counted pair changes its pairs and its sums; a
 * refused one leaves them as they were. The four bytes from 20 on get the block that the number is about, else 0.
 * Numbers 1 and 4 (of the report's settings), 5, 7, each block 2, 3, 6, 9, then 10, 15. */
uint32_t salvrunde_count_errors(const uint8_t *a, size_t a_bytes, const uint8_t *b, size_t b_bytes, const uint8_t *plan, size_t plan_bytes,
                                uint8_t *report, size_t report_bytes);

/* Adds another error report of the same depth, picture and CTU to a report: what was counted apart is counted together.
 * Both have at least SALVRUNDE_REPORT_BYTES, else 5 before all else. A refused sum changes nothing; a served one changes the report's pairs
 * and sums, and leaves the four bytes from 20 on.
 * Numbers 1, 4 (also where the settings are not the same), 5, 15 (also where the pairs together are more than 65,536). */
uint32_t salvrunde_join_errors(const uint8_t *other, size_t other_bytes, uint8_t *report, size_t report_bytes);

#ifdef __cplusplus
}
#endif

#endif
