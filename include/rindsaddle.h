/* Rindsaddle: colour for container ports, proved. C99 and C++.

   What holds of every function here:

   - It answers for every input. Where it refuses, it answers a number of `rindsaddle_refusal`, and changes nothing of the caller's but `told`, and the
     `state` of a run where it says so.
   - A pointer is followed by how many elements it points to. Pointers are aligned and not null, also where that number is 0, and what is written to
     overlaps nothing else that is passed.
   - `told` is written whole on every call. Its first number is the answer; what is not named behind a refusal is 0.
   - Nothing is kept between calls and nothing is allocated, so threads may call at once on buffers of their own. A call takes, as measured, less than
     32 KiB of the stack.
   - Floats cross as they are, NaNs and infinities too.

   `doors/example.c` is a whole program; the rules are in `docs/RULES.md`. Link with -lrindsaddle (pkg-config rindsaddle); x86-64 Linux. */
#ifndef RINDSADDLE_H
#define RINDSADDLE_H

#include <stddef.h>
#include <stdint.h>

#ifdef __cplusplus
extern "C" {
#endif

/* What a function answers. */
enum rindsaddle_refusal {
    RINDSADDLE_OK = 0,           /* nothing is refused */
    RINDSADDLE_ICC = 1,          /* planning: a side is an ICC profile */
    RINDSADDLE_OUT_OF_RANGE = 2, /* planning: a coordinate or g is outside its range, or a number stands in no table */
    RINDSADDLE_UNSUPPORTED = 3,  /* planning: from an Unknown colour space, or to Xyb or Unknown, and the sides are not equivalent */
    RINDSADDLE_UNEQUAL = 4,      /* the lengths are unequal, or chroma at half width does not fit them */
    RINDSADDLE_MISFIT = 5,       /* the op at this position needs another width; joining: the first ends at another width than the second starts at */
    RINDSADDLE_NOT_CARRIED = 6,  /* running: the op at this position is only planned here, and not carried out */
    RINDSADDLE_SHORT = 7,        /* reading: the block ends early */
    RINDSADDLE_WRONG_MARK = 8,   /* reading: no plan block, or of a version other than 1 and 2; writing: another version */
    RINDSADDLE_BAD_OP = 9,       /* reading: an unknown op, a bad field or a false end width; writing: a NaN in a field */
    RINDSADDLE_MALFORMED = 10,   /* the start width is not 1 or 3, or there are more than 32 ops, joined ones together too */
    RINDSADDLE_NOT_OPEN = 11,    /* a strip or a close: no run is open */
    RINDSADDLE_NO_ROOM = 12,     /* writing: the buffer is too short */
    RINDSADDLE_FIRMWARE = 13,    /* YCbCr: the firmware is none of 1 to 4 */
    RINDSADDLE_CODE = 14,        /* ten-bit codes: one is above 1023 */
    RINDSADDLE_RETIRED = 15      /* planning or writing: the Unknown curve, which is retired */
};

enum {
    RINDSADDLE_BLOCK_ROOM = 1192, /* no plan block is longer */
    RINDSADDLE_TEXT_ROOM = 1024   /* what rindsaddle_text is lent */
};

/* ---- Numbers ---- */

/* a times b plus c, rounded once. */
float rindsaddle_mul_add(float a, float b, float c);

/* The float nearest the cube root; zeros, infinities and NaN are their own. */
float rindsaddle_cbrt(float x);

/* How many channels an ICC profile has: 1 (GRAY), 4 (CMYK) or 3, which is also that of fewer than 20 bytes. */
uint8_t rindsaddle_icc_channels(const uint8_t *profile, size_t size);

/* ---- Plans ----

   A plan is a list of up to 32 ops that lead from a width, 1 channel or 3, to another. It crosses the border as a plan block: bytes that can be
   stored and sent. `block` may have bytes behind the block; they are the caller's and are not read. `out` has room for the block made, bytes behind it stay,
   and RINDSADDLE_BLOCK_ROOM is always enough. `version` is 1, or 2, which also holds the end width.

   An encoding is fourteen numbers:

     [0]      colour space: 0 Rgb, 1 Grey, 2 Xyb, 3 Unknown, 4 an ICC profile, of which no other number is read
     [1]      white point: 0 D65, 1 E, 2 Dci, 3 Custom
     [2..3]   its x and y in millionths, read where Custom: -2097152 to 2097151
     [4]      primaries: 0 Srgb, 1 Bt2100, 2 P3, 3 Custom
     [5..10]  red x and y, green x and y, blue x and y, as those of the white point
     [11]     curve: 0 Gamma, 1 Gamma inverted, 2 Bt709, 3 Unknown, 4 Linear, 5 Srgb, 6 Pq, 7 Dci, 8 Hlg
     [12]     g, read where a Gamma: 0 to 16777215
     [13]     intent: 0 Perceptual, 1 Relative, 2 Saturation, 3 Absolute

   The settings are fourteen floats: the inverse opsin matrix by rows [0..8], its three biases [9..11], intensity_target [12], min_nits [13]. */

/* The plan from one encoding to another, as a block. A flag is on where it is not 0. Refused by 1, 2, 15, 3, then 8, 9, 12.
   told: number, length used, start width, end width (0 where rindsaddle_check refuses the list by 5). */
uint8_t rindsaddle_plan(const int32_t source[14], const int32_t target[14], const float settings[14], uint8_t detect_peak, uint8_t from_pq,
                        uint16_t version, uint8_t *out, size_t room, uint64_t told[4]);

/* What a block says of itself, and where it ends. Refused by 7 to 10. told: number, length used, start width, end width. */
uint8_t rindsaddle_read(const uint8_t *block, size_t size, uint64_t told[4]);

/* Whether each op of a block finds the width that it needs. Refused by 7 to 10, then 5. told: number, position, width at the end, version. */
uint8_t rindsaddle_check(const uint8_t *block, size_t size, uint64_t told[4]);

/* The list of a block with each run of matrices made one, as a block of the same version. Refused by 7 to 10, then 9, 15, 12. told: as of rindsaddle_plan. */
uint8_t rindsaddle_merge(const uint8_t *block, size_t size, uint8_t *out, size_t room, uint64_t told[4]);

/* The list of a block, as a block of another version. Refused by 7 to 10, then 8, 15, 12. told: as of rindsaddle_plan. */
uint8_t rindsaddle_rewrite(const uint8_t *block, size_t size, uint16_t version, uint8_t *out, size_t room, uint64_t told[4]);

/* The ops of one block and then those of another, as a block. Refused by 7 to 10 of the first, of the second, then by 10, 5, then 8, 15, 12.
   told: number, position in the joined order, length used, end width. */
uint8_t rindsaddle_join(const uint8_t *first, size_t first_size, const uint8_t *second, size_t second_size, uint16_t version,
                        uint8_t *out, size_t room, uint64_t told[4]);

/* A block as lines for an operator, or "refused N". Answers how many bytes were put; no zero ends them, and those behind them stay. */
size_t rindsaddle_text(const uint8_t *block, size_t size, uint8_t out[RINDSADDLE_TEXT_ROOM]);

/* ---- Runs ---- */

/* Applies the list of a block to three equally long channels, in place. At width 1 the picture is in a, and b and c are room. Refused by 7 to 10, then 4, 5, 6.
   told: number, position, width at the end, how many samples within it are infinite or NaN. */
uint8_t rindsaddle_run(const uint8_t *block, size_t size, float *a, size_t a_count, float *b, size_t b_count, float *c, size_t c_count,
                       uint64_t told[4]);

/* The same strip by strip: open, a strip as often as there are some, close, each lent the same block and the same `state`. That is {1, sum of the
   bad samples} while a run is open and {0, 0} while none is; a caller begins with {0, 0}. told: as of rindsaddle_run. */

/* Refused by 7 to 10, 5, 6, and then no run is open. What was open before is closed either way. */
uint8_t rindsaddle_open(const uint8_t *block, size_t size, uint64_t state[2], uint64_t told[4]);

/* A strip of any length. Refused by 11, 4, and the run stays as it was. The bad samples told are the strip's own. */
uint8_t rindsaddle_strip(const uint8_t *block, size_t size, uint64_t state[2], float *a, size_t a_count, float *b, size_t b_count,
                         float *c, size_t c_count, uint64_t told[4]);

/* Refused by 11; no run is open after it. The bad samples told are those of all strips, held at 2^64 - 1. */
uint8_t rindsaddle_close(const uint8_t *block, size_t size, uint64_t state[2], uint64_t told[4]);

/* ---- Steps of a run, one by one ----

   On three equally long channels, in place; refused by 4. */

/* X, Y, B to l, m, s. */
uint8_t rindsaddle_xyb_to_mixed_lms(const float opsin_bias[3], float intensity_target,
                                    float *x, size_t x_count, float *y, size_t y_count, float *b, size_t b_count);

/* The matrix comes by rows. */
uint8_t rindsaddle_matrix(const float matrix[9], float *a, size_t a_count, float *b, size_t b_count, float *c, size_t c_count);

/* Luma in a, to X, Y, Z of a white point at x, y. */
uint8_t rindsaddle_luma_to_xyz(float x, float y, float *a, size_t a_count, float *b, size_t b_count, float *c, size_t c_count);

/* a takes b. */
uint8_t rindsaddle_xyz_to_luma(float *a, size_t a_count, const float *b, size_t b_count, const float *c, size_t c_count);

/* Within 0 to 1, in the first `width` channels; NaN and minus zero stay. */
uint8_t rindsaddle_clip(uint8_t width, float *a, size_t a_count, float *b, size_t b_count, float *c, size_t c_count);

/* The Linear curve and the Unknown one: it only compares the lengths. */
uint8_t rindsaddle_unchanged(uint8_t width, const float *a, size_t a_count, const float *b, size_t b_count, const float *c, size_t c_count);

/* How many samples in the first `width` channels are infinite or NaN. Refuses nothing. */
uint64_t rindsaddle_count(uint8_t width, const float *a, size_t a_count, const float *b, size_t b_count, const float *c, size_t c_count);

/* ---- YCbCr, and bytes ----

   The camera's firmware says by which weights: 1 to 3 ITU-T T.871, 4 ITU-R BT.709-6. Refused by 13 where one is named, then by 4. */

/* Cb, Y, Cr to R, G, B over floats, in place. */
uint8_t rindsaddle_ycbcr(uint32_t firmware, float *cb, size_t cb_count, float *y, size_t y_count, float *cr, size_t cr_count);

/* Cb, Y, Cr to R, G, B, six equally long channels. */
uint8_t rindsaddle_ycbcr_bytes(uint32_t firmware,
                               const uint8_t *cb, size_t cb_count, const uint8_t *y, size_t y_count, const uint8_t *cr, size_t cr_count,
                               uint8_t *r, size_t r_count, uint8_t *g, size_t g_count, uint8_t *b, size_t b_count);

/* R, G, B to Cb, Y, Cr, six equally long channels. */
uint8_t rindsaddle_rgb_bytes(uint32_t firmware,
                             const uint8_t *r, size_t r_count, const uint8_t *g, size_t g_count, const uint8_t *b, size_t b_count,
                             uint8_t *cb, size_t cb_count, uint8_t *y, size_t y_count, uint8_t *cr, size_t cr_count);

/* A line of n chroma bytes to one of 2n or 2n - 1. */
uint8_t rindsaddle_widen(const uint8_t *line, size_t count, uint8_t *out, size_t room);

/* A line of n bytes to one of n / 2, rounded up. */
uint8_t rindsaddle_narrow(const uint8_t *line, size_t count, uint8_t *out, size_t room);

/* Y with Cb and Cr at half width to R, G, B as long as Y: what widening both and then rindsaddle_ycbcr_bytes give. */
uint8_t rindsaddle_line_bytes(uint32_t firmware,
                              const uint8_t *cb, size_t cb_count, const uint8_t *y, size_t y_count, const uint8_t *cr, size_t cr_count,
                              uint8_t *r, size_t r_count, uint8_t *g, size_t g_count, uint8_t *b, size_t b_count);

/* Samples from 0 to 1 to as many bytes for a screen; NaN gives 0. Refused by 4. */
uint8_t rindsaddle_screen_bytes(const float *samples, size_t count, uint8_t *bytes, size_t room);

/* ---- Ten-bit sRGB codes ---- */

/* The 16-bit linear level of a code from 0 to 1023; of any other 0. */
uint16_t rindsaddle_level(uint16_t code);

/* The code whose level is nearest, the lower one on a tie. */
uint16_t rindsaddle_code(uint16_t level);

/* Codes to as many levels from 0 to 1. Refused by 4, then 14. */
uint8_t rindsaddle_code_levels(const uint16_t *codes, size_t count, float *levels, size_t room);

#ifdef __cplusplus
}
#endif

#endif
