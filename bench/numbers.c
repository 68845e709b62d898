/* The time of one call of mul_add and of cbrt, beside the C library's fmaf and cbrtf; of one sample of screen_bytes, of one pixel of
   ycbcr_bytes and of rgb_bytes, of one byte that widen makes or narrow takes, and of one code of code_levels, beside plain Rust loops of the
   rule before W2, of the same rules, and through a table; all in one run. With BEFORE, of cbrt also beside that of another commit. Inputs: 4,096 random patterns of finite floats
   with exponents within 30 of 0, 65,536 samples from -1/8 to 9/8, 65,536 pixels of any bytes, and 65,536 codes from 0 to 1023; the same
   for both sides, in warm buffers. */
#include <math.h>
#include <stddef.h>
#include <stdint.h>
#include <stdio.h>
#include <string.h>
#include <time.h>
#include "rindsaddle.h"

float before_cbrt(float x);
void plain_screen_bytes(const float *samples, uint8_t *bytes, size_t count);
void plain_ycbcr_bytes(const uint8_t *cb, const uint8_t *y, const uint8_t *cr, uint8_t *r, uint8_t *g, uint8_t *b, size_t count);
void plain_rgb_bytes(const uint8_t *r, const uint8_t *g, const uint8_t *b, uint8_t *cb, uint8_t *y, uint8_t *cr, size_t count);
void plain_widen(const uint8_t *line, uint8_t *out, size_t room);
void plain_narrow(const uint8_t *line, uint8_t *out, size_t count);
void plain_code_levels(const uint16_t *table, const uint16_t *codes, float *levels, size_t count);

enum { COUNT = 4096, TURNS = 2000, SAMPLES = 65536, FRAMES = 200 };
static float a[COUNT], b[COUNT], c[COUNT], out[COUNT], samples[SAMPLES], levels[SAMPLES];
static uint8_t bytes[SAMPLES], in[3][SAMPLES], to[3][SAMPLES];
static uint16_t table[1024], codes[SAMPLES];
static uint64_t state = 0x9e3779b97f4a7c15u;

static float sample(void) {
    state ^= state << 13;
    state ^= state >> 7;
    state ^= state << 17;
    uint32_t bits = (uint32_t)(state & 0x807fffff) | (uint32_t)(97 + (state >> 32) % 61) << 23;
    float x;
    memcpy(&x, &bits, 4);
    return x;
}

static double now(void) {
    struct timespec t;
    clock_gettime(CLOCK_MONOTONIC, &t);
    return t.tv_sec + t.tv_nsec * 1e-9;
}

/* The barrier keeps a compiler that knows fmaf and cbrtf from working them out once for all turns. */
#define TIMED(label, turns, count, turn)                                \
    static double label(void) {                                         \
        double best = 1e9;                                              \
        for (int run = 0; run < 5; run++) {                             \
            double start = now();                                       \
            for (int t = 0; t < turns; t++) {                           \
                turn;                                                   \
                __asm__ volatile("" ::"r"(out), "r"(a), "r"(b), "r"(c) : "memory"); \
            }                                                           \
            double took = now() - start;                                \
            if (took < best) best = took;                               \
        }                                                               \
        return best / ((double)turns * count) * 1e9;                    \
    }
#define EACH(call) for (int i = 0; i < COUNT; i++) out[i] = call

TIMED(ours_mul_add, TURNS, COUNT, EACH(rindsaddle_mul_add(a[i], b[i], c[i])))
TIMED(theirs_mul_add, TURNS, COUNT, EACH(fmaf(a[i], b[i], c[i])))
TIMED(ours_cbrt, TURNS, COUNT, EACH(rindsaddle_cbrt(a[i])))
TIMED(theirs_cbrt, TURNS, COUNT, EACH(cbrtf(a[i])))
#ifdef BEFORE
TIMED(earlier_cbrt, TURNS, COUNT, EACH(before_cbrt(a[i])))
#endif
TIMED(ours_screen, FRAMES, SAMPLES, rindsaddle_screen_bytes(samples, SAMPLES, bytes, SAMPLES))
TIMED(plain_screen, FRAMES, SAMPLES, plain_screen_bytes(samples, bytes, SAMPLES))
TIMED(ours_ycbcr, FRAMES, SAMPLES,
      rindsaddle_ycbcr_bytes(3, in[0], SAMPLES, in[1], SAMPLES, in[2], SAMPLES, to[0], SAMPLES, to[1], SAMPLES, to[2], SAMPLES))
TIMED(plain_ycbcr, FRAMES, SAMPLES, plain_ycbcr_bytes(in[0], in[1], in[2], to[0], to[1], to[2], SAMPLES))
TIMED(ours_rgb, FRAMES, SAMPLES,
      rindsaddle_rgb_bytes(3, in[0], SAMPLES, in[1], SAMPLES, in[2], SAMPLES, to[0], SAMPLES, to[1], SAMPLES, to[2], SAMPLES))
TIMED(plain_rgb, FRAMES, SAMPLES, plain_rgb_bytes(in[0], in[1], in[2], to[0], to[1], to[2], SAMPLES))
TIMED(ours_widen, FRAMES, SAMPLES, rindsaddle_widen(in[0], SAMPLES / 2, to[0], SAMPLES))
TIMED(plain_widened, FRAMES, SAMPLES, plain_widen(in[0], to[0], SAMPLES))
TIMED(ours_narrow, FRAMES, SAMPLES, rindsaddle_narrow(in[0], SAMPLES, to[0], SAMPLES / 2))
TIMED(plain_narrowed, FRAMES, SAMPLES, plain_narrow(in[0], to[0], SAMPLES))
TIMED(ours_codes, FRAMES, SAMPLES, rindsaddle_code_levels(codes, SAMPLES, levels, SAMPLES))
TIMED(plain_codes, FRAMES, SAMPLES, plain_code_levels(table, codes, levels, SAMPLES))

static void report(const char *name, double ours, const char *other, double theirs) {
    printf("%-12s %6.2f ns, %-6s %6.2f ns, ratio %.1f\n", name, ours, other, theirs, ours / theirs);
}

int main(void) {
    for (int i = 0; i < COUNT; i++) a[i] = sample(), b[i] = sample(), c[i] = sample();
    for (int i = 0; i < SAMPLES; i++) sample(), samples[i] = (float)(state >> 40) / (1 << 24) * 1.25f - 0.125f;
    for (int i = 0; i < SAMPLES; i++) sample(), in[0][i] = state >> 40, in[1][i] = state >> 48, in[2][i] = state >> 56;
    for (int i = 0; i < SAMPLES; i++) sample(), codes[i] = (uint16_t)(state >> 54);
    for (int c = 0; c < 1024; c++) table[c] = (uint16_t)(c * 64); /* any table is read as fast */
    report("mul_add", ours_mul_add(), "fmaf", theirs_mul_add());
    report("cbrt", ours_cbrt(), "cbrtf", theirs_cbrt());
#ifdef BEFORE
    report("cbrt", ours_cbrt(), "before", earlier_cbrt());
#endif
    report("screen_bytes", ours_screen(), "plain", plain_screen());
    report("ycbcr_bytes", ours_ycbcr(), "plain", plain_ycbcr());
    report("rgb_bytes", ours_rgb(), "plain", plain_rgb());
    report("widen", ours_widen(), "plain", plain_widened());
    report("narrow", ours_narrow(), "plain", plain_narrowed());
    report("code_levels", ours_codes(), "plain", plain_codes());
    return 0;
}
