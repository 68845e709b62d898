/* YCbCr over floats and over bytes, there and back, and chroma at half width: pixels worked out from 02's fractions, and what is refused. */
#include "compared.h"

static uint8_t out[3][4];

static void fresh(void) {
    memset(out, MARK, sizeof out);
}

static int untouched(void) {
    return stays(out, 0, sizeof out);
}

/* whether the pixels of n columns are these */
static int pixels(size_t n, const uint8_t *one, const uint8_t *two, const uint8_t *three) {
    return memcmp(out[0], one, n) == 0 && memcmp(out[1], two, n) == 0 && memcmp(out[2], three, n) == 0;
}

/* of R, G, B: 178.054, -90.69 and 0, held; 255, 298.01 held, 33.5 upward; no colour */
static void to_rgb(void) {
    const uint8_t cb[3] = {128, 3, 128}, y[3] = {0, 255, 77}, cr[3] = {255, 128, 128};
    const uint8_t red[3] = {178, 255, 77}, green[3] = {0, 255, 77}, blue[3] = {0, 34, 77}, red709[3] = {200, 255, 77}, blue709[3] = {0, 23, 77};
    for (uint32_t firmware = 1; firmware <= 4; firmware++) {
        fresh();
        same("to RGB", rindsaddle_ycbcr_bytes(firmware, cb, 3, y, 3, cr, 3, out[0], 3, out[1], 3, out[2], 3) == RINDSADDLE_OK);
        same("its pixels", firmware < 4 ? pixels(3, red, green, blue) : pixels(3, red709, green, blue709));
    }
    fresh();
    for (int i = 0; i < 6; i++) {
        size_t n[6] = {3, 3, 3, 3, 3, 3};
        n[i] = 2;
        uint8_t answer = rindsaddle_ycbcr_bytes(1, cb, n[0], y, n[1], cr, n[2], out[0], n[3], out[1], n[4], out[2], n[5]);
        same("a channel is short", answer == RINDSADDLE_UNEQUAL && untouched());
    }
    same("firmware 5, before 4", rindsaddle_ycbcr_bytes(5, cb, 2, y, 3, cr, 3, out[0], 3, out[1], 3, out[2], 3) == RINDSADDLE_FIRMWARE && untouched());
}

/* of Cb, Y, Cr for red and white: 84.97, 76.245, 255.5 held, or by firmware 4 98.78, 54.213, 255.5 held; 128, 255, 128 */
static void to_ycbcr(void) {
    const uint8_t r[2] = {255, 255}, g[2] = {0, 255}, b[2] = {0, 255};
    const uint8_t cb[2] = {85, 128}, y[2] = {76, 255}, cb709[2] = {99, 128}, y709[2] = {54, 255}, cr[2] = {255, 128};
    for (uint32_t firmware = 1; firmware <= 4; firmware++) {
        fresh();
        same("to YCbCr", rindsaddle_rgb_bytes(firmware, r, 2, g, 2, b, 2, out[0], 2, out[1], 2, out[2], 2) == RINDSADDLE_OK);
        same("its pixels", firmware < 4 ? pixels(2, cb, y, cr) : pixels(2, cb709, y709, cr));
    }
    fresh();
    for (int i = 0; i < 6; i++) {
        size_t n[6] = {2, 2, 2, 2, 2, 2};
        n[i] = 1;
        uint8_t answer = rindsaddle_rgb_bytes(4, r, n[0], g, n[1], b, n[2], out[0], n[3], out[1], n[4], out[2], n[5]);
        same("a channel is short", answer == RINDSADDLE_UNEQUAL && untouched());
    }
    same("firmware 0, before 4", rindsaddle_rgb_bytes(0, r, 1, g, 2, b, 2, out[0], 2, out[1], 2, out[2], 2) == RINDSADDLE_FIRMWARE && untouched());
}

static void half(void) {
    const uint8_t line[3] = {0, 1, 5}, two[2] = {0, 2}, wide[4] = {0, 1, 2, 2}, narrow[2] = {1, 5};
    fresh();
    same("two bytes to five", rindsaddle_widen(two, 2, out[0], 5) == RINDSADDLE_UNEQUAL && untouched());
    same("two bytes to two", rindsaddle_widen(two, 2, out[0], 2) == RINDSADDLE_UNEQUAL && untouched());
    same("two bytes to four", rindsaddle_widen(two, 2, out[0], 4) == RINDSADDLE_OK && memcmp(out[0], wide, 4) == 0);
    same("two bytes to three", rindsaddle_widen(two, 2, out[1], 3) == RINDSADDLE_OK && memcmp(out[1], wide, 3) == 0 && stays(out[1], 3, 4));
    same("none to none", rindsaddle_widen(two, 0, out[2], 0) == RINDSADDLE_OK);
    fresh();
    same("three bytes to one", rindsaddle_narrow(line, 3, out[0], 1) == RINDSADDLE_UNEQUAL && untouched());
    same("three bytes to two", rindsaddle_narrow(line, 3, out[0], 2) == RINDSADDLE_OK && memcmp(out[0], narrow, 2) == 0 && stays(out[0], 2, 4));
}

/* a whole line is what widening both and then the conversion give */
static void line(void) {
    const uint8_t cb[2] = {0, 200}, y[4] = {10, 90, 170, 250}, cr[2] = {255, 40};
    uint8_t wide_cb[4], wide_cr[4], by_parts[3][4];
    for (size_t n = 3; n <= 4; n++) {
        fresh();
        memset(by_parts, MARK, sizeof by_parts);
        rindsaddle_widen(cb, 2, wide_cb, n);
        rindsaddle_widen(cr, 2, wide_cr, n);
        rindsaddle_ycbcr_bytes(4, wide_cb, n, y, n, wide_cr, n, by_parts[0], n, by_parts[1], n, by_parts[2], n);
        same("a line", rindsaddle_line_bytes(4, cb, 2, y, n, cr, 2, out[0], n, out[1], n, out[2], n) == RINDSADDLE_OK);
        same("it is that of the parts", memcmp(out, by_parts, sizeof out) == 0);
    }
    fresh();
    same("a Y of two", rindsaddle_line_bytes(1, cb, 2, y, 2, cr, 2, out[0], 2, out[1], 2, out[2], 2) == RINDSADDLE_UNEQUAL && untouched());
    same("a short Cr", rindsaddle_line_bytes(1, cb, 2, y, 4, cr, 1, out[0], 4, out[1], 4, out[2], 4) == RINDSADDLE_UNEQUAL && untouched());
    same("a short blue", rindsaddle_line_bytes(1, cb, 2, y, 4, cr, 2, out[0], 4, out[1], 4, out[2], 3) == RINDSADDLE_UNEQUAL && untouched());
    same("firmware 9", rindsaddle_line_bytes(9, cb, 2, y, 2, cr, 2, out[0], 2, out[1], 2, out[2], 2) == RINDSADDLE_FIRMWARE && untouched());
}

/* where the raised luma is 0 and one chroma is 1, the constants themselves are left */
static void floats(void) {
    const float dark = -128.0f / 255.0f;
    float cb[2] = {1.0f, 0.0f}, y[2] = {dark, dark}, cr[2] = {0.0f, 1.0f};
    same("floats, lengths", rindsaddle_ycbcr(1, cb, 2, y, 1, cr, 2) == RINDSADDLE_UNEQUAL && cb[0] == 1.0f && y[0] == dark && cr[1] == 1.0f);
    same("floats, firmware 5", rindsaddle_ycbcr(5, cb, 2, y, 1, cr, 2) == RINDSADDLE_FIRMWARE && cb[0] == 1.0f && y[0] == dark && cr[1] == 1.0f);
    same("floats", rindsaddle_ycbcr(3, cb, 2, y, 2, cr, 2) == RINDSADDLE_OK);
    same("T.871", cb[1] == 1.402f && cr[0] == 1.772f && y[0] == -0.114f * 1.772f / 0.587f && y[1] == -0.299f * 1.402f / 0.587f);
    cb[0] = cr[1] = 1.0f, cb[1] = cr[0] = 0.0f, y[0] = y[1] = dark;
    same("floats, firmware 4", rindsaddle_ycbcr(4, cb, 2, y, 2, cr, 2) == RINDSADDLE_OK);
    same("BT.709", cb[1] == 1.5748f && cr[0] == 1.8556f && bits(y[0]) == 0xbe3fd1ee && bits(y[1]) == 0xbeefadfc);
}

int main(void) {
    to_rgb();
    to_ycbcr();
    half();
    line();
    floats();
    return finish("ycbcr");
}
