/* Single numbers, ten-bit codes and bytes for a screen: the readings of 01 and 02, and what is refused. */
#include "compared.h"

static void arithmetic(void) {
    float near_one = 1.0f + 0x1p-12f;
    same("fused, 01's case", rindsaddle_mul_add(near_one, near_one, -(1.0f + 0x1p-11f)) == 0x1p-24f);
    same("fused of an infinity and zero", isnan(rindsaddle_mul_add(INFINITY, 0.0f, 1.0f)));
    same("the root of 27", rindsaddle_cbrt(27.0f) == 3.0f);
    same("the root of -8", rindsaddle_cbrt(-8.0f) == -2.0f);
    same("the root of minus zero", bits(rindsaddle_cbrt(-0.0f)) == bits(-0.0f));
    same("the root of an infinity", rindsaddle_cbrt(-INFINITY) == -INFINITY);
    same("the root of NaN", isnan(rindsaddle_cbrt(NAN)));
    same("the root of 1 + 13 units, which glibc's cbrtf misses", bits(rindsaddle_cbrt(1.0f + 13 * 0x1p-23f)) == 0x3f800004);
}

static void profiles(void) {
    uint8_t profile[24] = {0};
    same("no profile", rindsaddle_icc_channels(profile, 0) == 3);
    memcpy(profile + 16, "GRAY", 4);
    same("GRAY", rindsaddle_icc_channels(profile, 20) == 1);
    same("GRAY, cut", rindsaddle_icc_channels(profile, 19) == 3);
    memcpy(profile + 16, "CMYK", 4);
    same("CMYK", rindsaddle_icc_channels(profile, 24) == 4);
    memcpy(profile + 16, "RGB ", 4);
    same("RGB", rindsaddle_icc_channels(profile, 24) == 3);
}

static void codes(void) {
    int returned = 0;
    for (unsigned code = 0; code < 1024; code++) returned += rindsaddle_code(rindsaddle_level((uint16_t)code)) == code;
    same("every code returns", returned == 1024);
    same("levels", rindsaddle_level(0) == 0 && rindsaddle_level(1) == 5 && rindsaddle_level(41) == 203 && rindsaddle_level(42) == 208);
    same("levels further up", rindsaddle_level(512) == 14057 && rindsaddle_level(1023) == 65535);
    same("the level of no code", rindsaddle_level(1024) == 0 && rindsaddle_level(65535) == 0);
    same("the lower code on a tie", rindsaddle_code(57) == 11);
}

static void code_levels(void) {
    const uint16_t codes[3] = {0, 1023, 1024};
    float levels[3];
    memset(levels, MARK, sizeof levels);
    same("a code above 1023", rindsaddle_code_levels(codes, 3, levels, 3) == RINDSADDLE_CODE && stays(levels, 0, sizeof levels));
    same("two codes, three levels", rindsaddle_code_levels(codes, 2, levels, 3) == RINDSADDLE_UNEQUAL && stays(levels, 0, sizeof levels));
    same("4 before 14", rindsaddle_code_levels(codes, 3, levels, 2) == RINDSADDLE_UNEQUAL && stays(levels, 0, sizeof levels));
    same("two codes", rindsaddle_code_levels(codes, 2, levels, 2) == RINDSADDLE_OK);
    same("their levels", levels[0] == 0.0f && levels[1] == 1.0f && stays(levels, 2 * sizeof(float), sizeof levels));
}

static void screen(void) {
    /* 02's sample, whose exact product with 255 lies below one half; a tie, which goes to 128; and what is clipped */
    const float samples[8] = {8421504.0f / 0x1p32f, 0.5f, 1.0f, -1.0f, 7.0f, INFINITY, -INFINITY, NAN};
    const uint8_t wanted[8] = {0, 128, 255, 0, 255, 255, 0, 0};
    uint8_t bytes[9];
    memset(bytes, MARK, sizeof bytes);
    same("a byte too many", rindsaddle_screen_bytes(samples, 8, bytes, 9) == RINDSADDLE_UNEQUAL && stays(bytes, 0, 9));
    same("a byte too few", rindsaddle_screen_bytes(samples, 8, bytes, 7) == RINDSADDLE_UNEQUAL && stays(bytes, 0, 9));
    same("eight samples", rindsaddle_screen_bytes(samples, 8, bytes, 8) == RINDSADDLE_OK);
    same("their bytes", memcmp(bytes, wanted, 8) == 0 && stays(bytes, 8, 9));
    same("no sample", rindsaddle_screen_bytes(samples, 0, bytes, 0) == RINDSADDLE_OK);
}

int main(void) {
    arithmetic();
    profiles();
    codes();
    code_levels();
    screen();
    return finish("numbers");
}
