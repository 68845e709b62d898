/* A picture of three samples, white, a red box and black, planned from XYB to linear RGB, run, and shown as bytes for a screen. */
#include <rindsaddle.h>
#include <stdio.h>

/* D65 and the primaries of sRGB, Linear, intent Relative, from Xyb (2) to Rgb (0) */
static const int32_t xyb[14] = {2, 0, 0, 0, 0, 0, 0, 0, 0, 0, 0, 4, 0, 1};
static const int32_t rgb[14] = {0, 0, 0, 0, 0, 0, 0, 0, 0, 0, 0, 4, 0, 1};

/* JPEG XL's own inverse opsin matrix and biases, an intensity of 255 */
static const float settings[14] = {11.031567f, -9.866944f, -0.164623f, -3.2541473f, 4.4187703f, -0.164623f, -3.6588513f, 2.712923f, 1.9459282f,
                                   -0.0037930733f, -0.0037930733f, -0.0037930733f, 255.0f, 0.0f};

int main(void) {
    float a[3] = {0.0f, 0.01979f, 0.0f}, b[3] = {0.8453f, 0.37586f, 0.0f}, c[3] = {0.8453f, 0.36405f, 0.0f};
    uint8_t block[RINDSADDLE_BLOCK_ROOM], text[RINDSADDLE_TEXT_ROOM], red[3], green[3], blue[3];
    uint64_t told[4];

    if (rindsaddle_plan(xyb, rgb, settings, 0, 0, 1, block, sizeof block, told) != RINDSADDLE_OK) {
        printf("the plan is refused by %d\n", (int)told[0]);
        return 1;
    }
    size_t size = (size_t)told[1];
    printf("%.*s", (int)rindsaddle_text(block, size, text), (const char *)text);

    if (rindsaddle_run(block, size, a, 3, b, 3, c, 3, told) != RINDSADDLE_OK) {
        printf("the run is refused by %d at %d\n", (int)told[0], (int)told[1]);
        return 1;
    }
    rindsaddle_screen_bytes(a, 3, red, 3);
    rindsaddle_screen_bytes(b, 3, green, 3);
    rindsaddle_screen_bytes(c, 3, blue, 3);
    for (int i = 0; i < 3; i++) printf("%d %d %d\n", red[i], green[i], blue[i]);
    return 0;
}
