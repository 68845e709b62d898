/* The steps of a run, one by one, and the count of bad samples: 01's readings, and what is refused. */
#include "compared.h"

static float a[2], b[2], c[2];

static void start(float x, float y, float z) {
    a[0] = x, b[0] = y, c[0] = z;
    a[1] = b[1] = c[1] = INFINITY;
}

static int left(float x, float y, float z) {
    return bits(a[0]) == bits(x) && bits(b[0]) == bits(y) && bits(c[0]) == bits(z);
}

static void xyb(const char *name, float bias, float intensity, float x, float y, float z) {
    const float biases[3] = {bias, bias, bias};
    start(1.0f, 2.0f, 3.0f);
    same(name, rindsaddle_xyb_to_mixed_lms(biases, intensity, a, 1, b, 1, c, 1) == RINDSADDLE_OK && left(x, y, z));
    same("the sample behind it stays", a[1] == INFINITY && b[1] == INFINITY && c[1] == INFINITY);
}

static void readings(void) {
    const float exchange[9] = {0, 1, 0, 1, 0, 0, 0, 0, 1};
    xyb("XYB, intensity 255", 0.0f, 255.0f, 27.0f, 1.0f, 27.0f);
    xyb("XYB, intensity 127.5", 0.0f, 127.5f, 54.0f, 2.0f, 54.0f);
    xyb("XYB, biases 8", 8.0f, 255.0f, 9.0f, 7.0f, 9.0f);
    start(1.0f, 2.0f, 3.0f);
    same("matrix", rindsaddle_matrix(exchange, a, 1, b, 1, c, 1) == RINDSADDLE_OK && left(2.0f, 1.0f, 3.0f));
    start(0.5f, 7.0f, 7.0f);
    same("luma to XYZ", rindsaddle_luma_to_xyz(0.5f, 0.25f, a, 1, b, 1, c, 1) == RINDSADDLE_OK && left(1.0f, 0.5f, 0.5f));
    same("XYZ to luma", rindsaddle_xyz_to_luma(a, 1, b, 1, c, 1) == RINDSADDLE_OK && left(0.5f, 0.5f, 0.5f));
    start(1.5f, -2.0f, -0.0f);
    same("clip at width 3", rindsaddle_clip(3, a, 1, b, 1, c, 1) == RINDSADDLE_OK && left(1.0f, 0.0f, -0.0f));
    start(1.5f, -2.0f, 2.0f);
    same("clip at width 1", rindsaddle_clip(1, a, 1, b, 1, c, 1) == RINDSADDLE_OK && left(1.0f, -2.0f, 2.0f));
    same("unchanged", rindsaddle_unchanged(3, a, 1, b, 1, c, 1) == RINDSADDLE_OK && left(1.0f, -2.0f, 2.0f));
}

static void refused(const char *name, uint8_t answer) {
    same(name, answer == RINDSADDLE_UNEQUAL && left(0.5f, 0.25f, 0.125f));
}

static void refusals(void) {
    const float matrix[9] = {2, 0, 0, 0, 2, 0, 0, 0, 2};
    start(0.5f, 0.25f, 0.125f);
    for (int i = 0; i < 3; i++) {
        size_t n[3] = {2, 2, 2};
        n[i] = 1;
        refused("XYB", rindsaddle_xyb_to_mixed_lms(matrix, 255.0f, a, n[0], b, n[1], c, n[2]));
        refused("matrix", rindsaddle_matrix(matrix, a, n[0], b, n[1], c, n[2]));
        refused("luma to XYZ", rindsaddle_luma_to_xyz(0.5f, 0.25f, a, n[0], b, n[1], c, n[2]));
        refused("XYZ to luma", rindsaddle_xyz_to_luma(a, n[0], b, n[1], c, n[2]));
        refused("clip", rindsaddle_clip(3, a, n[0], b, n[1], c, n[2]));
        refused("unchanged", rindsaddle_unchanged(3, a, n[0], b, n[1], c, n[2]));
    }
}

static void counts(void) {
    start(0.5f, NAN, 0.125f);
    const uint64_t wanted[5] = {0, 1, 3, 4, 4};
    for (uint8_t width = 0; width < 5; width++) same("count", rindsaddle_count(width, a, 2, b, 2, c, 2) == wanted[width]);
    same("of unequal channels", rindsaddle_count(3, a, 1, b, 2, c, 0) == 2);
}

int main(void) {
    readings();
    refusals();
    counts();
    return finish("steps");
}
