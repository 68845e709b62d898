/* What a user would take instead, beside our C functions, in one run: libjpeg-turbo (TURBO), Little CMS (LCMS) and zimg (ZIMG), each where its
   package is there, on 65,536 pixels of any bytes, and on a picture of linear floats. Times are medians of ROUNDS, in which ours and the peer take
   turns, each called once before it is timed. Of bytes it counts how many the peer makes that are not the nearest; of floats the bytes that a
   screen would show otherwise. Where chroma is at half width, tjDecodeYUVPlanes repeats it, which is less work than ours, that widens it. */
#include <stdint.h>
#include <stdio.h>
#include <stdlib.h>
#include <string.h>
#include <time.h>
#ifdef TURBO
#include <turbojpeg.h>
#endif
#ifdef LCMS
#include <lcms2.h>
#endif
#ifdef ZIMG
#include <zimg.h>
#endif
#include "rindsaddle.h"

enum { WIDTH = 512, HEIGHT = 128, COUNT = WIDTH * HEIGHT, ROUNDS = 101, FIRMWARE = 3 };
static uint8_t in[3][COUNT], half[2][COUNT / 2], ours[3][COUNT], theirs[3][COUNT], pixels[3 * COUNT];
static float _Alignas(64) linear[3][COUNT], kept[3][COUNT], made[3][COUNT], rows[3 * COUNT], made_rows[3 * COUNT];

static double now(void) {
    struct timespec t;
    clock_gettime(CLOCK_MONOTONIC, &t);
    return t.tv_sec * 1e6 + t.tv_nsec * 1e-3;
}

static int by_size(const void *a, const void *b) {
    double x = *(const double *)a, y = *(const double *)b;
    return (x > y) - (x < y);
}

static double timed(void (*call)(void)) {
    call();
    double start = now();
    call();
    return now() - start;
}

/* a row of the table */
static void beside(const char *work, void (*our)(void), const char *name, void (*peer)(void), long (*wrong)(void)) {
    static double us[ROUNDS], them[ROUNDS];
    for (int k = 0; k < ROUNDS; k++) us[k] = timed(our), them[k] = timed(peer);
    qsort(us, ROUNDS, sizeof *us, by_size);
    qsort(them, ROUNDS, sizeof *them, by_size);
    double mine = us[ROUNDS / 2], other = them[ROUNDS / 2];
    printf("| %-40s | %8.1f us | %-24s | %8.1f us | %5.3f | %6ld |\n", work, mine, name, other, mine / other, wrong());
}

static long differ(const uint8_t (*a)[COUNT], const uint8_t (*b)[COUNT]) {
    long count = 0;
    for (int c = 0; c < 3; c++)
        for (int i = 0; i < COUNT; i++) count += a[c][i] != b[c][i];
    return count;
}

#define CHANNELS(c) c[0], COUNT, c[1], COUNT, c[2], COUNT

#ifdef TURBO
static tjhandle decoder, encoder;
static const int strides[3] = {WIDTH, WIDTH, WIDTH}, half_strides[3] = {WIDTH, WIDTH / 2, WIDTH / 2};

static void to_rgb(void) { rindsaddle_ycbcr_bytes(FIRMWARE, CHANNELS(in), CHANNELS(ours)); }

static void turbo_to_rgb(void) {
    const unsigned char *planes[3] = {in[1], in[0], in[2]};
    tjDecodeYUVPlanes(decoder, planes, strides, TJSAMP_444, pixels, WIDTH, 3 * WIDTH, HEIGHT, TJPF_RGB, 0);
}

static void lines_to_rgb(void) {
    for (int i = 0; i < COUNT; i += WIDTH)
        rindsaddle_line_bytes(FIRMWARE, half[0] + i / 2, WIDTH / 2, in[1] + i, WIDTH, half[1] + i / 2, WIDTH / 2,
                              ours[0] + i, WIDTH, ours[1] + i, WIDTH, ours[2] + i, WIDTH);
}

static void turbo_lines(void) {
    const unsigned char *planes[3] = {in[1], half[0], half[1]};
    tjDecodeYUVPlanes(decoder, planes, half_strides, TJSAMP_422, pixels, WIDTH, 3 * WIDTH, HEIGHT, TJPF_RGB, 0);
}

static void to_ycbcr(void) { rindsaddle_rgb_bytes(FIRMWARE, CHANNELS(in), CHANNELS(ours)); }

static void turbo_to_ycbcr(void) {
    unsigned char *planes[3] = {theirs[1], theirs[0], theirs[2]};
    tjEncodeYUVPlanes(encoder, pixels, WIDTH, 3 * WIDTH, HEIGHT, TJPF_RGB, planes, (int *)strides, TJSAMP_444, 0);
}

static long wrong_pixels(void) {
    for (int i = 0; i < 3 * COUNT; i++) theirs[i % 3][i / 3] = pixels[i];
    return differ(ours, theirs);
}

static long wrong_planes(void) { return differ(ours, theirs); }

static void turbo(void) {
    decoder = tjInitDecompress();
    encoder = tjInitCompress();
    beside("YCbCr bytes to RGB", to_rgb, "libjpeg-turbo", turbo_to_rgb, wrong_pixels);
    beside("the same, chroma at half width, by lines", lines_to_rgb, "libjpeg-turbo, repeating", turbo_lines, wrong_pixels);
    for (int i = 0; i < 3 * COUNT; i++) pixels[i] = in[i % 3][i / 3];
    beside("RGB bytes to YCbCr", to_ycbcr, "libjpeg-turbo", turbo_to_ycbcr, wrong_planes);
}
#endif

#if defined LCMS || defined ZIMG
/* linear BT.709 to linear BT.2020 */
static const float matrix[9] = {0.627403896f, 0.329283038f, 0.0433130657f, 0.0690972894f, 0.919540395f, 0.0113623156f, 0.0163914389f, 0.0880133079f, 0.895595253f};

/* in place, and so again and again over what it left: each row of the matrix sums to 1 */
static void by_matrix(void) { rindsaddle_matrix(matrix, CHANNELS(kept)); }

static long shown_otherwise(void) {
    memcpy(kept, linear, sizeof kept);
    by_matrix();
    for (int c = 0; c < 3; c++) {
        rindsaddle_screen_bytes(kept[c], COUNT, ours[c], COUNT);
        rindsaddle_screen_bytes(made[c], COUNT, theirs[c], COUNT);
    }
    return differ(ours, theirs);
}
#endif

#ifdef LCMS
static cmsHTRANSFORM transform;

static void by_lcms(void) { cmsDoTransform(transform, rows, made_rows, COUNT); }

static long lcms_otherwise(void) {
    for (int i = 0; i < 3 * COUNT; i++) made[i % 3][i / 3] = made_rows[i];
    return shown_otherwise();
}

static void lcms(void) {
    const cmsCIExyY white = {0.3127, 0.3290, 1};
    const cmsCIExyYTRIPLE bt709 = {{0.64, 0.33, 1}, {0.30, 0.60, 1}, {0.15, 0.06, 1}}, bt2020 = {{0.708, 0.292, 1}, {0.170, 0.797, 1}, {0.131, 0.046, 1}};
    cmsToneCurve *line = cmsBuildGamma(NULL, 1), *curves[3] = {line, line, line};
    cmsHPROFILE from = cmsCreateRGBProfile(&white, &bt709, curves), to = cmsCreateRGBProfile(&white, &bt2020, curves);
    transform = cmsCreateTransform(from, TYPE_RGB_FLT, to, TYPE_RGB_FLT, INTENT_RELATIVE_COLORIMETRIC, 0);
    beside("a matrix on linear floats", by_matrix, "Little CMS", by_lcms, lcms_otherwise);
}
#endif

#ifdef ZIMG
static zimg_filter_graph *graph;
static zimg_image_buffer_const source = {.version = ZIMG_API_VERSION};
static zimg_image_buffer target = {.version = ZIMG_API_VERSION};
static void *room;

static void by_zimg(void) { zimg_filter_graph_process(graph, &source, &target, room, NULL, NULL, NULL, NULL); }

static zimg_image_format format(zimg_color_primaries_e primaries) {
    zimg_image_format f;
    zimg_image_format_default(&f, ZIMG_API_VERSION);
    f.width = WIDTH, f.height = HEIGHT, f.pixel_type = ZIMG_PIXEL_FLOAT, f.color_family = ZIMG_COLOR_RGB, f.pixel_range = ZIMG_RANGE_FULL;
    f.matrix_coefficients = ZIMG_MATRIX_RGB, f.transfer_characteristics = ZIMG_TRANSFER_LINEAR, f.color_primaries = primaries;
    return f;
}

static void zimg(void) {
    zimg_image_format from = format(ZIMG_PRIMARIES_BT709), to = format(ZIMG_PRIMARIES_BT2020);
    zimg_graph_builder_params params;
    zimg_graph_builder_params_default(&params, ZIMG_API_VERSION);
    params.cpu_type = ZIMG_CPU_AUTO_64B;
    graph = zimg_filter_graph_build(&from, &to, &params);
    size_t size = 0;
    zimg_filter_graph_get_tmp_size(graph, &size);
    room = aligned_alloc(64, (size + 63) / 64 * 64 + 64);
    for (int c = 0; c < 3; c++) {
        source.plane[c].data = linear[c], source.plane[c].stride = WIDTH * sizeof(float), source.plane[c].mask = ZIMG_BUFFER_MAX;
        target.plane[c].data = made[c], target.plane[c].stride = WIDTH * sizeof(float), target.plane[c].mask = ZIMG_BUFFER_MAX;
    }
    beside("a matrix on linear floats", by_matrix, "zimg", by_zimg, shown_otherwise);
}
#endif

int main(void) {
    for (int i = 0; i < 3 * COUNT; i++) {
        in[i % 3][i / 3] = (uint8_t)rand();
        rows[i] = linear[i % 3][i / 3] = (float)rand() / (float)RAND_MAX;
    }
    for (int i = 0; i < COUNT; i++) half[i % 2][i / 2] = (uint8_t)rand();
    printf("| %-40s | %-11s | %-24s | %-11s | ratio | of %d bytes wrong |\n|---|---|---|---|---|---|\n", "65,536 pixels", "ours", "peer", "it takes", 3 * COUNT);
#ifdef TURBO
    turbo();
#endif
#ifdef LCMS
    lcms();
#endif
#ifdef ZIMG
    zimg();
#endif
    return 0;
}
