/* Every function on buffers between pages that must not be touched, at either end of a page, at lengths from none to 40: one that read or wrote a byte
   beyond what it was lent would end the program. The sanitizers do not see into the archive. */
#define _DEFAULT_SOURCE
#include "blocks.h"
#include "compared.h"

#include <sys/mman.h>
#include <unistd.h>

#define BUFFERS 8

static size_t page;
static uint8_t *pages[BUFFERS];
static int at_end;

static void prepare(void) {
    page = (size_t)sysconf(_SC_PAGESIZE);
    for (int i = 0; i < BUFFERS; i++) {
        uint8_t *three = (uint8_t *)mmap(NULL, 3 * page, PROT_NONE, MAP_PRIVATE | MAP_ANONYMOUS, -1, 0);
        same("three pages", three != MAP_FAILED && mprotect(three + page, page, PROT_READ | PROT_WRITE) == 0);
        pages[i] = three + page;
    }
}

/* the first or the last bytes of a page, all of them 0 */
static void *lend(int which, size_t size) {
    uint8_t *buffer = at_end ? pages[which] + page - size : pages[which];
    memset(buffer, 0, size);
    return buffer;
}

static float *channel(int which, size_t n) {
    return (float *)lend(which, n * sizeof(float));
}

static void steps(size_t n) {
    float *a = channel(0, n), *b = channel(1, n), *c = channel(2, n), *numbers = channel(3, 9), *bias = channel(4, 3);
    int answers = rindsaddle_xyb_to_mixed_lms(bias, 255.0f, a, n, b, n, c, n) + rindsaddle_matrix(numbers, a, n, b, n, c, n);
    answers += rindsaddle_luma_to_xyz(0.5f, 0.25f, a, n, b, n, c, n) + rindsaddle_xyz_to_luma(a, n, b, n, c, n);
    answers += rindsaddle_clip(3, a, n, b, n, c, n) + rindsaddle_unchanged(3, a, n, b, n, c, n) + rindsaddle_ycbcr(4, a, n, b, n, c, n);
    same("steps", answers == 0 && rindsaddle_count(3, a, n, b, n, c, n) == 0);
    uint8_t *bytes = (uint8_t *)lend(3, n);
    uint16_t *codes = (uint16_t *)lend(4, n * sizeof(uint16_t));
    same("screen and codes", rindsaddle_screen_bytes(a, n, bytes, n) + rindsaddle_code_levels(codes, n, b, n) == 0);
}

static void bytes(size_t n) {
    uint8_t *six[6];
    for (int i = 0; i < 6; i++) six[i] = (uint8_t *)lend(i, n);
    same("to RGB", rindsaddle_ycbcr_bytes(1, six[0], n, six[1], n, six[2], n, six[3], n, six[4], n, six[5], n) == 0);
    same("to YCbCr", rindsaddle_rgb_bytes(1, six[0], n, six[1], n, six[2], n, six[3], n, six[4], n, six[5], n) == 0);
    size_t half = (n + 1) / 2;
    uint8_t *cb = (uint8_t *)lend(0, half), *cr = (uint8_t *)lend(2, half);
    same("a line", rindsaddle_line_bytes(1, cb, half, six[1], n, cr, half, six[3], n, six[4], n, six[5], n) == 0);
    same("widened and narrowed", rindsaddle_widen(cb, half, six[3], n) + rindsaddle_narrow(six[4], n, cr, half) == 0);
    same("a profile", rindsaddle_icc_channels(six[5], n) == 3);
}

/* the first bytes of 01's block, all of it at 18, and what is told, at the ends of pages */
static void blocks(size_t n) {
    size_t size = n < 18 ? n : 18;
    uint8_t *block = (uint8_t *)lend(0, size), *out = (uint8_t *)lend(1, n);
    uint64_t *tells = (uint64_t *)lend(2, 4 * sizeof(uint64_t)), *state = (uint64_t *)lend(3, 2 * sizeof(uint64_t));
    float *a = channel(4, n), *b = channel(5, n), *c = channel(6, n);
    memcpy(block, example, size);
    int whole = size == 18, fits = whole && n >= 19;
    same("text", rindsaddle_text(block, size, (uint8_t *)lend(7, RINDSADDLE_TEXT_ROOM)) > 0);
    same("read and checked", (rindsaddle_read(block, size, tells) + rindsaddle_check(block, size, tells) == 0) == whole);
    same("merged", (rindsaddle_merge(block, size, out, n, tells) == 0) == whole);
    same("rewritten", (rindsaddle_rewrite(block, size, 2, out, n, tells) == 0) == fits);
    same("joined", (rindsaddle_join(block, size, example, 18, 1, out, n, tells) == 0) == (whole && n >= 29));
    same("run", (rindsaddle_run(block, size, a, n, b, n, c, n, tells) == 0) == whole);
    same("opened", (rindsaddle_open(block, size, state, tells) == 0) == whole);
    same("a strip", (rindsaddle_strip(block, size, state, a, n, b, n, c, n, tells) == 0) == whole);
    same("closed", (rindsaddle_close(block, size, state, tells) == 0) == whole);
}

static void plan(size_t room) {
    int32_t *source = (int32_t *)lend(0, 14 * sizeof(int32_t)), *target = (int32_t *)lend(1, 14 * sizeof(int32_t));
    source[0] = 2, source[11] = target[11] = 4;
    uint64_t *tells = (uint64_t *)lend(4, 4 * sizeof(uint64_t));
    uint8_t answer = rindsaddle_plan(source, target, channel(2, 14), 0, 0, 1, (uint8_t *)lend(3, room), room, tells);
    same("a plan", answer == (room < 61 ? RINDSADDLE_NO_ROOM : RINDSADDLE_OK));
}

int main(void) {
    prepare();
    for (at_end = 0; at_end < 2; at_end++) {
        for (size_t n = 0; n <= 40; n++) {
            steps(n);
            bytes(n);
            blocks(n);
            plan(n + 40);
        }
    }
    return finish("guards");
}
