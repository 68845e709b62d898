/* Runs of a plan block, at once and by strips: 01's block, what is told and left, and each refusal, which changes no sample. */
#include "blocks.h"
#include "compared.h"

/* a matrix that doubles; the curve of sRGB behind a Clip, which is planned and not carried */
static uint8_t twice[44] = {'C', 'T', 'P', 1, 0, 3, 1, 3};
static const uint8_t curve[35] = {'C', 'T', 'P', 1, 0, 3, 2, 9, 4, 5};
static float a[4], b[4], c[4];
static uint64_t state[2];

static void start(void) {
    const float one[4] = {0.5f, INFINITY, 2.0f, NAN}, two[4] = {0.25f, INFINITY, -0.0f, 1.0f}, three[4] = {0.125f, INFINITY, 3.0f, 1.0f};
    memcpy(a, one, sizeof a);
    memcpy(b, two, sizeof b);
    memcpy(c, three, sizeof c);
    forget();
}

static int unchanged(void) {
    float kept[3][4];
    memcpy(kept[0], a, sizeof a);
    memcpy(kept[1], b, sizeof b);
    memcpy(kept[2], c, sizeof c);
    start();
    return memcmp(kept[0], a, sizeof a) == 0 && memcmp(kept[1], b, sizeof b) == 0 && memcmp(kept[2], c, sizeof c) == 0;
}

/* what is told is compared before the samples, which are filled anew */
static void refused(const char *name, const uint8_t *block, size_t size, size_t c_count, uint8_t number, uint64_t position) {
    start();
    uint8_t answer = rindsaddle_run(block, size, a, 4, b, 4, c, c_count, told);
    same(name, tells(answer, number, position, 0, 0) && unchanged());
    state[0] = 1, state[1] = 5;
    if (number == 4) return;
    forget();
    answer = rindsaddle_open(block, size, state, told);
    same(name, tells(answer, number, position, 0, 0) && state[0] == 0 && state[1] == 0);
}

static void refusals(void) {
    uint8_t bytes[18];
    memcpy(bytes, example, 18);
    refused("six bytes", example, 6, 4, 7, 0);
    bytes[0] = 'D';
    refused("another mark", bytes, 18, 4, 8, 0);
    bytes[0] = 'C', bytes[7] = 10;
    refused("kind 10", bytes, 18, 4, 9, 0);
    bytes[7] = 9, bytes[5] = 2;
    refused("start width 2", bytes, 18, 4, 10, 0);
    bytes[5] = 3;
    refused("start width 3", bytes, 18, 4, 5, 1);
    refused("lengths", example, 18, 3, 4, 0);
    refused("4 before 5", bytes, 18, 3, 4, 0);
    refused("the curve of sRGB", curve, sizeof curve, 4, 6, 1);
}

static void runs(void) {
    start();
    uint8_t answer = rindsaddle_run(example, 18, a, 1, b, 1, c, 1, told);
    same("01's block", tells(answer, 0, 0, 1, 0) && a[0] == 0.5f && b[0] == 0.5f && c[0] == 0.5f);
    same("only one sample", a[1] == INFINITY && b[1] == INFINITY && c[1] == INFINITY);
    start();
    answer = rindsaddle_run(twice, sizeof twice, a, 4, b, 4, c, 4, told);
    same("doubled", tells(answer, 0, 0, 3, 6) && a[0] == 1.0f && b[0] == 0.5f && c[0] == 0.25f && isnan(a[3]));
    start();
    answer = rindsaddle_run(retired, sizeof retired, a, 4, b, 4, c, 4, told);
    same("the retired curve", tells(answer, 0, 0, 1, 2));
    same("has no effect", unchanged());
    answer = rindsaddle_run(example, 18, a, 0, b, 0, c, 0, told);
    same("no sample", tells(answer, 0, 0, 1, 0) && unchanged());
}

/* 11 comes before 4 */
static void not_open(const char *name) {
    start();
    uint8_t answer = rindsaddle_strip(twice, sizeof twice, state, a, 4, b, 4, c, 3, told);
    same(name, tells(answer, 11, 0, 0, 0) && unchanged() && state[0] == 0 && state[1] == 0);
    answer = rindsaddle_close(twice, sizeof twice, state, told);
    same(name, tells(answer, 11, 0, 0, 0) && state[0] == 0 && state[1] == 0);
}

static void strips(void) {
    float whole[3][4];
    start();
    rindsaddle_run(twice, sizeof twice, a, 4, b, 4, c, 4, told);
    memcpy(whole[0], a, sizeof a);
    memcpy(whole[1], b, sizeof b);
    memcpy(whole[2], c, sizeof c);
    state[0] = state[1] = 0;
    not_open("before the opening");
    start();
    uint8_t answer = rindsaddle_open(twice, sizeof twice, state, told);
    same("open", tells(answer, 0, 0, 3, 0) && state[0] == 1 && state[1] == 0);
    answer = rindsaddle_strip(twice, sizeof twice, state, a, 2, b, 2, c, 2, told);
    same("the first two", tells(answer, 0, 0, 3, 3) && state[0] == 1 && state[1] == 3);
    answer = rindsaddle_strip(twice, sizeof twice, state, a, 0, b, 0, c, 0, told);
    same("none", tells(answer, 0, 0, 3, 0) && state[0] == 1 && state[1] == 3);
    answer = rindsaddle_strip(twice, sizeof twice, state, a + 2, 2, b + 2, 1, c + 2, 2, told);
    same("a strip that was cut off", tells(answer, 4, 0, 0, 0) && state[0] == 1 && state[1] == 3 && a[2] == 2.0f);
    answer = rindsaddle_strip(twice, sizeof twice, state, a + 2, 2, b + 2, 2, c + 2, 2, told);
    same("the last two", tells(answer, 0, 0, 3, 3) && state[0] == 1 && state[1] == 6);
    answer = rindsaddle_close(twice, sizeof twice, state, told);
    same("close", tells(answer, 0, 0, 3, 6) && state[0] == 0 && state[1] == 0);
    same("as at once", bits(a[2]) == bits(whole[0][2]) && memcmp(b, whole[1], sizeof b) == 0 && memcmp(c, whole[2], sizeof c) == 0);
    not_open("after the close");
}

static void afresh(void) {
    rindsaddle_open(twice, sizeof twice, state, told);
    state[1] = UINT64_MAX;
    start();
    uint8_t answer = rindsaddle_strip(twice, sizeof twice, state, a, 4, b, 4, c, 4, told);
    same("the sum is held", tells(answer, 0, 0, 3, 6) && state[1] == UINT64_MAX);
    answer = rindsaddle_open(twice, sizeof twice, state, told);
    same("opened again, afresh", tells(answer, 0, 0, 3, 0) && state[0] == 1 && state[1] == 0);
}

int main(void) {
    const float doubled[9] = {2, 0, 0, 0, 2, 0, 0, 0, 2};
    memcpy(twice + 8, doubled, 36);
    refusals();
    runs();
    strips();
    afresh();
    return finish("runs");
}
