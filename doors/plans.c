/* Plans between encodings: 01's readings, and each refusal of planning and of writing, which leaves the caller's bytes as they were. */
#include "compared.h"

#define ROOM 1200

static uint8_t out[ROOM];

struct side {
    int32_t n[14];
};

/* an encoding: D65 and the primaries of sRGB, in this colour space and with this curve, intent Relative */
static struct side side(int32_t space, int32_t curve) {
    struct side s = {{space, 0, 0, 0, 0, 0, 0, 0, 0, 0, 0, curve, 0, 1}};
    return s;
}

static struct side with(struct side s, int place, int32_t number) {
    s.n[place] = number;
    return s;
}

/* the inverse opsin matrix and biases of `worked`, an intensity, and min_nits 0 */
static float settings[14] = {11.031567f, -9.866944f, -0.16462299f, -3.2541473f, 4.4187703f, -0.16462299f, -3.6588513f, 2.712923f, 1.9459282f,
                             -0.0037930734f, -0.0037930734f, -0.0037930734f, 255.0f, 0.0f};

static uint8_t plan(struct side source, struct side target, uint16_t version, size_t room) {
    forget();
    memset(out, MARK, ROOM);
    return rindsaddle_plan(source.n, target.n, settings, 0, 0, version, out, room, told);
}

/* a plan that is made, and its text */
static void planned(const char *name, struct side source, struct side target, const char *wanted) {
    uint8_t text[RINDSADDLE_TEXT_ROOM];
    uint8_t answer = plan(source, target, 1, ROOM);
    size_t n = rindsaddle_text(out, (size_t)told[1], text);
    same(name, answer == RINDSADDLE_OK && stays(out, (size_t)told[1], ROOM) && n == strlen(wanted) && memcmp(text, wanted, n) == 0);
}

static void refused(const char *name, uint8_t number, struct side source, struct side target) {
    uint8_t answer = plan(source, target, 1, ROOM);
    same(name, tells(answer, number, 0, 0, 0) && stays(out, 0, ROOM));
}

static void plans(void) {
    struct side xyb = side(2, 4), rgb = side(0, 4), grey = side(1, 4);
    struct side white = with(with(with(rgb, 1, 3), 2, 312700), 3, 329000);
    uint8_t answer = plan(xyb, rgb, 1, ROOM);
    same("Xyb to Rgb", tells(answer, 0, 61, 3, 3) && stays(out, 61, ROOM));
    answer = plan(xyb, rgb, 2, 62);
    same("in version 2, into 62 bytes", tells(answer, 0, 62, 3, 3) && stays(out, 62, ROOM));
    answer = plan(grey, grey, 1, ROOM);
    same("Grey to itself", tells(answer, 0, 7, 1, 1) && stays(out, 7, ROOM));
    answer = plan(with(with(rgb, 2, 7), 5, 7), rgb, 1, ROOM);
    same("points of named values are not read", tells(answer, 0, 7, 3, 3) && stays(out, 7, ROOM));
    answer = plan(with(rgb, 12, -1), rgb, 1, ROOM);
    same("nor is the g of Linear", tells(answer, 0, 7, 3, 3) && stays(out, 7, ROOM));
    planned("its text", xyb, rgb, "start 3 ops 2\n0 XybToMixedLms\n1 Matrix\nend 3\n");
    planned("to Custom white", rgb, white, "start 3 ops 3\n0 TransferFunction\n1 Clip\n2 Matrix\nend 3\n");
    planned("to sRGB", rgb, side(0, 5), "start 3 ops 2\n0 TransferFunction\n1 TransferFunction\nend 3\n");
    planned("Grey, Perceptual, to Rgb", with(grey, 13, 0), rgb,
            "start 1 ops 4\n0 TransferFunction\n1 GamutMap\n2 LumaToXyz\n3 Matrix\nrefused 5 at 1\n");
    settings[12] = nextafterf(255.0f, 300.0f);
    planned("to sRGB, the next above 255", rgb, side(0, 5), "start 3 ops 3\n0 TransferFunction\n1 ToneMapRec2408\n2 TransferFunction\nend 3\n");
    settings[12] = 255.0f;
}

static void out_of_range(void) {
    struct side rgb = side(0, 4);
    refused("colour space 5", 2, side(5, 4), rgb);
    refused("colour space -1", 2, rgb, side(-1, 4));
    refused("white point 4", 2, with(rgb, 1, 4), rgb);
    refused("primaries -1", 2, with(rgb, 4, -1), rgb);
    refused("curve 9", 2, side(0, 9), rgb);
    refused("intent 4", 2, rgb, with(rgb, 13, 4));
    refused("a negative g", 2, with(side(0, 0), 12, -1), rgb);
    refused("g above 16,777,215", 2, with(side(0, 0), 12, 16777216), rgb);
    refused("a coordinate of 2,097,152", 2, with(with(rgb, 1, 3), 3, 2097152), rgb);
    refused("a coordinate of -2,097,153", 2, rgb, with(with(rgb, 4, 3), 10, -2097153));
    refused("both sides", 2, side(5, 4), side(5, 4));
}

static void refusals(void) {
    struct side xyb = side(2, 4), rgb = side(0, 4);
    refused("an ICC source", 1, side(4, 4), rgb);
    refused("an ICC target beside a colour space 7", 1, side(7, 4), side(4, 4));
    refused("an ICC profile has no other number", 1, with(side(4, 99), 1, 99), rgb);
    refused("2 before 15", 2, side(0, 3), side(5, 4));
    refused("the Unknown curve", 15, rgb, side(0, 3));
    refused("15 before 3", 15, side(3, 3), rgb);
    refused("to Xyb", 3, rgb, xyb);
    refused("from Unknown", 3, side(3, 4), rgb);
    uint8_t answer = plan(xyb, rgb, 3, ROOM);
    same("version 3", tells(answer, 8, 0, 0, 0) && stays(out, 0, ROOM));
    answer = plan(xyb, rgb, 1, 60);
    same("into 60 bytes", tells(answer, 12, 0, 0, 0) && stays(out, 0, ROOM));
    settings[12] = NAN;
    answer = plan(xyb, rgb, 1, ROOM);
    same("an intensity of NaN", tells(answer, 9, 0, 0, 0) && stays(out, 0, ROOM));
    settings[12] = 255.0f;
}

/* the longest list is written into RINDSADDLE_BLOCK_ROOM: 32 matrices in version 2 */
static void longest(void) {
    uint8_t block[RINDSADDLE_BLOCK_ROOM] = {'C', 'T', 'P', 2, 0, 3, 32, 3}, copy[RINDSADDLE_BLOCK_ROOM];
    for (int i = 0; i < 32; i++) block[8 + 37 * i] = 3;
    forget();
    uint8_t answer = rindsaddle_rewrite(block, sizeof block, 2, copy, sizeof copy, told);
    same("the longest block", tells(answer, 0, RINDSADDLE_BLOCK_ROOM, 3, 3) && memcmp(block, copy, sizeof block) == 0);
}

int main(void) {
    plans();
    out_of_range();
    refusals();
    longest();
    return finish("plans");
}
