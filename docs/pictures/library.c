/* library CASE: what the library gives for a picture. Portable float maps, little-endian, come on standard input and one goes to standard output.

     xyb      XYB to Rgb D65 Srgb Linear
     biases   the same with biases of -0.00415
     white    XYB to Rgb with the white of lamps, illuminant A
     grey     one grey plane to Rgb D65 Srgb Linear; behind it comes the picture that stands in the other two buffers
     stale    the same pictures, and a colour plan whose start width is 1: the plan's text and the answer go to standard output, and no picture
     bytes    linear RGB to bytes for a screen, as PPM */
#include <rindsaddle.h>
#include <stdio.h>
#include <stdlib.h>
#include <string.h>

/* colour space, white point and its x and y, primaries, (six numbers), curve Linear, (g), intent Relative */
static const int32_t xyb[14] = {2, 0, 0, 0, 0, 0, 0, 0, 0, 0, 0, 4, 0, 1};
static const int32_t rgb[14] = {0, 0, 0, 0, 0, 0, 0, 0, 0, 0, 0, 4, 0, 1};
static const int32_t grey[14] = {1, 0, 0, 0, 0, 0, 0, 0, 0, 0, 0, 4, 0, 1};
static const int32_t p3[14] = {0, 0, 0, 0, 2, 0, 0, 0, 0, 0, 0, 4, 0, 1};
static const int32_t lamps[14] = {0, 3, 447570, 407450, 0, 0, 0, 0, 0, 0, 0, 4, 0, 1};

/* JPEG XL's own inverse opsin matrix and biases, an intensity of 255 */
static float settings[14] = {11.031567f, -9.866944f, -0.164623f, -3.2541473f, 4.4187703f, -0.164623f, -3.6588513f, 2.712923f, 1.9459282f,
                             -0.0037930733f, -0.0037930733f, -0.0037930733f, 255.0f, 0.0f};

/* where a plan block has its start width */
enum { START = 5 };

struct picture {
    int width, height;
    size_t count;
    float *channel[3];
};

struct plan {
    uint8_t block[RINDSADDLE_BLOCK_ROOM];
    size_t size;
};

static void fail(const char *what) {
    fprintf(stderr, "library: %s\n", what);
    exit(1);
}

static void *room(size_t size) {
    void *found = calloc(size, 1);
    if (!found) fail("no memory");
    return found;
}

/* A map of three channels, or of one, which is the first. */
static struct picture read_map(void) {
    struct picture map;
    char mark, end;
    if (scanf("P%c %d %d -1.0%c", &mark, &map.width, &map.height, &end) != 4 || end != '\n') fail("no little-endian map");
    if (map.width < 1 || map.height < 1) fail("the map has no size");
    map.count = (size_t)map.width * (size_t)map.height;
    for (int k = 0; k < 3; k++) map.channel[k] = room(map.count * sizeof(float));
    int channels = mark == 'F' ? 3 : 1;
    for (size_t i = 0; i < map.count; i++)
        for (int k = 0; k < channels; k++)
            if (fread(&map.channel[k][i], sizeof(float), 1, stdin) != 1) fail("the map is cut off");
    return map;
}

static void write_map(struct picture map) {
    printf("PF\n%d %d\n-1.0\n", map.width, map.height);
    for (size_t i = 0; i < map.count; i++)
        for (int k = 0; k < 3; k++) fwrite(&map.channel[k][i], sizeof(float), 1, stdout);
}

/* A map's lowest row comes first, and a PPM's highest. */
static void write_bytes(struct picture map) {
    uint8_t *bytes[3];
    for (int k = 0; k < 3; k++) {
        bytes[k] = room(map.count);
        if (rindsaddle_screen_bytes(map.channel[k], map.count, bytes[k], map.count) != RINDSADDLE_OK) fail("bytes are refused");
    }
    printf("P6\n%d %d\n255\n", map.width, map.height);
    for (int row = map.height; row-- > 0;)
        for (int column = 0; column < map.width; column++)
            for (int k = 0; k < 3; k++) putchar(bytes[k][row * map.width + column]);
}

static struct plan plan_between(const int32_t source[14], const int32_t target[14]) {
    struct plan plan;
    uint64_t told[4];
    if (rindsaddle_plan(source, target, settings, 0, 0, 1, plan.block, sizeof plan.block, told) != RINDSADDLE_OK) fail("the plan is refused");
    plan.size = (size_t)told[1];
    return plan;
}

static uint8_t run(const struct plan *plan, struct picture map, uint64_t told[4]) {
    float **c = map.channel;
    return rindsaddle_run(plan->block, plan->size, c[0], map.count, c[1], map.count, c[2], map.count, told);
}

static void run_and_write(struct plan plan, struct picture map) {
    uint64_t told[4];
    if (run(&plan, map, told) != RINDSADDLE_OK || told[2] != 3 || told[3] != 0) fail("the run is refused, or a sample went bad");
    write_map(map);
}

/* A grey plane, with two channels of another picture behind it. */
static struct picture read_stale(void) {
    struct picture map = read_map(), other = read_map();
    if (other.count != map.count) fail("the two pictures have unequal sizes");
    map.channel[1] = other.channel[1];
    map.channel[2] = other.channel[2];
    return map;
}

/* The plan from P3 to sRGB is for three channels. */
static void refuse(struct picture map) {
    struct plan plan = plan_between(p3, rgb);
    struct picture before = map;
    uint8_t text[RINDSADDLE_TEXT_ROOM];
    uint64_t told[4];
    plan.block[START] = 1;
    for (int k = 0; k < 3; k++) before.channel[k] = memcpy(room(map.count * sizeof(float)), map.channel[k], map.count * sizeof(float));
    if (run(&plan, map, told) != RINDSADDLE_MISFIT) fail("the run is not refused by 5");
    for (int k = 0; k < 3; k++)
        if (memcmp(before.channel[k], map.channel[k], map.count * sizeof(float)) != 0) fail("a refused run changed a sample");
    printf("%.*s", (int)rindsaddle_text(plan.block, plan.size, text), (const char *)text);
}

int main(int count, char **words) {
    const char *name = count == 2 ? words[1] : "";
    if (strcmp(name, "xyb") == 0) {
        run_and_write(plan_between(xyb, rgb), read_map());
    } else if (strcmp(name, "biases") == 0) {
        settings[9] = settings[10] = settings[11] = -0.00415f;
        run_and_write(plan_between(xyb, rgb), read_map());
    } else if (strcmp(name, "white") == 0) {
        run_and_write(plan_between(xyb, lamps), read_map());
    } else if (strcmp(name, "grey") == 0) {
        run_and_write(plan_between(grey, rgb), read_stale());
    } else if (strcmp(name, "stale") == 0) {
        refuse(read_stale());
    } else if (strcmp(name, "bytes") == 0) {
        write_bytes(read_map());
    } else {
        fail("usage: library xyb|biases|white|grey|stale|bytes");
    }
    return 0;
}
