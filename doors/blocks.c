/* Plan blocks read, checked, merged, rewritten, joined and shown: 01's block and others, and each refusal, which leaves the caller's bytes as they were. */
#include "blocks.h"
#include "compared.h"

#define ROOM 1200

static const uint8_t clip3[] = {'C', 'T', 'P', 1, 0, 3, 1, 9};
/* Clip at width 1, which is said to end at 3 */
static const uint8_t false_end[] = {'C', 'T', 'P', 2, 0, 1, 1, 3, 9};
static uint8_t out[ROOM], clips[39], product[81];

static void fresh(void) {
    forget();
    memset(out, MARK, ROOM);
}

/* 32 Clips; a matrix of infinities before one of zeros */
static void prepare(void) {
    const uint8_t head[] = {'C', 'T', 'P', 1, 0, 1, 32};
    memset(clips, 9, sizeof clips);
    memcpy(clips, head, 7);
    memcpy(product, head, 5);
    product[5] = 3, product[6] = 2, product[7] = 3, product[44] = 3;
    for (int i = 0; i < 9; i++) product[8 + 4 * i + 2] = 0x80, product[8 + 4 * i + 3] = 0x7f;
}

static void text(const char *name, const uint8_t *block, size_t size, const char *wanted) {
    uint8_t into[RINDSADDLE_TEXT_ROOM];
    memset(into, MARK, sizeof into);
    size_t n = rindsaddle_text(block, size, into);
    same(name, n == strlen(wanted) && memcmp(into, wanted, n) == 0 && stays(into, n, sizeof into));
}

static void both(const char *name, const uint8_t *block, size_t size, uint8_t number) {
    forget();
    uint8_t answer = rindsaddle_read(block, size, told);
    same(name, tells(answer, number, 0, 0, 0));
    forget();
    answer = rindsaddle_check(block, size, told);
    same(name, tells(answer, number, 0, 0, 0));
}

static void reads(void) {
    uint8_t bytes[20] = {0};
    memcpy(bytes, example, 18);
    uint8_t answer = rindsaddle_read(bytes, 18, told);
    same("01's 18 bytes", tells(answer, 0, 18, 1, 1));
    answer = rindsaddle_read(bytes, 20, told);
    same("with two behind them", tells(answer, 0, 18, 1, 1));
    answer = rindsaddle_read(misfit, sizeof misfit, told);
    same("a list that fails the check is read", tells(answer, 0, 9, 1, 0));
    both("no bytes", bytes, 0, 7);
    both("six of them", bytes, 6, 7);
    both("the last kind missing", bytes, 17, 7);
    bytes[3] = 3;
    both("as version 3", bytes, 18, 8);
    bytes[3] = 2;
    both("as version 2, one byte short", bytes, 18, 7);
    both("as version 2, without its end width", bytes, 7, 7);
    bytes[3] = 1, bytes[0] = 'D';
    both("another mark", bytes, 18, 8);
    bytes[0] = 'C', bytes[7] = 10;
    both("with a kind 10", bytes, 18, 9);
    both("a false end width", false_end, sizeof false_end, 9);
    bytes[5] = 2;
    both("at start width 2", bytes, 18, 10);
    bytes[5] = 1, bytes[6] = 33;
    both("33 ops", bytes, 18, 10);
}

static void checks(void) {
    uint8_t answer = rindsaddle_check(example, sizeof example, told);
    same("the check of 01's", tells(answer, 0, 0, 1, 1));
    answer = rindsaddle_check(retired, sizeof retired, told);
    same("the retired curve passes", tells(answer, 0, 0, 1, 1));
    answer = rindsaddle_check(misfit, sizeof misfit, told);
    same("an op at another width", tells(answer, 5, 1, 0, 1));
    text("01's text", example, sizeof example, "start 1 ops 3\n0 Clip\n1 LumaToXyz\n2 XyzToLuma\nend 1\n");
    text("of six bytes", example, 6, "refused 7\n");
    text("of the misfit", misfit, sizeof misfit, "start 1 ops 2\n0 Clip\n1 XyzToLuma\nrefused 5 at 1\n");
    text("of the retired curve", retired, sizeof retired, "start 1 ops 1\n0 TransferFunction retired\nend 1\n");
}

static void merge(const char *name, const uint8_t *block, size_t size, size_t room, uint8_t number, uint64_t length, uint64_t start, uint64_t end) {
    fresh();
    uint8_t answer = rindsaddle_merge(block, size, out, room, told);
    same(name, tells(answer, number, length, start, end) && stays(out, (size_t)length, ROOM));
}

/* 01's starred case: an exchange of two channels, then the first doubled, in the Rust's order of the product */
static void merges(void) {
    const float exchange[9] = {0, 1, 0, 1, 0, 0, 0, 0, 1}, twice[9] = {2, 0, 0, 0, 1, 0, 0, 0, 1}, wanted[9] = {0, 2, 0, 1, 0, 0, 0, 0, 1};
    uint8_t block[81] = {'C', 'T', 'P', 1, 0, 3, 2, 3};
    memcpy(block + 8, exchange, 36);
    block[44] = 3;
    memcpy(block + 45, twice, 36);
    merge("01's matrices", block, sizeof block, ROOM, 0, 44, 3, 3);
    same("their product", memcmp(out + 8, wanted, 36) == 0 && out[6] == 1);
    merge("01's 18 bytes", example, sizeof example, ROOM, 0, 18, 1, 1);
    same("are merged already", memcmp(out, example, sizeof example) == 0);
    merge("a list that fails the check", misfit, sizeof misfit, ROOM, 0, 9, 1, 0);
    merge("a short block", example, 17, ROOM, 7, 0, 0, 0);
    merge("a product of NaN", product, sizeof product, ROOM, 9, 0, 0, 0);
    merge("the retired curve", retired, sizeof retired, ROOM, 15, 0, 0, 0);
    merge("into 17 bytes", example, sizeof example, 17, 12, 0, 0, 0);
}

static void rewrite(const char *name, const uint8_t *block, size_t size, uint16_t version, size_t room, uint8_t number, uint64_t length) {
    fresh();
    uint8_t answer = rindsaddle_rewrite(block, size, version, out, room, told);
    uint64_t width = number == 0;
    same(name, tells(answer, number, length, width, width) && stays(out, (size_t)length, ROOM));
}

static void rewrites(void) {
    uint8_t second[19];
    rewrite("in version 2", example, sizeof example, 2, 19, 0, 19);
    memcpy(second, out, 19);
    same("with its end width", second[3] == 2 && second[7] == 1 && memcmp(second + 8, example + 7, 11) == 0);
    rewrite("and back", second, 19, 1, 18, 0, 18);
    same("to what it was", memcmp(out, example, sizeof example) == 0);
    rewrite("a short block", example, 17, 2, ROOM, 7, 0);
    rewrite("in version 3", example, sizeof example, 3, ROOM, 8, 0);
    rewrite("the retired curve", retired, sizeof retired, 1, 0, 15, 0);
    rewrite("into 17 bytes", example, sizeof example, 1, 17, 12, 0);
}

static void join(const char *name, const uint8_t *first, size_t n, const uint8_t *second, size_t m, size_t room,
                 uint8_t number, uint64_t position, uint64_t length, uint64_t end) {
    fresh();
    uint8_t answer = rindsaddle_join(first, n, second, m, 1, out, room, told);
    same(name, tells(answer, number, position, length, end) && stays(out, (size_t)length, ROOM));
}

static void joins(void) {
    join("01's list behind itself", example, 18, example, 18, 29, 0, 0, 29, 1);
    text("its text", out, 29, "start 1 ops 6\n0 Clip\n1 LumaToXyz\n2 XyzToLuma\n3 Clip\n4 LumaToXyz\n5 XyzToLuma\nend 1\n");
    join("the first is short", example, 6, misfit, 0, ROOM, 7, 0, 0, 0);
    join("the second is short", example, 18, example, 17, ROOM, 7, 0, 0, 0);
    join("35 ops", clips, 39, example, 18, ROOM, 10, 0, 0, 0);
    join("widths that do not meet", example, 18, clip3, sizeof clip3, ROOM, 5, 3, 0, 0);
    join("the first fails", misfit, sizeof misfit, clip3, sizeof clip3, ROOM, 5, 1, 0, 0);
    join("the second fails", example, 18, misfit, sizeof misfit, ROOM, 5, 4, 0, 0);
    join("the retired curve", retired, 34, example, 18, ROOM, 15, 0, 0, 0);
    join("into 28 bytes", example, 18, example, 18, 28, 12, 0, 0, 0);
    fresh();
    uint8_t answer = rindsaddle_join(example, 18, example, 18, 3, out, ROOM, told);
    same("version 3", tells(answer, 8, 0, 0, 0) && stays(out, 0, ROOM));
    answer = rindsaddle_join(example, 18, example, 18, 2, out, ROOM, told);
    same("version 2", tells(answer, 0, 0, 30, 1) && stays(out, 30, ROOM) && out[7] == 1);
}

int main(void) {
    prepare();
    reads();
    checks();
    merges();
    rewrites();
    joins();
    return finish("blocks");
}
