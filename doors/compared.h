/* What the C programs here share: how many answers were compared and how many differ, and buffers filled with a mark, which show what was written to. */
#include "rindsaddle.h"

#include <math.h>
#include <stdio.h>
#include <string.h>

#define MARK 0xa5
#define SIZE(a) (sizeof(a) / sizeof((a)[0]))

static int compared, differ;
static uint64_t told[4];

static inline void same(const char *name, int equal) {
    compared++;
    if (equal) return;
    differ++;
    printf("%s differs; told last: %llu %llu %llu %llu\n", name, (unsigned long long)told[0], (unsigned long long)told[1],
           (unsigned long long)told[2], (unsigned long long)told[3]);
}

static inline int finish(const char *what) {
    printf("%s: %d compared, %d differ\n", what, compared, differ);
    return differ != 0;
}

/* whether all bytes from a place on are as they were filled */
static inline int stays(const void *bytes, size_t from, size_t size) {
    const unsigned char *each = (const unsigned char *)bytes;
    for (size_t i = from; i < size; i++)
        if (each[i] != MARK) return 0;
    return 1;
}

static inline void forget(void) {
    for (int i = 0; i < 4; i++) told[i] = 77;
}

static inline int tells(uint8_t answer, uint64_t number, uint64_t b, uint64_t c, uint64_t d) {
    return answer == number && told[0] == number && told[1] == b && told[2] == c && told[3] == d;
}

/* the pattern of a float: a NaN, or a zero of either sign, is like no other */
static inline uint32_t bits(float x) {
    uint32_t n;
    memcpy(&n, &x, sizeof n);
    return n;
}
