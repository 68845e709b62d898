/* Compares the cube root with that of another commit on every f32 from 1 up to 8, and shows the first that differs. Other sizes are these,
   scaled by powers of 8. It includes nothing of the C library's, so that it is compiled for x86-64 on any machine. */
float rindsaddle_cbrt(float x);
float before_cbrt(float x);
int printf(const char *format, ...);

union pattern {
    unsigned bits;
    float value;
};

int main(void) {
    unsigned differ = 0, first = 0x3f800000, end = 0x41000000;
    for (unsigned bits = first; bits < end; bits++) {
        union pattern x = {.bits = bits}, now = {.value = rindsaddle_cbrt(x.value)}, then = {.value = before_cbrt(x.value)};
        if (now.bits == then.bits) continue;
        if (differ++ == 0) printf("%08x: %08x before, %08x now\n", bits, then.bits, now.bits);
    }
    printf("%u roots compared, %u differ\n", end - first, differ);
    return differ != 0;
}
