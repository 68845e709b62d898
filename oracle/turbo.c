// Lines widened by libjpeg-turbo's h2v1 fancy upsampling, as records of kind 27: turbo SEED COUNT.
// cc -O2 turbo.c -ljpeg -o target/turbo && target/turbo 1 1000 | ../run replay
//
// An image of one line in YCbCr, its chroma at half width, is written as a JPEG and decoded twice: to the chroma as it stands in the file, and
// widened. libjpeg-turbo sends a half down at output 2i and up at 2i + 1; where output 2i is a half we write one more, and count it.
#include <stdint.h>
#include <stdio.h>
#include <stdlib.h>
#include <jpeglib.h>

enum { HALF = 27, WIDEST = 128, ROWS = 8 };

static uint64_t state;

static unsigned below(unsigned n) { // splitmix64
    uint64_t z = state += 0x9e3779b97f4a7c15;
    z = (z ^ z >> 30) * 0xbf58476d1ce4e5b9;
    z = (z ^ z >> 27) * 0x94d049bb133111eb;
    return (unsigned)((z ^ z >> 31) >> 32) % n;
}

static unsigned long written(unsigned char **file, unsigned width) {
    struct jpeg_compress_struct c;
    struct jpeg_error_mgr error;
    unsigned long size = 0;
    unsigned char line[3 * WIDEST], *row = line;
    for (unsigned i = 0; i < 3 * width; i++)
        line[i] = below(256);
    c.err = jpeg_std_error(&error);
    jpeg_create_compress(&c);
    jpeg_mem_dest(&c, file, &size);
    c.image_width = width;
    c.image_height = 1;
    c.input_components = 3;
    c.in_color_space = JCS_YCbCr;
    jpeg_set_defaults(&c); // chroma at half width and half height
    c.comp_info[0].v_samp_factor = 1; // half width alone
    jpeg_set_quality(&c, 100, TRUE);
    jpeg_start_compress(&c, TRUE);
    jpeg_write_scanlines(&c, &row, 1);
    jpeg_finish_compress(&c);
    jpeg_destroy_compress(&c);
    return size;
}

static void opened(struct jpeg_decompress_struct *d, struct jpeg_error_mgr *error, unsigned char *file, unsigned long size) {
    d->err = jpeg_std_error(error);
    jpeg_create_decompress(d);
    jpeg_mem_src(d, file, size);
    jpeg_read_header(d, TRUE);
    d->out_color_space = JCS_YCbCr;
}

// Cb and Cr as they stand in the file.
static void stored(unsigned char *file, unsigned long size, unsigned char chroma[2][2 * WIDEST]) {
    static unsigned char rows[3][ROWS][2 * WIDEST];
    struct jpeg_decompress_struct d;
    struct jpeg_error_mgr error;
    JSAMPROW at[3][ROWS];
    JSAMPARRAY planes[3];
    for (int c = 0; c < 3; c++) {
        for (int i = 0; i < ROWS; i++)
            at[c][i] = c && i == 0 ? chroma[c - 1] : rows[c][i];
        planes[c] = at[c];
    }
    opened(&d, &error, file, size);
    d.raw_data_out = TRUE;
    jpeg_start_decompress(&d);
    jpeg_read_raw_data(&d, planes, ROWS);
    jpeg_abort_decompress(&d);
    jpeg_destroy_decompress(&d);
}

static void widened(unsigned char *file, unsigned long size, unsigned char line[3 * WIDEST]) {
    struct jpeg_decompress_struct d;
    struct jpeg_error_mgr error;
    opened(&d, &error, file, size);
    d.do_fancy_upsampling = TRUE;
    jpeg_start_decompress(&d);
    jpeg_read_scanlines(&d, &line, 1);
    jpeg_abort_decompress(&d);
    jpeg_destroy_decompress(&d);
}

static void packed(const unsigned char *bytes, unsigned n) {
    for (unsigned i = 0; i < n; i += 4) {
        printf(" ");
        for (unsigned k = i; k < i + 4; k++)
            printf("%02x", k < n ? bytes[k] : 0);
    }
}

int main(int count, char **words) {
    static const unsigned char none[WIDEST];
    unsigned long bytes = 0, halves = 0;
    if (count != 3)
        return 2;
    state = strtoull(words[1], 0, 10);
    for (long line = strtol(words[2], 0, 10); line > 0; line -= 2) {
        unsigned m = 5 + below(WIDEST - 4), n = (m + 1) / 2;
        unsigned char *file = 0, chroma[2][2 * WIDEST], all[3 * WIDEST], out[WIDEST];
        unsigned long size = written(&file, m);
        stored(file, size, chroma);
        widened(file, size, all);
        free(file);
        for (int c = 0; c < 2; c++) {
            for (unsigned j = 0; j < m; j++) {
                unsigned i = j / 2;
                int half = j % 2 == 0 && i > 0 && (3 * chroma[c][i] + chroma[c][i - 1]) % 4 == 2;
                out[j] = all[3 * j + c + 1] + half;
                halves += half;
            }
            bytes += m;
            printf("%08x %08x %08x %08x", HALF, 0, n, m);
            packed(chroma[c], n);
            packed(none, m);
            packed(out, m);
            printf(" %08x\n", 0);
        }
    }
    fprintf(stderr, "%lu bytes, %lu of them one more than libjpeg-turbo's\n", bytes, halves);
}
