/*
 * part IMAGE FIRST COUNT > RAW: plays COUNT samples of an image from number FIRST on, or up to its last one, and writes them 16 bits each, low byte
 * first. A trim screen asks so for 200 samples from the middle; a player streams a whole clip so, with room for one piece of it.
 */
#include "doilycairn.h"
#include "support.h"
#include <errno.h>
#include <stdio.h>
#include <stdlib.h>

enum { PIECE = 512 };

static void write_samples(const int16_t *samples, size_t count) {
    for (size_t i = 0; i < count; i++) {
        putchar(samples[i] & 0xff);
        putchar(samples[i] >> 8 & 0xff);
    }
}

/* Plays piece by piece, each from where the one before ended: nothing is carried over but a number. */
static void stream(const uint8_t *image, size_t image_len, uint32_t first, uint32_t count) {
    doilycairn_opening opened = doilycairn_open(image, image_len);
    check_reading("open", opened.code, opened.entry);
    uint32_t next = first, left = count;
    do {
        int16_t out[PIECE];
        doilycairn_part part = doilycairn_play_from(image, image_len, next, out, left < PIECE ? left : PIECE);
        check_reading("play from", part.code, part.entry);
        write_samples(out, part.samples);
        fprintf(stderr, "from %u: samples %u, blocks %u\n", (unsigned)next, (unsigned)part.samples, (unsigned)part.blocks);
        next += (uint32_t)part.samples;
        left -= (uint32_t)part.samples;
    } while (left > 0 && next < opened.head.total);
}

/* Whether a text is a number of 32 bits. */
static int read_number(const char *text, uint32_t *number) {
    char *end;
    errno = 0;
    unsigned long long value = strtoull(text, &end, 10);
    *number = (uint32_t)value;
    return *text >= '0' && *text <= '9' && *end == '\0' && errno == 0 && value <= UINT32_MAX;
}

int main(int argc, char **argv) {
    uint32_t first, count;
    if (argc != 4 || !read_number(argv[2], &first) || !read_number(argv[3], &count)) {
        fprintf(stderr, "usage: %s IMAGE FIRST COUNT > RAW\n", argv[0]);
        return 2;
    }
    size_t image_len;
    uint8_t *image = read_file(argv[1], &image_len);
    stream(image, image_len, first, count);
    free(image);
    if (fflush(stdout) != 0 || ferror(stdout)) fail("standard output");
    return 0;
}
