/* play IMAGE RAW: plays an image and writes the samples to a file, 16 bits each, low byte first. */
#include "doilycairn.h"
#include "support.h"
#include <stdio.h>
#include <stdlib.h>

/* The samples' bytes, low byte first. */
static uint8_t *to_bytes(const int16_t *samples, size_t count) {
    uint8_t *bytes = allocate(count, 2);
    for (size_t i = 0; i < count; i++) {
        uint16_t bits = (uint16_t)samples[i];
        bytes[2 * i] = (uint8_t)(bits & 0xff);
        bytes[2 * i + 1] = (uint8_t)(bits >> 8);
    }
    return bytes;
}

int main(int argc, char **argv) {
    if (argc != 3) {
        fprintf(stderr, "usage: %s IMAGE RAW\n", argv[0]);
        return 2;
    }
    size_t image_len;
    uint8_t *image = read_file(argv[1], &image_len);
    doilycairn_opening opened = doilycairn_open(image, image_len);
    check_reading("open", opened.code, opened.entry);

    size_t count = opened.head.total;
    int16_t *samples = allocate(count, sizeof *samples);
    doilycairn_playback played = doilycairn_play_all(image, image_len, samples, count);
    check_reading("play all", played.code, played.entry);
    uint8_t *bytes = to_bytes(samples, count);
    write_file(argv[2], bytes, 2 * count);
    printf("%s: %zu samples at %u, %u blocks\n", argv[2], count, (unsigned)opened.head.rate, (unsigned)opened.head.blocks);
    free(bytes);
    free(samples);
    free(image);
    return 0;
}
