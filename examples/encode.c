/* encode IMAGE [SAMPLES [BLOCK-SIZE [PITCH]]]: encodes a synthesised clip and writes its image to a file. */
#include "doilycairn.h"
#include "support.h"
#include <stdio.h>
#include <stdlib.h>

/* The next piece of a clip, of some odd length. */
static size_t piece_length(size_t turn, size_t left) {
    static const size_t lengths[] = {1, 13, 0, 14, 15, 997, 2, 28, 4099};
    size_t length = lengths[turn % (sizeof lengths / sizeof lengths[0])];
    return length < left ? length : left;
}

/* A falling tone: a triangle wave that fades, with a little noise. */
static int16_t *synthesise(size_t count, uint32_t pitch) {
    int16_t *clip = allocate(count, sizeof *clip);
    uint32_t phase = 0, noise = 1;
    for (size_t i = 0; i < count; i++) {
        phase += pitch << 16;
        noise = noise * 1664525 + 1013904223;
        int32_t ramp = (int32_t)(phase >> 16);
        int32_t triangle = (ramp < 32768 ? ramp : 65535 - ramp) - 16384;
        int32_t fading = (int32_t)(triangle * (int64_t)(count - i) / (int64_t)count);
        clip[i] = (int16_t)(fading + (int32_t)(noise >> 25) - 64);
    }
    return clip;
}

/* Measures the clip piece by piece, and works out its coefficients. */
static doilycairn_finished measure(const int16_t *clip, size_t count) {
    size_t store_len = doilycairn_store_size((uint32_t)count);
    double *store = allocate(store_len, sizeof *store);
    doilycairn_calculator calculator = doilycairn_new();
    for (size_t at = 0, turn = 0; at < count; turn++) {
        size_t length = piece_length(turn, count - at);
        doilycairn_processed processed = doilycairn_process(calculator, clip + at, length, store, store_len);
        check("process", processed.code);
        calculator = processed.calculator;
        at += length;
    }
    doilycairn_finished finished = doilycairn_finish(calculator, store, store_len);
    check("finish", finished.code);
    free(store);
    return finished;
}

/* Feeds the clip piece by piece to an encoder that was started, and closes it. */
static doilycairn_encoder feed(doilycairn_encoder encoder, const int16_t *clip, size_t count, uint8_t *image, size_t image_len) {
    for (size_t at = 0, turn = 5; at < count; turn++) {
        size_t length = piece_length(turn, count - at);
        doilycairn_encoding fed = doilycairn_feed(encoder, clip + at, length, image, image_len);
        check("feed", fed.code);
        encoder = fed.encoder;
        at += length;
    }
    doilycairn_encoding closed = doilycairn_close(encoder, image, image_len);
    check("close", closed.code);
    return closed.encoder;
}

/* The number of an argument, or another where it is not given. */
static uint32_t number(int argc, char **argv, int place, uint32_t other) {
    return place < argc ? (uint32_t)strtoul(argv[place], NULL, 10) : other;
}

int main(int argc, char **argv) {
    if (argc < 2) {
        fprintf(stderr, "usage: %s IMAGE [SAMPLES [BLOCK-SIZE [PITCH]]]\n", argv[0]);
        return 2;
    }
    uint32_t count = number(argc, argv, 2, 48000);
    uint32_t block_size = number(argc, argv, 3, 4096);
    uint32_t pitch = number(argc, argv, 4, 901);
    int16_t *clip = synthesise(count, pitch);
    doilycairn_finished measured = measure(clip, count);

    size_t image_len = doilycairn_image_size(count, block_size);
    uint8_t *image = allocate(image_len, 1);
    doilycairn_history silence = {0, 0};
    doilycairn_encoding started = doilycairn_start(count, 32000, block_size, 0, measured.coefficients, silence, image, image_len);
    check("start", started.code);
    doilycairn_encoder encoder = feed(started.encoder, clip, count, image, image_len);

    write_file(argv[1], image, image_len);
    printf("%s: %u samples, %zu bytes, %u passes\n", argv[1], (unsigned)count, image_len, (unsigned)encoder.passes);
    free(image);
    free(clip);
    return 0;
}
