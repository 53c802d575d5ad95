/*
 * refusals: makes a call for each refusal and says which number it gave, and which block it named. Exit status 1 where a call gave another than the
 * one meant.
 */
#include "doilycairn.h"
#include "support.h"
#include <stdio.h>
#include <string.h>

enum { SAMPLES = 20, BLOCK_SIZE = 8, BODIES = 8 + 1 + 3, IMAGE = 56 + 2 * 16 + BODIES, LOOP_IMAGE = IMAGE + 16, FILE_BYTES = 96 + BODIES };
enum { LOOP_START = 5, LOOP_END = 17 };

static const int16_t silence[SAMPLES] = {0}, coefficients[16] = {0}, lowest[16] = {-32768, -32768};
static const int16_t largest[16] = {-32768, 28672}, outside[16] = {-32768, 28673}; /* 61,440 and 61,441 */
static const doilycairn_history history = {0, 0};
static const doilycairn_context context = {0, {0, 0}};
static int wrong = 0;

/* What a call says of itself: its code, and the block that it names. */
typedef struct {
    uint32_t code;
    uint32_t entry;
} verdict;

static void say(verdict given) {
    printf("%2u ", (unsigned)given.code);
    write_message(stdout, given.code, given.entry);
    puts("");
}

static verdict of_opening(doilycairn_opening opened) { return (verdict){opened.code, opened.entry}; }
static verdict of_body(doilycairn_body body) { return (verdict){body.code, body.entry}; }
static verdict of_playback(doilycairn_playback played) { return (verdict){played.code, played.entry}; }
static verdict of_part(doilycairn_part part) { return (verdict){part.code, part.entry}; }
static verdict of_turns(doilycairn_turns turns) { return (verdict){turns.code, turns.entry}; }
static verdict of_written(doilycairn_written written) { return (verdict){written.code, written.entry}; }
static verdict of_comparison(doilycairn_comparison compared) { return (verdict){compared.code, compared.entry}; }

/* Remembers where a verdict is not what was meant. */
static void compare(verdict meant, verdict given) {
    if (given.code == meant.code && given.entry == meant.entry) return;
    printf("   given was %u, entry %u; ", (unsigned)given.code, (unsigned)given.entry);
    printf("meant was %u, entry %u\n", (unsigned)meant.code, (unsigned)meant.entry);
    wrong = 1;
}

/* Says what a call gave that names no block. */
static void expect_no_block(uint32_t meant, verdict given) {
    say(given);
    compare((verdict){meant, 0}, given);
}

/* Says what a call gave whose answer has no entry. */
static void expect(uint32_t meant, uint32_t code) {
    expect_no_block(meant, (verdict){code, 0});
}

static void measuring(void) {
    double store[4] = {0};
    doilycairn_calculator invalid = doilycairn_new(), full = doilycairn_new();
    invalid.records = 1;
    full.samples = DOILYCAIRN_MAX_SAMPLES;
    expect(DOILYCAIRN_INVALID_STATE, doilycairn_process(invalid, silence, 1, store, 4).code);
    expect(DOILYCAIRN_TOO_MANY_SAMPLES, doilycairn_process(full, silence, 1, store, 4).code);
    expect(DOILYCAIRN_STORE_TOO_SHORT, doilycairn_process(doilycairn_new(), silence, SAMPLES, store, 3).code);
}

static void one_frame(void) {
    expect(DOILYCAIRN_COEFFICIENT_OUTSIDE, doilycairn_encode_frame(history, silence, outside).code);
    expect(DOILYCAIRN_ACCEPTED, doilycairn_encode_frame(history, silence, largest).code);
}

static void starting(uint8_t *image) {
    expect(DOILYCAIRN_BAD_SAMPLE_COUNT, doilycairn_start(0, 1, BLOCK_SIZE, 0, coefficients, history, image, IMAGE).code);
    expect(DOILYCAIRN_RATE_ZERO, doilycairn_start(SAMPLES, 0, BLOCK_SIZE, 0, coefficients, history, image, IMAGE).code);
    expect(DOILYCAIRN_BAD_BLOCK_SIZE, doilycairn_start(SAMPLES, 1, 7, 0, coefficients, history, image, IMAGE).code);
    expect(DOILYCAIRN_COEFFICIENT_OUTSIDE, doilycairn_start(SAMPLES, 1, BLOCK_SIZE, 0, outside, history, image, IMAGE).code);
    expect(DOILYCAIRN_ACCEPTED, doilycairn_start(SAMPLES, 1, BLOCK_SIZE, 0, largest, history, image, IMAGE).code);
    expect(DOILYCAIRN_IMAGE_TOO_SHORT, doilycairn_start(SAMPLES, 1, BLOCK_SIZE, 0, coefficients, history, image, IMAGE - 1).code);
}

/* Starts the clip with a loop. */
static doilycairn_encoding start_loop(uint32_t start, uint32_t end, uint8_t *image, size_t image_len) {
    return doilycairn_start_loop(SAMPLES, 1, BLOCK_SIZE, 0, coefficients, history, start, end, image, image_len);
}

/* Leaves the image of a closed clip with a loop. */
static void looping(uint8_t *image) {
    expect(DOILYCAIRN_LOOP_OUTSIDE, start_loop(0, 0, image, LOOP_IMAGE).code);
    expect(DOILYCAIRN_LOOP_OUTSIDE, start_loop(LOOP_END, LOOP_START, image, LOOP_IMAGE).code);
    expect(DOILYCAIRN_LOOP_OUTSIDE, start_loop(LOOP_START, SAMPLES + 1, image, LOOP_IMAGE).code);
    expect(DOILYCAIRN_IMAGE_TOO_SHORT, start_loop(LOOP_START, LOOP_END, image, LOOP_IMAGE - 1).code);
    doilycairn_encoder encoder = start_loop(LOOP_START, LOOP_END, image, LOOP_IMAGE).encoder;
    doilycairn_encoder altered = encoder;
    altered.loop.end = SAMPLES + 1;
    expect(DOILYCAIRN_INVALID_STATE, doilycairn_feed(altered, silence, 1, image, LOOP_IMAGE).code);
    doilycairn_encoder fed = doilycairn_feed(encoder, silence, SAMPLES, image, LOOP_IMAGE).encoder;
    expect(DOILYCAIRN_ACCEPTED, doilycairn_close(fed, image, LOOP_IMAGE).code);
}

/* Leaves the image of a closed clip. */
static void feeding(uint8_t *image) {
    doilycairn_encoder encoder = doilycairn_start(SAMPLES, 1, BLOCK_SIZE, 0, coefficients, history, image, IMAGE).encoder;
    doilycairn_encoder fed = doilycairn_feed(encoder, silence, SAMPLES, image, IMAGE).encoder;
    doilycairn_encoder closed = doilycairn_close(fed, image, IMAGE).encoder;
    doilycairn_encoder altered = encoder;
    memcpy(altered.coefficients, outside, sizeof outside);
    expect(DOILYCAIRN_INVALID_STATE, doilycairn_feed(altered, silence, 1, image, IMAGE).code);
    expect(DOILYCAIRN_ALREADY_CLOSED, doilycairn_feed(closed, silence, 1, image, IMAGE).code);
    expect(DOILYCAIRN_PIECE_TOO_LONG, doilycairn_feed(fed, silence, 1, image, IMAGE).code);
    expect(DOILYCAIRN_UNFINISHED, doilycairn_close(encoder, image, IMAGE).code);
}

static void playing_bytes(void) {
    static const uint8_t bytes[8] = {0};
    int16_t out[14];
    expect_no_block(DOILYCAIRN_LENGTH_OUT_OF_RANGE, of_playback(doilycairn_play_bytes(bytes, 8, 17, coefficients, context, out, 14)));
    expect_no_block(DOILYCAIRN_LOWEST_PAIR, of_playback(doilycairn_play_bytes(bytes, 8, 16, lowest, context, out, 14)));
    expect_no_block(DOILYCAIRN_OUTPUT_TOO_SHORT, of_playback(doilycairn_play_bytes(bytes, 8, 16, coefficients, context, out, 13)));
}

/* Bytes of an image that are damaged, the same one twice where it is one alone, and what every call on it then gives. */
typedef struct {
    size_t places[2];
    verdict meant;
} damage;

/* Entries stand at 56 and 72, bodies at 88 and 96. */
static const damage damages[] = {
    {{59, 59}, {DOILYCAIRN_BAD_OFFSET, 0}},
    {{75, 75}, {DOILYCAIRN_BAD_OFFSET, 1}},
    {{63, 63}, {DOILYCAIRN_BAD_LENGTH, 0}},
    {{79, 79}, {DOILYCAIRN_BAD_LENGTH, 1}},
    {{87, 87}, {DOILYCAIRN_BAD_LENGTH, 1}}, /* zero bytes */
    {{64, 64}, {DOILYCAIRN_BAD_HEADER, 0}}, /* the upper byte of the two */
    {{96, 96}, {DOILYCAIRN_BAD_HEADER, 1}}, /* the body, not the entry */
    {{65, 75}, {DOILYCAIRN_BAD_HEADER, 0}}, /* entry 0 before entry 1 */
    {{71, 65}, {DOILYCAIRN_BAD_LENGTH, 0}}, /* within an entry 21 before 22 */
    {{79, 75}, {DOILYCAIRN_BAD_OFFSET, 1}}, /* and 20 before 21 */
    {{55, 59}, {DOILYCAIRN_BAD_HEAD, 0}},   /* the head before any entry */
};

/* The loop's entry stands at 88, bodies at 104 and 112. */
static const damage loop_damages[] = {
    {{88, 88}, {DOILYCAIRN_BAD_LOOP, 0}},    /* the start is above the end */
    {{92, 92}, {DOILYCAIRN_BAD_LOOP, 0}},    /* the end is above the sample count */
    {{97, 97}, {DOILYCAIRN_BAD_LOOP, 0}},    /* the header */
    {{103, 103}, {DOILYCAIRN_BAD_LOOP, 0}},  /* zero bytes */
    {{103, 81}, {DOILYCAIRN_BAD_HEADER, 1}}, /* every block before the loop */
    {{103, 51}, {DOILYCAIRN_BAD_OFFSET, 0}}, /* said to have no loop: its bodies would begin 16 bytes earlier */
};

/* An image, and the ways to damage it. */
typedef struct {
    const uint8_t *image;
    size_t len;
    const damage *damages;
    size_t count;
} subject;

static void damage_image(const subject *whole, const damage *done, uint8_t *damaged) {
    memcpy(damaged, whole->image, whole->len);
    for (size_t i = 0; i < 2; i++) damaged[done->places[i]] = (uint8_t)(whole->image[done->places[i]] ^ 1);
}

/* The calls on one damaged image, for blocks that there are and for one that there is not, for a sample and for one past the last. */
static void read_damaged(const uint8_t *damaged, size_t len, verdict meant) {
    int16_t out[SAMPLES];
    say(of_opening(doilycairn_open(damaged, len)));
    compare(meant, of_opening(doilycairn_open(damaged, len)));
    for (uint32_t k = 0; k < 3; k++) {
        compare(meant, of_body(doilycairn_block_body(damaged, len, k)));
        compare(meant, of_playback(doilycairn_play(damaged, len, k, out, SAMPLES)));
    }
    compare(meant, of_playback(doilycairn_play_all(damaged, len, out, SAMPLES)));
    compare(meant, of_part(doilycairn_play_from(damaged, len, 0, out, SAMPLES)));
    compare(meant, of_part(doilycairn_play_from(damaged, len, SAMPLES, out, SAMPLES)));
    compare(meant, of_turns(doilycairn_play_loop(damaged, len, 1, out, 0)));
    uint8_t file[FILE_BYTES];
    compare(meant, of_written(doilycairn_export_dsp(damaged, len, file, 0)));
}

/* Compares two images of one length, one of them or both damaged, and compares their sound: the two calls are refused alike. */
static void compare_both(verdict meant, const uint8_t *first, const uint8_t *second, size_t len) {
    compare(meant, of_comparison(doilycairn_same(first, len, second, len)));
    compare(meant, of_comparison(doilycairn_sounds_same(first, len, second, len)));
}

/* Comparing with the image as it was, in either place, and with every damaged one: the first image is tested first. */
static void compare_damaged(const subject *whole, const uint8_t *damaged, verdict meant) {
    compare_both(meant, damaged, whole->image, whole->len);
    compare_both(meant, whole->image, damaged, whole->len);
    for (size_t i = 0; i < whole->count; i++) {
        uint8_t other[LOOP_IMAGE];
        damage_image(whole, &whole->damages[i], other);
        compare_both(meant, damaged, other, whole->len);
    }
}

/* Comparing a clip with the same one with a loop is no refusal; with the lowest pair in either it is one. */
static void comparing(const uint8_t *image, const uint8_t *looped) {
    uint8_t low[IMAGE];
    memcpy(low, image, IMAGE);
    low[16] = low[18] = 0x80;
    expect_no_block(DOILYCAIRN_ACCEPTED, of_comparison(doilycairn_same(image, IMAGE, looped, LOOP_IMAGE)));
    expect_no_block(DOILYCAIRN_ACCEPTED, of_comparison(doilycairn_sounds_same(image, IMAGE, looped, LOOP_IMAGE)));
    expect_no_block(DOILYCAIRN_LOWEST_PAIR, of_comparison(doilycairn_same(low, IMAGE, looped, LOOP_IMAGE)));
    expect_no_block(DOILYCAIRN_LOWEST_PAIR, of_comparison(doilycairn_sounds_same(looped, LOOP_IMAGE, low, IMAGE)));
}

static void reading_damaged(const subject *whole) {
    for (size_t i = 0; i < whole->count; i++) {
        uint8_t damaged[LOOP_IMAGE];
        damage_image(whole, &whole->damages[i], damaged);
        read_damaged(damaged, whole->len, whole->damages[i].meant);
        compare_damaged(whole, damaged, whole->damages[i].meant);
    }
}

static void reading(const uint8_t *image) {
    int16_t out[SAMPLES];
    expect_no_block(DOILYCAIRN_BAD_HEAD, of_opening(doilycairn_open(image, 55)));
    expect_no_block(DOILYCAIRN_NO_SUCH_BLOCK, of_body(doilycairn_block_body(image, IMAGE, 2)));
    expect_no_block(DOILYCAIRN_OUTPUT_TOO_SHORT, of_playback(doilycairn_play_all(image, IMAGE, out, SAMPLES - 1)));
    expect_no_block(DOILYCAIRN_ACCEPTED, of_playback(doilycairn_play_all(image, IMAGE, out, SAMPLES)));
    expect_no_block(DOILYCAIRN_NO_SUCH_SAMPLE, of_part(doilycairn_play_from(image, IMAGE, SAMPLES, out, 0)));
    expect_no_block(DOILYCAIRN_ACCEPTED, of_part(doilycairn_play_from(image, IMAGE, SAMPLES - 1, out, 0)));
}

static void playing_loop(const uint8_t *image, const uint8_t *looped) {
    int16_t out[2 * SAMPLES];
    size_t room = 2 * (LOOP_END - LOOP_START);
    expect_no_block(DOILYCAIRN_OUTPUT_TOO_SHORT, of_turns(doilycairn_play_loop(looped, LOOP_IMAGE, 2, out, room - 1)));
    expect_no_block(DOILYCAIRN_ACCEPTED, of_turns(doilycairn_play_loop(looped, LOOP_IMAGE, 2, out, room)));
    expect_no_block(DOILYCAIRN_ACCEPTED, of_turns(doilycairn_play_loop(image, IMAGE, 2, out, 0))); /* no loop: no samples */
}

/* Leaves the .dsp file of an image. */
static void exporting(const uint8_t *looped, uint8_t *file) {
    uint8_t other[LOOP_IMAGE];
    memcpy(other, looped, LOOP_IMAGE);
    other[83] = 1; /* in the entry of block 1, its history */
    verdict named = of_written(doilycairn_export_dsp(other, LOOP_IMAGE, file, 0));
    say(named);
    compare((verdict){DOILYCAIRN_OTHER_HISTORY, 1}, named);
    other[16] = other[18] = 0x80; /* a pair of coefficients */
    expect_no_block(DOILYCAIRN_LOWEST_PAIR, of_written(doilycairn_export_dsp(other, LOOP_IMAGE, file, 0)));
    expect_no_block(DOILYCAIRN_OUTPUT_TOO_SHORT, of_written(doilycairn_export_dsp(looped, LOOP_IMAGE, file, FILE_BYTES - 1)));
    expect_no_block(DOILYCAIRN_ACCEPTED, of_written(doilycairn_export_dsp(looped, LOOP_IMAGE, file, FILE_BYTES)));
}

/* Importing a file in which these bytes are put in the place of four others. */
static void import_with(const uint8_t *whole, size_t at, const uint8_t put[4], uint32_t meant) {
    uint8_t file[FILE_BYTES], image[LOOP_IMAGE];
    memcpy(file, whole, FILE_BYTES);
    memcpy(file + at, put, 4);
    expect_no_block(meant, of_written(doilycairn_import_dsp(file, FILE_BYTES, BLOCK_SIZE, image, LOOP_IMAGE)));
    compare((verdict){meant, 0}, of_written(doilycairn_dsp_image_size(file, FILE_BYTES, BLOCK_SIZE)));
}

static void importing(const uint8_t *file) {
    static const uint8_t zero[4] = {0}, low[4] = {0x80, 0, 0x80, 0};
    uint8_t image[LOOP_IMAGE];
    expect_no_block(DOILYCAIRN_FILE_TOO_SHORT, of_written(doilycairn_import_dsp(file, 95, 7, image, 0)));
    expect_no_block(DOILYCAIRN_FILE_TOO_SHORT, of_written(doilycairn_import_dsp(file, FILE_BYTES - 1, 7, image, 0)));
    import_with(file, 0, zero, DOILYCAIRN_BAD_SAMPLE_COUNT);
    import_with(file, 8, zero, DOILYCAIRN_RATE_ZERO);
    expect_no_block(DOILYCAIRN_BAD_BLOCK_SIZE, of_written(doilycairn_import_dsp(file, FILE_BYTES, 7, image, 0)));
    import_with(file, 4, zero, DOILYCAIRN_BAD_FIELD);  /* the nibble count */
    import_with(file, 16, zero, DOILYCAIRN_BAD_FIELD); /* the loop's first address: a frame's header */
    import_with(file, 24, zero, DOILYCAIRN_BAD_FIELD); /* the number 2 */
    import_with(file, 28, low, DOILYCAIRN_LOWEST_PAIR);
    expect_no_block(DOILYCAIRN_IMAGE_TOO_SHORT, of_written(doilycairn_import_dsp(file, FILE_BYTES, BLOCK_SIZE, image, LOOP_IMAGE - 1)));
    expect_no_block(DOILYCAIRN_ACCEPTED, of_written(doilycairn_import_dsp(file, FILE_BYTES, BLOCK_SIZE, image, LOOP_IMAGE)));
}

static void joining(void) {
    static const uint8_t bytes[8] = {0};
    uint8_t out[16];
    expect(DOILYCAIRN_COEFFICIENTS_DIFFER, doilycairn_join(bytes, 8, 16, coefficients, bytes, 8, 16, outside, out, 16).code);
}

int main(void) {
    uint8_t image[IMAGE], looped[LOOP_IMAGE], file[FILE_BYTES];
    measuring();
    one_frame();
    starting(image);
    feeding(image);
    looping(looped);
    playing_bytes();
    reading(image);
    playing_loop(image, looped);
    comparing(image, looped);
    subject plain = {image, IMAGE, damages, sizeof damages / sizeof damages[0]};
    subject with_loop = {looped, LOOP_IMAGE, loop_damages, sizeof loop_damages / sizeof loop_damages[0]};
    reading_damaged(&plain);
    reading_damaged(&with_loop);
    exporting(looped, file);
    importing(file);
    joining();
    return wrong;
}
