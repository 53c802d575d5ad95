/*
 * loop: a tune that repeats from a marked sample. Encodes a clip with a loop, plays the loop three times over and compares it with what the whole clip
 * plays there: each turn is the same, and the step over the seam no larger than one within the loop. Exit status 1 where this is not so.
 */
#include "doilycairn.h"
#include "support.h"
#include <stdio.h>
#include <stdlib.h>
#include <string.h>

/* Blocks have 112 samples; the loop is three periods of the tune, from within a frame of block 1 to within one of block 4. */
enum { SAMPLES = 600, BLOCK_SIZE = 64, PERIOD = 100, START = 150, END = 450, TURN = END - START, TIMES = 3, ROOM = 1024 };

/* A strike that fades, into a triangle wave. */
static int16_t tune(int i) {
    int phase = i % PERIOD, triangle = (phase < PERIOD / 2 ? phase : PERIOD - phase) * 160 - 4000;
    return (int16_t)(i < START - 14 ? triangle + (i * 7919 % 2001 - 1000) * (START - i) / START : triangle);
}

/* The coefficients of a clip. */
static doilycairn_finished measure(const int16_t *clip) {
    static double store[2 * ((SAMPLES + 13) / 14)];
    size_t store_len = sizeof store / sizeof store[0];
    doilycairn_processed processed = doilycairn_process(doilycairn_new(), clip, SAMPLES, store, store_len);
    check("process", processed.code);
    doilycairn_finished finished = doilycairn_finish(processed.calculator, store, store_len);
    check("finish", finished.code);
    return finished;
}

/* Encodes a clip with its loop. */
static void encode(const int16_t *clip, uint8_t *image) {
    static const doilycairn_history silence = {0, 0};
    doilycairn_finished measured = measure(clip);
    doilycairn_encoding done =
        doilycairn_start_loop(SAMPLES, 32000, BLOCK_SIZE, 0, measured.coefficients, silence, START, END, image, ROOM);
    check("start", done.code);
    done = doilycairn_feed(done.encoder, clip, SAMPLES, image, ROOM);
    check("feed", done.code);
    done = doilycairn_close(done.encoder, image, ROOM);
    check("close", done.code);
}

/* The largest step between neighbours. */
static int largest_step(const int16_t *samples, size_t count) {
    int most = 0;
    for (size_t i = 1; i < count; i++) {
        int step = abs(samples[i] - samples[i - 1]);
        if (step > most) most = step;
    }
    return most;
}

int main(void) {
    static int16_t clip[SAMPLES], whole[SAMPLES], turns[TIMES * TURN];
    static uint8_t image[ROOM];
    for (int i = 0; i < SAMPLES; i++) clip[i] = tune(i);
    encode(clip, image);

    /* A player asks the image for its loop: the room that it needs is known before it plays. */
    doilycairn_opening opened = doilycairn_open(image, ROOM);
    check_reading("open", opened.code, opened.entry);
    int same = opened.loop.present && opened.loop.start == START && opened.loop.end == END;
    doilycairn_playback all = doilycairn_play_all(image, ROOM, whole, SAMPLES);
    check_reading("play all", all.code, all.entry);
    doilycairn_turns played = doilycairn_play_loop(image, ROOM, TIMES, turns, TIMES * TURN);
    check_reading("play loop", played.code, played.entry);

    same = same && played.samples == TIMES * TURN;
    for (size_t turn = 0; turn < TIMES; turn++) same = same && memcmp(turns + turn * TURN, whole + START, TURN * sizeof *turns) == 0;
    int seam = abs(turns[TURN] - turns[TURN - 1]), most = largest_step(whole + START, TURN);
    printf("%u samples, %d turns of %d to %d; ", (unsigned)played.samples, TIMES, START, END);
    printf("%s, a step of %d over the seam and of %d at most within\n", same ? "each as the clip plays it" : "not all alike", seam, most);
    return same && seam <= most ? 0 : 1;
}
