/*
 * floating: what the calls ask of the floating-point environment. Flushing subnormal numbers to zero alters no record and no coefficient of a
 * clip; another rounding than to the nearest does. Exit status 1 where this is not so.
 */
#include "doilycairn.h"
#include "support.h"
#include <fenv.h>
#include <stdio.h>
#include <stdlib.h>
#include <string.h>
#include <xmmintrin.h>

enum { SAMPLES = 20000, STORE = 2 * ((SAMPLES + 13) / 14), CLIPS = 200, FLUSH = 0x8040 };

/* What measuring a clip leaves. */
typedef struct {
    double records[STORE];
    int16_t coefficients[16];
} measured;

/* Noise over tones, all in whole numbers; clips differ in loudness from a few steps to all 16 bits. */
static void synthesise(int16_t *clip, uint32_t seed) {
    uint32_t noise = seed * 2654435761u + 1, phase = 0;
    int32_t loudness = 2 << (seed % 15);
    for (size_t i = 0; i < SAMPLES; i++) {
        noise = noise * 1664525 + 1013904223;
        phase += (seed * 97 % 3000) << 16;
        int32_t ramp = (int32_t)(phase >> 16) - 32768, hiss = (int32_t)(noise >> 16) - 32768;
        clip[i] = (int16_t)((ramp / 2 + hiss / (int32_t)(seed % 5 + 2)) * (int64_t)loudness / 32768);
    }
}

static void measure(const int16_t *clip, measured *out) {
    memset(out, 0, sizeof *out);
    doilycairn_processed processed = doilycairn_process(doilycairn_new(), clip, SAMPLES, out->records, STORE);
    check("process", processed.code);
    doilycairn_finished finished = doilycairn_finish(processed.calculator, out->records, STORE);
    check("finish", finished.code);
    memcpy(out->coefficients, finished.coefficients, sizeof finished.coefficients);
}

/* Measures with results and operands that are subnormal taken for zero. */
static void measure_flushing(const int16_t *clip, measured *out) {
    unsigned before = _mm_getcsr();
    _mm_setcsr(before | FLUSH);
    measure(clip, out);
    _mm_setcsr(before);
}

/* Measures with every operation rounded up. */
static void measure_upward(const int16_t *clip, measured *out) {
    fesetround(FE_UPWARD);
    measure(clip, out);
    fesetround(FE_TONEAREST);
}

int main(void) {
    static int16_t clip[SAMPLES];
    static measured nearest, other;
    int flushed = 0, upward = 0;
    for (uint32_t seed = 0; seed < CLIPS; seed++) {
        synthesise(clip, seed);
        measure(clip, &nearest);
        measure_flushing(clip, &other);
        flushed += memcmp(&nearest, &other, sizeof nearest) != 0;
        measure_upward(clip, &other);
        upward += memcmp(&nearest, &other, sizeof nearest) != 0;
    }
    printf("%d clips measured: %d differ where subnormal numbers are flushed to zero, %d where results are rounded up\n", CLIPS, flushed, upward);
    return flushed == 0 && upward > 0 ? 0 : 1;
}
