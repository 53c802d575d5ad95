/* Prints the size of each struct of doilycairn.h, the offset of each of its fields, the version, the limits and the codes, as C has them. */
#include "doilycairn.h"
#include <stdio.h>

#define SIZE(type) printf(#type " %zu\n", sizeof(doilycairn_##type))
#define FIELD(type, field) printf(#type "." #field " %zu\n", offsetof(doilycairn_##type, field))
#define NUMBER(name) printf(#name " %d\n", DOILYCAIRN_##name)

static void codes(void) {
    NUMBER(INVALID_STATE), NUMBER(TOO_MANY_SAMPLES), NUMBER(STORE_TOO_SHORT), NUMBER(BAD_SAMPLE_COUNT), NUMBER(RATE_ZERO);
    NUMBER(BAD_BLOCK_SIZE), NUMBER(COEFFICIENT_OUTSIDE), NUMBER(IMAGE_TOO_SHORT), NUMBER(ALREADY_CLOSED);
    NUMBER(PIECE_TOO_LONG), NUMBER(UNFINISHED), NUMBER(LENGTH_OUT_OF_RANGE), NUMBER(LOWEST_PAIR), NUMBER(OUTPUT_TOO_SHORT);
    NUMBER(BAD_HEAD), NUMBER(NO_SUCH_BLOCK), NUMBER(COEFFICIENTS_DIFFER), NUMBER(NO_SUCH_SAMPLE);
    NUMBER(BAD_OFFSET), NUMBER(BAD_LENGTH), NUMBER(BAD_HEADER), NUMBER(LOOP_OUTSIDE), NUMBER(BAD_LOOP);
    NUMBER(FILE_TOO_SHORT), NUMBER(BAD_FIELD), NUMBER(OTHER_HISTORY);
}

int main(void) {
    SIZE(history), FIELD(history, newest), FIELD(history, older);
    SIZE(calculator), FIELD(calculator, samples), FIELD(calculator, records), FIELD(calculator, history);
    SIZE(context), FIELD(context, predictor_and_scale), FIELD(context, last_samples);
    SIZE(loop), FIELD(loop, start), FIELD(loop, end), FIELD(loop, present);
    SIZE(encoder), FIELD(encoder, total), FIELD(encoder, rate), FIELD(encoder, block), FIELD(encoder, gain);
    FIELD(encoder, coefficients), FIELD(encoder, fed), FIELD(encoder, history), FIELD(encoder, frame);
    FIELD(encoder, passes), FIELD(encoder, closed), FIELD(encoder, loop), FIELD(encoder, loop_context);
    SIZE(head), FIELD(head, total), FIELD(head, rate), FIELD(head, block), FIELD(head, gain);
    FIELD(head, coefficients), FIELD(head, blocks);
    SIZE(processed), FIELD(processed, code), FIELD(processed, calculator);
    SIZE(finished), FIELD(finished, code), FIELD(finished, coefficients), FIELD(finished, calculator);
    SIZE(frame), FIELD(frame, code), FIELD(frame, bytes), FIELD(frame, passes), FIELD(frame, history);
    SIZE(encoding), FIELD(encoding, code), FIELD(encoding, encoder);
    SIZE(opening), FIELD(opening, code), FIELD(opening, entry), FIELD(opening, head), FIELD(opening, loop);
    FIELD(opening, loop_context);
    SIZE(body), FIELD(body, code), FIELD(body, entry), FIELD(body, offset), FIELD(body, bytes), FIELD(body, nibbles), FIELD(body, context);
    SIZE(playback), FIELD(playback, code), FIELD(playback, entry), FIELD(playback, samples), FIELD(playback, context);
    SIZE(part), FIELD(part, code), FIELD(part, entry), FIELD(part, samples), FIELD(part, blocks);
    SIZE(turns), FIELD(turns, code), FIELD(turns, entry), FIELD(turns, samples);
    SIZE(comparison), FIELD(comparison, code), FIELD(comparison, entry), FIELD(comparison, same);
    SIZE(written), FIELD(written, code), FIELD(written, entry), FIELD(written, bytes);
    SIZE(joining), FIELD(joining, code), FIELD(joining, nibbles);
    NUMBER(VERSION_MAJOR), NUMBER(VERSION_MINOR), NUMBER(VERSION_PATCH);
    NUMBER(MAX_PAIR_SUM), NUMBER(MAX_SAMPLES), NUMBER(MIN_BLOCK_SIZE), NUMBER(MAX_BLOCK_SIZE);
    codes();
    return 0;
}
