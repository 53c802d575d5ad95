/* undo: a take that is taken back and done better. The older state goes on with the later buffer: nothing is copied, and what came before is not encoded again. */
#include "doilycairn.h"
#include "support.h"
#include <stdio.h>
#include <string.h>

enum { FIRST = 1000, SECOND = 500, BLOCK_SIZE = 64, ROOM = 4096 };

static int16_t first[FIRST], second[SECOND], better[SECOND];
static const int16_t coefficients[16] = {2048};
static const doilycairn_history silence = {0, 0};

/* Feeds a take to a state and gives the state after it. */
static doilycairn_encoder feed(doilycairn_encoder state, const int16_t *take, size_t count, uint8_t *image) {
    doilycairn_encoding fed = doilycairn_feed(state, take, count, image, ROOM);
    check("feed", fed.code);
    return fed.encoder;
}

/* Starts the clip and feeds its first part. */
static doilycairn_encoder begin(uint8_t *image) {
    doilycairn_encoding started = doilycairn_start(FIRST + SECOND, 32000, BLOCK_SIZE, 0, coefficients, silence, image, ROOM);
    check("start", started.code);
    return feed(started.encoder, first, FIRST, image);
}

int main(void) {
    static uint8_t image[ROOM], straight[ROOM];
    for (int i = 0; i < FIRST; i++) first[i] = (int16_t)(i * 7 % 900);
    for (int i = 0; i < SECOND; i++) second[i] = (int16_t)(-i * 31 % 5000), better[i] = (int16_t)(i * 3 % 700);

    doilycairn_encoder kept = begin(image); /* to undo is to keep this: 112 bytes */
    doilycairn_encoder later = feed(kept, second, SECOND, image);
    check("close", doilycairn_close(later, image, ROOM).code);

    /* The second part is taken back. */
    later = feed(kept, better, SECOND, image);
    check("close", doilycairn_close(later, image, ROOM).code);

    /* Never taken back: the same image, byte for byte. */
    later = feed(begin(straight), better, SECOND, straight);
    check("close", doilycairn_close(later, straight, ROOM).code);
    int same = memcmp(image, straight, ROOM) == 0;
    puts(same ? "undone: the image is that of the better take alone" : "undone, but the image differs");
    return same ? 0 : 1;
}
