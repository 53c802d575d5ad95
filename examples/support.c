#include "support.h"
#include "doilycairn.h"
#include <stdlib.h>

/* What a code says, in words. */
static const char *message_of(uint32_t code) {
    switch (code) {
    case DOILYCAIRN_ACCEPTED: return "accepted";
    case DOILYCAIRN_INVALID_STATE: return "the state is not one that a run of calls gives";
    case DOILYCAIRN_TOO_MANY_SAMPLES: return "more than 14,680,064 samples to measure";
    case DOILYCAIRN_STORE_TOO_SHORT: return "the store for records is too short";
    case DOILYCAIRN_BAD_SAMPLE_COUNT: return "a clip has 1 to 14,680,064 samples";
    case DOILYCAIRN_RATE_ZERO: return "the sample rate is 0";
    case DOILYCAIRN_BAD_BLOCK_SIZE: return "a block has 8 to 65,536 bytes";
    case DOILYCAIRN_COEFFICIENT_OUTSIDE: return "a pair of coefficients has |c0| + |c1| above 61,440";
    case DOILYCAIRN_IMAGE_TOO_SHORT: return "the image buffer is too short";
    case DOILYCAIRN_ALREADY_CLOSED: return "the clip is closed already";
    case DOILYCAIRN_PIECE_TOO_LONG: return "the piece has more samples than the clip lacks";
    case DOILYCAIRN_UNFINISHED: return "the clip still lacks samples";
    case DOILYCAIRN_LENGTH_OUT_OF_RANGE: return "the length is 0, or more than the bytes hold";
    case DOILYCAIRN_LOWEST_PAIR: return "a pair of coefficients is -32,768 twice";
    case DOILYCAIRN_OUTPUT_TOO_SHORT: return "the output is too short";
    case DOILYCAIRN_BAD_HEAD: return "not an image: its head is not a clip's, or bytes are missing";
    case DOILYCAIRN_NO_SUCH_BLOCK: return "the image has no block of that number";
    case DOILYCAIRN_COEFFICIENTS_DIFFER: return "the two blocks have different coefficients";
    case DOILYCAIRN_NO_SUCH_SAMPLE: return "the first sample is not in the clip";
    case DOILYCAIRN_BAD_OFFSET: return "the entry's offset is not where the block's body begins";
    case DOILYCAIRN_BAD_LENGTH: return "the entry's length or its zero bytes are wrong";
    case DOILYCAIRN_BAD_HEADER: return "the entry's predictor-and-scale is not the body's first byte";
    case DOILYCAIRN_LOOP_OUTSIDE: return "the loop's start is not below its end, or its end is above the sample count";
    case DOILYCAIRN_BAD_LOOP: return "the loop's entry is wrong: its start or end, its header or its zero bytes";
    case DOILYCAIRN_FILE_TOO_SHORT: return "the .dsp file lacks bytes of its header or of its samples";
    case DOILYCAIRN_BAD_FIELD: return "a field of the .dsp file's header is not as it should be";
    case DOILYCAIRN_OTHER_HISTORY: return "it does not begin from what the block before it leaves, which a .dsp file cannot hold";
    default: return "a code that this program does not know";
    }
}

/* Whether a code speaks of one block of an image. */
static int names_block(uint32_t code) {
    return code == DOILYCAIRN_BAD_OFFSET || code == DOILYCAIRN_BAD_LENGTH || code == DOILYCAIRN_BAD_HEADER || code == DOILYCAIRN_OTHER_HISTORY;
}

void write_message(FILE *out, uint32_t code, uint32_t entry) {
    if (names_block(code)) fprintf(out, "block %u: ", (unsigned)entry);
    fputs(message_of(code), out);
}

void check_reading(const char *call, uint32_t code, uint32_t entry) {
    if (code == DOILYCAIRN_ACCEPTED) return;
    fprintf(stderr, "%s: ", call);
    write_message(stderr, code, entry);
    fprintf(stderr, " (refusal %u)\n", (unsigned)code);
    exit(2);
}

void check(const char *call, uint32_t code) {
    check_reading(call, code, 0);
}

void fail(const char *path) {
    perror(path);
    exit(2);
}

void *allocate(size_t count, size_t size) {
    void *memory = calloc(count > 0 ? count : 1, size);
    if (memory == NULL) fail("memory");
    return memory;
}

/* The length of an open file, with the place back at its start. */
static size_t length_of(FILE *file, const char *path) {
    if (fseek(file, 0, SEEK_END) != 0) fail(path);
    long len = ftell(file);
    if (len < 0 || fseek(file, 0, SEEK_SET) != 0) fail(path);
    return (size_t)len;
}

uint8_t *read_file(const char *path, size_t *len) {
    FILE *file = fopen(path, "rb");
    if (file == NULL) fail(path);
    *len = length_of(file, path);
    uint8_t *bytes = allocate(*len, 1);
    if (fread(bytes, 1, *len, file) != *len) fail(path);
    fclose(file);
    return bytes;
}

void write_file(const char *path, const void *bytes, size_t len) {
    FILE *file = fopen(path, "wb");
    if (file == NULL) fail(path);
    if (fwrite(bytes, 1, len, file) != len || fclose(file) != 0) fail(path);
}
