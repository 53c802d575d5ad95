/*
 * Doilycairn: DSP ADPCM clips, from samples to blocks and back.
 *
 * Link with libdoilycairn.a (x86-64 Linux), which needs only memcpy and memset of the C library. Works in C11 and C++17.
 *
 * Every call is a function of its arguments: no global state, no allocation, no I/O, no strings. One thing is taken as given: the
 * floating-point environment that a C program starts with, in which results are rounded to the nearest number. After
 * fesetround(FE_UPWARD), say, records and coefficients come out differently; put FE_TONEAREST back around doilycairn_process
 * and doilycairn_finish. The other calls use no floating point. Flushing subnormal numbers to zero does not matter for what
 * doilycairn_process has measured. Calls may run on any number of threads at once, as long as no buffer that one of them
 * writes is used by another.
 *
 * States go in and out by value. The one that a call was given stays valid: undo is keeping it, and going on with the same buffer.
 *
 * Every answer has a `code`: 0 accepted, or the number of the first test that failed (enum doilycairn_code). A refused call
 * writes to no buffer; the rest of its answer is as the call's comment says. Where an entry of an image's table is bad, `entry`
 * names its block (see "Reading an image"), and so it does where a block keeps an image from being exported (see ".dsp files").
 *
 * A state and its buffer belong together: the store for a doilycairn_calculator, the image for a doilycairn_encoder, each as the calls on
 * that state left it. No call can test that they do. With another store the coefficients are those of whatever numbers stand
 * there; each c0 is then within +-4,096 and each c1 within +-2,048, or is -32,768 where a NaN stood in the store, or an infinity or a
 * huge number that makes one. Starting takes such a -32,768, and refuses it by 7 only where both of a pair are: where others wrote
 * the store, look for it before starting. With another image the frames go to the places that the state's own total, block, loop and
 * fed tell, within the image size of that state, and neither head nor table is written again: the image may open and play
 * something else, or may not open.
 *
 * Code 1 finds a state whose numbers contradict each other, and no more. A state that was forged or altered and passes (another
 * history, another frame, another loop or context for it, fewer records or passes, more samples fed) is taken at its word. No call then
 * reads or writes outside its buffers, and each still answers as its definition says of that state; but what comes out is no clip's, and
 * closing may leave an image that opens. `closed` and the loop's `present` are 0 or 1; a state that was read from a file or a network
 * needs that tested before they are bools, since any other byte there is undefined behaviour in C and here.
 *
 * Buffers are lent for the length of the call. A length counts elements (samples, numbers or bytes). Pointers are not NULL, not even
 * where the length is 0 (as the data() of an empty std::vector may be), and are aligned for their type. A buffer that a call
 * writes overlaps no other argument; those that are only read may overlap each other. The library tests lengths and contents, but
 * cannot test pointers: with NULL, with overlapping buffers or with fewer elements than the length says, the behaviour is undefined.
 */
#ifndef DOILYCAIRN_H
#define DOILYCAIRN_H

#include <stddef.h>
#include <stdint.h>

#ifdef __cplusplus
#define DOILYCAIRN_CHECK(condition) static_assert(condition, #condition)
extern "C" {
#else
#include <stdbool.h>
#define DOILYCAIRN_CHECK(condition) _Static_assert(condition, #condition)
#endif

/* The version of this header and of its archive. Where the second number is another, programs have to be compiled anew. */
#define DOILYCAIRN_VERSION_MAJOR 0
#define DOILYCAIRN_VERSION_MINOR 2
#define DOILYCAIRN_VERSION_PATCH 0

/* Samples in a frame, and its bytes: a header byte, then two nibbles a byte. */
#define DOILYCAIRN_FRAME_SAMPLES 14
#define DOILYCAIRN_FRAME_BYTES 8
/* Coefficients: eight pairs, c0 at even places and c1 at odd ones. */
#define DOILYCAIRN_COEFFICIENTS 16
/* The largest |c0| + |c1| of a pair that encoding takes. */
#define DOILYCAIRN_MAX_PAIR_SUM 61440
/* The longest clip, in samples. */
#define DOILYCAIRN_MAX_SAMPLES 14680064
/* The limits of a block size, in bytes. */
#define DOILYCAIRN_MIN_BLOCK_SIZE 8
#define DOILYCAIRN_MAX_BLOCK_SIZE 65536

/* What `code` says. Tests run in the sequence that each call's comment gives. No call gives 16: 20, 21 and 22 stand in its place. */
enum doilycairn_code {
    DOILYCAIRN_ACCEPTED = 0,
    DOILYCAIRN_INVALID_STATE = 1,       /* a state whose numbers no run of calls gives; not every forged state is found, see above */
    DOILYCAIRN_TOO_MANY_SAMPLES = 2,    /* measuring: more than 14,680,064 samples in all */
    DOILYCAIRN_STORE_TOO_SHORT = 3,     /* measuring, coefficients: fewer numbers than doilycairn_store_size says */
    DOILYCAIRN_BAD_SAMPLE_COUNT = 4,    /* starting, importing: 0 samples, or above 14,680,064 */
    DOILYCAIRN_RATE_ZERO = 5,           /* starting, importing: rate 0 */
    DOILYCAIRN_BAD_BLOCK_SIZE = 6,      /* starting, importing: block size below 8 or above 65,536 */
    DOILYCAIRN_COEFFICIENT_OUTSIDE = 7, /* starting, one frame: |c0| + |c1| above 61,440 in a pair */
    DOILYCAIRN_IMAGE_TOO_SHORT = 8,     /* starting, feeding, closing, importing: fewer bytes than doilycairn_image_size or doilycairn_loop_image_size says */
    DOILYCAIRN_ALREADY_CLOSED = 9,      /* feeding, closing: the clip is closed */
    DOILYCAIRN_PIECE_TOO_LONG = 10,     /* feeding: more samples than the clip still lacks */
    DOILYCAIRN_UNFINISHED = 11,         /* closing: the clip still lacks samples */
    DOILYCAIRN_LENGTH_OUT_OF_RANGE = 12,/* playing bytes: 0 nibbles, or more than two for each byte */
    DOILYCAIRN_LOWEST_PAIR = 13,        /* playing, comparing, exporting, importing: a pair of coefficients is -32,768 twice */
    DOILYCAIRN_OUTPUT_TOO_SHORT = 14,   /* playing bytes, a block, all or the loop, joining, exporting: the output is too short */
    DOILYCAIRN_BAD_HEAD = 15,           /* an image: its first 56 bytes are not a clip's, or bytes are missing */
    DOILYCAIRN_NO_SUCH_BLOCK = 17,      /* an image: the block's number is not below the count of blocks */
    DOILYCAIRN_COEFFICIENTS_DIFFER = 18,/* joining: the two blocks have different coefficients */
    DOILYCAIRN_NO_SUCH_SAMPLE = 19,     /* an image: the number of the first sample to play is not below the count of samples */
    DOILYCAIRN_BAD_OFFSET = 20,         /* an image: an entry's offset is not where its block's body begins */
    DOILYCAIRN_BAD_LENGTH = 21,         /* an image: an entry's length is not its block's, or its two zero bytes are not zero */
    DOILYCAIRN_BAD_HEADER = 22,         /* an image: an entry's predictor-and-scale is not the first byte of its block's body */
    DOILYCAIRN_LOOP_OUTSIDE = 23,       /* starting with a loop: its start is not below its end, or its end is above the sample count */
    DOILYCAIRN_BAD_LOOP = 24,           /* an image: its loop's start and end break that rule, or its header byte or zero bytes are not as they should be */
    DOILYCAIRN_FILE_TOO_SHORT = 25,     /* importing: fewer than 96 bytes, or fewer bytes after these than the file's sample count needs */
    DOILYCAIRN_BAD_FIELD = 26,          /* importing: a field of the file's header is not as it should be */
    DOILYCAIRN_OTHER_HISTORY = 35       /* exporting: a later block's history is not what the block before it leaves */
};

/* ---- States and values ---- */

/* The two samples before a frame. */
typedef struct {
    int16_t newest;
    int16_t older;
} doilycairn_history;

/* The measuring state. The records lie in the store that the caller lends to each call. */
typedef struct {
    uint32_t samples;    /* measured so far */
    uint32_t records;    /* in the store: record i is the numbers 2i and 2i + 1 */
    int16_t history[28]; /* the frame before, and the frame that is not yet full */
} doilycairn_calculator;

/* What playing carries from frame to frame. */
typedef struct {
    uint16_t predictor_and_scale; /* a frame's header: the pair's index x 16 + the scale's exponent */
    int16_t last_samples[2];      /* the newest sample, and the one before it */
} doilycairn_context;

/* A loop: from sample `start` up to, not including, sample `end`. All zeros: no loop. */
typedef struct {
    uint32_t start;
    uint32_t end; /* the sample after the last */
    bool present; /* 0 or 1, no other byte; 0: no loop, and start and end are not looked at */
} doilycairn_loop;

/* The encoding state. The image lies in the buffer that the caller lends to each call. */
typedef struct {
    uint32_t total; /* samples of the whole clip */
    uint32_t rate;
    uint32_t block; /* bytes of a block: the block size cut down to a multiple of 8 */
    uint16_t gain;
    int16_t coefficients[16];
    uint32_t fed; /* samples so far */
    doilycairn_history history;
    int16_t frame[14]; /* the frame that is not yet full */
    uint32_t passes;   /* of the scale search, over all frames so far */
    bool closed;       /* 0 or 1, no other byte */
    doilycairn_loop loop;
    doilycairn_context loop_context; /* what the loop is played from; zeros until the frame that holds its start is encoded */
} doilycairn_encoder;

/* What the head of an image says. */
typedef struct {
    uint32_t total;
    uint32_t rate;
    uint32_t block;
    uint16_t gain;
    int16_t coefficients[16];
    uint32_t blocks; /* count of blocks */
} doilycairn_head;

/* ---- Answers ---- */

typedef struct {
    uint32_t code;
    doilycairn_calculator calculator; /* refused: the one given */
} doilycairn_processed;

typedef struct {
    uint32_t code;
    int16_t coefficients[16];         /* refused: zeros */
    doilycairn_calculator calculator; /* the one given */
} doilycairn_finished;

typedef struct {
    uint32_t code;
    uint8_t bytes[8];           /* refused: zeros */
    uint32_t passes;            /* refused: 0 */
    doilycairn_history history; /* after the frame; refused: the one given */
} doilycairn_frame;

typedef struct {
    uint32_t code;
    doilycairn_encoder encoder; /* refused: the one given; a refused start: zeros, which every call refuses by 1 */
} doilycairn_encoding;

typedef struct {
    uint32_t code;
    uint32_t entry;       /* with 20, 21, 22: the number of the block whose entry is bad; else 0 */
    doilycairn_head head; /* refused: zeros */
    doilycairn_loop loop; /* refused, or without a loop: zeros */
    doilycairn_context loop_context; /* what the loop is played from; refused, or without a loop: zeros */
} doilycairn_opening;

typedef struct {
    uint32_t code;
    uint32_t entry;   /* with 20, 21, 22: the number of the block whose entry is bad; else 0 */
    uint32_t offset;  /* of the body's first byte in the image; refused: 0 */
    uint32_t bytes;   /* of the body; refused: 0 */
    uint32_t nibbles; /* the block's length; refused: 0 */
    doilycairn_context context; /* what the block is played from; refused: zeros */
} doilycairn_body;

typedef struct {
    uint32_t code;
    uint32_t entry;             /* with 20, 21, 22: the number of the block whose entry is bad; else 0 */
    uint64_t samples;           /* written to the output; refused: 0 */
    doilycairn_context context; /* after the last sample; refused: see the call */
} doilycairn_playback;

typedef struct {
    uint32_t code;
    uint32_t entry;   /* with 20, 21, 22: the number of the block whose entry is bad; else 0 */
    uint64_t samples; /* written to the output; refused: 0 */
    uint32_t blocks;  /* that have one of these samples or more; refused: 0 */
} doilycairn_part;

typedef struct {
    uint32_t code;
    uint32_t entry;   /* with 20, 21, 22: the number of the block whose entry is bad; else 0 */
    uint64_t samples; /* written to the output, of all turns together; refused: 0 */
} doilycairn_turns;

typedef struct {
    uint32_t code;
    uint32_t entry; /* with 20, 21, 22: the number of the block whose entry is bad; else 0 */
    bool same;      /* refused: false */
} doilycairn_comparison;

typedef struct {
    uint32_t code;
    uint32_t entry; /* with 20, 21, 22: the number of the block whose entry is bad; with 35: of the block whose history is another; else 0 */
    uint64_t bytes; /* of the file or the image, written or asked for; refused: 0 */
} doilycairn_written;

typedef struct {
    uint32_t code;
    uint64_t nibbles; /* the sum of the two lengths; refused: 0 */
} doilycairn_joining;

/* ---- Sizes ---- */

/* Numbers that the store needs for measuring `samples` samples: two for each frame of 14, the last one counted whole. */
uint64_t doilycairn_store_size(uint32_t samples);

/* Bytes of the image of a clip of `total` samples without a loop; 0 where starting would refuse by 4 or 6. */
uint64_t doilycairn_image_size(uint32_t total, uint32_t block_size);

/* The same for a clip with a loop: 16 more; 0 where starting would refuse by 4 or 6. */
uint64_t doilycairn_loop_image_size(uint32_t total, uint32_t block_size);

/* Bytes of the .dsp file of a clip of `total` samples, with a loop or without: 96, and those of all bodies; 0 where starting would refuse by 4. */
uint64_t doilycairn_dsp_size(uint32_t total);

/* ---- Measuring: from samples to sixteen coefficients ---- */

/* A fresh measuring state: all zeros. */
doilycairn_calculator doilycairn_new(void);

/*
 * Measures a piece, of any length: the next samples of the clip. Writes a record for each frame that the piece fills and that has one. A frame
 * has none where the sum of its squares is 10 or less, where its samples and the two before it do not tell the two taps of a predictor apart (one
 * steady level, say), and where the predictor that fits best is unstable.
 * `records`: the store, the same for all calls of a run, with at least doilycairn_store_size(samples so far, the piece counted) numbers.
 * Refused by 1, 2, 3.
 */
doilycairn_processed doilycairn_process(doilycairn_calculator calculator, const int16_t *samples, size_t samples_len,
                                        double *records, size_t records_len);

/*
 * Works out the coefficients of all that was measured. Fills a frame that is not full with zeros and writes its record after the others; the
 * state is not altered, so that measuring can go on.
 * `records`: the store of the run. Refused by 1, 3.
 */
doilycairn_finished doilycairn_finish(doilycairn_calculator calculator, double *records, size_t records_len);

/* ---- Encoding: from samples to an image ---- */

/* Encodes one frame after `history`. Refused by 7. */
doilycairn_frame doilycairn_encode_frame(doilycairn_history history, const int16_t samples[14], const int16_t coefficients[16]);

/*
 * Starts a clip of `total` samples without a loop: writes the doilycairn_image_size(total, block_size) bytes of its image, with zeros for the mark,
 * contexts and bodies.
 * `coefficients`: as measured, or brought from elsewhere, such as an older bank.
 * `image`: at least that many bytes, the same buffer for all calls of a run; bytes after them are never touched.
 * Refused by 4, 5, 6, 7, 8.
 */
doilycairn_encoding doilycairn_start(uint32_t total, uint32_t rate, uint32_t block_size, uint16_t gain, const int16_t coefficients[16],
                                     doilycairn_history history, uint8_t *image, size_t image_len);

/*
 * Starts a clip with a loop, from sample `loop_start` up to, not including, sample `loop_end`; all else is as in doilycairn_start. The image has
 * doilycairn_loop_image_size(total, block_size) bytes: its head says that there is a loop, and after the entries of the blocks stands one for the
 * loop, which is zeros until closing. Frames, contexts of blocks and passes are those of the clip without a loop.
 * Refused by 4, 5, 6, 7, 23, 8; by 23 with a loop of no samples, 0 and 0 too: without a loop a clip is started by doilycairn_start.
 */
doilycairn_encoding doilycairn_start_loop(uint32_t total, uint32_t rate, uint32_t block_size, uint16_t gain, const int16_t coefficients[16],
                                          doilycairn_history history, uint32_t loop_start, uint32_t loop_end, uint8_t *image,
                                          size_t image_len);

/*
 * Feeds a piece, of any length: the next samples of the clip. Each frame that it fills is encoded to its place, and a block's first frame fills
 * its entry's context; no other byte is written. The frame that holds the loop's start fills the state's `loop_context`.
 * Refused by 1, 8, 9, 10.
 */
doilycairn_encoding doilycairn_feed(doilycairn_encoder encoder, const int16_t *piece, size_t piece_len, uint8_t *image, size_t image_len);

/*
 * Closes the clip, once all its samples are fed: encodes a short last frame, and writes the entry of its loop, if it has one, and the mark. Then the
 * image opens.
 * Refused by 1, 8, 9, 11.
 */
doilycairn_encoding doilycairn_close(doilycairn_encoder encoder, uint8_t *image, size_t image_len);

/* ---- Reading an image ---- */

/*
 * Each call of this part tests the whole head and table of the image that it is given, so its time grows with the count of blocks: a call of
 * doilycairn_play, doilycairn_play_from or doilycairn_block_body for each of K blocks looks at K x K entries. To play a whole clip, call
 * doilycairn_play_all once; to play a part of it, doilycairn_play_from once.
 *
 * 20, 21 and 22 speak of one entry of the table, and `entry` is the number of its block. After the head (15) the entries are tested in rising
 * order, block 0's first, each by 20, 21 and 22 in that sequence; the first bad one is named, and nothing is said of those after it. With 22 it
 * may be the first byte of the body that is damaged, and not the entry.
 *
 * 24 speaks of the loop's entry, which is tested after those of all blocks: for its start and end, then for its header, which is the first byte of the
 * frame that holds the start (and it may be that byte that is damaged), and its two zero bytes. The two samples in it may be any. Beside 24, as beside
 * every other code but 20, 21 and 22 (and 35, see ".dsp files"), `entry` is 0 and names no block.
 */

/*
 * Opens an image: tests its head and table, and gives what the head says, and the loop if there is one. Bytes after the image are allowed.
 * Refused by 15, 20, 21, 22, 24.
 */
doilycairn_opening doilycairn_open(const uint8_t *image, size_t image_len);

/*
 * Where the body of block `k` stands in the image, at image + offset, and what it is played from: doilycairn_play_bytes plays it with its bytes, its
 * nibbles, its context and the head's coefficients, and tests no table. Refused by 15, 20, 21, 22, 24, 17.
 */
doilycairn_body doilycairn_block_body(const uint8_t *image, size_t image_len, uint32_t k);

/*
 * Plays block `k` from its own context. `out`: at least doilycairn_address_to_sample(nibbles) samples, for the block's nibbles; a block
 * has at most block / 8 * 14 samples. Refused by 15, 20, 21, 22, 24, 17, 13, 14; the context is then zeros.
 */
doilycairn_playback doilycairn_play(const uint8_t *image, size_t image_len, uint32_t k, int16_t *out, size_t out_len);

/*
 * Plays the whole clip: blocks 0 to K - 1, each from its own context, one after the other. The head and the table are tested once.
 * `out`: at least as many samples as the clip has (`total` of its head); later ones are kept. The context is the one after the last sample.
 * Refused by 15, 20, 21, 22, 24, 13, 14; the context is then zeros.
 */
doilycairn_playback doilycairn_play_all(const uint8_t *image, size_t image_len, int16_t *out, size_t out_len);

/*
 * Plays a part of the clip: from sample `first` on, counted from 0, as many samples as `out` has room for, across blocks, or up to the clip's last
 * one. They are what doilycairn_play_all plays there: each block is played from its own context.
 * `out`: any length, 0 too (and not NULL even then); from out[samples] on it is kept. `blocks` is how many blocks the part overlaps: none
 * where out_len is 0, else (first + samples - 1) / p - first / p + 1 with p = block / 8 * 14, the samples of a whole block.
 * To go on, call again with first + samples, as long as that is below the clip's `total`: a part cut in two is its parts in turn.
 * The head, every entry of the table and the first byte of every body are tested each time, so the time grows with K too. Of the blocks before
 * the first sample's own nothing else is read; of its own block, what comes before the sample is played and dropped.
 * Refused by 15, 20, 21, 22, 24, 13, 19, with an empty output too; `samples` and `blocks` are then 0.
 */
doilycairn_part doilycairn_play_from(const uint8_t *image, size_t image_len, uint32_t first, int16_t *out, size_t out_len);

/*
 * Plays the loop `times` times over, one turn after the other. Each turn begins from the context stored for the loop, and each later block from its
 * own. Of an image made by starting, feeding and closing these are the samples that doilycairn_play_all plays from the loop's start to its end, over and
 * over; into smaller outputs doilycairn_play_from plays the same ones there.
 * `out`: at least times x (end - start) samples, counted in 64 bits; later ones are kept. An image without a loop, or `times` 0, gives none and is
 * not refused for that. Refused by 15, 20, 21, 22, 24, 13, 14; `samples` is then 0.
 */
doilycairn_turns doilycairn_play_loop(const uint8_t *image, size_t image_len, uint32_t times, int16_t *out, size_t out_len);

/*
 * Whether two images are the same: they have equally many samples and play the same ones, and rate, gain, block size, all sixteen coefficients (those
 * that no frame uses too), the context of every block and the loop agree. Contexts agree where their headers do, the top bit apart, and both samples.
 * Loops agree where neither image has one, or both have one with the same start, the same end and contexts that agree.
 * Not counted are the top bit of a header, which playing does not use (in a frame, in a block's entry, in the loop's entry), the low nibble of the last
 * byte where the last frame has an odd count of samples, and bytes after the image. The header of a frame that does not begin a block counts by the
 * samples that it gives alone, unless the loop starts in that frame: the loop's context repeats it. Which image is the first matters for refusals only.
 * Refused by 15, 20, 21, 22, 24, 13 of the first, then of the second. `entry` is of the first image if that one is refused, else of the second: with
 * 20, 21, 22 it is of the first unless that one opens, as one doilycairn_open tells.
 */
doilycairn_comparison doilycairn_same(const uint8_t *first, size_t first_len, const uint8_t *second, size_t second_len);

/*
 * Whether two images sound the same: they have equally many samples and play the same ones. Nothing else counts: not rate, gain, block size,
 * coefficients, contexts and the loop, nor the bytes. Images that doilycairn_same calls the same sound the same.
 * Refused as doilycairn_same is, with the same `entry`.
 */
doilycairn_comparison doilycairn_sounds_same(const uint8_t *first, size_t first_len, const uint8_t *second, size_t second_len);

/* ---- .dsp files ---- */

/*
 * A .dsp file is what studios exchange: a header of 96 bytes, big-endian, and the bodies of all blocks, back to back. It has no mark and no table, so
 * it does not hold how a clip is cut into blocks, and no block's history but the first one's.
 *
 *     at  bytes  holds                                              at  bytes  holds
 *      0      4  sample count                                       28     32  coefficients
 *      4      4  nibble count: the sum of the blocks' lengths       60      2  gain
 *      8      4  rate                                               62      2  header of the first frame
 *     12      2  1 with a loop, else 0                              64      4  newest and older sample before the clip
 *     14      2  zero                                               68      2  header of the frame that holds the loop's start
 *     16      4  nibble address of the loop's first sample          70      4  newest and older sample before the loop
 *     20      4  nibble address of the loop's last sample           74     22  zeros
 *     24      4  the number 2, the first sample's nibble address    96         the bodies
 *
 * Without a loop 16 to 23 and 68 to 73 are zeros. An image that export accepts comes back byte for byte from import at its own block size (`block` of
 * its head), without bytes after it. A file that import accepts comes back from export, whatever the block size was, without bytes after its bodies.
 */

/*
 * Exports an image: writes its clip as a .dsp file, doilycairn_dsp_size(total) bytes for `total` of its head; later bytes of `out` are kept.
 * Every image that was made by starting, feeding and closing can be exported. One that was made by hand or joined from others may have a block that
 * does not begin from what the block before it leaves, played from its own context: that is 35, and `entry` names the first such block, 1 at least.
 * The loop's history is written as it is stored.
 * Refused by 15, 20, 21, 22, 24, 13, 35, 14.
 */
doilycairn_written doilycairn_export_dsp(const uint8_t *image, size_t image_len, uint8_t *out, size_t out_len);

/*
 * Imports a .dsp file: writes its clip as a closed image in blocks of `block_size` bytes, cut down to a multiple of 8, as many bytes as
 * doilycairn_dsp_image_size says; later bytes of `image` are kept. It plays what the file's bodies play as one block. What each block begins from is
 * worked out by playing those before it; the loop's is copied. Bytes of the file after its last body are dropped.
 * Refused by 25, 4, 5, 6, 26, 13, 8. 26 is for any field that is not as listed above: the nibble count, the flag, the zeros, the number 2, a header
 * that is not its frame's first byte, addresses that are not of the clip's samples or the last below the first, and loop fields without a loop. Rate
 * (but 0), gain, coefficients (but 13) and histories may be any. `entry` is always 0.
 */
doilycairn_written doilycairn_import_dsp(const uint8_t *file, size_t file_len, uint32_t block_size, uint8_t *image, size_t image_len);

/* The bytes of the image that doilycairn_import_dsp would write. Refused by 25, 4, 5, 6, 26, 13, as that is. `entry` is always 0. */
doilycairn_written doilycairn_dsp_image_size(const uint8_t *file, size_t file_len, uint32_t block_size);

/* ---- Blocks without an image ---- */

/*
 * Plays the first `nibbles` nibbles of a block's bytes, headers counted. `out`: at least doilycairn_address_to_sample(nibbles) samples.
 * Refused by 12, 13, 14; the context is then the one given. There is no table: `entry` is always 0.
 */
doilycairn_playback doilycairn_play_bytes(const uint8_t *bytes, size_t bytes_len, uint32_t nibbles, const int16_t coefficients[16],
                                          doilycairn_context context, int16_t *out, size_t out_len);

/* Writes the first block's bytes and then the second's. `out`: at least first_len + second_len bytes. Refused by 14, 18. */
doilycairn_joining doilycairn_join(const uint8_t *first, size_t first_len, uint32_t first_nibbles, const int16_t first_coefficients[16],
                                   const uint8_t *second, size_t second_len, uint32_t second_nibbles,
                                   const int16_t second_coefficients[16], uint8_t *out, size_t out_len);

/* The count of samples before a nibble address. */
uint64_t doilycairn_address_to_sample(uint32_t address);

/* The nibble address of a sample. */
uint64_t doilycairn_sample_to_address(uint32_t sample);

/* ---- Layouts that the archive was built with ---- */

DOILYCAIRN_CHECK(sizeof(size_t) == 8 && sizeof(void *) == 8);
DOILYCAIRN_CHECK(sizeof(bool) == 1);
DOILYCAIRN_CHECK(sizeof(double) == 8);

DOILYCAIRN_CHECK(sizeof(doilycairn_history) == 4);
DOILYCAIRN_CHECK(offsetof(doilycairn_history, older) == 2);

DOILYCAIRN_CHECK(sizeof(doilycairn_calculator) == 64);
DOILYCAIRN_CHECK(offsetof(doilycairn_calculator, records) == 4);
DOILYCAIRN_CHECK(offsetof(doilycairn_calculator, history) == 8);

DOILYCAIRN_CHECK(sizeof(doilycairn_context) == 6);
DOILYCAIRN_CHECK(offsetof(doilycairn_context, last_samples) == 2);

DOILYCAIRN_CHECK(sizeof(doilycairn_loop) == 12);
DOILYCAIRN_CHECK(offsetof(doilycairn_loop, end) == 4);
DOILYCAIRN_CHECK(offsetof(doilycairn_loop, present) == 8);

DOILYCAIRN_CHECK(sizeof(doilycairn_encoder) == 112);
DOILYCAIRN_CHECK(offsetof(doilycairn_encoder, rate) == 4);
DOILYCAIRN_CHECK(offsetof(doilycairn_encoder, block) == 8);
DOILYCAIRN_CHECK(offsetof(doilycairn_encoder, gain) == 12);
DOILYCAIRN_CHECK(offsetof(doilycairn_encoder, coefficients) == 14);
DOILYCAIRN_CHECK(offsetof(doilycairn_encoder, fed) == 48);
DOILYCAIRN_CHECK(offsetof(doilycairn_encoder, history) == 52);
DOILYCAIRN_CHECK(offsetof(doilycairn_encoder, frame) == 56);
DOILYCAIRN_CHECK(offsetof(doilycairn_encoder, passes) == 84);
DOILYCAIRN_CHECK(offsetof(doilycairn_encoder, closed) == 88);
DOILYCAIRN_CHECK(offsetof(doilycairn_encoder, loop) == 92);
DOILYCAIRN_CHECK(offsetof(doilycairn_encoder, loop_context) == 104);

DOILYCAIRN_CHECK(sizeof(doilycairn_head) == 52);
DOILYCAIRN_CHECK(offsetof(doilycairn_head, rate) == 4);
DOILYCAIRN_CHECK(offsetof(doilycairn_head, block) == 8);
DOILYCAIRN_CHECK(offsetof(doilycairn_head, gain) == 12);
DOILYCAIRN_CHECK(offsetof(doilycairn_head, coefficients) == 14);
DOILYCAIRN_CHECK(offsetof(doilycairn_head, blocks) == 48);

DOILYCAIRN_CHECK(sizeof(doilycairn_processed) == 68);
DOILYCAIRN_CHECK(offsetof(doilycairn_processed, calculator) == 4);

DOILYCAIRN_CHECK(sizeof(doilycairn_finished) == 100);
DOILYCAIRN_CHECK(offsetof(doilycairn_finished, coefficients) == 4);
DOILYCAIRN_CHECK(offsetof(doilycairn_finished, calculator) == 36);

DOILYCAIRN_CHECK(sizeof(doilycairn_frame) == 20);
DOILYCAIRN_CHECK(offsetof(doilycairn_frame, bytes) == 4);
DOILYCAIRN_CHECK(offsetof(doilycairn_frame, passes) == 12);
DOILYCAIRN_CHECK(offsetof(doilycairn_frame, history) == 16);

DOILYCAIRN_CHECK(sizeof(doilycairn_encoding) == 116);
DOILYCAIRN_CHECK(offsetof(doilycairn_encoding, encoder) == 4);

DOILYCAIRN_CHECK(sizeof(doilycairn_opening) == 80);
DOILYCAIRN_CHECK(offsetof(doilycairn_opening, entry) == 4);
DOILYCAIRN_CHECK(offsetof(doilycairn_opening, head) == 8);
DOILYCAIRN_CHECK(offsetof(doilycairn_opening, loop) == 60);
DOILYCAIRN_CHECK(offsetof(doilycairn_opening, loop_context) == 72);

DOILYCAIRN_CHECK(sizeof(doilycairn_body) == 28);
DOILYCAIRN_CHECK(offsetof(doilycairn_body, entry) == 4);
DOILYCAIRN_CHECK(offsetof(doilycairn_body, offset) == 8);
DOILYCAIRN_CHECK(offsetof(doilycairn_body, bytes) == 12);
DOILYCAIRN_CHECK(offsetof(doilycairn_body, nibbles) == 16);
DOILYCAIRN_CHECK(offsetof(doilycairn_body, context) == 20);

DOILYCAIRN_CHECK(sizeof(doilycairn_playback) == 24);
DOILYCAIRN_CHECK(offsetof(doilycairn_playback, entry) == 4);
DOILYCAIRN_CHECK(offsetof(doilycairn_playback, samples) == 8);
DOILYCAIRN_CHECK(offsetof(doilycairn_playback, context) == 16);

DOILYCAIRN_CHECK(sizeof(doilycairn_part) == 24);
DOILYCAIRN_CHECK(offsetof(doilycairn_part, entry) == 4);
DOILYCAIRN_CHECK(offsetof(doilycairn_part, samples) == 8);
DOILYCAIRN_CHECK(offsetof(doilycairn_part, blocks) == 16);

DOILYCAIRN_CHECK(sizeof(doilycairn_turns) == 16);
DOILYCAIRN_CHECK(offsetof(doilycairn_turns, entry) == 4);
DOILYCAIRN_CHECK(offsetof(doilycairn_turns, samples) == 8);

DOILYCAIRN_CHECK(sizeof(doilycairn_comparison) == 12);
DOILYCAIRN_CHECK(offsetof(doilycairn_comparison, entry) == 4);
DOILYCAIRN_CHECK(offsetof(doilycairn_comparison, same) == 8);

DOILYCAIRN_CHECK(sizeof(doilycairn_written) == 16);
DOILYCAIRN_CHECK(offsetof(doilycairn_written, entry) == 4);
DOILYCAIRN_CHECK(offsetof(doilycairn_written, bytes) == 8);

DOILYCAIRN_CHECK(sizeof(doilycairn_joining) == 16);
DOILYCAIRN_CHECK(offsetof(doilycairn_joining, nibbles) == 8);

#undef DOILYCAIRN_CHECK

#ifdef __cplusplus
}
#endif

#endif
