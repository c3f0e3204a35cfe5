/* Channel Bench for C: the functions of libcapi.a. `rt lib` in crates/capi_c proves it and writes it, as
 * crates/capi_c/out/libcapi_c.a.
 *
 * Every function but channel_bench_edition answers a number: 0 if the call was accepted, else the number that refuses it.
 * What it answers beside the number it stores through its last pointers, in a refusal too (0, or for a run the steps done
 * before it). A refused call writes nothing else, but for channel_bench_fresh, whose answer then is a state of zeros.
 *
 * Nothing is asked of the bytes or of any length: whatever they are, there is an answer. Of the pointers it is asked that
 *   - each is valid for the length that follows it, or for one value. With length 0 nothing is read or written there, and
 *     the pointer may be null; no other may be null.
 *   - each stands as its type wants it: one to bytes, letters or a bool anywhere, one to int32_t, uint32_t, uint64_t or
 *     size_t at a multiple of that type's alignment.
 *   - nothing that a function may write overlaps anything else that it is given.
 *
 * No function keeps a pointer or anything else from call to call, allocates, waits or fails otherwise: there are no
 * variables but those on the stack. So calls may be made from any thread, and at the same time on several, as long as
 * nothing that one of them may write is given to another meanwhile. What all only read, such as an image, may be given to
 * all. How much stack a call needs stands below.
 *
 * What each answers is its contract in crates/capi_c/src/lib.rt, an equation with the definitions in the crates' specs/.
 */
#ifndef CHANNEL_BENCH_H
#define CHANNEL_BENCH_H

#include <stdbool.h>
#include <stddef.h>
#include <stdint.h>

#ifdef __cplusplus
extern "C" {
#endif

/* The edition of this header, which channel_bench_edition answers for the library. It rises with each change after which a
 * program built with the header of before, or a state that it has kept, is of no use any more. So a program compares it with
 * the library's, and one that keeps states in a file keeps the edition beside them. */
#define CHANNEL_BENCH_EDITION 1

/* The most that an image may have: nodes, channels, stations on a channel and in all, places of a queue, and bytes. A row has
 * at most as many stations as a channel. */
#define CHANNEL_BENCH_NODES 64
#define CHANNEL_BENCH_CHANNELS 96
#define CHANNEL_BENCH_STATIONS 8
#define CHANNEL_BENCH_ALL_STATIONS 256
#define CHANNEL_BENCH_QUEUE 8
#define CHANNEL_BENCH_IMAGE_BYTES 802

/* The most cycles that a state counts, and the last cycle of the strict system. */
#define CHANNEL_BENCH_CYCLES 1000000

/* The kinds of nodes, as an image has them. */
enum channel_bench_kind {
    CHANNEL_BENCH_KIND_COUNT = 1,
    CHANNEL_BENCH_KIND_HOLD = 2,
    CHANNEL_BENCH_KIND_TOTAL = 3,
    CHANNEL_BENCH_KIND_NEGATE = 4,
    CHANNEL_BENCH_KIND_HALVE = 5,
    CHANNEL_BENCH_KIND_SUM = 6,
    CHANNEL_BENCH_KIND_DIFFERENCE = 7,
    CHANNEL_BENCH_KIND_LARGER = 8,
    CHANNEL_BENCH_KIND_CHOOSE = 9
};

/* The numbers that calls answer. N is an image's first byte, how many nodes it has, and C its second, how many channels. */
enum channel_bench_number {
    CHANNEL_BENCH_ACCEPTED = 0,
    CHANNEL_BENCH_REFUSED_SHORT = 1,     /* image under 2 bytes */
    CHANNEL_BENCH_REFUSED_SIZES = 2,     /* N is 0 or over 64, or C over 96 */
    CHANNEL_BENCH_REFUSED_LENGTH = 3,    /* length not 2 + 5N + 5C */
    CHANNEL_BENCH_REFUSED_KIND = 4,      /* kind not 1 to 9 */
    CHANNEL_BENCH_REFUSED_WIRE = 5,      /* wire names a node not there */
    CHANNEL_BENCH_REFUSED_PORT = 6,      /* port not below the to node's inputs */
    CHANNEL_BENCH_REFUSED_FED_TWICE = 7, /* a port fed twice */
    CHANNEL_BENCH_REFUSED_NOT_FED = 8,   /* a port not fed */
    CHANNEL_BENCH_REFUSED_STATIONS = 9,  /* stations over 8 */
    CHANNEL_BENCH_REFUSED_DEPTH = 10,    /* queue 0 or over 8 */
    CHANNEL_BENCH_REFUSED_TOTAL = 11,    /* over 256 stations in all */
    CHANNEL_BENCH_REFUSED_STALL = 12,    /* stall word sets a bit at or above N */
    CHANNEL_BENCH_REFUSED_ROOM = 13,     /* a lent array shorter than the result */
    CHANNEL_BENCH_REFUSED_LIMIT = 14,    /* strict cycle over 1,000,000 */
    CHANNEL_BENCH_REFUSED_ROW = 15,      /* row of no records or over 8 */
    CHANNEL_BENCH_REFUSED_MISFIT = 21,   /* the state does not fit the image; on a bench, a record that is none */
    CHANNEL_BENCH_REFUSED_CYCLES = 22    /* the cycle count is 1,000,000 */
};

/* A state as bytes, each number low byte first: the first CHANNEL_BENCH_STATE_BYTES of what is handed over. What follows them
 * is not looked at, and stays. Where there are fewer, the state does not fit (21); for a fresh one there is no room (13).
 *
 *     from                            what stands there, one after another
 *     0                               the cycle count, 4 bytes
 *     CHANNEL_BENCH_NODES_PLACE       64 nodes, each the value that it shows, 4 bytes, signed, and its firings, 4 bytes
 *     CHANNEL_BENCH_PENDING_PLACE     a byte for each of 96 channels: 1 if a token is pending, 0 if not
 *     CHANNEL_BENCH_STATIONS_PLACE    768 station records, the 8 of channel 0 first, those of channel 1 next
 *     CHANNEL_BENCH_QUEUES_PLACE      a queue for each of 96 channels: 8 tokens of 4 bytes, signed, oldest first, and one
 *                                     byte that says how many it holds
 *
 * A station record is two tokens of 4 bytes, signed, oldest first, and one byte that says how many it holds. A place that
 * holds no token, or that no node, channel or station of the image uses, is 0. */
#define CHANNEL_BENCH_NODES_PLACE 4
#define CHANNEL_BENCH_PENDING_PLACE 516
#define CHANNEL_BENCH_STATIONS_PLACE 612
#define CHANNEL_BENCH_QUEUES_PLACE 7524
#define CHANNEL_BENCH_STATE_BYTES 10692

/* How many bytes a node of a state has, a station record and a queue. */
#define CHANNEL_BENCH_NODE_BYTES 8
#define CHANNEL_BENCH_STATION_BYTES 9
#define CHANNEL_BENCH_QUEUE_BYTES 33

/* Room that is enough for every line of a trace. */
#define CHANNEL_BENCH_HEADER_LINE_BYTES 13
#define CHANNEL_BENCH_CYCLE_LINE_BYTES 1259
#define CHANNEL_BENCH_CLOSING_LINE_BYTES 710

/* How much stack is enough for a call, from its caller's frame down, what is handed over on the stack included; and last for
 * every call. No proof speaks of it: it was measured on the archive that `rt lib` makes and given room, and a test calls
 * each function with so much stack and no more. What the caller's own functions, the system's threads and signal handlers
 * take comes on top. */
#define CHANNEL_BENCH_EDITION_STACK_BYTES 16384
#define CHANNEL_BENCH_JUDGE_STACK_BYTES 16384
#define CHANNEL_BENCH_FRESH_STACK_BYTES 65536
#define CHANNEL_BENCH_STEP_STACK_BYTES 262144
#define CHANNEL_BENCH_RUN_STACK_BYTES 131072
#define CHANNEL_BENCH_STRICT_STACK_BYTES 16384
#define CHANNEL_BENCH_HEADER_LINE_STACK_BYTES 16384
#define CHANNEL_BENCH_CYCLE_LINE_STACK_BYTES 262144
#define CHANNEL_BENCH_CLOSING_LINE_STACK_BYTES 65536
#define CHANNEL_BENCH_STATION_STACK_BYTES 16384
#define CHANNEL_BENCH_ROW_STACK_BYTES 16384
#define CHANNEL_BENCH_STACK_BYTES 262144

/* Answers CHANNEL_BENCH_EDITION of the library. */
uint32_t channel_bench_edition(void);

/* Judges an image: 0, or 1 to 11. */
uint8_t channel_bench_judge(const uint8_t *image, size_t image_len);

/* Writes the fresh state of an image to the first CHANNEL_BENCH_STATE_BYTES of `state`: 0. Or 1 to 11, and what it writes is
 * zeros; where `state` is shorter, nothing is written, and the number is 13 if it is none of these. */
uint8_t channel_bench_fresh(const uint8_t *image, size_t image_len, uint8_t *state, size_t state_len);

/* One cycle with a stall word, whose bit i stalls node i. Changes `state` in place, and writes the C letters and the C
 * values of the cycle to the first places of `letters` and `values`. Numbers: 1 to 11, 21, 22, 12, 13. */
uint8_t channel_bench_step(const uint8_t *image, size_t image_len, uint8_t *state, size_t state_len, uint64_t word,
                           uint8_t *letters, size_t letters_len, int32_t *values, size_t values_len);

/* A cycle for each word in order, up to the first that is refused. Changes `state` in place, and stores how many cycles
 * were made. Numbers: 1 to 11 and 21 once, 22 and 12 before each word. */
uint8_t channel_bench_run(const uint8_t *image, size_t image_len, uint8_t *state, size_t state_len, const uint64_t *words,
                          size_t words_len, uint32_t *steps);

/* Writes the values of all N nodes in a cycle of the strict system to the first places of `values`. Numbers: 1 to 11, 14
 * for a cycle over 1,000,000, 13. */
uint8_t channel_bench_strict(const uint8_t *image, size_t image_len, uint32_t cycle, int32_t *values, size_t values_len);

/* A trace as text, a line at a call: the header, a line for each cycle, the closing line. Each is written to the start of
 * `out`, its line feed included, and its length is stored. 13 if `out` is shorter than the line.
 *
 * A cycle's line makes the cycle too: it changes `state` in place. Numbers: 1 to 11, 21, 22, 12, 13. The closing line's are
 * 1 to 11, 21, 13. */
uint8_t channel_bench_header_line(uint8_t *out, size_t out_len, size_t *length);
uint8_t channel_bench_cycle_line(const uint8_t *image, size_t image_len, uint8_t *state, size_t state_len, uint64_t word,
                                 uint8_t *out, size_t out_len, size_t *length);
uint8_t channel_bench_closing_line(const uint8_t *image, size_t image_len, const uint8_t *state, size_t state_len,
                                   uint8_t *out, size_t out_len, size_t *length);

/* One cycle of a station, or of a row of 1 to 8 of them, on its own. `station` is one record, `row` is records one after
 * another, the first nearest to the incoming link; they are changed in place. `valid` and `value` stand on the link above,
 * `stop` on the link below. Stored are the letter and the value of the link below, and whether the token was taken.
 * Numbers: 15 for a row of no bytes, or of more than 8 records take; 21 for a record that is not whole (with a station: any
 * length but CHANNEL_BENCH_STATION_BYTES), a count over 2 or a nonzero unused token. */
uint8_t channel_bench_station(uint8_t *station, size_t station_len, bool valid, int32_t value, bool stop, uint8_t *letter,
                              int32_t *shown, bool *taken);
uint8_t channel_bench_row(uint8_t *row, size_t row_len, bool valid, int32_t value, bool stop, uint8_t *letter,
                          int32_t *shown, bool *taken);

#ifdef __cplusplus
}
#endif

#endif
