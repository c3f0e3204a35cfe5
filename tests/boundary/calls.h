/* What the tests of the C boundary share: each function of the header as a call on one record of what it may be given, in
 * a table. tests/boundary.sh tests that no function of the header is missing here. */
#include <stdbool.h>
#include <stdint.h>
#include <stdio.h>
#include <stdlib.h>
#include <string.h>

#include "channel_bench.h"

#define WORDS 40

/* What calls are given, and what they answer. */
struct given {
    const uint8_t *image;
    size_t image_len;
    uint8_t *state;
    size_t state_len;
    const uint64_t *words;
    size_t words_len;
    uint8_t *letters;
    size_t letters_len;
    int32_t *values;
    size_t values_len;
    uint8_t *out;
    size_t out_len;
    uint8_t *records;
    size_t records_len;
    uint64_t word;
    uint32_t cycle;

    uint32_t number;
    uint32_t steps;
    size_t length;
    uint8_t letter;
    int32_t shown;
    bool taken;
};

/* The pairs of a pointer and a length. */
enum { IMAGE = 1, STATE = 2, WORD_LIST = 4, LETTERS = 8, VALUES = 16, OUT = 32, RECORDS = 64, PAIRS = 128 };

struct call {
    const char *name;
    void (*make)(struct given *);
    size_t stack_bytes;
    unsigned pairs;
};

static void edition(struct given *g) {
    g->number = channel_bench_edition();
}

static void judge(struct given *g) {
    g->number = channel_bench_judge(g->image, g->image_len);
}

static void fresh(struct given *g) {
    g->number = channel_bench_fresh(g->image, g->image_len, g->state, g->state_len);
}

static void step(struct given *g) {
    g->number = channel_bench_step(g->image, g->image_len, g->state, g->state_len, g->word, g->letters, g->letters_len,
                                   g->values, g->values_len);
}

static void run(struct given *g) {
    g->number = channel_bench_run(g->image, g->image_len, g->state, g->state_len, g->words, g->words_len, &g->steps);
}

static void strict(struct given *g) {
    g->number = channel_bench_strict(g->image, g->image_len, g->cycle, g->values, g->values_len);
}

static void header_line(struct given *g) {
    g->number = channel_bench_header_line(g->out, g->out_len, &g->length);
}

static void cycle_line(struct given *g) {
    g->number = channel_bench_cycle_line(g->image, g->image_len, g->state, g->state_len, g->word, g->out, g->out_len,
                                         &g->length);
}

static void closing_line(struct given *g) {
    g->number = channel_bench_closing_line(g->image, g->image_len, g->state, g->state_len, g->out, g->out_len,
                                           &g->length);
}

static void station(struct given *g) {
    g->number = channel_bench_station(g->records, g->records_len, true, -7, false, &g->letter, &g->shown, &g->taken);
}

static void row(struct given *g) {
    g->number = channel_bench_row(g->records, g->records_len, true, -7, false, &g->letter, &g->shown, &g->taken);
}

static const struct call calls[] = {
    {"edition", edition, CHANNEL_BENCH_EDITION_STACK_BYTES, 0},
    {"judge", judge, CHANNEL_BENCH_JUDGE_STACK_BYTES, IMAGE},
    {"fresh", fresh, CHANNEL_BENCH_FRESH_STACK_BYTES, IMAGE | STATE},
    {"step", step, CHANNEL_BENCH_STEP_STACK_BYTES, IMAGE | STATE | LETTERS | VALUES},
    {"run", run, CHANNEL_BENCH_RUN_STACK_BYTES, IMAGE | STATE | WORD_LIST},
    {"strict", strict, CHANNEL_BENCH_STRICT_STACK_BYTES, IMAGE | VALUES},
    {"header_line", header_line, CHANNEL_BENCH_HEADER_LINE_STACK_BYTES, OUT},
    {"cycle_line", cycle_line, CHANNEL_BENCH_CYCLE_LINE_STACK_BYTES, IMAGE | STATE | OUT},
    {"closing_line", closing_line, CHANNEL_BENCH_CLOSING_LINE_STACK_BYTES, IMAGE | STATE | OUT},
    {"station", station, CHANNEL_BENCH_STATION_STACK_BYTES, RECORDS},
    {"row", row, CHANNEL_BENCH_ROW_STACK_BYTES, RECORDS},
};

enum { CALLS = sizeof calls / sizeof calls[0] };

/* All that a record points to. */
struct memory {
    uint8_t state[CHANNEL_BENCH_STATE_BYTES];
    uint64_t words[WORDS];
    uint8_t letters[CHANNEL_BENCH_CHANNELS];
    int32_t values[CHANNEL_BENCH_CHANNELS];
    uint8_t out[CHANNEL_BENCH_CYCLE_LINE_BYTES];
    uint8_t records[CHANNEL_BENCH_STATIONS * CHANNEL_BENCH_STATION_BYTES];
};

/* A record that points to this memory and this image, with all that calls leave alone set. */
static struct given given_of(struct memory *m, const uint8_t *image, size_t image_len) {
    struct given g = {
        .image = image, .image_len = image_len,
        .state = m->state, .state_len = sizeof m->state,
        .words = m->words, .words_len = WORDS,
        .letters = m->letters, .letters_len = sizeof m->letters,
        .values = m->values, .values_len = CHANNEL_BENCH_CHANNELS,
        .out = m->out, .out_len = sizeof m->out,
        .records = m->records, .records_len = sizeof m->records,
        .word = 5, .cycle = 30,
        .number = 99, .steps = 99, .length = 99, .letter = 99, .shown = 99, .taken = true,
    };
    return g;
}

/* Memory of other contents than any call leaves, but for the words and for empty records. */
static void fill(struct memory *m) {
    memset(m, 0x5a, sizeof *m);
    memset(m->records, 0, sizeof m->records);
    for (size_t i = 0; i < WORDS; i++) {
        m->words[i] = i % 3 == 0 ? UINT64_C(0x0001000200040008) << i % 8 : 0;
    }
}

/* Whether two records tell the same answers. */
static bool same_answers(const struct given *a, const struct given *b) {
    return a->number == b->number && a->steps == b->steps && a->length == b->length && a->letter == b->letter &&
           a->shown == b->shown && a->taken == b->taken;
}

/* Reads an image from a file; more than the longest ends the program. */
static size_t read_image(const char *path, uint8_t image[CHANNEL_BENCH_IMAGE_BYTES]) {
    FILE *file = fopen(path, "rb");
    size_t length = file ? fread(image, 1, CHANNEL_BENCH_IMAGE_BYTES, file) : 0;

    if (!file || length == 0 || fgetc(file) != EOF) {
        fprintf(stderr, "%s: not an image\n", path);
        exit(2);
    }
    fclose(file);
    return length;
}
