/* Figure 4's netlist through the C boundary: its verdict, its trace line by line and its strict values in cycle 10. And
 * the station bench on table 1 of the README.
 *
 *     (cd crates/capi_c && rt lib); mkdir -p out; cp crates/capi_c/out/libcapi_c.a out/libcapi.a
 *     cc -std=c11 -Iinclude -o out/figure4 examples/c/figure4.c out/libcapi.a
 *     out/figure4 | cmp - examples/c/figure4.output
 */
#include <inttypes.h>
#include <stdio.h>
#include <stdlib.h>

#include "channel_bench.h"

static const uint8_t image[] = {
    5, 4,                                    /* 5 nodes, 4 channels */
    CHANNEL_BENCH_KIND_COUNT, CHANNEL_BENCH_KIND_COUNT, CHANNEL_BENCH_KIND_SUM,
    CHANNEL_BENCH_KIND_HOLD, CHANNEL_BENCH_KIND_HOLD,
    10, 0, 0, 0, 100, 0, 0, 0, 0, 0, 0, 0,   /* parameters 10, 100, 0, */
    0, 0, 0, 0, 0, 0, 0, 0,                  /* 0, 0 */
    0, 2, 0, 1, 2, 1, 2, 3, 0, 2, 4, 0,      /* wires 0-2-0, 1-2-1, 2-3-0, 2-4-0 */
    0, 2, 0, 2, 0, 1, 0, 1,                  /* stations / queue: 0/2, 0/2, 0/1, 0/1 */
};

static const uint64_t words[] = {1, 0, 0, 16, 0, 0, 3, 3, 8, 0, 0};

static uint8_t state[CHANNEL_BENCH_STATE_BYTES];

/* Ends the program if a call was refused. */
static void accept(uint8_t number) {
    if (number != CHANNEL_BENCH_ACCEPTED) {
        printf("refused %u\n", (unsigned)number);
        exit(EXIT_FAILURE);
    }
}

static void print_trace(void) {
    uint8_t line[CHANNEL_BENCH_CYCLE_LINE_BYTES];
    size_t length;

    accept(channel_bench_fresh(image, sizeof image, state, sizeof state));
    accept(channel_bench_header_line(line, sizeof line, &length));
    fwrite(line, 1, length, stdout);
    for (size_t i = 0; i < sizeof words / sizeof words[0]; i++) {
        accept(channel_bench_cycle_line(image, sizeof image, state, sizeof state, words[i], line, sizeof line,
                                        &length));
        fwrite(line, 1, length, stdout);
    }
    accept(channel_bench_closing_line(image, sizeof image, state, sizeof state, line, sizeof line, &length));
    fwrite(line, 1, length, stdout);
}

static void print_strict(uint32_t cycle) {
    int32_t values[CHANNEL_BENCH_NODES];

    accept(channel_bench_strict(image, sizeof image, cycle, values, CHANNEL_BENCH_NODES));
    printf("strict values of cycle %" PRIu32 ":", cycle);
    for (size_t i = 0; i < image[0]; i++) {
        printf(" %" PRId32, values[i]);
    }
    printf("\n");
}

/* Tokens 1, 2, 3 and 4 come to an empty station; 0 is no token. */
static void print_table1(void) {
    static const int32_t tokens[] = {1, 2, 3, 0, 0, 0, 0, 4, 0, 0};
    static const bool stops[] = {false, false, true, true, false, false, false, true, true, false};
    uint8_t station[CHANNEL_BENCH_STATION_BYTES] = {0};

    printf("station:");
    for (size_t i = 0; i < 10; i++) {
        uint8_t letter;
        int32_t shown;
        bool taken;

        accept(channel_bench_station(station, sizeof station, tokens[i] != 0, tokens[i], stops[i], &letter, &shown,
                                     &taken));
        printf(" %c", letter);
        if (letter == 'T' || letter == 'R') {
            printf("%" PRId32, shown);
        }
    }
    printf("\n");
}

int main(void) {
    if (channel_bench_edition() != CHANNEL_BENCH_EDITION) {
        printf("the library is of edition %" PRIu32 "\n", channel_bench_edition());
        return EXIT_FAILURE;
    }
    accept(channel_bench_judge(image, sizeof image));
    printf("accepted\n");
    print_trace();
    print_strict(10);
    print_table1();
    return EXIT_SUCCESS;
}
