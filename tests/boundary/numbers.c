/* The numbers of the header and the library: each number that calls answer is provoked and compared with its name, each
 * kind makes its next value, each limit passes where one more does not, and each part of a state stands at its place.
 * tests/boundary.sh tests that no number's name is missing here. Prints a line for each failure and last
 * 'N passed, M failed'. */
#include <inttypes.h>
#include <stdio.h>
#include <string.h>

#include "channel_bench.h"

static int passed;
static int failed;

static void expect(const char *what, int64_t expected, int64_t answered) {
    if (expected == answered) {
        passed++;
    } else {
        failed++;
        printf("failed: %s: it is %" PRId64 ", and the library answers %" PRId64 "\n", what, expected, answered);
    }
}

/* The number that a call answers is what its name stands for. */
#define NUMBER(name, call) expect(#name " by " #call, name, call)

static uint8_t image[CHANNEL_BENCH_IMAGE_BYTES + 10];
static uint8_t state[CHANNEL_BENCH_STATE_BYTES];
static uint8_t letters[CHANNEL_BENCH_CHANNELS];
static int32_t values[CHANNEL_BENCH_CHANNELS];
static uint8_t records[9 * CHANNEL_BENCH_STATION_BYTES];

static uint8_t *kinds(void) { return image + 2; }
static uint8_t *parameters(void) { return kinds() + image[0]; }
static uint8_t *wires(void) { return parameters() + 4 * image[0]; }
static uint8_t *depths(void) { return wires() + 3 * image[1]; }

/* Makes a netlist of choose nodes, count nodes and a channel for each port of the first ones. Answers its length. */
static size_t sized(int nodes, int channels) {
    memset(image, 0, sizeof image);
    image[0] = (uint8_t)nodes;
    image[1] = (uint8_t)channels;
    for (int n = 0; n < nodes; n++) {
        kinds()[n] = 3 * n < channels ? CHANNEL_BENCH_KIND_CHOOSE : CHANNEL_BENCH_KIND_COUNT;
    }
    for (int c = 0; c < channels; c++) {
        wires()[3 * c] = (uint8_t)(nodes - 1);
        wires()[3 * c + 1] = (uint8_t)(c / 3);
        wires()[3 * c + 2] = (uint8_t)(c % 3);
        depths()[2 * c + 1] = CHANNEL_BENCH_QUEUE;
    }
    return 2 + 5 * (size_t)nodes + 5 * (size_t)channels;
}

static uint8_t judge_sized(int nodes, int channels) {
    return channel_bench_judge(image, sized(nodes, channels));
}

/* The judge's number for a netlist of four nodes and six channels in which one byte is another. */
static uint8_t judge_with(uint8_t *(*part)(void), int place, uint8_t byte) {
    size_t length = sized(4, 6);

    part()[place] = byte;
    return channel_bench_judge(image, length);
}

/* The judge's number for the largest netlist with so many stations, as many as may be on each of the first channels. */
static uint8_t judge_stations(int stations) {
    size_t length = sized(CHANNEL_BENCH_NODES, CHANNEL_BENCH_CHANNELS);

    for (int c = 0; stations > 0; c++, stations -= CHANNEL_BENCH_STATIONS) {
        depths()[2 * c] = (uint8_t)(stations < CHANNEL_BENCH_STATIONS ? stations : CHANNEL_BENCH_STATIONS);
    }
    return channel_bench_judge(image, length);
}

/* A step's number in the fresh state of four nodes and six channels, with the cycle count and the room for values given. */
static uint8_t step_at(uint32_t cycles, uint64_t word, size_t room) {
    size_t length = sized(4, 6);

    channel_bench_fresh(image, length, state, sizeof state);
    for (int i = 0; i < 4; i++) {
        state[i] = (uint8_t)(cycles >> 8 * i);
    }
    return channel_bench_step(image, length, state, sizeof state, word, letters, sizeof letters, values, room);
}

static uint8_t strict_at(uint32_t cycle) {
    return channel_bench_strict(image, sized(1, 0), cycle, values, CHANNEL_BENCH_NODES);
}

static uint8_t row_of(size_t count) {
    uint8_t letter;
    int32_t shown;
    bool taken;

    memset(records, 0, sizeof records);
    return channel_bench_row(records, count * CHANNEL_BENCH_STATION_BYTES, false, 0, false, &letter, &shown, &taken);
}

static void numbers(void) {
    NUMBER(CHANNEL_BENCH_ACCEPTED, judge_sized(4, 6));
    NUMBER(CHANNEL_BENCH_REFUSED_SHORT, channel_bench_judge(image, 1));
    NUMBER(CHANNEL_BENCH_REFUSED_SIZES, judge_sized(0, 0));
    NUMBER(CHANNEL_BENCH_REFUSED_LENGTH, channel_bench_judge(image, sized(4, 6) + 1));
    NUMBER(CHANNEL_BENCH_REFUSED_KIND, judge_with(kinds, 3, 0));
    NUMBER(CHANNEL_BENCH_REFUSED_WIRE, judge_with(wires, 0, 4));
    NUMBER(CHANNEL_BENCH_REFUSED_PORT, judge_with(wires, 2, 3));
    NUMBER(CHANNEL_BENCH_REFUSED_FED_TWICE, judge_with(wires, 2, 1));
    NUMBER(CHANNEL_BENCH_REFUSED_NOT_FED, judge_with(kinds, 3, CHANNEL_BENCH_KIND_HOLD));
    NUMBER(CHANNEL_BENCH_REFUSED_STATIONS, judge_with(depths, 0, 9));
    NUMBER(CHANNEL_BENCH_REFUSED_DEPTH, judge_with(depths, 1, 0));
    NUMBER(CHANNEL_BENCH_REFUSED_TOTAL, judge_stations(257));
    NUMBER(CHANNEL_BENCH_REFUSED_STALL, step_at(0, 16, CHANNEL_BENCH_CHANNELS));
    NUMBER(CHANNEL_BENCH_REFUSED_ROOM, step_at(0, 0, 5));
    NUMBER(CHANNEL_BENCH_REFUSED_LIMIT, strict_at(1000001));
    NUMBER(CHANNEL_BENCH_REFUSED_ROW, row_of(0));
    NUMBER(CHANNEL_BENCH_REFUSED_MISFIT, step_at(1000001, 0, CHANNEL_BENCH_CHANNELS));
    NUMBER(CHANNEL_BENCH_REFUSED_CYCLES, step_at(1000000, 0, CHANNEL_BENCH_CHANNELS));
}

static void limits(void) {
    NUMBER(CHANNEL_BENCH_EDITION, channel_bench_edition());
    NUMBER(CHANNEL_BENCH_ACCEPTED, judge_sized(CHANNEL_BENCH_NODES, CHANNEL_BENCH_CHANNELS));
    NUMBER(CHANNEL_BENCH_REFUSED_SIZES, judge_sized(CHANNEL_BENCH_NODES + 1, 0));
    NUMBER(CHANNEL_BENCH_REFUSED_SIZES, judge_sized(CHANNEL_BENCH_NODES, CHANNEL_BENCH_CHANNELS + 1));
    NUMBER(CHANNEL_BENCH_IMAGE_BYTES, (int64_t)sized(CHANNEL_BENCH_NODES, CHANNEL_BENCH_CHANNELS));
    NUMBER(CHANNEL_BENCH_ACCEPTED, judge_with(depths, 0, CHANNEL_BENCH_STATIONS));
    NUMBER(CHANNEL_BENCH_REFUSED_STATIONS, judge_with(depths, 0, CHANNEL_BENCH_STATIONS + 1));
    NUMBER(CHANNEL_BENCH_ACCEPTED, judge_stations(CHANNEL_BENCH_ALL_STATIONS));
    NUMBER(CHANNEL_BENCH_REFUSED_TOTAL, judge_stations(CHANNEL_BENCH_ALL_STATIONS + 1));
    NUMBER(CHANNEL_BENCH_ACCEPTED, judge_with(depths, 1, CHANNEL_BENCH_QUEUE));
    NUMBER(CHANNEL_BENCH_REFUSED_DEPTH, judge_with(depths, 1, CHANNEL_BENCH_QUEUE + 1));
    NUMBER(CHANNEL_BENCH_ACCEPTED, row_of(CHANNEL_BENCH_STATIONS));
    NUMBER(CHANNEL_BENCH_REFUSED_ROW, row_of(CHANNEL_BENCH_STATIONS + 1));
    NUMBER(CHANNEL_BENCH_ACCEPTED, step_at(CHANNEL_BENCH_CYCLES - 1, 0, CHANNEL_BENCH_CHANNELS));
    NUMBER(CHANNEL_BENCH_REFUSED_CYCLES, step_at(CHANNEL_BENCH_CYCLES, 0, CHANNEL_BENCH_CHANNELS));
    NUMBER(CHANNEL_BENCH_ACCEPTED, strict_at(CHANNEL_BENCH_CYCLES));
    NUMBER(CHANNEL_BENCH_REFUSED_LIMIT, strict_at(CHANNEL_BENCH_CYCLES + 1));
}

/* The next value of a node of a kind that shows 5, from ports that show -7, 3 and 4. */
static int32_t next_value(uint8_t kind, int inputs) {
    static const uint8_t shown[] = {5, 0, 0, 0, 0xf9, 0xff, 0xff, 0xff, 3, 0, 0, 0, 4, 0, 0, 0};
    size_t length = sized(4, inputs);

    memset(kinds(), CHANNEL_BENCH_KIND_COUNT, 4);
    kinds()[0] = kind;
    memcpy(parameters(), shown, sizeof shown);
    for (int c = 0; c < inputs; c++) {
        wires()[3 * c] = (uint8_t)(c + 1);
    }
    values[0] = 99;
    channel_bench_strict(image, length, 1, values, CHANNEL_BENCH_NODES);
    return values[0];
}

static void all_kinds(void) {
    expect("CHANNEL_BENCH_KIND_COUNT", 6, next_value(CHANNEL_BENCH_KIND_COUNT, 0));
    expect("CHANNEL_BENCH_KIND_HOLD", -7, next_value(CHANNEL_BENCH_KIND_HOLD, 1));
    expect("CHANNEL_BENCH_KIND_TOTAL", -2, next_value(CHANNEL_BENCH_KIND_TOTAL, 1));
    expect("CHANNEL_BENCH_KIND_NEGATE", 7, next_value(CHANNEL_BENCH_KIND_NEGATE, 1));
    expect("CHANNEL_BENCH_KIND_HALVE", -4, next_value(CHANNEL_BENCH_KIND_HALVE, 1));
    expect("CHANNEL_BENCH_KIND_SUM", -4, next_value(CHANNEL_BENCH_KIND_SUM, 2));
    expect("CHANNEL_BENCH_KIND_DIFFERENCE", -10, next_value(CHANNEL_BENCH_KIND_DIFFERENCE, 2));
    expect("CHANNEL_BENCH_KIND_LARGER", 3, next_value(CHANNEL_BENCH_KIND_LARGER, 2));
    expect("CHANNEL_BENCH_KIND_CHOOSE", 3, next_value(CHANNEL_BENCH_KIND_CHOOSE, 3));
}

/* Room for lines and bytes of records, each exact. */
static void sizes(void) {
    uint8_t out[CHANNEL_BENCH_HEADER_LINE_BYTES];
    size_t length;
    uint8_t letter;
    int32_t shown;
    bool taken;

    NUMBER(CHANNEL_BENCH_ACCEPTED, channel_bench_header_line(out, CHANNEL_BENCH_HEADER_LINE_BYTES, &length));
    NUMBER(CHANNEL_BENCH_HEADER_LINE_BYTES, (int64_t)length);
    NUMBER(CHANNEL_BENCH_REFUSED_ROOM, channel_bench_header_line(out, CHANNEL_BENCH_HEADER_LINE_BYTES - 1, &length));
    memset(records, 0, sizeof records);
    NUMBER(CHANNEL_BENCH_ACCEPTED, channel_bench_station(records, CHANNEL_BENCH_STATION_BYTES, false, 0, false, &letter,
                                                         &shown, &taken));
    NUMBER(CHANNEL_BENCH_REFUSED_MISFIT, channel_bench_station(records, CHANNEL_BENCH_STATION_BYTES + 1, false, 0, false,
                                                               &letter, &shown, &taken));
    NUMBER(CHANNEL_BENCH_REFUSED_ROOM, channel_bench_fresh(image, sized(1, 0), state, CHANNEL_BENCH_STATE_BYTES - 1));
}

static int64_t four(size_t place) {
    return state[place] | state[place + 1] << 8 | state[place + 2] << 16 | (int64_t)state[place + 3] << 24;
}

/* The parts of a state, each where the header has it: the last node, the last channel and its second station. The nodes that
 * the last one feeds are stalled, so its channels fill with its values from 100 on: 8 in the queue, 2 in each of two
 * stations, and one pending. */
static void places(void) {
    size_t length = sized(CHANNEL_BENCH_NODES, CHANNEL_BENCH_CHANNELS);
    size_t node = CHANNEL_BENCH_NODES_PLACE + 63 * CHANNEL_BENCH_NODE_BYTES;
    size_t station = CHANNEL_BENCH_STATIONS_PLACE + (95 * CHANNEL_BENCH_STATIONS + 1) * CHANNEL_BENCH_STATION_BYTES;
    size_t queue = CHANNEL_BENCH_QUEUES_PLACE + 95 * CHANNEL_BENCH_QUEUE_BYTES;

    parameters()[4 * 63] = 100;
    for (int c = 0; c < CHANNEL_BENCH_CHANNELS; c++) {
        depths()[2 * c] = 2;
    }
    channel_bench_fresh(image, length, state, sizeof state);
    for (int i = 0; i < 50; i++) {
        channel_bench_step(image, length, state, sizeof state, 0xffffffff, letters, sizeof letters, values,
                           CHANNEL_BENCH_CHANNELS);
    }
    expect("the cycle count", 50, four(0));
    expect("CHANNEL_BENCH_NODES_PLACE", 112, four(node));
    expect("CHANNEL_BENCH_NODE_BYTES", 12, four(node + 4));
    expect("CHANNEL_BENCH_PENDING_PLACE", 1, state[CHANNEL_BENCH_PENDING_PLACE + 95]);
    expect("CHANNEL_BENCH_STATIONS_PLACE", 108, four(station));
    expect("CHANNEL_BENCH_STATION_BYTES", 2, state[station + CHANNEL_BENCH_STATION_BYTES - 1]);
    expect("CHANNEL_BENCH_QUEUES_PLACE", 100, four(queue));
    expect("CHANNEL_BENCH_QUEUE_BYTES", 8, state[queue + CHANNEL_BENCH_QUEUE_BYTES - 1]);
}

int main(void) {
    numbers();
    limits();
    all_kinds();
    sizes();
    places();
    printf("%d passed, %d failed\n", passed, failed);
    return failed != 0;
}
