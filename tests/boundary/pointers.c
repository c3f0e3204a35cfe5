/* Which pointers a caller may hand over. A null pointer with length 0: each function is called with every choice of its
 * pairs of a pointer and a length, the lengths of the chosen ones 0 and their pointers null, and has to answer and to leave
 * what it does where the pointers are valid. And bytes at odd places: it has to answer and to leave what it does at even
 * ones. Prints a line for each failure and last 'N passed, M failed'. */
#include "calls.h"

static const uint8_t one_node[] = {1, 0, CHANNEL_BENCH_KIND_COUNT, 5, 0, 0, 0};
static struct memory tried, valid, begun;

/* Cuts the chosen pairs to length 0, and makes their pointers null too. */
static void cut(struct given *g, unsigned chosen, bool null) {
    if (chosen & IMAGE) {
        g->image_len = 0;
        g->image = null ? NULL : g->image;
    }
    if (chosen & STATE) {
        g->state_len = 0;
        g->state = null ? NULL : g->state;
    }
    if (chosen & WORD_LIST) {
        g->words_len = 0;
        g->words = null ? NULL : g->words;
    }
    if (chosen & LETTERS) {
        g->letters_len = 0;
        g->letters = null ? NULL : g->letters;
    }
    if (chosen & VALUES) {
        g->values_len = 0;
        g->values = null ? NULL : g->values;
    }
    if (chosen & OUT) {
        g->out_len = 0;
        g->out = null ? NULL : g->out;
    }
    if (chosen & RECORDS) {
        g->records_len = 0;
        g->records = null ? NULL : g->records;
    }
}

/* Makes a call on an image in its fresh state, with the chosen pairs cut. */
static struct given made(const struct call *call, const uint8_t *image, size_t image_len, struct memory *m,
                         unsigned chosen, bool null) {
    struct given g = given_of(m, image, image_len);

    *m = begun;
    if (channel_bench_fresh(image, image_len, m->state, sizeof m->state) != CHANNEL_BENCH_ACCEPTED) {
        exit(2);
    }
    g.word = 0;
    cut(&g, chosen, null);
    call->make(&g);
    return g;
}

static int passed;
static int failed;

static void verdict(bool holds, const struct call *call, const char *what, unsigned chosen) {
    if (holds) {
        passed++;
    } else {
        failed++;
        printf("failed: %s, %s, pairs %u\n", call->name, what, chosen);
    }
}

/* Every choice of a call's pairs on an image. Answers how many were accepted with null pointers. */
static int all_choices(const struct call *call, const uint8_t *image, size_t image_len) {
    int accepted = 0;

    for (unsigned chosen = 1; chosen < PAIRS; chosen++) {
        if ((chosen & ~call->pairs) == 0) {
            struct given null = made(call, image, image_len, &tried, chosen, true);
            struct given here = made(call, image, image_len, &valid, chosen, false);

            verdict(same_answers(&null, &here) && memcmp(&tried, &valid, sizeof begun) == 0, call, "null", chosen);
            accepted += null.number == CHANNEL_BENCH_ACCEPTED;
        }
    }
    return accepted;
}

/* A copy of bytes at an odd address, in the room of a number. */
static uint8_t *at_odd(int room, const uint8_t *bytes, size_t length) {
    static _Alignas(16) uint8_t rooms[5][(CHANNEL_BENCH_STATE_BYTES + 16) / 16 * 16 + 16];

    return memcpy(rooms[room] + 1, bytes, length);
}

/* A call with all its bytes at odd addresses. */
static void odd_places(const struct call *call, const uint8_t *image, size_t image_len) {
    struct given even = made(call, image, image_len, &valid, 0, false);
    struct given odd = made(&calls[0], image, image_len, &tried, 0, false);

    odd.number = even.number + 1;
    odd.image = at_odd(0, image, image_len);
    odd.state = at_odd(1, odd.state, sizeof begun.state);
    odd.letters = at_odd(2, odd.letters, sizeof begun.letters);
    odd.out = at_odd(3, odd.out, sizeof begun.out);
    odd.records = at_odd(4, odd.records, sizeof begun.records);
    call->make(&odd);
    memcpy(tried.state, odd.state, sizeof begun.state);
    memcpy(tried.letters, odd.letters, sizeof begun.letters);
    memcpy(tried.out, odd.out, sizeof begun.out);
    memcpy(tried.records, odd.records, sizeof begun.records);
    verdict(same_answers(&odd, &even) && memcmp(&tried, &valid, sizeof begun) == 0, call, "odd places", 0);
}

int main(int argc, char **argv) {
    static uint8_t large[CHANNEL_BENCH_IMAGE_BYTES];
    size_t large_len;
    int accepted = 0;

    if (argc < 2) {
        return 2;
    }
    large_len = read_image(argv[1], large);
    fill(&begun);
    for (size_t i = 0; i < CALLS; i++) {
        accepted += all_choices(&calls[i], one_node, sizeof one_node);
        accepted += all_choices(&calls[i], large, large_len);
        odd_places(&calls[i], large, large_len);
    }
    /* Without channels a step wants no room, and a run may have no words. */
    if (accepted == 0) {
        failed++;
        printf("failed: no call with a null pointer was accepted\n");
    }
    printf("%d passed, %d failed\n", passed, failed);
    return failed != 0;
}
