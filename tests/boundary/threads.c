/* Calls on several threads at once: each thread makes every call over and over on memory of its own, all on one image and
 * one list of words, and each of its answers and all that it leaves has to be what one thread alone has got. Prints a line
 * for each failure and last 'N passed, M failed'. */
#define _XOPEN_SOURCE 700
#include <pthread.h>

#include "calls.h"

#define THREADS 8
#define ROUNDS 1000

/* What one round of calls has answered and left. */
struct round {
    struct given given[CALLS];
    struct memory memory;
};

static uint8_t image[CHANNEL_BENCH_IMAGE_BYTES];
static size_t image_len;
static uint64_t words[WORDS];
static struct round alone;
static pthread_barrier_t begin;

/* Makes each call once on the memory of this round, a fresh state first. */
static void make_round(struct round *r) {
    fill(&r->memory);
    for (size_t i = 0; i < CALLS; i++) {
        struct given *g = &r->given[i];

        *g = given_of(&r->memory, image, image_len);
        g->words = words;
        if (calls[i].make == station) {
            g->records_len = CHANNEL_BENCH_STATION_BYTES;
        }
        calls[i].make(g);
    }
}

static bool same_round(const struct round *a, const struct round *b) {
    bool same = memcmp(&a->memory, &b->memory, sizeof a->memory) == 0;

    for (size_t i = 0; i < CALLS; i++) {
        same = same && same_answers(&a->given[i], &b->given[i]);
    }
    return same;
}

/* A thread's own work. Answers how many rounds were otherwise. */
static void *on_thread(void *argument) {
    struct round *own = argument;
    uintptr_t wrong = 0;

    pthread_barrier_wait(&begin);
    for (int i = 0; i < ROUNDS; i++) {
        make_round(own);
        wrong += !same_round(own, &alone);
    }
    return (void *)wrong;
}

int main(int argc, char **argv) {
    static struct round rounds[THREADS];
    pthread_t threads[THREADS];
    int passed = 0, failed = 0;

    if (argc < 2) {
        return 2;
    }
    image_len = read_image(argv[1], image);
    fill(&alone.memory);
    memcpy(words, alone.memory.words, sizeof words);
    make_round(&alone);
    for (size_t i = 0; i < CALLS; i++) {
        if (calls[i].make != edition && alone.given[i].number != CHANNEL_BENCH_ACCEPTED) {
            failed++;
            printf("failed: %s alone is refused %u\n", calls[i].name, (unsigned)alone.given[i].number);
        }
    }
    if (pthread_barrier_init(&begin, NULL, THREADS) != 0) {
        return 2;
    }
    for (size_t i = 0; i < THREADS; i++) {
        if (pthread_create(&threads[i], NULL, on_thread, &rounds[i]) != 0) {
            return 2;
        }
    }
    for (size_t i = 0; i < THREADS; i++) {
        void *wrong;

        if (pthread_join(threads[i], &wrong) != 0) {
            return 2;
        }
        if (wrong == NULL) {
            passed++;
        } else {
            failed++;
            printf("failed: thread %zu has %ju of %d rounds otherwise\n", i, (uintmax_t)(uintptr_t)wrong, ROUNDS);
        }
    }
    printf("%d passed, %d failed\n", passed, failed);
    return failed != 0;
}
