/* The stack that calls need: each function is called on a thread that has as many bytes of stack left as the header says,
 * and behind them pages that end the program. Its answers have to be those that it gives here. Prints how many bytes each
 * call wrote to, and last 'N passed, M failed'. An argument behind the image's path is a number of bytes in place of the
 * header's: with too few of them the test has to fail.
 *
 * What a thread itself needs lies above what it has left: its stack is larger by ABOVE, and it takes all of that but for
 * the bytes that the header says before it makes the call. Each call has a process of its own, which a signal ends. */
#define _GNU_SOURCE
#include <alloca.h>
#include <pthread.h>
#include <sys/mman.h>
#include <sys/wait.h>
#include <unistd.h>

#include "calls.h"

/* What the thread itself, and the function that it begins with, have room for above the bytes that are left; and the pages
 * below them. A call's frames are touched at least every 4,096 bytes, so none reaches over these. */
#define ABOVE (128 * 1024)
#define BELOW (1024 * 1024)

static uint8_t large[CHANNEL_BENCH_IMAGE_BYTES];
static size_t large_len;
static struct memory memory, other;

/* What each call is tried on: accepted, refused late, and refused early. */
enum { ACCEPTED, NO_ROOM, NO_IMAGE, SAMPLES };

static struct given sample(const struct call *call, int which, struct memory *m) {
    struct given g = given_of(m, large, large_len);

    fill(m);
    if (call->make != fresh && (call->pairs & STATE)) {
        fresh(&g);
    }
    if (call->make == station) {
        g.records_len = CHANNEL_BENCH_STATION_BYTES;
    }
    if (which == NO_ROOM) {
        g.letters_len = g.values_len = g.out_len = 5;
        g.records_len++;
        g.cycle = UINT32_MAX;
    } else if (which == NO_IMAGE) {
        g.image_len = g.records_len = 0;
    }
    return g;
}

/* Whether a sample is to be accepted: the judge and a fresh state want no room, a run nothing that is short here. */
static bool accepts(const struct call *call, int which) {
    if (which == NO_ROOM) {
        return (call->pairs & (LETTERS | VALUES | OUT | RECORDS)) == 0;
    }
    return which == ACCEPTED || call->make == header_line;
}

/* A call, and the lowest byte of the stack that it may use. */
struct trial {
    const struct call *call;
    struct given *given;
    uint8_t *low;
    size_t bytes;
};

/* Takes all of the stack but for the bytes of the trial, and makes the call. */
static void *on_thread(void *argument) {
    struct trial *t = argument;
    volatile uint8_t *here = alloca(16);
    volatile uint8_t *taken = alloca((size_t)(here - t->low) - t->bytes);

    taken[0] = 0;
    if (taken > t->low + t->bytes) {
        _exit(3);
    }
    t->call->make(t->given);
    return NULL;
}

/* Makes the call on a thread. Answers how many bytes below the thread's own were written to. */
static size_t tried(const struct call *call, struct given *given, size_t bytes) {
    size_t size = (bytes + ABOVE + 4095) / 4096 * 4096;
    uint8_t *all = mmap(NULL, BELOW + size, PROT_NONE, MAP_PRIVATE | MAP_ANONYMOUS, -1, 0);
    struct trial trial = {call, given, all + BELOW, bytes};
    pthread_attr_t attributes;
    pthread_t thread;
    size_t untouched = 0;

    if (all == MAP_FAILED || mprotect(trial.low, size, PROT_READ | PROT_WRITE) != 0) {
        _exit(2);
    }
    for (size_t i = 0; i < bytes; i++) {
        trial.low[i] = 0xa5;
    }
    if (pthread_attr_init(&attributes) != 0 || pthread_attr_setstack(&attributes, trial.low, size) != 0 ||
        pthread_create(&thread, &attributes, on_thread, &trial) != 0 || pthread_join(thread, NULL) != 0) {
        _exit(2);
    }
    while (untouched < bytes && trial.low[untouched] == 0xa5) {
        untouched++;
    }
    return bytes - untouched;
}

/* The reason against a call on a stack of so many bytes, NULL for none; how many it wrote to is noted. */
static const char *reason_against(const struct call *call, int which, size_t bytes, size_t *used) {
    static char reason[100];
    int ends[2], status;
    pid_t child;

    if (pipe(ends) != 0 || (child = fork()) < 0) {
        return "no process";
    }
    if (child == 0) {
        struct given g = sample(call, which, &memory);
        size_t written = tried(call, &g, bytes);
        struct given here = sample(call, which, &other);

        call->make(&here);
        if (write(ends[1], &written, sizeof written) != sizeof written) {
            _exit(2);
        }
        if (call->make != edition && (g.number == CHANNEL_BENCH_ACCEPTED) != accepts(call, which)) {
            _exit(4);
        }
        _exit(!same_answers(&g, &here) || memcmp(&memory, &other, sizeof memory) != 0);
    }
    close(ends[1]);
    if (read(ends[0], used, sizeof *used) != sizeof *used) {
        *used = 0;
    }
    close(ends[0]);
    waitpid(child, &status, 0);
    if (WIFSIGNALED(status)) {
        snprintf(reason, sizeof reason, "it needs more: ended by signal %d", WTERMSIG(status));
        return reason;
    }
    snprintf(reason, sizeof reason, "it answers otherwise (status %d)", WEXITSTATUS(status));
    return WEXITSTATUS(status) == 0 ? NULL : reason;
}

int main(int argc, char **argv) {
    int passed = 0, failed = 0;

    if (argc < 2) {
        return 2;
    }
    large_len = read_image(argv[1], large);
    for (size_t i = 0; i < CALLS; i++) {
        size_t bytes = argc > 2 ? strtoul(argv[2], NULL, 10) : calls[i].stack_bytes;
        size_t most = 0;

        for (int which = 0; which < SAMPLES; which++) {
            size_t used = 0;
            const char *reason = reason_against(&calls[i], which, bytes, &used);

            most = used > most ? used : most;
            if (reason) {
                failed++;
                printf("failed: %s, sample %d, on %zu bytes of stack: %s\n", calls[i].name, which, bytes, reason);
            } else {
                passed++;
            }
        }
        printf("%s: of %zu bytes of stack %zu were written to\n", calls[i].name, bytes, most);
        if (calls[i].stack_bytes > CHANNEL_BENCH_STACK_BYTES) {
            failed++;
            printf("failed: %s has more than CHANNEL_BENCH_STACK_BYTES\n", calls[i].name);
        }
    }
    printf("%d passed, %d failed\n", passed, failed);
    return failed != 0;
}
