/* The walk over streams of 65,535 bytes that pass most often between its two readings. Run with a small stack. */
#include "../streams.h"
#include "pasoreum.h"
#include <stdio.h>
#include <sys/resource.h>
#include <time.h>

static uint32_t listed[2 * N], counted[2];
static int failed;

/* The walk for a bank, its answer as one number: the number of frames, or 100,000 times the refusal's number and the value besides it. */
static size_t walk_bank(const uint8_t *s, size_t n, uint32_t *index, size_t m) {
    uint64_t value;
    return pasoreum_walk(s, n, PASOREUM_BANK, index, m, &value) * 100000ul + value;
}

static double now(void) {
    struct timespec t;
    clock_gettime(CLOCK_MONOTONIC, &t);
    return t.tv_sec * 1e9 + t.tv_nsec;
}

/* want: the number of frames, -1 where it is not known; len: the length of each */
static void walk(const char *name, long want, size_t len) {
    memset(listed, 0xEE, sizeof listed);
    size_t got = walk_bank(stream, N, listed, 2 * N);
    size_t less = walk_bank(stream, N, counted, 0);
    int right = want < 0 || got == (size_t)want;
    for (size_t i = 0; len && i < got; i++)
        right &= listed[2 * i] == i * len && listed[2 * i + 1] == len;
    right &= listed[2 * got] == 0xEEEEEEEE;
    right &= less == (got ? 1200000 + got : 0);
    double one = 1e18, two = 1e18;
    for (int r = 0; r < 15; r++) {
        double t = now();
        for (int i = 0; i < 10; i++) walk_bank(stream, N, listed, 2 * N);
        double d = (now() - t) / 10 / N;
        if (d < one) one = d;
        t = now();
        for (int i = 0; i < 10; i++) walk_bank(stream, N, listed, 2 * (N / 6) - 2);
        d = (now() - t) / 10 / N;
        if (d < two) two = d;
    }
    printf("%-26s %6zu frames  %5.2f ns a byte, counted first %5.2f  %s\n", name, got, one, two, right ? "right" : "WRONG");
    failed += !right;
}

int main(void) {
    struct rlimit limit;
    long want;
    size_t len;
    getrlimit(RLIMIT_STACK, &limit);
    printf("stack of %ld KB\n", (long)(limit.rlim_cur / 1024));
    for (int i = 0; i < STREAMS; i++) {
        const char *name = make(i, &want, &len);
        walk(name, want, len);
    }
    if (walk_bank(stream, N + 1, listed, 2 * N) != 1100000) failed++, puts("STREAM not refused");
    printf("%d failed\n", failed);
    return failed != 0;
}
