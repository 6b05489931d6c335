/* Times pasoreum_walk and a plain C state machine over the same streams, in one run: nanoseconds a byte, the least of eleven. */
#include "pasoreum.h"
#include "streams.h"
#include <stdbool.h>
#include <stdio.h>
#include <time.h>

#define GOAL 1.0
#define RUNS 11
#define TURNS 10
#define PART 6553
static uint32_t here[2 * N], plain[2 * N];

/* The XOR of all bytes. */
static uint8_t checksum(const uint8_t *p, size_t n) {
    uint8_t x = 0;
    for (size_t i = 0; i < n; i++) x ^= p[i];
    return x;
}

/* Whether pasoreum_read takes a stretch for a frame. */
static bool is_read(const uint8_t *s, size_t n) {
    static uint8_t data[111];
    static uint64_t entries[128], answer[PASOREUM_READING];
    return pasoreum_read(s, n, PASOREUM_BANK, data, sizeof data, entries, 128, answer, PASOREUM_READING) == 0;
}

/* Whether n bytes from F0 to F7, those between below 128, are a frame. The heads of the frames made here (01, 02, 06 01, 08 01) and of those of
   six bytes (7B to 7F) are tested in C. The random streams have a few other stretches that begin F0 7E: those go to pasoreum_read. */
static bool is_frame(const uint8_t *s, size_t n) {
    if (n < 6 || s[1] != 0x7E) return false;
    switch (s[3]) {
    case 0x01:
        return n == 21 && s[6] >= 8 && s[6] <= 28 && (s[19] == 0 || s[19] == 1 || s[19] == 127);
    case 0x02:
        return n == 127 && checksum(s + 1, 124) == s[125];
    case 0x06:
        if (s[4] == 1) return n == 6;
        break;
    case 0x08:
        if (s[4] == 1) return n == 408 && checksum(s + 1, 405) == s[406];
        break;
    case 0x7B:
    case 0x7C:
    case 0x7D:
        return n == 6 && s[4] == 0;
    case 0x7E:
    case 0x7F:
        return n == 6;
    }
    return is_read(s, n);
}

/* Puts the pairs of the frames, as far as the index has room, and counts the frames. Outside a frame a byte is tested for F0, inside for 128 and up. */
static size_t list(const uint8_t *s, size_t n, uint32_t *index, size_t m) {
    size_t count = 0, start = 0;
    bool inside = false;
    for (size_t i = 0; i < n; i++) {
        if (!inside) {
            if (s[i] == 0xF0) inside = true, start = i;
        } else if (s[i] > 127) {
            if (s[i] == 0xF7 && is_frame(s + start, i + 1 - start)) {
                if (2 * count + 1 < m) index[2 * count] = start, index[2 * count + 1] = i + 1 - start;
                count++;
            }
            inside = s[i] == 0xF0, start = i;
        }
    }
    return count;
}

/* The walk in C: the parameters, answers and refusals of pasoreum_walk. */
__attribute__((noinline)) static uint32_t c_walk(const uint8_t *s, size_t n, uint32_t kind, uint32_t *index, size_t m, uint64_t *value) {
    *value = 0;
    if (kind > 1) return PASOREUM_NO_KIND;
    if (n > 65535) return PASOREUM_STREAM;
    if (n / 6 > m / 2) {
        *value = list(s, n, index, 0);
        if (m / 2 < *value) return PASOREUM_INDEX;
    }
    *value = list(s, n, index, m);
    return 0;
}

static double now(void) {
    struct timespec t;
    clock_gettime(CLOCK_MONOTONIC, &t);
    return t.tv_sec * 1e9 + t.tv_nsec;
}

typedef uint32_t walker(const uint8_t *, size_t, uint32_t, uint32_t *, size_t, uint64_t *);

/* The walk for a bank: the number of frames, N where it is refused. */
static size_t walk_bank(walker *walk, size_t from, size_t n, uint32_t *index) {
    uint64_t value;
    return walk(stream + from, n, PASOREUM_BANK, index, 2 * N, &value) ? N : value;
}

/* The time of a walk over the whole stream, after one that is not timed. */
static double whole(walker *walk, uint32_t *index) {
    walk_bank(walk, 0, N, index);
    double t = now();
    for (int i = 0; i < TURNS; i++) walk_bank(walk, 0, N, index);
    return (now() - t) / TURNS;
}

/* The time of a walk over a tenth of the stream, the mean of its ten tenths, so that both times are of the same bytes. */
static double tenth(walker *walk, uint32_t *index) {
    walk_bank(walk, 0, N, index);
    double t = now();
    for (int i = 0; i < TURNS; i++)
        for (int k = 0; k < 10; k++) walk_bank(walk, k * PART, PART, index);
    return (now() - t) / TURNS / 10;
}

static void least(double *d, double t) {
    if (t < *d) *d = t;
}

/* Walks one stream both ways, holds the answers and the indexes to each other, and prints the times; answers whether they differ. */
static bool time_stream(int which) {
    long want;
    size_t len;
    const char *name = make(which, &want, &len);
    memset(here, 0xEE, sizeof here);
    memset(plain, 0xEE, sizeof plain);
    size_t got = walk_bank(pasoreum_walk, 0, N, here);
    bool differ = got != walk_bank(c_walk, 0, N, plain) || memcmp(here, plain, sizeof here) || (want >= 0 && got != (size_t)want);
    double c = 1e18, h = 1e18, all = 1e18, part = 1e18;
    for (int r = 0; r < RUNS; r++) {
        least(&c, whole(c_walk, plain));
        least(&h, whole(pasoreum_walk, here));
    }
    for (int r = 0; r < RUNS; r++) {
        least(&all, whole(pasoreum_walk, here));
        least(&part, tenth(pasoreum_walk, here));
    }
    printf("%-26s %6zu %9.3f %19.3f %7.2f %14.2f  %-6s %8.2f%s\n", name, got, c / N, h / N, h / c, GOAL, h / c < GOAL + 0.005 ? "met" : "missed", all / part, differ ? "  DIFFER" : "");
    return differ;
}

int main(void) {
    int failed = 0;
    for (int i = 0; i < STREAMS; i++) failed += time_stream(i);
    return failed != 0;
}
