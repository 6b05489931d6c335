/* Times the plain C reader and reader::read on three frames, in one run. Both read into space that is kept and not cleared. */
#include "../reader.h"
#include <stdio.h>
#include <stdlib.h>
#include <time.h>

/* reading.rt.txt: the XOR of the answer's numbers, or 1,000,000,000 and the refusal's number */
extern uint64_t pasoreum_time_read(const uint8_t *frame, size_t len, uint8_t *data, size_t data_len, uint64_t *entries, size_t entries_len);

typedef uint64_t reader(const uint8_t *, size_t, uint8_t *, size_t, uint64_t *, size_t);

struct space {
    uint8_t data[128];
    uint64_t entries[128];
};

/* The plain reader, its answer as the same number. */
__attribute__((noinline)) static uint64_t c_time_read(const uint8_t *frame, size_t len, uint8_t *data, size_t data_len, uint64_t *entries, size_t entries_len) {
    uint64_t a[PASOREUM_READING];
    uint32_t refusal = c_read(frame, len, PASOREUM_BANK, data, data_len, entries, entries_len, a, PASOREUM_READING);
    if (refusal) return 1000000000 + (uint64_t)refusal;
    uint64_t v = a[1] ^ a[2] ^ a[3] ^ (a[5] == PASOREUM_ALL_CALL ? 127 : a[5]);
    for (size_t i = 2; i < a[0]; i++) v ^= a[4 + i];
    return v;
}

/* One run, in nanoseconds a call. */
static double run(reader *f, const uint8_t *frame, size_t len, struct space *s) {
    const int calls = 200000;
    struct timespec a, b;
    clock_gettime(CLOCK_MONOTONIC, &a);
    for (int i = 0; i < calls; i++) {
        uint64_t v = f(frame, len, s->data, sizeof s->data, s->entries, 128);
        __asm__ volatile("" : : "r"(v), "r"(s) : "memory");
    }
    clock_gettime(CLOCK_MONOTONIC, &b);
    return ((double)(b.tv_sec - a.tv_sec) * 1e9 + (double)(b.tv_nsec - a.tv_nsec)) / calls;
}

/* Ends the program where the two readers differ on a frame, or where it is not read. */
static void hold(const char *name, const uint8_t *frame, size_t len) {
    static struct space a, b;
    memset(&a, 0x55, sizeof a);
    memset(&b, 0x55, sizeof b);
    uint64_t x = c_time_read(frame, len, a.data, sizeof a.data, a.entries, 128);
    uint64_t y = pasoreum_time_read(frame, len, b.data, sizeof b.data, b.entries, 128);
    if (x != y || x >= 1000000000 || memcmp(&a, &b, sizeof a)) {
        printf("%s: C answers %llu, here %llu\n", name, (unsigned long long)x, (unsigned long long)y);
        exit(1);
    }
}

/* Prints the least times of eleven runs of each reader, taken in turns. */
static void row(const char *name, const uint8_t *frame, size_t len) {
    static struct space s;
    hold(name, frame, len);
    double c = 1e18, here = 1e18;
    for (int k = 0; k < 11; k++) {
        double t = run(c_time_read, frame, len, &s), u = run(pasoreum_time_read, frame, len, &s);
        c = t < c ? t : c;
        here = u < here ? u : here;
    }
    printf("%-24s %4zu bytes   C %8.1f ns   here %8.1f ns   ratio %5.2f\n", name, len, c, here, here / c);
}

/* Puts the checksum and F7 behind the bytes of a frame, and answers its length. */
static size_t ended(uint8_t *frame, size_t n) {
    frame[n] = checksum(frame + 1, n - 1);
    frame[n + 1] = 0xF7;
    return n + 2;
}

int main(void) {
    uint8_t header[] = {0xF0, 0x7E, 5, 1, 0x2C, 2, 16, 0x13, 0x31, 1, 0x20, 0x0D, 6, 10, 0, 0, 0x1F, 0x0D, 6, 127, 0xF7};
    row("sample header", header, sizeof header);

    uint8_t keys[512] = {0xF0, 0x7E, 5, 8, 1, 7};
    memcpy(keys + 6, "sixteen letters.", 16);
    for (int i = 0; i < 128; i++) {
        int none = i % 9 == 0;
        keys[22 + 3 * i] = none ? 127 : (uint8_t)i;
        keys[23 + 3 * i] = none ? 127 : (uint8_t)(i * 129 / 128 % 128);
        keys[24 + 3 * i] = none ? 127 : (uint8_t)(i * 129 % 128);
    }
    row("key dump, 128 tunings", keys, ended(keys, 22 + 384));

    uint8_t file[256] = {0xF0, 0x7E, 5, 7, 2, 9, 126};
    size_t n = 7, top = 0;
    for (int i = 0; i < 111; i++) {
        uint8_t b = (uint8_t)(i * 37);
        if (i % 7 == 0) {
            top = n++;
            file[top] = 0;
        }
        file[top] |= (uint8_t)((b >> 7) << (6 - i % 7));
        file[n++] = b & 127;
    }
    row("file packet, 111 bytes", file, ended(file, n));
    return 0;
}
