/* Times a plain C reader and pasoreum_read on the frames of eight messages, in one run. Both read into space that is kept and not cleared. */
#include "reader.h"
#include <stdio.h>
#include <stdlib.h>
#include <time.h>

#define GOAL 1.5
#define ROUNDS 15

typedef uint32_t reader(const uint8_t *, size_t, uint32_t, uint8_t *, size_t, uint64_t *, size_t, uint64_t *, size_t);

struct space {
    uint8_t data[111];
    uint64_t entries[128], answer[PASOREUM_READING];
};

static uint32_t read_with(reader *f, const uint8_t *frame, size_t len, struct space *s) {
    return f(frame, len, PASOREUM_BANK, s->data, sizeof s->data, s->entries, 128, s->answer, PASOREUM_READING);
}

/* One run, in nanoseconds a call. */
static double run(reader *f, const uint8_t *frame, size_t len, struct space *s) {
    const int calls = (int)(4000000 / (len + 20));
    struct timespec a, b;
    clock_gettime(CLOCK_MONOTONIC, &a);
    for (int i = 0; i < calls; i++) {
        uint32_t v = read_with(f, frame, len, s);
        __asm__ volatile("" : : "r"(v), "r"(s) : "memory");
    }
    clock_gettime(CLOCK_MONOTONIC, &b);
    return ((double)(b.tv_sec - a.tv_sec) * 1e9 + (double)(b.tv_nsec - a.tv_nsec)) / calls;
}

/* Ends the program where the two readers differ on a frame; answers what both answer. */
static uint32_t hold(const char *name, const uint8_t *frame, size_t len) {
    static struct space a, b;
    memset(&a, 0x55, sizeof a);
    memset(&b, 0x55, sizeof b);
    uint32_t x = read_with(c_read, frame, len, &a), y = read_with(pasoreum_read, frame, len, &b);
    if (x != y || memcmp(&a, &b, sizeof a)) {
        printf("%s: C answers %u, here %u, or their space differs\n", name, x, y);
        exit(1);
    }
    return x;
}

/* Prints the least times of the rounds, taken in turns. Before it both read every frame with one byte outside the head changed. */
static void row(const char *name, size_t head, uint8_t *frame, size_t len) {
    static struct space s;
    if (hold(name, frame, len)) {
        printf("%s is not read\n", name);
        exit(1);
    }
    for (size_t i = 0; i < len; i++)
        for (int v = 0; v < 256; v++) {
            uint8_t was = frame[i];
            if (i < 3 || i >= 3 + head) frame[i] = (uint8_t)v;
            hold(name, frame, len);
            frame[i] = was;
        }
    double c = 1e18, here = 1e18;
    for (int k = 0; k < ROUNDS; k++) {
        double t = run(c_read, frame, len, &s), u = run(pasoreum_read, frame, len, &s);
        c = t < c ? t : c;
        here = u < here ? u : here;
    }
    printf("%-26s %6zu %9.1f %19.1f %7.2f %14.2f  %s\n", name, len, c, here, here / c, GOAL, here / c < GOAL + 0.005 ? "met" : "missed");
}

/* The frame of a message as numbers, written by pasoreum_write. */
static void message(const char *name, size_t head, const uint64_t *numbers, size_t n, const uint8_t *text, size_t text_len, const uint64_t *entries, size_t entries_len) {
    static uint8_t frame[2048];
    uint64_t len;
    if (pasoreum_write(numbers, n, text, text_len, entries, entries_len, frame, sizeof frame, 0, &len)) {
        printf("%s is not written\n", name);
        exit(1);
    }
    row(name, head, frame, len);
}

#define COUNT(a) (sizeof(a) / sizeof *(a))

int main(void) {
    static const uint64_t nak[] = {0x7E00, 5, 3}, header[] = {0x0100, 5, 300, 16, 22675, 100000, 10, 99999, 127}, packet[] = {0x0200, 5, 9};
    static const uint64_t extended[] = {0x0505, 5, 300, 16, 44100, 1 << 27, 5000000000, 10, 4999999999, 0, 2}, file[] = {0x0702, 5, 9};
    static const uint64_t keys[] = {0x0801, 5, 7}, none[1];
    static const uint8_t name[] = "sixteen letters.", url[] = "file:///sounds/bank.dls";
    uint64_t scale[16] = {0x0806, 5, 1, 7}, select[14] = {0x0B03, 5, 300}, tunings[128], maps[127];
    uint8_t samples[120], data[111];
    for (int i = 0; i < 120; i++) samples[i] = (uint8_t)(i * 7 % 128);
    for (int i = 0; i < 111; i++) data[i] = (uint8_t)(i * 37);
    for (int i = 0; i < 12; i++) scale[4 + i] = (uint64_t)(int64_t)((i - 6) * 700);
    for (uint64_t i = 0; i < 128; i++) tunings[i] = i % 9 == 0 ? PASOREUM_NO_TUNING : i << 16 | i * 129 % 16384;
    for (uint64_t i = 0; i < 127; i++) maps[i] = i * 129 << 42 | i << 34 | i * 65 % 16384 << 18 | (127 - i) << 10 | i % 4 << 8 | i;
    message("NAK", 1, nak, COUNT(nak), name, 0, none, 0);
    message("sample header", 1, header, COUNT(header), name, 0, none, 0);
    message("sample packet, 120 bytes", 1, packet, COUNT(packet), samples, 120, none, 0);
    message("extended header", 2, extended, COUNT(extended), name, 0, none, 0);
    message("file packet, 111 bytes", 2, file, COUNT(file), data, 111, none, 0);
    message("key dump, 128 tunings", 2, keys, COUNT(keys), name, 16, tunings, 128);
    message("scale dump, 2 bytes", 2, scale, COUNT(scale), name, 16, none, 0);
    message("open-select, 127 maps", 2, select, COUNT(select), url, sizeof url - 1, maps, 127);
    return 0;
}
