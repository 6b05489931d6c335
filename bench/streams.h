/* The ten streams of 65,535 bytes that the walk is tested and timed on. */
#include <stddef.h>
#include <stdint.h>
#include <stdlib.h>
#include <string.h>

#define N 65535
#define STREAMS 10
static uint8_t stream[N + 1];

/* frames of one length, one after another, and no frame in what is left */
static void fill(const uint8_t *frame, size_t len) {
    size_t i = 0;
    for (; i + len <= N; i += len) memcpy(stream + i, frame, len);
    for (; i < N; i++) stream[i] = 0;
}

/* a sample packet of zeros */
static void fill_packets(void) {
    static uint8_t packet[127];
    packet[0] = 0xF0, packet[1] = 0x7E, packet[3] = 2, packet[125] = 0, packet[126] = 0xF7;
    for (size_t i = 1; i < 125; i++) packet[125] ^= packet[i];
    fill(packet, 127);
}

/* a key dump */
static void fill_dumps(void) {
    static uint8_t dump[408];
    dump[0] = 0xF0, dump[1] = 0x7E, dump[3] = 8, dump[4] = 1, dump[406] = 0, dump[407] = 0xF7;
    for (size_t i = 0; i < 16; i++) dump[6 + i] = 0x20;
    for (size_t i = 0; i < 128; i++) dump[22 + 3 * i] = i;
    for (size_t i = 1; i < 406; i++) dump[406] ^= dump[i];
    fill(dump, 408);
}

/* makes a stream, the streams in order: its name; how many frames it has, -1 where that is not known; and the length of each */
static const char *make(int which, long *want, size_t *len) {
    static const uint8_t identity[6] = {0xF0, 0x7E, 0x7F, 6, 1, 0xF7};
    static const uint8_t header[21] = {0xF0, 0x7E, 0, 1, 1, 0, 0x1C, 0x13, 0x31, 1, 0x68, 7, 0, 0, 0, 0, 0x7F, 0x7F, 0x7F, 0x7F, 0xF7};
    static const char *const names[STREAMS] = {"all F0", "F0 90", "F0 F7", "no F0", "frames of 6", "frames of 21", "frames of 127", "frames of 408", "random", "random, many F0 and F7"};
    static const size_t lens[STREAMS] = {0, 0, 0, 0, 6, 21, 127, 408, 0, 0};
    *len = lens[which];
    *want = *len ? (long)(N / *len) : which < 4 ? 0 : -1;
    if (which == 0) memset(stream, 0xF0, N);
    if (which == 1) for (size_t i = 0; i < N; i++) stream[i] = i & 1 ? 0x90 : 0xF0;
    if (which == 2) for (size_t i = 0; i < N; i++) stream[i] = i & 1 ? 0xF7 : 0xF0;
    if (which == 3) memset(stream, 0x11, N);
    if (which == 4) fill(identity, 6);
    if (which == 5) fill(header, 21);
    if (which == 6) fill_packets();
    if (which == 7) fill_dumps();
    if (which == 8) {
        srand(7);
        for (size_t i = 0; i < N; i++) stream[i] = rand() >> 7;
    }
    if (which == 9) for (size_t i = 0; i < N; i++) {
        int r = (rand() >> 5) % 8;
        stream[i] = r == 0 ? 0xF0 : r == 1 ? 0xF7 : r == 2 ? 0x7E : r == 3 ? 6 : (rand() >> 9) & 127;
    }
    return names[which];
}
