/* A plain C reader of eight messages, with the parameters, the tests and the answers of pasoreum_read. */
#include "pasoreum.h"
#include <string.h>

#define NOT_READ 99 /* a head that is none of the eight */

static uint64_t u14(const uint8_t *p) { return p[0] | (uint64_t)p[1] << 7; }
static uint64_t u21(const uint8_t *p) { return u14(p) | (uint64_t)p[2] << 14; }
static uint64_t u28(const uint8_t *p) { return u21(p) | (uint64_t)p[3] << 21; }
static uint64_t u35(const uint8_t *p) { return u28(p) | (uint64_t)p[4] << 28; }

/* The XOR of all bytes. */
static uint8_t checksum(const uint8_t *p, size_t n) {
    uint8_t x = 0;
    for (size_t i = 0; i < n; i++) x ^= p[i];
    return x;
}

/* Lent space, and the frame; its fields are n bytes behind the head, without a checksum. */
struct reading {
    const uint8_t *frame;
    size_t len, n;
    uint8_t *data;
    size_t data_len;
    uint64_t *entries;
    size_t entries_len;
    uint64_t *answer;
};

/* Puts what stands before the message's own numbers, its head code and device. */
static void put_front(struct reading *r, size_t count, size_t from, size_t len, size_t places, uint64_t code) {
    uint64_t *a = r->answer;
    a[0] = count, a[1] = from, a[2] = len, a[3] = places, a[4] = code;
    a[5] = r->frame[2] == 127 ? PASOREUM_ALL_CALL : r->frame[2];
}

/* Whether the byte before F7 is the checksum. */
static int is_summed(const struct reading *r) { return checksum(r->frame + 1, r->len - 3) == r->frame[r->len - 2]; }

static uint32_t read_nak(struct reading *r) {
    if (r->n != 1) return PASOREUM_FIELD;
    put_front(r, 3, 0, 0, 0, 0x7E00);
    r->answer[6] = r->frame[4];
    return 0;
}

static uint32_t read_header(struct reading *r) {
    const uint8_t *f = r->frame + 4;
    if (r->n != 16 || f[2] < 8 || f[2] > 28) return PASOREUM_FIELD;
    if (f[15] != 0 && f[15] != 1 && f[15] != 127) return PASOREUM_FIELD;
    put_front(r, 9, 0, 0, 0, 0x0100);
    uint64_t *a = r->answer + 6;
    a[0] = u14(f), a[1] = f[2], a[2] = u21(f + 3), a[3] = u21(f + 6), a[4] = u21(f + 9), a[5] = u21(f + 12), a[6] = f[15];
    return 0;
}

static uint32_t read_packet(struct reading *r) {
    if (r->n != 121) return PASOREUM_FIELD;
    if (!is_summed(r)) return PASOREUM_SUM;
    put_front(r, 3, 5, 120, 0, 0x0200);
    r->answer[6] = r->frame[4];
    return 0;
}

static uint32_t read_extended(struct reading *r) {
    const uint8_t *f = r->frame + 5;
    if (r->n != 28 || f[2] < 8 || f[2] > 28) return PASOREUM_FIELD;
    uint8_t t = f[26];
    if ((t & 0x3F) > 3 && t != 0x7E && t != 0x7F) return PASOREUM_FIELD;
    put_front(r, 11, 0, 0, 0, 0x0505);
    uint64_t *a = r->answer + 6;
    a[0] = u14(f), a[1] = f[2], a[2] = u28(f + 3), a[3] = u28(f + 7);
    a[4] = u35(f + 11), a[5] = u35(f + 16), a[6] = u35(f + 21), a[7] = t, a[8] = f[27];
    return 0;
}

static uint32_t read_file(struct reading *r) {
    if (r->n < 2) return PASOREUM_FIELD;
    const uint8_t *f = r->frame + 5, *p = f + 2;
    size_t packed = r->n - 2, left = packed % 8, size = packed - (packed + 7) / 8;
    if (size > 111 || f[1] != size + size / 7 || left == 1) return PASOREUM_FIELD;
    if (left && p[packed - left] & ((1 << (8 - left)) - 1)) return PASOREUM_FIELD;
    if (!is_summed(r)) return PASOREUM_SUM;
    if (r->data_len < size) return PASOREUM_HOLD;
    size_t o = 0, i = 0;
    for (; packed - i >= 8; i += 8)
        for (int k = 0; k < 7; k++) r->data[o++] = (uint8_t)(p[i + 1 + k] | (p[i] << (k + 1) & 0x80));
    for (size_t k = 0; k + 1 < left; k++) r->data[o++] = (uint8_t)(p[i + 1 + k] | (p[i] << (k + 1) & 0x80));
    put_front(r, 3, 0, 0, size, 0x0702);
    r->answer[6] = f[0];
    return 0;
}

static uint32_t read_keys(struct reading *r) {
    const uint8_t *f = r->frame + 5;
    if (r->n != 401) return PASOREUM_FIELD;
    if (!is_summed(r)) return PASOREUM_SUM;
    if (r->entries_len < 128) return PASOREUM_HOLD;
    for (size_t i = 0; i < 128; i++) {
        const uint8_t *t = f + 17 + 3 * i;
        uint64_t v = (uint64_t)t[0] << 16 | (uint64_t)t[1] << 7 | t[2];
        r->entries[i] = v == 8339455 ? PASOREUM_NO_TUNING : v;
    }
    put_front(r, 3, 6, 16, 128, 0x0801);
    r->answer[6] = f[0];
    return 0;
}

static uint32_t read_scale(struct reading *r) {
    const uint8_t *f = r->frame + 5;
    if (r->n != 42) return PASOREUM_FIELD;
    if (!is_summed(r)) return PASOREUM_SUM;
    put_front(r, 16, 7, 16, 0, 0x0806);
    r->answer[6] = f[0], r->answer[7] = f[1];
    for (size_t i = 0; i < 12; i++) r->answer[8 + i] = u14(f + 18 + 2 * i) - 8192;
    return 0;
}

/* The offset and drum flag behind 00 00 01 03. */
static int read_offset(const uint8_t *p, uint64_t *map) {
    if (p[0] || p[1] || p[2] != 1 || p[3] != 3 || p[6] > 1) return 0;
    map[1] = u14(p + 4), map[2] = p[6];
    return 1;
}

/* An open with select: the length counts type, URL, its 00 and the map. */
static uint32_t read_select(struct reading *r) {
    const uint8_t *f = r->frame + 5;
    if (r->n < 9) return PASOREUM_FIELD;
    uint64_t type = !memcmp(f + 4, "DLS ", 4) ? 0 : !memcmp(f + 4, "SF2 ", 4) ? 1 : !memcmp(f + 4, "WAV ", 4) ? 2 : 3;
    const uint8_t *zero = type < 3 ? memchr(f + 8, 0, r->n - 8) : NULL;
    if (!zero || zero - f > 268) return PASOREUM_FIELD;
    size_t url = (size_t)(zero - f) - 8, have = r->n - 9 - url, said = u14(f + 2) - 5 - url, count = 0;
    const uint8_t *p = zero + 1;
    uint64_t map[10] = {0};
    if (type == 2) {
        if (!(said == 9 && have == 9) && !(said == 15 && have == 16)) return PASOREUM_FIELD;
        map[0] = have == 9 ? 2 : 3;
        map[3] = u14(p), map[4] = p[2], map[5] = p[3], map[6] = p[4], map[7] = p[5], map[8] = u14(p + 6) - 8192, map[9] = p[8];
        if (have == 16 && !read_offset(p + 9, map)) return PASOREUM_FIELD;
    } else if (said != have || have == 0) {
        return PASOREUM_FIELD;
    } else if (have == 7) {
        map[0] = 1;
        if (!read_offset(p, map)) return PASOREUM_FIELD;
    } else {
        count = p[0];
        if (have != 1 + 8 * count) return PASOREUM_FIELD;
        for (size_t i = 0; i < count; i++)
            if (p[8 * i + 7] > 3) return PASOREUM_FIELD;
        if (r->entries_len < count) return PASOREUM_HOLD;
        for (size_t i = 0; i < count; i++) {
            const uint8_t *e = p + 1 + 8 * i;
            uint64_t flags = (uint64_t)(e[6] & 1) << 1 | e[6] >> 1;
            r->entries[i] = u14(e) << 42 | (uint64_t)e[2] << 34 | u14(e + 3) << 18 | (uint64_t)e[5] << 10 | flags << 8 | e[7];
        }
    }
    put_front(r, 14, 13, url, count, 0x0B03);
    r->answer[6] = u14(f), r->answer[7] = type;
    memcpy(r->answer + 8, map, sizeof map);
    return 0;
}

/* The parameters, refusals and answers are those of pasoreum_read. */
__attribute__((noinline)) static uint32_t c_read(const uint8_t *s, size_t n, uint32_t kind, uint8_t *data, size_t data_len, uint64_t *entries,
                                                 size_t entries_len, uint64_t *answer, size_t answer_len) {
    if (kind > 1) return PASOREUM_NO_KIND;
    if (answer_len < PASOREUM_READING) return PASOREUM_NO_ROOM;
    if (n < 6 || s[0] != 0xF0 || s[n - 1] != 0xF7) return PASOREUM_SHAPE;
    for (size_t i = 1; i < n - 1; i++)
        if (s[i] > 127) return PASOREUM_SHAPE;
    if (s[1] != 0x7E) return PASOREUM_HEAD;
    struct reading r = {s, n, n - 5, data, data_len, entries, entries_len, answer};
    switch (s[3]) {
    case 0x7E: return read_nak(&r);
    case 0x01: return read_header(&r);
    case 0x02: return r.n < 1 ? PASOREUM_FIELD : (r.n -= 1, read_packet(&r));
    }
    r.n = n - 6;
    int summed = s[3] == 0x07 || s[3] == 0x08;
    if (summed && r.n < 1) return PASOREUM_FIELD;
    r.n -= summed;
    switch (s[3] << 8 | s[4]) {
    case 0x0505: return read_extended(&r);
    case 0x0702: return read_file(&r);
    case 0x0801: return read_keys(&r);
    case 0x0806: return read_scale(&r);
    case 0x0B03: return read_select(&r);
    }
    return NOT_READ;
}
