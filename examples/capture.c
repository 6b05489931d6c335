/*
 * capture bank|wav FILE: lists the frames of a capture of any length, a line each: offset, length, head, what it is, its main fields.
 *
 * cc -std=c99 -Iinclude examples/capture.c crates/pasoreum/out/libpasoreum.a -o capture
 */
#include "pasoreum.h"

#include <inttypes.h>
#include <stdio.h>
#include <string.h>

#define PIECE 65535u  /* the longest stream that is walked */
#define OVERLAP 4096u /* more than the longest frame has */
#define STEP (PIECE - OVERLAP)

/* What is lent to the library. */
static uint8_t piece[PIECE];
static uint32_t pairs[2 * (PIECE / 6)];
static uint8_t data[111];
static uint64_t entries[128];
static uint64_t answer[PASOREUM_READING];

/* A field: its name and its number. */
static void field(const char *name, uint64_t value) {
    printf(", %s %" PRIu64, name, value);
}

/* A field whose number may stand for all. */
static void field_or_all(const char *name, uint64_t value, uint64_t all) {
    if (value == all)
        printf(", %s all", name);
    else
        field(name, value);
}

/* Fields, each with its name. */
static void fields(const uint64_t *f, size_t count, const char *const *names) {
    size_t i;
    for (i = 0; i < count; i++)
        field(names[i], f[i]);
}

/* Text in quotes, its other bytes in hexadecimal digits. */
static void quoted(const uint8_t *text, size_t length) {
    size_t i;
    putchar('"');
    for (i = 0; i < length; i++) {
        if (text[i] < 0x20 || text[i] > 0x7E || text[i] == '"' || text[i] == '\\')
            printf("\\x%02X", (unsigned)text[i]);
        else
            putchar(text[i]);
    }
    putchar('"');
}

/* A name or a URL. */
static void text(const uint8_t *t, size_t length) {
    printf(", ");
    quoted(t, length);
}

/* The type of a file dump: four letters. */
static void letters(uint64_t type) {
    uint8_t four[4];
    int i;
    for (i = 0; i < 4; i++)
        four[i] = (uint8_t)(type >> (24 - 8 * i));
    printf(", type ");
    quoted(four, 4);
}

/* The type of a sound file. */
static void sound_file(uint64_t type) {
    printf(", type %s", type == 0 ? "DLS" : type == 1 ? "SF2" : "WAV");
}

/* The twelve notes of a scale. */
static void notes(const uint64_t *f) {
    int i;
    printf(", notes");
    for (i = 0; i < 12; i++)
        printf(" %" PRId64, (int64_t)f[i]);
}

/* The map of a select, which has so many bank maps. */
static void map(const uint64_t *f, uint64_t places) {
    static const char *const wav[] = {"bank", "program", "base", "low key", "high key"};
    if (f[0] == 0)
        printf(", %" PRIu64 " maps", places);
    if (f[0] == 1 || f[0] == 3) {
        field("bank offset", f[1]);
        field("drum", f[2]);
    }
    if (f[0] == 2 || f[0] == 3) {
        fields(f + 3, 5, wav);
        printf(", fine %" PRId64, (int64_t)f[8]);
        field("volume", f[9]);
    }
}

/* The fields of a sample dump. */
static void sample(uint64_t head, const uint64_t *f, const uint8_t *t, size_t length) {
    static const char *const header[] = {"sample", "format", "period", "length", "loop start", "loop end", "loop type"};
    static const char *const extended[] = {"length", "loop start", "loop end", "loop type", "channels"};
    static const char *const loop[] = {"loop type", "start", "end"};
    switch (head) {
    case 0x0100:
        printf("sample header");
        fields(f, 7, header);
        break;
    case 0x0200:
        printf("sample packet");
        field("packet", f[0]);
        printf(", %lu bytes", (unsigned long)length);
        break;
    case 0x0300:
        printf("sample request");
        field("sample", f[0]);
        break;
    case 0x0501:
    case 0x0506:
        printf(head == 0x0501 ? "loop points" : "extended loop points");
        field("sample", f[0]);
        field_or_all("loop", f[1], PASOREUM_ALL_LOOPS);
        fields(f + 2, 3, loop);
        break;
    case 0x0502:
    case 0x0507:
        printf(head == 0x0502 ? "loop points request" : "extended loop points request");
        field("sample", f[0]);
        field_or_all("loop", f[1], PASOREUM_ALL_LOOPS);
        break;
    case 0x0503:
        printf("sample name");
        field("sample", f[0]);
        text(t, length);
        break;
    case 0x0504:
        printf("sample name request");
        field("sample", f[0]);
        break;
    case 0x0505:
        printf("extended sample header");
        fields(f, 2, header);
        printf(", rate %" PRIu64 ".%03" PRIu64, f[2], (f[3] * 1000) >> 28);
        fields(f + 4, 5, extended);
        break;
    }
}

/* The fields of identity and of a file dump. */
static void file(uint64_t head, const uint64_t *f, const uint8_t *t, size_t length, uint64_t places) {
    switch (head) {
    case 0x0601:
        printf("identity request");
        break;
    case 0x0602:
        printf("identity reply, maker ");
        if (f[0] == 1)
            printf("00 %02X %02X", (unsigned)f[1], (unsigned)f[2]);
        else
            printf("%02X", (unsigned)f[1]);
        field("family", f[3]);
        field("member", f[4]);
        printf(", revision %u.%u.%u.%u", (unsigned)f[5], (unsigned)f[6], (unsigned)f[7], (unsigned)f[8]);
        break;
    case 0x0701:
    case 0x0703:
        printf(head == 0x0701 ? "file header" : "file request");
        field_or_all(head == 0x0701 ? "from device" : "for device", f[0], PASOREUM_ALL_CALL);
        letters(f[1]);
        if (head == 0x0701)
            field("length", f[2]);
        text(t, length);
        break;
    case 0x0702:
        printf("file packet");
        field("packet", f[0]);
        printf(", %" PRIu64 " bytes", places);
        break;
    }
}

/* The fields of a tuning. */
static void tuning(uint64_t head, const uint64_t *f, const uint8_t *t, size_t length, uint64_t places) {
    static const char *const program[] = {"bank", "program"};
    size_t banks = head == 0x0800 || head == 0x0801 ? 0 : 1;
    switch (head) {
    case 0x0800:
    case 0x0803:
        printf("tuning dump request");
        fields(f, banks + 1, program + 1 - banks);
        break;
    case 0x0801:
    case 0x0804:
        printf("key tuning dump");
        fields(f, banks + 1, program + 1 - banks);
        text(t, length);
        printf(", %" PRIu64 " keys", places);
        break;
    case 0x0805:
    case 0x0806:
        printf("scale tuning dump");
        fields(f, 2, program);
        text(t, length);
        notes(f + 2);
        break;
    case 0x0807:
        printf("note change");
        fields(f, 2, program);
        printf(", %" PRIu64 " keys", places);
        break;
    case 0x0808:
    case 0x0809:
        printf("scale tuning, %" PRIu32 " channels from %" PRIu32, pasoreum_channels((uint16_t)f[0]),
               pasoreum_lowest_channel((uint16_t)f[0]));
        notes(f + 1);
        break;
    }
}

/* The fields of all other messages. */
static void other(uint64_t head, const uint64_t *f, const uint8_t *t, size_t length, uint64_t places) {
    switch (head) {
    case 0x0901: printf("General MIDI 1 on"); break;
    case 0x0902: printf("General MIDI off"); break;
    case 0x0903: printf("General MIDI 2 on"); break;
    case 0x0B01:
    case 0x0B03:
        printf(head == 0x0B01 ? "sound file open" : "sound file open and select");
        field("context", f[0]);
        sound_file(f[1]);
        text(t, length);
        if (head == 0x0B03)
            map(f + 2, places);
        break;
    case 0x0B02:
        printf("sound file select");
        field("context", f[0]);
        map(f + 1, places);
        break;
    case 0x0B04:
        printf("sound file close");
        field("context", f[0]);
        break;
    case 0x7B00: printf("end of file"); break;
    case 0x7C00: printf("wait"); break;
    case 0x7D00: printf("cancel"); break;
    case 0x7E00:
    case 0x7F00:
        printf(head == 0x7E00 ? "not received (NAK)" : "received (ACK)");
        field("packet", f[0]);
        break;
    }
}

/* The line of a frame that stands at an offset of the file. */
static uint32_t line(unsigned long offset, const uint8_t *frame, size_t length, uint32_t kind) {
    const uint64_t *m = answer + PASOREUM_READING_NUMBERS;
    const uint8_t *t;
    uint64_t head;
    uint32_t refusal = pasoreum_read(frame, length, kind, data, sizeof data, entries, 128, answer, PASOREUM_READING);
    if (refusal != 0)
        return refusal;
    head = m[0];
    t = frame + answer[1];
    printf("%lu %lu %02X ", offset, (unsigned long)length, (unsigned)(head >> 8));
    if (head >= 0x0500 && head < 0x7B00)
        printf("%02X ", (unsigned)(head & 0xFF));
    if (head < 0x0600)
        sample(head, m + 2, t, (size_t)answer[2]);
    else if (head < 0x0800)
        file(head, m + 2, t, (size_t)answer[2], answer[3]);
    else if (head < 0x0900)
        tuning(head, m + 2, t, (size_t)answer[2], answer[3]);
    else
        other(head, m + 2, t, (size_t)answer[2], answer[3]);
    putchar('\n');
    return 0;
}

int main(int argc, char **argv) {
    unsigned long start = 0, frames = 0;
    uint32_t kind, refusal;
    size_t have;
    FILE *in;
    if (argc != 3 || (strcmp(argv[1], "bank") != 0 && strcmp(argv[1], "wav") != 0)) {
        fprintf(stderr, "usage: capture bank|wav FILE\n");
        return 1;
    }
    kind = strcmp(argv[1], "wav") == 0 ? PASOREUM_WAV : PASOREUM_BANK;
    in = fopen(argv[2], "rb");
    if (in == NULL) {
        fprintf(stderr, "capture: cannot open %s\n", argv[2]);
        return 1;
    }
    have = fread(piece, 1, PIECE, in);
    for (;;) {
        /* A full piece lists what begins before the next one, the last piece all. */
        size_t end = have < PIECE ? have : STEP;
        uint64_t found, i;
        refusal = pasoreum_walk(piece, have, kind, pairs, sizeof pairs / sizeof *pairs, &found);
        for (i = 0; refusal == 0 && i < found && pairs[2 * i] < end; i++) {
            refusal = line(start + pairs[2 * i], piece + pairs[2 * i], pairs[2 * i + 1], kind);
            frames++;
        }
        if (refusal != 0) {
            fprintf(stderr, "capture: refusal %" PRIu32 "\n", refusal);
            fclose(in);
            return 1;
        }
        if (have < PIECE)
            break;
        memmove(piece, piece + STEP, OVERLAP);
        start += STEP;
        have = OVERLAP + fread(piece + OVERLAP, 1, STEP, in);
    }
    if (ferror(in)) {
        fprintf(stderr, "capture: cannot read %s\n", argv[2]);
        fclose(in);
        return 1;
    }
    fclose(in);
    printf("%lu frames\n", frames);
    return 0;
}
