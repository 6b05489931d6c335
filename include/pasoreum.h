/*
 * Pasoreum: MIDI Universal Non-Real-Time System Exclusive frames written, read, and found in a stream.
 *
 * Link libpasoreum.a, which `rt lib` in crates/pasoreum makes. C99 or C++98 and later, on x86-64 Linux. Every function ends on every input, keeps no
 * state, allocates nothing, and may be called from any thread.
 *
 * A function that can refuse answers 0, or the number of a refusal. A refused call alters nothing of what it was lent; what it answers through
 * value, whole or fraction is then 0, but for PASOREUM_INDEX.
 *
 * What is lent goes in as a pointer and a length, in elements. A pointer is never null, also where the length is 0. What is written to overlaps
 * nothing else of the same call.
 */
#ifndef PASOREUM_H
#define PASOREUM_H

#include <stddef.h>
#include <stdint.h>

#ifdef __cplusplus
extern "C" {
#endif

/* ---- Refusals ---------------------------------------------------------------------------------------------------------------------------- */

/* contents written */
#define PASOREUM_HIGH 1            /* a name, a URL or a custom type has a byte above 127, or a URL has a 00 */
#define PASOREUM_LONG 2            /* a file name above 1,024 bytes, file data above 111, a note change above 127 entries */
#define PASOREUM_VALUE 3           /* a number of 28 bits that is 2^28 or more; a maker of one byte that is 00; a rate that is NaN, or 2^28 or more */
#define PASOREUM_KIND 4            /* an open with select whose map is of the other kind of sound file */
/* output */
#define PASOREUM_SPACE 5           /* the place is past the end, or the frame is longer than what follows it */
/* frame read */
#define PASOREUM_SHAPE 6           /* under 6 bytes, the first not F0, the last not F7, or a byte above 127 between them */
#define PASOREUM_HEAD 7            /* the second byte is not 7E, or a head that is none of the table's */
#define PASOREUM_FIELD 8           /* no message for this kind of sound file has the frame, and PASOREUM_SUM does not apply */
#define PASOREUM_SUM 9             /* another checksum byte would make it a frame */
#define PASOREUM_HOLD 10           /* fewer lent places than the message has bytes of file data or entries */
/* stream */
#define PASOREUM_STREAM 11         /* more than 65,535 bytes */
#define PASOREUM_INDEX 12          /* fewer whole pairs than frames; the value is the number of frames */
/* identity reading */
#define PASOREUM_UNEXPECTED_END 13
#define PASOREUM_BYTE_OVERFLOW 14
#define PASOREUM_NOT_IMPLEMENTED 15
/* this boundary */
#define PASOREUM_NO_MESSAGE 64     /* the numbers are no message: no such head code, too few or too many, or one that does not fit its field */
#define PASOREUM_NO_KIND 65        /* the kind is neither PASOREUM_BANK nor PASOREUM_WAV */
#define PASOREUM_NO_ROOM 66        /* fewer lent numbers than PASOREUM_READING or PASOREUM_IDENTITY */

/* ---- Kinds of sound file ------------------------------------------------------------------------------------------------------------------ */

#define PASOREUM_BANK 0u           /* DLS or SF2 */
#define PASOREUM_WAV 1u

/* ---- A message as numbers ----------------------------------------------------------------------------------------------------------------- */

/*
 * Head code, device, then the fields. The head code is the first head byte times 256 plus the second, or the first times 256 for a head of one
 * byte. The device is 0 to 255, or PASOREUM_ALL_CALL. A number above the type of its field is refused (NO_MESSAGE); one above the field's written
 * range is held at its edge by the writer. Signed fields are in two's complement of 64 bits (cast an int64_t). Text and entries stand beside the
 * numbers; what a message does not use of them is ignored.
 *
 * head code       fields, u8 where no type is given                                              text; entries
 * 0x0100          sample u16, format, period, length, loop start, loop end (u32 each),
 *                 loop type
 * 0x0200          running count                                                                  sample bytes
 * 0x0300          sample u16
 * 0x0501          sample u16, loop number, loop type, start, end (u32 each)
 * 0x0502          sample u16, loop number
 * 0x0503          sample u16                                                                     name
 * 0x0504          sample u16
 * 0x0505          sample u16, format, rate u32, its 2^28ths u32, length, start, end (u64 each),
 *                 extended loop type, channels
 * 0x0506          sample u16, loop number, extended loop type, start, end (u64 each)
 * 0x0507          sample u16, loop number
 * 0x0601          none
 * 0x0602          maker form (0 one byte, 1 two bytes), m1, m2 (0 in form 0), family u16,
 *                 member u16, four bytes of revision
 * 0x0701          sender device, type u32, length u32                                            name
 * 0x0702          running count                                                                  file data
 * 0x0703          requester device, type u32                                                     name
 * 0x0800          program
 * 0x0801          program                                                                        16 name bytes; tunings
 * 0x0803          bank, program
 * 0x0804          bank, program                                                                  16 name bytes; tunings
 * 0x0805          bank, program, twelve i8                                                       16 name bytes
 * 0x0806          bank, program, twelve i16                                                      16 name bytes
 * 0x0807          bank or PASOREUM_NO_BANK, program                                              ; note changes
 * 0x0808          channel set u16 (bit 0 is channel 1), twelve i8
 * 0x0809          channel set u16, twelve i16
 * 0x0901 to 0903  none
 * 0x0B01          context u16, file type                                                         URL
 * 0x0B02          context u16, map                                                               ; bank maps
 * 0x0B03          context u16, file type, map                                                    URL; bank maps
 * 0x0B04          context u16
 * 0x7B00, 7C00, 7D00   none
 * 0x7E00, 7F00    packet number
 *
 * A loop number is a u16, or PASOREUM_ALL_LOOPS. A loop type is 0, 1 or 127; an extended one 0 to 3, 0x40 to 0x43, 0x7E or 0x7F. The type of a
 * file dump is four bytes, the first highest. The file type of a reference is 0 DLS, 1 SF2, 2 WAV. A map is ten numbers: form (0 list of bank
 * maps, 1 bank offset, 2 WAV, 3 WAV with offset), offset u16, drum (0 or 1), target bank u16, program, base, low key, high key, fine i16, volume;
 * those that a form does not use are 0, and only form 0 has entries.
 *
 * Entries; every uint64_t is one. A tuning is semitone * 65,536 + fraction, or PASOREUM_NO_TUNING. A note change is key * 2^25 + tuning. A bank
 * map is
 * ((((((target bank * 256 + target program) * 65,536 + source bank) * 256 + source program) * 2 + source drum) * 2 + target drum) * 256 + volume).
 */
#define PASOREUM_ALL_CALL 256u
#define PASOREUM_ALL_LOOPS 65536u
#define PASOREUM_NO_BANK 256u
#define PASOREUM_NO_TUNING 16777216u

/* ---- Writing ------------------------------------------------------------------------------------------------------------------------------ */

/*
 * Writes the frame of a message at a place of the output. *value is the frame's length in bytes. Numbers out of a field's written range are held
 * at its edge; text and lists are cut or filled to the layout.
 * Refusals, in this order: NO_MESSAGE, HIGH, LONG, VALUE, KIND, SPACE.
 */
uint32_t pasoreum_write(const uint64_t *numbers, size_t numbers_len, const uint8_t *text, size_t text_len, const uint64_t *entries,
                        size_t entries_len, uint8_t *out, size_t out_len, size_t place, uint64_t *value);

/* ---- Reading ------------------------------------------------------------------------------------------------------------------------------ */

/* How many numbers an answer has room for, and how many of them stand before the message's own. */
#define PASOREUM_READING 20
#define PASOREUM_READING_NUMBERS 4

/* Places of data and of entries that are enough for every frame. */
#define PASOREUM_DATA 111
#define PASOREUM_ENTRIES 128

/*
 * Reads a frame for the kind of sound file that is open. File data goes to the start of data, tunings, note changes and bank maps to the start of
 * entries, one place each. The answer is
 *   answer[0]        how many numbers the message has, 16 at most
 *   answer[1], [2]   where its name, URL or sample bytes begin in the frame, and how many they are; both 0 where it has none
 *   answer[3]        how many places of data or of entries it took: its file data bytes or its entries; 0 where it has neither
 *   answer[4] ..     the message as numbers
 * What stands past these in data, entries and answer keeps its value; under a refusal all of it does.
 * Refusals, in this order: NO_KIND, NO_ROOM (answer_len under PASOREUM_READING), SHAPE, HEAD, FIELD, SUM, HOLD.
 */
uint32_t pasoreum_read(const uint8_t *frame, size_t frame_len, uint32_t kind, uint8_t *data, size_t data_len, uint64_t *entries,
                       size_t entries_len, uint64_t *answer, size_t answer_len);

/* ---- The walk ------------------------------------------------------------------------------------------------------------------------------ */

/* The longest stream, in bytes. */
#define PASOREUM_LONGEST_STREAM 65535u

/*
 * Lists the frames of a stream for a kind of sound file: pairs of offset and length, by rising offset, from the index's start. index_len counts
 * numbers, two for each pair. *value is the number of frames.
 * Refusals, in this order: NO_KIND, STREAM, INDEX. A stream of n bytes has at most n / 6 frames.
 */
uint32_t pasoreum_walk(const uint8_t *stream, size_t stream_len, uint32_t kind, uint32_t *index, size_t index_len, uint64_t *value);

/* ---- Identity reading ---------------------------------------------------------------------------------------------------------------------- */

/* How many numbers an identity reply has: maker form, m1, m2, family, member, four bytes of revision. */
#define PASOREUM_IDENTITY 9

/*
 * Reads an identity reply from its head (06 02) on, as the crate does: revision bytes are not tested, bytes after them are ignored.
 * Refusals, in this order: NO_ROOM (answer_len under PASOREUM_IDENTITY), then UNEXPECTED_END, BYTE_OVERFLOW and NOT_IMPLEMENTED as the bytes are
 * read.
 */
uint32_t pasoreum_identity(const uint8_t *bytes, size_t bytes_len, uint64_t *answer, size_t answer_len);

/* ---- Rates, cents, channels ------------------------------------------------------------------------------------------------------------------ */

/* Splits a rate into its whole part and 2^28ths, both exact; below zero counts as 0. Refusal: VALUE, and both are 0. */
uint32_t pasoreum_split_rate(double rate, uint32_t *whole, uint32_t *fraction);

/* The rate of a whole part and 2^28ths, rounded once. */
double pasoreum_join_rate(uint32_t whole, uint32_t fraction);

/* Cents as a fraction of a semitone in 16,383rds: held to 0 to 100, nearest, halves up; NaN gives 0. */
uint16_t pasoreum_cents(float cents);

/* How many channels a set names, bit 0 being channel 1. */
uint32_t pasoreum_channels(uint16_t set);

/* The lowest channel of a set, 1 to 16; 0 where it names none. */
uint32_t pasoreum_lowest_channel(uint16_t set);

#ifdef __cplusplus
}
#endif

#endif
