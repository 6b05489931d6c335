#!/usr/bin/env python3
"""Writes the files that the desk is tried on: the sample archive, and the data of the batch of commands.

usage: tests/make_desk_samples.py    (writes below crates/desk/data and crates/desk_runs/data)
"""
import os

ROOT = os.path.join(os.path.dirname(os.path.abspath(__file__)), "..", "crates")


def low_first(value, groups):
    return [value >> 7 * i & 127 for i in range(groups)]


def frame(device, *body, is_summed=False):
    inner = [0x7E, device]
    for part in body:
        inner += part if isinstance(part, (list, bytes)) else [part]
    if is_summed:
        total = 0
        for b in inner:
            total ^= b
        inner.append(total)
    return bytes([0xF0] + inner + [0xF7])


def name16(text):
    return list(text.encode().ljust(16))


def packed(data):
    out = []
    for i in range(0, len(data), 7):
        group = data[i:i + 7]
        out.append(sum((b >> 7) << 6 - k for k, b in enumerate(group)))
        out += [b & 127 for b in group]
    return out


def file_packet(number, data):
    return frame(0, 7, 2, number, len(data) + len(data) // 7, packed(data), is_summed=True)


def file_header(kind, length, name):
    return frame(0, 7, 1, 0, kind, low_first(length, 4), name)


def tuning(cents_above_key_0):
    pitch = round(cents_above_key_0 * 16384 / 100)
    return [pitch >> 14, pitch >> 7 & 127, pitch & 127]


IDENTITY_REQUEST = frame(0x7F, 6, 1)
IDENTITY_REPLY = frame(0x10, 6, 2, 0x41, low_first(300, 2), low_first(7, 2), [1, 0, 2, 0])
SAMPLE_REQUEST = frame(1, 3, low_first(300, 2))
SAMPLE_HEADER = frame(0, 1, low_first(300, 2), 16, low_first(22675, 3), low_first(40, 3), low_first(8, 3), low_first(39, 3), 0)
SAMPLE_PACKET = frame(0, 2, 0, [(i * 5) % 128 for i in range(120)], is_summed=True)
SAMPLE_NAME = frame(0, 5, 3, low_first(300, 2), 0, 4, b"Kick")
EXTENDED = frame(0, 5, 5, low_first(301, 2), 24, low_first(48000, 4), low_first(0, 4), low_first(96000, 5), low_first(0, 5),
                 low_first(95999, 5), 0x7F, 2)
LOOP = frame(0, 5, 1, low_first(300, 2), [0x7F, 0x7F], 0x7F, low_first(0, 3), low_first(0, 3))
# the fifths of the keys are pure, in steps of 701.955 cents from C
JUST = [0, 11.7313, 3.91, -5.8651, -13.6863, -1.955, -9.7763, 1.955, 13.6863, -15.6413, -3.91, -11.7313]
KEYS = frame(0x7F, 8, 1, 5, name16("home scale"), sum((tuning(100 * k + JUST[k % 12]) if k else [0, 0, 0] for k in range(127)), [])
             + [0x7F, 0x7F, 0x7F], is_summed=True)
SCALE = frame(0x7F, 8, 5, 0, 5, name16("quarter comma"), [64 + v for v in (0, -24, -7, 10, -14, 3, -21, -3, -27, -10, 7, -17)],
              is_summed=True)
SCALE_2 = frame(0x7F, 8, 6, 0, 6, name16("fine"), sum((low_first(8192 + v, 2) for v in range(-600, 600, 100)), []), is_summed=True)
CHANNELS = frame(0x7F, 8, 8, [3, 127, 127], [64 + v for v in range(-6, 6)])
CHANNELS_2 = frame(0x7F, 8, 9, [0, 0, 5], sum((low_first(8192 + v, 2) for v in range(12)), []))
NOTE_CHANGE = frame(0, 8, 7, 0, 5, 2, 69, tuning(6900.5), 70, [0x7F, 0x7F, 0x7F])
NOTES = b"the lines of a club evening, one behind the other\n" * 5
ONE_KEY = frame(0, 8, 7, 0, 5, 1, 69, tuning(6900.5))
ONE_CHANNEL = frame(0x7F, 8, 8, [0, 0, 1], [64] * 12)
# a byte order mark, comments, decimal commas, names of keys, a line end that is CR alone; half-way between two steps, and just below it
PEOPLE = ("\ufeff# my tuning\r60 -24,5 ! flat\r\nC#4 .5\nDb5 5.\n\n# the upper keys\nbb3 \u22123,25 #low\r62 0.0030517578125\n63 0.00305175781249999999\n"
          "64 76.04900\n G9 -\n65 +0000000000000.1")
BULK_REQUEST = frame(0, 8, 0, 5)
BANK_REQUEST = frame(0, 8, 3, 1, 5)
SONG = bytes((i * 7 + i // 256) % 256 for i in range(300))
HEADER = file_header(b"MIDI", len(SONG), b"SONG")
PACKETS = [file_packet(i, SONG[111 * i:111 * i + 111]) for i in range(3)]
END = frame(0, 0x7B, 0)
CANCEL = frame(0, 0x7D, 0)
OPEN = frame(0, 0x0B, 1, low_first(1, 2), low_first(4 + 17 + 1, 2), b"DLS ", b"file://piano.dls\x20"[:17], 0)
SELECT = frame(0, 0x0B, 2, low_first(1, 2), low_first(9, 2), [1, 0, 0, 5, 1, 0, 7, 1, 100])
SELECT_OFFSET = frame(0, 0x0B, 2, low_first(1, 2), low_first(7, 2), [0, 0, 1, 3, 2, 0, 1])
OPEN_SELECT = frame(0, 0x0B, 3, low_first(2, 2), low_first(5 + 5 + 9, 2), b"WAV ", b"a.wav", 0, [0, 0, 9, 60, 0, 127, 0, 65, 127])
CLOSE = frame(0, 0x0B, 4, low_first(1, 2), [0, 0])
FILE_REQUEST = frame(0, 7, 3, 1, b"TEXT", b"NOTES")
CUSTOM = file_header(b"XYZ ", 0, b"")
HANDSHAKES = frame(0, 0x7F, 3) + frame(0, 0x7E, 4) + frame(0, 0x7D, 0) + frame(0, 0x7C, 0)
MIDI_MODES = frame(0x7F, 9, 1) + frame(0x7F, 9, 2) + frame(0x7F, 9, 3)


def wrong_sum(f):
    return f[:-2] + bytes([f[-2] ^ 1]) + f[-1:]


WRONG_FIELD = frame(0, 8, 8, [4, 0, 0], [64] * 12)
COMMERCIAL = bytes([0xF0, 0x41, 0x10, 0x42, 0x12, 0x40, 0x00, 0x7F, 0x00, 0x41, 0xF7])
CUT_FRAME = SAMPLE_REQUEST[:4]
REAL_TIME = bytes([0xF0, 0x7E, 0x00, 0x06, 0xF8, 0x01, 0xF7])
SHORT = bytes([0xF0, 0x7E, 0xF7])

SAMPLE = b"".join([
    bytes([0x90, 0x3C, 0x40, 0x80, 0x3C, 0x00]), IDENTITY_REQUEST, IDENTITY_REPLY, COMMERCIAL, SAMPLE_REQUEST, SAMPLE_HEADER, SAMPLE_PACKET,
    SAMPLE_NAME, bytes([0xFE, 0xFE]), KEYS, SCALE, NOTE_CHANGE, CUT_FRAME, HEADER, PACKETS[0], wrong_sum(PACKETS[1]),
    frame(0, 0x7E, 1), PACKETS[1], PACKETS[2], END, WRONG_FIELD, OPEN, SELECT, CLOSE, frame(0x7F, 9, 1), REAL_TIME,
])

MORE = b"".join([
    EXTENDED, LOOP, frame(0, 5, 2, low_first(300, 2), low_first(2, 2)), frame(0, 5, 4, low_first(300, 2)),
    frame(0, 5, 6, low_first(300, 2), low_first(1, 2), 0x41, low_first(70000, 5), low_first(90000, 5)),
    frame(0, 5, 7, low_first(300, 2), [0x7F, 0x7F]), SCALE_2, CHANNELS, CHANNELS_2, BULK_REQUEST, BANK_REQUEST, SELECT_OFFSET, OPEN_SELECT,
    FILE_REQUEST, CUSTOM, HANDSHAKES, MIDI_MODES, frame(0x10, 6, 2, [0, 0, 0x0E], low_first(1, 2), low_first(2, 2), [1, 2, 3, 4]),
    frame(0, 8, 4, 3, 9, name16("a\x01\"b"), sum((tuning(100 * k) for k in range(128)), []), is_summed=True), SHORT,
])


def longest():
    maps = [127] + [0, 0, 1, 0, 0, 2, 0, 127] * 127
    url = b"u" * 260
    return frame(0, 0x0B, 3, low_first(1, 2), low_first(5 + len(url) + len(maps), 2), b"DLS ", url, 0, maps)


def long_file(size, places):
    """Low bytes, with the longest frame at each place."""
    out = bytearray(i % 128 for i in range(size))
    for p in places:
        f = longest()
        out[p:p + len(f)] = f
    return bytes(out)


def file_dump(name, content):
    packets = [file_packet(i // 111 % 128, content[i:i + 111]) for i in range(0, len(content), 111)]
    return file_header(b"BIN ", len(content), name) + b"".join(packets) + END


def sparse(size, places):
    """Zeros, with a request at each place."""
    out = bytearray(size)
    for p in places:
        out[p:p + 6] = IDENTITY_REQUEST
    return bytes(out)


PIECE, NEXT = 65535, 65535 - 4096
N = len(longest())
# around the start of the second and the third piece, and around the end of the first: a frame that ends there, lies across, begins there
PLACES = [NEXT - N, NEXT, PIECE - N, PIECE, 2 * NEXT - N + 1, 2 * NEXT + 1, NEXT + PIECE - 600, NEXT + PIECE + N, 3 * NEXT - 1]


def write(crate, name, content):
    path = os.path.join(ROOT, crate, "data", name)
    os.makedirs(os.path.dirname(path), exist_ok=True)
    with open(path, "wb") as out:
        out.write(content)


if __name__ == "__main__":
    write("desk", "sample.syx", SAMPLE)
    runs = {
        "sample.syx": SAMPLE,
        "more.syx": MORE,
        "long.syx": long_file(3 * NEXT + N, PLACES),
        "unended.syx": bytes([0xF0]) + bytes(70000) + bytes([0xF7]) + IDENTITY_REQUEST,
        "cut.syx": IDENTITY_REQUEST + HEADER + PACKETS[0] + PACKETS[1][:60],
        "gap.syx": HEADER + PACKETS[0] + PACKETS[2] + END,
        "again.syx": HEADER + PACKETS[0] + PACKETS[1] + PACKETS[1] + PACKETS[2],
        "noend.syx": PACKETS[0] + PACKETS[1],
        "cancelled.syx": PACKETS[0] + PACKETS[1] + CANCEL,
        "another.syx": PACKETS[0] + HEADER + PACKETS[0] + PACKETS[1] + PACKETS[2] + END,
        "empty.syx": b"",
        "nested.syx": frame(0, 0x7C, 0) + file_dump(b"TUNING", KEYS),
        "dump.syx": file_dump(b"REQUESTS", sparse(60000, [0, 49900, 50280, 53500, 53700, 59994])),
        "text.syx": file_dump(b"NOTES", NOTES),
        "torn.syx": file_header(b"TEXT", len(NOTES), b"NOTES") + file_packet(0, NOTES[:111]) + file_packet(2, NOTES[222:]) + END,
        "ones.syx": ONE_KEY + ONE_CHANNEL + file_packet(0, b"a") + wrong_sum(KEYS) + wrong_sum(SAMPLE_PACKET) + SHORT,
        "format.mid": b"MThd\0\0\0\x06\0\0\0\x01\0\x60MTrk\0\0\0\x04\0\xFF\x2F\0",
        "sound.wav": b"RIFF\x24\0\0\0WAVEfmt ",
        "scale.scl": b"! scale.scl\n!\njust\n 12\n!\n 16/15\n 9/8\n",
        "listing.txt": b"F0 7E 7F 06 01 F7\r\n",
        "marked.txt": b"\xEF\xBB\xBFF0 7E\n",
    }
    runs["home.txt"] = "".join("%d %+.4f\n" % (k, JUST[k % 12]) for k in range(1, 127)).encode() + b"127 -\n"
    runs["few.txt"] = b"69 -1.5\r\n\r\n  60\t0.25\n"
    runs["none.txt"] = b""
    runs["no_key.txt"] = b"60 0\n128 0\n"
    runs["no_number.txt"] = b"60 0\n61 flat\n"
    runs["decimals.txt"] = b"61 0.12345\n"
    runs["too_low.txt"] = b"0 -1\n"
    runs["too_high.txt"] = b"127 99.9939\n"
    runs["twice.txt"] = b"60 1\n61 2\n60 3\n"
    runs["three.txt"] = b"60 1 2\n"
    runs["one.txt"] = b"60\n"
    runs["people.txt"] = PEOPLE.encode()
    runs["comments.txt"] = b"# nothing\n\n  ! here\r\n"
    runs["returns.txt"] = b"60 1\r61 2\r62 flat\r"
    runs["no_note.txt"] = b"C4 1\nH4 0\n"
    runs["no_octave.txt"] = b"C10 0\n"
    runs["sharp.txt"] = b"G#9 0\n"
    runs["points.txt"] = b"60 1.2.3\n"
    runs["no_digit.txt"] = b"60 .\n"
    runs["commas.txt"] = b"0,-24,-7,10,-14,3,-21,-3,-27,-10,7,-17\n"
    runs["noted.txt"] = "# one third\r0 \u221224,5 -7 +10. -14 ,5 ! up to F\n-21 -3 -27 -10 7 -17,00000000000000001".encode()
    runs["meantone.txt"] = b"0 -24 -7 10 -14 3\n-21 -3 -27 -10 7 -17\n"
    runs["fine.txt"] = b"0 -24.5 -6.8 10.3 -13.7 3.4 -20.5 -3.4 -27.4 -10.3 6.8 -17.1\n"
    runs["ends.txt"] = b"-100 99.9878 63.5 -64.5 0.0061 -0.0061 0 0 0 0 0 0\n"
    runs["eleven.txt"] = b"0 0 0 0 0 0 0 0 0 0 0\n"
    runs["thirteen.txt"] = b"0 0 0 0 0 0 0 0 0 0 0 0 0\n"
    runs["wide.txt"] = b"0 100 0 0 0 0 0 0 0 0 0 0\n"
    runs["words.txt"] = b"0 0 x 0 0 0 0 0 0 0 0 0\n"
    for name, content in runs.items():
        write("desk_runs", name, content)
