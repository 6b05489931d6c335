#!/usr/bin/env python3
"""vectors.py FOLDER: writes the vector files of `replay` that are worked out here, into the folder of write.vec, read.vec, walk.vec,
identity.vec, rates.vec and sine440.sds: worked.vec, standards.vec, select.vec, real.vec, short.vec, wrong.vec, cut.vec, malformed.vec, unknown.vec.
"""
import copy
import struct
import sys
from functools import reduce

WRITE, READ, WALK, IDENTITY, CENTS, SPLIT, JOIN, RESEND, SHORT, RECORDS = 1, 2, 3, 4, 5, 6, 7, 64, 65, 66
LONG, VALUE, SHAPE, FIELD, SUM = 2, 3, 6, 8, 9
ALL_CALL = 256
NO_TUNING = 2 ** 24


def case(op, numbers=(), text=b'', entries=(), refusal=0, value=0, out=(), data=b'', found=()):
    return {'op': op, 'numbers': list(numbers), 'text': bytearray(text), 'entries': list(entries), 'refusal': refusal, 'value': value,
            'out': list(out), 'bytes': bytearray(data), 'list': list(found)}


def packed(c):
    def numbers(form, v):
        return struct.pack('<%s%dQ' % (form, len(v)), len(v), *(n % 2 ** 64 for n in v))

    def text(t):
        return struct.pack('<I', len(t)) + bytes(t)

    return (struct.pack('<B', c['op']) + numbers('B', c['numbers']) + text(c['text']) + numbers('H', c['entries'])
            + struct.pack('<BQ', c['refusal'], c['value']) + numbers('B', c['out']) + text(c['bytes']) + numbers('I', c['list']))


def cases(s):
    at = 0

    def take(form):
        nonlocal at
        v = struct.unpack_from('<' + form, s, at)
        at += struct.calcsize('<' + form)
        return list(v)

    while at < len(s):
        op, n = take('BB')
        numbers = take('%dQ' % n)
        text = take('%dB' % take('I')[0])
        entries = take('%dQ' % take('H')[0])
        refusal, value, n = take('BQB')
        out = take('%dQ' % n)
        data = take('%dB' % take('I')[0])
        yield case(op, numbers, text, entries, refusal, value, out, data, take('%dQ' % take('I')[0]))


def write(numbers, frame, text=b'', entries=(), op=WRITE):
    return case(op, numbers, text, entries, value=len(frame), data=frame)


def read(frame, out, data=b'', found=(), kind=0, lent=(0, 0)):
    return case(READ, [kind, *lent], frame, out=out, data=data, found=found)


def summed(text):
    inside = bytes.fromhex(text)
    return b'\xf0' + inside + bytes([reduce(int.__xor__, inside)]) + b'\xf7'


def frame_of(text):
    return b'\xf0' + bytes.fromhex(text) + b'\xf7'


def bits(rate):
    return struct.unpack('<Q', struct.pack('<d', rate))[0]


def both(numbers, frame):
    """A message that is its own settled form, without text and entries: written and read."""
    return [write(numbers, frame), read(frame, numbers)]


def worked():
    """The frames that document 01 works out, by their numbers there."""
    request, nak, sample = frame_of('7E 7F 06 01'), frame_of('7E 7F 7E 7F'), frame_of('7E 01 03 2C 02')
    header = frame_of('7E 00 01 01 00 1C 13 31 01 68 07 00 00 00 00 7F 7F 7F 7F')
    packet, long_packet = frame_of('7E 00 07 02 00 01 40 7F 45'), summed('7E 00 07 02 00 7E' + ' 00' * 127)
    close, no_maps = frame_of('7E 00 0B 04 7F 7F 00 00'), frame_of('7E 00 0B 02 01 00 01 00 00')
    one_map = frame_of('7E 00 0B 02 00 00 09 00 01 00 00 00 00 00 00 00 7F')
    none, wav = [0] * 10, [2, 0, 0, 1, 0, 0, 0, 0, -8192, 127]
    stream = bytes.fromhex('90 3C F0 7E 00 F0 7E 00 7B 00 F7 F7')
    rate = frame_of('7E 00 05 05 00 00 08 44 58 02 00 00 00 00 40' + ' 00' * 17)
    silence, name = summed('7E 00 02 00' + ' 00' * 120), b' ' * 16
    scale = summed('7E 00 08 05 00 00' + ' 20' * 16 + ' 40' * 12)
    assert silence[125] == 0x7C and scale[35] == 0x73
    return [
        *both([0x0601, ALL_CALL], request),
        write([0x7E00, 200, 200], nak), read(nak, [0x7E00, ALL_CALL, 127]),
        *both([0x0300, 1, 300], sample),
        write([0x0100, 0, 1, 40, 22675, 1000, 0, 2097152, 0x7F], header), read(header, [0x0100, 0, 1, 28, 22675, 1000, 0, 2097151, 0x7F]),
        write([0x0702, 0, 0], packet, b'\xff'), read(packet, [0x0702, 0, 0], b'\xff', lent=(1, 0)),
        write([0x0702, 0, 0], long_packet, bytes(111)), read(long_packet, [0x0702, 0, 0], bytes(111), lent=(111, 0)),
        case(WRITE, [0x0702, 0, 0], bytes(112), refusal=LONG),
        write([0x0B04, 0, 16384], close), read(close, [0x0B04, 0, 16383]),
        *both([0x0B02, 0, 1, *none], no_maps),
        write([0x0B02, 0, 0, *none], one_map, entries=[127]), write([0x0B02, 0, 0, *none], one_map, entries=[127], op=RECORDS),
        read(one_map, [0x0B02, 0, 0, *none], found=[127], lent=(0, 1)),
        write([0x0B02, 0, 0, *wav], one_map), read(one_map, [0x0B02, 0, 0, *wav], kind=1),
        case(WALK, [0, 1], stream, value=1, found=[5, 6]), case(WALK, [0, 0]),
        case(SPLIT, [bits(44100.5)], out=[44100, 2 ** 27]), case(JOIN, [44100, 2 ** 27], value=bits(44100.5)),
        *both([0x0505, 0, 0, 8, 44100, 2 ** 27, 0, 0, 0, 0, 0], rate),
        write([0x0200, 0, 0], silence), read(silence, [0x0200, 0, 0], bytes(120)),
        write([0x0805, 0, 0, 0] + [0] * 12, scale, name), read(scale, [0x0805, 0, 0, 0] + [0] * 12, name),
    ]


def standards():
    """Frames that the standards print whole, written and read."""
    plain = [(0x0601, '06 01'), (0x0901, '09 01'), (0x0902, '09 02'), (0x0903, '09 03')]
    hands = [(0x7F00, '7F 00', [0]), (0x7F00, '7F 7F', [127]), (0x7E00, '7E 05', [5]), (0x7D00, '7D 00', []), (0x7C00, '7C 00', []), (0x7B00, '7B 00', [])]
    cs = [c for code, text in plain for c in both([code, ALL_CALL], frame_of('7E 7F ' + text))]
    cs += [c for code, text, number in hands for c in both([code, 0, *number], frame_of('7E 00 ' + text))]
    tunings = [(0x00, '00 00 00', 0), (0x3C, '3C 00 00', 0x3C << 16), (0x45, '45 00 00', 0x45 << 16), (0x7F, '7F 7F 7F', NO_TUNING)]
    changes = frame_of('7E 7F 08 07 00 01 04' + ''.join(' %02X %s' % (key, text) for key, text, _ in tunings))
    entries = [key << 25 | tuning for key, _, tuning in tunings]
    by_key = {key: (text, tuning) for key, text, tuning in tunings}
    every = [by_key.get(key, ('%02X 00 00' % key, key << 16)) for key in range(128)]
    dump = summed('7E 7F 08 01 01' + ' 20' * 16 + ''.join(' ' + text for text, _ in every))
    keys, name = [tuning for _, tuning in every], b' ' * 16
    return cs + [
        write([0x0807, ALL_CALL, 0, 1], changes, entries=entries), read(changes, [0x0807, ALL_CALL, 0, 1], found=entries, lent=(0, 4)),
        write([0x0801, ALL_CALL, 1], dump, name, keys), read(dump, [0x0801, ALL_CALL, 1], name, keys, lent=(0, 128)),
    ]


def select():
    """Selects (0B 02) by the length said and the bytes that follow, for both kinds."""
    context, offset, no = 5, [0, 0, 1, 3, 9, 1], None

    def frame(said, body):
        return frame_of('7E 03 0B 02')[:-1] + bytes([context, 0, said % 128, said // 128, *body]) + b'\xf7'

    def message(form, offset=0, drum=0, wav=(0, 0, 0, 0, 0, 0, 0)):
        return [0x0B02, 3, context, form, offset, drum, *wav]

    def entry(bank, prog, src_bank, src_prog, src_drum, dst_drum, volume):
        return (((((bank * 256 + prog) * 65536 + src_bank) * 256 + src_prog) * 2 + src_drum) * 2 + dst_drum) * 256 + volume

    one, other, nine = [2, 1, 4, 5, 0, 6, 3, 100], [7, 0, 8, 9, 2, 10, 1, 90], [2, 1, 4, 5, 0, 6, 3, 100, 7]
    entries = [entry(130, 4, 5, 6, 1, 1, 100), entry(7, 8, 265, 10, 1, 0, 90)]
    wav, nine_wav = (257, 1, 4, 5, 0, 390 - 8192, 100), (130, 4, 5, 0, 6, 12803 - 8192, 7)
    answers = [
        (1, [0], (message(0), []), no),
        (7, offset + [0], (message(1, 137, 0), []), no),
        (7, offset + [1], (message(1, 137, 1), []), no),
        (7, offset + [2], no, no),
        (9, [1] + one, (message(0), entries[:1]), (message(2, wav=wav), [])),
        (9, nine, no, (message(2, wav=nine_wav), [])),
        (9, [1] + one[:6] + [4, 100], no, (message(2, wav=(257, 1, 4, 5, 0, 518 - 8192, 100)), [])),
        (15, nine + offset + [1], no, (message(3, 137, 1, nine_wav), [])),
        (15, nine + offset, no, no),
        (16, nine + offset + [1], no, no),
        (17, [2] + one + other, (message(0), entries), no),
        (17, [1] + one + other, no, no),
    ]
    for said, body, *kinds in answers:
        for kind, answer in enumerate(kinds):
            bytes_ = frame(said, body)
            yield read(bytes_, answer[0], found=answer[1], kind=kind, lent=(0, 200)) if answer else case(READ, [kind, 0, 200], bytes_, refusal=FIELD)


def real(folder):
    """A sample dump that libsndfile wrote, and one that is damaged: a wrong sum, two loose bytes before a packet, the start of a packet."""
    dump = open(folder + '/sine440.sds', 'rb').read()
    places = [(0, 21)] + [(21 + 127 * i, 127) for i in range(56)]
    damaged = dump[:273] + bytes([dump[273] ^ 1]) + dump[274:275] + b'\x01\x02' + dump[275:430]
    return [
        case(WALK, [0, 57], dump, value=57, found=[n for pair in places for n in pair]),
        case(RESEND, text=dump, value=57, found=[0] * 57),
        case(WALK, [0, 3], damaged, value=3, found=[0, 21, 21, 127, 277, 127]),
        case(RESEND, text=damaged, value=5, found=[0, 0, SUM, SHAPE, SHAPE]),
    ]


def short():
    """All streams of 0 to 7 bytes over six. A frame of six bytes is a NAK with three devices and three numbers, or an end with three devices."""
    return [case(SHORT, [n, 6 ** n], value={6: 12, 7: 12 * 6 * 2}.get(n, 0)) for n in range(8)]


def first(cs, test):
    return copy.deepcopy(next(c for c in cs if test(c)))


def changed(c, **fields):
    """The case with other fields; a function is given the field that was."""
    for name, new in fields.items():
        c[name] = new(c[name]) if callable(new) else new
    return c


def at(i, by=1):
    """Adds to the number at a place."""
    return lambda v: v[:i] + type(v)([v[i] + by]) + v[i + 1:]


def shorter(v):
    return v[:-1]


def swapped(e):
    target, source = e >> 42, e >> 18 & 0xFFFF
    return source << 42 | e >> 34 << 34 & (1 << 42) - 1 | target << 18 | e & (1 << 18) - 1


def wrong_writes(writes):
    given = [c for c in writes if c['refusal'] == 0]
    yield changed(first(given, lambda c: c['numbers'][0] == 0x0100), bytes=lambda b: b[:7] + bytes([b[7] ^ 1]) + b[8:])
    yield changed(first(given, lambda c: c['numbers'][0] == 0x0200), bytes=shorter, value=lambda n: n - 1)
    yield changed(first(given, lambda c: c['numbers'][0] == 0x0501), bytes=lambda b: b + b'\0', value=lambda n: n + 1)
    yield changed(first(given, lambda c: c['numbers'][0] == 0x0501), refusal=VALUE, value=0, bytes=b'')
    yield changed(first(writes, lambda c: c['refusal'] == 1), refusal=LONG)
    yield changed(first(writes, lambda c: c['refusal'] == 1), refusal=0, value=3, bytes=b'\xf0\x7e\xf7')


def wrong_records(writes):
    selects = [c for c in writes if c['numbers'][0] in (0x0B02, 0x0B03)]
    lists = [c for c in selects if c['refusal'] == 0 and c['entries']]

    def two(c):
        return len(c['entries']) == 2 and len({n for e in c['entries'] for n in (e >> 42, e >> 18 & 0xFFFF)}) > 2

    yield changed(first(lists, two), op=RECORDS, entries=lambda v: [swapped(e) for e in v])
    yield changed(first(lists, two), op=RECORDS, entries=lambda v: v[::-1])
    yield changed(first(lists, two), op=RECORDS, entries=shorter)
    yield changed(first(lists, two), op=RECORDS, bytes=lambda b: b[:-3] + bytes([b[-3] ^ 1]) + b[-2:])
    yield changed(first(lists, lambda c: len(c['entries']) == 128), op=RECORDS, entries=lambda v: v[1:] + v[:1])
    yield changed(first(selects, lambda c: c['refusal'] != 0), op=RECORDS, refusal=0)


def wrong_reads(reads):
    given = [c for c in reads if c['refusal'] == 0]
    texts = [c for c in given if len(c['bytes']) > 1 and c['out'][0] != 0x0702]
    data = [c for c in given if len(c['bytes']) > 1 and c['out'][0] == 0x0702]
    lists = [c for c in given if len(c['list']) > 1]
    yield changed(first(reads, lambda c: c['refusal'] == SUM), refusal=FIELD)
    yield changed(first(reads, lambda c: c['refusal'] == 10), refusal=0)
    yield changed(first(given, lambda c: len(c['out']) > 6), out=at(5))
    yield changed(first(given, lambda c: len(c['out']) > 6), out=shorter)
    for some in (texts, data):
        yield changed(first(some, lambda c: True), bytes=lambda b: bytes([b[0] ^ 1]) + b[1:])
        yield changed(first(some, lambda c: True), bytes=shorter)
    yield changed(first(lists, lambda c: True), list=at(1))
    yield changed(first(lists, lambda c: True), list=shorter)
    yield changed(first(lists, lambda c: True), refusal=SUM)


def wrong_others(folder):
    walks, replies, floats = (list(cases(open(folder + name, 'rb').read())) for name in ('/walk.vec', '/identity.vec', '/rates.vec'))
    some = [c for c in walks if c['refusal'] == 0 and len(c['list']) > 3]
    yield changed(first(some, lambda c: True), list=at(3, -1))
    yield changed(first(some, lambda c: True), list=lambda v: v[:-2], value=lambda n: n - 1)
    yield changed(first(walks, lambda c: c['refusal'] == 12), value=lambda n: n + 1)
    yield changed(first(walks, lambda c: c['refusal'] == 11), refusal=12)
    yield changed(first(replies, lambda c: c['refusal'] == 0), out=at(3))
    yield changed(first(replies, lambda c: c['refusal'] == 14), refusal=13)
    yield changed(first(floats, lambda c: c['op'] == CENTS), value=lambda n: n ^ 1)
    pairs = [c for c in floats if c['op'] == SPLIT and c['refusal'] == 0]
    yield changed(first(pairs, lambda c: True), out=at(0))
    yield changed(first(pairs, lambda c: True), out=at(1))
    yield changed(first(pairs, lambda c: True), refusal=VALUE, out=[])
    yield changed(first(floats, lambda c: c['op'] == SPLIT and c['refusal'] == VALUE), refusal=0, out=[0, 0])
    yield changed(first(floats, lambda c: c['op'] == JOIN), value=lambda n: n ^ 1)
    _, whole, _, damaged = real(folder)
    yield changed(copy.deepcopy(whole), list=at(56))
    yield changed(copy.deepcopy(whole), list=shorter)
    yield changed(copy.deepcopy(whole), value=58, list=lambda v: v + [0])
    yield changed(copy.deepcopy(damaged), list=at(2, -SUM))
    yield changed(copy.deepcopy(damaged), refusal=SUM)
    yield changed(copy.deepcopy(damaged), list=at(3, 1))
    yield changed(short()[6], value=13)
    yield changed(short()[5], refusal=SHAPE)
    yield changed(short()[6], numbers=[6, 6 ** 5])


def main(folder):
    writes, reads = (list(cases(open(folder + name, 'rb').read())) for name in ('/write.vec', '/read.vec'))
    files = {
        'worked': worked(), 'standards': standards(), 'select': select(), 'real': real(folder), 'short': short(),
        'wrong': [*wrong_writes(writes), *wrong_records(writes), *wrong_reads(reads), *wrong_others(folder)],
        'cut': writes[:3], 'unknown': [writes[0], case(67)],
        'malformed': [writes[0], changed(copy.deepcopy(writes[1]), numbers=lambda v: [0x0599] + v[1:]), writes[2]],
    }
    for name, cs in files.items():
        s = b''.join(packed(c) for c in cs)
        open('%s/%s.vec' % (folder, name), 'wb').write(s[:-3] if name == 'cut' else s)


main(sys.argv[1])
