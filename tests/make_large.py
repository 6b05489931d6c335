#!/usr/bin/env python3
"""Writes a capture of 40 million bytes: frames of many lengths at random places, some cut before them, low and high bytes between them.

usage: tests/make_large.py FILE    (prints the offset and the length of each frame, a line each)
"""
import random
import sys

import make_desk_samples as m

SIZE = 40000000
KINDS = [m.IDENTITY_REQUEST, m.SAMPLE_PACKET, m.KEYS, m.longest(), m.PACKETS[0], m.SCALE, m.END]


def large(rng):
    """The bytes, and where the frames are."""
    out = bytearray()
    places = []
    while len(out) < SIZE:
        out += bytes(rng.randrange(3) * 64 for _ in range(rng.randrange(40)))
        if rng.randrange(8) == 0:
            out += rng.choice(KINDS)[:-rng.randrange(1, 5)]
        f = rng.choice(KINDS)
        places.append((len(out), len(f)))
        out += f
    return out, places


if __name__ == "__main__":
    content, places = large(random.Random(7))
    with open(sys.argv[1], "wb") as out:
        out.write(content)
    print("\n".join("%d %d" % place for place in places))
