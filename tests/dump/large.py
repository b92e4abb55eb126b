#!/usr/bin/env python3
"""large.py FOLDER: writes captures of more than 200 KB, each with its listing by model.py, NAME.rec and NAME.txt. Made by chance from a fixed seed, so
that nothing large is stored. The program reads into a buffer of 65,536 bytes and hands its text over when fewer than 36,352 of 65,536 bytes are left
for it: each capture crosses both limits many times, and its first 65,536 bytes end inside a record, so many bytes into it as its name says."""
import random
import sys

import making
import model

BUFFER, TEXT, LONGEST = 65536, 65536 - 36352, 9000
ADDRESSES = [making.NEAR, making.ROUTERS, bytes(16)]
folder = sys.argv[1]
random.seed(20261115)


def record(packet):
    return making.record(packet, random.choice([255, 255, 64]), random.choice(ADDRESSES), random.choice(ADDRESSES))


def packet(most=LONGEST):
    """Some message, with up to as many options as there is room for: they make the most text."""
    kind = random.choice([133, 134, 135, 136, 137, 128, 1])
    made = bytearray([kind, 0]) + random.randbytes(6 + model.FIXED.get(kind, 0))
    for _ in range(random.choice([0, 1, 3, 40, 250, 1120])):
        made += bytes([random.choice([1, 2, 4, 9]), 1]) + random.randbytes(6)
    return bytes(made[:most])


def records(size):
    """Records of just so many bytes in all; the last two fill up what is left."""
    made = b""
    while size - len(made) > 2 * (37 + LONGEST):
        made += record(packet())
    first = (size - len(made)) // 2
    return made + record(random.randbytes(first - 37)) + record(random.randbytes(size - len(made) - first - 37))


def case(name, capture, last):
    text = making.write(folder, name, capture)
    assert len(capture) > 200000 and len(text) > 4 * TEXT and text.split("\n")[-2].startswith(last), name


def many(size):
    made = b""
    while len(made) < size:
        made += record(packet())
    return made


# the buffer ends behind one byte of the mark, behind the mark, in the head, between the bytes of the length, behind the head, in the packet, and one
# byte before the end of the longest record, when as much is kept as ever is
for held in [1, 2, 20, 36, 37, 1001, 2084, 2085, 36 + LONGEST]:
    case(f"held_{held}", records(BUFFER - held) + record(random.randbytes(LONGEST)) + many(150000), "records ")
case("held_0", records(BUFFER) + many(150000), "records ")
case("cut", many(210000)[:-1], "stopped 14 ")
case("no_mark", many(110000) + b"I8" + many(110000), "stopped 12 ")
case("too_long", many(110000) + b"I6" + bytes(33) + b"\x08\x01" + many(110000), "stopped 13 ")
case("too_short", many(110000) + b"I7" + bytes(33) + b"\x08\x00" + many(110000), "stopped 13 ")
