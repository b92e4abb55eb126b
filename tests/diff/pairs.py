#!/usr/bin/env python3
"""pairs.py DIR: writes pairs of captures, DIR/NAME.a and DIR/NAME.b, with DIR/NAME.txt beside them, the text by differences.py. The first line of
DIR/names is the example, and the names stand in it one to a line."""
import os
import sys

import differences

here = os.path.dirname(os.path.abspath(__file__))
folder = sys.argv[1]
names = []
LLA = bytes.fromhex("0101020000000001")
PREFIX = bytes.fromhex("030440c00001518000003840000000002001 0db8".replace(" ", "")) + bytes(12)
SERVERS = bytes([25, 3]) + bytes(22)


def mtu(n):
    return bytes([5, 1, 0, 0]) + n.to_bytes(4, "big")


def packet(options, kind=134, code=0):
    """A message with these options. Its checksum is not looked at."""
    return bytes([kind, code]) + bytes(6 + differences.model.FIXED.get(kind, 0)) + options


def record(body, mark=None):
    return (mark or (b"I7" if len(body) > 2048 else b"I6")) + b"\xff" + bytes(32) + len(body).to_bytes(2, "big") + body


def pair(name, a, b, wanted=None):
    text = differences.text(a, b)
    assert wanted is None or text.split("\n", 1)[1] == wanted + "\n", (name, text)
    for suffix, what in (("a", a), ("b", b), ("txt", text.encode())):
        with open(f"{folder}/{name}.{suffix}", "wb") as f:
            f.write(what)
    names.append(name)


def lists(name, one, two, wanted=None, kinds=(134, 134)):
    pair(name, record(packet(one, kinds[0])), record(packet(two, kinds[1])), wanted)


one, two = LLA + mtu(1500) + PREFIX, LLA + mtu(1480) + PREFIX + SERVERS
lists("example", one, two, "same 16 16 type 1 bytes 8\nbyte 31 31 from 220 to 200\nsame 32 32 type 3 bytes 32\nlonger 2 at 64\ncommon 1 bytes 8\ndiffer 2")
lists("example_turned", two, one)

# one thing that differs
lists("type", b"\x01\x01" + bytes(6), b"\x02\x01" + bytes(6), "type 16 16 from 1 to 2\ncommon 0 bytes 0\ndiffer 1")
lists("length", b"\x01\x01" + bytes(6), b"\x01\x02" + bytes(14), "length 16 16 from 8 to 16\ncommon 0 bytes 0\ndiffer 1")
lists("type_and_length", b"\x01\x01" + bytes(6), b"\x02\x02" + bytes(14), "type 16 16 from 1 to 2\ncommon 0 bytes 0\ndiffer 1")
for i in range(32):
    other = bytearray(PREFIX)
    other[i] ^= 1
    lists(f"prefix_{i}", LLA + PREFIX, LLA + bytes(other))
lists("two_bytes", LLA + PREFIX, LLA + PREFIX[:20] + b"\1\1" + PREFIX[22:])
lists("first_last", LLA + mtu(1500), b"\1\1\3" + LLA[3:] + mtu(1500), "byte 18 18 from 2 to 3\nsame 24 24 type 5 bytes 8\ncommon 0 bytes 0\ndiffer 1")

# one list a beginning of the other; no options
for name, a, b in (("beginning", one, one + SERVERS), ("beginning_turned", one + SERVERS, one), ("equal", one, one), ("both_empty", b"", b""),
                   ("first_empty", b"", one), ("second_empty", one, b"")):
    lists(name, a, b)
lists("longer_by_three", LLA, LLA + LLA + mtu(9000) + LLA)

# places of another kind of message, and behind options of other lengths
for kind in (133, 135, 136, 137):
    lists(f"kind_{kind}", one, two, kinds=(134, kind))
lists("places_apart", b"\x0e\x01" + bytes(6) + PREFIX + LLA, b"\x0e\x02" + bytes(14) + PREFIX + LLA + LLA)
lists("routes", b"\x18\x04" + bytes(30), b"\x18\x04" + bytes(29) + b"\1")

# the most options, and the longest packets
many = b"\x0e\x01" + bytes(6)
lists("many", many * 1124, many * 1123 + many[:-1] + b"\1", kinds=(133, 133))
lists("many_apart", (many[:-1] + b"\1") * 1124, many * 1124, kinds=(133, 133))
lists("many_longer", many * 1124, many * 1123, kinds=(133, 133))
lists("nine_thousand", bytes([14, 255]) * 1 + bytes(2038) + bytes([14, 255]) + bytes(2038) + bytes([14, 255]) + bytes(2038) + bytes([14, 255]) + bytes(2038) + bytes([14, 104]) + bytes(830),
      bytes([14, 255]) * 1 + bytes(2038) + bytes([14, 255]) + bytes(2038) + bytes([14, 255]) + bytes(2038) + bytes([14, 255]) + bytes(2038) + bytes([14, 104]) + bytes(829) + b"\7", kinds=(133, 133))

# what can be wrong with a file, the first or the second or both
good = record(packet(one))
bad = {
    "empty": (b"", "empty"),
    "mark": (b"I8" + bytes(60), "stopped 12 at 0"),
    "one_byte": (b"I", "stopped 14 at 0"),
    "head_cut": (good[:36], "stopped 14 at 0"),
    "body_cut": (good[:-1], "stopped 14 at 0"),
    "long": (record(bytes(2049), b"I6"), "stopped 13 at 0"),
    "too_long": (record(bytes(9001)), "stopped 13 at 0"),
    "short_long": (record(packet(one), b"I7"), "stopped 13 at 0"),
    "more": (good + good, f"more at {len(good)}"),
    "one_more": (good + b"I", f"more at {len(good)}"),
    "buffer": (good + bytes(70000), f"more at {len(good)}"),
    "short": (record(packet(one)[:7]), "refused 1"),
    "no_bytes": (record(b""), "refused 1"),
    "fixed": (record(packet(b"")[:15]), "refused 4"),
    "echo": (record(packet(one, 128)), "echoreq"),
    "unreachable": (record(packet(one, 1, 6)), "unreach"),
    "code": (record(packet(one, 134, 1)), "unknown"),
    "type": (record(packet(one, 200)), "unknown"),
    "zero": (record(packet(b"\1\0" + bytes(6))), "refused 6 at 16"),
    "single": (record(packet(LLA + b"\1")), "refused 5 at 24"),
    "past": (record(packet(LLA + b"\1\2" + bytes(6), 137)), "refused 7 at 48"),
    "size": (record(packet(LLA + b"\3\3" + bytes(22), 133)), "refused 5 at 16"),
}
for name, (what, wanted) in bad.items():
    pair(f"wrong_{name}", what, good, f"list 1 {wanted}")
    pair(f"wrong_{name}_turned", good, what, f"list 2 {wanted}")
pair("wrong_both", bad["size"][0], bad["empty"][0], "list 1 refused 5 at 16")
pair("wrong_both_turned", bad["empty"][0], bad["size"][0], "list 1 empty")

# the advertisements of the shipped capture that have different options, each with each
capture, at, found = open(here + "/../../examples/advertisements.rec", "rb").read(), 0, {}
while at < len(capture):
    end = at + 37 + int.from_bytes(capture[at + 35:at + 37], "big")
    if capture[at + 37] == 134:
        found.setdefault(capture[at + 53:end], capture[at:end])
    at = end
for i, a in enumerate(found.values()):
    for j, b in enumerate(found.values()):
        pair(f"advertisements_{i}_{j}", a, b)
with open(folder + "/names", "w") as f:
    f.write("\n".join(names) + "\n")
