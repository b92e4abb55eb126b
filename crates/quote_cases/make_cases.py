#!/usr/bin/env python3
"""make_cases.py CAPTURES: writes `stdin` and `stdout` beside itself.

stdin: records (docs/RULES.md C1) whose packets quote others. First the table below, made by hand from RFC 4443, sections 3.1 to 3.4, RFC 4861,
section 4.6.3, and RFC 8200, section 3: each rule of area Q at its boundary, both ways, with the answer that is wanted written beside it. Then packets
whose answer is worked out by `chain` below and tests/walk.py, which share nothing with the proved reader: every case of the table with one byte less and with one
more, nests cut round each boundary, and the redirects and errors of CAPTURES/*.rec, real traffic.
stdout: the answers that are wanted, a line for each record: 0, the kind of the outer message, and place, next header and kind of each level; or the
refusal's number and values."""
import glob
import os
import struct
import sys
from ipaddress import IPv6Address

here = os.path.dirname(os.path.abspath(__file__))
sys.path.insert(0, here + "/../../tests")
from walk import walk
address = lambda text: IPv6Address(text).packed
SOURCE, DESTINATION = address("fe80::1"), address("2001:db8::1")

# how many codes a type lists, and the bytes between head and options of those that have a list
CODES = {1: 7, 2: 1, 3: 2, 4: 11, 128: 1, 129: 1, 133: 1, 134: 1, 135: 1, 136: 1, 137: 1}
FIXED = {133: 0, 134: 8, 135: 16, 136: 16, 137: 32}


def chain(packet):
    """The answer: a message stands at `at` and runs to `end`; then so does the quote in it, if it has one."""
    at, end, told = 0, len(packet), [0]
    for level in range(1, 10):
        if end - at < 8:
            return 1, 8, end - at
        kind = packet[at] if packet[at + 1] < CODES.get(packet[at], 0) else 0
        told.append(kind)
        if kind in (1, 2, 3, 4):
            at += 8
        elif kind in FIXED:
            if end - at - 8 < FIXED[kind]:
                return 4, FIXED[kind], end - at - 8
            options, refused = walk(packet[at + 8 + FIXED[kind]:end], at + 8 + FIXED[kind])
            if refused:
                return refused
            quoting = [(place, size) for place, type, size in options if type == 4]
            if not quoting:
                return tuple(told)
            at, end = quoting[0][0] + 8, sum(quoting[0])
        else:
            return tuple(told)
        if level == 9:
            return 17, at
        if end - at < 40:
            return 15, at
        if packet[at] >> 4 != 6:
            return 16, at
        told += [at, packet[at + 6]]
        if packet[at + 6] != 58:
            return tuple(told + [0])
        at += 40


# ---- parts of a packet. What no rule looks at is ff or 00, by turns

def message(kind, rest=b"", code=0, blank=0):
    return bytes([kind, code]) + bytes([blank]) * 6 + rest


def quote(rest=b"", following=58, first=0x60, blank=0):
    return bytes([first]) + bytes([blank]) * 5 + bytes([following]) + bytes([blank]) * 33 + rest


def option(kind, rest=b"", more=6):
    """One of whole units: `more` bytes behind type and length, and then the rest."""
    body = bytes(more) + rest
    assert (len(body) + 2) % 8 == 0
    return bytes([kind, (len(body) + 2) // 8]) + body


ECHO = message(128)
lists = lambda kind, options=b"", **more: message(kind, bytes(FIXED[kind]) + options, **more)
redirect = lambda options=b"", **more: lists(137, options, **more)
EMPTY, LINK, MTU, OTHER = option(4), option(1), option(5), option(200, bytes(8))
PREFIX = option(3, bytes(24))
GOOD = option(4, quote(ECHO))
nest = lambda deep, last: message(1, quote(nest(deep - 1, last))) if deep else last
levels = lambda places, last: [n for p in places[:-1] for n in (p, 58, 1)] + [places[-1], 58, last]
EIGHT = [8 + 48 * i for i in range(8)]

cases = []


def case(wanted, packet):
    cases.append((wanted, packet))


# ---- the table of docs/RULES.md, area Q
case((15, 8), message(1))
case((15, 8), message(1, quote()[:39]))
case((0, 1, 8, 17, 0), message(1, quote(following=17)))
case((1, 8, 0), message(1, quote()))
case((1, 8, 7), message(1, quote(ECHO[:7])))
case((0, 1, 8, 58, 128), message(1, quote(ECHO)))
case((0, 1, *levels(EIGHT, 128)), nest(8, ECHO))
case((17, 392), nest(8, message(1)))
case((0, 1, *levels(EIGHT, 137)), nest(8, redirect()))
case((17, 432), nest(8, redirect(EMPTY)))
case((5, 1, 2, 1, 424), nest(8, redirect(b"\x01")))
case((15, 48), redirect(EMPTY + GOOD))
case((0, 137, 48, 58, 128), redirect(GOOD))
case((5, 1, 2, 1, 96), redirect(GOOD + b"\x01"))
case((6, 0, 112), redirect(option(4, quote(lists(135) + bytes(8)))))
table = [packet for _, packet in cases]

# ---- the outer message: 1, then its kind
for n in range(8):
    case((1, 8, n), ECHO[:n])
    case((1, 8, n), message(1)[:n])
for kind in range(256):
    if kind not in (1, 2, 3, 4, 134, 135, 136, 137):
        case((0, kind if kind in CODES else 0), message(kind))
# a quote by the kind and not by the type's number: a code that is not listed has none
for kind in (1, 2, 3, 4, 137):
    for code in (0, CODES[kind] - 1, CODES[kind], 255):
        rest = quote(following=17) if kind < 5 else bytes(32) + option(4, quote(following=17))
        place = 8 if kind < 5 else 48
        case((0, kind, place, 17, 0) if code < CODES[kind] else (0, 0), message(kind, rest, code))
        case((0, 1, 8, 58, kind, 48 + place, 17, 0) if code < CODES[kind] else (0, 1, 8, 58, 0), message(1, quote(message(kind, rest, code))))

# ---- a quote: 15, then 16, then the next header
case((15, 8), message(1, bytes(39)))
for first in range(0, 256, 16):
    for low in (0, 6, 15):
        case((0, 1, 8, 17, 0) if first == 0x60 else (16, 8), message(1, quote(following=17, first=first + low)))
for following in range(256):
    case((0, 2, 8, following, 128 if following == 58 else 0), message(2, quote(ECHO, following)))
# nothing else of it is looked at, and no checksum
case((0, 3, 8, 58, 4, 56, 58, 128), message(3, quote(message(4, quote(ECHO, first=0x6F, blank=255), blank=255), first=0x6F, blank=255), blank=255))
case((0, 137, 48, 58, 128), redirect(option(4, quote(ECHO, first=0x6F, blank=255)), blank=255))

# ---- eight levels, and no ninth: 17 before a byte of it is looked at
case((0, 1, *levels(EIGHT, 0)), nest(8, message(1, code=7)))
case((17, 392), nest(9, ECHO))
case((17, 392), nest(8, message(1, quote(first=0x50))))
case((17, 392), nest(8, message(4, bytes(39))))
case((5, 1, 2, 1, 432), nest(8, redirect(EMPTY + b"\x01")))
case((17, 440), nest(8, redirect(LINK + EMPTY)))
for deep in range(1, 8):
    case((0, 1, *levels(EIGHT[:deep], 128)), nest(deep, ECHO))
    case((15, 8 + 48 * deep), nest(deep, message(1)))
    case((1, 8, 0), nest(deep, b""))
    case((16, 8 + 48 * deep), nest(deep, message(2, bytes(40))))

# ---- an option list: 4, then the whole walk, then the first of type 4
for kind, fixed in FIXED.items():
    outer = lambda options: lists(kind, options)
    inner = lambda options: message(3, quote(lists(kind, options), blank=255))
    for wrapped, at, told in ((outer, 8 + fixed, [kind]), (inner, 56 + fixed, [3, 8, 58, kind])):
        if fixed:
            case((4, fixed, fixed - 1), wrapped(b"")[:-1])
            case((4, fixed, 0), wrapped(b"")[:-fixed])
        case((0, *told), wrapped(b""))
        case((0, *told), wrapped(LINK + MTU + OTHER))
        case((0, *told, at + 8, 58, 128), wrapped(GOOD))
        case((0, *told, at + 8, 17, 0), wrapped(option(4, quote(following=17))))
        case((0, *told, at + 48, 58, 128), wrapped(PREFIX + LINK + GOOD))
        case((0, *told, at + 8, 58, 128), wrapped(GOOD + EMPTY))
        case((15, at + 8), wrapped(EMPTY))
        case((15, at + 8), wrapped(EMPTY + GOOD))
        case((15, at + 8), wrapped(option(4, quote()[:32])))
        case((16, at + 8), wrapped(option(4, quote(following=17, first=0x46))))
        case((1, 8, 0), wrapped(option(4, quote())))
        case((5, 1, 2, 1, at + 56), wrapped(GOOD + b"\x01"))
        case((6, 9, at), wrapped(bytes([9, 0]) + GOOD))
        case((6, 0, at + 56), wrapped(GOOD + bytes(8)))
        case((7, 4, 56, 55, at), wrapped(GOOD[:-1]))
        case((7, 1, 16, 8, at + 56), wrapped(GOOD + bytes([1, 2]) + bytes(6)))
        case((5, 3, 32, 24, at + 8), wrapped(EMPTY + option(3, bytes(16))))
        case((5, 5, 8, 16, at + 56), wrapped(GOOD + option(5, bytes(8))))

# ---- the order: of two refusals the earlier is told
case((5, 1, 2, 1, 48), redirect(EMPTY + b"\x01"))
case((6, 4, 40), redirect(bytes([4, 0]) + bytes(6)))
case((15, 48), redirect(option(4, bytes(32))))
case((16, 48), redirect(option(4, bytes(40))))
case((5, 1, 2, 1, 96), redirect(option(4, quote(redirect()[:8])) + b"\x01"))
case((4, 32, 0), redirect(option(4, quote(redirect()[:8]))))
# the zero bytes with which an option is padded are bytes of the message in it, and an echo request has any number of them
case((0, 137, 48, 58, 128), redirect(option(4, quote(ECHO + bytes(8)))))
# a list in a list in a list, each place counted from the packet's first byte
deep = redirect(LINK + option(4, quote(lists(134, MTU + option(4, quote(lists(133, LINK + LINK + GOOD)))))))
case((0, 137, 56, 58, 134, 128, 58, 133, 200, 58, 128), deep)
case((5, 1, 2, 1, 248), deep + b"\x01")

for wanted, packet in cases:
    assert chain(packet) == wanted, (wanted, chain(packet), packet.hex())

# ---- from here on the answers are worked out: the table with a byte less and a byte more
hand = len(cases)
for packet in table:
    for other in (packet[:-1], packet + b"\0"):
        case(chain(other), other)
# a nest of errors cut round each head, and one of errors and lists cut at every unit
for cut in range(0, 433, 48):
    for n in (cut + 7, cut + 8, cut + 9, cut + 47, cut + 48, cut + 49):
        case(chain(nest(9, ECHO)[:n]), nest(9, ECHO)[:n])
mixed = message(2, quote(redirect(LINK + option(4, quote(message(3, quote(lists(136, GOOD, blank=7))))) + OTHER)))
for n in range(0, len(mixed) + 1, 8):
    case(chain(mixed[:n]), mixed[:n])

# ---- real traffic: the messages that quote, and one of them cut at every byte
real = []
for path in sorted(glob.glob(sys.argv[1] + "/*.rec")):
    data, at = open(path, "rb").read(), 0
    while at < len(data):
        end = at + 37 + struct.unpack(">H", data[at + 35:at + 37])[0]
        if data[at + 37] in (1, 2, 3, 4, 137):
            real.append((data[at:at + 35], data[at + 37:end]))
        at = end
short = min((packet for _, packet in real if packet[0] == 137), key=len)
for n in range(len(short)):
    case(chain(short[:n]), short[:n])

records = [(b"\x49\x36\x40" + SOURCE + DESTINATION, packet, wanted) for wanted, packet in cases]
records += [(head, packet, chain(packet)) for head, packet in real]
with open(here + "/stdin", "wb") as out:
    for head, packet, _ in records:
        out.write(head + struct.pack(">H", len(packet)) + packet)
with open(here + "/stdout", "w") as out:
    for number, (_, _, wanted) in enumerate(records, 1):
        out.write(f"{number}: {' '.join(map(str, wanted))}\n")
print(f"{hand} by hand, {len(cases) - hand} worked out, {len(real)} real")
