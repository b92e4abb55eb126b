#!/usr/bin/env python3
"""make_cases.py: writes `stdin` and `stdout` beside itself.

stdin: commands (src/main.rt). First the cases of docs/RULES.md I15, each with the line that is wanted written beside it by hand, and the same with one
less and one more: bytes, numbers lent, entries, options. Then every type from 0 to 255 in a list of 64 different types; 64 appends of one option and one
build of the same list; and lists and appends by chance.
stdout: the lines that are wanted. Those that are not written by hand are worked out by `Model` below and tests/walk.py, which share nothing with the proved
calls."""
import os
import random
import struct
import sys

here = os.path.dirname(os.path.abspath(__file__))
sys.path.insert(0, here + "/../../tests")
from walk import walk
MOST, LIST, NUMBERS = 64, 4096, 160
BUILD, APPEND, FIRST, NEXT, PUT, SET, SHOW, SHOW_LIST, ALL = range(1, 10)


def entered(edition, s, offset):
    """The options as (type, place), and the refusal that ends them, None where they are clean."""
    found, bad = walk(s, offset, edition)
    return [(kind, place) for place, kind, _ in found], bad


class Model:
    """What the program has, and what each command does with it."""

    def __init__(self):
        self.list, self.index = bytearray(LIST), [0] * NUMBERS
        self.commands, self.lines = [], []

    def flat(self, entries):
        return [n for e in entries for n in e]

    def build(self, edition, numbers, options):
        found, bad = entered(edition, options, 0)
        if bad:
            return bad
        if len(found) > MOST:
            return (20,)
        if numbers < 2 * len(found):
            return (9, 8 * len(found))
        self.index[:2 * len(found)] = self.flat(found)
        return [len(found)]

    def append(self, edition, room, used, numbers, entries, new):
        if used > room:
            return (23,)
        own, bad = entered(edition, self.list[:used], 0)
        if bad:
            return bad
        if len(own) > MOST or entries != len(own) or numbers < 2 * entries or self.index[:2 * entries] != self.flat(own):
            return (23,)
        more, bad = entered(edition, new, used)
        if bad:
            return bad
        if len(own) + len(more) > MOST:
            return (20,)
        if room < used + len(new):
            return (9, used + len(new))
        if numbers < 2 * (len(own) + len(more)):
            return (9, 8 * (len(own) + len(more)))
        self.list[used:used + len(new)] = new
        self.index[2 * entries:2 * (entries + len(more))] = self.flat(more)
        return [used + len(new), entries + len(more)]

    def entries(self, numbers):
        n = min(numbers, NUMBERS)
        return [tuple(self.index[i:i + 2]) for i in range(0, n - n % 2, 2)]

    def first(self, numbers, kind, above=-1):
        return next((p for t, p in self.entries(numbers) if t == kind and p > above), "-")

    def do(self, what, edition=1, a=0, b=0, c=0, d=0, data=b"", wanted=None):
        self.commands.append(struct.pack(">7Q", what, edition, a, b, c, d, len(data)) + bytes(data))
        if what == BUILD:
            answer = self.build(edition, a, data)
        elif what == APPEND:
            answer = self.append(edition, a, b, c, d, data)
        elif what == FIRST:
            answer = [self.first(a, b)]
        elif what == NEXT:
            answer = [self.first(a, b, c)]
        elif what == PUT:
            self.list[a:a + len(data)] = data
            answer = []
        elif what == SET:
            self.index[a] = b
            answer = []
        elif what == SHOW:
            answer = self.index[:a]
        elif what == SHOW_LIST:
            answer = list(self.list[:a])
        else:
            answer = [self.first(a, t) for t in range(256)]
        text = "".join(f" {n}" for n in answer)
        line = " refused" + text if isinstance(answer, tuple) else text
        assert wanted is None or line.strip() == wanted, (line, wanted)
        self.lines.append(f"{len(self.lines) + 1}:{line}")
        return answer


m = Model()
option = lambda kind, units, rest=b"": bytes([kind, units]) + rest.ljust(8 * units - 2, b"\0")
EXAMPLE = option(1, 1) + option(5, 1) + option(3, 4)
SERVERS = option(25, 3)
ones = lambda n: option(1, 1) * n


def stand(options, edition=1):
    """The list in its buffer, and its index in its own."""
    m.do(PUT, data=options)
    return m.do(BUILD, edition, a=NUMBERS, data=options)


# ---- docs/RULES.md I15
m.do(BUILD, a=0, wanted="0")
m.do(ALL, a=0)
m.do(BUILD, a=6, data=EXAMPLE, wanted="3")
m.do(SHOW, a=8, wanted="1 0 5 8 3 16 0 0")
for n in range(8):
    m.do(BUILD, a=n, data=EXAMPLE, wanted="3" if n >= 6 else "refused 9 24")
for count in (63, 64, 65):
    for n in range(2 * count - 2, 2 * count + 3):
        m.do(BUILD, a=n, data=ones(count), wanted="refused 20" if count > 64 else str(count) if n >= 2 * count else f"refused 9 {8 * count}")
m.do(BUILD, a=128, data=ones(64) + b"\1\0", wanted="refused 6 1 512")
m.do(BUILD, a=128, data=ones(64) + option(5, 2), wanted="refused 5 5 8 16 512")
m.do(BUILD, a=130, data=ones(65) + b"\1", wanted="refused 5 1 2 1 520")
m.do(BUILD, a=160, data=EXAMPLE, wanted="3")
for after, wanted in ((0, "16"), (15, "16"), (16, "-"), (17, "-"), (2**32 - 1, "-"), (2**32, "-"), (2**64 - 1, "-")):
    m.do(NEXT, a=6, b=3, c=after, wanted=wanted)
for n in range(8):
    m.do(FIRST, a=n, b=3, wanted="16" if n >= 6 else "-")
    m.do(NEXT, a=n, b=5, c=7, wanted="8" if n >= 4 else "-")
    m.do(NEXT, a=n, b=1, c=0, wanted="-")
# appends to the example: one byte, one number, one entry less and more
for edition in (1, 2):
    for room in (71, 72, 73):
        for numbers in (6, 7, 8, 9):
            stand(EXAMPLE)
            m.do(APPEND, edition, room, 48, numbers, 3, SERVERS, "refused 9 72" if room < 72 else "72 4" if numbers >= 8 else "refused 9 32")
            m.do(SHOW, a=10)
            m.do(SHOW_LIST, a=80)
stand(EXAMPLE)
for used in (0, 7, 8, 15, 16, 47, 48, 49, 80, 81, LIST, LIST + 1, 2**32 - 1, 2**32, 2**64 - 1):
    for entries in (0, 1, 2, 3, 4):
        m.do(APPEND, 1, 80, used, 8, entries, b"")
m.do(APPEND, 1, 80, 48, 8, 3, b"\5", "refused 5 5 2 1 48")
m.do(APPEND, 1, 80, 48, 8, 3, b"", "48 3")
m.do(APPEND, 1, 48, 48, 6, 3, b"", "48 3")
m.do(APPEND, 1, 48, 48, 5, 3, b"", "refused 23")
m.do(APPEND, 1, 48, 48, 6, 2**63, b"", "refused 23")
m.do(APPEND, 1, 48, 48, 6, 2**64 - 1, b"", "refused 23")
for at in range(6):
    for change in (-1, 1, 256):
        m.do(SET, a=at, b=(m.index[at] + change) % 2**32)
        m.do(APPEND, 1, 80, 48, 8, 3, b"\5", "refused 23")
        m.do(APPEND, 1, 80, 48, 8, 3, SERVERS, "refused 23")
        m.do(SET, a=at, b=(m.index[at] - change) % 2**32)
m.do(APPEND, 1, 80, 48, 8, 3, SERVERS, "72 4")
m.do(SHOW, a=8, wanted="1 0 5 8 3 16 25 48")
# to 63, 64 and 65 options
for count in (63, 64, 65):
    stand(ones(count))
    for new, line in ((b"", f"{8 * count} {count}"), (ones(1), "512 64" if count == 63 else "refused 20"), (b"\1\0", f"refused 6 1 {8 * count}"), (b"\7", f"refused 5 7 2 1 {8 * count}")):
        m.do(APPEND, 1, 600, 8 * count, 160, count, new, "refused 23" if count == 65 else line)
# in the second edition: a route with a prefix of 129 bits, servers of two units
stand(EXAMPLE)
for new in (option(24, 3, b"\x80"), option(24, 3, b"\x81"), option(24, 2, b"\x41"), option(25, 2), option(25, 4), option(25, 5)):
    for edition in (1, 2):
        stand(EXAMPLE)
        m.do(APPEND, edition, 120, 48, 20, 3, new)
# an index by chance is answered as it stands: a type above 255 is nobody's, and a number left over no entry
for at, n in enumerate((255, 7, 256, 8, 511, 9, 255, 5, 0, 2**32 - 1, 255)):
    m.do(SET, a=at, b=n)
for n in range(12):
    m.do(FIRST, a=n, b=255)
    for after in (4, 5, 6, 7, 2**32 - 2, 2**32 - 1):
        m.do(NEXT, a=n, b=255, c=after)
        m.do(NEXT, a=n, b=0, c=after)

# ---- every type in a list of 64 different types
for start in (0, 64, 128, 192):
    kinds = [(start + 5 * i) % 256 for i in range(64)]
    options = b"".join(option(k, {3: 4, 24: 3, 25: 3}.get(k, 1)) for k in kinds)
    assert stand(options, 2) == [64]
    m.do(ALL, a=128)
    m.do(ALL, a=126)
    for k in kinds:
        m.do(NEXT, a=128, b=k, c=m.first(128, k))

# ---- 64 appends of one option, and one build of the same list
for units in (1, 3):
    m.do(BUILD, a=NUMBERS, data=b"", wanted="0")
    used = entries = 0
    for i in range(64):
        used, entries = m.do(APPEND, 1, LIST, used, 128, entries, option(i % 3 * 60 + 6, units))
    grown = m.index[:128]
    m.do(SHOW, a=130)
    m.do(BUILD, a=128, data=bytes(m.list[:used]), wanted="64")
    m.do(SHOW, a=130)
    assert m.index[:128] == grown and m.index[127] == 504 * units
    m.do(FIRST, a=128, b=126)
    m.do(NEXT, a=128, b=6, c=m.index[125])
    m.do(APPEND, 1, LIST, used, 128, entries, option(6, 1), "refused 20")

# ---- by chance
chance = random.Random(28)
GOOD = [(0, 1), (1, 1), (2, 1), (3, 4), (4, 2), (5, 1), (14, 1), (24, 3), (25, 3), (255, 1)]
BAD = [(3, 3), (5, 2), (24, 1), (24, 4), (25, 2), (9, 0)]


def by_chance(most):
    """Some options, few of them bad, and now and then cut short."""
    s = b"".join(option(*chance.choice(BAD if chance.random() < 0.02 else GOOD), bytes([chance.choice((0, 64, 128, 129))])) for _ in range(chance.randrange(most)))
    return s[:-1] if s and chance.random() < 0.05 else s


for _ in range(150):
    edition = chance.choice((1, 2))
    options = by_chance(chance.choice((3, 10, 70)))
    built = stand(options, edition)
    if not isinstance(built, list):
        continue
    used, entries = len(options), built[0]
    for _ in range(chance.randrange(5)):
        new = by_chance(chance.choice((2, 4, 40)))
        room = used + len(new) + chance.choice((-1, 0, 1, 100))
        numbers = min(NUMBERS, max(0, 2 * (entries + len(entered(edition, new, 0)[0])) + chance.choice((-2, -1, 0, 1, 9))))
        given = (used + chance.choice((0,) * 9 + (-8, 1)), entries + chance.choice((0,) * 9 + (-1, 1)))
        grown = m.do(APPEND, edition, min(LIST, max(0, room)), max(0, given[0]), numbers, max(0, given[1]), new)
        if isinstance(grown, list):
            used, entries = grown
    m.do(SHOW, a=NUMBERS if entries > 20 else 44)
    for kind in (0, 1, 3, 5, 25, 255):
        m.do(FIRST, a=2 * entries, b=kind)
        m.do(NEXT, a=2 * entries, b=kind, c=chance.randrange(0, used + 9))

data = b"".join(m.commands)
assert len(data) <= 524288, len(data)
open(here + "/stdin", "wb").write(data)
open(here + "/stdout", "w").write("\n".join(m.lines) + "\n")
print(len(m.lines), "commands,", len(data), "bytes")
