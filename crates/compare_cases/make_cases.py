#!/usr/bin/env python3
"""make_cases.py: writes `stdin` and `stdout` beside itself.

stdin: pairs of records (docs/RULES.md C1), each packet an option list. The first record's hop limit is the edition, the second's how many numbers are
lent to the report; the last four bytes of a source are the offset of its list. First lists made by hand, with a report lent one number short, exact and
one more, in both editions; then lists by chance from a fixed seed.
stdout: the answers that are wanted, worked out by `compared` below from the rules alone (area V; of the walk, tests/walk.py): a line for each pair."""
import os
import random
import sys

here = os.path.dirname(os.path.abspath(__file__))
sys.path.insert(0, here + "/../../tests")
from walk import LONGEST, walk


def walked(edition, offset, data):
    """The options as (place in the list, bytes), or the refusal's number and values."""
    found, fault = walk(data, offset, edition)
    return [(place - offset, data[place - offset:][:size]) for place, _, size in found], fault


def entry(p, one, q, two):
    if one == two:
        return [0, p, q, one[0], len(one)]
    if one[0] != two[0]:
        return [1, p, q, one[0], two[0]]
    if len(one) != len(two):
        return [2, p, q, len(one), len(two)]
    i = next(i for i in range(len(one)) if one[i] != two[i])
    return [3, p + i, q + i, one[i], two[i]]


def compared(edition, o, one, p, two, lent):
    """The answer as text, and the report's 24 numbers."""
    report = [7] * 24
    first, fault = walked(edition, o, one)
    second, fault_too = walked(edition, p, two)
    for which, why in ((1, fault), (2, fault_too)):
        if why:
            return " ".join(map(str, (why[0], "list", which, *why[1:]))), report
    entries = [entry(o + x, a, p + y, b) for (x, a), (y, b) in zip(first, second)]
    if len(first) != len(second):
        k = len(entries)
        ends = [places[k][0] if k < len(places) else len(data) for places, data in ((first, one), (second, two))]
        entries.append([4, o + ends[0], p + ends[1], 1 if len(first) > k else 2, 0])
    numbers = sum(entries, [])
    if len(numbers) > lent:
        return f"9 list 0 {4 * len(numbers)}", report
    report[:len(numbers)] = numbers
    return f"0 {len(entries)}", report


def run(edition, one, two):
    first, fault = walked(edition, 0, one)
    second, fault_too = walked(edition, 0, two)
    if fault or fault_too:
        return 0
    n = 0
    for (_, a), (_, b) in zip(first, second):
        if a != b:
            break
        n += len(a)
    return n


stdin, stdout = bytearray(), []


def case(edition, o, one, p, two, lent):
    for number, offset, data in ((edition, o, one), (lent, p, two)):
        stdin.extend(b"I6" + bytes([number]) + bytes(12) + offset.to_bytes(4, "big") + bytes(16) + len(data).to_bytes(2, "big") + data)
    answer, report = compared(edition, o, one, p, two, lent)
    stdout.append(f"{answer} report {' '.join(map(str, report))} run {run(edition, one, two)}")


LLA, MTU = bytes.fromhex("0101020000000001"), bytes.fromhex("05010000000005dc")
OTHER = bytes.fromhex("05010000000005c8")
PREFIX = bytes.fromhex("030440c000015180000038400000000020010db8") + bytes(12)
SERVERS, ROUTE = bytes([25, 3]) + bytes(22), bytes([24, 2, 64, 8]) + bytes(12)
lists = [b"", LLA, MTU, LLA + MTU, LLA + OTHER, LLA + MTU + PREFIX, LLA + OTHER + PREFIX + SERVERS, b"\2\1" + LLA[2:], b"\1\2" + bytes(14), ROUTE,
         SERVERS, LLA + SERVERS + ROUTE, b"\x18\4" + bytes(30), b"\x18\2\x81" + bytes(13), b"\x19\2" + bytes(14), b"\1", b"\1\0" + bytes(6), LLA + b"\1\2" + bytes(6),
         b"\3\3" + bytes(22), LLA + b"\5\2" + bytes(14)]
newer = lambda data: any(data[i] in (24, 25) for i in range(0, len(data), 8))
for i, one in enumerate(lists):
    for j, two in enumerate(lists):
        for edition in (1, 2) if newer(one) or newer(two) else (1,):
            exact = next((5 * n for n in range(5) if compared(edition, 16, one, 40, two, 5 * n)[0].startswith("0 ")), None)
            for lent in (24,) if exact is None or (i + j) % 3 else {max(exact - 1, 0), exact, exact + 1}:
                case(edition, 16, one, 40, two, lent)
# bytes that reach beyond the longest packet
for o, p in ((LONGEST - 8, 0), (LONGEST - 7, 0), (0, LONGEST - 8), (0, LONGEST - 7), (LONGEST, LONGEST)):
    case(1, o, LLA, p, LLA, 24)
    case(1, o, LLA, p, LLA + LLA, 24)
    case(1, o, b"\1", p, b"\1", 24)
chance = random.Random(11)
for _ in range(200):
    one = b"".join(chance.choice((LLA, MTU, OTHER, PREFIX, ROUTE, b"\1\1" + chance.randbytes(6))) for _ in range(chance.randrange(5)))
    two = bytearray(one)
    for _ in range(chance.randrange(3)):
        if two:
            two[chance.randrange(len(two))] = chance.randrange(256)
    case(chance.choice((1, 2)), chance.randrange(64), one, chance.randrange(64), bytes(two[:chance.choice((len(two), len(two), len(two) // 2))]), chance.choice((24, 20, 15, 10, 4)))
with open(here + "/stdin", "wb") as f:
    f.write(stdin)
with open(here + "/stdout", "w") as f:
    f.write("\n".join(stdout) + "\n")
