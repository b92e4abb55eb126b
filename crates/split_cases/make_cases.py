#!/usr/bin/env python3
"""make_cases.py: writes `stdin` and `stdout` beside itself.

stdin: cases as src/main.rt reads them. First the worked cases of docs/RULES.md, area Z, with the answer that is wanted written beside each. Then lists of up
to 300 options under a limit of 1,240, whose plan is worked out by `plan` below, which shares nothing with the proved planner: the fewest messages are
found from the last option on, by trying every first message, and among the plans of that many the one whose first message is longest is taken, then whose
second is, and so on. Filling each message in turn must come to the same. And the plans of these, each number one more and one less, and the numbers
exchanged, for the checker, whose answer is worked out from the rule.
stdout: the answers that are wanted."""
import os
import random

here = os.path.dirname(os.path.abspath(__file__))
OWN, LIMIT = 16, 1240
stdin, stdout = bytearray(), []


def option(units, kind=14):
    return bytes([kind, units]) + bytes(8 * units - 2)


def case(options, limit, plan, wanted):
    numbers = b"".join(n.to_bytes(4, "big") for n in plan or [])
    stdin.extend(limit.to_bytes(4, "big") + bytes([plan is not None, len(plan or [])]) + len(options).to_bytes(2, "big") + numbers + options)
    stdout.append(f"{len(stdout) + 1}: {wanted}")


def made(options, limit, *counts):
    case(options, limit, None, f"planned {' '.join(map(str, counts))} received {len(counts)}")


def accepted(sizes, limit, plan):
    if not sizes:
        return plan == [0] and limit >= OWN
    at = 0
    for n in plan:
        if n == 0 or at + n > len(sizes) or OWN + sum(sizes[at:at + n]) > limit:
            return False
        at += n
    return at == len(sizes)


def checked(options, sizes, limit, plan):
    case(options, limit, plan, "accepted" if accepted(sizes, limit, plan) else "not accepted")


def plan(sizes, limit):
    """The fewest from each option on, from the last to the first; then the longest message that still comes to the fewest. None where there is no plan."""
    fewest = [None] * len(sizes) + [0]
    for i in range(len(sizes) - 1, -1, -1):
        room, best, to = limit - OWN, None, i
        while to < len(sizes) and sizes[to] <= room:
            room -= sizes[to]
            to += 1
            if fewest[to] is not None and (best is None or fewest[to] + 1 < best):
                best = fewest[to] + 1
        fewest[i] = best
    if limit < OWN or fewest[0] is None:
        return None
    counts, i = [], 0
    while i < len(sizes):
        ends = [to for to in range(i + 1, len(sizes) + 1) if OWN + sum(sizes[i:to]) <= limit and fewest[to] == fewest[i] - 1]
        counts.append(max(ends) - i)
        i = max(ends)
    return counts or [0]


# ---- the worked cases
three = option(1, 1) * 2 + option(4, 3)
many = option(1, 1) * 2 + option(4, 3) * 40
case(b"", 15, None, "refused 21")
made(b"", 16, 0)
made(b"", 1240, 0)
case(three, 47, None, "refused 21")
made(three, 48, 2, 1)
made(three, 63, 2, 1)
made(three, 64, 3)
made(many, 1240, 39, 3)
made(option(4, 3) * 38, 1231, 37, 1)
made(option(4, 3) * 38, 1232, 38)
case(option(255), 2055, None, "refused 21")
made(option(255), 2056, 1)
case(option(1, 1) + b"\1", 0, None, "refused 5 1 2 1 8")
case(option(1, 1) + b"\1", 0, [], "refused 5 1 2 1 8")
for good in [3], [1, 2], [1, 1, 1]:
    case(three, 64, good, "accepted")
for bad in [], [0, 3], [3, 0], [4], [2], [1, 1], [2, 2], [4294967295, 4]:
    case(three, 64, bad, "not accepted")
case(b"", 16, [0], "accepted")
case(b"", 15, [0], "not accepted")
for bad in [], [0, 0], [1]:
    case(b"", 16, bad, "not accepted")
# 256 numbers are lent: one message more is refused, with four bytes for each
made(option(1) * 256, 24, *[1] * 256)
case(option(1) * 257, 24, None, "refused 9 1028")

# ---- lists by chance at 1,240, the last of 300 options
random.seed(29)
for count in (1, 2, 3, 10, 40, 41, 76, 77, 100, 150, 200, 300):
    for most in (1, 4, 10) if count < 77 else (4,):
        units = [random.randint(1, most) for _ in range(count)]
        sizes, options = [8 * u for u in units], b"".join(map(option, units))
        ours = plan(sizes, LIMIT)
        made(options, LIMIT, *ours)
        checked(options, sizes, LIMIT, ours)
        if count < 77:
            i = random.randrange(len(ours))
            for change in (-1, 1):
                checked(options, sizes, LIMIT, ours[:i] + [ours[i] + change] + ours[i + 1:])
            checked(options, sizes, LIMIT, ours[::-1])

assert len(stdin) <= 131072, len(stdin)
open(here + "/stdin", "wb").write(stdin)
open(here + "/stdout", "w").write("\n".join(stdout) + "\n")
print(len(stdout), "cases,", len(stdin), "bytes")
