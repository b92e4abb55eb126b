"""cases.py: what the calls are asked: requests by chance from a seed, and requests by hand. A request is a tuple: call, edition, four numbers, three lengths
as the call is told them, three buffers as bytes, flags. driver.c has the calls' numbers, what each takes, and the flags."""
import struct

import chain
import plans
import walk

CHAIN, BUILD, APPEND, FIRST, NEXT, CHECK, PLAN, MESSAGE = range(1, 9)
ODD_EDITIONS = (0, 3, 258, 2**32 - 1)
VALUES = (0, 1, 2, 3, 4, 5, 7, 24, 25, 32, 58, 64, 65, 128, 129, 133, 134, 135, 136, 137, 0x50, 0x60, 0x6f, 0x70, 254, 255)


def request(call, in_edition, numbers, lent, null=False):
    """A request whose lengths are those of its buffers. `null`: a buffer without bytes is NULL."""
    lent = tuple(lent) + (b"",) * (3 - len(lent))
    lengths = [len(buffer) for buffer in lent]
    counted = 0 if call in (FIRST, NEXT) else 1
    lengths[counted] //= 4
    empty = sum(1 << i for i in range(3) if null and not lent[i])
    return call, in_edition, tuple(numbers) + (0,) * (4 - len(numbers)), tuple(lengths), lent, empty


def packed(numbers):
    return struct.pack(f"<{len(numbers)}I", *numbers)


def edition(rnd):
    r = rnd.random()
    return 2 if r < 0.5 else 1 if r < 0.95 else rnd.choice(ODD_EDITIONS)


def option(rnd):
    """An option that walks clean in both editions."""
    kind = rnd.choice((1, 2, 3, 4, 5, 24, 25, 0, 6, 14, 23, 26, 253, 255))
    if kind in (3, 5):
        units = 4 if kind == 3 else 1
    elif kind == 25:
        units = rnd.choice((3, 5, 7))
    else:
        units = rnd.choice((1, 1, 1, 2, 3)) if kind == 24 or rnd.random() < 0.97 else rnd.choice((4, 31, 254, 255))
    body = bytearray(rnd.randbytes(8 * units))
    body[0], body[1] = kind, units
    if kind == 24:
        body[2] = rnd.choice(((0,), (0, 1, 64), (0, 1, 64, 65, 128))[units - 1])
    return bytes(body)


def bad_option(rnd):
    """An option that is refused in one edition at least, and often in the second alone."""
    kind = rnd.choice((3, 5, 24, 24, 24, 25, 25, 1))
    units = rnd.choice({3: (1, 3, 5), 5: (2, 4), 24: (1, 2, 2, 3, 3, 4), 25: (1, 2, 4, 6), 1: (0,)}[kind])
    body = bytearray(rnd.randbytes(8 * (units or 1)))
    body[0], body[1] = kind, units
    if kind == 24:
        body[2] = rnd.choice((1, 64, 65, 128, 129, 129, 255, 255))
    return bytes(body)


class Pool:
    """Options to choose from, drawn anew for each batch."""

    def __init__(self, rnd):
        self.rnd = rnd
        self.good = [option(rnd) for _ in range(300)]
        self.short = [o for o in self.good if len(o) == 8]
        self.bad = [bad_option(rnd) for _ in range(80)]

    def some(self, most):
        return b"".join(self.rnd.choices(self.good, k=self.rnd.randrange(most + 1)))

    def listed(self):
        """An option list: short, or of about 64 options."""
        if self.rnd.random() < 0.9:
            return self.some(7)
        return b"".join(self.rnd.choices(self.short, k=self.rnd.randrange(58, 68)))

    def damaged(self, d):
        """A list or a packet with something in it changed."""
        rnd = self.rnd
        way = rnd.random()
        if way < 0.2:
            return d[:max(0, len(d) - rnd.choice((1, 2, 6, 7, 8, 9)))]
        if way < 0.4:
            return d + rnd.choice((b"\x01", b"\x05\x01", b"\x00" * 8, rnd.randbytes(rnd.randrange(1, 9))))
        if way < 0.7:
            cut = 8 * rnd.randrange(len(d) // 8 + 1)
            return d[:cut] + rnd.choice(self.bad) + d[cut:]
        if not d:
            return b"\x00"
        at = min(len(d) - 1, 8 * rnd.randrange(len(d) // 8 + 1) + rnd.choice((0, 1, 1, 2, 3, 6)))
        return d[:at] + bytes((rnd.choice(VALUES) if rnd.random() < 0.8 else rnd.randrange(256),)) + d[at + 1:]


def head(rnd, kind, code=0):
    return bytes((kind, code)) + rnd.randbytes(6)


def neighbor(rnd, options, kind=0):
    """A message of types 133 to 137 with these options."""
    kind = kind or rnd.choice((133, 134, 135, 136, 137, 137))
    return head(rnd, kind) + rnd.randbytes(chain.FIXED[kind]) + options


def error(rnd, quote):
    kind = rnd.randrange(1, 5)
    return head(rnd, kind, rnd.randrange(chain.CODES[kind])) + quote


def quoted(rnd, content, following=58, version=6):
    """A quote: an IPv6 header and what stands behind it."""
    return bytes((version << 4 | rnd.randrange(16),)) + rnd.randbytes(5) + bytes((following,)) + rnd.randbytes(33) + content


def redirected(rnd, quote):
    """A redirected-header option, padded to whole units; None if that is too long for an option."""
    quote += bytes(-len(quote) % 8)
    return bytes((4, len(quote) // 8 + 1)) + rnd.randbytes(6) + quote if len(quote) <= 2032 else None


def innermost(rnd, pool):
    r = rnd.random()
    if r < 0.3:
        return head(rnd, rnd.choice((128, 129))) + rnd.randbytes(8 * rnd.randrange(3))
    if r < 0.6:
        return neighbor(rnd, pool.some(3))
    if r < 0.75:
        return head(rnd, rnd.choice((0, 1, 2, 3, 4, 5, 100, 127, 128, 130, 132, 133, 137, 138, 255)), rnd.choice((0, 1, 2, 6, 7, 10, 11, 255))) + bytes(8)
    if r < 0.85:
        return error(rnd, quoted(rnd, rnd.randbytes(rnd.randrange(24)), rnd.choice((0, 6, 17, 43, 44, 59, 60))))
    return rnd.randbytes(rnd.randrange(40))


def wrapped(rnd, pool, inner):
    """A message that quotes another one."""
    quote = quoted(rnd, inner)
    if rnd.random() < 0.6:
        return error(rnd, quote)
    held = redirected(rnd, quote)
    if held is None:
        return error(rnd, quote)
    return neighbor(rnd, pool.some(1) + held + pool.some(1))


def chains(rnd, pool):
    """A packet that quotes up to ten deep, in both editions, and changed copies of it."""
    packet = innermost(rnd, pool)
    for _ in range(rnd.randrange(11)):
        packet = wrapped(rnd, pool, packet)
    yield request(CHAIN, 1, (), (packet,))
    yield request(CHAIN, 2, (), (packet,))
    yield request(CHAIN, edition(rnd), (), (packet[:8 * rnd.randrange(len(packet) // 8 + 1) + rnd.choice((0, 0, 1, 7))],), True)
    yield request(CHAIN, edition(rnd), (), (packet[:rnd.randrange(len(packet) + 1)],), True)
    for _ in range(5):
        yield request(CHAIN, edition(rnd), (), (pool.damaged(packet),), True)


def around(rnd, n):
    """A number at n or near it, 0 or more."""
    return max(0, n + rnd.choice((0, 0, 0, 1, -1, 2, -2, 8, -8)))


def builds(rnd, pool):
    listed = pool.listed()
    if rnd.random() < 0.35:
        listed = pool.damaged(listed)
    options, _ = walk.walk(listed, 0, len(listed), 0, False)
    for _ in range(2):
        yield request(BUILD, edition(rnd), (), (listed, rnd.randbytes(4 * around(rnd, 2 * len(options)))), True)


def other_index(rnd, numbers, entries, used):
    """An index, its number of entries, or the number of bytes in use, with something wrong in it."""
    r = rnd.random()
    if r < 0.5 and numbers:
        at = rnd.randrange(len(numbers))
        return numbers[:at] + [numbers[at] ^ 1 << rnd.randrange(32)] + numbers[at + 1:], entries, used
    if r < 0.7:
        return numbers, rnd.choice((entries + 1, max(0, entries - 1), 64, 65, 2**31, 2**63, 2**64 - 1)), used
    if r < 0.8:
        return numbers[:max(0, len(numbers) - rnd.choice((1, 2, 3)))], entries, used
    return numbers, entries, rnd.choice((used + 1, max(0, used - 1), used + 8, max(0, used - 8), 2**32, 2**64 - 1))


def appends(rnd, pool):
    listed, more = pool.listed(), pool.listed() if rnd.random() < 0.2 else pool.some(3)
    if rnd.random() < 0.15:
        listed = pool.damaged(listed)
    if rnd.random() < 0.3:
        more = pool.damaged(more)
    options, _ = walk.walk(listed, 0, len(listed), 0, False)
    new, _ = walk.walk(more, 0, len(more), 0, False)
    numbers = [number for kind, place, _ in options for number in (kind, place)]
    for _ in range(3):
        mine, entries, used = numbers, len(options), len(listed)
        if rnd.random() < 0.25:
            mine, entries, used = other_index(rnd, mine, entries, used)
        spare = 4 * around(rnd, 2 * len(new)) if len(mine) == len(numbers) else 0
        room = around(rnd, len(more)) if rnd.random() < 0.9 else 0
        lent = (listed + rnd.randbytes(room), packed(mine) + rnd.randbytes(spare), more)
        yield request(APPEND, edition(rnd), (used, entries), lent, True)


def lookups(rnd, pool):
    """Lookups in the index of a list, with the list beside it for the model alone; and in any numbers."""
    listed, built = pool.listed(), rnd.random() < 0.6
    options, _ = walk.walk(listed, 0, len(listed), 0, False)
    numbers = [number for kind, place, _ in options for number in (kind, place)]
    if not built and rnd.random() < 0.5:
        numbers = [rnd.choice((0, 1, 3, 5, 8, 16, 255, 256, 259, 2**32 - 1, rnd.randrange(2**32))) for _ in range(rnd.randrange(20))]
    lent = (packed(numbers) + rnd.randbytes(4 * rnd.randrange(5)), b"", listed)
    for _ in range(4):
        entries = len(options)
        if not built and rnd.random() < 0.5:
            entries = rnd.choice((0, 1, len(numbers) // 2 + 1, 2**31, 2**63, 2**64 - 1))
        type_ = rnd.choice(options)[0] if options and rnd.random() < 0.7 else rnd.choice((0, 1, 3, 5, 24, 255, rnd.randrange(256)))
        yield request(FIRST, edition(rnd), (entries, type_, 0, built), lent, True)
        place = rnd.choice(options)[1] if options else 0
        after = rnd.choice((place, place, max(0, place - 1), place + 1, 0, 2**32 - 1, 2**32, 2**64 - 1))
        yield request(NEXT, edition(rnd), (entries, type_, after, built), lent, True)


def parted(rnd, sizes, limit):
    """A plan by chance that keeps to the limit where it can."""
    plan, room = [], -1
    for size in sizes:
        if size > room or rnd.random() < 0.2:
            plan.append(0)
            room = limit - 16
        plan[-1] += 1
        room -= size
    return plan or [0]


def changed_plan(rnd, plan):
    """A plan with a count changed, a message more or fewer, or none at all."""
    r, at = rnd.random(), rnd.randrange(len(plan))
    if r < 0.3:
        return plan[:at] + [max(0, plan[at] + rnd.choice((1, -1)))] + plan[at + 1:]
    if r < 0.5:
        return plan[:at] + [rnd.choice((0, 1, 2**32 - 1))] + plan[at:]
    if r < 0.7:
        return plan[:at] + plan[at + 1:]
    if r < 0.8 and len(plan) > 1:
        return plan[1:] + plan[:1]
    return rnd.choice(([], [0], [0, 0], [2**32 - 1, 2], [2**31, 2**31], [2**32 - 1] * 4))


def limits(rnd, sizes):
    """A limit that decides something for options of these sizes."""
    r = rnd.random()
    if r < 0.1:
        return rnd.choice((0, 1, 8, 15, 16, 17, 23, 24, 1240, 2**32, 2**63, 2**64 - 1))
    if r < 0.25:
        return 16 + max(sizes, default=0) + rnd.choice((-8, -1, 0, 1))
    at = rnd.randrange(len(sizes) + 1)
    return 16 + max(max(sizes, default=0), sum(sizes[at:at + rnd.randrange(1, 6)])) + rnd.choice((-1, 0, 0, 1, 8))


def splits(rnd, pool):
    """Plans for one list: by a planner of chance, changed, and ours."""
    listed = pool.some(12) if rnd.random() < 0.95 else pool.listed()
    if rnd.random() < 0.15:
        listed = pool.damaged(listed)
    options, _ = walk.walk(listed, 0, len(listed), 0, False)
    sizes = [length for _, _, length in options]
    for _ in range(3):
        limit = limits(rnd, sizes)
        plan = parted(rnd, sizes, limit)
        if rnd.random() < 0.35:
            plan = changed_plan(rnd, plan)
        lent, in_edition = (listed, packed(plan)), edition(rnd)
        yield request(CHECK, in_edition, (limit,), lent, True)
        i = rnd.randrange(len(plan) + 1) if rnd.random() < 0.95 else rnd.choice((2**32, 2**64 - 1))
        yield request(MESSAGE, in_edition, (limit, i), lent, True)
        room = around(rnd, len(plans.filled(sizes, limit) or ()))
        all_plans = rnd.random() < 0.01
        yield request(PLAN, edition(rnd), (limit, 0, 0, all_plans), (listed, rnd.randbytes(4 * room)), True)


GROUPS = (chains, chains, chains, builds, builds, builds, appends, appends, appends, appends, lookups, splits, splits)


def by_chance(rnd, pool):
    """Requests without end."""
    while True:
        for group in GROUPS:
            yield from group(rnd, pool)
