"""hand.py: requests by hand: every refusal of a chain at every level, packets cut at every length, lists and plans at their boundaries, the worked cases of
docs/RULES.md, and buffers of more than 4 GiB."""
import random

import chain
import walk
from cases import APPEND, BUILD, CHAIN, CHECK, FIRST, MESSAGE, NEXT, PLAN, error, head, neighbor, packed, quoted, redirected, request

BAD = {5: (b"\x01", b"\x03\x03" + bytes(22), b"\x05\x02" + bytes(14)), 6: (b"\x01\x00", b"\x00" * 8), 7: (b"\x01\x02" + bytes(6), b"\x19\xff" + bytes(38)),
       18: (b"\x18\x01\x81" + bytes(5), b"\x18\x03\xff\x10" + bytes(20))}
SECOND = (b"\x18\x04" + bytes(30), b"\x18\x01\x01" + bytes(5), b"\x18\x02\x41" + bytes(13), b"\x19\x01" + bytes(6), b"\x19\x04" + bytes(30))
FILLED = 2040 * 2105376  # the longest list of options of 2,040 bytes: 4,294,967,040 bytes


def unit(kind, units=1):
    return bytes((kind, units)) + bytes(8 * units - 2)


MORE = (b"", b"\x05", b"\x01\x00", b"\x01\x02", unit(25, 3), unit(1), unit(1) * 2, unit(1) * 64, unit(1) * 65, BAD[18][0], SECOND[1])


def tower(rnd, message, levels, way):
    """A message inside so many quotes: of errors, of options, or of both in turn."""
    for level in range(levels):
        quote = quoted(rnd, message)
        option = redirected(rnd, quote) if way == "options" or way == "turns" and level % 2 else None
        message = neighbor(rnd, unit(1) + option) if option else error(rnd, quote)
    return message


def bad_messages(rnd):
    """Messages that are refused, or just not."""
    for n in range(9):
        yield head(rnd, 128)[:n]
    for kind, fixed in chain.FIXED.items():
        for n in {0, max(0, fixed - 1), fixed, fixed + 1}:
            yield head(rnd, kind) + bytes(n)
    for options in [o for bad in BAD.values() for o in bad] + list(SECOND):
        yield neighbor(rnd, options)
        yield neighbor(rnd, unit(1) + unit(4) + options)
    for n in (0, 1, 39, 40, 41, 47, 48):
        yield error(rnd, quoted(rnd, bytes(8))[:n])
        yield error(rnd, quoted(rnd, head(rnd, 128), 17)[:n])
    for version in range(16):
        yield error(rnd, quoted(rnd, head(rnd, 128), 58, version))
    for kind, codes in chain.CODES.items():
        for code in (0, codes - 1, codes, 255):
            yield head(rnd, kind, code) + quoted(rnd, head(rnd, 129))
    for following in (0, 6, 17, 43, 44, 57, 58, 59, 60):
        yield error(rnd, quoted(rnd, head(rnd, 129), following))


def options_first(rnd):
    """Redirects with two redirected-header options, with padding, with an option behind."""
    good = redirected(rnd, quoted(rnd, head(rnd, 128)))
    for options in (unit(4) + good, good + unit(4), good + b"\x01", good + unit(1), redirected(rnd, quoted(rnd, neighbor(rnd, b"", 135)) + bytes(8)),
                    unit(4, 5) + good, unit(4, 6) + good, unit(4, 255), redirected(rnd, b"\x60" + bytes(39)), b"", unit(5), good[:-1]):
        for kind in chain.FIXED:
            yield neighbor(rnd, options, kind)


def chains(rnd):
    inner = list(bad_messages(rnd)) + list(options_first(rnd))
    for levels in range(11):
        for way in ("errors", "options", "turns"):
            for message in inner:
                if way == "errors" or len(message) % 8 == 0:
                    yield from both(CHAIN, (), (tower(rnd, message, levels, way),))
    for way in ("errors", "options", "turns"):
        packet = tower(rnd, neighbor(rnd, unit(1) + unit(24, 2), 137), 9 if way == "errors" else 8, way)
        for n in range(len(packet) + 1):
            yield from both(CHAIN, (), (packet[:n],))


def both(call, numbers, lent):
    for edition in (1, 2):
        yield request(call, edition, numbers, lent, True)


def newer():
    """Routes and servers of every size that decides something: what the two editions tell apart."""
    for units in (1, 2, 3, 4, 255):
        for length in (0, 1, 64, 65, 128, 129, 255):
            for flags in (0, 8, 16, 24):
                yield bytes((24, units, length, flags)) + bytes(8 * units - 4)
    for units in (1, 2, 3, 4, 5, 254, 255):
        yield unit(25, units)
    for kind in (23, 26):
        yield unit(kind, 2)


def editions(rnd):
    for option in newer():
        yield from both(BUILD, (), (option + unit(1), bytes(16)))
        yield from both(APPEND, (8, 1), (unit(1) + bytes(len(option)), packed((1, 0, 7, 7)), option))
        yield from both(PLAN, (16 + len(option),), (option, bytes(8)))
        yield from both(CHAIN, (), (neighbor(rnd, option, 134),))
        yield from both(CHAIN, (), (error(rnd, quoted(rnd, neighbor(rnd, unit(1) + option))),))


def lists():
    """Lists around 64 options, and each bad one alone and behind a good option."""
    yield b""
    for n in (1, 2, 3, 63, 64, 65, 66):
        yield unit(1) * n
        yield unit(1) * n + b"\x01"
    for bad in [o for some in BAD.values() for o in some] + list(SECOND):
        yield bad
        yield unit(5) + bad
    yield unit(1) + unit(5) + unit(3, 4)
    yield unit(253, 255) * 64


def indexes(rnd):
    for listed in lists():
        options, _ = walk.walk(listed, 0, len(listed), 0, False)
        numbers = [number for kind, place, _ in options for number in (kind, place)]
        for room in {0, 1, max(0, 2 * len(options) - 2), max(0, 2 * len(options) - 1), 2 * len(options), 2 * len(options) + 1, 128}:
            yield from both(BUILD, (), (listed, rnd.randbytes(4 * room)))
        for type_ in (0, 1, 3, 5, 253):
            lent = (packed(numbers),)
            yield from both(FIRST, (len(options), type_), lent)
            for after in (0, 7, 8, 15, 16, 17, 2**64 - 1):
                yield from both(NEXT, (len(options), type_, after), lent)
        for more in MORE if len(listed) < 1000 else MORE[:1]:
            yield from grown(rnd, listed, len(options), numbers, more)


def grown(rnd, listed, entries, numbers, more):
    """Appends of some bytes: as they should be, with too little room, and with an index that is not the list's."""
    new = len(walk.walk(more, 0, len(more), 0, False)[0])
    for short in (0, 1):
        for spare in (2 * new, max(0, 2 * new - 1), 2 * new + 3):
            buffer = listed + rnd.randbytes(max(0, len(more) - short))
            yield from both(APPEND, (len(listed), entries), (buffer, packed(numbers) + rnd.randbytes(4 * spare), more))
    lent = (listed + bytes(len(more)), packed(numbers) + bytes(8 * new), more)
    for used, said in ((len(listed), entries + 1), (len(listed), 2**63 + entries), (len(listed) + len(more) + 1, entries), (2**64 - 1, entries),
                       (max(0, len(listed) - 8), entries), (max(0, len(listed) - 8), max(0, entries - 1))):
        yield from both(APPEND, (used, said), lent)
    yield from both(APPEND, (len(listed), entries), (lent[0], packed(numbers)[:-4], more))
    for at in range(min(len(numbers), 8)):
        wrong = numbers[:at] + [numbers[at] ^ 1] + numbers[at + 1:]
        yield from both(APPEND, (len(listed), entries), (lent[0], packed(wrong) + bytes(8 * new), more))


def splits():
    three, many = unit(1) * 2 + unit(3, 4), unit(1) * 2 + unit(3, 4) * 40
    plans = ([3], [1, 2], [1, 1, 1], [2, 1], [], [0, 3], [3, 0], [4], [2], [1, 1], [2, 2], [2**32 - 1, 4], [0], [0, 0], [1], [39, 3], [40, 2], [1] * 42)
    for listed in (b"", three, many, unit(3, 4) * 38, unit(253, 255)):
        for limit in (0, 15, 16, 17, 23, 24, 47, 48, 63, 64, 1231, 1232, 1240, 2055, 2056, 2**32 - 1, 2**32, 2**64 - 1):
            for plan in plans:
                yield from both(CHECK, (limit,), (listed, packed(plan)))
                for i in (0, 1, len(plan), 2**64 - 1)[:4 if limit in (16, 48, 64, 1240) else 1]:
                    yield from both(MESSAGE, (limit, i), (listed, packed(plan)))
            for room in (0, 1, 2, 3, 4, 50):
                yield from both(PLAN, (limit, 0, 0, 1), (listed, b"\xa5" * (4 * room)))
    for listed in (unit(1) * 2 + b"\x01", *SECOND, *(bad for some in BAD.values() for bad in some)):
        for limit in (0, 64):
            yield from both(CHECK, (limit,), (listed, packed([1])))
            yield from both(MESSAGE, (limit, 0), (listed, packed([1])))
            yield from both(PLAN, (limit,), (listed, b"\xa5" * 8))


def far(call, numbers, lengths, lent, zeros=None, options=None):
    """Requests with a buffer of which a beginning is given, and which goes on with zeros or with options of 2,040 bytes."""
    flags = (0 if zeros is None else 256 << zeros) | (0 if options is None else 65536 << options)
    lengths, lent = tuple(lengths) + (0,) * (3 - len(lengths)), tuple(lent) + (b"",) * (3 - len(lent))
    for edition in (1, 2):
        yield call, edition, tuple(numbers) + (0,) * (4 - len(numbers)), lengths, lent, flags


def long_buffers(rnd):
    """Lengths around 4,294,967,295."""
    for n in (walk.MOST - 1, walk.MOST, walk.MOST + 1, walk.MOST + 2):
        for packet in (b"", error(rnd, quoted(rnd, b"", 17)), error(rnd, quoted(rnd, head(rnd, 129))), neighbor(rnd, unit(1))):
            yield from far(CHAIN, (), (n,), (packet,), zeros=0)
        yield from far(BUILD, (), (n, 4), (b"\x01\x01" + bytes(6), bytes(16)), zeros=0)
        yield from far(CHECK, (16,), (n, 1), (b"", bytes(4)), zeros=0)
        yield from far(PLAN, (2**63,), (n, 1), (unit(1), bytes(4)), zeros=0)
        yield from far(MESSAGE, (16, 0), (n, 1), (b"\x05", bytes(4)), zeros=0)
        yield from far(APPEND, (n, 0), (n, 4, 8), (b"", bytes(16), unit(1)), zeros=0)
        yield from far(APPEND, (n, 1), (n - 1, 4, 8), (unit(1), bytes(16), unit(1)), zeros=0)
        yield from far(APPEND, (16, 2), (n, 6, 8), (unit(1) * 2 + bytes(16), packed((1, 0, 1, 8, 0, 0)), unit(5)), zeros=0)
        for used in (0, 8):
            numbers = packed((1, 0)[:used // 4] + (7, 7))
            yield from far(APPEND, (used, used // 8), (8, len(numbers) // 4, n - used), (unit(1), numbers, b""), zeros=2)
            yield from far(APPEND, (used, used // 8), (8, len(numbers) // 4, n - used), (unit(1), numbers, unit(1)), zeros=2)


def long_lists(rnd, few):
    """Lists of 4 GiB that walk clean, or nearly so: seconds of Python each. `few`: two of them."""
    one = bytes((253, 254)) + bytes(6)
    wanted = [(CHAIN, (), (walk.MOST,), (head(rnd, 133) + one,)), (PLAN, (2056,), (FILLED, 1), (b"", b"\xa5" * 4))]
    if not few:
        wanted += [(CHAIN, (), (FILLED,), (head(rnd, 133) + one,)), (CHAIN, (), (FILLED + 1,), (head(rnd, 133) + one,)),
                   (BUILD, (), (FILLED, 4), (b"", bytes(16))), (BUILD, (), (walk.MOST, 4), (b"", bytes(16))),
                   (APPEND, (FILLED, 0), (FILLED, 4, 8), (b"", bytes(16), unit(1))),
                   (PLAN, (2**40,), (FILLED, 3), (b"", b"\xa5" * 12)), (PLAN, (2055,), (FILLED, 3), (b"", b"\xa5" * 12)),
                   (CHECK, (FILLED + 16,), (FILLED, 1), (b"", packed([2105376]))), (CHECK, (FILLED + 15,), (FILLED, 1), (b"", packed([2105376]))),
                   (MESSAGE, (FILLED + 8, 1), (FILLED, 2), (b"", packed([1, 2105375])))]
    for call, numbers, lengths, lent in wanted:
        yield from list(far(call, numbers, lengths, lent, options=0))[:1]
    if not few:
        yield from list(far(APPEND, (8, 1), (8, 2, FILLED), (unit(1), packed((1, 0)), b""), options=2))[:1]
        yield from list(far(APPEND, (8, 1), (8, 2, walk.MOST - 8), (unit(1), packed((1, 0)), b""), options=2))[1:]


def by_hand(few):
    """All of them; `few` leaves out what takes seconds."""
    rnd = random.Random(4861)
    for some in (chains(rnd), indexes(rnd), editions(rnd), splits(), long_buffers(rnd), long_lists(rnd, few)):
        yield from some
