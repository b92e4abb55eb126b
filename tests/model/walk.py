"""walk.py: the option walk in both editions, and how a refusal stands in C. Written from docs/RULES.md (areas W, A and E) and what it was asked for by,
not from the code of the library. A refusal is a tuple: its number, then its values."""
import struct

MOST = 4_294_967_295  # the longest packet
REFUSED = 1
_head = struct.Struct("<II5Q").pack
_behind = [bytes(n) for n in range(128)]


def answer(number):
    """The beginning of the struct of a call that did not refuse."""
    return _head(number, 0, 0, 0, 0, 0, 0)


def refused(refusal, size):
    """The struct, of so many bytes, of a call that refused."""
    values = refusal[1:] + (0, 0, 0, 0, 0)
    return _head(REFUSED, refusal[0], *values[:5]) + _behind[size - 48]


class Far:
    """Bytes that go on for more than 4 GiB: behind those given with zeros, or with options of type 253 and 255 units, as the driver has them."""

    def __init__(self, given, filled):
        self.given, self.filled = given, filled

    def __getitem__(self, at):
        if at < len(self.given):
            return self.given[at]
        return (253, 255)[at % 2040] if self.filled and at % 2040 < 2 else 0


def route(d, at, units, place):
    """The own rule of a route in the second edition."""
    if units > 3:
        return (5, 24, 24, 8 * units, place)
    if d[at + 2] > 128:
        return (18, place)
    needed = 1 if d[at + 2] == 0 else 2 if d[at + 2] <= 64 else 3
    return (5, 24, 8 * needed, 8 * units, place) if units < needed else None


def own_rule(d, at, kind, units, place, second):
    """The refusal of an option that is all there by the rule of its type, or None."""
    if kind == 3:
        return (5, 3, 32, 8 * units, place) if units != 4 else None
    if kind == 5:
        return (5, 5, 8, 8 * units, place) if units != 1 else None
    if second and kind == 24:
        return route(d, at, units, place)
    if second and kind == 25 and (units % 2 == 0 or units < 3):
        return (5, 25, 24, 8 * units, place)
    return None


def walk(d, at, end, shift, second):
    """Walks the bytes of d from `at` to `end`. The place of byte i in its packet is i + shift. Gives the options (type, index in d, length) that are handed
    out, and the refusal that ends them, or None."""
    options = []
    if end + shift > MOST:
        return options, (22,)
    while at < end:
        kind, left = d[at], end - at
        if left < 2:
            return options, (5, kind, 2, 1, at + shift)
        units = d[at + 1]
        if units == 0:
            return options, (6, kind, at + shift)
        if 8 * units > left:
            return options, (7, kind, 8 * units, left, at + shift)
        if kind in (3, 5, 24, 25):
            wrong = own_rule(d, at, kind, units, at + shift, second)
            if wrong:
                return options, wrong
        options.append((kind, at, 8 * units))
        at += 8 * units
    return options, None
