"""chain.py: the chain of quoted packets (brothladder_chain), from docs/RULES.md (area Q, H3 for the kinds) and RFC 4443, 4861 and 8200: a message reader
and a quote reader that call each other."""
import struct

import walk

CHAIN, SIZE, DEEPEST = 12, 104, 8
CODES = {1: 7, 2: 1, 3: 2, 4: 11, 128: 1, 129: 1, 133: 1, 134: 1, 135: 1, 136: 1, 137: 1}  # codes below this one are known
FIXED = {133: 0, 134: 8, 135: 16, 136: 16, 137: 32}
REDIRECTED = 4
_told = struct.Struct("<48s2I8I8B8B").pack


class Refused(Exception):
    """A refusal, and the level of the message or quote that it is of."""


def kind_of(d, at):
    return d[at] if d[at + 1] < CODES.get(d[at], 0) else 0


def message(d, at, end, level, second, chain):
    """Reads the message from `at` to `end`, which stands in so many quotes: its kind goes to the chain, and so does what it quotes."""
    if end - at < 8:
        raise Refused((1, 8, end - at), level)
    kind = kind_of(d, at)
    chain.append(kind)
    if 1 <= kind <= 4:
        quote(d, at + 8, end, level + 1, second, chain)
    elif kind in FIXED:
        if end - at - 8 < FIXED[kind]:
            raise Refused((4, FIXED[kind], end - at - 8), level)
        options, refusal = walk.walk(d, at + 8 + FIXED[kind], end, 0, second)
        if refusal:
            raise Refused(refusal, level)
        for type_, place, length in options:
            if type_ == REDIRECTED:
                return quote(d, place + 8, place + length, level + 1, second, chain)
    return None


def quote(d, at, end, level, second, chain):
    """Reads the quote from `at` to `end`: its place, its next header, and the message in it."""
    if level > DEEPEST:
        raise Refused((17, at), level)
    if end - at < 40:
        raise Refused((15, at), level)
    if d[at] >> 4 != 6:
        raise Refused((16, at), level)
    chain += (at, d[at + 6])
    if d[at + 6] == 58:
        message(d, at + 40, end, level, second, chain)
    else:
        chain.append(0)


def read(edition, _numbers, lengths, buffers):
    """What the call answers, and a label of it for the count."""
    d, length, chain = buffers[0], lengths[0], []
    if length < 8:
        return walk.refused((1, 8, length), SIZE), "1 of level 0"
    if length > walk.MOST:
        return walk.refused((2, walk.MOST, length), SIZE), "2"
    try:
        message(d, 0, length, 0, edition == 2, chain)
    except Refused as stop:
        refusal, level = stop.args
        return walk.refused(refusal, SIZE), f"{refusal[0]} of level {level}"
    levels = len(chain) // 3
    none = [0] * (DEEPEST - levels)
    told = _told(walk.answer(CHAIN), chain[0], levels, *chain[1::3], *none, *chain[2::3], *none, *chain[3::3], *none)
    return told, f"chain of {levels}"


CALLS = {1: ("chain", read)}
NAMED = {"chain": {"2", "17 of level 9"} | {f"chain of {n}" for n in range(9)} | {f"{r} of level {n}" for r in (1, 4, 5, 6, 7, 18) for n in range(9)}
         | {f"{r} of level {n}" for r in (15, 16) for n in range(1, 9)}}
