"""index.py: the index beside an option list (brothladder_index_build, .._append, .._first, .._next), from docs/RULES.md (area I, X21 to X23)."""
import struct

import walk

INDEXED, FOUND, NONE, INDEXED_SIZE, ENTRIES = 19, 20, 21, 64, 64
_told = struct.Struct("<48sQQ").pack
_found = struct.Struct("<48sQ").pack
_entry = struct.Struct("<II").pack
_numbers = struct.Struct("<II").iter_unpack
FOUND_HEAD, NONE_ANSWER = walk.answer(FOUND), walk.answer(NONE) + bytes(8)


def entries_of(options):
    """The index of options, as bytes: type and place of each."""
    return b"".join([_entry(kind, place) for kind, place, _ in options])


def put(buffer, at, new):
    """The buffer with other bytes from a place on; of one that goes on for 4 GiB, what was given of it."""
    buffer = getattr(buffer, "given", buffer)
    return buffer[:at] + new + buffer[at + len(new):]


def build(edition, _n, lengths, buffers):
    options, refusal = walk.walk(buffers[0], 0, lengths[0], 0, edition == 2)
    if not refusal and len(options) > ENTRIES:
        refusal = (20,)
    if not refusal and lengths[1] < 2 * len(options):
        refusal = (9, 8 * len(options))
    if refusal:
        return walk.refused(refusal, INDEXED_SIZE), str(refusal[0])
    told = _told(walk.answer(INDEXED), lengths[0], len(options))
    return told, "indexed", {1: put(buffers[1], 0, entries_of(options))}


def of_list(used, entries, edition, lengths, buffers):
    """The options of an append's list, or what refuses them: (options, refusal, label)."""
    if used > lengths[0]:
        return [], (23,), "23 no such list"
    options, refusal = walk.walk(buffers[0], 0, used, 0, edition == 2)
    if refusal:
        return [], refusal, f"{refusal[0]} of the list"
    if len(options) > ENTRIES:
        return [], (23,), "23 list of more than 64"
    if entries != len(options):
        return [], (23,), "23 number of entries"
    if 2 * entries > lengths[1]:
        return [], (23,), "23 no such index"
    if buffers[1][:8 * entries] != entries_of(options):
        return [], (23,), "23 another number"
    return options, None, ""


def of_more(used, options, edition, lengths, buffers):
    """The new options of an append, or what refuses them."""
    more, refusal = walk.walk(buffers[2], 0, lengths[2], used, edition == 2)
    if refusal:
        return [], refusal, f"{refusal[0]} of the new bytes"
    if len(options) + len(more) > ENTRIES:
        return [], (20,), "20"
    if used + lengths[2] > lengths[0]:
        return [], (9, used + lengths[2]), "9 of the list"
    if 2 * (len(options) + len(more)) > lengths[1]:
        return [], (9, 8 * (len(options) + len(more))), "9 of the index"
    return more, None, ""


def append(edition, n, lengths, buffers):
    used, entries = n[0], n[1]
    options, refusal, label = of_list(used, entries, edition, lengths, buffers)
    if not refusal:
        more, refusal, label = of_more(used, options, edition, lengths, buffers)
    if refusal:
        return walk.refused(refusal, INDEXED_SIZE), label
    # the index is what a build of the joined list gives, from its first entry on
    both = put(buffers[0], used, buffers[2])
    joined, refusal = walk.walk(both, 0, used + lengths[2], 0, edition == 2)
    if refusal or len(joined) != entries + len(more):
        raise AssertionError("the joined list is not the two lists")
    told = _told(walk.answer(INDEXED), used + lengths[2], len(joined))
    return told, "indexed" if more else "indexed, no new bytes", {0: both, 1: put(buffers[1], 0, entries_of(joined))}


def looked_up(edition, n, lengths, buffers, after):
    """The first entry of a type whose place is above `after`. Of an index that was built from the list in the third buffer, which the call is not lent, the
    list itself is asked."""
    if n[3]:
        options, _ = walk.walk(buffers[2], 0, lengths[2], 0, edition == 2)
        entries = [(kind, place) for kind, place, _ in options]
    else:
        entries = _numbers(buffers[0][:8 * min(n[0], lengths[0] // 2)])
    for kind, place in entries:
        if kind == n[1] and place > after:
            return _found(FOUND_HEAD, place), "found"
    return NONE_ANSWER, "none"


def first(edition, n, lengths, buffers):
    return looked_up(edition, n, lengths, buffers, -1)


def following(edition, n, lengths, buffers):
    return looked_up(edition, n, lengths, buffers, n[2])


CALLS = {2: ("index_build", build), 3: ("index_append", append), 4: ("index_first", first), 5: ("index_next", following)}
OWN = (5, 6, 7, 18, 22)
NAMED = {
    "index_build": {"indexed", "20", "9"} | {str(r) for r in OWN},
    "index_append": {"indexed", "indexed, no new bytes", "20", "9 of the list", "9 of the index", "23 no such list", "23 list of more than 64",
                     "23 number of entries", "23 no such index", "23 another number"}
    | {f"{r} of the {what}" for r in OWN for what in ("list", "new bytes")},
    "index_first": {"found", "none"}, "index_next": {"found", "none"},
}
