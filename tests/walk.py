"""walk.py: the option walk in Python, written from the rules alone (docs/RULES.md, areas W and E), for the models and the makers of cases that compare with
the proved walk."""
LONGEST = 2**32 - 1


def misfit(edition, option):
    """What its type's own rule (W4, E3, E4) refuses an option for, which is all there: the refusal's number and values without the place, or None."""
    kind, size = option[0], len(option)
    if edition == 2 and kind == 24:
        needed = 8 if option[2] == 0 else 16 if option[2] <= 64 else 24
        return (5, 24, 24, size) if size > 24 else (18,) if option[2] > 128 else (5, 24, needed, size) if size < needed else None
    if edition == 2 and kind == 25:
        return None if size >= 24 and size // 8 % 2 else (5, 25, 24, size)
    asked = {3: 32, 5: 8}.get(kind, size)
    return None if size == asked else (5, kind, asked, size)


def walk(data, offset=0, edition=1):
    """The options that are handed out, as (place in the packet, type, length), and the refusal that ends them, None where they are clean."""
    found, at = [], 0
    if offset + len(data) > LONGEST:
        return found, (22,)
    while at < len(data):
        left, place = len(data) - at, offset + at
        if left < 2:
            return found, (5, data[at], 2, left, place)
        size = 8 * data[at + 1]
        if size == 0:
            return found, (6, data[at], place)
        if left < size:
            return found, (7, data[at], size, left, place)
        why = misfit(edition, data[at:at + size])
        if why:
            return found, (*why, place)
        found.append((place, data[at], size))
        at += size
    return found, None
