"""pairs.py: holds the command icmp6diff to the model. `pairs.py COUNT SEED FOLDER`: pairs of captures by hand, and COUNT by chance, in files below FOLDER; of
the program the whole text, of the command itself, which takes longer to start, on some of the pairs, the text and the status. Fails
where one is another than the model's, where a line or a fault that is named never came about, and where a letter that was changed is not seen."""
import collections
import itertools
import random
import subprocess
import sys
import time

import cases
import chain
import lists

BATCH, SOME = 500, 100  # one in a hundred pairs is handed to the command too, and more of those by hand
came = collections.Counter()


def capture(rnd, packet):
    """A capture of one record."""
    mark = b"\x49\x36" if len(packet) <= lists.SHORT else b"\x49\x37"
    return mark + rnd.randbytes(33) + len(packet).to_bytes(2, "big") + packet


def edited(rnd, pool, options):
    """A copy of a list of options with one edit in it."""
    options, at = list(options), rnd.randrange(len(options)) if options else 0
    way = rnd.choice(("byte", "byte", "type", "longer", "shorter", "out", "in", "twice", "exchange"))
    if way in ("in", "twice") or not options:
        return options[:at] + [rnd.choice(pool.good) if way == "in" or not options else options[at]] + options[at:]
    if way == "out":
        return options[:at] + options[at + 1:]
    if way == "exchange":
        other = rnd.randrange(len(options))
        options[at], options[other] = options[other], options[at]
        return options
    o = bytearray(options[at])
    if way == "byte":
        o[rnd.randrange(2, len(o))] ^= 1 << rnd.randrange(8)
    elif way == "type":
        o[0] = rnd.choice((0, 1, 2, 4, 24, 25, 253))
    elif way == "longer" and o[1] < 255:
        o[1] += 1
        o += rnd.randbytes(8)
    elif way == "shorter" and o[1] > 1:
        o[1] -= 1
        del o[-8:]
    return options[:at] + [bytes(o)] + options[at + 1:]


def faulty(rnd, pool, d):
    """A capture with something wrong in it, or perhaps not."""
    way = rnd.randrange(8)
    if way == 0:
        return d[:rnd.choice((0, 1, 2, 36, 37, 40, len(d) - 1, rnd.randrange(len(d))))]
    if way == 1:
        return d + rnd.choice((b"\x00", d, rnd.randbytes(rnd.randrange(1, 60))))
    if way == 2:
        return rnd.choice((b"\x49\x35", b"\x49\x37", b"\x49\x38", b"\x48\x36", b"\x00\x00")) + d[2:]
    if way == 3:
        at = rnd.choice((35, 36))
        return d[:at] + bytes((rnd.randrange(256),)) + d[at + 1:]
    if way == 4:
        return capture(rnd, d[lists.HEAD:lists.HEAD + rnd.randrange(42)])
    if way == 5:
        return capture(rnd, cases.head(rnd, rnd.choice((*chain.CODES, 0, 5, 132, 138)), rnd.choice((0, 0, 0, 1, 10, 11))) + rnd.randbytes(rnd.randrange(50)))
    return capture(rnd, d[lists.HEAD:lists.HEAD + 8] + pool.damaged(d[lists.HEAD + 8:]))


def by_chance(rnd, pool):
    """Pairs without end: a message, and a copy of it with some edits."""
    while True:
        most = 9 if rnd.random() < 0.95 else 60
        options, kind = rnd.choices(pool.good, k=rnd.randrange(most)), rnd.choice((134, 134, 134, 133, 135, 136, 137))
        other = options
        for _ in range(rnd.choice((0, 1, 1, 1, 2, 3))):
            other = edited(rnd, pool, other)
        a = cases.neighbor(rnd, b"".join(options), kind)
        b = cases.neighbor(rnd, b"".join(other), kind if rnd.random() < 0.8 else 0)
        if len(a) > lists.LONG or len(b) > lists.LONG:
            continue
        files = [capture(rnd, a), capture(rnd, b)]
        for i in (0, 1):
            if rnd.random() < 0.12:
                files[i] = faulty(rnd, pool, files[i])
        yield tuple(files)


def each_fault(rnd, good):
    """Captures with each fault that is named, on both sides of its boundary where it has one."""
    yield from (b"", b"\x49", b"\x49\x36", b"\x48\x36", good[:36], good[:37], good[:-1], good + b"\x00", good + good, good + bytes(70000))
    for mark in (b"\x49\x36", b"\x49\x37"):
        for n in (2048, 2049, 9000, 9001):
            packet = cases.head(rnd, 133) + b"\x01\xff" + bytes(2038) + bytes(max(0, n - 2048))
            yield mark + bytes(33) + n.to_bytes(2, "big") + packet[:n]
            yield mark + bytes(33) + n.to_bytes(2, "big")
    for kind, codes in chain.CODES.items():
        for code in (0, codes):
            for n in (0, 7, 8, 31, 32):
                yield capture(rnd, cases.head(rnd, kind, code) + bytes(n))
    for n in range(9):
        yield capture(rnd, cases.head(rnd, 134)[:n])
    for options in (b"\x01", b"\x01\x00", b"\x01\x02" + bytes(6), b"\x03\x03" + bytes(22), b"\x05\x02" + bytes(14), b"\x18\x04" + bytes(30),
                    b"\x19\x01" + bytes(6)):
        yield capture(rnd, cases.neighbor(rnd, options))
        yield capture(rnd, cases.neighbor(rnd, b"\x02\x01" + bytes(6) + options, 137))


def by_hand():
    """Every fault with a good file, in both orders, and with another fault."""
    rnd = random.Random(8106)
    one, two = b"\x01\x01\x02\x00\x00\x00\x00\x01", b"\x05\x01\x00\x00\x00\x00\x05\xdc"
    good = capture(rnd, cases.neighbor(rnd, one + two, 134))
    for bad in each_fault(rnd, good):
        yield from ((bad, good), (good, bad), (bad, bad), (bad, b"\x48"))
    options = (b"", one, two, one + two, two + one, one * 2, one + two[:6] + b"\x05\xc8", one + b"\x05\x01\x00\x00\x00\x01\x05\xdc",
               one + b"\x18\x04" + bytes(30))
    for a, b in itertools.product(options, repeat=2):
        yield capture(rnd, cases.neighbor(rnd, a, 133)), capture(rnd, cases.neighbor(rnd, b, 137))
        yield capture(rnd, cases.neighbor(rnd, a, 134)), capture(rnd, cases.neighbor(rnd, b, 134))


def ran(folder, pairs, what):
    """What the program, or the command, writes for each pair, and the status."""
    for i, files in enumerate(pairs):
        for name, content in zip("ab", files):
            with open(f"{folder}/{name}.{i}", "wb") as file:
                file.write(content)
    done = subprocess.run(["tests/model/each", what, folder, str(len(pairs))], stdout=subprocess.PIPE, check=True)
    told = done.stdout.decode("latin-1").split("\0")[:-1]
    return list(zip(told[0::2], map(int, told[1::2])))


def compare(folder, pairs, what, spoil=lambda told: told):
    """The pairs of which something else was written, with both texts."""
    wanted = [lists.compared(a, b) for a, b in pairs]
    got = spoil(ran(folder, pairs, what))
    if len(got) != len(pairs):
        sys.exit(f"model: {len(pairs)} pairs, and {len(got)} texts")
    for _, _, labels in wanted if what == "program" else ():
        came.update(labels)
    return [(files, want[:2], text) for files, want, text in zip(pairs, wanted, got)
            if want[0] != text[0] or what == "command" and want[1] != text[1]]


def spoiled(told):
    """The texts with one letter of the last one changed."""
    text, status = told[-1]
    return told[:-1] + [(text[:-2] + chr(ord(text[-2]) ^ 1) + text[-1], status)]


def batches(count, rnd):
    """What is run, and the pairs: by hand, then by chance."""
    pairs = list(by_hand())
    for begin in range(0, len(pairs), BATCH):
        yield "program", pairs[begin:begin + BATCH]
        yield "command", pairs[begin:begin + BATCH:SOME // 20 if count >= 10_000 else SOME // 5]
    for begin in range(0, count, BATCH):
        chance = by_chance(rnd, cases.Pool(rnd))
        pairs = list(itertools.islice(chance, min(BATCH, count - begin)))
        yield "program", pairs
        yield "command", pairs[::SOME]


def main(count, seed, folder):
    rnd, done, differ, begun = random.Random(seed), collections.Counter(), 0, time.time()
    some = by_chance(rnd, cases.Pool(rnd))
    if len(compare(folder, [next(some) for _ in range(20)], "program", spoiled)) != 1:
        sys.exit("model: a letter was changed, and that was not seen")
    came.clear()
    for what, pairs in batches(count, rnd):
        for files, want, got in compare(folder, pairs, what):
            differ += 1
            if differ <= 5:
                print(f"{what} A {files[0].hex()}\n  B {files[1].hex()}\n  model: {want}\n  library: {got}")
        done[what] += len(pairs)
    named = lists.NAMED["icmp6diff"]
    print(f"icmp6diff: {done['program']:,} texts and {done['command']:,} statuses compared: " + ", ".join(f"{label} {came[label]:,}" for label in sorted(came)))
    for label in sorted(named ^ set(came)):
        print(f"icmp6diff: {label!r} " + ("never came about" if label in named else "is no line that the rules name"))
    print(f"pairs: {sum(done.values()):,} compared, {differ} differ ({time.time() - begun:.0f} s)")
    sys.exit(1 if differ or named ^ set(came) else 0)


if __name__ == "__main__":
    main(int(sys.argv[1]), int(sys.argv[2]), sys.argv[3])
