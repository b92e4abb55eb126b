"""held.py: holds the calls for C to the model. `held.py COUNT SEED FOLDER`: requests by hand, and COUNT by chance; the driver stands in FOLDER. Fails where an
answer, or a lent buffer after it, is another one than the model's, where an answer or a refusal that is named never came about, and where a bit that the
driver turned is not seen."""
import collections
import itertools
import random
import struct
import subprocess
import sys
import time

import cases
import chain
import hand
import index
import plans
import walk

BATCH = 4000
CALLS = {**chain.CALLS, **index.CALLS, **plans.CALLS}
NAMED = {**chain.NAMED, **index.NAMED, **plans.NAMED}
_request = struct.Struct("<II4Q3Q3II").pack
came = collections.defaultdict(collections.Counter)  # of each call, how often each answer came about


def expected(request):
    """What the driver is to write for a request."""
    call, edition, numbers, lengths, lent, flags = request
    buffers = lent
    if flags >= 256:
        buffers = tuple(walk.Far(b, flags >> 16 + i & 1) if (flags >> 8 + i | flags >> 16 + i) & 1 else b for i, b in enumerate(lent))
    name, model = CALLS[call]
    told, label, *after = model(edition, numbers, lengths, buffers)
    came[name][label] += 1
    if after:
        return told + b"".join([after[0].get(i, lent[i]) for i in range(3)])
    return told + lent[0] + lent[1] + lent[2]


def answers(folder, requests, flip=()):
    """What the driver writes for some requests."""
    with open(f"{folder}/requests", "wb") as file:
        for call, edition, numbers, lengths, lent, flags in requests:
            file.write(_request(call, edition, *numbers, *lengths, len(lent[0]), len(lent[1]), len(lent[2]), flags))
            file.writelines(lent)
    command = ["bash", "-c", '. tools/sh/need.sh; emulated "$0/driver" "$@" <"$0/requests"', folder, *map(str, flip)]
    ran = subprocess.run(command, stdout=subprocess.PIPE, check=False)
    if ran.returncode:
        sys.exit(f"model: the driver ended with status {ran.returncode}")
    return ran.stdout


def differing(requests, wanted, got):
    """The requests of which the driver wrote something else, with both."""
    found, at = [], 0
    for request, want in zip(requests, wanted):
        if got[at:at + len(want)] != want:
            found.append((request, want, got[at:at + len(want)]))
        at += len(want)
    return found if at == len(got) else found + [(None, b"", got[at:])]


def compare(folder, requests, flip=()):
    wanted = [expected(request) for request in requests]
    got = answers(folder, requests, flip)
    return differing(requests, wanted, got) if got != b"".join(wanted) else []


def show(request, want, got):
    """A difference, for its reader."""
    call, edition, numbers, lengths, lent, flags = request
    print(f"{CALLS[call][0]} edition {edition} numbers {numbers} lengths {lengths} flags {flags:x}")
    for i in range(3):
        print(f"  lent {i}: {lent[i].hex()}")
    for who, what in (("model", want), ("library", got)):
        print(f"  {who}: {struct.unpack_from('<II5Q', what)} {what[48:].hex()}")


def turned(folder, requests):
    """Turns one bit of one answer of each call, and fails if that is not seen, or if more is."""
    before = [request for request, _, _ in compare(folder, requests)]
    for call, (name, _) in CALLS.items():
        at = next(i for i, request in enumerate(requests) if request[0] == call and request not in before)
        found = [request for request, _, _ in compare(folder, requests, (at, 11 * call)) if request not in before]
        if found != [requests[at]]:
            sys.exit(f"model: a bit was turned in an answer of {name}, and {len(found)} differences were seen")
    came.clear()
    plans.tried.update(lists=0, plans=0)
    return len(CALLS)


def batches(count, rnd):
    """The requests: those by hand, and then so many by chance."""
    by_hand = hand.by_hand(count < 200_000)
    while requests := list(itertools.islice(by_hand, BATCH)):
        yield requests
    for begin in range(0, count, BATCH):
        chance = cases.by_chance(rnd, cases.Pool(rnd))
        yield list(itertools.islice(chance, min(BATCH, count - begin)))


def told(counted):
    """How often each answer came about. Labels that differ in a number at their end alone stand together, in the order of that number."""
    together = collections.defaultdict(dict)
    for label, n in counted.items():
        words = label.split()
        last = int(words.pop()) if len(words) > 1 and words[-1].isdigit() else -1
        together[" ".join(words)][last] = f"{n:,}"
    parts = []
    for label, by_last in sorted(together.items(), key=lambda item: (int(item[0].split()[0]) if item[0][0].isdigit() else 99, item[0])):
        numbers = sorted(by_last)
        ends = f" {numbers[0]} to {numbers[-1]}:" if len(numbers) > 1 else f" {numbers[0]}" if numbers[0] >= 0 else ""
        parts.append(f"{label}{ends} " + " ".join(by_last[i] for i in numbers))
    return "; ".join(parts)


def main(count, seed, folder):
    rnd, done, differ, begun = random.Random(seed), 0, 0, time.process_time()
    some = cases.by_chance(rnd, cases.Pool(rnd))
    bits = turned(folder, [next(some) for _ in range(400)])
    for requests in batches(count, rnd):
        for difference in compare(folder, requests):
            differ += 1
            if differ <= 5:
                show(*difference)
        done += len(requests)
    never = 0
    for name in NAMED:
        counted = came[name]
        print(f"{name}: {sum(counted.values()):,} compared: {told(counted)}")
        for label in sorted(NAMED[name] ^ set(counted)):
            never += 1
            print(f"{name}: {label!r} " + ("never came about" if label in NAMED[name] else "is no answer that the rules name"))
    print(f"all plans looked at: {plans.tried['plans']:,} of {plans.tried['lists']:,} lists; bits turned and seen: {bits}; "
          f"{time.process_time() - begun:.0f} s of Python")
    print(f"calls: {done:,} compared, {differ} differ")
    sys.exit(1 if differ or never else 0)


if __name__ == "__main__":
    main(int(sys.argv[1]), int(sys.argv[2]), sys.argv[3])
