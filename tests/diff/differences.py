#!/usr/bin/env python3
"""differences.py: the text that icmp6diff writes of two files, and its status, written in Python from the rules alone (docs/RULES.md, area V), to compare
with. What a capture and a walk are is asked of the dump's model (tests/dump/model.py). differences.py A B prints the text."""
import os
import sys

sys.path.insert(0, os.path.join(os.path.dirname(os.path.abspath(__file__)), "../dump"))
import model


def opened(capture):
    """The packet of a capture of one record and its options, or what is wrong."""
    if not capture:
        return None, "empty"
    stop, length = model.record_at(capture)
    if stop:
        return None, f"stopped {stop} at 0"
    if 37 + length < len(capture):
        return None, f"more at {37 + length}"
    packet = capture[37:]
    if len(packet) < 8:
        return None, "refused 1"
    word = model.word_of(packet)
    if word == "unknown" or packet[0] not in model.FIXED:
        return None, word
    if len(packet) < 8 + model.FIXED[packet[0]]:
        return None, "refused 4"
    options, refused = model.walk(packet)
    return ((packet, options), None) if not refused else (None, f"refused {refused[0]} at {refused[1]}")


def entry(p, one, q, two):
    """The line of two options at their places."""
    if one == two:
        return f"same {p} {q} type {one[0]} bytes {len(one)}"
    if one[0] != two[0]:
        return f"type {p} {q} from {one[0]} to {two[0]}"
    if len(one) != len(two):
        return f"length {p} {q} from {len(one)} to {len(two)}"
    i = next(i for i in range(len(one)) if one[i] != two[i])
    return f"byte {p + i} {q + i} from {one[i]} to {two[i]}"


def compared(first, second):
    (packet, options), (other, others) = first, second
    lines = [entry(p, packet[p:p + n], q, other[q:q + m]) for (p, _, n), (q, _, m) in zip(options, others)]
    if len(options) != len(others):
        more, which = (options, 1) if len(options) > len(others) else (others, 2)
        lines.append(f"longer {which} at {more[len(lines)][0]}")
    run = next((i for i, line in enumerate(lines) if not line.startswith("same")), len(lines))
    differ = sum(not line.startswith("same") for line in lines)
    return lines + [f"common {run} bytes {sum(n for _, _, n in options[:run])}", f"differ {differ}" if differ else "equal"]


def text(a, b):
    first, wrong = opened(a)
    second, wrong_too = opened(b)
    lines = [f"list 1 {wrong}"] if wrong else [f"list 2 {wrong_too}"] if wrong_too else compared(first, second)
    return "\n".join(["icmp6diff 1", *lines]) + "\n"


def status(wanted):
    return 0 if wanted.endswith("\nequal\n") else 1 if "\ndiffer " in wanted else 2


if __name__ == "__main__":
    sys.stdout.write(text(*(open(name, "rb").read() for name in sys.argv[1:])))
