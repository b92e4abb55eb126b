#!/usr/bin/env python3
"""model.py: the dump's listing of a capture, written in Python from the rules alone (docs/RULES.md), to compare with. model.py FILE prints it."""
import os
import sys

sys.path.insert(0, os.path.dirname(os.path.dirname(os.path.abspath(__file__))))
import walk as options

WORDS = {1: "unreach", 2: "toobig", 3: "exceeded", 4: "param", 128: "echoreq", 129: "echorep", 133: "rs", 134: "ra", 135: "ns", 136: "na", 137: "redirect"}
CODES = {1: 7, 3: 2, 4: 11}  # how many are listed; of the others 1
FIXED = {133: 0, 134: 8, 135: 16, 136: 16, 137: 32}
LENGTHS = {b"I6": range(2049), b"I7": range(2049, 9001)}  # the lengths that a mark allows


def valid(source, destination, packet):
    data = source + destination + len(packet).to_bytes(4, "big") + b"\0\0\0\x3a" + packet
    if len(data) % 2:
        data += b"\0"
    total = sum(int.from_bytes(data[i:i + 2], "big") for i in range(0, len(data), 2))
    while total > 65535:
        total = total % 65536 + total // 65536
    return total == 65535


def walk(packet):
    """The options behind the fixed part as (place in the packet, type, bytes), and how the walk ends: None, or (refusal, place)."""
    at = 8 + FIXED[packet[0]]
    found, refused = options.walk(packet[at:], at)
    return found, refused and (refused[0], refused[-1])


def link_local(address):
    """RFC 4291, section 2.4: fe80::/10."""
    return int.from_bytes(address[:2], "big") >> 6 == 0b1111111010


def receive(hops, source, destination, packet):
    kind = packet[0]
    if kind not in FIXED:
        return 0 if valid(source, destination, packet) else 2
    if hops != 255:
        return 1
    if not valid(source, destination, packet):
        return 2
    if packet[1] != 0:
        return 3
    if len(packet) < 8 + FIXED[kind]:
        return 4
    options, refused = walk(packet)
    if refused:
        return 5
    nobody, local = source == bytes(16), link_local(source)
    target, field = packet[8:24], packet[24:40]
    asked = destination[:13] == bytes.fromhex("ff0200000000000000000001ff")
    if kind in (134, 137) and not local or kind == 135 and nobody and not asked or kind == 136 and packet[4] & 64 and destination[0] == 255:
        return 6
    if kind in (135, 136) and target[0] == 255:
        return 7
    if kind == 137 and (field[0] == 255 or not link_local(target) and target != field):
        return 7
    if kind in (133, 135) and nobody and any(t == 1 for _, t, _ in options):
        return 8
    return 0


def word_of(packet):
    return WORDS[packet[0]] if packet[0] in WORDS and packet[1] < CODES.get(packet[0], 1) else "unknown"


def packet_lines(hops, source, destination, packet):
    if len(packet) < 8:
        return ["refused 1"]
    word = word_of(packet)
    good = "ok" if valid(source, destination, packet) else "bad"
    lines = [f"{word} code {packet[1]} sum {packet[2:4].hex()} {good} len {len(packet)} recv {receive(hops, source, destination, packet)}"]
    if word != "unknown" and packet[0] in FIXED:
        if len(packet) < 8 + FIXED[packet[0]]:
            return lines + ["refused 4"]
        options, refused = walk(packet)
        lines += [f"opt {at} type {kind} bytes {size}" for at, kind, size in options]
        lines.append(f"refused {refused[0]} at {refused[1]}" if refused else f"end {len(options)}")
    return lines


def record_at(rest):
    """Why what is left of a capture does not begin with a record, 12, 13 or 14; or 0, and the packet's length."""
    if len(rest) < 37:
        return 12 if len(rest) >= 2 and rest[:2] not in LENGTHS else 14, 0
    if rest[:2] not in LENGTHS:
        return 12, 0
    length = int.from_bytes(rest[35:37], "big")
    return 13 if length not in LENGTHS[rest[:2]] else 14 if len(rest) < 37 + length else 0, length


def listing(capture):
    lines, at, n = ["icmp6 1"], 0, 0
    while at < len(capture):
        rest = capture[at:]
        stop, length = record_at(rest)
        if stop:
            return "\n".join(lines + [f"stopped {stop} at {at}"]) + "\n"
        n += 1
        lines.append(f"record {n} at {at}")
        lines += packet_lines(rest[2], rest[3:19], rest[19:35], rest[37:37 + length])
        at += 37 + length
    return "\n".join(lines + [f"records {n}"]) + "\n"


if __name__ == "__main__":
    sys.stdout.write(listing(open(sys.argv[1], "rb").read()))
