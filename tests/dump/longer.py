#!/usr/bin/env python3
"""longer.py FOLDER: writes captures of longer records, each with its listing by model.py, NAME.rec and NAME.txt: packets of 2,048, 2,049 and 9,000 bytes one
behind the other, cut at each boundary of each record, and forty packets of 9,000 bytes. Made for each run, so that nothing large is stored."""
import random
import sys

from making import record, write

folder = sys.argv[1]
random.seed(20261116)


def packet(size):
    """A router solicitation with as many options of one unit as there is room for."""
    made = b"\x85\0" + random.randbytes(2) + bytes(4)
    while len(made) + 8 <= size:
        made += bytes([random.choice([1, 2, 4, 9]), 1]) + random.randbytes(6)
    return made + bytes(size - len(made))


three = [record(packet(size)) for size in (2048, 2049, 9000)]
whole = b"".join(three)
write(folder, "three", whole, "records 3")
start = 0
for n, r in enumerate(three):
    # behind the record before it: a byte of the mark, the mark, a byte of the length, the head, a byte of the packet, all but one of its bytes
    for there in (1, 2, 36, 37, 38, len(r) - 1):
        write(folder, f"cut_{start + there}", whole[:start + there], f"stopped 14 at {start}")
    start += len(r)
    write(folder, f"cut_{start}", whole[:start], f"records {n + 1}")
write(folder, "forty", b"".join(record(packet(9000)) for _ in range(40)), "records 40")
