#!/usr/bin/env python3
"""marks.py FOLDER: writes captures that end at a mark, a length and so many bytes behind them (docs/RULES.md C2, C9), each with its listing by model.py, NAME.rec
and NAME.txt. How each ends stands in the table, by hand. Made for each run, so that nothing is stored."""
import sys

from making import NEAR, ROUTERS, record, write

TWO = record(bytes.fromhex("85007a2c000000000101020000000001")) + record(bytes.fromhex("85007a2d000000000100020000000001"))
folder = sys.argv[1]
# a mark, a length and so many bytes behind it, or bytes less than the head has: what stops there, or 0. Each alone and behind two records
for mark, length, body, stop in [
        (b"I6", 0, 0, 0), (b"I6", 1, 1, 0), (b"I6", 2048, 2048, 0), (b"I6", 2048, 2047, 14), (b"I6", 2049, 2049, 13), (b"I6", 2049, 0, 13), (b"I6", 9000, 0, 13),
        (b"I6", 9001, 0, 13), (b"I7", 0, 0, 13), (b"I7", 2048, 2048, 13), (b"I7", 2048, 0, 13), (b"I7", 2049, 2049, 0), (b"I7", 9000, 9000, 0),
        (b"I7", 2049, 2048, 14), (b"I7", 9000, 8999, 14), (b"I7", 9001, 0, 13), (b"I7", 65535, 0, 13), (b"I7", 2049, -1, 14), (b"I7", 2049, -35, 14), (b"I7", 2049, -36, 14),
        (b"I5", 0, -35, 12), (b"I8", 0, -35, 12), (b"I8", 2049, 2049, 12)]:
    row = (mark + b"\xff" + NEAR + ROUTERS + length.to_bytes(2, "big") + bytes([128]) + bytes(9000))[:37 + body]
    name = f"{mark.decode().lower()}_{length}_" + (f"{body}_behind" if body >= 0 else f"{37 + body}_in_all")
    write(folder, "row_" + name, row, f"stopped {stop} at 0" if stop else "records 1")
    write(folder, "behind_" + name, TWO + row, f"stopped {stop} at {len(TWO)}" if stop else "records 3")
