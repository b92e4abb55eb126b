#!/usr/bin/env python3
"""tshark.py JSONL < LISTING: holds a listing to what tshark said of the same packets: place, checksum field and verdict, and for types 133 to 137
with code 0 the options with place, type and length. Its places count from the first option, the listing's from the packet's first byte. Prints what
differs; the status is 1 where anything does."""
import json
import re
import sys

FIXED = {133: 0, 134: 8, 135: 16, 136: 16, 137: 32}
told = [json.loads(line) for line in open(sys.argv[1])]
records, differ = [], 0
for line in sys.stdin.read().split("\n"):
    words = line.split()
    if line.startswith("record "):
        records.append({"at": int(words[3]), "options": [], "end": None})
    elif re.match(r"\w+ code ", line):
        records[-1].update(sum=words[4], verdict=words[5], length=int(words[7]))
    elif line.startswith("opt "):
        records[-1]["options"].append((int(words[1]), int(words[3]), int(words[5])))
    elif re.match(r"(end|refused) ", line):
        records[-1]["end"] = words[0]
for ours, theirs in zip(records, told):
    shark = theirs["tshark"]
    wanted = {"at": theirs["at"], "length": theirs["len"], "sum": shark["checksum"], "verdict": "ok" if shark["sum"] == "good" else "bad"}
    if 133 <= shark["type"] <= 137 and shark["code"] == 0:
        wanted["options"] = [(8 + FIXED[shark["type"]] + o["at"], o["type"], 8 * o["units"]) for o in shark["options"]]
    for key, value in wanted.items():
        if ours[key] != value:
            differ += 1
            print(f"record {theirs['record']}: {key}: {ours[key]}, and tshark says {value}")
if len(records) != len(told):
    differ += 1
    print(f"{len(records)} records, and tshark has {len(told)}")
print(f"tshark: {len(records)} records, {sum(len(r['options']) for r in records)} options, {differ} differ")
sys.exit(differ > 0)
