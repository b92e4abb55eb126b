"""dump.py ROOT LIBRARIES: run by bench/dump in its folder. Makes the captures, counts, and writes the table into docs/BENCHMARKS.md."""
import os
import struct
import subprocess
import sys

import records

root, libraries = sys.argv[1:3]
sizes = [1000, 10000, 100000]
real = records.shipped(root)


def make(n):
    """n real records, and the same packets behind an IPv6 header in tcpdump's format."""
    with open(f"{n}.rec", "wb") as rec, open(f"{n}.pcap", "wb") as pcap:
        pcap.write(struct.pack("<IHHiIII", 0xA1B2C3D4, 2, 4, 0, 0, 65535, 229))
        for i in range(n):
            r = real[i % len(real)]
            rec.write(r)
            packet = b"\x60\0\0\0" + struct.pack(">HBB", len(r) - 37, 58, r[2]) + r[3:35] + r[37:]
            pcap.write(struct.pack("<IIII", 0, 0, len(packet), len(packet)) + packet)


def sealed(packet, source, destination):
    """The packet with the checksum under which it validates."""
    data = source + destination + len(packet).to_bytes(4, "big") + b"\0\0\0\x3a" + packet
    rest = sum(int.from_bytes(data[i:i + 2], "big") for i in range(0, len(data), 2)) % 65535
    return packet[:2] + ((65535 - rest) % 65535).to_bytes(2, "big") + packet[4:]


def make_long(name, packet, n):
    """n records of one packet of 9,000 bytes."""
    source, destination = bytes.fromhex("fe80" + "00" * 13 + "01"), bytes.fromhex("ff02" + "00" * 13 + "02")
    packet = sealed(packet + bytes(9000 - len(packet)), source, destination)
    with open(f"{name}.rec", "wb") as rec:
        for _ in range(n):  # not made at once: a child's peak counts what its parent held
            rec.write(b"I7\xff" + source + destination + (9000).to_bytes(2, "big") + packet)


def run(folders, words, source=None):
    """The instructions of a run, its peak memory in KiB (with the emulator's), and the bytes that it wrote."""
    loader = next(f for d in folders for f in [d + "/ld-linux-x86-64.so.2"] if os.path.exists(f))
    command = ["qemu-x86_64", "-plugin", "./libwhole.so,o=count", loader, "--library-path", ":".join(folders)] + words
    with open("wrote", "wb") as wrote:
        child = subprocess.Popen(command, stdin=open(source, "rb") if source else subprocess.DEVNULL, stdout=wrote, stderr=subprocess.DEVNULL)
        _, status, used = os.wait4(child.pid, 0)
    assert status == 0, command
    return int(open("count").read()), used.ru_maxrss, os.path.getsize("wrote")


def dump(n):
    return run([libraries], [root + "/crates/dump/out/dump"], f"{n}.rec")


def tcpdump(n):
    return run(["peer/lib/x86_64-linux-gnu", "peer/usr/lib/x86_64-linux-gnu"], ["peer/usr/bin/tcpdump", "-Z", "root", "-nnv", "-r", f"{n}.pcap"])


for n in [0] + sizes:
    make(n)
start, other = dump(0)[0], tcpdump(0)[0]
rows, memory = [], []
for n in sizes:
    count, peak, size = dump(n)
    memory.append(peak)
    peer = f"{(tcpdump(n)[0] - other) / n:,.0f}" if n <= 10000 else ""
    rows.append(f"| {n:,} | {os.path.getsize(f'{n}.rec'):,} | {size:,} | {(count - start) / n:,.0f} | {peak:,} | {peer} |")
table = "\n".join(["| records | bytes | bytes of listing | instructions a record | peak KiB, with the emulator | tcpdump -nnv, instructions a packet |",
                   "|---|---|---|---|---|---|"] + rows)
rows, n = [], 1000
for what, name, packet in [("a ping", "ping", b"\x80" + bytes(7)),
                           ("a solicitation with 1,124 options, which has the most text", "options", b"\x85" + bytes(7) + b"\x02\x01\0\0\0\0\0\0" * 1124)]:
    make_long(name, packet, n)
    count, peak, size = dump(name)
    memory.append(peak)
    rows.append(f"| {what} | {os.path.getsize(f'{name}.rec'):,} | {size:,} | {(count - start) / n:,.0f} | {peak:,} |")
table += "\n\n" + "\n".join([f"{n:,} records with packets of 9,000 bytes:", "", "| packet | bytes | bytes of listing | instructions a record | peak KiB, with the emulator |",
                              "|---|---|---|---|---|"] + rows)
path, first, last = root + "/docs/BENCHMARKS.md", "<!-- bench/dump writes from here -->", "<!-- dump to here -->"
text = open(path).read()
assert first in text and last in text
open(path, "w").write(text[:text.index(first)] + first + "\n\n" + table + "\n\n" + text[text.index(last):])
print(table)
sys.exit(max(memory) - min(memory) > 4096)
