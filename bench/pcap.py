"""pcap.py ROOT PACKETS: run by bench/pcap in its folder. Makes the capture, runs each program three times in turn, and writes the table, from the least
to the most of the three, into docs/BENCHMARKS.md."""
import os
import platform
import struct
import subprocess
import sys

import records

root, packets = sys.argv[1], int(sys.argv[2])
ETHERNET = bytes.fromhex("333300000001" "020000000001" "86dd")


def make():
    """Real packets again and again: as a pcap capture of Ethernet, and as records."""
    real = records.shipped(root)
    with open("capture.pcap", "wb") as pcap, open("capture.rec", "wb") as rec:
        pcap.write(struct.pack("<IHHiIII", 0xA1B2C3D4, 2, 4, 0, 0, 262144, 1))
        for i in range(packets):
            r = real[i % len(real)]
            packet = ETHERNET + b"\x60\0\0\0" + struct.pack(">HBB", len(r) - 37, 58, r[2]) + r[3:35] + r[37:]
            pcap.write(struct.pack("<IIII", i, 0, len(packet), len(packet)) + packet)
            rec.write(r)


def measured(words):
    """Seconds, processor seconds, and the peak memory of the largest of its processes in KiB. By GNU time: a child's peak counts what its parent held, and
    this program holds more than some of those that are measured."""
    with open("wrote", "wb") as wrote:
        subprocess.run(["/usr/bin/time", "-o", "used", "-f", "%e %U %S %M", *words], stdout=wrote, stderr=subprocess.DEVNULL, check=True)
    took, user, system, peak = map(float, open("used").read().split())
    return took, user + system, peak


def processor():
    with open("/proc/cpuinfo") as info:
        names = [line.split(":")[1].strip() for line in info if line.startswith("model name")]
    return names[0] if names else subprocess.run(["lscpu"], capture_output=True, text=True).stdout.split("Model name:")[1].split("\n")[0].strip()


make()
programs = {
    "`./icmp6dump capture.pcap`": [root + "/icmp6dump", "--quiet", "capture.pcap"],
    "of it `tools/records capture.pcap`": [root + "/tools/records", "capture.pcap"],
    "`./icmp6dump capture.rec`, the records": [root + "/icmp6dump", "--quiet", "capture.rec"],
    "`./icmp6dump examples/advertisements.rec`, the first command, on a built tree": [root + "/icmp6dump", "--quiet", root + "/examples/advertisements.rec"],
    "`tcpdump -nnv -r capture.pcap`": ["tcpdump", "-Z", "root", "-nnv", "-r", "capture.pcap"],
}
runs, load = {name: [] for name in programs}, os.getloadavg()[0]
for _ in range(3):
    for name, words in programs.items():
        runs[name].append(measured(words))
emulated = "" if platform.machine() == "x86_64" else "; the proved program is for x86-64 and ran under the toolchain's emulator, all else natively"
lines = [f"{packets:,} packets, {os.path.getsize('capture.pcap'):,} bytes of pcap, on {os.cpu_count()} cores of {platform.machine()} ({processor()}){emulated}. The load of the machine was {load:.1f} before the runs and {os.getloadavg()[0]:.1f} after them.", "",
         "| program | seconds | processor seconds | peak KiB of its largest process |", "|---|---|---|---|"]
for name, found in runs.items():
    took, used, peak = zip(*found)
    lines.append(f"| {name} | {min(took):.2f} to {max(took):.2f} | {min(used):.2f} to {max(used):.2f} | {max(peak):,.0f} |")
path, first, last = root + "/docs/BENCHMARKS.md", "<!-- bench/pcap writes from here -->", "<!-- pcap to here -->"
text = open(path).read()
assert first in text and last in text
open(path, "w").write(text[:text.index(first)] + first + "\n\n" + "\n".join(lines) + "\n\n" + text[text.index(last):])
print("\n".join(lines))
