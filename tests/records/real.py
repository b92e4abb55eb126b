#!/usr/bin/python3
"""real.py FOLDER: the captures on which tests/records/run tries the commands: the shipped real traffic as pcap, as pcapng and on three links at once; a cut
one, with FOLDER/cut saying where and after how many bytes of records; one of another link; and single advertisements as records, pcap and pcapng."""
import sys

sys.dont_write_bytecode = True
import captures
from captures import LINKS, SHIPPED, editcap, ipv6, read, records, write

folder = sys.argv[1]
real = records(read(SHIPPED[0]))


def capture(name, found, link="ethernet"):
    number, header = LINKS[link]
    return write(f"{folder}/{name}.pcap", number, [header + ipv6(r) for r in found])


def put(name, what):
    with open(f"{folder}/{name}", "wb") as out:
        out.write(what)


editcap("pcapng", capture("real", real), folder + "/real.pcapng")
captures.tool("mergecap", "-a", "-F", "pcapng", "-w", folder + "/three.pcapng", folder + "/real.pcap", capture("second", real, "cooked2"), capture("third", real, "three_tags"))
whole = read(folder + "/real.pcap")
cut = 24 + sum(16 + 14 + 40 + len(r) - 37 for r in real[:50])
put("cut.pcap", whole[:cut + 60])
put("cut", f"{cut}\n{sum(map(len, real[:50]))}\n".encode())
put("link.pcap", whole[:20] + b"\x69" + whole[21:])
put("first.rec", real[0])
write(folder + "/none.pcap", 1, [])
a, b = list({r[53:]: r for r in real if r[37] == 134}.values())[1:3]  # advertisements with different options
for name, found in (("a", a), ("b", b)):
    put(name + ".rec", found)
    editcap("pcapng", capture(name, [found]), f"{folder}/{name}.pcapng")
print("0 passed, 0 failed")
