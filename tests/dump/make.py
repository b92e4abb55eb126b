#!/usr/bin/env python3
"""make.py: writes the stored cases, cases/NAME.rec with cases/NAME.txt beside it, the listing by model.py. Made from the worked example, the
packets that RFCs print, those on a boundary (boundaries.txt), the shipped capture, and chance from a fixed seed. marks.py, longer.py and large.py make others for
each run."""
import ipaddress
import os
import random
import shutil

import model
from making import NEAR, ROUTERS, record, write

here = os.path.dirname(os.path.abspath(__file__))
shutil.rmtree(here + "/cases", ignore_errors=True)
os.makedirs(here + "/cases")
ONE, TWO = bytes.fromhex("85007a2c000000000101020000000001"), bytes.fromhex("85007a2d000000000100020000000001")


def sealed(packet, source, destination):
    """The packet with the field under which it validates."""
    if len(packet) < 8:
        return packet
    blank = packet[:2] + b"\0\0" + packet[4:]
    data = source + destination + len(packet).to_bytes(4, "big") + b"\0\0\0\x3a" + blank + b"\0" * (len(packet) % 2)
    rest = sum(int.from_bytes(data[i:i + 2], "big") for i in range(0, len(data), 2)) % 65535
    return blank[:2] + ((65535 - rest) % 65535).to_bytes(2, "big") + blank[4:]


def address(text):
    return ipaddress.ip_address(text).packed


def case(name, capture, end=None):
    write(here + "/cases", name, capture, end)


good = record(ONE) + record(TWO)
case("worked_example", good, "records 2")
case("empty", b"", "records 0")
case("one_byte", b"I", "stopped 14 at 0")
case("one_byte_behind", good + b"I", "stopped 14 at 106")
case("no_mark", good + b"I8" + bytes(60), "stopped 12 at 106")
case("wrong_mark_alone", good + b"I5", "stopped 12 at 106")
case("mark_alone", good + b"I6", "stopped 14 at 106")
case("head_cut", good + record(ONE)[:36], "stopped 14 at 106")
case("body_cut", good + record(ONE)[:-1], "stopped 14 at 106")
case("length_2048", record(bytes([128]) + bytes(2047)) + good, "records 3")
case("length_2049", good + b"I6" + bytes(33) + (2049).to_bytes(2, "big") + bytes(2049), "stopped 13 at 106")
case("length_before_body", good + b"I6" + bytes(33) + b"\xff\xff", "stopped 13 at 106")
case("short_packets", b"".join(record(ONE[:n]) for n in range(10)), "records 10")
case("no_packet", record(b"") * 3, "records 3")
# the longest text: 1,124 options of one unit behind the eight bytes of the head; and the same refused at its last option
options = b"".join(bytes([1 + i % 2, 1, i // 256, i % 256, 0, 0, 0, 0]) for i in range(1124))
longest = sealed(b"\x85\0\0\0\0\0\0\0" + options, NEAR, ROUTERS)
assert len(longest) == 9000
case("longest_text", record(longest) + good, "records 3")
case("refused_at_the_last", record(sealed(longest[:-7] + b"\0" + longest[-6:], NEAR, ROUTERS)) + good, "records 3")
assert "refused 6 at 8992" in open(here + "/cases/refused_at_the_last.txt").read()
# an advertisement with as many prefixes as a record can have
prefixes = b"".join(b"\x03\x04\x40\xc0" + bytes(12) + b"\x20\x01\x0d\xb8" + i.to_bytes(2, "big") + bytes(10) for i in range(280))
case("prefixes_280", record(ONE) + record(sealed(b"\x86\0\0\0\x40\0\x07\x08" + bytes(8) + prefixes, NEAR, ROUTERS)) + record(ONE), "records 3")
real = open(here + "/../../examples/advertisements.rec", "rb").read()
case("real", real)
case("real_cut", real[:-5])
printed, wanted = b"", []
for entry in open(here + "/published.txt").read().split("\n\nRFC ")[1:]:
    header, packet, lines = entry.split("\n", 1)[1].split("\n\n")
    header, packet = bytes.fromhex(header), bytes.fromhex(packet)
    assert len(header) == 40 and header[6] == 58 and int.from_bytes(header[4:6], "big") == len(packet), entry
    wanted += [f"record {len(wanted) + 1} at {len(printed)}\n" + lines.strip().replace("> ", "")]
    printed += record(packet, header[7], header[8:24], header[24:])
case("published", printed, "\n".join(["icmp6 1", *wanted, f"records {len(wanted)}"]))
printed, wanted = b"", []
for entry in open(here + "/boundaries.txt").read().split("\n\nB")[1:]:
    given, packet, lines = entry.split("\n", 1)[1].split("\n\n")
    hops, source, destination = given.split()
    wanted += [f"record {len(wanted) + 1} at {len(printed)}\n" + lines.strip().replace("> ", "")]
    printed += record(bytes.fromhex(packet), int(hops), address(source), address(destination))
case("boundaries", printed, "\n".join(["icmp6 1", *wanted, f"records {len(wanted)}"]))
# RFC 4291, section 2.4: fe80::/10 is link-local. Each of these as source of a router advertisement, as source of a redirect, as target of a redirect;
# then a redirect whose source will do and whose target will not
LOCAL = {"fe7f::1": False, "fe80::1": True, "fe8f::1": True, "fe90::1": True, "febf::1": True, "fec0::1": False, "feff::1": False, "fd80::1": False, "ff80::1": False}
NODES, HOST, FIELD = address("ff02::1"), address("2001:db8::9"), address("2001:db8::1")


def from_to(packet, source, destination):
    return record(sealed(packet, source, destination), 255, source, destination)


advertisement, redirect = bytes([134]) + bytes(15), lambda target: bytes([137]) + bytes(7) + target + FIELD
made, wanted = b"", []
for a, local in ((address(text), local) for text, local in LOCAL.items()):
    made += from_to(advertisement, a, NODES) + from_to(redirect(NEAR), a, HOST) + from_to(redirect(a), NEAR, HOST)
    wanted += [0, 0, 0] if local else [6, 6, 7]
made += from_to(redirect(HOST), address("fe90::1"), HOST)
wanted += [7]
case("link_local", made, f"records {len(wanted)}")
assert [int(line.split()[-1]) for line in model.listing(made).split("\n") if " recv " in line] == wanted
random.seed(20261115)
mixed = []
for _ in range(300):
    kind = random.choice([133, 134, 135, 136, 137, 133, 134, 135, 1, 2, 3, 4, 128, 129, 130, 255])
    packet = bytearray([kind, random.choice([0, 0, 0, 1, 7, 11])]) + random.randbytes(6 + model.FIXED.get(kind, 0))
    for _ in range(random.randrange(4)):
        units = random.choice([1, 1, 4, 2, 0])
        packet += bytes([random.choice([1, 2, 3, 4, 5, 9]), units]) + random.randbytes(max(0, 8 * units - 2))
    packet = packet[:random.choice([len(packet)] * 4 + [random.randrange(len(packet) + 1)])]
    source = random.choice([NEAR, NEAR, bytes(16), random.randbytes(16)])
    if random.randrange(8):
        packet = sealed(bytes(packet), source, ROUTERS)
    mixed.append(record(bytes(packet), random.choice([255, 255, 255, 64]), source))
case("mixed", b"".join(mixed), "records 300")
