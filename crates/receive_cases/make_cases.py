#!/usr/bin/env python3
"""make_cases.py CAPTURES: writes `stdin` and `stdout` beside itself.

stdin: records (docs/RULES.md C1). First the table below, made by hand from RFC 4861, sections 6.1.1, 6.1.2, 7.1.1, 7.1.2 and 8.1: each rule at its
boundary, both ways, with the answer that is wanted written beside it. Then every record of CAPTURES/*.rec, real traffic, whose answer
is worked out by `judge` below and tests/walk.py, which share nothing with the proved check.
stdout: the answers that are wanted, a line for each record."""
import glob
import os
import struct
import sys
from ipaddress import IPv6Address

here = os.path.dirname(os.path.abspath(__file__))
sys.path.insert(0, here + "/../../tests")
from walk import walk
address = lambda text: IPv6Address(text).packed
NOBODY, NEAR, FAR = "::", "fe80::1", "2001:db8::1"
NODES, ROUTERS, ASKED = "ff02::1", "ff02::2", "ff02::1:ff00:1"
ACCEPTED = (0,)
reason = lambda n: (11, n)


def folded(source, destination, packet):
    """RFC 1071 over the pseudo-header of RFC 8200, section 8.1, by whole numbers and one remainder."""
    data = source + destination + struct.pack(">IHBB", len(packet), 0, 0, 58) + packet
    data += b"\0" * (len(data) % 2)
    total = int.from_bytes(data, "big") % 65535
    return total or 65535


def sealed(source, destination, packet):
    """The packet with its checksum in bytes 2 and 3."""
    blank = packet[:2] + b"\0\0" + packet[4:]
    return blank[:2] + struct.pack(">H", 65535 - folded(source, destination, blank)) + blank[4:]


# ---- messages, their checksum still to be put in

def message(kind, rest=b"", code=0, flags=0):
    return bytes([kind, code, 0, 0, flags, 0, 0, 0]) + rest


SOURCE_LINK = bytes([1, 1, 2, 0, 0, 0, 0, 1])
TARGET_LINK = bytes([2, 1, 2, 0, 0, 0, 0, 1])
PREFIX = bytes([3, 4, 64, 0xC0]) + struct.pack(">III", 86400, 14400, 0) + address("2001:db8::")
MTU = bytes([5, 1, 0, 0]) + struct.pack(">I", 1500)
OTHER = bytes([200, 2]) + bytes(14)

rs = lambda options=b"", **more: message(133, options, **more)
ra = lambda options=b"", **more: message(134, bytes(8) + options, **more)
ns = lambda target=NEAR, options=b"", **more: message(135, address(target) + options, **more)
na = lambda target=NEAR, options=b"", **more: message(136, address(target) + options, **more)
redirect = lambda target=NEAR, field=FAR, options=b"", **more: message(137, address(target) + address(field) + options, **more)
FIVE = [rs, ra, ns, na, redirect]

cases = []


def case(wanted, packet, source=NEAR, destination=NODES, hops=255, seal=True):
    s, d = address(source), address(destination)
    cases.append((wanted, hops, s, d, sealed(s, d, packet) if seal and len(packet) >= 8 else packet))


def spoilt(packet, source=NEAR, destination=NODES):
    """The checksum one too high."""
    s, d = address(source), address(destination)
    good = sealed(s, d, packet)
    return good[:2] + struct.pack(">H", (struct.unpack(">H", good[2:4])[0] + 1) % 65535) + good[4:]


# ---- the two packets of the listing in docs/RULES.md
case(ACCEPTED, rs(SOURCE_LINK), NEAR, ROUTERS)
case(reason(5), rs(bytes([1, 0, 2, 0, 0, 0, 0, 1])), NEAR, ROUTERS)

# ---- refusal 1
case((1, 8, 0), b"")
case((1, 8, 7), rs()[:7])
case((1, 8, 7), message(128)[:7])
case(ACCEPTED, rs())

# ---- (1) the hop limit is 255, so that no router can have forwarded the packet
for make in FIVE:
    case(ACCEPTED, make(), hops=255)
    case(reason(1), make(), hops=254)
    case(reason(1), make(), hops=0)
case(ACCEPTED, message(128), hops=1)

# ---- (2) the checksum, of every type
for make in FIVE:
    case(reason(2), spoilt(make()), seal=False)
for kind in [0, 1, 2, 3, 4, 100, 127, 128, 129, 130, 131, 132, 138, 143, 200, 255]:
    case(ACCEPTED, message(kind, code=7), FAR, FAR, hops=3)
    case(reason(2), spoilt(message(kind), FAR, FAR), FAR, FAR, hops=3, seal=False)
# an odd length; the zero that is written 0000 and the one that is written ffff
case(ACCEPTED, message(128, b"abc"), FAR, FAR)
case(ACCEPTED, bytes.fromhex("800000007fbd0000"), NOBODY, NOBODY, seal=False)
case(ACCEPTED, bytes.fromhex("8000ffff7fbd0000"), NOBODY, NOBODY, seal=False)
# the sum is over the addresses too
case(reason(2), sealed(address(NEAR), address(NODES), rs()), NEAR, ROUTERS, seal=False)

# ---- (3) the code is 0
for make in FIVE:
    case(reason(3), make(code=1))
    case(reason(3), make(code=255))

# ---- (4) 8, 16, 24, 24 and 40 bytes at least; of 133 that is refusal 1, above
for make in FIVE[1:]:
    case(ACCEPTED, make())
    case(reason(4), make()[:-1])
    case(reason(4), make()[:8])

# ---- (5) the options walk clean
for make in FIVE:
    case(ACCEPTED, make(options=OTHER))
    case(ACCEPTED, make(options=TARGET_LINK + OTHER))
    case(reason(5), make(options=b"\x01"))
    case(reason(5), make(options=bytes([1, 0, 0, 0, 0, 0, 0, 0])))
    case(reason(5), make(options=bytes([1, 2, 0, 0, 0, 0, 0, 0])))
    case(reason(5), make(options=OTHER + TARGET_LINK + bytes([9, 0])))
    case(reason(5), make(options=OTHER[:-1]))
case(ACCEPTED, ra(SOURCE_LINK + MTU + PREFIX))
case(reason(5), ra(SOURCE_LINK + MTU + PREFIX[:-1]))
case(reason(5), ra(bytes([3, 3]) + bytes(22)))
case(reason(5), ra(bytes([5, 2]) + bytes(14)))

# ---- (6) addresses
# 6.1.1 asks nothing of a solicitation's addresses
case(ACCEPTED, rs(), NOBODY)
case(ACCEPTED, rs(), FAR, FAR)
# 6.1.2 and 8.1: a link-local source; RFC 4291, section 2.4: fe80::/10, a first byte fe and a second of 80 to bf
ALL = ":ffff:ffff:ffff:ffff:ffff:ffff:ffff"
LOCAL = ["fe80::", NEAR, "fe80" + ALL, "fe81::1", "fe8f::1", "fe90::1", "febf::1", "febf" + ALL]
NOT_LOCAL = [NOBODY, "::1", FAR, "fe00::1", "fe7f::1", "fe7f" + ALL, "fec0::", "fec0::1", "feff::1", "fd80::1", "fdbf::1", "ff80::1", NODES]
for make in [ra, redirect]:
    for source in LOCAL:
        case(ACCEPTED, make(), source)
    for source in NOT_LOCAL:
        case(reason(6), make(), source)
# 7.1.1: from the unspecified address only to a solicited-node address
case(ACCEPTED, ns(), NOBODY, ASKED)
case(ACCEPTED, ns(), NOBODY, "ff02::1:ffff:ffff")
case(ACCEPTED, ns(), NEAR, NODES)
case(ACCEPTED, ns(), FAR, FAR)
for destination in [NODES, NEAR, FAR, "ff02::1:fe00:1", "ff02::2:ff00:1", "ff02::1:1:ff00:1", "ff05::1:ff00:1", "ff01::1:ff00:1"]:
    case(reason(6), ns(), NOBODY, destination)
case(ACCEPTED, ns(), "::1", NODES)
# 7.1.2: no S flag towards a multicast destination; S is 64, R 128, O 32, the others are reserved
case(ACCEPTED, na(flags=64), NEAR, NEAR)
case(ACCEPTED, na(flags=255), NEAR, FAR)
case(ACCEPTED, na(flags=0), NEAR, NODES)
case(ACCEPTED, na(flags=0xFF - 64), NEAR, NODES)
case(reason(6), na(flags=64), NEAR, NODES)
case(reason(6), na(flags=64 + 128 + 32), NEAR, "ff0e::1")
case(reason(6), na(flags=64), NEAR, "ff00::")
case(ACCEPTED, na(flags=64), NEAR, "fe80::ffff")

# ---- (7) target
for make in [ns, na]:
    for target in [NEAR, FAR, NOBODY, "fe00::1"]:
        case(ACCEPTED, make(target))
    for target in [NODES, "ff00::", "ffff:ffff:ffff:ffff:ffff:ffff:ffff:ffff"]:
        case(reason(7), make(target))
# 8.1: the destination field no multicast; the target link-local or the field itself
case(ACCEPTED, redirect(NEAR, FAR))
case(ACCEPTED, redirect(NEAR, NEAR))
case(ACCEPTED, redirect(FAR, FAR))
case(reason(7), redirect(FAR, "2001:db8::2"))
case(reason(7), redirect("2001:db9::1", FAR))
for target in LOCAL:
    case(ACCEPTED, redirect(target, "2001:db8::2"))
for target in NOT_LOCAL:
    case(reason(7), redirect(target, "2001:db8::2"))
case(ACCEPTED, redirect("fe81::1", FAR))
case(ACCEPTED, redirect("fe81::1", "fe81::1"))
case(ACCEPTED, redirect("fec0::1", "fec0::1"))
case(ACCEPTED, redirect("fe90::1", FAR), NEAR, "2001:db8::9")
case(reason(7), redirect(NEAR, NODES))
case(reason(7), redirect(NODES, NODES))
case(reason(7), redirect(NODES, FAR))
case(reason(7), redirect(NOBODY, FAR))

# ---- (8) option 1 against the unspecified source: every option counts, not the first alone
for make, destination in [(rs, ROUTERS), (ns, ASKED)]:
    case(ACCEPTED, make(options=SOURCE_LINK), NEAR, destination)
    case(ACCEPTED, make(options=TARGET_LINK), NOBODY, destination)
    case(ACCEPTED, make(options=OTHER + TARGET_LINK), NOBODY, destination)
    case(reason(8), make(options=SOURCE_LINK), NOBODY, destination)
    case(reason(8), make(options=OTHER + SOURCE_LINK), NOBODY, destination)
    case(reason(8), make(options=TARGET_LINK + OTHER + SOURCE_LINK), NOBODY, destination)
    case(reason(8), make(options=bytes([1, 3]) + bytes(22)), NOBODY, destination)
    case(ACCEPTED, make(options=SOURCE_LINK), "::1", destination)
# 7.1.2 has no such rule
case(ACCEPTED, na(options=SOURCE_LINK), NOBODY, NODES)

# ---- the order: of two reasons the earlier is named. (4) and (5) never hold together: without its fixed part a packet has no options
for make in FIVE:
    case(reason(1), spoilt(make()), hops=254, seal=False)
    case(reason(2), spoilt(make(code=1)), seal=False)
for make in FIVE[1:]:
    case(reason(3), make(code=1)[:-1])
    case(reason(4), make(TARGET_LINK if make is ra else NODES)[:15], NOBODY)
case(reason(3), rs(b"\x01", code=1))
case(reason(5), ra(b"\x01"), FAR)
case(reason(5), ns(options=b"\x01"), NOBODY, NODES)
case(reason(5), na(options=b"\x01", flags=64), NEAR, NODES)
case(reason(5), redirect(FAR, NODES, b"\x01"), FAR)
case(reason(5), rs(SOURCE_LINK + b"\x01"), NOBODY)
case(reason(6), ns(NODES, SOURCE_LINK), NOBODY, NODES)
case(reason(6), na(NODES, flags=64), NEAR, NODES)
case(reason(6), redirect(FAR, NODES), FAR)
case(reason(6), redirect(FAR, "2001:db8::2"), "fec0::1")
case(reason(7), redirect(FAR, "2001:db8::2"), "fe90::1")
case(reason(7), ns(NODES, SOURCE_LINK), NOBODY, ASKED)


# ---- real traffic

def judge(hops, source, destination, packet):
    kind, unspecified = packet[0], source == bytes(16)
    valid = folded(source, destination, packet) == 65535
    if kind not in range(133, 138):
        return ACCEPTED if valid else reason(2)
    fixed = {133: 8, 134: 16, 135: 24, 136: 24, 137: 40}[kind]
    local = lambda a: a[0] == 0xFE and a[1] & 0xC0 == 0x80
    target, field = packet[8:24], packet[24:40]
    if hops != 255:
        return reason(1)
    if not valid:
        return reason(2)
    if packet[1]:
        return reason(3)
    if len(packet) < fixed:
        return reason(4)
    options, refused = walk(packet[fixed:])
    if refused:
        return reason(5)
    if kind in (134, 137) and not local(source):
        return reason(6)
    if kind == 135 and unspecified and destination[:13] != address(ASKED)[:13]:
        return reason(6)
    if kind == 136 and packet[4] & 64 and destination[0] == 255:
        return reason(6)
    if kind in (135, 136) and target[0] == 255:
        return reason(7)
    if kind == 137 and (field[0] == 255 or not (local(target) or target == field)):
        return reason(7)
    if kind in (133, 135) and unspecified and any(type == 1 for _, type, _ in options):
        return reason(8)
    return ACCEPTED


for wanted, hops, source, destination, packet in cases:
    assert len(packet) < 8 or judge(hops, source, destination, packet) == wanted, (wanted, packet.hex())
for path in sorted(glob.glob(sys.argv[1] + "/*.rec")):
    data, at = open(path, "rb").read(), 0
    while at < len(data):
        end = at + 37 + struct.unpack(">H", data[at + 35:at + 37])[0]
        hops, source, destination, packet = data[at + 2], data[at + 3:at + 19], data[at + 19:at + 35], data[at + 37:end]
        cases.append((judge(hops, source, destination, packet), hops, source, destination, packet))
        at = end

with open(here + "/stdin", "wb") as out:
    for wanted, hops, source, destination, packet in cases:
        out.write(b"\x49\x36" + bytes([hops]) + source + destination + struct.pack(">H", len(packet)) + packet)
with open(here + "/stdout", "w") as out:
    for number, (wanted, *_) in enumerate(cases, 1):
        out.write(f"{number}: {' '.join(map(str, wanted))}\n")
