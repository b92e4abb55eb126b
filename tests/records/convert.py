#!/usr/bin/python3
"""convert.py FOLDER: tries tools/records on captures of the shipped records that captures.py makes, and on cut, damaged and random ones. The converter is
called in this process, so that a fault of its own shows as one; a few runs are of the program itself. The last line is 'N passed, M failed'."""
import contextlib
import importlib.machinery
import importlib.util
import io
import os
import random
import struct
import subprocess
import sys
import threading

sys.dont_write_bytecode = True
import captures
from captures import LINKS, ROOT, ipv6, read, section, shipped, write
from counted import ended, held
from scapy.layers.inet import ICMP, IP, TCP, UDP
from scapy.layers.inet6 import IPv6, IPv6ExtHdrDestOpt, IPv6ExtHdrFragment, IPv6ExtHdrHopByHop, IPv6ExtHdrRouting, IPv6ExtHdrSegmentRouting, PadN
from scapy.layers.ipsec import AH
from scapy.layers.l2 import ARP
from scapy.packet import Raw

sys.path.insert(0, ROOT + "/tests/dump")
import model

folder = sys.argv[1]
PROGRAM = ROOT + "/tools/records"
loader = importlib.machinery.SourceFileLoader("records", PROGRAM)
tool = importlib.util.module_from_spec(importlib.util.spec_from_loader("records", loader))
loader.exec_module(tool)
random.seed(20261116)
ALL = b"".join(shipped)
ETHERNET = LINKS["ethernet"][1]


# ---- the converter, called

def fed(capture, piece):
    """The reading end of a pipe into which a capture is written in pieces."""
    out, into = os.pipe()

    def feed():
        with contextlib.suppress(BrokenPipeError):
            for i in range(0, len(capture), piece):
                os.write(into, capture[i:i + piece])
        os.close(into)
    threading.Thread(target=feed, daemon=True).start()
    return out


def converted(capture, piece=0, quiet=False):
    """Status, output, and what is said."""
    to = os.memfd_create("records")
    if piece:
        fd = fed(capture, piece)
    else:
        fd = os.memfd_create("capture")
        os.write(fd, capture)
        os.lseek(fd, 0, os.SEEK_SET)
    with contextlib.redirect_stderr(io.StringIO()) as said:
        status = tool.run("C", fd, to, quiet)
    os.lseek(to, 0, os.SEEK_SET)
    with open(to, "rb") as held_there:
        output = held_there.read()
    os.close(fd)
    return status, output, said.getvalue().replace("records: ", "")


def same(what, capture, wanted=ALL, **how):
    held(what, converted(capture, **how), (0, wanted, ""))


def one(frame, link=1, wire=None):
    """A capture of one packet."""
    return struct.pack("<IHHiIIIIIII", 0xA1B2C3D4, 2, 4, 0, 0, 262144, link, 0, 0, len(frame), len(frame) if wire is None else wire) + bytes(frame)


# ---- the same records come back, whatever wrote the capture

def links():
    made = {}
    for name, (link, header) in LINKS.items():
        made[name] = write(f"{folder}/{name}.pcap", link, [header + ipv6(r) for r in shipped])
        same(name, read(made[name]))
    for order, nano in ((">", False), ("<", True), (">", True)):
        for name in ("ethernet", "cooked", "null_linux"):
            link, header = LINKS[name]
            same(f"{name}, {order}, nano {nano}", read(write(folder + "/o.pcap", link, [header + ipv6(r) for r in shipped], order, nano)))
    same("padded", read(write(folder + "/padded.pcap", 1, [captures.padded(ETHERNET + ipv6(r)) for r in shipped])))
    same("check sequence told", read(made["ethernet"])[:20] + struct.pack("<I", 0x44000001) + read(made["ethernet"])[24:])
    return made


def formats(made):
    """By Wireshark's tools, and tcpdump's own copy."""
    for form in ("pcapng", "nsecpcap", "modpcap", "pcap"):
        for name in ("ethernet", "service_vlan", "cooked", "cooked2", "raw", "null_linux", "loop"):
            same(f"{name} as {form}", read(captures.editcap(form, made[name], f"{folder}/{name}.{form}")))
    several = [made[name] for name in ("ethernet", "cooked", "raw", "cooked2", "null_linux", "vlan")]
    captures.tool("mergecap", "-a", "-F", "pcapng", "-w", folder + "/several.pcapng", *several)
    same("several interfaces", read(folder + "/several.pcapng"), ALL * len(several))
    captures.tool("tcpdump", "-Z", "root", "-r", made["ethernet"], "-w", folder + "/copy.pcap", "icmp6")
    same("tcpdump's copy", read(folder + "/copy.pcap"))
    with open(folder + "/text", "w") as text:
        for r in shipped:
            text.write("000000 " + (ETHERNET + ipv6(r)).hex(" ") + "\n")
    captures.tool("text2pcap", "-l", "1", folder + "/text", folder + "/text.pcapng")
    same("text2pcap", read(folder + "/text.pcapng"))


def sections():
    frames = [(i % 2, (LINKS["cooked"][1] if i % 2 else ETHERNET) + ipv6(r)) for i, r in enumerate(shipped)]
    both = {big: section([1, 113], frames, big) for big in (False, True)}
    for big in both:
        same(f"pcapng, big end first {big}", both[big])
        same(f"simple packets, {big}", section([1], [(0, ETHERNET + ipv6(r)) for r in shipped], big, simple=True))
    same("two sections, two byte orders", both[True] + both[False], ALL * 2)
    same("a second section has its own interfaces", both[True] + section([101], [(0, ipv6(shipped[0]))], False), ALL + shipped[0])
    unknown = struct.pack("<III4sI", 0xbad, 20, 1, b"what", 20)
    same("unknown blocks", both[False][:28] + unknown + both[False][28:] + unknown)
    old = captures.block("Packet", False, iface_id=0, pkt_data=ETHERNET + ipv6(shipped[0]), opts=[])
    same("an old packet block", section([1], [], False) + old, shipped[0])
    same("no packets", section([1], [], False), b"")
    frame = ETHERNET + ipv6(shipped[0])  # of 70 bytes: a simple packet block that has two bytes less fills them up
    limited = captures.block("SectionHeader", False, opts=[]) + captures.block("InterfaceDescription", False, linktype=1, snaplen=len(frame) - 2, opts=[])
    limited += struct.pack("<III", 3, 84 + 4, len(frame)) + frame[:-2].ljust(72, b"\0") + struct.pack("<I", 88)
    held("a simple packet that was cut short", converted(limited), (0, b"", "skipped 1: packets that the capture cut short\n"))
    return both[False]


def pieces(pcap, pcapng):
    for name, capture in (("pcap", pcap), ("pcapng", pcapng)):
        for piece in (1, 3, 7, 1000, 65536):
            same(f"{name} in pieces of {piece}", capture, piece=piece)


# ---- extension headers, fragments, long and short packets

def behind(record, *headers):
    """A record's packet behind extension headers."""
    made = b""
    for header, following in zip(headers, [*headers[1:], None]):
        header = header.copy()
        header.nh = 58 if following is None else NUMBERS[type(following)]
        made += bytes(header)
    start = ipv6(record, nh=NUMBERS[type(headers[0])], plen=len(made) + len(record) - 37)
    return start[:40] + made + record[37:]


NUMBERS = {IPv6ExtHdrHopByHop: 0, IPv6ExtHdrRouting: 43, IPv6ExtHdrSegmentRouting: 43, IPv6ExtHdrFragment: 44, AH: 51, IPv6ExtHdrDestOpt: 60}
ALERT, PADS, ATOMIC = IPv6ExtHdrHopByHop(options=[PadN(optdata=b"\0\0\0\0")]), IPv6ExtHdrDestOpt(options=[PadN(optdata=bytes(20))]), IPv6ExtHdrFragment()
SIGNED = AH(spi=1, seq=1, payloadlen=4, icv=b"\x55" * 12)
FARTHER = "2001:db8::99"


def routed(record):
    """The record with the destination that the routing headers here lead to."""
    return record[:19] + bytes.fromhex("20010db8" + "00" * 11 + "99") + record[35:]


def extensions():
    ping = next(r for r in shipped if r[37] == 143)
    for name, headers in {"hop by hop": [ALERT], "destination": [PADS], "authentication": [SIGNED], "many": [ALERT, PADS, SIGNED, PADS],
                          "routed, there": [IPv6ExtHdrRouting(addresses=["2001:db8::5", FARTHER], segleft=0)]}.items():
        for r in (shipped[0], ping):
            same(name, one(behind(r, *headers), 101), r)
    for kind in (135, 139, 140):
        header = bytes([58, 1]) + bytes(14)
        packet = ipv6(ping, nh=kind, plen=16 + len(ping) - 37)
        same(f"header {kind}", one(packet[:40] + header + packet[40:], 101), ping)
    return ping


def routes(ping):
    """Where segments are left the checksum is of the last destination; tshark says so too (shark.py)."""
    compressed = bytes([58, 1, 3, 1, 0x88, 0, 0, 0]) + bytes.fromhex("00" * 7 + "99")
    last = routed(ping)
    frames = []
    for name, header in {"type 0": bytes(IPv6ExtHdrRouting(nh=58, addresses=["2001:db8::5", FARTHER], segleft=2)),
                         "type 2": bytes(IPv6ExtHdrRouting(nh=58, type=2, addresses=[FARTHER], segleft=1)),
                         "type 4": bytes(IPv6ExtHdrSegmentRouting(nh=58, addresses=[FARTHER, "2001:db8::5"], segleft=1, lastentry=1)),
                         "type 3": compressed}.items():
        start = ipv6(ping, nh=43, plen=len(header) + len(ping) - 37, dst="2001:db8::5")
        sealed = model_sealed(last)
        frames.append(start[:40] + header + sealed[37:])
        same("routed by " + name, one(frames[-1], 101), sealed)
    other = bytes([58, 0, 250, 1]) + bytes(4)
    start = ipv6(ping, nh=43, plen=8 + len(ping) - 37)
    same("routed by a type that is not known", one(start[:40] + other + ping[37:], 101), ping)
    write(folder + "/routes.pcap", 101, frames)


def model_sealed(record):
    """The record with the checksum that is right for its addresses."""
    for sum_ in range(65536):
        packet = record[37:39] + sum_.to_bytes(2, "big") + record[41:]
        if model.valid(record[3:19], record[19:35], packet):
            return record[:37] + packet
    raise LookupError


def skipped(what, frames, wanted, link=101, records=b"", wires=None):
    """What is told of packets that become no records."""
    capture = one(frames[0], link)[:24]
    for frame, wire in zip(frames, wires or [len(f) for f in frames]):
        capture += struct.pack("<IIII", 0, 0, len(frame), wire) + bytes(frame)
    held(what, converted(capture), (0, records, "".join(f"skipped {line}\n" for line in wanted)))
    held(what + ", quietly", converted(capture, quiet=True), (0, records, ""))


def fragments(ping):
    part = lambda **f: behind(shipped[0], IPv6ExtHdrFragment(id=7, **f))
    skipped("fragments", [part(m=1), part(offset=3, m=1), part(offset=9)], ["3: fragments"])
    skipped("a late fragment", [behind(ping, IPv6ExtHdrFragment(offset=32))], ["1: fragments"])
    skipped("fragments among others", [ipv6(ping), part(m=1), ipv6(shipped[0])], ["1: fragments"], records=ping + shipped[0])
    skipped("a fragment behind options", [behind(ping, PADS, IPv6ExtHdrFragment(m=1))], ["1: fragments"])
    skipped("a fragment before options", [behind(ping, IPv6ExtHdrFragment(offset=5), PADS)], ["1: fragments"])
    udp = bytes(IPv6() / IPv6ExtHdrFragment(m=1, nh=17) / Raw(bytes(64)))
    skipped("other traffic in fragments", [udp], [])
    same("an atomic fragment", one(behind(ping, ATOMIC), 101), ping)
    skipped("discovery in an atomic fragment", [behind(r, ATOMIC) for r in shipped if 133 <= r[37] <= 137][:5], ["5: fragments"])


def sizes():
    def echo(n):
        packet = bytes([128, 0]) + bytes(i % 251 for i in range(n - 2))
        return (b"I7" if n > 2048 else b"I6") + b"\x40" + shipped[0][3:35] + n.to_bytes(2, "big") + packet
    for n in (8, 7, 2, 2048, 2049, 9000):
        same(f"{n} bytes", one(ETHERNET + ipv6(echo(n))), echo(n))
    skipped("too long", [ipv6(echo(9001)), ipv6(echo(60000)), ipv6(echo(65535))], ["3: packets of more than 9,000 bytes"])
    same("none", one(ETHERNET + ipv6(shipped[0][:35] + bytes(2))), shipped[0][:35] + bytes(2))
    jumbo = bytes([58, 0, 0xc2, 4]) + (70000).to_bytes(4, "big")
    skipped("a jumbogram", [ipv6(shipped[0], plen=0, nh=0)[:40] + jumbo + bytes([128, 0]) + bytes(69990)], ["1: packets of more than 9,000 bytes"])


def shorter(ping):
    frame = ETHERNET + behind(ping, ALERT, PADS)
    for n in range(len(frame)):
        skipped(f"cut short at {n}", [frame[:n]], ["1: packets that the capture cut short"], link=1, wires=[len(frame)])
    for name in ("cooked", "cooked2", "null_linux", "raw", "vlan"):
        link, header = LINKS[name]
        whole = header + ipv6(ping)
        for n in (0, 1, len(header) - 1, len(header) + 1, len(header) + 39, len(header) + 41, len(whole) - 1):
            if 0 <= n < len(whole):
                skipped(f"{name} cut short at {n}", [whole[:n]], ["1: packets that the capture cut short"], link=link, wires=[len(whole)])
    skipped("shorter than it says", [frame[:-1], ETHERNET + ipv6(ping, nh=0, plen=4)], ["2: packets that are shorter than their headers say"], link=1)
    beyond = ipv6(ping, nh=60, plen=16)[:40] + bytes([58, 9]) + bytes(30)
    skipped("an extension header beyond the packet", [beyond], ["1: packets that are shorter than their headers say"])
    before = write(folder + "/snap.pcap", 1, [ETHERNET + ipv6(r) for r in shipped], snap=94)
    cut = sum(14 + 40 + len(r) - 37 > 94 for r in shipped)
    held("a capture with a snap length", converted(read(before)), (0, b"".join(r for r in shipped if 54 + len(r) - 37 <= 94), f"skipped {cut}: packets that the capture cut short\n"))


def others():
    ether = lambda kind, body: ETHERNET[:12] + kind.to_bytes(2, "big") + bytes(body)
    traffic = [ether(0x800, IP(dst="192.0.2.1") / ICMP()), ether(0x806, ARP()), ether(0x88cc, bytes(40)), ether(64, bytes(64)), ether(0x86dd, IPv6(dst="::1") / TCP()),
               ether(0x86dd, IPv6(dst="::1") / UDP()), ether(0x86dd, IPv6(dst="::1", nh=59)), ether(0x86dd, IPv6(dst="::1", nh=50) / Raw(bytes(40))), ether(0x86dd, IP(dst="192.0.2.1") / Raw(bytes(40)))]
    skipped("other traffic", traffic, [], link=1)
    skipped("other traffic on a raw link", [bytes(IP(dst="192.0.2.1") / ICMP())], [])
    skipped("other traffic on loopback", [b"\2\0\0\0" + bytes(IP(dst="192.0.2.1") / ICMP())], [], link=0)
    held("a link that is not read", converted(one(bytes(64), 105)), (2, b"I", "C: byte 20: link type 105 is not one that is read\n"))
    mixed = section([1, 189], [(0, ETHERNET + ipv6(shipped[0])), (1, bytes(300000)), (1, bytes(64))], False)
    held("some links that are not read", converted(mixed), (0, shipped[0], "skipped 2: packets of link type 189, which is not read\n"))
    held("no link that is read", converted(section([189, 105], [(0, bytes(64)), (1, bytes(64))], False), quiet=True), (2, b"I", "C: byte 0: no packet has a link type that is read: 189, 105\n"))


# ---- cut and damaged captures

def cuts():
    """At each byte: just between two packets a capture looks whole, and everywhere else it is told where the packet begins that is cut."""
    three = shipped[:3]
    frames = [ETHERNET + ipv6(r) for r in three]
    pcap = one(frames[0]) + b"".join(struct.pack("<IIII", 0, 0, len(f), len(f)) + f for f in frames[1:])
    ends = [24, 24 + 16 + len(frames[0]), 24 + 32 + len(frames[0] + frames[1]), len(pcap)]
    cut("pcap", pcap, ends, three, {})
    pcapng = section([1], list(zip([0] * 3, frames)), False)
    blocks, at = [28, 48], 48
    for f in frames:
        at += 32 + (len(f) + 3) // 4 * 4
        blocks.append(at)
    cut("pcapng", pcapng, blocks[1:], three, {28})


def cut(form, capture, ends, three, also):
    for n in range(len(capture)):
        told = sum(n >= end for end in ends) - 1
        whole = b"".join(three[:max(told, 0)])
        status, output, said = converted(capture[:n])
        if n in ends or n in also:
            held(f"{form} cut at {n}", (status, output, said), (0, whole, ""))
        else:
            place = max([0] + [e for e in ends + list(also) if e <= n])
            held(f"{form} cut at {n}", (status, output, f"C: byte {place}: " in said, "\n" in said[:-1]), (2, whole + b"I", True, False))


def damaged():
    frame = ETHERNET + ipv6(shipped[0])
    pcap, pcapng = one(frame), section([1], [(0, frame)], False)
    put = lambda capture, at, new: capture[:at] + new + capture[at + len(new):]
    n = lambda number: number.to_bytes(4, "little")
    cases = {
        "pcap version": (put(pcap, 4, b"\3\0"), 4, "version 3.4"),
        "a length of 4 GiB": (put(pcap, 32, n(0xffffffff)), 24, "a packet of 4294967295 bytes"),
        "a length too long": (put(pcap, 32, n(len(frame) + 1)), 24, "ends inside it"),
        "a length too short": (put(pcap, 32, n(len(frame) - 1)), 24 + 16 + len(frame) - 1, "ends inside it"),
        "a section without order": (put(pcapng, 8, b"what"), 0, "without its byte order"),
        "pcapng version": (put(pcapng, 12, b"\2\0"), 0, "version 2"),
        "a block of no length": (put(pcapng, 32, n(0)), 28, "a length of 0"),
        "a block too short for its kind": (put(pcapng, 52, n(28)), 48, "a length of 28"),
        "an odd length": (put(pcapng, 52, n(33)), 48, "a length of 33"),
        "a block of 4 GiB": (put(pcapng, 52, n(0xfffffffc)), 48, "a length of 4294967292"),
        "another length behind": (put(pcapng, len(pcapng) - 4, n(12)), 48, "another behind"),
        "an interface that is not there": (put(pcapng, 56, n(1)), 48, "interface 1, and 1 are described"),
        "more than the block has": (put(pcapng, 68, n(2000)), 48, "a packet of 2000 bytes"),
        "one byte more than the block has": (put(pcapng, 68, n((len(frame) + 3) // 4 * 4 + 1)), 48, "in a block that has room for"),
        "a simple packet before its interface": (pcapng[:28] + struct.pack("<IIII", 3, 16, 0, 16), 28, "interface 0, and 0 are described"),
        "neither": (b"GET / HTTP/1.1\r\n", 0, "neither a pcap nor a pcapng"),
        "records": (ALL, 0, "neither a pcap nor a pcapng"),
        "nothing": (b"", 0, "0 bytes"),
    }
    for name, (capture, place, words) in cases.items():
        status, output, said = converted(capture, quiet=True)
        held(name, (status, output[-1:], said.startswith(f"C: byte {place}: "), words in said, said.count("\n")), (2, b"I", True, True, 1))
    two = put(pcapng, len(pcapng) - 4, n(12))
    held("what came before", converted(pcapng + two[48:])[:2], (2, shipped[0] + b"I"))


def whole_records(output):
    """Whether an output is records, and what is left behind them."""
    while output:
        stop, length = model.record_at(output)
        if stop:
            return output
        output = output[37 + length:]
    return b""


def chance(pcap, pcapng, rounds):
    """Bytes by chance, and captures of which some bytes are others, or are missing: no fault of the converter, and its output is records."""
    seeds = [pcap[:3000], pcapng[:3000], one(ETHERNET + behind(shipped[0], ALERT, SIGNED, ATOMIC)), section([1, 101, 0, 276], [(i, random.randbytes(90)) for i in range(4)], True)]
    bad = 0
    for i in range(rounds):
        made = bytearray(random.choice(seeds))
        for _ in range(random.choice([1, 1, 2, 5, 30])):
            at = random.randrange(len(made))
            how = random.randrange(4)
            if how == 0:
                made[at] ^= 1 << random.randrange(8)
            elif how == 1:
                made[at] = random.choice([0, 1, 6, 43, 44, 51, 58, 255])
            elif how == 2:
                made[at:at + random.randrange(9)] = random.randbytes(random.randrange(9))
            else:
                del made[random.randrange(4, len(made) + 1) if len(made) > 4 else len(made):]
            made = made or bytearray(b"I")
        if i % 10 == 0:
            made = bytearray(random.choice([b"\xd4\xc3\xb2\xa1", b"\x0a\x0d\x0d\x0a", b""]) + random.randbytes(random.randrange(200)))
        status, output, said = converted(bytes(made))
        left = whole_records(output)
        if (status, left) not in ((0, b""), (2, b"I")) or status == 2 and "byte " not in said:
            bad += 1
    held(f"{rounds} captures by chance", bad, 0)


# ---- the program

def live():
    """A pipe that stays open: each record comes out when its packet is in. Then the pipe is cut."""
    with subprocess.Popen([PROGRAM], stdin=subprocess.PIPE, stdout=subprocess.PIPE, stderr=subprocess.PIPE, bufsize=0) as run:
        threading.Timer(30, run.kill).start()
        for i, r in enumerate(shipped[:3]):
            packet = one(ETHERNET + ipv6(r))
            run.stdin.write(packet if i == 0 else packet[24:])
            got = b""
            while len(got) < len(r) and (more := run.stdout.read(len(r) - len(got))):
                got += more
            held(f"record {i} of an open pipe", got, r)
        run.stdin.write(b"\0\0")
        run.stdin.close()
        held("the end of the pipe", (run.stdout.read(), b"Traceback" in run.stderr.read(), run.wait()), (b"I", False, 2))


def programs(pcap):
    def ran(*words, **how):
        got = subprocess.run([PROGRAM, *words], capture_output=True, **how)
        return got.returncode, got.stdout, got.stderr.decode()
    held("a file", ran(pcap), (0, ALL, ""))
    held("standard input", ran(input=read(pcap)), (0, ALL, ""))
    held("a folder", ran(folder), (2, b"I", f"records: {folder}: Is a directory\n"))
    held("no file", ran(folder + "/none"), (2, b"I", f"records: {folder}/none: No such file or directory\n"))
    held("a name", ran("--name", "x", input=b"\xd4\xc3"), (2, b"I", "records: x: byte 0: the capture has 2 bytes\n"))
    held("a wrong call", ran("--nmae", "x")[:2], (2, b"I"))
    with open("/dev/full", "wb") as full:
        got = subprocess.run([PROGRAM, pcap], stdout=full, stderr=subprocess.PIPE)
    held("no room", (got.returncode, got.stderr), (2, b"records: standard output: No space left on device\n"))


def memory():
    """The program holds no more of a long capture than of a short one."""
    frames = [ETHERNET + ipv6(r) for r in shipped]
    body = b"".join(struct.pack("<IIII", 0, 0, len(f), len(f)) + f for f in frames)
    peaks = []
    for times in (1, 500):
        with open(folder + "/long.pcap", "wb") as out:
            out.write(one(b"")[:24])
            for _ in range(times):
                out.write(body)
        run = subprocess.Popen([PROGRAM, folder + "/long.pcap"], stdout=subprocess.DEVNULL)
        _, status, used = os.wait4(run.pid, 0)
        held(f"{times} times as long", status, 0)
        peaks.append(used.ru_maxrss)
    held(f"memory, {peaks[0]} and {peaks[1]} KiB", peaks[1] - peaks[0] < 4096, True)


def main():
    made = links()
    formats(made)
    pcapng = sections()
    pcap = read(made["ethernet"])
    pieces(pcap, pcapng)
    ping = extensions()
    routes(ping)
    fragments(ping)
    sizes()
    shorter(ping)
    others()
    cuts()
    damaged()
    chance(pcap, pcapng, 4000)
    live()
    programs(made["ethernet"])
    memory()
    return ended()


sys.exit(main())
