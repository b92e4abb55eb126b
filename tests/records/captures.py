"""captures.py: for the tests of tools/records. The shipped records as packets, and captures of them that other people's programs write: scapy makes the
link headers and pcap files, editcap and mergecap of Wireshark the other formats, dpkt the pcapng files in the byte order that no tool here writes."""
import os
import subprocess

from dpkt import pcapng
from scapy.layers.inet6 import IPv6
from scapy.layers.l2 import CookedLinux, CookedLinuxV2, Dot1AD, Dot1Q, Ether, Loopback
from scapy.packet import Raw
from scapy.utils import PcapWriter

HERE = os.path.dirname(os.path.abspath(__file__))
ROOT = os.path.dirname(os.path.dirname(HERE))
SHIPPED = [ROOT + "/" + name for name in ("examples/advertisements.rec", "examples/c/capture.rec", "crates/five_messages/stdout")]


def records(capture):
    """The records of a capture."""
    at, found = 0, []
    while at < len(capture):
        end = at + 37 + int.from_bytes(capture[at + 35:at + 37], "big")
        found.append(capture[at:end])
        at = end
    return found


def read(name):
    with open(name, "rb") as held:
        return held.read()


shipped = [r for name in SHIPPED for r in records(read(name))]


def address(bytes16):
    return ":".join(bytes16[i:i + 2].hex() for i in range(0, 16, 2))


def ipv6(record, **fields):
    """The IPv6 packet of a record, as scapy writes it; some fields of its header may be others."""
    header = dict(src=address(record[3:19]), dst=address(record[19:35]), hlim=record[2], nh=58, plen=len(record) - 37)
    return bytes(IPv6(**{**header, **fields}) / Raw(record[37:]))


ETHER = Ether(src="02:00:00:00:00:01", dst="33:33:00:00:00:01")
LAST = Dot1Q(vlan=7, type=0x86dd)
# for each link: its type in a capture, and what scapy writes before the IPv6 packet
LINKS = {name: (link, bytes(header)) for name, (link, header) in {
    "ethernet": (1, Ether(src="02:00:00:00:00:01", dst="33:33:00:00:00:01", type=0x86dd)),
    "vlan": (1, ETHER / LAST),
    "service_vlan": (1, ETHER / Dot1AD(vlan=100) / LAST),
    "three_tags": (1, ETHER / Dot1Q(vlan=9) / Dot1Q(vlan=8) / LAST),
    "cooked": (113, CookedLinux(proto=0x86dd)),
    "cooked_vlan": (113, CookedLinux(proto=0x8100) / LAST),
    "cooked2": (276, CookedLinuxV2(proto=0x86dd, ifindex=3)),
    "cooked2_vlan": (276, CookedLinuxV2(proto=0x8100, ifindex=3) / LAST),
    "raw": (101, b""),
    "raw_12": (12, b""),
    "ipv6": (229, b""),
    "null_linux": (0, Loopback(type=10)),
    "null_freebsd": (0, Loopback(type=28)),
    "null_turned": (0, bytes(Loopback(type=30))[::-1]),
    "loop": (108, bytes(Loopback(type=24))[::-1]),
}.items()}


def padded(frame):
    """An Ethernet frame as it is on the line: 60 bytes at least, and a check sequence behind it."""
    return bytes(frame).ljust(60, b"\xaa") + b"\xfc\xfc\xfc\xfc"


def write(name, link, frames, order="<", nano=False, snap=None):
    """A pcap file by scapy; a frame that is longer than `snap` is cut there."""
    with PcapWriter(name, linktype=link, endianness=order, nano=nano, snaplen=snap or 262144) as out:
        out.write_header(None)
        for i, frame in enumerate(frames):
            frame = bytes(frame)
            kept = frame[:snap] if snap else frame
            out.write_packet(kept, sec=i, usec=i, caplen=len(kept), wirelen=len(frame))
    return name


def tool(*words):
    subprocess.run(words, check=True, stdout=subprocess.DEVNULL, stderr=subprocess.DEVNULL)


def editcap(form, name, to):
    tool("editcap", "-F", form, name, to)
    return to


def block(kind, big, **fields):
    """A pcapng block by dpkt, in either byte order."""
    return bytes(getattr(pcapng, kind + ("Block" if big else "BlockLE"))(**fields))


def section(links, packets, big, simple=False):
    """A pcapng section: its interfaces by their links, and packets as (interface, bytes)."""
    order = "big" if big else "little"
    made = block("SectionHeader", big, opts=[]) + b"".join(block("InterfaceDescription", big, linktype=link, snaplen=0, opts=[]) for link in links)
    for interface, frame in packets:
        if simple:
            size = (16 + len(frame) + 3) // 4 * 4
            made += b"".join(n.to_bytes(4, order) for n in (3, size, len(frame))) + frame.ljust(size - 16, b"\0") + size.to_bytes(4, order)
        else:
            made += block("EnhancedPacket", big, iface_id=interface, pkt_data=frame, opts=[])
    return made
