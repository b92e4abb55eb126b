#!/usr/bin/env python3
"""five_messages.py: writes what crates/five_messages must print, from RFC 4861 sections 4.1 to 4.6 and RFC 4443 section 2.3 alone: five records of a capture,
one for each message of Neighbor Discovery."""
import os
from ipaddress import IPv6Address
from struct import pack

ROUTER, HOST, NODES, ROUTERS, SOLICITED, ELSEWHERE = (IPv6Address(a).packed for a in ("fe80::1", "fe80::2", "ff02::1", "ff02::2", "ff02::1:ff00:2", "2001:db8::9"))
LINK_LAYER = bytes.fromhex("020000000001")
PREFIX = pack("!BBBBIII", 3, 4, 64, 0x80 | 0x40, 86400, 14400, 0) + IPv6Address("2001:db8::").packed


def record(kind, rest, body, source, destination):
    head, data = pack("!BBHI", kind, 0, 0, rest), body + b"\0" * (len(body) % 2)
    summed = source + destination + pack("!II", 8 + len(body), 58) + head + data
    total = sum(int.from_bytes(summed[i:i + 2], "big") for i in range(0, len(summed), 2))
    while total > 0xffff:
        total = (total & 0xffff) + (total >> 16)
    packet = head[:2] + pack("!H", 0xffff - total) + head[4:] + body
    return b"I6" + bytes([255]) + source + destination + pack("!H", len(packet)) + packet


def link_layer(kind):
    return bytes([kind, 1]) + LINK_LAYER


records = [
    record(133, 0, link_layer(1), HOST, ROUTERS),
    record(134, 64 << 24 | 0x40 << 16 | 1800, pack("!II", 30000, 1000) + link_layer(1) + pack("!BBHI", 5, 1, 0, 1480) + PREFIX, ROUTER, NODES),
    record(135, 0, HOST + link_layer(1), ROUTER, SOLICITED),
    record(136, (0x40 | 0x20) << 24, HOST + link_layer(2), HOST, ROUTER),
    record(137, 0, ROUTER + ELSEWHERE + link_layer(2), ROUTER, HOST),
]
open(os.path.dirname(os.path.abspath(__file__)) + "/../crates/five_messages/stdout", "wb").write(b"".join(records))
