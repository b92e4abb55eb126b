#!/usr/bin/env python3
"""compare.py JSONL < OUTPUT: holds what `options` printed of a capture, line by line, to what tshark said of the same packets: the verdict on the checksum;
preference, timers, target and destination of each message; in each edition every option by place, type and length, with the numbers of prefixes, MTUs,
link-layer addresses, routes and servers, the last two in the second edition; and that each walk ends clean. A place of tshark's counts from the first
option. Prints what differs, and how many lines of each kind were the same; the status is 1 where anything differs."""
import collections
import ipaddress
import json
import sys

FIXED = {133: 0, 134: 8, 135: 16, 136: 16, 137: 32}
ADDRESSES = {133: [], 134: [], 135: ["icmpv6.nd.ns.target_address"], 136: ["icmpv6.nd.na.target_address"],
             137: ["icmpv6.nd.rd.target_address", "icmpv6.rd.na.destination_address"]}
SECOND = (24, 25)


def plain(*texts):
    return [ipaddress.IPv6Address(text).packed.hex() for text in texts]


def numbers(fields, *names):
    return [fields["icmpv6.opt." + name] for name in names]


def option_line(kind, f):
    """What the reader of an option's kind is to say."""
    if kind in (1, 2):
        return ["address", f["icmpv6.opt.linkaddr"].replace(":", "")]
    if kind == 3:
        return ["prefix", *numbers(f, "prefix.length", "prefix.flag.l", "prefix.flag.a", "prefix.valid_lifetime", "prefix.preferred_lifetime"),
                *plain(f["icmpv6.opt.prefix"])]
    if kind == 5:
        return ["mtu", f["icmpv6.opt.mtu"]]
    if kind == 24:
        return ["route", *numbers(f, "prefix.length", "route_info.flag.route_preference", "route_lifetime"), *plain(f.get("icmpv6.opt.prefix", "::"))]
    if kind == 25:
        names = f["icmpv6.opt.rdnss"]
        return ["servers", f["icmpv6.opt.rdnss.lifetime"], *plain(*([names] if isinstance(names, str) else names))]
    return None


def walk_lines(shark, edition):
    yield ["edition", str(edition)]
    for option in shark["options"]:
        kind = option["type"]
        yield ["option", str(8 + FIXED[shark["type"]] + option["at"]), str(kind), str(8 * option["units"])]
        line = option_line(kind, option["fields"])
        if line and (edition == 2 or kind not in SECOND):
            yield line
    yield ["end"]


def lines(row):
    """The lines of a record, by tshark's words."""
    shark = row["tshark"]
    yield ["record", str(row["at"])]
    yield ["sum", shark["sum"]]
    if shark["type"] not in FIXED or shark["code"] != 0:
        return
    f = shark["fields"]
    if shark["type"] == 134:
        yield ["preference", f["icmpv6.nd.ra.flag.prf"]]
        yield ["timers", f["icmpv6.nd.ra.reachable_time"], f["icmpv6.nd.ra.retrans_timer"]]
    yield ["target", *plain(*(f[name] for name in ADDRESSES[shark["type"]]))]
    for edition in (1, 2):
        yield from walk_lines(shark, edition)


def records(found):
    """Lines cut into records."""
    cut = []
    for line in found:
        if line[0] == "record":
            cut.append([])
        cut[-1].append(line)
    return cut


ours = records(line.split() for line in sys.stdin)
theirs = records(line for text in open(sys.argv[1]) for line in lines(json.loads(text)))
same, differ = collections.Counter(), abs(len(ours) - len(theirs))
for mine, told in zip(ours, theirs):
    if mine == told:
        same.update(line[0] for line in told)
    else:
        differ += 1
        at = next((i for i, (a, b) in enumerate(zip(mine, told)) if a != b), min(len(mine), len(told)))
        print(f"{' '.join(told[0])}: {mine[at:at + 1]}, and tshark says {told[at:at + 1]}")
print("tshark: " + ", ".join(f"{name} {count}" for name, count in sorted(same.items())) + f"; {differ} records differ")
sys.exit(differ > 0)
