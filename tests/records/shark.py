#!/usr/bin/env python3
"""shark.py CAPTURE: what tshark says of the ICMPv6 packets of a pcap or pcapng capture, a line of JSON each, as tests/dump/tshark.py reads them: the place
of its record among the records of the capture, its length, checksum field and verdict, type, code and options."""
import json
import subprocess
import sys
import xml.etree.ElementTree


def number(field, name):
    return int(field.find(f"field[@name='{name}']").get("value"), 16)


def option(field, first):
    """Type, units and place from the first option on."""
    return {"type": number(field, "icmpv6.opt.type"), "units": number(field, "icmpv6.opt.length"), "at": int(field.get("pos")) - first}


def said(message, length):
    """What tshark says of one message."""
    options = message.findall("field[@name='icmpv6.opt']")
    first = int(options[0].get("pos")) if options else 0
    verdict = message.find("field[@name='icmpv6.checksum.status']").get("show")
    return {"type": number(message, "icmpv6.type"), "code": number(message, "icmpv6.code"), "checksum": message.find("field[@name='icmpv6.checksum']").get("value"),
            "sum": "good" if verdict == "1" else "bad", "options": [option(o, first) for o in options]}


def main():
    run = subprocess.run(["tshark", "-r", sys.argv[1], "-Y", "icmpv6", "-T", "pdml"], stdout=subprocess.PIPE, stderr=subprocess.DEVNULL, check=True)
    at = 0
    for n, packet in enumerate(xml.etree.ElementTree.fromstring(run.stdout).iter("packet"), 1):
        message = packet.find("proto[@name='icmpv6']")
        length = int(message.get("size"))
        print(json.dumps({"record": n, "at": at, "len": length, "tshark": said(message, length)}))
        at += 37 + length


main()
