"""records.py: the records of the shipped capture, which dump.py and pcap.py make their captures of."""


def shipped(root):
    with open(root + "/examples/advertisements.rec", "rb") as f:
        capture = f.read()
    found, at = [], 0
    while at < len(capture):
        end = at + 37 + int.from_bytes(capture[at + 35:at + 37], "big")
        found.append(capture[at:end])
        at = end
    return found
