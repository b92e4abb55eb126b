"""making.py: what make.py, marks.py, longer.py and large.py share: a record, and a capture that is written with its listing by model.py beside it."""
import model

NEAR, ROUTERS = bytes.fromhex("fe80" + "00" * 13 + "01"), bytes.fromhex("ff02" + "00" * 13 + "02")


def record(packet, hops=255, source=NEAR, destination=ROUTERS):
    return (b"I7" if len(packet) > 2048 else b"I6") + bytes([hops]) + source + destination + len(packet).to_bytes(2, "big") + packet


def write(folder, name, capture, end=None):
    """NAME.rec and NAME.txt. The listing, which must end in these lines."""
    text = model.listing(capture)
    assert end is None or text.endswith("\n" + end + "\n") or text == end + "\n", (name, text)
    open(f"{folder}/{name}.rec", "wb").write(capture)
    open(f"{folder}/{name}.txt", "w").write(text)
    return text
