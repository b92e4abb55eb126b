"""lists.py: what differs between the option lists of two captures of one record each (the command icmp6diff), from docs/RULES.md (area V, C2 for the
records) and docs/DUMP.md: the whole text, and the command's status."""
import chain
import walk

WORDS = {0: "unknown", 1: "unreach", 2: "toobig", 3: "exceeded", 4: "param", 128: "echoreq", 129: "echorep"}  # of the kinds that have no options
HEAD, SHORT, LONG = 37, 2048, 9000


def record_refusal(d):
    """Why a capture does not begin with a record, as the number of a refusal; 0 if it does."""
    if len(d) < 2:
        return 14
    if d[:2] not in (b"\x49\x36", b"\x49\x37"):
        return 12
    if len(d) < HEAD:
        return 14
    length = d[35] * 256 + d[36]
    least, most = (0, SHORT) if d[1] == 0x36 else (SHORT + 1, LONG)
    if not least <= length <= most:
        return 13
    return 14 if len(d) < HEAD + length else 0


def opened(d):
    """The packet of a capture and its options, or what is wrong with it: (packet, options, fault)."""
    if not d:
        return None, None, "empty"
    refusal = record_refusal(d)
    if refusal:
        return None, None, f"stopped {refusal} at 0"
    end = HEAD + d[35] * 256 + d[36]
    if end < len(d):
        return None, None, f"more at {end}"
    packet = d[HEAD:end]
    if len(packet) < 8:
        return None, None, "refused 1"
    kind = chain.kind_of(packet, 0)
    if kind in chain.FIXED and len(packet) < 8 + chain.FIXED[kind]:
        return None, None, "refused 4"
    if kind not in chain.FIXED:
        return None, None, WORDS[kind]
    options, refusal = walk.walk(packet, 8 + chain.FIXED[kind], len(packet), 0, False)
    if refusal:
        return None, None, f"refused {refusal[0]} at {refusal[-1]}"
    return packet, options, ""


def pair(a, x, b, y):
    """The line of two options, each (type, place, length) of its packet."""
    if x[0] != y[0]:
        return f"type {x[1]} {y[1]} from {x[0]} to {y[0]}"
    if x[2] != y[2]:
        return f"length {x[1]} {y[1]} from {x[2]} to {y[2]}"
    for i in range(x[2]):
        if a[x[1] + i] != b[y[1] + i]:
            return f"byte {x[1] + i} {y[1] + i} from {a[x[1] + i]} to {b[y[1] + i]}"
    return f"same {x[1]} {y[1]} type {x[0]} bytes {x[2]}"


def report(a, first, b, second):
    """The lines of two lists that walk clean: the pairs, what is longer, the run, and the verdict."""
    lines = [pair(a, x, b, y) for x, y in zip(first, second)]
    pairs = len(lines)
    if len(first) > pairs:
        lines.append(f"longer 1 at {first[pairs][1]}")
    if len(second) > pairs:
        lines.append(f"longer 2 at {second[pairs][1]}")
    run = 0
    while run < pairs and lines[run].startswith("same "):
        run += 1
    differ = sum(not line.startswith("same ") for line in lines)
    lines.append(f"common {run} bytes {sum(length for _, _, length in first[:run])}")
    return lines + [f"differ {differ}" if differ else "equal"]


def compared(a, b):
    """The text for two files, the status of the command, and labels for the count."""
    lines = []
    for number, d in enumerate((a, b), 1):
        lines.append(opened(d))
        if lines[-1][2]:
            fault = f"list {number} {lines[-1][2]}"
            return f"icmp6diff 1\n{fault}\n", 2, {fault.split(" at ")[0]}
    (a, first, _), (b, second, _) = lines
    told = report(a, first, b, second)
    labels = {line.split()[0] if not line.startswith("longer") else line[:8] for line in told}
    return "\n".join(["icmp6diff 1", *told]) + "\n", 0 if told[-1] == "equal" else 1, labels


FAULTS = ["empty", "more", "refused 1", "refused 4", "stopped 12", "stopped 13", "stopped 14", "refused 5", "refused 6", "refused 7", *WORDS.values()]
NAMED = {"icmp6diff": {"same", "type", "length", "byte", "longer 1", "longer 2", "common", "equal", "differ"}
         | {f"list {number} {fault}" for number in (1, 2) for fault in FAULTS}}
