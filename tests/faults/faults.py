#!/usr/bin/python3
"""faults.py [--long [BYTES]]: for tests/faults/run. Each check runs a command of the tree under one fault and compares its status, what it says on
standard error and what it writes with what docs/RULES.md (C14, D10, D11, V13) and docs/DUMP.md say. The listings that are wanted are those of
tests/dump/model.py.

What stands in for faults of a machine: /dev/full and a limit on the size of a file for a full disk (and a small tmpfs, where one may be mounted); for a disk
that fails while it is read, memory of this process with a hole behind it, read through /proc/PID/mem, which is a true EIO in the midst of a file; and, where
a file is given by its name, strace, which makes one of its reads fail with EIO or EINTR."""
import ctypes
import fcntl
import functools
import os
import resource
import signal
import struct
import subprocess
import sys
import tempfile
import threading
import time

ROOT = os.path.dirname(os.path.dirname(os.path.dirname(os.path.abspath(__file__))))
sys.dont_write_bytecode = True
sys.path.insert(0, ROOT + "/tests/dump")
import model

DUMP, DIFF, RECORDS = ROOT + "/icmp6dump", ROOT + "/icmp6diff", ROOT + "/tools/records"
LIMIT = 60      # seconds for a check
PIECE = 65536   # what the programs read at once
passed = failed = 0
folder = tempfile.mkdtemp()


def held(what, got, wanted):
    global passed, failed
    if got == wanted:
        passed += 1
        return
    failed += 1
    print(f"tests/faults: {what}:")
    for name, a, b in zip(("status", "standard error", "output"), got, wanted):
        if a != b:
            print(f"    {name}: {a[-200:] if isinstance(a, (str, bytes)) else a!r}, and not {b[-200:] if isinstance(b, (str, bytes)) else b!r}")


def part(what, got, status, said, whole):
    """Held where the output is the beginning of a listing, and not all of it."""
    short = whole.startswith(got[2]) and len(got[2]) < len(whole)
    held(what, (got[0], got[1], b"" if short else got[2]), (status, said, b""))


def run(words, given=None, before=None, **ends):
    """Status, what is said and what is written of a command."""
    ends.setdefault("stdout", subprocess.PIPE)
    try:
        done = subprocess.run(words, input=given, stderr=subprocess.PIPE, timeout=LIMIT, preexec_fn=before, **ends)
    except subprocess.TimeoutExpired:
        return "not at an end after a minute", "", b""
    return done.returncode if done.returncode >= 0 else 128 - done.returncode, done.stderr.decode(), done.stdout or b""


def written(name, data):
    path = f"{folder}/{name}"
    with open(path, "wb") as file:
        file.write(data)
    return path


def read(name):
    with open(name, "rb") as file:
        return file.read()


# ---- the captures

def records_of(capture):
    at = 0
    while at < len(capture):
        end = at + 37 + int.from_bytes(capture[at + 35:at + 37], "big")
        yield capture[at:end]
        at = end


def cut(capture):
    """How many bytes of a record stand at the end of a capture that is cut: they are kept, and the next read is so much shorter."""
    return len([*records_of(capture)][-1])


@functools.lru_cache
def listing(capture):
    return model.listing(capture).encode()


def without_last(text):
    return text[:text.rstrip(b"\n").rfind(b"\n") + 1]


def pcap(capture):
    """The same packets as a pcap capture of raw IP."""
    made = [struct.pack("<IHHIIII", 0xa1b2c3d4, 2, 4, 0, 0, 262144, 101)]
    for r in records_of(capture):
        packet = struct.pack(">IHBB", 6 << 28, len(r) - 37, 58, r[2]) + r[3:35] + r[37:]
        made += struct.pack("<IIII", 0, 0, len(packet), len(packet)), packet
    return b"".join(made)


SMALL = read(ROOT + "/examples/advertisements.rec")
LARGE = SMALL * 12
LONG = LARGE * 6    # its listing is more than the pipes of a command hold
SMALL_TEXT, LARGE_TEXT = listing(SMALL), listing(LARGE)
FULL = "icmp6dump: standard output: No space left on device\n"
ERROR = "Input/output error\n"


class Hole:
    """Bytes in the memory of this process, with nothing behind them: whoever reads the file gets them, and then the error EIO."""

    def __init__(self, data):
        c = ctypes.CDLL(None)
        c.mmap.restype, c.mmap.argtypes = ctypes.c_void_p, [ctypes.c_void_p, ctypes.c_size_t, ctypes.c_int, ctypes.c_int, ctypes.c_int, ctypes.c_long]
        c.munmap.argtypes = [ctypes.c_void_p, ctypes.c_size_t]
        size = (len(data) + 4095) // 4096 * 4096
        start = c.mmap(None, size + 4096, 3, 0x22, -1, 0)
        c.munmap(start + size, 4096)
        ctypes.memmove(start + size - len(data), data, len(data))
        self.file = os.open("/proc/self/mem", os.O_RDONLY)
        os.lseek(self.file, start + size - len(data), os.SEEK_SET)


# ---- output that cannot be written

def full_disks():
    small, large, packets = written("small.rec", SMALL), written("large.rec", LARGE), written("small.pcap", pcap(SMALL))
    for name, words, given in (("a file", [DUMP, small], None), ("a pipe", [DUMP], SMALL), ("a pcap capture", [DUMP, packets], None),
                               ("sentences", [DUMP, "--explain", small], None), ("a long listing", [DUMP, large], None)):
        with open("/dev/full", "wb") as full:
            held(f"/dev/full, {name}", run(words, given, stdout=full), (1, FULL, b""))
    with open("/dev/full", "wb") as full:
        held("/dev/full, the converter", run([RECORDS, packets], stdout=full), (2, "records: standard output: No space left on device\n", b""))
    for name, program, words in (("dump", "dump", small), ("diff", "diff", " ".join(two()))):
        script = f". tools/sh/need.sh; built crates/{program}/out/{program} {'<' if name == 'dump' else ''}{words} >/dev/full"
        got = run(["bash", "-c", script])
        held(f"/dev/full, the program {name} itself", got[1:], (f"{name}: standard output: No space left on device\n", b""))
    with open("/dev/full", "wb") as full:
        got = run([DIFF, *two()], stdout=full)
        held("/dev/full, two messages", (got[0], got[1].endswith("write error: No space left on device\n"), got[2]), (2, True, b""))
    sized("a limit of 64 KiB", [])
    sized("a limit of 64 KiB, sentences", ["--explain"])
    small_disk()


def sized(what, words):
    """The output is as long as a file may be, and the beginning of the listing."""
    whole = run([DUMP, *words, folder + "/large.rec"])[2]
    with open(folder + "/limited", "wb") as file:
        got = run([DUMP, *words, folder + "/large.rec"], before=lambda: resource.setrlimit(resource.RLIMIT_FSIZE, (PIECE, PIECE)), stdout=file)
    held(what, (*got[:2], read(folder + "/limited")), (1, "icmp6dump: standard output: File too large\n", whole[:PIECE]))


def small_disk():
    disk = folder + "/disk"
    os.mkdir(disk)
    script = f"mount -t tmpfs -o size={PIECE} none {disk} 2>/dev/null || exit 77; {DUMP} {folder}/large.rec >{disk}/out; got=$?; cat {disk}/out; exit $got"
    got = run(["unshare", "-m", "sh", "-c", script])
    if got[0] in (1, 77) and not got[2]:
        print("tests/faults: no tmpfs may be mounted here: a small disk was not tried")
        return
    held("a disk of 64 KiB", got, (1, FULL, LARGE_TEXT[:PIECE]))


# ---- readers that end first, and ends that are closed

def first_line(words, given=None, ignored=False):
    """What a command comes to whose reader takes the first line and ends."""
    process = subprocess.Popen(words, stdin=subprocess.PIPE, stdout=subprocess.PIPE, stderr=subprocess.PIPE, restore_signals=not ignored)
    feeder = threading.Thread(target=fed, args=(process.stdin, given or b""))
    feeder.start()
    line = b""
    while not line.endswith(b"\n"):
        line += os.read(process.stdout.fileno(), 1)
    process.stdout.close()
    said = process.stderr.read().decode()
    feeder.join()
    return process.wait(LIMIT), said, line


def fed(pipe, data, piece=PIECE):
    try:
        for at in range(0, len(data), piece):
            pipe.write(data[at:at + piece])
            pipe.flush()
        pipe.close()
    except BrokenPipeError:
        pass


def closed_pipes():
    packets, large = written("large.pcap", pcap(LARGE)), folder + "/large.rec"
    wanted = (141, "", b"icmp6 1\n")
    for name, words, given in (("a file", [DUMP, large], None), ("a pipe", [DUMP], LARGE), ("a pcap capture", [DUMP, packets], None),
                               ("a pipe of pcap", [DUMP], pcap(LARGE)), ("sentences", [DUMP, "--explain", large], None)):
        held(f"a reader that takes one line, {name}", first_line(words, given), wanted)
    status, said, out = first_line([DUMP, large], ignored=True)
    held("the same where the signal is ignored", (status, "icmp6dump: standard output: Broken pipe\n" in said, out), (1, True, b"icmp6 1\n"))
    closed = {fd: (lambda fd=fd: os.close(fd)) for fd in (0, 1, 2)}
    small = folder + "/small.rec"
    held("no standard output", run([DUMP, small], before=closed[1]), (2, "icmp6dump: standard output is closed\n", b""))
    held("no standard input", run([DUMP], before=closed[0]), (2, "icmp6dump: standard input is closed\n", b""))
    held("no standard input, and a file", run([DUMP, small], before=closed[0]), (0, "", SMALL_TEXT))
    held("no standard error", run([DUMP, small], before=closed[2]), (0, "", SMALL_TEXT))
    held("no standard output, two messages", run([DIFF, *two()], before=closed[1]), (2, "icmp6diff: standard output is closed\n", b""))
    held("no standard output, the converter", run([RECORDS, packets], before=closed[1]), (2, "records: standard output: Bad file descriptor\n", b""))
    held("no standard input, the converter", run([RECORDS], before=closed[0]), (2, "records: standard input: Bad file descriptor\n", b"I"))


def unblocked():
    """A pipe that does not wait: a write to it fails when it is full."""
    ours, theirs = os.pipe()
    fcntl.fcntl(theirs, fcntl.F_SETFL, fcntl.fcntl(theirs, fcntl.F_GETFL) | os.O_NONBLOCK)
    process = subprocess.Popen([DUMP, folder + "/large.rec"], stdout=theirs, stderr=subprocess.PIPE)
    os.close(theirs)
    said = process.stderr.read().decode()
    status = process.wait(LIMIT)
    with open(ours, "rb") as file:
        part("a pipe that does not wait", (status, said, file.read()), 1, "icmp6dump: standard output: Resource temporarily unavailable\n", LARGE_TEXT)


# ---- reads that fail

def holes():
    """A true EIO: behind a whole record, inside one, and of a pcap capture behind a packet."""
    for name, words, data, text, status in (
            ("behind a record", [DUMP], SMALL, SMALL_TEXT, 1), ("inside a record", [DUMP], LARGE[:100001], LARGE_TEXT, 1),
            ("with sentences", [DUMP, "--explain"], SMALL, SMALL_TEXT, 1), ("behind a packet of pcap", [DUMP], pcap(SMALL), SMALL_TEXT, 2)):
        got = run(words, stdin=Hole(data).file)
        plain = b"".join(line for line in got[2].splitlines(True) if not line.startswith(b" "))
        part(f"a read that fails {name}", (got[0], got[1], plain), status, "icmp6dump: standard input: " + ERROR, text)
    got = run([DUMP], stdin=Hole(b"").file)
    held("a first read that fails", got, (1, "dump: standard input: " + ERROR, b"icmp6 1\n"))
    held("a read that fails, the converter", run([RECORDS], stdin=Hole(pcap(SMALL)).file), (2, "records: standard input: " + ERROR, SMALL + b"I"))
    a, b = two()
    for name, data in (("behind the message", read(a)), ("inside it", read(a)[:-3])):
        hole = Hole(data).file
        held(f"two messages, a read that fails {name}", run([DIFF, f"/dev/fd/{hole}", b], pass_fds=[hole]), (2, f"/dev/fd/{hole}: " + ERROR, b""))
        got = run(["bash", "-c", f'{DIFF} <(cat) {b}'], stdin=hole)
        held(f"two messages, a pipe whose writer fails {name}", (got[0], got[1]), (2 if name == "inside it" else got[0], "cat: -: " + ERROR))


def injected(words, path, error, when, **ends):
    traced = ["strace", "-qq", "-f", "-o", folder + "/trace", "-P", path, "-e", "trace=read", "-e", f"inject=read:error={error}:when={when}"]
    got = run(traced + words, **ends)
    return got[0], "".join(line + "\n" for line in got[1].splitlines() if not line.startswith("strace: Requested path")), got[2]


def strace():
    large, packets, (a, b) = folder + "/large.rec", folder + "/large.pcap", two()
    if run(["strace", "-qq", "-o", "/dev/null", "true"])[0]:
        print("tests/faults: strace may not be used here: reads of files by name that fail were not tried")
        return
    there = listing(LARGE[:2 * PIECE - cut(LARGE[:PIECE])])
    held("the third read of a file", injected([DUMP, large], large, "EIO", 3), (1, "dump: standard input: " + ERROR, without_last(there)))
    held("the third read of a file is interrupted", injected([DUMP, large], large, "EINTR", 3),
         (1, "dump: standard input: Interrupted system call\n", without_last(there)))
    got = injected([DUMP, packets], packets, "EIO", 5)
    last = got[2].splitlines()[-1]
    held("a read of a pcap file", (got[0], got[1], last.startswith(b"stopped 14 at "), LARGE_TEXT.startswith(without_last(got[2]))),
         (2, f"records: {packets}: " + ERROR, True, True))
    held("reads of a pcap file are interrupted", injected([DUMP, packets], packets, "EINTR", "1+2"), (0, "", LARGE_TEXT))
    held("a message that cannot be read", injected([DIFF, a, b], a, "EIO", "1+"), (2, f"{a}: " + ERROR, b""))
    held("the other one", injected([DIFF, a, b], b, "EIO", "1+"), (2, f"{b}: " + ERROR, b""))
    held("a message whose reading is interrupted", injected([DIFF, a, b], b, "EINTR", 1), (2, f"{b}: Interrupted system call\n", b""))
    fifo = folder + "/fifo"
    os.mkfifo(fifo)
    feeder = threading.Thread(target=lambda: fed(open(fifo, "wb"), LARGE))
    feeder.start()
    held("reads of a pipe are interrupted", injected(["sh", "-c", f"{DUMP} <{fifo}"], fifo, "EINTR", "1+2"), (0, "", LARGE_TEXT))
    feeder.join()


def no_files():
    bare = ["setpriv", "--bounding-set=-dac_override,-dac_read_search", "--inh-caps=-dac_override,-dac_read_search"] if os.getuid() == 0 else []
    hidden, (a, b) = written("hidden", SMALL), two()
    os.chmod(hidden, 0)
    for name, words, path in (("a folder", [], folder), ("no file", [], folder + "/none"), ("a file that may not be read", bare, hidden)):
        held(name, run([*words, DUMP, path]), (2, f"icmp6dump: cannot read {path}\n", b""))
    held("a folder as standard input", run([DUMP], stdin=os.open(folder, os.O_RDONLY)), (1, "dump: standard input: Is a directory\n", b"icmp6 1\n"))
    held("two messages, one that may not be read", run([*bare, DIFF, a, hidden]), (2, f"icmp6diff: cannot read {hidden}\n", b""))
    for name, path, why in (("no file", folder + "/none", "No such file or directory"), ("a folder", folder, "Is a directory")):
        held(f"the converter, {name}", run([RECORDS, path]), (2, f"records: {path}: {why}\n", b"I"))
    held("the converter, a file that may not be read", run([*bare, RECORDS, hidden]), (2, f"records: {hidden}: Permission denied\n", b"I"))


# ---- inputs that come slowly, and that grow

def started(words, **ends):
    return subprocess.Popen(words, stdout=subprocess.PIPE, stderr=subprocess.PIPE, start_new_session=True, **ends)


def finished(process):
    out, said = process.communicate(timeout=LIMIT)
    return process.returncode, said.decode(), out


def stopped_for_a_while():
    """All processes of the command are stopped in the midst of a pipe, and go on."""
    for name, data in (("records", LARGE), ("pcap", pcap(LARGE))):
        process = started([DUMP], stdin=subprocess.PIPE)
        half = len(data) // 2 + 17
        feeder = threading.Thread(target=fed, args=(process.stdin, data[half:]))
        process.stdin.write(data[:5000])
        process.stdin.flush()
        time.sleep(0.5)
        for _ in range(3):
            os.killpg(process.pid, signal.SIGSTOP)
            time.sleep(0.1)
            os.killpg(process.pid, signal.SIGCONT)
        rest = threading.Thread(target=lambda p=process, d=data, h=half: (p.stdin.write(d[5000:h]), p.stdin.flush()))
        reader, found = threading.Thread(target=lambda p=process: found.append(p.stdout.read())), []
        reader.start()
        rest.start()
        time.sleep(0.2)
        os.killpg(process.pid, signal.SIGSTOP)
        time.sleep(0.2)
        os.killpg(process.pid, signal.SIGCONT)
        rest.join()
        feeder.start()
        feeder.join()
        reader.join()
        held(f"stopped and continued, {name}", (process.wait(LIMIT), process.stderr.read().decode(), found[0]), (0, "", LARGE_TEXT))


def bytewise(data, words, **ends):
    process = started(words, stdin=subprocess.PIPE, **ends)
    found = []
    reader = threading.Thread(target=lambda: found.append(process.stdout.read()))
    reader.start()
    fed(process.stdin, data, 1)
    reader.join()
    return process.wait(LIMIT), process.stderr.read().decode(), found[0]


def slowly():
    """A byte at a time. tests/dump/run does so with records."""
    a, b = two()
    held("pcap, a byte at a time", bytewise(pcap(SMALL), [DUMP]), (0, "", SMALL_TEXT))
    wanted = run([DIFF, a, b])
    held("two messages", (wanted[0], wanted[1], wanted[2].splitlines()[-1][:7]), (1, "", b"differ "))
    held("a message, a byte at a time", bytewise(read(a), [DIFF, "/dev/stdin", b]), wanted)
    held("a message of pcap, a byte at a time", bytewise(pcap(read(b)), [DIFF, a, "/dev/stdin"]), wanted)


def growing():
    """A file that grows while its listing waits for a reader, by whole records and by a part of one; and a pipe that goes on."""
    for name, made, head in (("rec", lambda data: data, 0), ("pcap", pcap, 24)):
        for behind, rest in (("whole records", 0), ("a part of one", 20)):
            path = written(f"growing.{name}", made(LONG))
            process = started([DUMP, path])
            first = os.read(process.stdout.fileno(), 8)
            time.sleep(0.3)
            with open(path, "ab") as file:
                file.write(made(LARGE)[head:] + made(SMALL)[head:head + rest])
            status, said, out = finished(process)
            wanted = 0 if rest == 0 else 2 if name == "pcap" else 1
            told = f"records: {path}: byte {len(made(LONG + LARGE))}: a packet begins here, and the capture ends inside it\n" if wanted == 2 else ""
            held(f"a file, {name}, that grows by {behind}", (status, said, first + out), (wanted, told, listing(LONG + LARGE + SMALL[:rest])))
    followed()


def followed():
    """As `tail -f` of a capture: what is there is listed at once, and the last line comes with the end."""
    path = written("followed.rec", SMALL)
    tail = subprocess.Popen(["tail", "-c", "+1", "-f", path], stdout=subprocess.PIPE)
    process = started([DUMP], stdin=tail.stdout)
    tail.stdout.close()
    there = b""
    for capture in (SMALL, SMALL + SMALL):
        if capture is not SMALL:
            with open(path, "ab") as file:
                file.write(SMALL)
        wanted, until = without_last(listing(capture)), time.monotonic() + LIMIT
        while len(there) < len(wanted) and time.monotonic() < until:
            there += os.read(process.stdout.fileno(), PIECE)
        held("a capture that is followed", (0, "", there), (0, "", wanted))
    tail.terminate()
    status, said, out = finished(process)
    tail.wait()
    held("and its end", (status, said, there + out), (0, "", listing(SMALL + SMALL)))


# ---- two messages

def two():
    """Two advertisements that differ, as files."""
    found = [r for r in records_of(SMALL) if r[37] == 134]
    other = next(r for r in found if r[53:] != found[0][53:])
    return written("a.rec", found[0]), written("b.rec", other)


# ---- 5 GiB

def record(packet):
    return (b"I7" if len(packet) > 2048 else b"I6") + b"\xff" + bytes.fromhex("fe80" + "00" * 13 + "01") * 2 + len(packet).to_bytes(2, "big") + packet


def fed_long(pipe, block, times, behind):
    try:
        for _ in range(times):
            pipe.write(block)
        pipe.write(behind)
        pipe.close()
    except BrokenPipeError:
        pass


def lines_of(unit):
    """What the listing has of each record of a unit behind its first line, and where each begins."""
    found, at, now = [], [], 0
    for r in records_of(unit):
        found.append(listing(r).split(b"\n", 2)[2].rsplit(b"\n", 2)[0] + b"\n")
        at.append(now)
        now += len(r)
    return found, at


def measured(size, unit, behind=b""):
    """The command over a pipe of so many bytes, in blocks of 16 MiB. How it ends, and whether every line is the one that is wanted; then the bytes, the
    records, the first line of the last one, the seconds and the memory of its largest process in KiB."""
    block = unit * (16 * 1024 * 1024 // len(unit))
    times = -(-size // len(block))
    begun = time.monotonic()
    process = subprocess.Popen(["/usr/bin/time", "-q", "-o", folder + "/time", "-f", "%M", DUMP],
                               stdin=subprocess.PIPE, stdout=subprocess.PIPE, stderr=subprocess.PIPE)
    feeder = threading.Thread(target=fed_long, args=(process.stdin, block, times, behind))
    feeder.start()
    (lines, places), n, good, last = lines_of(unit), 0, process.stdout.readline() == b"icmp6 1\n", b""
    for start in range(0, times * len(block), len(unit)):
        for text, at in zip(lines, places):
            n += 1
            wanted = b"record %d at %d\n" % (n, start + at) + text
            last = process.stdout.read(len(wanted))
            good = good and last == wanted
    end = process.stdout.read().decode()
    feeder.join()
    got = process.wait(), process.stderr.read().decode(), good
    return (*got, end), times * len(block), n, last.decode().split("\n")[0], time.monotonic() - begun, int(read(folder + "/time"))


def long(size):
    packets = [b"\x80\0" + bytes(6) + bytes(8992), b"\x85\0" + bytes(6) + bytes([1, 1, 0, 0, 0, 0, 0, 1]), b"\x80\0" + bytes(range(256)) * 7 + b"x"]
    unit = b"".join(map(record, packets))
    got, small_bytes, n, _, _, small = measured(1, unit)
    held(f"{small_bytes:,} bytes through a pipe", got, (0, "", True, f"records {n}\n"))
    for behind, status, last in ((b"", 0, "records {}\n"), (b"II", 1, "stopped 12 at {}\n"), (unit[:-1], 1, "stopped 14 at {}\n")):
        got, total, n, ends, seconds, memory = measured(size, unit, behind)
        if len(behind) > 2:   # the two records before the cut one
            got = (*got[:3], got[3][got[3].rfind("stopped"):])
        place = total + len(behind) // len(unit[:-1]) * sum(37 + len(p) for p in packets[:2])
        held(f"{total:,} bytes through a pipe, and {len(behind)} behind them", got, (status, "", True, last.format(place if behind else n)))
        held("the memory beside that of 16 MiB", (abs(memory - small) <= 1024, memory), (True, memory))
        print(f"{total + len(behind):,} bytes: {seconds:.1f} seconds, {memory:,} KiB ({small:,} KiB for {small_bytes:,} bytes); {ends}, {got[3].strip()}")


def main():
    os.chdir(ROOT)
    two()
    for check in (full_disks, closed_pipes, unblocked, holes, strace, no_files, stopped_for_a_while, slowly, growing):
        begun = time.monotonic()
        check()
        if "-v" in sys.argv:
            print(f"{check.__name__}: {time.monotonic() - begun:.1f} s")
    if "--long" in sys.argv:
        size = sys.argv[sys.argv.index("--long") + 1:]
        long(int(size[0]) if size else 5 << 30)
    subprocess.run(["rm", "-rf", folder], check=True)
    print(f"faults: {passed} passed, {failed} failed")
    return failed != 0 or passed == 0


if __name__ == "__main__":
    sys.exit(main())
