#!/usr/bin/env python3
"""terminal.py CAPTURE LISTING: the command icmp6dump before a terminal. Where standard error is one, a line there says how far a file is read, and is wiped
at the end; where standard output is the same terminal, the listing stands there whole; with --quiet, from a pipe, and where standard error is no terminal,
nothing is said. The last line is 'N passed, M failed'."""
import os
import pty
import re
import subprocess
import sys
import termios
import threading
import time

from counted import ended, held

ROOT = os.path.dirname(os.path.dirname(os.path.dirname(os.path.abspath(__file__))))
capture, listing = sys.argv[1], open(sys.argv[2], "rb").read()
size = os.path.getsize(capture)
LINE = re.compile(r"\r\x1b\[Kicmp6dump: ([\d,]+) of ([\d,]+) bytes, ([\d,]+) records")


def read_all(fd, into):
    while True:
        try:
            piece = os.read(fd, 65536)
        except OSError:  # a terminal that nobody holds any more
            return
        if not piece:
            return
        into.append(piece)


def ran(*words, source=None, both=False):
    """What comes out, and what the terminal got. Nobody takes the listing for a while, so that it takes long on the fastest machine."""
    terminal, theirs = pty.openpty()
    settings = termios.tcgetattr(theirs)
    settings[1] &= ~termios.OPOST  # a newline stays one byte
    termios.tcsetattr(theirs, termios.TCSANOW, settings)
    run = subprocess.Popen([ROOT + "/icmp6dump", *words], stdin=source or subprocess.DEVNULL, stdout=theirs if both else subprocess.PIPE, stderr=theirs)
    os.close(theirs)
    seen, out = [], []
    if both:
        time.sleep(1)
    reader = threading.Thread(target=read_all, args=(terminal, seen))
    reader.start()
    if not both:
        time.sleep(1)
        read_all(run.stdout.fileno(), out)
    status = run.wait()
    reader.join()
    os.close(terminal)
    return status, b"".join(out), b"".join(seen).decode()


def on_screen(text):
    """The lines that stand on a screen after a text in which lines are wiped."""
    return "\n".join(line.split("\r\x1b[K")[-1] for line in text.split("\n"))


def numbers(text):
    return [tuple(int(n.replace(",", "")) for n in found) for found in LINE.findall(text)]


status, out, seen = ran(capture)
told = numbers(seen)
held("the listing beside a line of progress", (status, out == listing), (0, True))
held("progress is told", len(told) > 0)
held("nothing else is told", LINE.sub("", seen), "\r\x1b[K")
held("the progress makes sense", all(done <= every == size for done, every, _ in told) and told == sorted(told))
held("the line is wiped", on_screen(seen), "")
status, out, seen = ran(capture, both=True)
held("progress among the lines of a listing", (status, on_screen(seen) == listing.decode(), len(numbers(seen)) > 0), (0, True, True))
status, out, seen = ran("--quiet", capture)
held("quiet", (status, out == listing, seen), (0, True, ""))
with open(capture, "rb") as source:
    status, out, seen = ran(source=subprocess.Popen(["cat"], stdin=source, stdout=subprocess.PIPE).stdout)
held("from a pipe", (status, out == listing, seen), (0, True, ""))
run = subprocess.run([ROOT + "/icmp6dump", capture], capture_output=True)
held("no terminal", (run.returncode, run.stdout == listing, run.stderr), (0, True, b""))
sys.exit(ended())
