#!/usr/bin/env python3
"""tests/tools/test_senders.py: tools/senders on a copy of the tree in which somebody writes by another name: it must fail and say so, and say nothing of a
comment or of another type's bytes. The last line is 'N passed, M failed'."""
import os
import shutil
import subprocess
import sys
import tempfile

ROOT = os.path.dirname(os.path.dirname(os.path.dirname(os.path.abspath(__file__))))
SENDER, STORED, BENCH, EXAMPLE = "crates/five_messages/src/main.rt", "crates/replay/src/types.rt", "bench/calls.c", "examples/c/prefixes.c"


def instead(old, new):
    def change(text):
        assert text.count(old) == 1, f"{text.count(old)} times: {old}"
        return text.replace(old, new)
    return change


def behind(more):
    return lambda text: text + more


# what is tried; what tools/senders must say, or None where all is as it must be; the files that are changed
CASES = [
    ("a sender by the default", f"{SENDER}: send writes by write_packet, and a sender clears", {SENDER: instead("let written = write_packet_clearing(", "let written = write_packet(")}),
    ("a sender by the default's other name", f"{SENDER}: send writes by write_packet_keeping", {SENDER: instead("let written = write_packet_clearing(", "let written = write_packet_keeping(")}),
    ("a sender by the default under a name of its own", f"{SENDER}: send writes by write_packet,",
     {SENDER: lambda text: instead("use writer::{write_packet, ", "use writer::{write_packet, write_packet as put_packet, ")(instead("let written = write_packet_clearing(", "let written = put_packet(")(text))}),
    ("a sender whose head is written by the default", f"{SENDER}: is_as_made writes by to_bytes,", {SENDER: instead("header.to_bytes_clearing()", "header.to_bytes()")}),
    ("a sender that seals what it kept", f"{SENDER}: is_as_made writes by sealed_keeping,", {SENDER: instead("= to_header(icmp_type,", "= icmpv6_checksum::sealed_keeping(icmp_type,")}),
    ("stored answers compared by the default", f"{STORED}: header_to_bytes writes by to_bytes,", {STORED: instead("header.to_bytes_clearing()", "header.to_bytes()")}),
    ("the bench's own advertisement by the default", f"{BENCH}: longest writes by brothladder_write,", {BENCH: instead("= brothladder_write_clearing(134", "= brothladder_write(134")}),
    ("the bench's stored frames without the clearing call", f"{BENCH}: sent writes by brothladder_write,",
     {BENCH: instead("CALL(brothladder_write_clearing, bytes,", "CALL(brothladder_write, bytes,")}),
    ("a C file that is not listed", f"{EXAMPLE} writes, and is not listed", {EXAMPLE: behind("\nstatic const void *const f = (const void *)brothladder_write_clearing;\n")}),
    ("a C header that is not listed", "examples/c/more.h writes, and is not listed", {"examples/c/more.h": behind("#define SEND brothladder_write\n")}),
    ("a crate that is not listed", "crates/dump/src/main.rt writes, and is not listed", {"crates/dump/src/main.rt": behind("\nfn f() { writer::write_packet_clearing(); }\n")}),
    ("a file of a crate whose other file is listed", "crates/replay/src/walk.rt writes, and is not listed", {"crates/replay/src/walk.rt": behind("\nfn f(h: Icmpv6Header) { h.to_bytes(); }\n")}),
    ("a head whose type is not seen", "crates/replay/src/walk.rt writes, and is not listed", {"crates/replay/src/walk.rt": behind("\nfn f() { g().to_bytes(); }\n")}),
    ("a head that a closure is handed", "crates/replay/src/walk.rt writes, and is not listed", {"crates/replay/src/walk.rt": behind("\nfn f(h: Option<Icmpv6Header>) { h.map(|g| g.to_bytes()); }\n")}),
    ("a listed function that tries no other name", f"{SENDER}: is_told_apart is listed, and writes by no other name", {SENDER: instead("= write_packet(full,", "= write_packet_clearing(full,")}),
    ("a listed file that writes nothing", "docs/C.md is listed, and writes nothing", {"docs/C.md": lambda text: text.replace("brothladder_write", "brothladder_wrote")}),
    ("a comment", None, {EXAMPLE: behind("/* brothladder_write( */ // brothladder_write(\n"), "crates/dump/src/main.rt": behind("// writer::write_packet()\n")}),
    ("the bytes of another type", None, {"crates/replay/src/walk.rt": behind("\nfn f(h: NdpOptionHeader) { let g = h; g.to_bytes(); }\n")}),
    ("the bytes of another type that a closure is handed", None, {"crates/replay/src/walk.rt": behind("\nfn f(s: &[u8]) { RedirectPayload::from_slice(s).map(|p| p.to_bytes()); }\n")}),
]

failed = []
with tempfile.TemporaryDirectory() as folder:
    tree = folder + "/tree"
    shutil.copytree(ROOT, tree, ignore=shutil.ignore_patterns("target", ".git", "__pycache__"))
    for what, words, files in [("the tree as it is", None, {}), *CASES]:
        kept = {f: open(f"{tree}/{f}").read() if os.path.exists(f"{tree}/{f}") else None for f in files}
        for f, change in files.items():
            open(f"{tree}/{f}", "w").write(change(kept[f] or ""))
        done = subprocess.run([f"{tree}/tools/senders"], cwd=tree, capture_output=True, text=True)
        said = done.stdout + done.stderr
        for f, text in kept.items():
            if text is None:
                os.remove(f"{tree}/{f}")
            else:
                open(f"{tree}/{f}", "w").write(text)
        if (done.returncode != 0) != (words is not None) or words is not None and f"senders: {words}" not in said:
            failed.append(f"{what}: tools/senders {'does not say: ' + words if words else 'fails'}\n{said[-1500:]}")
print("\n".join([f"tests/tools/test_senders: {x}" for x in failed] + [f"{len(CASES) + 1 - len(failed)} passed, {len(failed)} failed"]))
sys.exit(bool(failed))
