#!/usr/bin/env python3
"""test_header.py: tools/header and tests/c/layout.c see what they are there for. Each mistake is made on a copy of the files that they read, and
one of the two must fail. The last line counts."""
import os
import re
import shutil
import subprocess
import sys
import tempfile

root = os.path.dirname(os.path.dirname(os.path.dirname(os.path.abspath(__file__))))
HEADER, PREFIX, DECODE, STEP, QUOTES, INDEX, SPLIT, ANSWER, VERSION, SUMMED, MESSAGE = "include/brothladder.h", *(
    f"crates/c_{c}/src/lib.rt" for c in ("prefix", "decode", "step", "quotes", "index", "split", "answer", "version", "summed", "message"))
EDITIONS = "crates/ndp_options/specs/Editions.antt"


def copied(to):
    for folder in ("include", "tests/c"):
        shutil.copytree(f"{root}/{folder}", f"{to}/{folder}")
    for crate in sorted(os.listdir(root + "/crates")):
        if crate.startswith("c_"):
            shutil.copytree(f"{root}/crates/{crate}/src", f"{to}/crates/{crate}/src")
        elif crate in ("refusal", "ndp_options", "icmpv6_type", "router_preference"):
            shutil.copytree(f"{root}/crates/{crate}/specs", f"{to}/crates/{crate}/specs")
    os.makedirs(to + "/tools")
    os.makedirs(to + "/docs")
    for file in ("tools/header", "tools/rattle_source.py", "tools/text_table.py", "tools/texts.txt", "docs/DUMP.md", "crates.txt"):
        shutil.copy(f"{root}/{file}", f"{to}/{file}")


def seen(to):
    """Which of the two fails over the copy."""
    cc = shutil.which("x86_64-linux-gnu-gcc") or shutil.which("gcc")  # for x86-64
    layout = [cc, "-std=c99", "-Wall", "-Wextra", "-Wpedantic", "-Werror", "-fsyntax-only", "-Iinclude", "tests/c/layout.c"]
    return [name for name, run in (("header", [sys.executable, "tools/header"]), ("layout", layout)) if subprocess.run(run, cwd=to, capture_output=True).returncode]


def exchanged(a, b):
    """Two pieces of a file change places."""
    def change(text):
        assert text.count(a) == 1 and text.count(b) == 1, (a, b)
        return text.replace(a, "\0").replace(b, a).replace("\0", b)
    return change


def instead(a, b):
    """One piece of a file for another, however its lines are broken."""
    def change(text):
        found = re.findall(re.sub(r"(\\ )+", r"\\s+", re.escape(a)).replace(r"\(", r"\(\s*"), text)
        assert len(found) == 1, (a, found)
        return text.replace(found[0], b)
    return change


def fields(a, b):
    """The indexes of two fields change places."""
    def change(text):
        numbers = [re.search(rf"#define BROTHLADDER_FIELD_{n} (\d)", text).group(1) for n in (a, b)]
        for name, number in ((a, numbers[1]), (b, numbers[0])):
            text = re.sub(rf"(#define BROTHLADDER_FIELD_{name}) \d", rf"\1 {number}", text)
        return text
    return change


lifetimes = {HEADER: exchanged("uint32_t valid_lifetime;", "uint32_t preferred_lifetime;"), PREFIX: exchanged("pub valid_lifetime: u32", "pub preferred_lifetime: u32")}
places = {HEADER: exchanged("    size_t at;    ", "    size_t next;"), STEP: exchanged("pub at: usize", "pub next: usize")}
place = {HEADER: exchanged("    size_t at;    /* the option is options[at] to options[at + length - 1] */", "    size_t place; /* where the option begins in the packet: offset + at */"), STEP: exchanged("pub at: usize", "pub place: usize")}
levels = {HEADER: exchanged("    uint8_t next_header[8];", "    uint8_t level_kind[8];"), QUOTES: exchanged("pub next_header: [u8; 8]", "pub level_kind: [u8; 8]")}
nine = {HEADER: instead("uint32_t quote[8];", "uint32_t quote[9];"), QUOTES: instead("pub quote: [u32; 8]", "pub quote: [u32; 9]")}
wide = {HEADER: instead("uint16_t on_link;", "uint32_t on_link;"), PREFIX: instead("pub on_link: u16", "pub on_link: u32")}
entries = {HEADER: exchanged("    size_t length;  /* the list", "    size_t entries; /* and"), INDEX: exchanged("pub length: usize", "pub entries: usize")}
parts = {HEADER: exchanged("    size_t at; /* the options of", "    size_t length; /* 0 for"), SPLIT: exchanged("pub at: usize", "pub length: usize")}
addresses = {HEADER: exchanged("    size_t target_at; ", "    size_t destination_at; "), MESSAGE: exchanged("pub target_at: usize", "pub destination_at: usize")}
MISTAKES = [
    ("nothing", {}, []),
    ("two members exchanged in source and header", lifetimes, ["layout"]),
    ("two places exchanged in source and header", places, ["layout"]),
    ("index and place exchanged in source and header", place, ["layout"]),
    ("a member made wider in source and header", wide, ["layout"]),
    ("next header and kind of a level exchanged in source and header", levels, ["layout"]),
    ("a ninth quote in source and header", nine, ["layout"]),
    ("length and entries exchanged in source and header", entries, ["layout"]),
    ("numbers told as bytes in a prototype", {HEADER: instead("brothladder_index_first(const uint32_t *index", "brothladder_index_first(const uint8_t *index")}, ["header"]),
    ("numbers that are written told as read", {HEADER: instead("size_t options_length, uint32_t *index", "size_t options_length, const uint32_t *index")}, ["header"]),
    ("place and length of a part exchanged in source and header", parts, ["layout"]),
    ("target and destination of a message exchanged in source and header", addresses, ["layout"]),
    ("a packet that is written in place told as read", {HEADER: instead("brothladder_write_in_place(uint8_t type, uint8_t code, uint32_t bytes5to8, uint8_t *packet", "brothladder_write_in_place(uint8_t type, uint8_t code, uint32_t bytes5to8, const uint8_t *packet")}, ["header"]),
    ("a plan that is written told as read", {HEADER: instead("size_t limit, uint32_t *plan", "size_t limit, const uint32_t *plan")}, ["header"]),
    ("a plan of bytes in a prototype", {HEADER: instead("brothladder_plan_message(const uint8_t *options, size_t options_length, size_t limit, const uint32_t *plan", "brothladder_plan_message(const uint8_t *options, size_t options_length, size_t limit, const uint8_t *plan")}, ["header"]),
    ("two members exchanged in the header", {HEADER: lifetimes[HEADER]}, ["header", "layout"]),
    ("two members exchanged in the source", {PREFIX: lifetimes[PREFIX]}, ["header"]),
    ("the indexes of M and O exchanged", {HEADER: fields("MANAGED", "OTHER")}, ["header"]),
    ("the indexes of R and S exchanged", {HEADER: fields("ROUTER", "SOLICITED")}, ["header"]),
    ("the indexes of identifier and sequence exchanged", {HEADER: fields("IDENTIFIER", "SEQUENCE")}, ["header"]),
    ("M and O exchanged in the source", {DECODE: exchanged("h.managed_address_config", "h.other_config")}, ["header"]),
    ("an index left out", {HEADER: instead("#define BROTHLADDER_FIELD_OVERRIDE 2", "")}, ["header", "layout"]),
    ("an answer with another number", {ANSWER: instead("END: u32 = 7", "END: u32 = 13")}, ["header"]),
    ("a refusal with another number", {HEADER: instead("ZERO_LENGTH 6u", "ZERO_LENGTH 5u")}, ["header"]),
    ("two refusals of a quote exchanged", {HEADER: exchanged("SHORT_QUOTE", "QUOTE_VERSION")}, ["header"]),
    ("the refusal of a far offset with another number", {HEADER: instead("FAR_OFFSET 22u", "FAR_OFFSET 15u")}, ["header"]),
    ("offset and place exchanged in a prototype", {HEADER: instead("size_t offset, size_t at, uint32_t edition);", "size_t at, size_t offset, uint32_t edition);")}, ["header"]),
    ("the two sums of a join exchanged in its prototype", {HEADER: exchanged("struct brothladder_summed first", "struct brothladder_summed second")}, ["header"]),
    ("a sum and its parity exchanged in source and header", {HEADER: exchanged("    uint16_t sum;", "    uint16_t odd;"), SUMMED: exchanged("pub sum: u16", "pub odd: u16")}, ["layout"]),
    ("high told as low", {HEADER: instead("PREFERENCE_HIGH 1u", "PREFERENCE_HIGH 3u")}, ["header"]),
    ("an argument left out of a prototype", {HEADER: instead("read_prefix(const uint8_t *option, size_t length, size_t offset);", "read_prefix(const uint8_t *option, size_t length);")}, ["header"]),
    ("another number for the first edition", {HEADER: instead("EDITION_FIRST 1u", "EDITION_FIRST 2u")}, ["header"]),
    ("another number for the second edition", {EDITIONS: instead("edition_of n = cond (eqb n 2)", "edition_of n = cond (eqb n 3)")}, ["header"]),
    ("every number but 1 the second edition", {EDITIONS: instead("(eqb n 2) Second First", "(eqb n 1) First Second")}, ["header"]),
    ("no edition in a prototype", {HEADER: instead("size_t offset, size_t at, uint32_t edition);", "size_t offset, size_t at);")}, ["header"]),
    ("another version in the header", {HEADER: instead("VERSION 6u", "VERSION 7u")}, ["header"]),
    ("another version in the source", {VERSION: instead("VERSION: u32 = 6", "VERSION: u32 = 7")}, ["header"]),
    ("a version whose call keeps its name", {HEADER: instead("VERSION 6u", "VERSION 7u"), VERSION: instead("VERSION: u32 = 6", "VERSION: u32 = 7")}, ["header"]),
    ("no reference to the version", {HEADER: instead("(void) = brothladder_version_6;", "(void) = 0;")}, ["header"]),
    ("another name of the version's call", {HEADER: instead("VERSION_CALL brothladder_version_6", "VERSION_CALL brothladder_version_5")}, ["header"]),
    ("a text that is not the table's", {HEADER: instead("the hop limit is not 255", "the hop limit is 255")}, ["header"]),
    ("a text that is not the header's", {"tools/texts.txt": instead("a route has a prefix length above 128", "a route is too long")}, ["header"]),
    ("a number without a text", {"tools/texts.txt": instead("refusal 23 | the index is not the one that the list builds\n", "")}, ["header"]),
    ("another word in docs/DUMP.md", {"docs/DUMP.md": instead("| the code is not 0 |", "| the code is another than 0 |")}, ["header"]),
    ("a line of 101 columns", {HEADER: instead("/* The sum of some bytes. */", "/* The sum of some bytes. " + 73 * "." + " */")}, ["header"]),
    ("no licence", {HEADER: instead("/* SPDX-License-Identifier: Apache-2.0 */\n", "")}, ["header"]),
    ("another size", {HEADER: instead("SIZE(part, 64)", "SIZE(part, 72)")}, ["header", "layout"]),
    ("a struct without its size", {HEADER: instead("BROTHLADDER_SIZE(part, 64);\n", "")}, ["header"]),
    ("another common beginning", {HEADER: instead("struct brothladder_answer { uint32_t answer; uint32_t refusal;", "struct brothladder_answer {\n    uint32_t refusal;\n    uint32_t answer;")}, ["header"]),
    ("a member in the table that is not there", {HEADER: instead("plan PLANNED messages", "plan                PLANNED         parts")}, ["header"]),
    ("a call that is not in the table", {HEADER: instead(" *     preference PREFERENCE preference\n", "")}, ["header"]),
    ("an answer of the table that is none", {HEADER: instead("index_first NONE", "index_first         NOTHING")}, ["header"]),
    ("a member without its place", {"tests/c/layout.c": instead("AT(stepped, next, 72, 8);\n", "")}, ["header"]),
]
failed = 0
for what, changes, wanted in MISTAKES:
    with tempfile.TemporaryDirectory() as to:
        copied(to)
        for path, change in changes.items():
            text = open(f"{to}/{path}").read()
            open(f"{to}/{path}", "w").write(change(text))
        if (got := seen(to)) != wanted:
            failed += 1
            print(f"test_header: {what}: fails {got or 'nowhere'}, and {wanted or 'nowhere'} is wanted")
print(f"test_header: {len(MISTAKES) - failed} passed, {failed} failed")
sys.exit(failed > 0)
