"""calls.py PAGE: the tables of what bench/calls measured, printed and written into PAGE between their marks. Run in target/bench_calls. It fails where the
library misses an aim of PAGE, and where a call takes more than 1.2 times what the best plain C does and PAGE does not say why.

The stack of a call is read from the code: what a function pushes and reserves, the part below its stack pointer that it uses (the red zone of the
x86-64 ABI), and the deepest of what it calls. No call is indirect, and none comes back to itself but those of CYCLE, which is tested; what is read of
these is held to what a run was seen to write to (stack.txt)."""
import re
import sys
from functools import cached_property

SETS = {"library": "this library", "kernel": "for kernels", "O2": "gcc -O2", "O3": "gcc -O3", "clang": "clang -O3"}
PLAIN = ["O2", "O3", "clang"]
ORDER = ("decode verify verify_by_fours receive step read_message preference read_prefix read_mtu read_link_layer_address read_redirected_header read_route "
         "read_dns chain write write_clearing write_keeping write_in_place write_in_place_clearing put_prefix put_mtu put_link_layer_address updated_checksum "
         "change_word sum sum_pseudo sum_push sum_join index_build index_append index_first index_next plan check_plan plan_message").split()
NEAR = 1.2  # of the best plain C
AIM_ONE, AIM_HOST, HOST = 4096, 8192, "these and the eight readers"  # bytes of code and constants that a program links; the second of the library alone
# the functions that come back to themselves, and how often each is entered at most: a packet and eight levels have nine messages, and the ninth quote is
# refused (docs/RULES.md Q11)
CYCLE = {"quotes::message": 9, "quotes::quote": 9}
missed = []


# ---- instructions
def counts(name):
    return {int(line.split()[0]): int(line.split()[2]) for line in open(f"{name}.counts")}


def measured():
    """Each line of the run: table, call, input, edition, and the instructions of each set. Of a call the two instructions of the call that does nothing
    are its own; of a caller's loop all are counted."""
    nothing, sets = counts("nothing"), {name: counts(name) for name in SETS}
    for line in open("library.answers"):
        number, table, call, on, edition, loop = line.split(";")[:6]
        n = int(number)
        yield table, call, on, edition, {name: of[n] - nothing[n] + (0 if loop == "1" else 2) for name, of in sets.items()}


def instructions(lines):
    """The rows of a table, those of a call together."""
    rows = ["| call | on | " + " | ".join(SETS.values()) + " | to the best C |", "|---|---|" + "---|" * (len(SETS) + 1)]
    for _, call, on, _, told in sorted(lines, key=lambda line: ORDER.index(line[1])):
        ratio = told["library"] / min(told[name] for name in PLAIN)
        if ratio > NEAR and not re.search(rf"^\| [^|]*`{call}`[^|]* \| \S", reasons, re.M):
            missed.append(f"{call}, {on}: {ratio:.2f} of the best plain C, and no reason is given")
        cells = [f"{told[name]:,}" for name in SETS] + [f"**{ratio:.2f}**" if ratio > NEAR else f"{ratio:.2f}"]
        rows.append(f"| `{call}` | {on} | " + " | ".join(cells) + " |")
    return rows


# ---- code and stack
class Archive:
    """The code of an archive, each function by the object that it stands in and its section."""

    def __init__(self, name):
        self.name, self.code, object_, section = name, {}, "", None
        self.elf = open(f"{name}.elf").read()
        for line in open(f"{name}.dis"):
            if m := re.match(r"(\S+):\s+file format", line):
                object_ = m[1]
            elif m := re.match(r"Disassembly of section \.text\.?(.*):", line):
                section = object_, m[1]
                self.code[section] = []
            elif section and (m := re.match(r"\s+([0-9a-f]+):\s+(.*)", line)):
                self.code[section].append((int(m[1], 16), m[2]))
        self.known = {}

    @cached_property
    def uses(self):
        return {f: self.called(f) for f in self.code}

    def called(self, f):
        found = set()
        for _, text in self.code[f]:
            assert not re.match(r"(call|jmp)\s+\*(?!%r)", text) and not re.match(r"call\s+\*", text), f"{f} calls through a pointer"
            if target := re.search(r"R_X86_64_PLT32\s+(?:\.text\.)?(\S+?)[-+]0x\w+$", text):
                found.add((f[0], target[1]))
            elif re.match(r"call\s", text):  # without a relocation: within its own section, which is one function
                assert int(text.split()[1], 16) == self.code[f][0][0], f"{f} calls into its middle"
                found.add(f)
        assert found <= set(self.code), (f, found - set(self.code))
        return found

    def frame(self, f):
        """What a function pushes and reserves, and how far it goes below its stack pointer."""
        texts = [text for _, text in self.code[f]]
        pushed = {t for t in texts if t.startswith("push")}
        reserved = [int(m[1], 16) for t in texts if (m := re.match(r"sub\s+\$0x(\w+),%rsp", t))]
        reserved += [128 for t in texts if re.match(r"add\s+\$0xffffffffffffff80,%rsp", t)]  # which is a byte shorter
        red = [int(m[1], 16) for t in texts if (m := re.search(r"-0x(\w+)\(%rsp", t))]
        return 8 * len(pushed) + max(reserved, default=0), max(red, default=0)

    def reached(self, f):
        found, todo = {f}, [f]
        while todo:
            for g in self.uses[todo.pop()] - found:
                found.add(g)
                todo.append(g)
        return found

    def depth(self, f):
        """With the address to return to; of a cycle, every function as often as it is entered, and then the deepest of what is called from it."""
        if f not in self.known:
            own = {g for g in self.reached(f) if f in self.reached(g)}
            assert {g[1] for g in own} <= set(CYCLE) or own == {f} and f not in self.uses[f], f"{sorted(own)} come back to themselves"
            below = [self.frame(g)[1] for g in own] + [self.depth(h) for g in own for h in self.uses[g] - own]
            self.known[f] = sum(CYCLE.get(g[1], 1) * (8 + self.frame(g)[0]) for g in own) + max(below)
        return self.known[f]

    def stack(self, call):
        return next(self.depth(f) for f in self.code if f[1] == call)

    @cached_property
    def links(self):
        """What a program links that makes a call, or several: bytes of code and of constants."""
        return {name: (int(code), int(constants)) for name, code, constants in (line.strip().split(";") for line in open(f"{self.name}.links"))}

    def relocations(self):
        return sorted(set(re.findall(r"R_X86_64_\w+", self.elf)))

    def asks(self):
        return [line for line in open(f"{self.name}.asks") if " U " in line]


def sizes(library, kernel):
    rows = ["| | code | constants | stack | for kernels: code | constants | stack |", "|---|---|---|---|---|---|---|"]
    ones = [f"`brothladder_{c}`" for c in ORDER]
    for name in ones + [n for n in library.links if not n.startswith("`brothladder_")]:
        cells = []
        for archive in (library, kernel):
            cells += [f"{n:,}" for n in archive.links[name]] + [f"{archive.stack(name.strip('`')):,}" if name in ones else ""]
        rows.append(f"| {name} | " + " | ".join(cells) + " |")
    return rows


def notes(library, kernel):
    seen = [tuple(map(int, line.split())) for line in open("stack.txt")]
    chain = library.stack("brothladder_chain")
    assert all(used <= chain for used, _ in seen), f"the chain was seen to write to {max(seen)[0]} bytes of stack, and its code says {chain}"
    xmm = sum("%xmm" in text for lines in library.code.values() for _, text in lines)
    red = sorted({f[1] for f in library.code if library.frame(f)[1]})
    inner = sorted(f for f in library.code if f[1] in CYCLE)
    plain = ", ".join(f"{SETS[name]} {int(n):,}" for name, n in (line.split() for line in open("plain.sizes")))
    return (f"Symbols asked of the outside (`nm -u`): {len(library.asks() + kernel.asks()) or 'none'}. Relocations: {', '.join(library.relocations())}; for "
            f"kernels {', '.join(kernel.relocations())}. Writable data: none. Instructions on the registers xmm0 to xmm15: {xmm}. Functions that use the red "
            f"zone: {', '.join('`' + f + '`' for f in red) or 'none'}. Of `brothladder_chain` "
            f"{' and '.join(f'`{f[1]}` takes {8 + library.frame(f)[0]} bytes' for f in inner)} for each message, nine at most; a run was seen to write to "
            f"{max(seen)[0]:,}. Plain C, code and constants of all calls together: {plain}.")


def aims(library, kernel):
    if sum(library.links[HOST]) >= AIM_HOST:
        missed.append(f"{HOST} have {sum(library.links[HOST]):,} bytes")
    for archive in (library, kernel):
        ones = {c: sum(archive.links[f"`brothladder_{c}`"]) for c in ORDER}
        missed.extend(f"{archive.name}: {c} has {n:,} bytes" for c, n in ones.items() if n >= AIM_ONE)
        missed.extend(f"{archive.name}: {c} takes {archive.stack('brothladder_' + c):,} bytes of stack" for c in ORDER
                      if archive.stack("brothladder_" + c) >= (2048 if c == "chain" else 512))
        missed.extend(f"{archive.name} asks for {line.split()[-1]}" for line in archive.asks())
    missed.extend(f"relocation {r}" for r in library.relocations() if r not in ("R_X86_64_PC32", "R_X86_64_PLT32"))


page = open(sys.argv[1]).read()
reasons = page.split("<!-- bench/calls looks for a reason from here -->\n")[1].split("<!-- reasons to here -->")[0]
lines = list(measured())
measured_calls = {call for _, call, *_ in lines}
assert measured_calls == set(ORDER) == {line.strip().removeprefix("brothladder_") for line in open("calls.txt") if "version" not in line}, "a call is not measured"
library, kernel = Archive("library"), Archive("kernel")
tables = {name: instructions([line for line in lines if line[0] == name and line[3] == "1"]) for name in dict.fromkeys(line[0] for line in lines)}
tables["second"] = instructions([line for line in lines if line[3] == "2"])
tables["size"] = sizes(library, kernel) + ["", notes(library, kernel)]
for mark, table in tables.items():
    start, end = f"<!-- bench/calls writes {mark} from here -->\n", f"<!-- {mark} to here -->\n"
    head, rest = page.split(start)
    page = head + start + "\n" + "\n".join(table) + "\n\n" + end + rest.split(end)[1]
    print("\n".join(table), end="\n\n")
open(sys.argv[1], "w").write(page)
aims(library, kernel)
if missed:
    sys.exit("\n".join(f"bench/calls: {x}" for x in missed))
