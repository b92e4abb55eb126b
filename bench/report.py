"""report.py PAGE: the table of what bench/run counted, printed and written into PAGE between its two marks. Run in target/bench."""
import re
import subprocess
import sys
import tempfile

MODELS = {"skylake": "Skylake", "znver3": "Zen 3"}
WHO = {"brothladder_bench_sum": "this library, `sum`", "brothladder_bench_sum_by_fours": "`sum_by_fours`",
       "brothladder_bench_sum_by_sixty_fours": "`sum_by_sixty_fours`", "brothladder_bench_sum_by_two_chains": "`sum_by_two_chains`",
       "plain": "C, the plain loop", "rfc1071": "C of RFC 1071, section 4.1", "lwip": "lwIP",
       "dpdk": "DPDK `rte_raw_cksum`", "linux_csum": "Linux `csum_partial`"}
BY = {"O2": "gcc -O2", "O3": "gcc -O3", "clang": "the toolchain's clang -O3"}


def said(*words):
    return subprocess.run(words, capture_output=True, text=True, check=True).stdout


names = dict(l.split() for l in said("qemu-x86_64", "./bench", "names").splitlines())
empty, counts, stores = {}, {}, {}
for line in open("counts.txt"):
    who, length, insns, _, stored = map(int, line.split())
    if who == 1000:
        empty[length] = (insns, stored)
    else:
        counts[names[str(who)], length] = insns - empty[length][0] + 2  # the two instructions of the empty call are its own
        stores[names[str(who)], length] = stored - empty[length][1]
lengths = sorted(empty)

# ---- modelled cycles: the executed instructions of one whole call, in order, through llvm-mca
asm, owner, now = {}, {}, None
sizes = {int(f[0], 16): int(f[1], 16) for f in map(str.split, said("x86_64-linux-gnu-nm", "-S", "bench").splitlines()) if len(f) == 4}
for line in said("x86_64-linux-gnu-objdump", "-d", "--no-show-raw-insn", "bench").splitlines():
    if m := re.match(r"([0-9a-f]+) <(.*)>:", line):
        now = int(m.group(1), 16), m.group(2)
    elif m := re.match(r"\s+([0-9a-f]+):\s+(.*)", line):
        text = re.sub(r"^(notrack|bnd) ", "", m.group(2).split("#")[0].strip())
        asm[int(m.group(1), 16)] = re.sub(r"^(j\w+|call)(,p[nt])?\s+[0-9a-f]+ <.*>", r"\1 .Lx", text)
        owner[int(m.group(1), 16)] = now


def unfold(text):
    """llvm-mca costs a chain through a folded load too high: a load within an operation is written as a load and an operation."""
    if m := re.match(r"^(add|adc|sub|sbb|and|or|xor|cmp|test|imul)([bwlq]?)\s+(\S*\([^)]*\)),(%\w+)$", text):
        op, size, mem, reg = m.groups()
        r = reg[1:]
        if not size:
            size = "l" if r.startswith("e") or r.endswith("d") else "q" if r.startswith("r") and r[-1] not in "wb" else "w" if r.endswith(("w", "x")) else "b"
        spare = {"q": "%r15", "l": "%r15d", "w": "%r15w", "b": "%r15b"}[size]
        return [f"mov {mem},{spare}", f"{op} {spare},{reg}"]
    if m := re.match(r"^(p\w+)\s+(\S*\([^)]*\)),(%xmm\d+)$", text):
        return [f"movdqa {m.group(2)},%xmm15", f"{m.group(1)} %xmm15,{m.group(3)}"]
    return [text]


def modelled(length):
    """of each call: the cycles by the model and processor, and the bytes of code of the functions that it goes through"""
    found, code = {}, {}
    for line in open("trace.txt"):
        who, n, *pcs = line.split()
        if int(n) != length or who not in names:
            continue
        own = [int(p, 16) for p in pcs if owner[int(p, 16)][1].split(".")[0] not in ("one", "main", "empty")]
        code[names[who]] = sum(sizes[at] for at in {owner[p][0] for p in own})
        with tempfile.NamedTemporaryFile("w", suffix=".s") as f:
            f.write("\n".join(t for p in own if not asm[p].startswith(("ret", "call")) for t in unfold(asm[p])) + "\n")
            f.flush()
            for cpu in MODELS:
                told = said("llvm-mca", "-mtriple=x86_64-linux-gnu", "-mcpu=" + cpu, "-iterations=1", "-all-views=0", "-summary-view", f.name)
                found[names[who], cpu] = int(re.search(r"Total Cycles:\s+(\d+)", told).group(1))
    return found, code


cycles, code = modelled(1280)
rows = ["| | by | " + " | ".join(f"{n:,}" for n in lengths) + " | a byte at 1,280 | " + " | ".join(MODELS.values()) + " | stores | code |",
        "|---|---|" + "---|" * (len(lengths) + len(MODELS) + 3)]
for name in names.values():
    who, by = (name, "Rattle") if name in WHO else (name.rsplit("_", 1)[0], BY[name.rsplit("_", 1)[1]])
    cells = [WHO[who], by] + [f"{counts[name, n]:,}" for n in lengths] + [f"{counts[name, 1280] / 1280:.2f}"]
    cells += [f"{cycles[name, cpu]:,}" for cpu in MODELS] + [f"{stores[name, 1280]:,}", f"{code[name]:,}"]
    rows.append("| " + " | ".join(cells) + " |")
table = "\n".join(rows) + "\n\n" + "Built from: " + "; ".join(l.strip() for l in open("versions.txt")) + "."
print(table)
page = open(sys.argv[1]).read()
start, end = "<!-- bench/run writes from here -->\n", "<!-- to here -->\n"
head, rest = page.split(start)
open(sys.argv[1], "w").write(head + start + "\n" + table + "\n\n" + end + rest.split(end)[1])
for n in (1280, 65535):
    mine, theirs = counts["brothladder_bench_sum", n], counts["plain_clang", n]
    print(f"{n} bytes: {mine} instructions, the plain loop in C by the toolchain's clang {theirs}")
    if mine > theirs or stores["brothladder_bench_sum", n]:
        sys.exit("the sum needs more than the plain loop, or uses the stack")
