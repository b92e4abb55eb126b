"""boards.py MODULE.ll ROOT..: the functions of a module of LLVM that the roots reach, for a machine of 32 bits, printed.

The toolchain makes its intermediate code for x86-64, where a length and an index (`usize`) have 64 bits. A board has words of 32 bits. So each value
of 64 bits becomes one of 32, unless it is made of something narrower: whatever a byte, a word or a total was widened to stays at 64 bits, and with it
all that it is added to, compared with, stored in or handed over as. What is left at 64 bits is then data, and a compiler for a board must take two
words for it.

`rt try` adds checks to the code that it compiles, some of them in 128 bits. They are taken out first."""
import re
import sys

NAME = r'@(?:"[^"]+"|[\w.$]+)'
VALUE = r"(?:%[\w.]+|-?\d+)"
MADE = re.compile(r"\s*(?:(%\S+) = )?(?:tail )?(\w+)")
SAME = {"add", "sub", "mul", "udiv", "urem", "sdiv", "srem", "and", "or", "xor", "shl", "lshr", "ashr", "icmp", "select", "phi", "switch"}
ASIDE = re.compile(r'call void @"rattle-(?:llvm-checks|try)::|call void @llvm\.memset\.\w+\.i64\(ptr %\S+, i8 -86, ')
PURE = SAME - {"phi", "switch"} | {"alloca", "load", "zext", "sext", "trunc", "getelementptr", "ptrtoaddr"}
MEMORY = "memory"  # the one kind of all values of 64 bits that are read from or written to memory, the lengths of slices among them


def functions(text):
    """name: (first line, lines) of each function with a body."""
    found = re.findall(rf"^(define [^\n]*?({NAME})\([^\n]*\{{)\n(.*?)^\}}\n", text, re.M | re.S)
    return {name: (head, body.split("\n")[:-1]) for head, name, body in found}


def unchecked(lines):
    """The lines of a function without the checks that `rt try` adds, the filling of fresh memory among them, and without what is computed for these alone."""
    lines = [x for x in lines if not ASIDE.search(x)]
    while True:
        used = set(re.findall(r"%[\w.]+", "\n".join(re.sub(r"^\s*%\S+ = ", "", x) for x in lines)))
        kept = [x for x in lines if not ((m := MADE.match(x)) and m[1] and m[2] in PURE and m[1] not in used)]
        if kept == lines:
            return lines
        lines = kept


def reached(code, roots):
    seen, todo = [], list(roots)
    while todo:
        f = todo.pop()
        if f not in seen and f in code:
            seen.append(f)
            todo += re.findall(NAME + r"(?=\()", "\n".join(code[f][1]))
    return seen


class Kinds:
    """Values of 64 bits, put together where they must have one width."""

    def __init__(self):
        self.up, self.wide = {}, set()

    def of(self, key):
        while key in self.up:
            key = self.up[key]
        return key

    def join(self, keys):
        first, *others = [self.of(k) for k in keys] or [None]
        for k in others:
            if k != first:
                self.up[k] = first

    def is_wide(self, key):
        return self.of(key) in {self.of(k) for k in self.wide}


def parameters(head):
    inside = head[head.index("(", head.index("@")) + 1:head.rindex(")")]
    return [p.split() for p in inside.split(", ") if p]


def handed(code, f, line):
    """The keys of the `i64`s of a call: what the called function has them as."""
    callee = re.search(NAME + r"(?=\()", line)[0]
    assert callee in code, f"not understood: {line}"
    given = line[line.index("(", line.index(callee)) + 1:line.rindex(")")].split(", ")
    pairs = [((callee, a[-1]), g.split()[-1]) for a, g in zip(parameters(code[callee][0]), given) if a[0] == "i64"]
    if " call i64 " in line:
        pairs.insert(0, ((callee, "answer"), line.split()[0]))
    return [k for k, _ in pairs], [[k, (f, v)] for k, v in pairs if v.startswith("%")]


def of_line(f, line, place):
    """The keys of the `i64`s of a line that is no call and no address; all of them have one width."""
    made, what = MADE.match(line).groups()
    value = lambda v: (f, v) if v.startswith("%") else None
    if what == "alloca":
        return [place(made)]
    if what == "load":
        return [value(made), place(re.search(r"ptr (%[\w.]+)", line)[1])]
    if what == "store" and (m := re.match(rf"\s*store i64 ({VALUE}), ptr (%[\w.]+)", line)):
        return [value(m[1]), place(m[2])]
    if what in SAME:
        return [value(v) for v in ([made] if made and what != "icmp" else []) + re.findall(rf"(?:i64 |, |\[ )({VALUE})(?=[,\s]|$)", line)]
    if what == "ret":
        return [(f, "answer"), value(line.split()[2])]
    if what in ("zext", "sext"):
        return [value(made)]
    assert what == "trunc", f"not understood: {line}"
    return [value(line.split(" i64 ")[1].split()[0])]


def look(code, names):
    """The kinds of all values of 64 bits of some functions, and for each line the keys of its `i64`s, in their order."""
    kinds, keys = Kinds(), {}
    for f in names:
        head, lines = code[f]
        slots = {m[1] for line in lines if (m := re.match(r"\s*(%\S+) = alloca i64\b", line))}
        # the place of such a slot is only read and written where it stands, or it is memory like any other
        used = rf"(load i64|store i64 {VALUE}), ptr "
        lent = {v for line in lines for v in slots & set(re.findall(r"ptr (%[\w.]+)", line)) if not re.search(rf"{used}{re.escape(v)}\b", line)}
        answer = [(f, "answer")] if re.search(rf"\bi64 {re.escape(f)}\(", head) else []
        keys[f, head] = answer + [(f, p[-1]) for p in parameters(head) if p[0] == "i64"]
        for line in [x for x in lines if "i64" in x]:
            what, groups = MADE.match(line)[2], []
            if what == "call" and "@llvm.mem" in line:
                assert re.search(r"i64 \d+, i1", line), f"not understood: {line}"
                continue
            if what == "call":
                keys[f, line], groups = handed(code, f, line)
            elif what == "getelementptr":
                keys[f, line] = [(f, v) if v.startswith("%") else None for v in re.findall(rf"i64 ({VALUE})", line)]
            else:
                keys[f, line] = of_line(f, line, lambda p: (f, p) if p in slots - lent else MEMORY)
                groups = [keys[f, line]]
            for group in groups:
                kinds.join([k for k in group if k])
            if what in ("zext", "sext"):
                kinds.wide.add(keys[f, line][0])
    return kinds, keys


def narrowed(kinds, keys, f, line):
    """A line with its words at 32 bits."""
    here = [k for k in keys.get((f, line), []) if k]
    if "@llvm.mem" in line or not here or all(kinds.is_wide(k) for k in here):
        return line
    what = MADE.match(line)[2]
    if what == "trunc" and line.rstrip().split(",")[0].endswith("to i32"):
        return re.sub(r"trunc (?:\w+ )*i64 (\S+) to i32", r"bitcast i32 \1 to i32", line)
    if what in ("getelementptr", "call") or line.startswith("define"):
        def each(m, todo=list(keys[f, line])):
            k = todo.pop(0)
            return m[0] if k is None or kinds.is_wide(k) else m[0].replace("i64", "i32")
        return re.sub(r"\bi64\b(?! \d+, i1)", each, line)
    return re.sub(r"\bi64\b", "i32", line)


def board(text, roots):
    code = {name: (head, unchecked(lines)) for name, (head, lines) in functions(text).items()}
    missing = [r for r in roots if r not in code]
    assert not missing, f"not in the module: {missing}"
    names = reached(code, roots)
    kinds, keys = look(code, names)
    out = []
    for f in names:
        head, lines = code[f]
        head = narrowed(kinds, keys, f, head)
        head = head.replace("define internal", "define", 1) if f in roots else head
        out += [re.sub(r" #\d+ \{$", " {", head), *[narrowed(kinds, keys, f, x) for x in lines], "}", ""]
    out += re.findall(r"^declare .*@llvm\.mem.*$", text, re.M) + re.findall(r"^!\d+ = .*$", text, re.M)
    return re.sub(r"(declare .*\)) #\d+", r"\1", "\n".join(out)) + "\n"


if __name__ == "__main__":
    print(board(open(sys.argv[1]).read(), [f'@"{r}"' for r in sys.argv[2:]]))
