#!/usr/bin/env python3
"""Respells a repository's own antt names (lowerCamel -> snake_case, Type·word -> TypeWord), once, right after the kit's port.py.

usage: respell.py [--check] [--names FILE] [--no-dots] [--docs]      at the top of the repository
  --check      writes nothing: prints the table's size and the collisions
  --names FILE rows OLD<tab>NEW that go before what the script makes of OLD (OLD<tab>OLD keeps a name): decisions by hand on collisions (default: respell.names.tsv beside this script)
  --no-dots    leaves names as Record·put
  --docs       turns nothing but the code spans of *.md (README, docs/): each name that no file declares any more, where its new spelling is declared
               (also what port.py turned: planOf -> plan_of, same-bytes -> same_bytes, _then_ -> ◌then◌). To be run at any time after the names have turned
It goes over crates/*/specs, crates/*/proofs (code, and code spans of comments), the clauses and `ghost use` of crates/*/src,
and crates/*/must-fail/*.edit (text). No Rust item, string, file or folder changes its name. A collision leaves the OLD name as it is.
The table that was applied is left in respell.tsv in the temporary folder. The engine is the kit's own snake.py (clauses, `as` items, layout of blocks).
"""
import collections, glob, importlib.util, os, re, subprocess, sys, tempfile

ENGINE = os.path.dirname(subprocess.run(["rt", "doc"], capture_output=True, text=True).stdout.strip()) + "/port/notes/2026-11-18-names-are-in-snake-case/snake.py"
WORD = re.compile(r'[^\s(){}.;,@"«»]+')
QUIET = re.compile(r'"(?:[^"\\\n]|\\.)*"|(?<![^\s(){}.;,@"«»])--[^\n]*|\{-.*?-\}', re.S)
DECL = re.compile(r'^[ \t]*(?:where |let )?((?:(?:abbrev|unfoldable|pub|data|record|opaque|private) )*)([^\s(){}.;,@"«»:]+)(?: [({][^:]*?:[^\n]*?[)}])* :(?= |$)', re.M)
RESERVED = set("as in data open record where let elim module use mod pub abbrev unfolding unfoldable rw simp search grind cc omega by do do_ if then else infixl infixr infix syntax ruleset".split())


def engine():
    spec = importlib.util.spec_from_file_location("snake", ENGINE)
    m = importlib.util.module_from_spec(spec)
    sys.dont_write_bytecode = True
    spec.loader.exec_module(m)
    return m


def part(p):
    # (a fact or a variant keeps its capital in a name: is_Known, get_IsSound)
    if not re.match(r"[a-z]", p) or not re.search(r"[a-z0-9'][A-Z]", p) or re.search(r"_[A-Z]", p):
        return p
    p = re.sub(r"(?<=[a-z0-9'])(?=[A-Z])", "_", p)
    p = re.sub(r"(?<=[A-Z])(?=[A-Z][a-z])", "_", p)
    return p.lower()


def respelled(w, dots=True):
    if w.startswith("#"):
        return w
    if dots and re.fullmatch(r"[A-Z]\w*·\w+", w):
        a, b = w.split("·")
        return a + b[:1].upper() + b[1:]
    return "".join(part(p) for p in re.split(r"([-◌·])", w))


def bare_words(t):
    """The words that stand alone or begin a dotted name: no path of a `use`, no field behind a dot. A `use A.B.c` without braces binds c."""
    t = re.sub(r"\buse [^\s{;]+\.\{", "use {", t)
    t = re.sub(r"\buse ([^\s{;]+) as ", "use ", t)
    t = re.sub(r"\buse (?:[^\s{;.]+\.)+([^\s{;.]+)", r"use \1", t)
    return {m[0] for m in WORD.finditer(t) if t[m.start() - 1 : m.start()] != "."}


def blank(t):
    return QUIET.sub(lambda m: re.sub(r"[^\n]", " ", m[0]), t)


def antt_files(root):
    return sorted(f for k in ("specs", "proofs") for f in glob.glob(f"{root}/crates/*/{k}/**/*.antt", recursive=True))


def rt_files(root):
    return sorted(glob.glob(f"{root}/crates/*/src/**/*.rt", recursive=True))


def rt_parts(E, text):
    """(clauses and ghost uses, the rest) of a .rt file, as the engine cuts them."""
    cl, rest, at, typed = [], [], 0, False
    while at < len(text):
        m = E.RUST.match(text, at)
        word, end = m[0], m.end()
        c = E.CLAUSE.match(text, at) if word in ("requires", "ensures", "ghost") else E.DEFAULT.match(text, at) if typed and word == "=" else None
        u = E.GHOST_USE.match(text, at) if word == "ghost" else None
        if c and E.closing(text, c.end()):
            end, typed = E.closing(text, c.end()), ":" in c[0]
            cl.append(text[c.end():end])
        elif u:
            end = u.end()
            cl.append(u[0])
        else:
            typed = typed and (word.isspace() or word == "}")
            rest.append(" " if word[:2] in ("//", "/*") or word[-1:] == '"' else word)
        at = end
    return " ".join(cl), "".join(rest)


def turn_docs(root, hand, check):
    """Turns names in the code spans of *.md, by what is declared now. CRATE.specs.FILE.NAME by that file, a bare name by all files."""
    at, every, told = collections.defaultdict(set), set(), collections.Counter()
    rust = set()
    for f in antt_files(root):
        t = blank(open(f, encoding="utf-8").read())
        crate, kind, *module = os.path.relpath(f, root + "/crates")[: -len(".antt")].split("/")
        heads = {m[0].strip() for m in re.finditer(r"(?m)(?:^|(?<=[\s({]))[^\s(){}.;,@\"«»:]+(?= :(?:\s|$))|(?<=record )\S+|(?<=data )\S+", t)}
        heads |= {w for m in re.finditer(r"(?m)^[ \t]*(?:pub |abbrev |unfoldable |opaque )*([^\n:=]*) :(?: |$)", t) for w in m[1].split()}
        at[crate, kind, ".".join(module)] |= heads
        every |= heads
    for f in rt_files(root):
        rust |= set(re.findall(r"\w+", open(f, encoding="utf-8").read()))

    def forms(w):
        for x in (hand.get(w), respelled(w), respelled(w).replace("-", "_"), w.replace("-", "_"), w.lower() if "-" in w else None):
            if x and x != w:
                yield x
                if re.fullmatch(r"_.+_", x):
                    yield "◌" + respelled(x[1:-1]) + "◌"
        if re.fullmatch(r"_.+_", w):
            yield "◌" + respelled(w[1:-1]) + "◌"

    def word(m):
        w = m[0]
        d = re.fullmatch(r"(\w+)\.(specs|proofs)\.([A-Z][\w.]*?)\.([^\s.]+)", w)
        if d:
            have = at.get((d[1], d[2], d[3]))
            if have is None or d[4] in have:
                return w
            for x in forms(d[4]):
                if x in have:
                    told["turned"] += 1
                    return w[: -len(d[4])] + x
            told[f"  not declared: {w}"] += 1
            return w
        if "." in w or w in every or w in rust:
            return w
        for x in forms(w):
            if x in every:
                told["turned"] += 1
                return x
        return w

    pages = 0
    for f in subprocess.run(["git", "ls-files", "*.md"], cwd=root, capture_output=True, text=True).stdout.split():
        p = os.path.join(root, f)
        old = open(p, encoding="utf-8").read()
        # (a span that is a command, a path or C is left: its words have no other spelling that is declared)
        new = re.sub(r"`[^`\n]+`", lambda m: re.sub(r"[^\s(){};,@\"«»`:|/]+", word, m[0]), old)
        if new != old:
            pages += 1
            if not check:
                open(p, "w", encoding="utf-8").write(new)
    print(f"respell: {told.pop('turned', 0)} names in {pages} pages")
    for k in sorted(told):
        print(k)
    return 0


def main(argv):
    check, dots, docs = "--check" in argv, "--no-dots" not in argv, "--docs" in argv
    root = subprocess.run(["git", "rev-parse", "--show-toplevel"], capture_output=True, text=True).stdout.strip() or "."
    hand = {}
    names = argv[argv.index("--names") + 1] if "--names" in argv else os.path.join(os.path.dirname(os.path.abspath(__file__)), "respell.names.tsv")
    if os.path.exists(names):
        for l in open(names, encoding="utf-8"):
            if l.strip() and not l.startswith("# "):
                a, b = l.rstrip("\n").split("\t")[:2]
                hand[a] = b
    if docs:
        return turn_docs(root, hand, check)
    E = engine()
    code = {f: blank(open(f, encoding="utf-8").read()) for f in antt_files(root)}
    parts = {f: rt_parts(E, open(f, encoding="utf-8").read()) for f in rt_files(root)}
    words = {f: set(WORD.findall(t)) for f, t in code.items()}
    bare = {f: bare_words(t) for f, t in code.items()}
    for f, (c, _) in parts.items():
        words[f], bare[f] = set(WORD.findall(c)), bare_words(c)
    declared, where = collections.Counter(), collections.defaultdict(set)
    for f, t in code.items():
        for m in DECL.finditer(t):
            declared[m[2]] += 1
            where[m[2]].add(f)
        for m in re.finditer(r"^[ \t]*(?:abbrev |unfoldable |pub |opaque )*(?:record|data) ([^\s(){}.;,@\"«»:]+)", t, re.M):
            declared[m[1]] += 1
            where[m[1]].add(f)
    foreign = set()  # names imported from elsewhere than this repository's crates
    own = {os.path.basename(p) for p in glob.glob(f"{root}/crates/*")}
    for f, t in list(code.items()) + [(f, c) for f, (c, _) in parts.items()]:
        for m in re.finditer(r"\buse ([^\s{;]+?)\.\{([^}]*)\}", t):
            head = m[1].split(".")
            if not (head[0] == "Rattle" and len(head) > 1 and head[1] in own):
                foreign |= {w.split(" as ")[0].strip() for w in m[2].split(",")}
    table, left = {}, []
    everything = set().union(*words.values()) | set(declared)
    for w in sorted(everything):
        new = hand.get(w, respelled(w, dots))
        if new == w:
            continue
        if w in foreign and w not in hand:
            left.append((w, new, "imported from outside the repository: kept"))
            continue
        if "·" in w and w not in declared and w not in hand:
            left.append((w, new, "not declared here (a name that Rattle made?): kept"))
            continue
        table[w] = new
    # the parts of a mixfix name are written alone, at its uses
    for w in [w for w in table if "◌" in w]:
        for a, b in zip(w.split("◌"), table[w].split("◌")):
            if a and a != b:
                table.setdefault(a, b)
    # a mixfix name whose parts port.py turned at its uses alone: ◌orElse◌ beside `a or_else b` (the row above mends the declaration)
    back = collections.defaultdict(list)
    for a, b in table.items():
        back[b].append(a)
    bad = {}
    for b, olds in back.items():
        if len(olds) > 1:
            for a in olds:
                bad[a] = f"falls together with {[o for o in olds if o != a]}"
    params = re.compile(r"(?<![\w.])(\w+)\s*:(?!:)")
    for a, b in table.items():
        if b in RESERVED:
            bad[a] = f"{b} is reserved"
        for f, ws in words.items():
            if a not in ws and not (("◌" in a) and a.strip("◌") in ws):
                continue
            if b in bare[f] and a not in hand:
                d = "declared there" if f in where.get(b, ()) else "imported or bound there"
                bad.setdefault(a, f"{b} is {d} already: {os.path.relpath(f, root)}")
            if f in parts:
                rest = parts[f][1]
                if re.search(rf"\bfn {re.escape(b)}\b", rest):
                    left.append((a, b, f"also a function of {os.path.relpath(f, root)} (allowed: a clause reads the definition)"))
                for m in params.finditer(rest):
                    if m[1] == b and a not in hand:
                        bad.setdefault(a, f"{b} is a parameter, field or local of {os.path.relpath(f, root)} (would hide it there)")
                        break
    for a in bad:
        if a not in hand:
            table.pop(a, None)
    print(f"respell: {len(table)} names turn; {len(bad)} collide and are left (decide in --names FILE: OLD<tab>NEW):")
    for a, why in sorted(bad.items()):
        print(f"  {a}\t{respelled(a, dots)}\t# {why}")
    print("respell: note:")
    for a, b, why in sorted(set(left)):
        print(f"  {a} -> {b}: {why}")
    with open(os.path.join(tempfile.gettempdir(), "respell.tsv"), "w", encoding="utf-8") as f:
        f.write("".join(f"{a}\t{b}\n" for a, b in sorted(table.items())))
    if check:
        return 0
    T = E.Turner(dict(table), "file", set(), [])
    n = 0
    for f in list(code) + list(parts):
        old = open(f, encoding="utf-8").read()
        kind = "antt" if f.endswith(".antt") else "rt"
        T.only_after_dot, T.kept = set(), set()
        new = getattr(T, kind)(old, f)
        if len(new) != len(old):
            new, _ = E.realigned(old, new)
        if new != old:
            n += 1
            open(f, "w", encoding="utf-8").write(new)
    e = 0
    for f in sorted(glob.glob(f"{root}/crates/*/must-fail/*.edit")):
        old = open(f, encoding="utf-8").read()
        new = "\n".join(WORD.sub(lambda m: table.get(m[0], m[0]), l) if l.startswith(("old:", "new:")) else l for l in old.split("\n"))
        if new != old:
            e += 1
            open(f, "w", encoding="utf-8").write(new)
    print(f"respell: {n} .antt and .rt files, {e} edits changed; look: {len([s for s in T.said if 'outside a clause' in s])} names stand outside a clause in .rt:")
    for s in T.said[:40]:
        print("  " + s)
    rest = collections.Counter(w for f in antt_files(root) for w in WORD.findall(blank(open(f, encoding='utf-8').read())) if re.search(r"(?:^|[-◌])[a-z][a-z0-9]*[A-Z]", w))
    print("respell: lowerCamel words left in antt:", dict(rest.most_common(40)))
    print("respell: now `rt fmt` in each crate's folder")
    return 0


if __name__ == "__main__":
    sys.exit(main(sys.argv[1:]))
