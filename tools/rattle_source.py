"""rattle_source: the tree as the prover sees it, for the scripts of tools/: source without comments, every module that a `mod` leads to (files below
files, modules within files) and no other file, every declaration by its whole name. What a script cannot read is an error, never skipped."""
import dataclasses
import functools
import os
import re

ROOT = os.path.dirname(os.path.dirname(os.path.abspath(__file__)))


# ---- the tree

@functools.cache
def dependencies():
    """crates.txt: each crate, in its order, with the crates that it is built on."""
    lines = [x.split("#")[0].strip() for x in read("crates.txt").split("\n")]
    return {x.split(":")[0].split()[0]: x.split(":")[1].split() for x in lines if x}


def crates():
    return list(dependencies())


def libraries():
    """The crates of the library: each that is no program, and does not serve the programs alone."""
    return [c for c in crates() if os.path.exists(f"{ROOT}/crates/{c}/src/lib.rt") and c not in SERVING]


# the crates that read, write and print for the programs. What a file or a terminal gives no contract can say, so what they promise leaves more than one
# answer: they are no part of the library
SERVING = ("system_error", "ends")


@functools.cache
def reaches_outside(crate):
    """Whether a crate reads, writes or prints."""
    return any(re.search(r"\bstd::(io|rt|fs|env|net|process|time)\b|\b(HostRuntime|Print|Eprint)\b", rattle_code(read(f))) for f in files_below(f"crates/{crate}/src", ".rt"))


def programs():
    return [c for c in crates() if os.path.exists(f"{ROOT}/crates/{c}/src/main.rt")]


def static_libraries():
    """The crates whose functions C calls."""
    return re.findall(r"(?m)^(\w+) staticlib:", read("crates.txt"))


@functools.cache
def read(path):
    """A file of the tree, by its path from the root."""
    with open(f"{ROOT}/{path}") as f:
        return f.read()


def exists(path):
    return os.path.exists(f"{ROOT}/{path}")


def files_below(folder, ending):
    """The files of a folder and those below it, by their paths from the root."""
    found = []
    for at, _, names in os.walk(f"{ROOT}/{folder}"):
        found += [os.path.relpath(f"{at}/{n}", ROOT) for n in names if f"/{n}".endswith(ending)]
    return sorted(found)


def files():
    """Every file of the tree, but for what is built and what git keeps."""
    found = []
    for at, folders, names in os.walk(ROOT):
        folders[:] = sorted(f for f in folders if f not in ("target", "out", ".git", "__pycache__"))
        found += [os.path.relpath(f"{at}/{n}", ROOT) for n in sorted(names) if n != ".git"]
    return found


def blank(text):
    """As many blanks, on as many lines."""
    return re.sub(r"[^\n]", " ", text)


# ---- Rattle

RATTLE = re.compile(r"""(?P<comment>//[^\n]*)|(?P<block>/\*)|(?P<text>b?"(?:\\.|[^"\\])*"|b?'(?:\\[^']*|[^'\\])')""", re.S)


def rattle_code(text, texts=True):
    """Rattle source with each comment as blanks (and each quoted text too, if so asked): every line and column stays."""
    out, at = [], 0
    for m in iter(lambda: RATTLE.search(text, at), None):
        out.append(text[at:m.start()])
        end = m.end()
        if m["block"]:
            depth = 1
            while depth:
                mark = re.compile(r"/\*|\*/").search(text, end)
                if not mark:
                    raise SyntaxError("a comment has no end")
                depth, end = depth + (1 if mark[0] == "/*" else -1), mark.end()
        piece = text[m.start():end]
        out.append(piece if m["text"] and texts else blank(piece))
        at = end
    return "".join(out) + text[at:]


@dataclasses.dataclass(frozen=True)
class Item:
    """A function, type or constant of a crate's source."""
    crate: str
    path: str        # from the crate's root: module::Owner::name
    kind: str        # fn, struct, enum, const, static, type, trait, union, ghost
    public: bool     # marked `pub` (a function of a private module too: a `pub use` may pass it on)
    file: str
    first: int       # its first and last line, from 0
    last: int
    text: str        # all of it, without comments and attributes
    head: str        # a function up to its body: signature and clauses
    body: str
    clauses: tuple   # of a function: ghost, requires, ensures
    attributes: tuple
    extern: bool     # for C

    @property
    def name(self):
        return f"{self.crate}::{self.path}"

    @property
    def asks(self):
        """Whether a function asks something of its caller."""
        return "requires" in self.clauses or "ghost" in self.clauses


MARK = re.compile(r"pub\s*\([^)]*\)|(?:pub|unsafe|extern|ghost(?=\s+use\b)|const(?=\s+(?:unsafe|extern|fn)\b))(?!\w)|(?<=extern)\s*\"[^\"]*\"")
CLAUSE = re.compile(r"\b(ghost|requires|ensures)(\s+\w+)?\s*$")


class Source:
    """One source file, read item by item: `code` is its text without comments, `bare` without quoted texts too, `found` its items, `modules` its modules,
    each with the module whose folder its file lies in (None of a module within this file), `traits` of a type those that it has an `impl` of."""

    def __init__(self, crate, file, module):
        self.crate, self.file, self.module = crate, file, module
        self.code, self.bare = rattle_code(read(file)), rattle_code(read(file), texts=False)
        self.found, self.modules, self.traits = [], [], {}
        self.scan(0, len(self.bare), module, "")

    def fail(self, at, why):
        raise SyntaxError(f"{self.file}:{self.line(at) + 1}: {why}")

    def line(self, at):
        return self.bare.count("\n", 0, at)

    def skip(self, at):
        """The place of the next character that is no blank."""
        return at + len(self.bare[at:]) - len(self.bare[at:].lstrip())

    def close(self, at):
        """The place behind the bracket that closes the one at a place."""
        pairs, open_ = {"(": ")", "[": "]", "{": "}"}, []
        for i in range(at, len(self.bare)):
            c = self.bare[i]
            if c in pairs:
                open_.append(pairs[c])
            elif c in ")]}":
                if not open_ or open_.pop() != c:
                    self.fail(i, f"{c} closes nothing")
                if not open_:
                    return i + 1
        self.fail(at, f"{self.bare[at]} is not closed")

    def until(self, at, stops):
        """The place of the first of some characters outside of brackets."""
        while at < len(self.bare):
            if self.bare[at] in stops:
                return at
            at = self.close(at) if self.bare[at] in "([{" else at + 1
        self.fail(len(self.bare) - 1, f"no {' or '.join(stops)} follows")

    def cut(self, start, end, indent):
        """A part of the code, moved to the left margin."""
        lines = [x.rstrip() for x in self.code[start:end].rstrip().split("\n")]
        return "\n".join(lines[:1] + [re.sub(rf"^ {{0,{indent}}}", "", x) for x in lines[1:]])

    def add(self, kind, path, before, start, end, body=None, clauses=()):
        """An item between two places, `before` it its attributes and marks."""
        attributes, marks = before
        indent, body = start - (self.bare.rfind("\n", 0, start) + 1), end if body is None else body
        self.found.append(Item(self.crate, path, kind, "pub" in marks, self.file, self.line(start), self.line(end - 1), self.cut(start, end, indent),
                               self.cut(start, body, indent), self.cut(body, end, indent), tuple(clauses), tuple(attributes), "extern" in marks))
        return end

    def scan(self, at, end, module, owner):
        """The items between two places, which stand in a module, or in the `impl` of an owner."""
        while True:
            at = self.skip(at)
            if at >= end:
                return
            attributes, marks = [], []
            while self.bare[at] == "#":
                to = self.close(self.bare.index("[", at))
                # an inner attribute is the file's, and not the next item's
                if self.bare[at + 1] != "!":
                    attributes.append(self.code[at:to])
                at = self.skip(to)
                # (a root file of inner attributes alone)
                if at >= end:
                    return
            if any(re.match(r"#!?\[\s*(path|cfg)", a) for a in attributes):
                self.fail(at, f"{attributes[0]} is not understood")
            start = at
            for mark in iter(lambda: MARK.match(self.code, at), None):
                marks.append(mark[0].strip())
                # behind `extern` its quoted C is looked for at once
                at = mark.end() if marks[-1] == "extern" else self.skip(mark.end())
            at = self.skip(at)
            at = self.item(at, start, module, owner, (attributes, marks))

    def item(self, at, start, module, owner, before):
        """The item whose keyword stands at a place; the place behind it."""
        word = re.compile(r"(\w*)\s*(\w*)").match(self.bare, at)
        keyword, path = word[1], "::".join([*module, *([owner] if owner else []), word[2]])
        if keyword == "fn":
            return self.function(at, start, path, before)
        if keyword in ("use", "const", "static", "type"):
            end = self.until(at, ";") + 1
            return end if keyword == "use" else self.add(keyword, path, before, start, end)
        if keyword == "ghost":
            return self.ghost(at, start, path, before)
        if keyword in ("struct", "enum", "union", "trait"):
            to = self.until(at, ";{")
            return self.add(keyword, path, before, start, to + 1 if self.bare[to] == ";" else self.close(to))
        if keyword == "mod":
            to = self.until(at, ";{")
            within = self.bare[to] == "{"
            self.modules.append((module + (word[2],), None if within else module))
            if within:
                self.scan(to + 1, self.close(to) - 1, module + (word[2],), "")
            return self.close(to) if within else to + 1
        if keyword == "impl":
            to = self.until(at, "{")
            head = self.bare[at + 4:to]
            while "<" in head and head != re.sub(r"<[^<>]*>", "", head):
                head = re.sub(r"<[^<>]*>", "", head)
            trait, _, of = re.split(r"\bwhere\b", head)[0].rpartition(" for ")
            owner = of.strip().split("::")[-1]
            if trait:
                self.traits[owner] = self.traits.get(owner, ()) + (trait.strip().split("::")[-1],)
            self.scan(to + 1, self.close(to) - 1, module, owner)
            return self.close(to)
        if self.bare[at] == "{" and "extern" in before[1]:
            self.scan(at + 1, self.close(at) - 1, module, "")
            return self.close(at)
        return self.fail(at, f"what is this: {self.bare[at:].split(chr(10))[0][:60]}")

    def ghost(self, at, start, path, before):
        """A ghost member of a trait or of an `impl`: what it says is antt, with antt's comments."""
        end = self.until(at, ";") + 1
        self.code = self.code[:at] + antt_code(self.code[at:end]) + self.code[end:]
        return self.add("ghost", path, before, start, end)

    def function(self, at, start, path, before):
        """A function from its `fn` on. A brace behind the word of a clause, and its name, is that clause's; any other opens the body."""
        clauses, to = [], self.close(self.until(at, "("))
        while True:
            to = self.until(to, ";{")
            if self.bare[to] == ";":
                return self.add("fn", path, before, start, to + 1, None, clauses)
            clause, end = CLAUSE.search(self.bare[start:to]), self.close(to)
            if not clause:
                return self.add("fn", path, before, start, end, to, clauses)
            clauses.append(clause[1])
            # what a clause says is antt, with antt's comments
            self.code = self.code[:to] + antt_code(self.code[to:end]) + self.code[end:]
            to = end


@functools.cache
def sources(crate):
    """The source files that are part of a crate: those that `mod` lines lead to from lib.rt or main.rt."""
    root = next(f for f in (f"crates/{crate}/src/lib.rt", f"crates/{crate}/src/main.rt") if exists(f))
    found, todo = {}, [(root, (), f"crates/{crate}/src")]
    while todo:
        file, module, folder = todo.pop()
        source = found[file] = Source(crate, file, module)
        for child, parent in source.modules:
            if parent is None:
                continue
            below = folder + "".join("/" + m for m in parent[len(module):])
            places = [f"{below}/{child[-1]}.rt", f"{below}/{child[-1]}/mod.rt"]
            place = next((p for p in places if exists(p)), None)
            if not place:
                raise SyntaxError(f"{file}: mod {child[-1]}: there is no {places[0]}")
            todo.append((place, child, f"{below}/{child[-1]}"))
    return found


@functools.cache
def items(crate):
    """Every function, type and constant of a crate, file by file."""
    return [i for file in sorted(sources(crate)) for i in sources(crate)[file].found]


def functions(crate):
    return [i for i in items(crate) if i.kind == "fn"]


def public_functions(crate):
    return [i for i in functions(crate) if i.public]


def iterators(crate):
    """`next` of each type of a crate that is an iterator."""
    return [i for s in sources(crate).values() for i in s.found if i.path.endswith("::next") and "Iterator" in s.traits.get(i.path.split("::")[-2], ())]


def stray(crate):
    """Source, definitions and theorems in files that are no part of the crate."""
    parts = set(sources(crate)) | set(modules(crate, "specs").values()) | set(modules(crate, "proofs").values())
    there = files_below(f"crates/{crate}/src", ".rt") + [f for k in ("specs", "proofs") for f in files_below(f"crates/{crate}/{k}", ".antt")]
    return [f for f in there if f not in parts]


# ---- antt

# the files that a function's proof may have, in the folder that bears its name
PROOF_FILES = ("Proof", "Invariants", "Answers")

ANTT = re.compile(r'(?P<text>"(?:\\.|[^"\\])*")|(?P<name>«[^»\n]*»)|(?P<block>\{-)|(?<![^\s(){}\[\];,])(?P<comment>--[^\n]*)')


def antt_code(text):
    """antt without comments: `--` where a word could begin, and `{- -}`, which nest. Every line and column stays."""
    out, at = [], 0
    for m in iter(lambda: ANTT.search(text, at), None):
        out.append(text[at:m.start()])
        end = m.end()
        if m["block"]:
            depth = 1
            while depth:
                mark = re.compile(r"\{-|-\}").search(text, end)
                if not mark:
                    raise SyntaxError("a comment has no end")
                depth, end = depth + (1 if mark[0] == "{-" else -1), mark.end()
        piece = text[m.start():end]
        out.append(blank(piece) if m["block"] or m["comment"] else piece)
        at = end
    return "".join(out) + text[at:]


@dataclasses.dataclass(frozen=True)
class Declaration:
    """A definition or theorem of an antt file."""
    name: str
    kind: str        # def, axiom, data, record
    marks: tuple     # abbrev, unfoldable, pub
    under: tuple     # the heads of the `module _` blocks that it stands in, the outer first
    type: str        # its signature, without marks
    text: str        # all of it
    line: int        # from 0
    members: tuple   # of a record its fields, of a data type its constructors


SIGNED = re.compile(r"((?:(?:unfoldable|abbrev|pub|axiom) )*)([^\s(){}:=]+)(?: \{[^}]*\})? :(?=\s|$)")
TYPED = re.compile(r"((?:(?:unfoldable|abbrev|pub) )*)(data|record) ([^\s(){}:=]+)(?=\s|$)")
OTHER = re.compile(r"(?:(?:unfoldable|pub) )*(?:use|mod|infix|infixl|infixr|ruleset|open|syntax)\b")


@functools.cache
def declarations(path):
    """The declarations of an antt file, in its order."""
    lines, found = [x.rstrip() for x in antt_code(read(path)).split("\n")], []
    depth = lambda x: len(x) - len(x.lstrip())
    whole = lambda part, by: "\n".join(x[by:] for x in part if x)

    def block(first, last, under):
        at, current = first, None
        while at < last:
            if not lines[at]:
                at += 1
                continue
            by, end = depth(lines[at]), at + 1
            # a bracket that closes goes with what it closes
            while end < last and (not lines[end] or depth(lines[end]) > by or lines[end].lstrip()[0] in ")]}"):
                end += 1
            line, part = lines[at].strip(), lines[at:end]
            signed, typed = SIGNED.match(line), TYPED.match(line)
            if re.match(r"(pub )?module\b", line) or line == "mutual":
                head = at
                while line != "mutual" and not re.search(r"(^|\s)where$", lines[head]):
                    head += 1
                    if head == end:
                        raise SyntaxError(f"{path}:{at + 1}: module without where")
                title = " ".join(x.strip() for x in lines[at:head + 1])
                block(head + 1, end, under if line == "mutual" else under + (title,))
                current = None
            elif OTHER.match(line):
                current = None
            elif typed or signed:
                m = typed or signed
                marks = tuple(m[1].split())
                kind = typed[2] if typed else "axiom" if "axiom" in marks else "def"
                members = tuple(x[1] for p in part[1:] for x in [re.match(r"\s+(?:pub )?([^\s(){}:=]+)(?: \{[^}]*\})? :(?=\s|$)", p)] if typed and x)
                text = whole(part, by)
                found.append(Declaration(typed[3] if typed else signed[2], kind, marks, under, text[len(m[1]):], text, at, members))
                current = len(found) - 1
            elif current is None:
                raise SyntaxError(f"{path}:{at + 1}: what is this: {line[:60]}")
            else:
                c = found[current]
                found[current] = dataclasses.replace(c, text=c.text + "\n" + whole(part, by))
            at = end

    block(0, len(lines), ())
    return found


def declared(path):
    """By name."""
    return {d.name: d for d in declarations(path)}


USE = r"use (?:package\.)?([^\s{;]+?)(?:\.\{([^}]*)\})?(?: as ([^\s;]+))? *"


@functools.cache
def uses(path):
    """What the `use` lines of an antt file (the `ghost use` lines of a Rattle file) bring: a name, and the module and the name there that it stands
    for (no name for a module)."""
    rattle = path.endswith(".rt")
    code = (rattle_code if rattle else antt_code)(read(path))
    begin = r"^ *ghost " if rattle else r"^ *(?:(?:unfoldable|pub) )*"
    found, lines = {}, list(re.finditer(begin + USE + (";" if rattle else "$"), code, re.M))
    if len(lines) != len(re.findall(begin + r"use\b", code, re.M)):
        raise SyntaxError(f"{path}: a use line that is not understood")
    for m in lines:
        if m[2] is None:
            found[m[3] or m[1].split(".")[-1]] = (m[1], "")
        for leaf in (m[2] or "").split(","):
            leaf = leaf.strip()
            if leaf:
                name, _, new = leaf.partition(" as ")
                below, _, own = name.rpartition(".")
                found[(new or own).strip()] = (m[1] + ("." + below if below else ""), own.strip())
    return found


@functools.cache
def modules(crate, kind):
    """The antt files that are part of a crate, by their modules' names below `specs` or `proofs` (Lib.antt: the empty name): those that `mod` lines
    lead to from Lib.antt, and in proofs/ from the file of a Rattle module and from the Proof.antt of a function."""
    base = f"crates/{crate}/{kind}"
    roots = {"": f"{base}/Lib.antt"}
    if kind == "proofs":
        for source in sources(crate).values():
            below = [m for m, _ in source.modules]
            roots.update({".".join(m): f"{base}/{'/'.join(m)}.antt" for m in below})
            for f in source.found:
                if f.kind == "fn":
                    # the proof of a trait's method stands under the type's name and the trait's, and behind them the trait's arguments
                    *above, owner, name = ["", *f.path.split("::")]
                    folder = "/".join([base, *(x for x in above if x)])
                    beside = sorted(os.listdir(f"{ROOT}/{folder}")) if exists(folder) else []
                    owners = [owner, *(x for t in source.traits.get(owner, ()) for x in beside if x.startswith(owner + t))]
                    for at in ("/".join(x for x in (*above, o, name) if x) for o in owners):
                        for part in PROOF_FILES:
                            roots[at.replace("/", ".") + "." + part] = f"{base}/{at}/{part}.antt"
        # a cycle of calls stands under the names of its functions, as +even_odd, or under the name that `#[cycle(name)]` gives it
        names = "|".join(re.escape(f.path.split("::")[-1]) for f in functions(crate))
        named = {m for f in sources(crate) for m in re.findall(r"#\[cycle\((\w+)\)\]", read(f))}
        for file in (f for part in PROOF_FILES for f in files_below(base, f"/{part}.antt")):
            at = file[len(base) + 1:-5]
            cycle = at.split("/")[-2] if "/" in at else ""
            if cycle.startswith("+") and (cycle[1:] in named or re.fullmatch(rf"({names})(_({names}))*", cycle[1:])):
                roots[at.replace("/", ".")] = file
    found, todo = {}, [(m, f) for m, f in roots.items() if exists(f)]
    while todo:
        module, file = todo.pop(0)
        if module in found:
            continue
        found[module] = file
        folder = base if not module else f"{base}/{module.replace('.', '/')}"
        for m in re.finditer(r"^\s*(?:pub )?mod (\S+)\s*$", antt_code(read(file)), re.M):
            name, place = (module + "." if module else "") + m[1], f"{folder}/{m[1]}.antt"
            if not exists(place):
                raise SyntaxError(f"{file}: mod {m[1]}: there is no {place}")
            todo.append((name, place))
    return found


def shown(text, code):
    """A text without its comments, as a reader wants it: a line that was all comment is gone, one blank line stays of several."""
    kept = [c.rstrip() for line, c in zip(text.split("\n"), code(text).split("\n")) if c.strip() or not line.strip()]
    return re.sub(r"\n{3,}", "\n\n", "\n".join(kept)).strip("\n")


def words(text):
    """The names that stand in an antt text, as far as one can see without reading its grammar; of a name behind a dot, its first part too."""
    found = set()
    for token in re.split(r"[\s(){}\[\];,]+", text):
        token = token.rstrip(".")
        found |= {token, token.split(".")[0]}
    return found - {""}


def mentions(name, among):
    """Whether a name stands among some words: an operator by its parts."""
    parts = [name] if name.startswith("«") else [p for p in name.split("_") if p]
    return name in among or all(p in among for p in parts)


def module_of(name):
    """A module's name in a `use` line, as (crate, specs or proofs, module below it); None of a module outside of the tree."""
    m = re.fullmatch(r"Rattle\.(\w+)\.(specs|proofs)(?:\.(.*))?", name)
    return (m[1], m[2], m[3] or "") if m and m[1] in dependencies() else None


def lookup(name):
    """`crate.specs.File.name` or `crate.proofs.File.name`: its declaration, in a file that is part of the crate; None where there is none. A field and
    a constructor are found by their own names."""
    m = re.fullmatch(r"(\w+)\.(specs|proofs)\.(?:(.+)\.)?([^\s.]+)", name)
    if not m or m[1] not in dependencies():
        return None
    file = modules(m[1], m[2]).get(m[3] or "")
    if not file:
        return None
    own = declared(file).get(m[4])
    return own or next((d for d in declarations(file) if m[4] in d.members), None)


# ---- uniqueness

SHARED = {"Only": ("Rattle.paper.specs.Only", "Only"), "OnlyBy": ("Rattle.paper.specs.Only", "OnlyBy")}


def contract(f):
    """The module that has the contract of a function."""
    # that of an iterator's `next` stands under the type's name and the trait's
    path = f.path if f.public else f.path.replace("::next", "Iterator::next")
    return f"Rattle.{f.crate}.specs.contracts.{path.replace('::', '.')}"


@functools.cache
def unique_theorem(f):
    """The theorem of a function in the proofs/Unique.antt that proofs/Lib.antt names, stated as tools/unique asks; None where there is none."""
    file = modules(f.crate, "proofs").get("Unique")
    for name, origin in uses(file).items() if file else []:
        here = declared(file)
        theorem = here.get(f"{name}-unique") or here.get(f"{name.replace('_', '-')}-unique")
        if origin != (contract(f), "") or theorem is None or theorem.under or theorem.kind != "def" or "pub" not in theorem.marks:
            continue
        # each word is the shared one: a declaration of its own cannot bear the name of one that is brought in
        over = f"(λ M 𝓤. {name}.clauses)"
        forms = {f"Only {name}.ended {over}": ["Only"], f"OnlyBy {name}.ended (λ κs. (λ x. x.now)) {over}": ["OnlyBy"]}
        words = forms.get(" ".join(theorem.type.split()).split(" : ", 1)[-1])
        if words and all(uses(file).get(w) == SHARED[w] and w not in here for w in words):
            return theorem.name
    return None
