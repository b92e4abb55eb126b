"""rattle_edits: the edits that must be refused (crates/CRATE/must-fail/LABEL.edit), applied as rt applies them, and what each changes. An edit has a
part for each of its comments: a part is one wrong version, and the log of the edit must show each of them refused by itself."""
import dataclasses
import functools
import os
import re

import rattle_calls as calls
import rattle_source as source


@dataclasses.dataclass(frozen=True)
class Part:
    """One wrong version of the library."""
    wrong: str           # what is wrong, as its comment says
    code: tuple          # the functions and constants whose code it changes
    promises: tuple      # the functions of which it changes a clause
    definitions: tuple   # the files of specs/ that it changes
    signatures: tuple    # the functions of which it changes what stands before the clauses

    @property
    def kind(self):
        return "code" if self.code else "promise" if self.promises else "definition" if self.definitions else "other"

    @property
    def touched(self):
        """The functions whose proof may fail for this part: that of wrong code itself, of a promise also those that call the function, of a constant
        or a type those that name it."""
        return {f for i in self.code for f in self.shown_by(i)} | {f for i in self.promises for f in [i.path, *callers(i)]}

    def shown_by(self, item):
        """The functions whose own proof fails where the code of an item is wrong: of parameters that are exchanged also those that call the function."""
        return shown_by(item) | (callers(item) if item in self.signatures else set())


@dataclasses.dataclass(frozen=True)
class Edit:
    crate: str
    label: str
    faults: tuple        # why it is no edit
    parts: tuple

    @property
    def name(self):
        return f"{self.crate}/{self.label}"

    def apart(self, part):
        """The functions whose refusal tells of one part alone: no other part touches them."""
        return part.touched - {f for p in self.parts if p is not part for f in p.touched}


def labels(crate):
    return [os.path.basename(f)[:-5] for f in source.files_below(f"crates/{crate}/must-fail", ".edit")]


def said(file, text):
    """What a file says: no comments, and white space only where there is some."""
    return " ".join((source.rattle_code if file.endswith(".rt") else source.antt_code)(text).split())


def sums(text):
    """How many operations of a piece of code may go wrong: sums, differences, products, divisions, casts."""
    return sorted(re.findall(r" (?:[-+*/%]=?|<<|>>|as) ", f" {text} "))


def place_in(item, line):
    """Whether a line of a function is of its clauses, its signature or its code. That of another item is code."""
    body = item.last - item.body.count("\n") if item.kind == "fn" else item.first
    lines = source.read(item.file).split("\n")
    clauses = [n for n in range(item.first, body) if re.match(r"\s*(ghost|requires|ensures)\b", lines[n])]
    return "code" if line >= body else "clause" if clauses and clauses[0] <= line else "signature"


@functools.cache
def shown_by(item):
    """The functions whose own proof fails where the code of an item is wrong: the function itself, of a constant or a type those that name it, also
    through another constant or type."""
    found, todo = {item.path: item}, [item]
    for i in todo:
        name = i.path.split("::")[-1]
        users = [u for u in source.items(i.crate) if i.kind != "fn" and u.path not in found and re.search(rf"\b{name}\b", u.text)]
        found.update({u.path: u for u in users})
        todo += users
    return {path for path, i in found.items() if i.kind == "fn"}


@functools.cache
def callers(f):
    return {g.path for g in source.functions(f.crate) if f in calls.called(g)}


def changes(text):
    """The parts of an edit: what each comment says, and the changes behind it, as file, old and new."""
    found, file, old = [], "", ""
    for line in text.split("\n"):
        if line.startswith("#") and (not found or found[-1][1]):
            found.append((line.lstrip("# "), []))
        elif line.startswith("file: "):
            file = line[6:]
        elif line.startswith("old: "):
            old = line[5:]
        elif line.startswith("new:"):
            if not found:
                found.append(("", []))
            found[-1][1].append((file, old, line[5:] if line[4:5] == " " else line[4:]))
            old = ""
    return found


def applied(crate, label):
    """The texts of the files that an edit changes, by their paths in the crate."""
    now = {}
    for _, changed in changes(source.read(f"crates/{crate}/must-fail/{label}.edit")):
        for file, old, new in changed:
            text = now.get(file, source.read(f"crates/{crate}/{file}"))
            now[file] = text.replace(old, new, 1)
    return now


def part(crate, wrong, changed, now):
    """One part, applied to the texts that the parts before it left, and why it is none."""
    faults, touched, before, after, was = [], [], [], [], dict(now)
    for file, old, new in changed:
        path = f"crates/{crate}/{file}"
        if not re.match(r"(src|specs)/", file) or not source.exists(path):
            faults.append(f"{file} is no file of src/ or specs/")
            continue
        text = now.get(path, source.read(path))
        if not old or text.count(old) != 1:
            faults.append(f"{file} has {text.count(old) if old else 'no'} times: {old}")
            continue
        at, same = text.index(old), len(os.path.commonprefix([old, new]))
        touched.append((path, text.count("\n", 0, at + same)))
        before, after = before + sums(old), after + sums(new)
        now[path] = text[:at] + new + text[at + len(old):]
    if not touched and not faults:
        faults.append("it has no change")
    if touched and not faults and all(said(f, now[f]) == said(f, was.get(f, source.read(f))) for f, _ in touched):
        faults.append("it changes comments and white space alone")
    code, promises, definitions, signatures = [], [], [], []
    for path, line in touched:
        item = next((i for i in source.items(crate) if i.file == path and i.first <= line <= i.last), None)
        if item:
            place = place_in(item, line)
            (promises if place == "clause" else code).append(item)
            signatures += [item] if place == "signature" else []
        elif path.endswith(".antt") and not re.match(r"\s*use\b", source.read(path).split("\n")[line]):
            definitions.append(path)
    if code and sorted(before) != sorted(after):
        faults.append(f"the code's shape is another, and its proof does not fit: {sorted(before)} became {sorted(after)}")
    found = Part(wrong, *(tuple(dict.fromkeys(x)) for x in (code, promises, definitions, signatures)))
    if found.kind == "other" and not faults:
        faults.append("it changes no function, constant or definition")
    return found, faults


def read(crate, label, text):
    """An edit from its text."""
    now, parts, faults = {}, [], []
    for wrong, changed in changes(text) or [("", [])]:
        found, why = part(crate, wrong, changed, now)
        parts.append(found)
        faults += why
    whole = Edit(crate, label, (), tuple(parts))
    for p in parts if len(parts) > 1 else []:
        if p.definitions:
            faults.append(f"a definition changes beside other parts, and nothing tells their refusals apart: {p.wrong}")
        faults += [f"{i.path} may be refused for another part: {p.wrong}" for i in p.code if not p.shown_by(i) & whole.apart(p)]
        faults += [f"{i.path} changes in two parts: {p.wrong}" for i in p.promises if any(i in q.promises + q.code for q in parts if q is not p)]
    return dataclasses.replace(whole, faults=tuple(faults))


@functools.cache
def edit(crate, label):
    return read(crate, label, source.read(f"crates/{crate}/must-fail/{label}.edit"))


def edits(crate):
    return [edit(crate, label) for label in labels(crate)]
