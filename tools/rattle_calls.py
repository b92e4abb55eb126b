"""rattle_calls: which functions of the tree a program makes use of, by the calls in the text of its functions and of those that they call. A call by
a path is that path's function; a method may be any of its name in the crates at hand, so that too much is found rather than too little."""
import functools
import os
import re

import rattle_source as source


@functools.cache
def known(crate):
    """The functions that a crate can call, by the last part of their names."""
    found = {}
    for c in [crate, *source.dependencies()[crate]]:
        if c in source.dependencies():
            for f in source.functions(c):
                found.setdefault(f.path.split("::")[-1], []).append(f)
    return found


@functools.cache
def brought(file):
    """What the `use` lines of a source file bring: a name, and its whole path."""
    code = source.rattle_code(source.read(file), texts=False)
    found = {}
    for m in re.finditer(r"(?<!ghost )\buse\s+([\w:]+?)(?:\s+as\s+(\w+))?\s*;", code):
        found[m[2] or m[1].split("::")[-1]] = m[1]
    for m in re.finditer(r"(?<!ghost )\buse\s+([\w:]+)::\{([^{}]*)\}\s*;", code):
        for item in m[2].split(","):
            words = item.split()
            if words:
                found[words[-1]] = m[1] if words[0] == "self" else f"{m[1]}::{words[0]}"
    return found


@functools.cache
def called(f):
    """The functions that a function calls."""
    body = source.rattle_code(f.body, texts=False)
    module = source.sources(f.crate)[f.file].module
    owner = f.path.split("::")[:-1]
    found = set()
    for m in re.finditer(r"(\.\s*)?((?:\w+\s*::\s*)*)(\w+)\s*(?:::\s*<[^>]*>\s*)?\(", body):
        path = [x.strip() for x in m[2].split("::") if x.strip()]
        choices = known(f.crate).get(m[3], [])
        if m[1] and not path:
            found.update(g for g in choices if re.search(r"\(\s*&?\s*(?:'\w+\s+)?(?:mut\s+)?self\b", g.head))
            continue
        if path and path[0] in ("crate", "self", "super", "Self"):
            path = {"crate": [f.crate], "self": [f.crate, *module], "super": [f.crate, *module[:-1]], "Self": [f.crate, *owner]}[path[0]] + path[1:]
        name = [*path, m[3]]
        if name[0] in brought(f.file):
            name = [*brought(f.file)[name[0]].replace("crate", f.crate).split("::"), *name[1:]]
        elif not path:
            name = [f.crate, *module, *name]
        # a type that is passed on by another crate is named by its last part
        found.update(g for g in choices if g.name.split("::")[-len(name):] == name or (len(name) > 1 and g.path.split("::")[-2:] == name[-2:]))
    return found


def reached(starts):
    """The names of some functions, and of all that they call in the end."""
    found, todo = set(), list(starts)
    while todo:
        f = todo.pop()
        if f not in found:
            found.add(f)
            todo += called(f)
    return {f.name for f in found}


C_FUNCTION = re.compile(r"^(\w[^\n;{}]*?)\b(\w+)\([^;{}]*?\)\s*\{\n(.*?)^\}", re.M | re.S)


def c_names(file):
    """The calls of the library that a C file makes, by itself or through functions of the files beside it."""
    clean = lambda f: re.sub(r"/\*.*?\*/|//[^\n]*", " ", source.read(f), flags=re.S)
    own, shared = {}, {}
    for f in source.files_below(os.path.dirname(file), ".c"):
        for kind, name, body in C_FUNCTION.findall(clean(f)):
            own[f, name] = (f, body)
            if not re.search(r"\bstatic\b", kind):
                shared[name] = (f, body)
    names, todo, seen = set(), [(file, clean(file))], set()
    while todo:
        f, text = todo.pop()
        for word in sorted(set(re.findall(r"\b(\w+)\s*\(", text))):
            if word.startswith("brothladder_"):
                names.add(word)
            home = own.get((f, word)) or shared.get(word)
            if home and (home[0], word) not in seen:
                seen.add((home[0], word))
                todo.append(home)
    return names


@functools.cache
def of_program(name):
    """The functions that a program of the tree reaches, by the program's name in docs/PROMISES.md: crates/X, a C file, bench/X, tests/dump/..,
    compare/run. None of what is no program."""
    if name.startswith("tests/dump/"):
        name = "crates/dump"
    if name == "compare/run":
        name = "crates/replay"
    if (name.endswith(".c") or name.startswith("bench/")) and source.exists(name):
        exported = [f for c in source.libraries() for f in source.public_functions(c) if f.extern]
        named = c_names(name) if name.endswith(".c") else set(re.findall(r"\bbrothladder_\w+", re.sub(r"#.*", "", source.read(name))))
        return reached(f for f in exported if f.path.split("::")[-1] in named)
    crate = name[7:] if name.startswith("crates/") else ""
    return reached(f for f in source.functions(crate) if f.path == "main") if crate in source.programs() else None
