#!/usr/bin/env python3
"""tests/tools/test_edits.py: tools/edits and tools/refusals on a copy of the tree, with an edit or a log that shows nothing: each must fail and say so.
The last line is 'N passed, M failed'."""
import os
import shutil
import subprocess
import sys
import tempfile

ROOT = os.path.dirname(os.path.dirname(os.path.dirname(os.path.abspath(__file__))))
sys.path.insert(0, ROOT + "/tools")
import rattle_edits

WIRE = "crates/wire/must-fail/"
LAST = "logic=not-proved functions=1\n"


def edit(*lines):
    return "# an edit\n" + "\n".join(lines) + "\n"


def part(wrong, old, new, file="src/lib.rt"):
    return f"# {wrong}\nfile: {file}\nold: {old}\nnew: {new}\n"


def without(crate, function, kind="code"):
    """The edits of a crate without the parts that change the code of a function (or its promise)."""
    changed = {}
    for e in rattle_edits.edits(crate):
        texts = rattle_edits.changes(open(f"{ROOT}/crates/{crate}/must-fail/{e.label}.edit").read())
        kept = [t for t, p in zip(texts, e.parts) if function not in [i.path for i in (p.code if kind == "code" else p.promises)]]
        if len(kept) < len(texts):
            lines = [x for wrong, made in kept for x in [f"# {wrong}", *(y for file, old, new in made for y in (f"file: {file}", f"old: {old}", f"new: {new}"))]]
            changed[f"crates/{crate}/must-fail/{e.label}.edit"] = "\n".join([*lines, ""]) or None
    return changed


def own(function, fact="returns", said="no proof"):
    """The error of a function's own proof."""
    return f"./proofs/{function}/Answers.antt:9:13: error: `{fact}`: {said}\n"


def made(function, fact="returns"):
    """What is said of a function whose proof rattle makes."""
    return (f"fn wire::{function}: no proof: expected answers in ./proofs/{function}/Answers.antt; `search` did not prove `{fact}`\n"
            f"note: src/lib.rt:18:1: it is not proved that what the function ensures holds when it returns (`{fact}`); `search` gave up at one of its limits\n")


def theorem(name):
    return f"./proofs/Unique.antt:9:1: error: `{name}`: no\n"


LOW = part("the low byte written twice", "u16::to_be_bytes(x)", "[u16::to_be_bytes(x)[1], u16::to_be_bytes(x)[1]]")
WEIGHT_AGAIN = part("a flag of three values", "x / weight % 2 == 1", "x / weight % 3 == 1")
WEIGHT = part("a weight of 1 names no flag", "weight != 0", "weight > 1")
OPEN = part("two flags meet the promise", "result ≡ flag_of set weight", "result ≡ result")
OPEN_WORD = part("two words meet the promise", "result ≡ word16 a b", "result ≡ result")
DEFINED = part("a definition", "has_flag x w = eqb (x / w % 2) 1", "has_flag x w = eqb 1 1", "specs/Wire.antt")
# a constant, what names it, and what calls that
LONGEST = part("a constant", "MAX_PACKET_LEN: usize = 9000", "MAX_PACKET_LEN: usize = 9001")
ALLOWED = part("2,048 bytes accepted", "MAX_SHORT_LEN < len &&", "MAX_SHORT_LEN <= len &&")
ALLOWED_OPEN = part("any length allowed", "result ≡ allows long len", "result ≡ result")
HEAD = part("the head asked for before the mark", "if left.len() < 2 {", "if left.len() < HEAD_LEN {")
OPEN_TYPE = part("two types meet the promise", "result ≡ type_number self", "result ≡ result")
EXCHANGED = part("parameters exchanged", "step_at(options: &[u8], offset: usize, at: usize,", "step_at(options: &[u8], at: usize, offset: usize,")
STEP = part("a step elsewhere", "step_at(w.options, w.offset, w.at,", "step_at(w.options, w.at, w.at,")
DIGITS = part("digits", "let next = put_decimal(out, at, n / 100);", "let next = put_decimal(out, at, n / 10);")
LEVEL = part("the next header read from byte 7", "let next_header = s[6];", "let next_header = s[7];")
TOLD = part("a refusal told as an index", "answer: c_answer::REFUSED,", "answer: c_answer::INDEXED,")
# what is tried; what tools/edits must say; the files that are written (no text: removed)
EDITS = [
    ("an edit of a proof", "wire/tried: proofs/has_flag/Proof.antt is no file of src/ or specs/",
     {WIRE + "tried.edit": edit("file: proofs/has_flag/Proof.antt", "old: rw (c .if1 .taken, div·zero)", "new: refl")}),
    ("an edit of a comment", "wire/tried: it changes comments and white space alone",
     {WIRE + "tried.edit": edit("file: src/lib.rt", "old: // The weight of a flag if it is set", "new: // The weight of a flag if it is not set")}),
    ("an edit of a comment of a definition", "wire/tried: it changes comments and white space alone",
     {WIRE + "tried.edit": edit("file: specs/Lib.antt", "old: pub mod Wire", "new: pub mod Wire -- numbers")}),
    ("an edit of white space", "wire/tried: it changes comments and white space alone",
     {WIRE + "tried.edit": edit("file: src/lib.rt", "old: if set { weight } else { 0 }", "new: if set {  weight } else {  0 }")}),
    ("an edit of a text that is not there", "wire/tried: src/lib.rt has 0 times: nothing of the kind",
     {WIRE + "tried.edit": edit("file: src/lib.rt", "old: nothing of the kind", "new: something")}),
    ("an edit of a text that is there more than once", "wire/tried: src/lib.rt has 2 times: to_be_bytes(x)",
     {WIRE + "tried.edit": edit("file: src/lib.rt", "old: to_be_bytes(x)", "new: to_le_bytes(x)")}),
    ("an edit without a change", "wire/tried: it has no change", {WIRE + "tried.edit": "# nothing\n"}),
    ("an edit of a `use` line alone", "wire/tried: it changes no function, constant or definition",
     {WIRE + "tried.edit": edit("file: src/lib.rt", "old: Wire.{word16, word32,", "new: Wire.{word32, word16,")}),
    ("an edit that adds a sum", "capture/tried: the code's shape is another",
     {"crates/capture/must-fail/tried.edit": edit("file: src/lib.rt", "old: MAX_SHORT_LEN < len &&", "new: MAX_SHORT_LEN + 1 < len &&")}),
    ("a part that changes a comment", "wire/tried: it changes comments and white space alone",
     {WIRE + "tried.edit": LOW + part("a comment", "// The weight of a flag if it is set", "// The weight of a flag if it is not set")}),
    ("a part without a change", "wire/tried: it has no change", {WIRE + "tried.edit": LOW + "# nothing\n"}),
    ("a rest that one part takes and another adds", "wire/tried: the code's shape is another",
     {WIRE + "tried.edit": part("a rest", "if set { weight }", "if set { weight % 7 }") + part("no rest", "x / weight % 2 == 1", "x / weight == 1")}),
    ("two parts that change one function", "wire/tried: has_flag may be refused for another part: a weight of 1 names no flag",
     {WIRE + "tried.edit": WEIGHT + WEIGHT_AGAIN}),
    ("two parts in the same words", "wire/tried: two parts are told by the same words", {WIRE + "tried.edit": LOW + WEIGHT.replace("a weight of 1 names no flag", "the low byte written twice")}),
    ("a function's wrong code and its promise left open", "wire/tried: flag_of may be refused for another part: a flag written",
     {WIRE + "tried.edit": OPEN + part("a flag written", "if set { weight } else { 0 }", "if set { weight } else { 1 }")}),
    ("a promise left open twice", "wire/tried: flag_of changes in two parts: two flags meet the promise",
     {WIRE + "tried.edit": OPEN + part("again", "result ≡ result", "set ≡ set")}),
    ("wrong code that names a wrong constant", "capture/tried: allowed may be refused for another part: 2,048 bytes accepted",
     {"crates/capture/must-fail/tried.edit": LONGEST + ALLOWED}),
    ("wrong code that calls a function whose promise is left open", "capture/tried: first_record may be refused for another part: the head asked for before the mark",
     {"crates/capture/must-fail/tried.edit": ALLOWED_OPEN + HEAD}),
    ("wrong code that calls a function whose parameters are exchanged", "ndp_walker/tried: step may be refused for another part: a step elsewhere",
     {"crates/ndp_walker/must-fail/tried.edit": EXCHANGED + STEP}),
    ("a definition beside wrong code", "wire/tried: a definition changes beside other parts, and nothing tells their refusals apart: a definition",
     {WIRE + "tried.edit": DEFINED + LOW}),
    ("a public function whose code no edit changes", "wire::flag_of: no edit changes its code", without("wire", "flag_of")),
    ("a public function of which edits change the promise alone", "wire::flag_of: no edit changes its code",
     {**without("wire", "flag_of"), WIRE + "tried.edit": edit("file: src/lib.rt", "old: result ≡ flag_of set weight", "new: result ≡ flag_of set 1")}),
    ("a public function whose code an edit changes by a comment", "wire::flag_of: no edit changes its code",
     {**without("wire", "flag_of"), WIRE + "tried.edit": edit("file: src/lib.rt", "old: // The weight of a flag", "new: // A weight of a flag")}),
    ("a public function that shares the function that an edit changes", "checksum::sum: no edit changes its code",
     {**without("checksum", "add_piece"), **without("checksum", "PIECE"),
      "crates/checksum/must-fail/tried.edit": edit("file: src/lib.rt", "old: (t % 65536 + t / 65536) as u16", "new: (t % 65536 + t / 131072) as u16")}),
    ("a public function whose answer a `from` makes that no edit changes", "c_split::brothladder_plan: no edit changes its code", without("c_split", "Planned::from")),
    ("a public function that shares the `from` that an edit changes", "c_index::brothladder_index_append: no edit changes its code",
     without("c_index", "brothladder_index_append")),
    ("a crate of which no edit leaves a promise open", "wire: no edit changes a promise alone", without("wire", "flag_of", "promise")),
]
# the edit of wire that is tried, and what stands in its log; what tools/refusals must say, or None where the log is one to pass
LOGS = [
    ("a fact that is not proved", WEIGHT, own("has_flag"), None),
    ("a fact that rattle does not prove", LOW, made("u16_to_be"), None),
    ("the requirement of a call named as an operation", WEIGHT, own("has_flag", "bounds-requires-2"), None),
    ("a lemma named as an operation", WEIGHT, own("has_flag") + "./proofs/Sums.antt:3:1: error: `overflow_add-one`: no proof\n", None),
    ("a proof that does not join its facts", WEIGHT, own("has_flag", "has_flag_spec", "too few arguments"), "has_flag is not refused by itself"),
    ("a function that no part touches is refused too", WEIGHT, own("has_flag") + own("flag_of"), "flag_of is refused, and no part touches it"),
    ("a theorem that no part touches is refused too", OPEN, theorem("flag-of-unique") + theorem("has-flag-unique"), "has-flag-unique is refused, and no part touches it"),
    ("a lemma alone", WEIGHT, "./proofs/Sums.antt:3:1: error: `overflow_add-one`: no proof\n", "has_flag is not refused by itself"),
    ("a promise left open", OPEN, theorem("flag-of-unique"), None),
    ("a bound", WEIGHT, own("has_flag", "bounds-out-at"), "shows nothing"),
    ("a bound behind another error", WEIGHT, own("has_flag") + own("has_flag", "bounds-id-0"), "shows nothing"),
    ("a bound of another part", LOW + WEIGHT, own("has_flag") + own("u16_to_be", "bounds-id-0"), "shows nothing"),
    ("a part of a slice", LOW, made("u16_to_be", "slice_bounds-result-end"), "shows nothing"),
    ("an overflow", WEIGHT, own("has_flag", "overflow_add-t6"), "shows nothing"),
    ("an overflow that rattle does not exclude", LOW, made("u16_to_be", "overflow_add-result"), "shows nothing"),
    ("a cast", LOW, made("u16_to_be", "overflow_cast-t5"), "shows nothing"),
    ("a division", WEIGHT, own("has_flag", "nonzero_div-result"), "shows nothing"),
    ("a loop without an end", WEIGHT, own("has_flag", "loop-smaller"), None),
    ("a fact that the code does not have", WEIGHT, own("has_flag", "x", "`goal.x`: module `y` has no `x` that can be named from here"), "shows nothing"),
    ("a field that the code does not have", WEIGHT, own("has_flag", "returns", "record `Goals.Returns` has no field `if-weight-eq0`"), "shows nothing"),
    ("no error", WEIGHT, "", "no error in its log"),
    ("a promise left open that its code alone refuses", OPEN, own("flag_of"), "wire: no edit of a promise is refused at Unique.antt"),
    ("a promise left open that the theorem of another refuses", OPEN, theorem("has-flag-unique"), "the promise of flag_of is not refused by itself: two flags meet the promise"),
    ("another function is refused", WEIGHT, own("flag_of"), "has_flag is not refused by itself: a weight of 1 names no flag"),
    ("two parts, each refused", LOW + WEIGHT, own("has_flag") + made("u16_to_be"), None),
    ("two parts, one refused", LOW + WEIGHT, made("u16_to_be"), "has_flag is not refused by itself: a weight of 1 names no flag"),
    ("two parts, one of which follows from another error", LOW + WEIGHT,
     made("u16_to_be") + own("has_flag", "has_flag_spec", "`close` was not admitted (it was rejected), so this cannot be checked"), "has_flag is not refused by itself"),
    ("two parts, one of which is not proved since it calls the other", LOW + WEIGHT,
     made("u16_to_be") + "fn wire::has_flag: not proved; it calls `wire::u16_to_be`, which is not proved\n", "has_flag is not refused by itself"),
    ("two parts, one of which has no proof that rattle makes, for no fact", LOW + WEIGHT,
     own("has_flag") + "fn wire::u16_to_be: no proof: expected answers in ./proofs/u16_to_be/Answers.antt\n", "u16_to_be is not refused by itself"),
    ("two promises left open, each refused", OPEN + OPEN_WORD, theorem("flag-of-unique") + theorem("u16-from-be-unique"), None),
    ("two promises left open, one refused", OPEN + OPEN_WORD, theorem("flag-of-unique"), "the promise of u16_from_be is not refused by itself: two words meet the promise"),
    ("wrong code and a promise left open, each refused", LOW + OPEN, made("u16_to_be") + theorem("flag-of-unique"), None),
    ("wrong code and a promise left open, the code refused", LOW + OPEN, made("u16_to_be"), "the promise of flag_of is not refused by itself"),
    ("wrong code and a promise left open, the promise refused", LOW + OPEN, theorem("flag-of-unique"), "u16_to_be is not refused by itself"),
    ("a definition: nothing tells its refusals apart", DEFINED, "./proofs/Laws.antt:3:1: error: `x`: no proof\n", None),
    ("a constant, and a function that names it is refused", ("capture", LONGEST), own("allowed"), None),
    ("a constant, and a function that does not name it is refused", ("capture", LONGEST), own("first_record"), "MAX_PACKET_LEN is not refused by itself"),
    ("a promise left open, and a function that calls it is refused too", ("icmpv6_type", OPEN_TYPE), theorem("type-u8-unique") + own("Icmpv6Type/kind_u8"), None),
    ("a constant beside a function that calls its user, each refused", ("capture", LONGEST + HEAD), own("allowed") + own("first_record"), None),
    ("a constant beside a function that calls its user, one refused", ("capture", LONGEST + HEAD), own("first_record"), "MAX_PACKET_LEN is not refused"),
    ("parameters exchanged, and a function that calls it is refused", ("ndp_walker", EXCHANGED), own("step"), None),
    ("parameters exchanged, and a function that does not call it is refused", ("ndp_walker", EXCHANGED), own("rest"), "step_at is not refused by itself"),
    ("a function that calls itself", ("dump_lines", DIGITS), own("+put_decimal"), None),
    ("one of several functions that call one another", ("quotes", LEVEL), own("+message_quote", "quote-returns"), None),
    ("another of several functions that call one another", ("quotes", LEVEL), own("+message_quote", "message-returns"), "quote is not refused by itself"),
    ("a fact of no one among functions that call one another", ("quotes", LEVEL), own("+message_quote"), "quote is not refused by itself"),
    ("a bound of one of several functions that call one another", ("quotes", LEVEL), own("+message_quote", "quote-bounds-numbers-3"), "shows nothing"),
    ("a method of a trait, named by the type and the trait", ("c_index", TOLD), own("IndexedFromResultTuple2UsizeUsizeRefusal/from", "returns-in-Err"), None),
    ("the same method of another type", ("c_index", TOLD), own("FoundFromOptionUsize/from", "returns-in-None"), "Indexed::from is not refused by itself"),
]


def run(tree, script, *words):
    done = subprocess.run([f"{tree}/{script}", *words], cwd=tree, capture_output=True, text=True)
    return done.returncode, done.stdout + done.stderr


failed = []
with tempfile.TemporaryDirectory() as folder:
    tree = folder + "/tree"
    shutil.copytree(ROOT, tree, ignore=shutil.ignore_patterns("target", "out", ".git", "__pycache__"))
    code, usual = run(tree, "tools/edits")
    if code:
        failed.append(f"the tree as it is: tools/edits says: {usual[-2000:]}")
    for what, words, files in EDITS:
        kept = {f: open(f"{tree}/{f}").read() for f in files if os.path.exists(f"{tree}/{f}")}
        for f, text in files.items():
            if text is None:
                os.remove(f"{tree}/{f}")
            else:
                open(f"{tree}/{f}", "w").write(text)
        code, said = run(tree, "tools/edits")
        for f in files:
            if f in kept:
                open(f"{tree}/{f}", "w").write(kept[f])
            else:
                os.remove(f"{tree}/{f}")
        if code == 0 or words not in said or words in usual:
            failed.append(f"{what}: tools/edits does not say: {words}\n{said[-1000:]}")
    for what, text, log, words in LOGS:
        crate, text = text if isinstance(text, tuple) else ("wire", text)
        tried, at = f"{tree}/crates/{crate}/must-fail/tried.edit", f"{tree}/target/must-fail/{crate}/tried"
        os.makedirs(at)
        open(tried, "w").write(text)
        open(at + "/.log", "w").write(log + LAST)
        code, said = run(tree, "tools/refusals", "--read")
        shutil.rmtree(tree + "/target")
        os.remove(tried)
        if (code != 0) != (words is not None) or words is not None and words not in said:
            failed.append(f"{what}: tools/refusals {'does not say: ' + words if words else 'says'}\n{said[-1000:]}")
print("\n".join([f"tests/tools/test_edits: {x}" for x in failed] + [f"{len(EDITS) + len(LOGS) + 1 - len(failed)} passed, {len(failed)} failed"]))
sys.exit(bool(failed))
