"""text_table.py: the texts of the refusals and reasons, tools/texts.txt, and the block of include/brothladder.h that has them."""
import re

TABLE, HEADER, PAGE = "tools/texts.txt", "include/brothladder.h", "docs/DUMP.md"
FIRST, LAST = "/* (tools/texts writes from here) */\n", "/* (to here) */\n"


def rows():
    """The text of each refusal and of each reason, by the kind and the number."""
    with open(TABLE) as table:
        lines = [line.strip().split(" | ") for line in table if line.strip() and not line.startswith("#")]
    return {(key.split()[0], int(key.split()[1])): text for key, text in lines}


def function(kind, texts):
    cases = "".join(f'    case {n}: return "{text}";\n' for (k, n), text in sorted(texts.items()) if k == kind)
    return (f"BROTHLADDER_INLINE const char *brothladder_{kind}_text(uint32_t number) {{\n    switch (number) {{\n    case 0: return \"no {kind}\";\n{cases}"
            f'    default: return "a {kind} of another version";\n    }}\n}}\n')


def written(header):
    """The header with the texts of the table in it."""
    texts = rows()
    before, rest = header.split(FIRST)
    return before + FIRST + function("refusal", texts) + "\n" + function("reason", texts) + LAST + rest.split(LAST)[1]


def told():
    """What docs/DUMP.md says of a number alone, by the same keys. Where it says more than a few words, the text here is another."""
    with open(PAGE) as held:
        page = held.read().replace("`", "")
    found = {("reason", int(n)): text for n, text in re.findall(r"^\| ([1-8]) \| ([^|]*?) \|", page, re.M)}
    found.update({("refusal", int(n)): text for n, text in re.findall(r"^\| (12|14) \| ([^|]*?) \|", page, re.M)})
    found.update({("refusal", int(n)): text for n, text in re.findall(r"^\| refused ([14]) \| ([^|.,]*)", page, re.M)})
    return {key: text.strip() for key, text in found.items()}
