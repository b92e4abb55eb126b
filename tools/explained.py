"""explained.py: the table of what the numbers of a listing mean, tools/explanations.txt."""
import os

TABLE = os.path.join(os.path.dirname(os.path.abspath(__file__)), "explanations.txt")


def rows():
    """Key, what is wrong, what to look at and an example (or nothing), in the order of the table."""
    with open(TABLE) as table:
        lines = [line.rstrip("\n") for line in table if line.strip() and not line.startswith("#")]
    return [tuple((line.split(" | ") + [""])[:4]) for line in lines]


def begun(text):
    return text[:1].upper() + text[1:]


def sentences():
    """The sentence of each key, as it is printed below a line."""
    return {key: f"{begun(wrong)}. {begun(look)}.".replace("`", "") for key, wrong, look, _ in rows()}
