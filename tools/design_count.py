#!/usr/bin/env python3
"""The places of docs/DESIGN-PASS.md, point by point, counted in the sources.

    python3 tools/design_count.py [TREE] [--list]

TREE is a checkout (this one, where none is named). --list prints each place. Line comments are no code; what a derive writes is not looked at.
"""
import pathlib
import re
import sys

LEFT_OUT = {"Refused", "Passed", "Unknown", "Cut", "NoLevel", "BrokenPlan", "NotOpen", "End"}  # a case that stands for an error or for nothing
ARRAYS = {"tickets", "parents", "keys", "nodes", "rooms", "sizes", "slacks", "threads", "places", "levels", "callers", "callees", "edges"}


def sources(tree):
    for path in sorted(pathlib.Path(tree).glob("crates/*/src/*.rt")):
        lines = [re.sub(r"\s*//.*", "", line) for line in path.read_text().splitlines()]
        yield path, lines


def functions(lines):
    """Each function: its line, its name, its parameters and what it answers."""
    text = "\n".join(lines)
    for found in re.finditer(r"\bfn (\w+)(?:<[^(]*>)?\(((?:[^()]|\([^()]*\))*)\)(?:\s*->\s*([^\n{]+))?", text):
        names = re.findall(r"(?:^|,)\s*(?:mut )?(\w+)\s*:|(?:^|,)\s*&?(?:mut )?(self)\b", found[2])
        yield text.count("\n", 0, found.start()) + 1, found[1], [a or b for a, b in names], (found[3] or "").strip()


def enums(lines):
    text = "\n".join(lines)
    for found in re.finditer(r"^(?:pub )?enum (\w+) \{(.*?)^\}", text, re.M | re.S):
        cases = re.findall(r"^    (\w+)", found[2], re.M)
        yield text.count("\n", 0, found.start()) + 1, found[1], cases


def each(lines, pattern):
    for number, line in enumerate(lines, 1):
        if re.search(pattern, line):
            yield number, line.strip()


def own_enums(path, lines):
    for number, name, cases in enums(lines):
        if LEFT_OUT & set(cases):
            yield number, f"enum {name}: {', '.join(cases)}"


def sentinels(path, lines):
    yield from each(lines, r"(==|!=|return) Ticket::OPEN\b|^\s+Ticket::OPEN$|return used;|^\s+used$")


def numbers(path, lines):
    if path.parts[-3] in {"faults", "steps", "entry", "net", "plan", "decode", "value", "text", "book", "gauge"}:
        yield from each(lines, r"return [1-9][0-9]*;|fault: [0-9u]|refusal: u8|fault: u8|Refused\(u8\)|Refused\(30\)|(broken|fault|first|second|size|check\(net\)) [!=]= 0|: u8 = 1[89];|=> [1-9],")


def index_loops(path, lines):
    yield from each(lines, r"^\s+while ")


def counted_by_hand(path, lines):
    yield from each(lines, r"^\s+\w+ [+-]= 1;|^\s+(\w+) = \1 [+-] 1;")


def by_hand(path, lines):
    for number, name, _, answer in functions(lines):
        if name in {"smaller", "same", "pair_rises", "pair_fits", "full", "waits", "goes_on", "refusal_number", "refusals", "carry", "reason", "room_told", "asked", "word", "answer_of", "room_of", "unread", "refusal", "placed", "if_full", "undecided"}:
            yield number, f"fn {name} -> {answer}"


def together(path, lines):
    for number, name, parameters, _ in functions(lines):
        if len(ARRAYS & set(parameters)) >= 2 or {"text", "at"} <= set(parameters):
            yield number, f"fn {name}({', '.join(parameters)})"


def wide(path, lines):
    for number, name, parameters, _ in functions(lines):
        if len(parameters) > 5:
            yield number, f"fn {name}: {len(parameters)} parameters"


def counted_buffers(path, lines):
    for number, name, parameters, _ in functions(lines):
        if "used" in parameters or "have" in parameters:
            yield number, f"fn {name}({', '.join(parameters)})"
    yield from each(lines, r"^\s+(pub )?(used|edges|have): usize,")


def switches(path, lines):
    for number, name, parameters, _ in functions(lines):
        if set(parameters) & {"called", "wanted", "named"}:
            yield number, f"fn {name}({', '.join(parameters)})"


POINTS = [
    ("1 own enums with a case for an error or for nothing", own_enums),
    ("1 a place or a count that stands for nothing", sentinels),
    ("1 numbers for refusals and kinds", numbers),
    ("3 while loops", index_loops),
    ("3 steps of a count by hand", counted_by_hand),
    ("4 comparing, converting, copying by hand", by_hand),
    ("5 parameters that travel together", together),
    ("5 functions of more than five parameters", wide),
    ("6 arrays with a count beside", counted_buffers),
    ("7 flags that say what to do", switches),
]


def main():
    words = [w for w in sys.argv[1:] if not w.startswith("--")]
    tree = words[0] if words else pathlib.Path(__file__).resolve().parent.parent
    for title, find in POINTS:
        places = [(path, number, what) for path, lines in sources(tree) for number, what in find(path, lines)]
        print(f"{len(places):4}  {title}")
        if "--list" in sys.argv:
            for path, number, what in places:
                print(f"      {path.parts[-3]}/{path.name}:{number}: {what}")


main()
