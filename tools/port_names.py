#!/usr/bin/env python3
"""Brings the repository's own definitions and lemmas to the spelling of today's Rattle: words in snake case, types in camel case, a dash only
between two names. port.py respells the library's names; this respells what specs/ and proofs/*.antt declare, wherever it is named: in the
crates, in must-fail edits, in README.md and in docs/. Functions of src/, exported C names and strings keep their names.

usage: python3 tools/port_names.py        at the top of the repository, once, after port.py; it prints what would fall together and then writes nothing
"""
import glob
import os
import re
import sys

# Names of the paper and of the design, which stay, and one that std spells so too; and a few that no rule turns well.
KEPT = {"A", "A'", "φ", "φ'", "D", "S", "B", "M", "X", "and-true"}
BY_HAND = {"LIVE-P": "live_p", "LIVE-P-sound": "live_p-sound", "Found_at": "FoundAt", "told-level": "chosen_level"}
WORDS = set("length drop take append set sets get_or map sum min max tail replicate all any".split())
TOKEN = r"[^\s(){}\[\],.;`\"⟦⟧]+"


def files(pattern):
    return sorted(glob.glob(pattern, recursive=True))


def declared():
    """(path, kinds, name, inside a record or data) of each definition, field, constructor and lemma of specs/ and proofs/*.antt."""
    for path in files("crates/*/specs/*.antt") + files("crates/*/proofs/*.antt"):
        if path.endswith("Lib.antt"):
            continue
        block = None
        for line in open(path, encoding="utf-8").read().split("\n"):
            if line and not line.startswith((" ", "-")):
                block = "fields" if re.match(r"(pub |private )?(record|data) ", line) else "module" if line.startswith("module ") else None
            m = re.match(r"( *)((?:(?:abbrev|unfoldable|pub|data|record|private)\s+)*)(" + TOKEN + r")((?:\s+[({].*)?)\s+:(?!:)(.*)$", line)
            if not m or m[3] in ("use", "mod", "unfolding", "where", "module", "let", "open", "in", "λ", "elim", "--"):
                continue
            deep = re.match(r" *", line).end()
            if deep > 4 or line.lstrip().startswith("--"):
                continue
            yield path, m[2].split(), m[3], block == "fields" and deep > 0


def snake(name):
    name = re.sub(r"(?<=[a-z0-9])(?=[A-Z])", lambda _: "_", name) if name[0].islower() else name
    parts = re.split(r"[-_]", name)
    return "_".join(p if p in KEPT or p == "T" else p[0].lower() + p[1:] if p and not p.isupper() else p.lower() for p in parts)


def camel(name):
    return "".join(p[:1].upper() + p[1:] for p in re.split(r"[-_]", name))


def lemma(name, known):
    """A dash stays between two names of definitions or words; a plain word is joined with _."""
    name = name.replace("getD", "get_or")
    parts, groups, i = name.split("-"), [], 0
    while i < len(parts):
        for j in range(len(parts), i, -1):
            whole = "-".join(parts[i:j])
            if whole in known or whole.replace("-", "_") in known:
                groups.append((snake(whole) if whole not in KEPT else whole, True))
                i = j
                break
        else:
            groups.append((snake(parts[i]) if parts[i] not in KEPT else parts[i], False))
            i += 1
    out = groups[0][0]
    for (_, a), (text, b) in zip(groups, groups[1:]):
        out += ("-" if a and b else "_") + text
    return out


def mapping():
    found = list(declared())
    known = WORDS | {n for p, k, n, f in found if "/specs/" in p and not f}
    new = {}
    for path, kinds, name, field in found:
        if name in KEPT or not re.search(r"[-_]|[a-z][A-Z]|^[A-Z]", name):
            continue
        if name in BY_HAND:
            to = BY_HAND[name]
        elif name[0].isupper() and "-" in name and not re.match(r"A['-]|(LIVE|BAD)-P", name):
            to = camel(name)
        elif name[0].isupper() and not re.match(r"A['-]", name):
            continue
        elif "/specs/" in path or field or "abbrev" in kinds or "unfoldable" in kinds:
            to = snake(name)
        else:
            to = lemma(name, known)
        if to != name:
            if new.setdefault(name, to) != to:
                new[name] = min(new[name], to)
    return new, {n for _, _, n, _ in found}


def main():
    new, own = mapping()
    back = {}
    for old, to in new.items():
        back.setdefault(to, set()).add(old)
    together = [(to, olds | ({to} & own)) for to, olds in back.items() if len(olds | ({to} & own)) > 1]
    foreign = set()
    for path in files("crates/**/*.antt") + files("crates/**/*.rt"):
        for m in re.finditer(r"^(?:ghost )?use (\S+?)\.\{([^}]*)\}", open(path, encoding="utf-8").read(), re.M):
            ours = re.match(r"Rattle\.(\w+)\.", m[1])
            if not (ours and os.path.isdir("crates/" + ours[1])):
                foreign |= {w.split(" as ")[0].strip() for w in m[2].split(",")}
    outside = sorted(n for n in new if n in foreign)
    inside = sorted(to for to in back if to in foreign)
    for to, olds in together:
        print("falls together:", to, sorted(olds))
    for n in outside:
        print("also a name from outside:", n)
    for n in inside:
        print("becomes a name from outside:", n)
    print(len(new), "names change")
    if "--names" in sys.argv:
        for old in sorted(new):
            print(" ", old, "->", new[old])
    if together or outside or inside or "--dry" in sys.argv:
        return 1
    turn = lambda t: re.sub(r"(?<![^\s(){}\[\],.;`\"⟦⟧])(" + TOKEN + ")", lambda m: new.get(m[1], m[1]), t)
    for path in files("crates/**/*.antt") + files("crates/**/*.rt") + files("crates/*/must-fail/*.edit") + files("docs/*.md") + ["README.md"]:
        text = open(path, encoding="utf-8").read()
        if path.endswith(".md"):
            to = re.sub(r"`[^`\n]+`", lambda m: turn(m[0]), text)
        else:
            to = turn(text)
        if to != text:
            open(path, "w", encoding="utf-8").write(to)
    return 0


if __name__ == "__main__":
    raise SystemExit(main())
