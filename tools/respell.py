#!/usr/bin/env python3
"""Brings the definitions and lemmas of this repository to one spelling: words in snake case, constants in capitals.

usage: python3 tools/respell.py            at the top, once, behind the kit's port.py
       python3 tools/respell.py --list     the names that it turns, old and new

Names are those declared in crates/*/specs and in the lemma files of crates/*/proofs. They are turned as whole words in
.antt and .rt files, in the edits that must fail, and in the pages between backticks. Names of src/ keep their spelling.
"""
import os
import re
import sys

WORD = re.compile(r"[^\s(){}\[\].,;:\u03bb@\"`=|\u2308-\u230b]+")
HEAD = re.compile(r"^\s*(?:(?:abbrev|unfoldable|pub|mutual|infixl|infixr)\s+)*((?:[^\s(){}\[\].,;:\u03bb@\"`]+\s+)+):\s")
TYPE = re.compile(r"^\s*(?:pub )?(?:data|record) (\S+)")
KEYWORDS = {"abbrev", "pub", "data", "record", "unfoldable", "module", "open", "use", "where", "mod"}


def files(*ends):
    for folder, dirs, names in os.walk("crates"):
        dirs[:] = sorted(d for d in dirs if d != "out")
        for n in sorted(names):
            if n.endswith(ends):
                yield os.path.join(folder, n)


def lemma_file(path):
    parts = path.split(os.sep)
    return parts[2] == "specs" or (parts[2] == "proofs" and len(parts) == 4)


def declared():
    names = set()
    for path in files(".antt"):
        if lemma_file(path):
            for line in open(path, encoding="utf-8"):
                if line.lstrip().startswith(("--", "use ")):
                    continue
                m = HEAD.match(line)
                if m:
                    names.update(w for w in m.group(1).split() if w not in KEYWORDS)
                m = TYPE.match(line)
                if m:
                    names.add(m.group(1))
    return names


def turned(name):
    if re.fullmatch(r"[A-Z0-9]+(-[A-Z0-9]+)+", name):
        return name.replace("-", "_")
    if "\u25cc" in name or not re.search(r"[a-z]", name):
        return name
    words = name.replace("\u2032", "'").replace("-", "_").split("_")
    # the first word of a fact or of a type keeps its capital
    out = [words[0] if words[0][:1].isupper() else snake(words[0])]
    out += [w if w[:1].isupper() else snake(w) for w in words[1:]]
    return "_".join(out)


def snake(word):
    return re.sub(r"(?<=[a-z0-9])([A-Z])", lambda m: "_" + m.group(1).lower(), word)


def imported():
    """The library's names that some file here imports."""
    names = set()
    for path in files(".antt", ".rt"):
        for m in re.finditer(r"use (\S+?)\.\{([^}]*)\}", open(path, encoding="utf-8").read()):
            if not m.group(1).startswith("Rattle.") or m.group(1).startswith("Rattle.std."):
                names.update(w.strip().split(" as ")[-1] for w in m.group(2).split(","))
    return names


def table():
    names = declared()
    taken = imported() | {turned(n) for n in names if "-" not in n}
    # a lemma that would have its function's name gets _lem
    new = {n: turned(n) + ("_lem" if "-" in n and turned(n) in taken else "") for n in names}
    return {n: m for n, m in new.items() if n != m}


def main():
    names = table()
    if "--list" in sys.argv:
        for old in sorted(names):
            print(old, names[old])
        return
    turn = lambda text: WORD.sub(lambda m: names.get(m.group(0), m.group(0)), text)
    for path in files(".antt", ".rt", ".edit"):
        old = open(path, encoding="utf-8").read()
        new = turn(old)
        if new != old:
            open(path, "w", encoding="utf-8").write(new)
    pages = ["README.md"] + [os.path.join(d, f) for d, _, fs in os.walk("docs") for f in fs if f.endswith(".md")]
    for path in pages:
        old = open(path, encoding="utf-8").read()
        new = re.sub(r"`[^`\n]+`", lambda m: turn(m.group(0)), old)
        if new != old:
            open(path, "w", encoding="utf-8").write(new)


if __name__ == "__main__":
    main()
