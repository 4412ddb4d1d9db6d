#!/usr/bin/env python3
"""Spells this repository's own definitions, lemmas and fields as today's Rattle does.

usage: python3 tools/respell.py        at the top of the repository, once, after port.py

A word is in snake case (`insert-at` becomes `insert_at`), a type in upper camel case (`Leaf-of` becomes `LeafOf`). Only names that the
repository's own .antt files define, and names that its .rt files give to an import, are respelled. A name that a file imports from
a library keeps its spelling in that file; so do the names of goals, which Rattle makes, and all comments and texts.
"""

import os
import re

ROOT = os.path.join(os.path.dirname(os.path.realpath(__file__)), "..", "crates")
WORD = r"[^\s(){}\[\].,;«»⟨⟩⌜⌝|:λ=\"]+"
# The library's word in the name is another one today.
BY_HAND = {"getD-upto": "get_or_upto", "rankZ-equal": "int_rank_equal", "bytesOfAll": "bytes_of_all"}


def texts(*endings):
    for folder, dirs, files in os.walk(ROOT):
        dirs[:] = sorted(d for d in dirs if d not in ("out", "target"))
        for name in sorted(files):
            if name.endswith(endings):
                path = os.path.join(folder, name)
                with open(path, encoding="utf-8") as f:
                    yield path, f.read()


def defined():
    """The dashed names that this repository defines or gives."""
    names = set()
    for path, text in texts(".antt", ".rt"):
        for line in text.split("\n"):
            if path.endswith(".rt") or re.match(r"\s*(ghost )?use ", line):
                names.update(re.findall(r"\bas ([\w-]+-[\w-]+)", line) if line.lstrip().startswith(("use", "ghost use")) else [])
                continue
            if "goal." in line:
                continue
            m = re.match(r"^\s*(?:(?:pub|abbrev|unfoldable) )*((?:%s )+):(?:\s|$)" % WORD, line)
            names.update(m.group(1).split() if m else [])
            m = re.match(r"^\s*(?:(?:pub|abbrev) )*(?:record|data) (\S+)", line)
            names.update([m.group(1)] if m else [])
            names.update(re.findall(r"\blet ([\w'-]+) [:=] ", line))
    return {n for n in names if n in BY_HAND or re.search(r"\w-\w", n)}


def spelled(name):
    if name in BY_HAND:
        return BY_HAND[name]
    parts = name.split("-")
    if name[0].isupper():
        return "".join(p[:1].upper() + p[1:] for p in parts)
    return "_".join(parts)


def libraries(text, crates):
    """The names that a file imports from outside this repository."""
    found = set()
    for m in re.finditer(r"(?m)^\s*(?:ghost )?use ([\w.]+)\.\{([^}]*)\}", text):
        head = m.group(1).split(".")
        if not (head[0] == "Rattle" and head[1] in crates):
            found.update(n.strip().split(" as ")[0] for n in m.group(2).split(","))
    return found


def turn(text, table, comment):
    out = []
    for line in text.split("\n"):
        m = re.search(r"(^|\s)%s(\s|$)" % re.escape(comment), line)
        code, rest = (line[: m.start()], line[m.start():]) if m else (line, "")
        pieces = re.split(r"(\"[^\"]*\")", code)
        for i in range(0, len(pieces), 2):
            pieces[i] = re.sub(WORD, lambda w: table.get(w.group(0), w.group(0)), pieces[i])
        out.append("".join(pieces) + rest)
    return "\n".join(out)


def main():
    crates = set(os.listdir(ROOT))
    table = {n: spelled(n) for n in defined()}
    new = sorted(table.values())
    twice = {n for n in new if new.count(n) > 1}
    if twice:
        raise SystemExit(f"names fall together: {sorted(twice)}")
    for path, text in texts(".antt", ".rt", ".edit"):
        outside = libraries(text, crates)
        own = {k: v for k, v in table.items() if k not in outside}
        turned = turn(text, own, "--" if path.endswith(".antt") else "//")
        if turned != text:
            with open(path, "w", encoding="utf-8") as f:
                f.write(turned)
    print(f"{len(table)} names")


if __name__ == "__main__":
    main()
