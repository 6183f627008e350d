#!/usr/bin/env python3
"""Respells this repository's own definitions and lemmas in snake case.

usage: python3 tools/respell.py [FOLDER]     FOLDER has crates/; without it, the one that tools/ stands in

It was run once, behind the kit's port.py, when the repository was brought to a newer kit. It turns names of
definitions, constructors, fields and lemmas that begin with a small letter and have a capital or a hyphen, as withByte
or decoded-size, in .antt files, in the clauses and ghost imports of .rt files, and in comments where the name has a capital.
Goals, which the kit names, keep their names, and so do types, modules and all Rust names.
"""

import os
import re
import sys

# Two names of ours that would fall together in one scope.
CHOSEN = {
    "counting-loop": "counts_down",
    "from-lexeme": "scanned_from_lexeme",
    "is-main": "main_is",
    "is-operator": "only_operator",
    "with-token": "scanned_with_token",
}

NAME = re.compile(r"[A-Za-z_][A-Za-z0-9_']*(?:-[A-Za-z0-9_'+]+)*")
DEFINED = re.compile(
    r"^(\s*)(?:(?:pub|abbrev|unfoldable|opaque|private|rec|data|record)\s+)*"
    r"([A-Za-z][A-Za-z0-9_'-]*)((?:\s+[A-Za-z][A-Za-z0-9_'-]*)*)\s*:(?:\s+(\S*)|$)"
)
ANSWERS = ("Answers.antt", "Invariants.antt", "Choices.antt", "Proof.antt")
GOALS = ("goal.", "need.", "rule.")


def files(top, ending):
    for folder, folders, names in os.walk(os.path.join(top, "crates")):
        folders[:] = sorted(f for f in folders if f not in ("out", "target"))
        for name in sorted(names):
            if name.endswith(ending):
                yield os.path.join(folder, name)


def lines(path):
    with open(path, encoding="utf-8") as f:
        return f.read().split("\n")


def is_older(name):
    return bool(re.match("[a-z]", name)) and bool(re.search("[A-Z-]", name))


def snake(name):
    if name in CHOSEN:
        return CHOSEN[name]
    name = name.replace("-", "_")
    name = re.sub("([a-z0-9])([A-Z])", lambda m: m.group(1) + "_" + m.group(2).lower(), name)
    return name.lower()


def own_names(top):
    found = set()
    for path in files(top, ".antt"):
        answers = os.path.basename(path) in ANSWERS
        text = lines(path)
        for line, behind in zip(text, text[1:] + [""]):
            match = DEFINED.match(line)
            if not match or line.lstrip().startswith("--") or (match.group(4) or behind.strip()).startswith(GOALS):
                continue
            if not (answers and match.group(1)):
                found.add(match.group(2))
    return {name: snake(name) for name in found if is_older(name)}


def respelled(text, names, only=is_older):
    return NAME.sub(lambda m: names.get(m.group(0), m.group(0)) if only(m.group(0)) else m.group(0), text)


def has_capital(name):
    return is_older(name) and "-" not in name


def turned(path, names):
    mark = "--" if path.endswith(".antt") else "//"
    out = []
    for line in lines(path):
        comment = line.lstrip().startswith(mark)
        out.append(respelled(line, names, has_capital if comment else is_older))
    return "\n".join(out)


def main(top):
    names = own_names(top)
    for ending in (".antt", ".rt"):
        for path in files(top, ending):
            text = turned(path, names)
            if text != "\n".join(lines(path)):
                with open(path, "w", encoding="utf-8") as f:
                    f.write(text)
    print(f"{len(names)} names are in snake case")


if __name__ == "__main__":
    main(sys.argv[1] if len(sys.argv) > 1 else os.path.dirname(os.path.dirname(os.path.abspath(__file__))))
