#!/usr/bin/env python3
"""Spells the repository's own definitions and lemmas as Rattle's names are spelt: words in snake case, a dash between two names.

usage: tools/respell.py [FOLDER..]   in the repository, or in folders that have crates/

It goes by whole names, by the table respell.tsv beside it: an old name, a tab, the new one. Sources, definitions and proofs are turned; a must-fail edit is brought over by hand.
Names that the library has too, names of functions of src/, exported names, strings and outputs are in no row.
"""

import os
import re
import sys

NAME = re.compile(r"[^\s(){}\[\],;:.@\"`λ◌]+")


def table():
    with open(os.path.join(os.path.dirname(os.path.abspath(__file__)), "respell.tsv"), encoding="utf-8") as f:
        return dict(line.rstrip("\n").split("\t") for line in f)


def turned(text, names):
    return NAME.sub(lambda m: names.get(m[0], m[0]), text)


def files(root):
    for folder, dirs, names in os.walk(os.path.join(root, "crates")):
        dirs[:] = sorted(d for d in dirs if d != "out")
        for name in sorted(names):
            if name.endswith((".antt", ".rt")):
                yield os.path.join(folder, name)


def main(roots):
    names = table()
    changed = 0
    for root in roots:
        for path in files(root):
            with open(path, encoding="utf-8") as f:
                old = f.read()
            new = turned(old, names)
            if new != old:
                changed += 1
                with open(path, "w", encoding="utf-8") as f:
                    f.write(new)
    print(f"{changed} files changed")


if __name__ == "__main__":
    main(sys.argv[1:] or ["."])
