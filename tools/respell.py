#!/usr/bin/env python3
"""Brings the repository's own definitions and lemmas to snake case, as std spells its own.

usage: python3 tools/respell.py        at the top of a repository that /opt/rattle/port/port.py has just turned

Each row of respell.tsv, beside this script, is a name and its new spelling. Names turn as whole words: in .antt files
everywhere but in quoted text; in .rt files in clauses, ghost items and ghost fields alone, so functions, fields and
strings of the code keep their names. A name behind `goal.` stays, since Rattle makes those. Run it once: some old
spellings are new spellings of other names.
"""

import os
import re
import sys

HERE = os.path.dirname(os.path.realpath(__file__))
WORD = re.compile(r"(?<![\w'-])[A-Za-z][\w'-]*")
GHOST = re.compile(r"\bghost\s+use\b[^;]*;|\b(?:requires|ensures)\b[^{;\n]*\{|\bghost\b[^{;\n]*\{")


def table():
    with open(os.path.join(HERE, "respell.tsv"), encoding="utf-8") as f:
        return dict(line.rstrip("\n").split("\t") for line in f if line.strip())


def turn(text, names):
    def one(m):
        if text[: m.start()].endswith("goal."):
            return m[0]
        return names.get(m[0], m[0])

    return WORD.sub(one, text)


def closing(text, at):
    """The place behind the brace that closes the one right before `at`."""
    depth = 1
    while depth:
        depth += {"{": 1, "}": -1}.get(text[at], 0)
        at += 1
    return at


def turn_rust(text, names):
    out, at = [], 0
    while m := GHOST.search(text, at):
        end = closing(text, m.end()) if m[0].endswith("{") else m.end()
        out += [text[at : m.start()], turn(text[m.start() : end], names)]
        at = end
    return "".join(out) + text[at:]


def main():
    names = table()
    for folder, dirs, files in os.walk("crates"):
        dirs[:] = sorted(d for d in dirs if d != "out")
        for name in sorted(files):
            path = os.path.join(folder, name)
            if not name.endswith((".antt", ".rt")):
                continue
            with open(path, encoding="utf-8") as f:
                old = f.read()
            new = (turn if name.endswith(".antt") else turn_rust)(old, names)
            if new != old:
                with open(path, "w", encoding="utf-8") as f:
                    f.write(new)


if __name__ == "__main__":
    sys.exit(main())
