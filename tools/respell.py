#!/usr/bin/env python3
"""Respells the project's own definitions, records and lemmas: facts in camel case, everything else in snake case.

usage: python3 tools/respell.py            at the top of the repository, once, after the kit's port.py

The table is tools/respell.txt: on each line an old name, its new name and, where it stands for some crates alone, their
names. A name is replaced where it stands as a whole word: in .antt files outside comments and strings, in .rt files in
`ghost` lines and clauses. Names of functions, types and exported symbols of src/ are not in the table.
"""

import glob
import re

TABLE = "tools/respell.txt"
WORD = re.compile(r"[^\s(){}\[\],;:.\"`λ∷≡→×⌜⌝]+")
CLAUSE = re.compile(r"^\s*(pub )?(ghost|requires|ensures|unfolding)\b")


def table():
    for line in open(TABLE, encoding="utf-8"):
        old, new, *crates = line.split()
        yield old, new, crates


def names_of(crate, rows):
    return {old: new for old, new, crates in rows if not crates or crate in crates}


def turned(text, names):
    """The text with its words replaced, but for those in double quotes."""
    parts = text.split('"')
    parts[::2] = [WORD.sub(lambda m: names.get(m.group(), m.group()), p) for p in parts[::2]]
    return '"'.join(parts)


def antt_line(line, names):
    code, dashes, comment = line.partition("--")
    return turned(code, names) + dashes + comment


def rt_lines(lines, names):
    """Only ghost lines and clauses; a clause goes on while its braces are open."""
    open_braces = 0
    for line in lines:
        if open_braces > 0 or CLAUSE.match(line):
            open_braces += line.count("{") - line.count("}")
            line = turned(line, names)
        yield line


def main():
    rows = list(table())
    for path in sorted(glob.glob("crates/*/**/*.antt", recursive=True) + glob.glob("crates/*/src/**/*.rt", recursive=True)):
        names = names_of(path.split("/")[1], rows)
        old = open(path, encoding="utf-8").read()
        lines = old.split("\n")
        new = "\n".join((antt_line(l, names) for l in lines) if path.endswith(".antt") else rt_lines(lines, names))
        if new != old:
            open(path, "w", encoding="utf-8").write(new)


main()
