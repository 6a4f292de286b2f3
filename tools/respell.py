#!/usr/bin/env python3
"""Spells this repository's own definitions and lemmas as today's Rattle spells names: in snake case, by respell.tsv beside this file.

usage: tools/respell.py

Run once, at the top, after the kit's port.py. It turns the definitions, the lemmas, what cites them in clauses and comments of src/, the edits of must-fail/ and what the pages put between
backquotes. Functions of src/, strings, inputs and outputs keep their names. Where a definition and a lemma fall together, the lemma ends in _lem; so do the four below, whose
definition is in snake case now as they were before.
"""

import os
import re

HERE = os.path.dirname(os.path.realpath(__file__))
EDGE = r'\s(){}.;,@"«»`'
WORD = re.compile(rf"[^{EDGE}]+")
STRING = re.compile(r'"(?:[^"\\\n]|\\.)*"')
USE = re.compile(r"\buse ([^\s;{]+?)\.\{([^}]*)\}")
QUOTED = re.compile(r"`[^`\n]+`")
# Lemmas that had the snake-case spelling of a definition already, and the files that cite each as a lemma ("" for all).
LEMMAS = {"no_table": "", "every_of": "", "left_out": "", "with_part": "crates/again/proofs/Grows.antt"}
PAGES = ("README.md", "docs/CONTRACTS.md", "docs/COUNTS.md", "docs/DECISIONS.md", "docs/READING.md", "docs/SPEED.md")


def rows():
    with open(os.path.join(HERE, "respell.tsv"), encoding="utf-8") as f:
        return dict(line.rstrip("\n").split("\t") for line in f)


def own(text, table):
    """The table without what the file takes from a library."""
    crates = set(os.listdir("crates"))
    kept = set()
    for path, names in USE.findall(text):
        steps = path.split(".")
        if steps[0] != "Rattle" or steps[1] not in crates:
            kept.update(WORD.findall(names))
    return {it: new for it, new in table.items() if it not in kept}


def turned(text, table):
    def word(found):
        it = found[0]
        if it in table:
            return table[it]
        # in a comment, a name with a colon or an apostrophe behind it
        cut = re.fullmatch(r"(.+?)(:|'s|')", it)
        return table[cut[1]] + cut[2] if cut and cut[1] in table else it

    return WORD.sub(word, text)


def outside_strings(text, table):
    ends = [0]
    for it in STRING.finditer(text):
        ends += [it.start(), it.end()]
    ends.append(len(text))
    parts = [text[a:b] for a, b in zip(ends, ends[1:])]
    return "".join(part if k % 2 else turned(part, table) for k, part in enumerate(parts))


def edit(text, table):
    lines = text.split("\n")
    return "\n".join(turned(line, table) if line.startswith(("old:", "new:")) else line for line in lines)


def page(text, table):
    return QUOTED.sub(lambda it: turned(it[0], table), text)


def write(path, new):
    with open(path, encoding="utf-8") as f:
        old = f.read()
    now = new(old)
    if now != old:
        with open(path, "w", encoding="utf-8") as f:
            f.write(now)


def main():
    table = rows()
    for folder, dirs, files in os.walk("crates"):
        dirs[:] = sorted(it for it in dirs if it != "out")
        for name in sorted(files):
            path = os.path.join(folder, name)
            if name.endswith(".antt"):
                lemmas = {it: it + "_lem" for it, where in LEMMAS.items() if where in path}
                write(path, lambda text: turned(text, own(text, table | lemmas)))
            elif name.endswith(".rt"):
                write(path, lambda text: outside_strings(text, own(text, table)))
            elif name.endswith(".edit"):
                write(path, lambda text: edit(text, table))
    for path in PAGES:
        if os.path.exists(path):
            write(path, lambda text: page(text, table))


main()
