#!/usr/bin/env python3
"""Spells this repository's definitions, lemmas and record fields as the library does: words in snake case, `'` for a prime.

usage: tools/respell.py     at the top of the repository, once, right after the kit's port.py

tools/respell.tsv has a row for each name: old, a tab, new. A whole word turns, wherever it stands in specs/ and proofs/,
in the clauses and `ghost use` lines of src/, in must-fail edits and in the code spans of README.md and docs/. Strings,
comments of src/ and names without a capital or a dash outside specs/ and proofs/ stay. Labels that the prover makes
(behind a dot in a Proof.antt) stay too, but for the fields of this repository's own records.
"""

import os
import re

HERE = os.path.dirname(os.path.abspath(__file__))
TOP = os.path.dirname(HERE)
WORD = re.compile(r'[^\s(){}.;,@"«»|\[\]\x60]+')
RUST = re.compile(r"""//[^\n]*|[bc]?"(?:\\.|[^"\\])*"|[A-Za-z_][\w'-]*|.""", re.S)
SPAN = re.compile(r"\x60[^\x60\n]+\x60")
RECORD = re.compile(r"^(\s*)(?:pub )?record ")
FIELD = re.compile(r"^\s+(?:pub )?((?:[^\s(){}:,.;=]+ )+):")


def rows():
    with open(os.path.join(HERE, "respell.tsv"), encoding="utf-8") as f:
        return dict(line.rstrip("\n").split("\t") for line in f)


def files(folder, ends):
    for d, dirs, names in os.walk(os.path.join(TOP, folder)):
        dirs[:] = sorted(n for n in dirs if n not in ("out", ".git", "target"))
        for n in sorted(names):
            if n.endswith(ends):
                yield os.path.join(d, n)


def fields():
    """The fields of the records that specs/ and proofs/ declare."""
    found = set()
    for path in files("crates", ".antt"):
        inside = None
        for line in open(path, encoding="utf-8"):
            m = RECORD.match(line)
            if m:
                inside = len(m.group(1))
            elif inside is not None and line.strip():
                if len(line) - len(line.lstrip()) <= inside:
                    inside = None
                else:
                    f = FIELD.match(line)
                    if f:
                        found.update(f.group(1).split())
    return found


def in_antt(text, table, own, proof):
    def turn(m):
        word = m.group()
        if proof and m.start() and text[m.start() - 1] == "." and word not in own:
            return word
        return table.get(word, word)

    return WORD.sub(turn, text)


def in_code(text, table):
    def turn(m):
        word = m.group()
        return table.get(word, word) if re.search(r"[A-Z-]", word) and word[0] not in '/"' else word

    return RUST.sub(turn, text)


def main():
    table, own = rows(), fields()
    changed = 0
    for folder, ends in (("crates", (".antt", ".rt", ".edit")), ("docs", ".md"), (".", "README.md")):
        for path in files(folder, ends):
            with open(path, encoding="utf-8") as f:
                old = f.read()
            if path.endswith(".antt"):
                new = in_antt(old, table, own, path.endswith("Proof.antt"))
            elif path.endswith(".md"):
                new = SPAN.sub(lambda m: in_code(m.group(), table), old)
            else:
                new = in_code(old, table)
            if new != old:
                changed += 1
                with open(path, "w", encoding="utf-8") as f:
                    f.write(new)
    print(f"respell: {changed} files changed")


if __name__ == "__main__":
    main()
