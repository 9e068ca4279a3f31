#!/usr/bin/env python3
"""Respells this repository's own definitions and lemmas: words in snake case, facts and types in camel case.

usage: respell.py [TOP]      TOP is the top of a checkout, by default the one that holds this script

respell.tsv beside it has a row for each name: the old spelling, a tab, the new one. A name turns where it stands as a whole
word: in specs/ and proofs/, comments included, and in src/, where only clauses and comments have such names. Strings stay.
A second run changes nothing.
"""

import pathlib
import re
import sys

HERE = pathlib.Path(__file__).resolve().parent
STRING = re.compile(r'b?"(?:[^"\\\n]|\\.)*"')
WORD = re.compile(r"[^\s(){}\[\].;,:`\"«»]+")


def table():
    rows = (HERE / "respell.tsv").read_text(encoding="utf-8").splitlines()
    return dict(row.split("\t") for row in rows if row)


def respelled(text, names):
    def word(found):
        return names.get(found[0], found[0])

    parts, at = [], 0
    for string in STRING.finditer(text):
        parts += [WORD.sub(word, text[at : string.start()]), string[0]]
        at = string.end()
    return "".join(parts) + WORD.sub(word, text[at:])


def main():
    top = pathlib.Path(sys.argv[1]) if len(sys.argv) > 1 else HERE.parent
    names, changed = table(), 0
    for path in sorted((top / "crates").glob("*/**/*")):
        if path.suffix not in (".rt", ".antt") or "out" in path.parts:
            continue
        old = path.read_text(encoding="utf-8")
        new = respelled(old, names)
        if new != old:
            path.write_text(new, encoding="utf-8")
            changed += 1
    print(f"respell: {changed} files changed")


if __name__ == "__main__":
    main()
