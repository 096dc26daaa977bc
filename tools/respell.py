#!/usr/bin/env python3
"""Brings the repository's own definitions and lemmas to today's spelling: words in snake case, types in camel case.

usage: python3 tools/respell.py        at the top of a checkout, once, after the toolchain's own port.py

tools/respell.tsv has a line for each name, old and new. Only whole names are turned, in specs/, proofs/ and the clauses of src/:
no function of src/ has a dash in its name, and strings of src/ are left alone.
"""

import glob
import os
import re

HERE = os.path.dirname(os.path.realpath(__file__))


def table():
    with open(os.path.join(HERE, "respell.tsv"), encoding="utf-8") as f:
        return dict(line.rstrip("\n").split("\t") for line in f if line.strip())


def turned(text, names, source):
    word = re.compile(r"(?<![\w'-])(" + "|".join(re.escape(n) for n in sorted(names, key=len, reverse=True)) + r")(?![\w'-])")
    if not source:
        return word.sub(lambda m: names[m.group(1)], text)
    # the odd parts of a split at strings are the strings
    parts = re.split(r'("(?:[^"\\\n]|\\.)*")', text)
    return "".join(p if i % 2 else word.sub(lambda m: names[m.group(1)], p) for i, p in enumerate(parts))


def main():
    names = table()
    assert len(set(names.values())) == len(names), "two names would fall together"
    for pattern in ("crates/*/specs/**/*.antt", "crates/*/proofs/**/*.antt", "crates/*/src/**/*.rt"):
        for path in sorted(glob.glob(pattern, recursive=True)):
            with open(path, encoding="utf-8") as f:
                old = f.read()
            new = turned(old, names, path.endswith(".rt"))
            if new != old:
                with open(path, "w", encoding="utf-8") as f:
                    f.write(new)
                print(path)


main()
