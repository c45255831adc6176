#!/usr/bin/env python3
"""Brings this repository's own definitions, lemmas and fields to today's spelling: words in snake case, types in camel case.

usage: python3 tools/respell.py      once, at the top, after the toolchain's port.py

tools/respelled.tsv has a line for each name: where (a path's beginning, or *), the old name, the new one. Names are taken whole; texts in
quotes stay. Each file below crates/ that holds code, definitions or proofs is rewritten in place.
"""
import glob
import os
import re

NAME = re.compile(r"\"(?:[^\"\\\n]|\\.)*\"|[^\s(){}\[\],;.:\\|@`\"]+")
HERE = os.path.dirname(os.path.realpath(__file__))


def table():
    with open(os.path.join(HERE, "respelled.tsv"), encoding="utf-8") as f:
        return [line.rstrip("\n").split("\t") for line in f]


def main():
    everywhere = {old: new for where, old, new in table() if where == "*"}
    files = [f for end in ("antt", "rt") for f in sorted(glob.glob(f"crates/*/[sp]*/**/*.{end}", recursive=True))]
    for path in files:
        names = dict(everywhere)
        names.update({old: new for where, old, new in table() if where != "*" and path.startswith(where)})
        with open(path, encoding="utf-8") as f:
            text = f.read()
        turned = NAME.sub(lambda m: names.get(m.group(0), m.group(0)), text)
        if turned != text:
            with open(path, "w", encoding="utf-8") as f:
                f.write(turned)


main()
