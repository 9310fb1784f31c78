#!/usr/bin/env python3
"""Writes the definitions, lemmas and fields of this repository in the spelling of Rattle's own: words in snake case.

usage: tools/respell.py [--pages]

It reads tools/respell.tsv, a line for each name: the old spelling, a tab, the new one. A name stands alone: what is only a part of a longer
name stays. Files: .rt, .antt and .edit below crates/; with --pages the pages, scripts and tools beside them in place of these.
Where a lemma had come to the new name of a definition, it gets '_lem' first: LEMMAS says which, and in which files.
A second run changes nothing.
"""

import os
import re
import sys

TOP = os.path.dirname(os.path.dirname(os.path.realpath(__file__)))
# A lemma whose name a definition takes: its crate's files in which the bare name is the lemma, and not a function of src/ or a step of a proof.
LEMMAS = "any_below entry_in first_some goes_over in_order in_place no_walk of_row stands_after stands_at two_bytes with_entries out_of_range at_exit".split()
# A constructor, which keeps the dash of those beside it.
OTHER = {"no_walk": "no-walk"}
BEFORE, AFTER = r"(?<![\w'₀-₉◌.«-])", r"(?![\w'₀-₉-])"
DECLARED = r"(?m)^\s*(?:pub )?%s :"


def files(pages):
    for folder, dirs, names in os.walk(TOP if pages else os.path.join(TOP, "crates")):
        dirs[:] = sorted(d for d in dirs if d not in ("out", "target", ".git") and not (pages and folder == TOP and d in ("crates", "tools")))
        for name in sorted(names):
            if pages and name not in ("PORT.md",) or name.endswith((".rt", ".antt", ".edit")):
                yield os.path.join(folder, name)


def main(pages):
    with open(os.path.join(TOP, "tools", "respell.tsv"), encoding="utf-8") as f:
        table = dict(line.rstrip("\n").split("\t") for line in f)
    name = re.compile(r"(?<![\w'₀-₉◌«-])(" + "|".join(sorted(map(re.escape, table), key=len, reverse=True)) + r")" + AFTER)
    paths = list(files(pages))
    texts = {}
    for p in paths:
        try:
            with open(p, encoding="utf-8", newline="") as f:
                texts[p] = f.read()
        except UnicodeDecodeError:
            pass
    lemma_files = {}
    if not pages:
        for w in LEMMAS:
            bare = re.compile(BEFORE + w + AFTER)
            declared = re.compile(DECLARED % w)
            homes = [p for p, t in texts.items() if p.endswith(".antt") and declared.search(t)]
            for p in homes:
                lemma_files.setdefault(p, set()).add(w)
            modules = ["Rattle." + os.path.relpath(p, os.path.join(TOP, "crates")).removesuffix(".antt").replace("/", ".") for p in homes]
            for p, t in texts.items():
                if p.endswith(".antt"):
                    for m in re.finditer(r"(?m)^\s*(?:pub )?use (\S+)\.\{([^}]*)\}", t):
                        if m[1] in modules and bare.search(m[2]):
                            lemma_files.setdefault(p, set()).add(w)
    changed = 0
    for p, t in texts.items():
        new = t
        for w in sorted(lemma_files.get(p, ())):
            new = re.sub(r"(?m)^( *--.*)$|" + BEFORE + w + AFTER, lambda m: m[1] or OTHER.get(w, w + "_lem"), new)
        new = name.sub(lambda m: table[m[1]], new)
        if new != t:
            with open(p, "w", encoding="utf-8", newline="") as f:
                f.write(new)
            changed += 1
    print(f"{changed} files of {len(texts)}")


main("--pages" in sys.argv[1:])
