#!/usr/bin/env python3
"""Writes the must-fail edits in the spelling that the sources have since the port, so that each finds its place again.

usage: tools/respell_edits.py

An edit's texts are turned by the same rules as the files that it changes: names by tools/respell.tsv, projections written tight, a prime as an
apostrophe, `now (x .entry)` as `x.old`, and the library's words that the texts of these edits name. Each edit that does not find its place is printed.
A second run changes nothing.
"""

import glob
import os
import re

TOP = os.path.dirname(os.path.dirname(os.path.realpath(__file__)))
PLAIN = [("′", "'"), ("List·Memᴰ", "Memᴰ"), ("_≡_", "◌≡◌"), ("_+_", "◌+◌"), ("_⊎_", "◌⊎◌")]
TURNED = [
    (r"\bnow \((\w+) \.entry\)", r"\1.old"),
    (r"\bnow \((\w+) \.exit\)", r"\1.new"),
    (r"\(now (\w+)\)", r"\1.now"),
    (r"\((\w+\.(?:old|new|now))\)", r"\1"),
    (r"(?<=[\w')₀-₉]) \.(?=[a-z«])", "."),
    (r"\bgetD\b", "get_or"),
]


def turned(text):
    for a, b in PLAIN:
        text = text.replace(a, b)
    for a, b in TURNED:
        text = re.sub(a, b, text)
    return text


def places(crate, pairs):
    """How often the first text that does not stand once stands, or 1; the pairs apply one after the other."""
    texts = {}
    for file, old, new in pairs:
        path = os.path.join(crate, file)
        if path not in texts:
            with open(path, encoding="utf-8") as f:
                texts[path] = f.read()
        n = texts[path].count(old)
        if n != 1:
            return n
        texts[path] = texts[path].replace(old, new)
    return 1


def pairs_of(lines):
    out, file, old = [], None, None
    for line in lines:
        key, _, text = line.partition(": ")
        if key == "file":
            file = text.strip()
        elif key == "old":
            old = text
        elif key == "new":
            out.append((file, old, text))
        elif line in ("old:", "new:"):
            out.append((file, old, ""))
    return out


def main():
    bad = 0
    for path in sorted(glob.glob(os.path.join(TOP, "crates", "*", "must-fail*", "*.edit"))):
        crate = os.path.dirname(os.path.dirname(path))
        with open(path, encoding="utf-8") as f:
            text = f.read()
        if places(crate, pairs_of(text.split("\n"))) == 1 and turned(text) == text:
            continue
        new = "\n".join(turned(line) if re.match(r"(old|new): ", line) else line for line in text.split("\n"))
        if new != text:
            with open(path, "w", encoding="utf-8") as f:
                f.write(new)
        n = places(crate, pairs_of(new.split("\n")))
        if n != 1:
            bad += 1
            print(f"{os.path.relpath(path, TOP)}: stands {n} times")
    print(f"{bad} edits do not find their place")


main()
