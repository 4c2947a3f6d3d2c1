#!/usr/bin/env python3
"""Brings the repository's own words to snake case: run once, at the top, after the kit's port.py.

A word that begins with a small letter and has a capital in it, as `rulesOf` or the first part of
`hasRing-ring`, becomes `rules_of` and `has_ring-ring`. Such words are definitions and lemmas only:
functions are in snake case already, types begin with a capital, and no string has one.
Then the words of port_names.txt: definitions and lemmas that a dash joins, where what it joins are
not two names. In comments and pages they are changed in backquotes only.
"""
import glob
import os
import re

CAMEL = re.compile(r"(?<![A-Za-z0-9_'/])[a-z][a-z0-9]*(?:[A-Z][a-z0-9]*)+(?![A-Za-z0-9])")
WORD = re.compile(r"(?<![A-Za-z0-9_'·₀-₉ℕ-])[A-Za-z0-9_ℕ][A-Za-z0-9_'·₀-₉ℕ-]*")
QUOTED = re.compile(r"`[^`\n]*`")


def snake(word):
    return re.sub(r"[A-Z]", lambda m: "_" + m.group(0).lower(), word)


def camels(text):
    return CAMEL.sub(lambda m: snake(m.group(0)), text)


def words(text, table):
    return WORD.sub(lambda m: table.get(m.group(0), m.group(0)), text)


def quoted(text, table):
    return QUOTED.sub(lambda m: words(m.group(0), table), text)


def turned(name, text, table):
    text = camels(text)
    if name.endswith(".md"):
        return quoted(text, table)
    mark = "-- " if name.endswith(".antt") else "// "
    lines = []
    for line in text.split("\n"):
        at = line.find(mark)
        if name.endswith(".edit") or name.endswith(".txt") or at < 0:
            lines.append(words(line, table))
        else:
            lines.append(words(line[:at], table) + quoted(line[at:], table))
    return "\n".join(lines)


def main():
    here = os.path.dirname(os.path.abspath(__file__))
    with open(os.path.join(here, "port_names.txt"), encoding="utf-8") as f:
        table = dict(line.split() for line in f)
    places = ["crates/*/specs/**/*.antt", "crates/*/proofs/**/*.antt", "crates/*/src/**/*.rt", "crates/*/must-fail/*.edit",
              "README.md", "docs/*.md", "samples/*.md", "tests/documents/*.txt"]
    count = 0
    for place in places:
        for name in sorted(glob.glob(place, recursive=True)):
            with open(name, encoding="utf-8", newline="") as f:
                old = f.read()
            new = turned(name, old, table)
            if new != old:
                with open(name, "w", encoding="utf-8", newline="") as f:
                    f.write(new)
                count += 1
    print(count, "files changed")


if __name__ == "__main__":
    main()
