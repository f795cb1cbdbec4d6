#!/usr/bin/env python3
"""Brings the names of this repository's definitions and lemmas to today's spelling: words in snake case.

usage: python3 tools/respell.py [TOP]     once, after port.py, at the top of a checkout (or for the one at TOP)

respelled.txt beside this file has a line for each name: the old one and the new one. A lemma whose new name would be that
of the definition that it is about ends in _lem. Only whole names are turned, in contracts, definitions, proofs and edits,
and in the quoted names of the pages; strings, inputs and outputs stay, and so do the names that the check makes (after w.).
"""

import os
import re
import sys

HERE = os.path.dirname(os.path.realpath(__file__))
EDGE = r"\s(){}\[\],;.«»`"
NAME = re.compile(rf"(?P<made>(?<![^{EDGE}])w\.)?(?<![^{EDGE}])(?P<name>[^{EDGE}\"]+)")
STRING = re.compile(r'("(?:[^"\\\n]|\\.)*")')
QUOTED = re.compile(r"(`[^`\n]*`)")


def table():
    with open(os.path.join(HERE, "respelled.txt"), encoding="utf-8") as f:
        return dict(line.split() for line in f)


def respelled(text, names):
    def one(m):
        name = m.group("name")
        if m.group("made") and name.endswith("-is"):
            return m.group(0)
        return (m.group("made") or "") + names.get(name, name)

    return NAME.sub(one, text)


def turned(path, text, names):
    if path.endswith(".antt"):
        return respelled(text, names)
    if path.endswith(".rt"):
        return "".join(part if part.startswith('"') else respelled(part, names) for part in STRING.split(text))
    if path.endswith(".edit"):
        lines = text.split("\n")
        return "\n".join(line if line.startswith("file:") else respelled(line, names) for line in lines)
    return "".join(respelled(part, names) if part.startswith("`") else part for part in QUOTED.split(text))


def files(top):
    for folder, folders, names in os.walk(os.path.join(top, "crates")):
        folders[:] = sorted(f for f in folders if f != "out")
        for name in sorted(names):
            if name.endswith((".antt", ".rt", ".edit")):
                yield os.path.join(folder, name)
    for folder in (top, os.path.join(top, "docs")):
        for name in sorted(os.listdir(folder)):
            if name.endswith(".md") and not name.startswith("PORT"):
                yield os.path.join(folder, name)


def main():
    top = sys.argv[1] if len(sys.argv) > 1 else os.path.join(HERE, "..")
    names = table()
    count = 0
    for path in files(top):
        with open(path, encoding="utf-8") as f:
            text = f.read()
        new = turned(path, text, names)
        if new != text:
            with open(path, "w", encoding="utf-8") as f:
                f.write(new)
            count += 1
    print(f"respell: {count} files changed")


main()
