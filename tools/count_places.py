#!/usr/bin/env python3
"""Counts the places of older forms in crates/*/src, point by point, and prints each.

    python3 tools/count_places.py            the counts
    python3 tools/count_places.py --lines    the counts and the lines

What a point is stands in docs/DESIGN-PASS.md. Points 1, 3, 4, 6 and 7 are lines that fit a pattern; point 2 is groups of
functions whose bodies are the same once names of types and cases, numbers and texts are left out (and, with the longer bodies, all
other names too); point 5 is clauses, terms and pairs of parameters that stand in three functions or more.
"""
import collections
import pathlib
import re
import sys

LINES = "--lines" in sys.argv
FILES = sorted(pathlib.Path("crates").glob("*/src/**/*.rt"))


def code(text):
    """The text without its comments."""
    return re.sub(r"//[^\n]*", "", text)


SOURCES = {f: code(f.read_text()) for f in FILES}

PATTERNS = {
    "1 a flag among the fields or parameters": r"^\s+(?:pub(?:\([a-z]+\))? )?\w+: bool,",
    "1 a number for a side, kind, mark or hidden mark": r"\b(?:side|kind|mark|hidden): u32",
    "1 a cleared row for none": r"\b(?:row|found)\.left == 0|next_row\([^)]*\)\.left",
    "3 an index or count kept by hand": r"\+= 1;|saturating_add\(1\)",
    "3 a loop over an index": r"^\s*for \(\w+, \w+\) in .*enumerate\(\)|^\s*while \w+ < ",
    "4 a conversion or word by a function of its own": r"fn (?:code|from_code|number|byte|row|order|\w+_code|\w+_rank|\w+_words?)\(",
    "4 a test by a match on every case": r"^\s+\S.* => (?:true|false),",
    "4 none or error handed on by hand": r"Some\(\w+\) => Some\(|Ok\((\w+)\) => Ok\(\1\)|else \{\s*return None;",
    "4 an empty value written out": r"(?:buyer|cancelled): 0,",
    "6 a list beside a count of what it holds": r": \[(?:Row|Fill); ",
    "7 a switch on which step to run": r"\bfn\(|\[fn|: fn\b",
}


def functions(text):
    """Name, parameters, contract and body of each function."""
    for m in re.finditer(r"\bfn (\w+)", text):
        start = text.find("(", m.end())
        if start < 0:
            continue
        depth, at = 0, start
        while at < len(text):
            depth += text[at] in "(" or 0
            depth -= text[at] in ")" or 0
            at += 1
            if depth == 0:
                break
        params = text[start + 1 : at - 1]
        # The body is the first brace in front of which no clause's name stands.
        clauses = []
        while at < len(text):
            brace, semi = text.find("{", at), text.find(";", at)
            if brace < 0 or 0 <= semi < brace:
                body = None
                break
            head = text[at:brace]
            depth, end = 0, brace
            while end < len(text):
                depth += text[end] == "{"
                depth -= text[end] == "}"
                end += 1
                if depth == 0:
                    break
            if re.search(r"\b(?:requires|ensures)\b[^{]*$", head):
                clauses.append(text[brace + 1 : end - 1].strip())
                at = end
                continue
            body = text[brace + 1 : end - 1]
            break
        yield m.group(1), params, clauses, body


def shape(body):
    """The body without names of types and cases, numbers and texts."""
    s = re.sub(r'b?"(?:[^"\\]|\\.)*"', "TEXT", body)
    s = re.sub(r"\b[A-Z]\w*(?:::[A-Z]\w*)*\b", "T", s)
    s = re.sub(r"\b\d[\d_]*(?:_?[ui]\d+|usize)?\b", "N", s)
    return re.sub(r"\s+", " ", s).strip()


def frame(body):
    """The body with each name of a value, a field or a function left out too."""
    return re.sub(r"\b(?!let|mut|if|else|match|for|in|while|return|fn|as|move|true|false)[a-z_]\w*\b", "n", shape(body))


def show(title, found):
    print(f"{len(found):4d}  {title}")
    if LINES:
        for it in found:
            print(f"        {it}")


def main():
    for title, pattern in PATTERNS.items():
        found = []
        for f, text in SOURCES.items():
            for m in re.finditer(pattern, text, re.M):
                line = text.count("\n", 0, m.end() - 1) + 1
                found.append(f"{f}:{line}: {text.splitlines()[line - 1].strip()}")
        show(title, found)
    twins, frames, clauses, params = (collections.defaultdict(list) for _ in range(4))
    for f, text in SOURCES.items():
        for name, given, said, body in functions(text):
            where = f"{f.parent.parent.name}::{f.stem}::{name}"
            if body is not None and len(shape(body)) > 30:
                twins[shape(body)].append(where)
                if len(frame(body)) > 50:
                    frames[frame(body)].append(where)
            for clause in said:
                clauses[re.sub(r"\s+", " ", clause)].append(where)
                for part in re.findall(r"\([^()]*\)", clause):
                    if part.count(" ") >= 3:
                        clauses[part].append(where)
            kinds = [p.strip() for p in re.split(r",(?![^<\[(]*[>\])])", given) if ":" in p]
            for i in range(len(kinds)):
                for j in range(i + 1, len(kinds)):
                    params[(kinds[i], kinds[j])].append(where)
    show("2 groups of functions of one shape", [", ".join(w) for w in twins.values() if len(w) > 1])
    show("2 more groups of one frame", [", ".join(w) for w in frames.values() if len(w) > 1])
    show("5 a clause or a term that stands in the contracts of three functions or more", [f"{len(set(w))}: {c}" for c, w in clauses.items() if len(set(w)) > 2 and c.count(" ") >= 3])
    show("5 two parameters that stand together in three functions or more", [f"{len(set(w))}: {a}, {b}" for (a, b), w in params.items() if len(set(w)) > 2])


main()
