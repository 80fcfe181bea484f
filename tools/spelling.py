#!/usr/bin/env python3
"""Brings the names of definitions and lemmas to snake case, in specs/, proofs/, the clauses of src/ and the must-fail edits.

usage: python3 tools/spelling.py    at the top of the repository, once, behind the kit's port.py

A name in camel case that begins small goes to snake case. In a lemma's name a dash stays only between two names of definitions, as in
`length-append`; every other one is `_`, and a lemma that would have its definition's name gets `_lem`. Types, modules, functions of
src/, strings and files of input keep their spelling.
It prints each name that it turns, and stops, with nothing written, where two names would fall together in one file.
"""

import glob
import re
import sys

MARKS = {"pub", "abbrev", "unfoldable", "opaque"}
TOKEN = re.compile(r'"[^"\n]*"|[^\s(){}\[\].,;@"`⌜⌝]+')
CAMEL = re.compile(r"[a-z][a-z0-9]*([A-Z][a-z0-9]*)+$")
# words of the library that lemmas here are about
LIBRARY = {"length", "append", "take", "drop", "map", "replicate", "cond", "min", "max", "leb", "ltb", "eqb", "add", "sub", "mul", "div", "mod", "pow", "le", "lt"}


def declared(path):
    """The names that a file of antt declares at its top, in its records and in its data: (name, is a definition)."""
    block, lemma = False, "/proofs/" in path
    for line in open(path, encoding="utf-8"):
        text = line.rstrip("\n")
        if not text.strip() or text.lstrip().startswith("--") or text.startswith("use "):
            continue
        if re.match(r"(pub )?(record|data) ", text):
            block = True
            continue
        indent = len(text) - len(text.lstrip())
        if indent == 0:
            block = False
        if indent > 2 and not block or " : " not in text:
            continue
        words = text.split(" : ")[0].split()
        if all(re.match(r'[^(){}\[\].,;:"=λ]+$', w) for w in words):
            names = [w for w in words if w not in MARKS]
            if indent == 0 or block or len(names) == 1:
                for n in names:
                    yield n, indent == 0 and (not lemma or set(words) & MARKS - {"pub"})


def snake(name):
    return re.sub(r"(?<=[a-z0-9])([A-Z])", lambda m: "_" + m.group(1).lower(), name).lower()


def dashed(name, definitions):
    """A lemma's name with a dash only between two definitions' names."""
    parts = name.split("-")
    whole = "_".join(parts)
    if whole in definitions:
        return whole + "_lem"
    for i in range(1, len(parts)):
        left, right = "_".join(parts[:i]), "_".join(parts[i:])
        if left in definitions and right in definitions:
            return left + "-" + right
    return whole


def clauses(text):
    """The spans of a .rt file that are antt: lines of `ghost use` and what stands in the braces of a clause."""
    for m in re.finditer(r"^ghost use .*$", text, re.M):
        yield m.span()
    for m in re.finditer(r"^ +(requires|ensures)( \w+)? \{", text, re.M):
        depth, i = 1, m.end()
        while depth:
            depth += {"{": 1, "}": -1}.get(text[i], 0)
            i += 1
        yield m.end(), i - 1


def main():
    files = sorted(glob.glob("crates/*/specs/**/*.antt", recursive=True) + glob.glob("crates/*/proofs/**/*.antt", recursive=True))
    own = [f for f in files if "/specs/" in f or f.count("/") == 3]
    names = [n for f in own for n in declared(f)]
    definitions = LIBRARY | {snake(n) for n, is_definition in names if is_definition and n[0].islower()}
    turn = {}
    for n, _ in names:
        if CAMEL.match(n):
            turn[n] = snake(n)
        elif "-" in n and n[0].islower():
            new = dashed(n, definitions)
            if new != n:
                turn[n] = new
    texts, bad = {}, []

    def respelled(text):
        return TOKEN.sub(lambda m: turn.get(m.group(0), m.group(0)), text)

    for f in files:
        text = open(f, encoding="utf-8").read()
        there = set(TOKEN.findall(text))
        for new in {turn[t] for t in there if t in turn} if f in own else ():
            olds = {t for t in there if turn.get(t, t) == new}
            if len(olds) > 1:
                bad.append(f"{f}: {', '.join(sorted(olds))} -> {new}")
        texts[f] = respelled(text)
    for f in sorted(glob.glob("crates/*/src/**/*.rt", recursive=True)):
        text = open(f, encoding="utf-8").read()
        for a, b in sorted(clauses(text), reverse=True):
            text = text[:a] + respelled(text[a:b]) + text[b:]
        texts[f] = re.sub(r"^ *//.*$", lambda m: TOKEN.sub(lambda t: turn.get(t.group(0), t.group(0)) if CAMEL.match(t.group(0)) else t.group(0), m.group(0)), text, flags=re.M)
    for f in sorted(glob.glob("crates/*/must-fail/*.edit")):
        text = open(f, encoding="utf-8").read()
        texts[f] = re.sub(r"^(old|new): .*$", lambda m: respelled(m.group(0)), text, flags=re.M)
    if bad:
        print("names that would fall together:\n" + "\n".join(bad))
        return 1
    for f, text in texts.items():
        with open(f, "w", encoding="utf-8") as out:
            out.write(text)
    for n in sorted(turn):
        print(n, "->", turn[n])
    return 0


if __name__ == "__main__":
    sys.exit(main())
