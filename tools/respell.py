#!/usr/bin/env python3
"""Spells the names that this repository declares in specs/ and proofs/ as today's Rattle does: words in snake case.

usage: python3 tools/respell.py            at the top of the repository: rewrites the files of crates/ in place
       python3 tools/respell.py --list     prints the old names and the new ones, and changes nothing

A name is changed where a file of specs/, or a file of lemmas in proofs/, declares it and it has a dash or a capital after a small letter, as `row-at` or
`rowAt`. A part that begins with a capital names a type or a fact: there the dash stays. A name that a file imports from a library keeps its spelling. A lemma that
would get the name of a word that is declared too gets `_lem` after its own.
"""

import re
import sys
from pathlib import Path

WORD = re.compile(r"[^\s(){}\[\],.;\"`]+")
DECLARED = re.compile(r"^\s*(?:(?:pub|abbrev|unfoldable|record|data|ruleset)\s+)*([^\s(){}\[\],.;:]+)(?:\s+\{[^}]*\}|\s+\([^)]*\))*\s+:(?:\s|$)", re.M)
LIBRARY = re.compile(r"^\s*(?:ghost )?use (?:mathlib|lib|native|borrow|Prim|denote|Rattle\.(?:std|core))[^\n{]*\{([^}]*)\}", re.M)


def files(top):
    for pattern in ("crates/*/specs/**/*.antt", "crates/*/proofs/**/*.antt", "crates/*/src/**/*.rt"):
        yield from sorted(top.glob(pattern))


def snake(name):
    parts = name.split("-")
    turned = []
    for part in parts:
        if not part[:1].isupper():
            part = re.sub(r"(?<=[a-z0-9])([A-Z])", lambda m: "_" + m.group(1).lower(), part)
        turned.append(part)
    out = turned[0]
    for before, after in zip(turned, turned[1:]):
        out += ("-" if before[:1].isupper() or after[:1].isupper() else "_") + after
    return out


def main():
    top = Path(".")
    texts = {f: f.read_text(encoding="utf-8") for f in files(top)}
    declared, library = set(), set()
    for f, text in texts.items():
        for m in LIBRARY.finditer(text):
            library.update(WORD.findall(m.group(1)))
        lemmas = f.suffix == ".antt" and ("specs" in f.parts or f.parent.name == "proofs")
        if lemmas:
            declared.update(m.group(1) for m in DECLARED.finditer(text))
    # words first, then lemmas: a lemma that would have its word's name gets `_lem`
    turned = {n: snake(n) for n in declared if "-" not in n and not n[:1].isupper() and n not in library}
    taken = set(turned.values()) | {n for n in declared if "-" not in n and n not in turned} | library
    for n in sorted(declared):
        if "-" in n and not n[:1].isupper() and n not in library:
            turned[n] = snake(n) + "_lem" if snake(n) in taken else snake(n)
    turned = {n: s for n, s in turned.items() if s != n}
    words = set()
    for text in texts.values():
        words.update(WORD.findall(text))
    back = {}
    for n, s in sorted(turned.items()):
        back.setdefault(s, []).append(n)
    for s, olds in sorted(back.items()):
        if len(olds) > 1:
            print("falls together:", s, "from", ", ".join(olds))
        if s in words:
            print("stands already:", s, "from", ", ".join(olds))
    if "--list" in sys.argv:
        for n, s in sorted(turned.items()):
            print(n, s)
        return
    for f, text in texts.items():
        new = WORD.sub(lambda m: turned.get(m.group(0), m.group(0)), text)
        if new != text:
            f.write_text(new, encoding="utf-8")
    print(len(turned), "names spelled anew")


main()
