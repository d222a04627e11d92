#!/usr/bin/env python3
"""Spells the repository's own names as today's Rattle does: definitions, lemmas, fields and variables of specs/ and proofs/ in snake case.

usage: python3 tools/spell_names.py [FOLDER]

FOLDER is a checkout's top (default: the one that holds this script). It was run once, right after the kit's port.py; it prints each
name that it changes, and each file in which two names fall together. Types and modules begin with a capital and keep it; so does each part behind a dash that
begins with one. In .rt files only what stands outside string literals is touched: there such words stand in clauses, ghost imports
and comments alone, since functions of src/ are in snake case already. Names of the library that hold a capital behind an underscore
(`uint_Makes`) are not of this form and stay.
"""

import os
import re
import sys

WORD = re.compile(r"[A-Za-z_][\w'-]*")
CAMEL = re.compile(r"[a-z][a-z0-9]*(?:[A-Z][a-z0-9]*)+'*")
STRING = re.compile(r'b?"(?:[^"\\]|\\.)*"')


def spelled(part):
    if not CAMEL.fullmatch(part):
        return part
    return re.sub(r"[A-Z]", lambda m: "_" + m.group().lower(), part)


def word(w):
    return "-".join(spelled(p) for p in w.split("-"))


def antt(text):
    return WORD.sub(lambda m: word(m.group()), text)


def rt(text):
    out, last = [], 0
    for m in STRING.finditer(text):
        out += [antt(text[last : m.start()]), m.group()]
        last = m.end()
    return "".join(out + [antt(text[last:])])


def files(top):
    for folder, dirs, names in os.walk(os.path.join(top, "crates")):
        dirs[:] = sorted(d for d in dirs if d != "out")
        for name in sorted(names):
            if name.endswith((".antt", ".rt")):
                yield os.path.join(folder, name)


def main():
    words = [w for w in sys.argv[1:] if not w.startswith("--")]
    top = words[0] if words else os.path.join(os.path.dirname(os.path.abspath(__file__)), "..")
    renamed, together = {}, []
    for path in files(top):
        with open(path, encoding="utf-8") as f:
            old = f.read()
        new = antt(old) if path.endswith(".antt") else rt(old)
        if new == old:
            continue
        there = set(WORD.findall(old))
        for w in sorted(there):
            if word(w) != w:
                renamed[w] = word(w)
                if word(w) in there:
                    together.append((os.path.relpath(path, top), w, word(w)))
        with open(path, "w", encoding="utf-8") as f:
            f.write(new)
    for w in sorted(renamed):
        print(f"{w} -> {renamed[w]}")
    for path, w, n in together:
        print(f"look: {path}: {w} is now {n}, a word that stood in this file already")


if __name__ == "__main__":
    main()
