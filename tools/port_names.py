#!/usr/bin/env python3
"""Brings this repository's own names in specs/ and proofs/ to snake case, as today's Rattle spells them.

usage: python3 tools/port_names.py [--said]     at the top, once, right after /opt/rattle/port/port.py

Words of a name become snake case (`chunkAt` is `chunk_at`); a dash still joins two names (`length-putEach` is `length-put_each`).
Types and modules keep their capital. Only names that the repository declares in an .antt file are turned, wherever they stand: in
.antt files, in clauses and comments of .rt files, and in must-fail edits. With --said it only lists what would be turned, and which
new names stood in the tree already.
"""

import os
import re
import sys

NAME = r"[A-Za-z_][\w'₀-₉-]*"
DECLARED = re.compile(
    r"^\s*(?:pub |unfoldable |abbrev )*(?:data |record )?(?:pub )?(" + NAME + r"(?: " + NAME + r")*) : ", re.M)
# lemmas whose names would fall together with that of a definition that is turned
LEMMAS = {"goes_on": "goes_on_lem", "in_rows": "in_rows_lem", "same_size": "same_size_lem"}
# a lemma's name that holds a word of the older library
OF_LIBRARY = {"getD": "get_or"}
TOKEN = re.compile(r"(?<![\w'-])[a-z][\w'₀-₉-]*")


def files(root):
    for top in ("crates",):
        for folder, dirs, names in os.walk(os.path.join(root, top)):
            dirs[:] = sorted(d for d in dirs if d not in ("out", ".git"))
            for f in sorted(names):
                if f.endswith((".antt", ".rt", ".edit")):
                    yield os.path.join(folder, f)


def read(path):
    with open(path, encoding="utf-8") as f:
        return f.read()


def snake(part):
    if part in OF_LIBRARY:
        return OF_LIBRARY[part]
    if not re.match(r"[a-z][a-z0-9_]*[A-Z]", part):
        return part
    return re.sub(r"(?<=[a-z0-9])([A-Z])", lambda m: "_" + m.group(1).lower(), part)


def turned(name):
    return "-".join(snake(p) for p in name.split("-"))


def main(said):
    root = os.getcwd()
    paths = list(files(root))
    declared, tokens = set(), set()
    for p in paths:
        text = read(p)
        tokens.update(TOKEN.findall(text))
        if p.endswith(".antt"):
            for m in DECLARED.finditer(text):
                declared.update(m.group(1).split(" "))
    # names of locals and of old words in comments, which nothing declares
    declared.update(["entryAt", "blockAt", "linesFrom", "noChunk", "inTurn", "kindOf", "getD", "getD-rule"])
    renames = {n: turned(n) for n in declared if n[0].islower() and turned(n) != n}
    clash = sorted((n, t) for n, t in renames.items() if t in tokens)
    twice = {}
    for n, t in renames.items():
        twice.setdefault(t, []).append(n)
    for n, t in clash:
        print("stood already:", n, "->", t)
    for t, ns in sorted(twice.items()):
        if len(ns) > 1:
            print("fall together:", ns, "->", t)
    if said:
        for n in sorted(renames):
            print(n, "->", renames[n])
        return
    for p in paths:
        text = read(p)
        new = text
        if p.endswith(".antt"):
            new = TOKEN.sub(lambda m: LEMMAS.get(m.group(0), m.group(0)), new)
        new = TOKEN.sub(lambda m: renames.get(m.group(0), m.group(0)), new)
        if new != text:
            with open(p, "w", encoding="utf-8") as f:
                f.write(new)


main("--said" in sys.argv[1:])
