#!/usr/bin/env python3
"""Brings the names of definitions, lemmas and record fields of specs/ and proofs/ to snake case.

usage: tools/respell.py [--list]     at the top of the repository, once, right after the kit's port.py

A name is one that a file of crates/*/specs or crates/*/proofs declares. Types and modules, which begin with a capital,
stay. Where two names would fall together, or a name would meet one of the Rust code, APART has the other name; where
a definition and a lemma would, the lemma gets _lem. Names are turned as whole words, in .antt and .rt files and in the
must-fail edits: no function of the Rust code, no string and no C name is such a word.
"""
import collections
import os
import re
import sys

WORD = r"[^\s(){}\[\].,;:\"@«»`|]+"
DECLARED = re.compile(rf"^\s*(?:(?:unfoldable|abbrev|pub)\s+)*({WORD})\s*(?:\{{[^{{}}]*\}}\s*)*:(?:\s|$)")
SEVERAL = re.compile(rf"^\s+({WORD}(?:\s+{WORD})+)\s*:\s+[A-Z]")
KEYWORDS = {"use", "module", "let", "in", "where", "record", "data", "mod", "pub", "elim", "λ", "∷", "→", "⊢"}
PIECES = re.compile(rf'("(?:[^"\\\n]|\\.)*")|({WORD})')

# Definitions whose name would be that of a struct's field, a module or a constant of the Rust code, and names that
# would be those of a definition but are fields of a record as well as lemmas.
APART = {
    "copiesMark": "copies_mark_of",
    "dataStart": "data_start_of",
    "imageSeq": "image_seq_of",
    "lebSize": "leb_size_of",
    "pebCount": "peb_count_of",
    "vidStart": "vid_start_of",
    "firstWords": "first_words_of",
    "ec-good": "ec_good_holds",
    "vid-good": "vid_good_holds",
    "table-good": "table_good_holds",
    "is-chosen": "chosen_here",
    "is-mappable": "mappable_here",
}
# behind a dot and before one of these stands a step of a proof that walks the code, named after a Rust function
STEP = re.compile(r"\.(?:ensures|result|requires|new|old|last|after)\b")


def files(root):
    for folder, dirs, names in os.walk(os.path.join(root, "crates")):
        dirs[:] = sorted(d for d in dirs if d != "out")
        for name in sorted(names):
            if name.endswith((".antt", ".rt", ".edit")):
                yield os.path.join(folder, name)


def snake(name):
    words = re.sub(r"(?<=[a-z0-9₀-₉'])([A-Z]+)", lambda m: "_" + m.group(1).lower(), name)
    return words.replace("-", "_")


def declared(root):
    """Each declared name, with where it stands: 'specs', 'proofs' (lemmas) or 'walk' (a Proof.antt)."""
    names = collections.defaultdict(set)
    for path in files(root):
        if not path.endswith(".antt"):
            continue
        kind = "specs" if "/specs/" in path else "walk" if path.endswith("Proof.antt") else "proofs"
        with open(path, encoding="utf-8") as text:
            for line in text:
                if line.lstrip().startswith("--"):
                    continue
                if kind == "specs" and SEVERAL.match(line):
                    # constructors that share a type
                    for name in SEVERAL.match(line).group(1).split():
                        if name not in KEYWORDS | {"abbrev", "unfoldable"}:
                            names[name].add(kind)
                m = DECLARED.match(line)
                if not m or m.group(1) in KEYWORDS:
                    continue
                # what Rattle asks for by a name of its own
                if kind == "walk" and (" tie." in line or " statement M" in line):
                    continue
                names[m.group(1)].add(kind)
    return names


def table(root):
    names = declared(root)
    new = {n: APART.get(n, snake(n)) for n in names if not n[0].isupper()}
    groups = collections.defaultdict(set)
    for n, to in new.items():
        groups[to].add(n)
    for to, group in groups.items():
        if len(group) == 1:
            continue
        # one stays: a name in camel case, which is a definition's
        keeps = [n for n in group if n != to and "-" not in n] or [n for n in group if n == to]
        if len(keeps) != 1:
            raise SystemExit(f"respell: {sorted(group)} fall together as {to}")
        for n in group:
            if n != keeps[0]:
                new[n] = to + "_lem"
    return {n: to for n, to in new.items() if n != to}, names


def respelled(text, new, turned, walk):
    def one(m):
        if m.group(1) is not None:
            return m.group(1)
        w = m.group(2)
        if w not in turned:
            return w
        behind = m.start() and text[m.start() - 1] == "."
        step = behind and walk and STEP.match(text, m.end())
        return snake(w) if step or behind and snake(w) == w else new[w]

    return PIECES.sub(one, text)


def main(argv):
    new, names = table(".")
    if "--list" in argv:
        for n in sorted(new):
            print(f"{n} {new[n]}")
        return 0
    # A name in plain snake case may be one of the Rust code too: it is turned in .antt files alone.
    marked = {n for n in new if snake(n) != n}
    for path in files("."):
        with open(path, encoding="utf-8") as text:
            old = text.read()
        to = respelled(old, new, set(new) if path.endswith(".antt") else marked, path.endswith("Proof.antt"))
        if to != old:
            with open(path, "w", encoding="utf-8") as text:
                text.write(to)
    return 0


if __name__ == "__main__":
    raise SystemExit(main(sys.argv[1:]))
