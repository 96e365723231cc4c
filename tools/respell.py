#!/usr/bin/env python3
"""Spells the repository's own names as today's Rattle does, after port.py: run once, at the top.

- definitions, lemmas, fields and constructors in lower camel case become snake case, in .antt, .rt, .edit and .md files; names of Rust code
  have no capital behind a small letter, so none changes; a name that is imported from a library stays
- a lemma that would then have its definition's name gets the ending _lem
- a dash in the name of a definition or a field of specs/ becomes an underscore
- the crates hex and base64, whose names the toolchain's libraries have, become hex_body and base64_body
- must-fail edits: what port.py does to a .antt file and not to an edit (a projection is written tight)
"""

import os
import re
import subprocess
import sys

WORD = re.compile(r"[^\W\d][\w'₀-₉-]*")
CAMEL = re.compile(r"[a-z][a-z0-9_]*[A-Z]")
CRATES = {"hex": "hex_body", "base64": "base64_body"}

# lemmas, by file, whose names a definition gets
LEMMAS = {
    "crates/notation_theorems/proofs/PrintNumbers.antt": ["digit_value"],
    "crates/notation_theorems/proofs/SoundToken.antt": ["cut_by"],
    "crates/notation_theorems/proofs/AllFound.antt": ["goes_on"],
    "crates/notation_theorems/proofs/MarkedTokens.antt": ["no_digit"],
    "crates/quick_walk/proofs/QuickWays.antt": ["told_of"],
    "crates/operations/proofs/Demands.antt": ["round_trip"],
    "crates/cbor/proofs/DecodeEncode.antt": ["chunk_read"],
    "crates/leaf_string/proofs/StringCode.antt": ["front_of"],
    "crates/words/proofs/WordCode.antt": ["is_digit"],
}

DASHED = ["next-at", "next-is", "byte-examples-hold", "text-examples-hold", "examples-hold"]


def snake(part):
    return re.sub(r"(?<=[a-z0-9])([A-Z])", lambda m: "_" + m.group(1).lower(), part)


def texts(*ends):
    for top in ("crates", "docs", "README.md", "CONTRIBUTING.md", "CHANGELOG.md"):
        if os.path.isfile(top):
            yield top
        for folder, dirs, files in os.walk(top):
            dirs[:] = sorted(d for d in dirs if d != "out")
            for f in sorted(files):
                if f.endswith(ends):
                    yield os.path.join(folder, f)


def read(path):
    with open(path, encoding="utf-8") as f:
        return f.read()


def write(path, text):
    with open(path, "w", encoding="utf-8") as f:
        f.write(text)


def own_names():
    """The parts in camel case of every name in .antt files, but for those that a library has."""
    parts, library = set(), set()
    for path in texts(".antt", ".rt"):
        t = read(path)
        for m in re.finditer(r"use ([^\s{;]+?)\.\{([^}]*)\}", t):
            if not m.group(1).startswith("Rattle.") or m.group(1).startswith("Rattle.std."):
                library |= set(WORD.findall(m.group(2)))
        if path.endswith(".antt"):
            for w in WORD.findall(t):
                parts |= {p for p in w.split("-") if CAMEL.match(p)}
    return parts - library


def respell(path, parts):
    t = read(path)
    new = t
    if path.endswith(".edit"):
        new = re.sub(r"(?<=[\w)]) \.(?=[a-z])", ".", new)
        new = re.sub(r"(?<!\w)_([+*≡≤<∷-]+)_(?!\w)", r"◌\1◌", new)
    if path in LEMMAS:
        for name in LEMMAS[path]:
            new = re.sub(rf"(?<![\w'.-]){name}(?![\w'-])", name + "_lem", new)
    new = WORD.sub(lambda m: "-".join(snake(p) if p in parts else p for p in m.group(0).split("-")), new)
    if path.endswith((".antt", ".rt", ".edit")):
        for name in DASHED:
            new = re.sub(rf"(?<![\w'-]){name}(?![\w'-])", name.replace("-", "_"), new)
        for old, name in CRATES.items():
            new = re.sub(rf"Rattle\.{old}\.(?=specs|proofs)", f"Rattle.{name}.", new)
            if path.endswith((".rt", ".edit")):
                new = re.sub(rf"(?<![\w:.]){old}::", f"{name}::", new)
            new = re.sub(rf"(?<=-- `){old}::", f"{name}::", new)
    if new != t:
        write(path, new)
    return new != t


def main():
    if not os.path.isfile("crates.txt"):
        sys.exit("run it at the top of the repository")
    for old, name in CRATES.items():
        if os.path.isdir(f"crates/{old}"):
            subprocess.run(["git", "mv", f"crates/{old}", f"crates/{name}"], check=True)
    t = read("crates.txt")
    for old, name in CRATES.items():
        t = re.sub(rf"(?m)(?<![\w]){old}(?![\w])", name, t)
    write("crates.txt", t)
    parts = own_names()
    changed = [p for p in texts(".antt", ".rt", ".edit", ".md") if respell(p, parts)]
    print(f"respell: {len(parts)} names, {len(changed)} files")


if __name__ == "__main__":
    main()
