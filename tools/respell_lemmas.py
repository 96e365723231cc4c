#!/usr/bin/env python3
"""Spells the repository's own lemmas as today's Rattle does: run once at the top, after respell.py.

A dash joins two names of definitions, as in length-head_bytes; a plain word is added with an underscore, as in tally_start. What the check
names (goals, steps, generated modules) and what a library names stays. A name that would fall together with another gets the ending _lem.
"""

import os
import re

WORD = re.compile(r"[^\W\d][\w'₀-₉→≡-]*")
DECLARED = re.compile(r"(?m)^ *(?:pub +)?(?:abbrev +|unfoldable +|ruleset +|data +|record +)*(?:pub +)?(?:ruleset +)?([^\W\d][\w'₀-₉→≡-]*)(?: [^\W\d][\w'₀-₉→≡-]*)* *(?::|=)")
LIBRARY = {"length", "take", "drop", "append", "set", "map", "reverse", "get_or", "sum", "replicate", "min", "max", "filter", "fold"}


def files():
    for folder, dirs, fs in os.walk("crates"):
        dirs[:] = sorted(d for d in dirs if d != "out")
        for f in sorted(fs):
            if f.endswith(".antt"):
                yield os.path.join(folder, f)


def code(text):
    return re.sub(r'"[^"\n]*"', '""', re.sub(r"--.*", "", text))


def main():
    texts = {p: open(p, encoding="utf-8").read() for p in files()}
    definitions, declared, used, goals, library = set(LIBRARY), set(), set(), set(), set()
    for p, t in texts.items():
        c = code(t)
        bare = re.sub(r"(?m)^use .*$", "", c)
        names = set(DECLARED.findall(bare))
        if "/specs/" in p:
            definitions |= {n for n in names if "-" not in n}
        if os.path.basename(p) not in ("Answers.antt", "Invariants.antt", "Proof.antt"):
            declared |= {n for n in names if "-" in n}
        else:
            goals |= set(re.findall(r": (?:goal|tie|[\w-]+-lts)\.([\w'-]+)", c))
            declared |= {n for n in names if "-" in n and not re.search(rf"(?m)^(abbrev )?(pub )?{re.escape(n)} : (goal|tie|[\w-]+-lts)\.", c)}
        used |= set(WORD.findall(re.sub(r"\.[\w'-]+", "", bare)))
        for m in re.finditer(r"(?m)^use ([^\s{]+?)\.\{([^}]*)\}", t):
            if not m.group(1).startswith("Rattle.") or m.group(1).startswith("Rattle.std."):
                library |= set(WORD.findall(m.group(2)))
    names = {}
    for n in sorted(declared - goals - library):
        if n.endswith("-spec"):
            continue
        parts = n.split("-")
        new = parts[0]
        for a, b in zip(parts, parts[1:]):
            new += ("-" if a in definitions and b in definitions else "_") + b
        if new != n:
            taken = new in used or new in library or new in names.values() or new in definitions
            names[n] = new + "_lem" if taken else new
    changed = 0
    for p, t in texts.items():
        def one(m):
            w = m.group(0)
            if w not in names:
                return w
            before = t[: m.start()]
            if before.endswith(".") and not before.endswith(".."):
                # a field of a record of ours, or what a check names
                return names[w] if w in fields else w
            return names[w]

        new = WORD.sub(one, t)
        if new != t:
            changed += 1
            with open(p, "w", encoding="utf-8") as f:
                f.write(new)
    print(f"respell_lemmas: {len(names)} names, {changed} files")


def record_fields():
    out = set()
    for p in files():
        inside = False
        for l in code(open(p, encoding="utf-8").read()).split("\n"):
            if re.match(r" *(pub +)?record ", l):
                inside = True
            elif inside and l.strip() and not l.startswith(" "):
                inside = False
            m = re.match(r" +(?:pub +)?([^\W\d][\w'-]*)((?: [^\W\d][\w'-]*)*) :", l)
            if inside and m:
                out |= {m.group(1), *m.group(2).split()}
    return {f for f in out if "-" in f}


fields = record_fields()

if __name__ == "__main__":
    main()
