#!/usr/bin/env python3
"""Turns a crate's proofs/F/Proof.antt, which name their goals by position, into Invariants.antt and Answers.antt, which name them.

usage: tools/answers.py CRATE..   at the top; the crates below have to be proved. Goals' names are asked of rt check --generated.
What it cannot turn it leaves and says; an answer that is `search rules` alone goes, where nothing has to be unfolded.
"""

import difflib
import json
import os
import re
import subprocess
import sys
import tempfile

ONLY_RULES = re.compile(r"search rules|search \(rules\)")
DROPPED = re.compile(r"^use (Rattle\.\S+\.(Statement|Tie|Reads|Kinds|Goals|Given)\b|Rattle\.\S+\.Lts\S*|Rattle\.\S+\.proofs\.(\w+\.)*\+\S+|borrow\.Fn\.)")
TOKEN = re.compile(r"[^\W\d][\w'₀-₉-]*")


def names_of(crate):
    with tempfile.TemporaryDirectory() as d:
        out = os.path.join(d, "names")
        r = subprocess.run(["rt", "check", "--generated", out, "--old-names"], cwd=f"crates/{crate}", capture_output=True, text=True)
        path = os.path.join(out, "names.json")
        if not os.path.exists(path):
            sys.exit(f"{crate}: no names: {r.stdout[-800:]} {r.stderr[-300:]}")
        with open(path) as f:
            return json.load(f)


def blocks(text, start):
    """The parenthesised arguments from start on, with the label in the comment behind each, up to the closing parenthesis."""
    out, i, n = [], start, len(text)
    while i < n:
        if text[i].isspace():
            i += 1
        elif text.startswith("--", i):
            i = text.index("\n", i)
        elif text[i] == ")":
            return out, i + 1
        elif text[i] == "(":
            depth, j = 0, i
            while True:
                if text.startswith("--", j):
                    j = text.index("\n", j)
                if text[j] == "(":
                    depth += 1
                if text[j] == ")":
                    depth -= 1
                    if not depth:
                        break
                j += 1
            m = re.match(r"[ \t]*-- (.*)", text[j + 1 :])
            out.append((text[i + 1 : j], m.group(1).strip() if m else ""))
            i = j + 1
        else:
            m = re.compile(r"\S+").match(text, i)
            out.append((m.group(0), None))
            i = m.end()
    raise ValueError("no end")


def plain(label):
    label = label.replace("-", "_").replace("holds", "init").replace("less", "smaller").replace("again", "preserved")
    return re.sub(r"_?\d+$", "", label)


def aligned(answers, needs):
    """For each goal the answer that stands at its place; by label where their numbers differ."""
    if len(answers) == len(needs):
        return {new: term for (term, label), (old, new) in zip(answers, needs)}, True
    a = [plain(l) for _, l in answers]
    b = [plain(o) for o, _ in needs]
    out = {}
    for tag, i, j, k, l in difflib.SequenceMatcher(None, a, b, autojunk=False).get_opcodes():
        if tag == "equal":
            for x, y in zip(range(i, j), range(k, l)):
                out[needs[y][1]] = answers[x][0]
        elif tag == "replace" and j - i == l - k:
            for x, y in zip(range(i, j), range(k, l)):
                if a[x].split("_")[0] == b[y].split("_")[0]:
                    out[needs[y][1]] = answers[x][0]
    return out, False


def step_names(info):
    """Old step -> the new ones, in order; old match keys -> (new step, field)."""
    steps, arms = {}, {}
    for place in info["places"]:
        old, new = place[2]
        if old:
            steps.setdefault(old, [])
            if new not in steps[old]:
                steps[old].append(new)
    for arm in info["arms"]:
        if arm:
            for it in arm[2]:
                field, step, keys = it[0], it[1], it[2]
                for k in keys:
                    arms[(step, k)] = (arm[0], field)
    return steps, arms


def turn_paths(term, info, hand):
    steps, arms = step_names(info)

    def one(m):
        parts = m.group(0).split(".")[1:]
        while parts and parts[0] == "before":
            parts.pop(0)
        if parts and parts[0] == "requires" and len(parts) > 1 and parts[1].isdigit() and info.get("pre"):
            parts[1] = (info["pre"].get("fields") or {})[int(parts[1])]
        if not parts or parts[0] in ("args", "requires", "ranges", "auto", "utf8", "type_inv"):
            return ".".join(["c"] + parts)
        step = parts[0].replace("-", "_")
        if step.startswith("match") and len(parts) > 1 and (step, parts[1]) in arms:
            new, field = arms[(step, parts[1])]
            return ".".join(["c", new, field] + parts[2:])
        got = steps.get(step) or steps.get(parts[0])
        if got and len(got) == 1:
            if len(parts) > 2 and parts[1] == "ensures" and parts[2].isdigit():
                for place, clause in zip(info["places"], info["clauses"]):
                    if place[2][1] == got[0] and clause and clause.get("fields"):
                        parts[2] = clause["fields"][int(parts[2])]
            renamed = [p[4] for p in info["places"] if p[2][1] == got[0] and p[4]]
            if len(parts) > 1 and any([parts[1], parts[1] + "-raw"] in r for r in renamed):
                # the test of a negation: today's fact is of what is negated
                return f"(ap not c.{got[0]}.{parts[1]})"
            return ".".join(["c", got[0]] + parts[1:])
        hand.append(m.group(0) + (f" (one of {got})" if got else ""))
        return m.group(0)

    return re.sub(r"\bc(\.[\w'-]+)+", one, term)


def imports(lines, body):
    """The use lines that the body needs."""
    if "(ap not c." in body:
        have = " ".join(lines)
        lines = [f"use mathlib.Core.{m}.{{{w}}}" for m, w in [("Path", "ap"), ("Bool", "not")] if not re.search(rf"[{{ ]{w}[,}}]", have)] + lines
    words = set(TOKEN.findall(body)) | {p for w in TOKEN.findall(body) for p in [w]}
    out = []
    for line in lines:
        m = re.match(r"use (\S+?)\.\{([^}]*)\}(.*)$", line)
        if not m:
            m2 = re.match(r"use \S+ as ([\w'-]+)$", line)
            if m2 and m2.group(1) not in words:
                continue
            out.append(line)
            continue
        keep = []
        for it in [x.strip() for x in m.group(2).split(",")]:
            name = it.split(" as ")[-1].strip()
            if "◌" in name:
                ops = [p for p in name.split("◌") if p]
                if all(re.search(r"(^|[\s(])" + re.escape(o) + r"($|[\s)])", body, re.M) for o in ops):
                    keep.append(it)
            elif name in words or (not TOKEN.fullmatch(name) and name in body):
                keep.append(it)
        if keep:
            out.append(f"use {m.group(1)}.{{{', '.join(keep)}}}{m.group(3)}")
    return out


def split(body):
    """The parts of a tuple, nested ones on the right too; None where the term is none."""
    if not body.startswith("("):
        return None
    depth, parts, last = 0, [], 1
    for i, ch in enumerate(body):
        if ch in "([{":
            depth += 1
        elif ch in ")]}":
            depth -= 1
            if not depth:
                if i != len(body) - 1 or not parts:
                    return None
                parts.append(body[last:i].strip())
                rest = split(parts[-1])
                return parts[:-1] + (rest or [parts[-1]])
        elif ch == "," and depth == 1:
            parts.append(body[last:i].strip())
            last = i + 1
    return None


def clause_names(crate, function, kind):
    """The names of a function's clauses, as its source has them."""
    *modules, name = function.split(".")
    for d, ds, fs in os.walk(f"crates/{crate}/src"):
        for f in sorted(fs):
            if modules and f != modules[-1] + ".rt" and modules[-1][:1].islower():
                continue
            with open(os.path.join(d, f), encoding="utf-8") as it:
                m = re.search(rf"\bfn {name}\b(.*?)\n\s*\{{\n", it.read(), re.S)
            if m:
                return re.findall(rf"(?m)^\s*{kind} (\w+) \{{", m.group(1))
    return []


def asked_fields(crate, function, info, old, new):
    """The clauses that a goal asks a record of."""
    if new.startswith("returns"):
        return clause_names(crate, function, "ensures")
    return info["asked"].get(re.sub(r"-\d+$", "", old)) or info["asked"].get(old) or []


def fields(params, rhs, info_loop, hand):
    """The right side of an invariant over named parameters, over the record l."""
    names = {}
    for p in params:
        if p == "_":
            continue
        names[p] = f"l.initial.{p[:-1]}" if p.endswith("₀") else f"l.{p}"
        base = p[:-1] if p.endswith("₀") else p
        if base not in info_loop[1]:
            hand.append(f"parameter {p} is none of {info_loop[1]}")
    return re.sub(r"(?<![\w.'-])[^\W\d][\w'₀-₉-]*(?![\w'₀-₉-]| =[^=])", lambda m: names.get(m.group(0), m.group(0)), rhs)


def turn(crate, path, key, info):
    folder = os.path.dirname(path)
    with open(path, encoding="utf-8") as f:
        text = f.read()
    m = re.search(r"^pub ([\w+'-]+) : \{M : Type 1\} → statement M\n((?:unfolding .*\n(?: +.*\n)*?)?)\1 =\s*tie\.close \(tie\.spec", text, re.M)
    if not m:
        return "no form that is known"
    unfolding = " ".join(m.group(2).split()[1:]) if m.group(2) else ""
    args, end = blocks(text, m.end())
    head = text[: m.start()]
    rest = text[end:]
    comment = [l for l in head.split("\n") if l.startswith("--")]
    uses, other, current = [], [], None
    body_lines = head.split("\n")
    i = 0
    while i < len(body_lines):
        l = body_lines[i]
        if l.startswith("use "):
            while "{" in l and "}" not in l:
                i += 1
                l += " " + body_lines[i].strip()
            if not DROPPED.match(l):
                uses.append(l)
        elif not (l.startswith("--") and not other):
            other.append(l)
        i += 1
    own = "\n".join(other).strip("\n")
    function = os.path.relpath(folder, f"crates/{crate}/proofs").replace("/", ".")
    hand = []
    defs = {}
    kept = []
    for chunk in re.split(r"\n\n+", own) if own else []:
        d = re.match(r"abbrev ((?:invariant|decreases)-([\w'-]+)) : tie\.\S+\n(?:unfolding [^\n]*\n)?\1 ([^=]*?) =(.*)$", chunk, re.S)
        if d:
            defs[d.group(1)] = (d.group(2), d.group(3).split(), d.group(4).strip())
        else:
            kept.append(chunk)
    inv_text = []
    loops = {l[0][0].replace("_", "-"): l for l in info["loops"]}
    for name, (loop, params, rhs) in defs.items():
        l = loops.get(loop.replace("_", "-"))
        if not l:
            return f"loop {loop} is none of {list(loops)}"
        new = name.split("-")[0] + "-" + l[0][1]
        inv_text.append(f"abbrev pub {new} : goal.{new}\n{new} l = {fields(params, rhs, l, hand)}")
    answers = [(t, l) for t, l in args if l is not None]
    got, same = aligned(answers, info["needs"])
    out = []
    for old, new in info["needs"]:
        term = got.get(new)
        if term is None:
            continue
        b = re.match(r"λ c(?: κs)?\.\s*(.*)$", term, re.S)
        if not b:
            hand.append(f"{new}: {term[:60]}")
            continue
        body = b.group(1).strip()
        if ONLY_RULES.fullmatch(body) and not unfolding:
            continue
        body = turn_paths(body, info, hand)
        uf = f"unfolding {unfolding}\n" if unfolding else ""
        parts, clauses = split(body), asked_fields(crate, function, info, old, new)
        if parts and len(parts) == len(clauses):
            for part, clause in zip(parts, clauses):
                if not ONLY_RULES.fullmatch(part) or unfolding:
                    name = f"{new}-clause-{clause}"
                    out.append(f"pub {name} : goal.{name}\n{uf}{name} c = {part}")
            continue
        if parts:
            hand.append(f"{new}: a tuple, and the clauses {clauses}")
        out.append(f"pub {new} : goal.{new}\n{uf}{new} c = {body}")
    module = f"Rattle.{crate}." + os.path.relpath(folder, f"crates/{crate}").replace("/", ".")
    if rest.strip():
        kept.append(rest.strip())
    head_comment = "\n".join(comment)
    if inv_text:
        body = "\n\n".join(inv_text)
        with open(os.path.join(folder, "Invariants.antt"), "w", encoding="utf-8") as f:
            f.write("\n".join([head_comment] + imports(uses, body) + [f"use {module}.Given as goal"]) + "\n\n" + body + "\n")
    if out or kept:
        body = "\n\n".join(kept + out)
        u = imports(uses, body + " " + unfolding)
        with open(os.path.join(folder, "Answers.antt"), "w", encoding="utf-8") as f:
            f.write("\n".join([head_comment] + u + [f"use {module}.Goals as goal"]) + "\n\n" + body + "\n")
    os.remove(path)
    return ("" if same else f"{len(answers)} answers, {len(info['needs'])} goals; ") + "; ".join(hand)


def parameters(crate, function):
    """A function's parameters, as its source has them; one that is lent is read behind now."""
    for d, ds, fs in os.walk(f"crates/{crate}/src"):
        for f in sorted(fs):
            with open(os.path.join(d, f), encoding="utf-8") as it:
                m = re.search(rf"\bfn {function}\((.*?)\)\s*(->|requires|ensures|\{{)", it.read(), re.S)
            if m:
                return [x.split(":")[0].replace("mut ", "").strip() for x in m.group(1).split(",") if ":" in x]
    return []


def turn_cycle(crate, path, names):
    folder = os.path.dirname(path)
    rel = os.path.relpath(folder, f"crates/{crate}/proofs").replace("/", ".")
    with open(path, encoding="utf-8") as f:
        text = f.read()
    m = re.search(r"^pub (\S+) : \{M : Type 1\} → statement M\n((?:unfolding .*\n(?: +.*\n)*?)?)\1 =\s*close", text, re.M)
    if not m:
        return "no form that is known"
    unfolding = " ".join(m.group(2).split()[1:]) if m.group(2) else ""
    aliases = dict((a.replace("-", "_"), f) for f, a in re.findall(r"\.Lts-(\S+) as (\S+)-lts", text))
    head, body = text[: m.start()], text[m.end() :] + ")"
    uses = [l for l in re.sub(r"\{([^}]*)\}", lambda x: "{" + " ".join(x.group(1).split()) + "}", head).split("\n") if l.startswith("use ") and not DROPPED.match(l)]
    comment = [l for l in head.split("\n") if l.startswith("--")]
    hand, inv, out, kept, loops = [], [], [], [], {}
    for chunk in re.split(r"\n\n+", head):
        d = re.match(r"abbrev (μ[-_](\S+)) : Measures.*?\n\1 κs a =\s*(.*)$", chunk, re.S)
        if d:
            function = aliases[d.group(2).replace("-", "_")]
            ps = parameters(crate, function)
            rhs = re.sub(r"\ba((?:\.1)*)\.0\b", lambda x: f"l.{ps[x.group(1).count('.1')]}", d.group(3).strip())
            inv.append(f"abbrev pub decreases-{function} : goal.decreases-{function}\ndecreases-{function} l = {rhs}")
            continue
        d = re.match(r"abbrev ((\S+)[-_](Inv|μ)[-_](\S+)) : \S+\n(?:unfolding [^\n]*\n)?\1 ([^=]*?) =\s*(.*)$", chunk, re.S)
        if d:
            loops.setdefault(aliases[d.group(2).replace("-", "_")], []).append((d.group(3), d.group(4), d.group(5).split(), d.group(6).strip()))
            continue
        if not re.match(r"use |--|abbrev \S+[-_](at|below|calls|measure)(_lem)? |\s*$", chunk):
            kept.append(chunk.strip("\n"))
    for block, _ in blocks(body, 0)[0]:
        d = re.match(r"λ t\. (\S+)-lts\.spec", block)
        if not d:
            continue
        function = aliases[d.group(1).replace("-", "_")]
        info = names[f"Rattle-{crate}-proofs.{rel}.Lts-{function}"]
        stem = info["stem"]
        for kind, loop, params, rhs in loops.get(function, []):
            l = next(x for x in info["loops"] if x[0][0].replace("_", "-") == loop.replace("_", "-"))
            word = "invariant" if kind == "Inv" else "decreases"
            name = f"{word}-{stem}{l[0][1]}"
            inv.append(f"abbrev pub {name} : goal.{name}\n{name} l = {fields(params, rhs, l, hand)}")
        answers = [(t, l) for t, l in blocks(block[d.end() :] + ")", 0)[0] if l is not None and t.startswith("λ c")]
        got, same = aligned(answers, info["needs"])
        if not same:
            hand.append(f"{function}: {len(answers)} answers, {len(info['needs'])} goals")
        for old, new in info["needs"]:
            term = got.get(new)
            if term is None:
                continue
            term = re.match(r"λ c(?: κs)?\.\s*(.*)$", term, re.S).group(1).strip()
            if ONLY_RULES.fullmatch(term) and not unfolding:
                continue
            term = turn_paths(term, info, hand)
            parts, clauses = split(term), asked_fields(crate, function, info, old, new)
            uf = f"unfolding {unfolding}\n" if unfolding else ""
            callee = re.sub(r"-requires(-\d+)?$", "", old)
            if parts and len(parts) == len(clauses) and callee not in aliases.values():
                term = "record { " + "; ".join(f"{c} = {p}" for c, p in zip(clauses, parts)) + " }"
            out.append(f"pub {stem}{new} : goal.{stem}{new}\n{uf}{stem}{new} t c = {term}")
    module = f"Rattle.{crate}.proofs.{rel}"
    for file, goal, body in [("Invariants", "Given", "\n\n".join(inv)), ("Answers", "Goals", "\n\n".join(kept + out))]:
        with open(os.path.join(folder, file + ".antt"), "w", encoding="utf-8") as f:
            f.write("\n".join(comment + imports(uses, body + " " + unfolding) + [f"use {module}.{goal} as goal"]) + "\n\n" + body + "\n")
    os.remove(path)
    return "; ".join(hand)


def main():
    for crate in sys.argv[1:]:
        todo = []
        for d, ds, fs in os.walk(f"crates/{crate}/proofs"):
            if "Proof.antt" in fs:
                todo.append(os.path.join(d, "Proof.antt"))
        if not todo:
            continue
        names = names_of(crate)
        for path in sorted(todo):
            rel = os.path.relpath(os.path.dirname(path), f"crates/{crate}/proofs").replace("/", ".")
            key = f"Rattle-{crate}-proofs.{rel}.Lts"
            if key not in names:
                said = turn_cycle(crate, path, names)
            else:
                said = turn(crate, path, key, names[key])
            if said:
                print(f"{path}: {said}")


if __name__ == "__main__":
    main()
