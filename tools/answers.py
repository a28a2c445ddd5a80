#!/usr/bin/env python3
"""Turns proofs that walk the code (Proof.antt) into Invariants.antt and Answers.antt.

usage: python3 tools/answers.py NAMES FOLDER..     in a crate's folder; NAMES is what `rt check --generated DIR --old-names` wrote,
                                                   each FOLDER one below proofs/ that holds a Proof.antt

Answers that the check finds by itself (`search rules`) are left out. What could not be read is said; the check decides.
"""

import json
import os
import re
import sys

IDENT = r"[\w'₀-ₜ+*/?-]+"
KEPT = {"args", "requires", "ranges", "lifetimes", "well_formed", "type_inv", "utf8", "before", "met"}


def norm(name):
    return re.sub(r"[-_]", "", name).lower()


def blocks(text):
    """The top-level definitions of a file: (kind, lines)."""
    out, current = [], []
    for line in text.splitlines():
        if line and line[0] in ")]}":
            line = "    " + line
        starts = line and not line[0].isspace() and not line.startswith("unfolding")
        name = re.match(rf"(?:(?:abbrev|unfoldable|pub) )*({IDENT})", line)
        if starts and current:
            own = re.match(rf"(?:(?:abbrev|unfoldable|pub) )*({IDENT})", current[0])
            if own and name and own.group(1) == name.group(1) and not current[0].startswith(("use ", "--")):
                current.append(line)
                continue
            out.append(current)
            current = []
        if line.strip() or current:
            current.append(line)
    if current:
        out.append(current)
    for b in out:
        while b and not b[-1].strip():
            b.pop()
    return [b for b in out if b]


def split_top(text):
    """Parts between the commas of the outermost level."""
    parts, depth, start = [], 0, 0
    for i, ch in enumerate(text):
        if ch in "([{":
            depth += 1
        elif ch in ")]}":
            depth -= 1
        elif ch == "," and depth == 0:
            parts.append(text[start:i].strip())
            start = i + 1
    parts.append(text[start:].strip())
    return parts if parts[-1] else parts[:-1]  # a comma may end them


def pair(text):
    """The parts of a tuple, or None."""
    text = text.strip()
    if not text.startswith("("):
        return None
    depth = 0
    for i, ch in enumerate(text):
        depth += ch in "([{"
        depth -= ch in ")]}"
        if depth == 0:
            if i != len(text) - 1:
                return None
            break
    parts = split_top(text[1:-1])
    return parts if len(parts) > 1 else None


def nested(text, n):
    """n facts of nested pairs."""
    if n == 1:
        return [text]
    parts = pair(text)
    if parts is None:
        return None
    if len(parts) == n:
        return parts
    if len(parts) == 2:
        rest = nested(parts[1], n - 1)
        return None if rest is None else [parts[0]] + rest
    return None


def arguments(text):
    """The arguments of a call, one after the other."""
    out, i = [], 0
    while i < len(text):
        if text[i].isspace():
            i += 1
        elif text[i] in "([":
            depth, j = 0, i
            while True:
                depth += text[j] in "(["
                depth -= text[j] in ")]"
                j += 1
                if depth == 0:
                    break
            while j < len(text) and not text[j].isspace():
                j += 1
            out.append(text[i:j])
            i = j
        else:
            j = i
            while j < len(text) and not text[j].isspace():
                j += 1
            out.append(text[i:j])
            i = j
    return out


class Function:
    def __init__(self, entry):
        self.needs = [(o, n) for o, n in entry["needs"]]
        self.by_norm = {}
        for o, n in self.needs:
            for key in (norm(o), norm(n)):
                self.by_norm.setdefault(key, n)
        self.steps, self.fields = {}, {}
        for place, clauses in zip(entry["places"], entry["clauses"]):
            old, new = place[2]
            if old:
                self.steps.setdefault(norm(old), new)
                if clauses:
                    self.fields.setdefault(norm(old), clauses["fields"])
        self.loops = {}
        for (names, variables), changed in zip(entry["loops"], entry["changed"] or [None] * len(entry["loops"])):
            self.loops[norm(names[0])] = (names[1], variables, changed)
            self.steps[norm(names[0])] = names[1]
        self.asked = {}
        for name, fields in entry["asked"].items():
            self.asked[norm(name)] = fields
        self.pre = (entry["pre"] or {}).get("fields") if entry["pre"] else None

    def need(self, name):
        name = re.sub(r"^overflow[-_]", "", name) if norm(name) not in self.by_norm else name
        return self.by_norm.get(norm(name))


def by_path(fields, path):
    """A path of .0 and .1 into nested pairs, as the field's name and what is left."""
    steps = [int(s) for s in path.split(".") if s]
    k = 0
    while k < len(fields) - 1 and steps and steps[0] == 1:
        steps.pop(0)
        k += 1
    if k < len(fields) - 1:
        if not steps:
            return None
        steps.pop(0)
    return "." + fields[k] + "".join(f".{s}" for s in steps)


def respell(body, fn):
    """Paths from `c` as they are named today."""
    body = re.sub(r"\.before(?![\w-])", "", body)
    body = body.replace(".type-inv", ".type_inv").replace(".well-formed", ".well_formed")
    # variables that stand for a path
    while True:
        found = re.search(rf"let ({IDENT}) = (c(?:\.{IDENT})*) in\s*", body)
        if not found or found.group(1) == "c":
            break
        var, path = found.group(1), found.group(2)
        rest = body[found.end() :]
        if path == "c.args":
            body = body[: found.start()] + f"let {var} ≔ {path} in\n    " + rest
            continue
        rest = re.sub(rf"(?<![\w.'₀-ₜ-]){re.escape(var)}(?![\w'₀-ₜ-])", path, rest)
        body = body[: found.start()] + rest
    body = body.replace("≔", "=")
    # the same again, for paths that went through a variable
    body = re.sub(r"\.before(?![\w-])", "", body)

    def path(m):
        step, rest = m.group(1), m.group(2)
        if step in KEPT:
            if step == "requires" and fn.pre and len(fn.pre) > 1:
                w = re.match(r"((?:\.\d+)+)", rest)
                if w:
                    new = by_path(fn.pre, w.group(1))
                    if new:
                        return f"c.requires{new}{rest[w.end():]}"
            return m.group(0)
        new = fn.steps.get(norm(step))
        if new is None:
            return m.group(0)
        fields = fn.fields.get(norm(step))
        if fields and len(fields) > 1:
            w = re.match(r"\.ensures((?:\.\d+)+)", rest)
            if w:
                found = by_path(fields, w.group(1))
                if found:
                    rest = ".ensures" + found + rest[w.end() :]
        return f"c.{new}{rest}"

    body = re.sub(rf"(?<![\w.'₀-ₜ-])c\.({IDENT})((?:\.{IDENT})*)", path, body)
    return body


def invariant(body_args, body, variables, changed):
    """An invariant over positions, as one over the record of the live variables."""
    names = {}
    n = len(variables)
    later = [v for v, ch in zip(variables, changed or [False] * n) if ch]
    if len(body_args) == n + len(later):
        for v, arg, ch in zip(variables, body_args, changed or [False] * n):
            names[arg] = f"l.initial.{v}" if ch else f"l.{v}"
        for v, arg in zip(later, body_args[n:]):
            names[arg] = f"l.{v}"
    else:
        for arg in body_args:
            names[arg] = f"l.initial.{arg[:-1]}" if arg.endswith("₀") else f"l.{arg}"
    return re.sub(r"(?<![\w.'₀-ₜ-])([A-Za-zα-ω_][\w'₀-ₜ-]*)(?![\w'₀-ₜ-])", lambda m: names.get(m.group(1), m.group(1)), body)


def turn(folder, names, crate):
    path = os.path.join("proofs", folder, "Proof.antt")
    with open(path, encoding="utf-8") as f:
        text = f.read()
    module = folder.replace("/", ".")
    keys = [k for k in names if k.startswith(f"Rattle-{crate}-proofs.{module}.Lts")]
    if len(keys) != 1:
        return f"{folder}: {len(keys)} records of names"
    fn = Function(names[keys[0]])
    cycle = module.split(".")[-1].startswith("+")
    own = module.split(".")[-1].lstrip("+")
    header, uses, invariants, answers, others, said = [], [], [], [], [], []
    comment = []
    defined = {}
    closing = ""
    for b in blocks(text):
        first = b[0]
        if first.startswith("--"):
            if uses:
                comment += b
            else:
                header += b
            continue
        if first.startswith("use "):
            uses += b
            continue
        whole = "\n".join(comment + b)
        note, comment = "".join(l + "\n" for l in comment), []
        sig = re.match(rf"(?:(?:abbrev|unfoldable|pub) )*(\+?{IDENT}) : (.*)", first)
        if not sig:
            others.append(whole)
            said.append(f"{folder}: not read: {first[:60]}")
            continue
        name, type_ = sig.group(1), sig.group(2)
        if re.search(r"_spec$|-spec$", name) and "statement" in type_:
            closing = whole
            continue
        kind = re.search(rf"\b{IDENT}\.(invariant|decreases)-({IDENT})", type_)
        if kind and first.startswith("abbrev"):
            eq = "\n".join(b[1:])
            lhs, rhs = re.split(r"\s=\s", eq, maxsplit=1)
            args = lhs.split()[1:]
            entry = fn.loops.get(norm(kind.group(2)))
            if entry is None:
                said.append(f"{folder}: no loop {kind.group(2)}")
                continue
            new, variables, changed = entry
            invariants.append(f"{note}abbrev pub {kind.group(1)}-{new} : goal.{kind.group(1)}-{new}\n{kind.group(1)}-{new} l = {invariant(args, rhs, variables, changed)}")
            continue
        if cycle and re.search(r"^(abbrev )?\S*(μ|-at|-below|-calls|\bat|\bbelow|\bcalls)", first) and ("Measures" in first or "In " in first or "Claims" in first):
            if "Measures" in first:
                said.append(f"{folder}: measure by hand: {b[-1].strip()}")
            continue
        need = re.search(rf"\.Need-({IDENT})", type_)
        if need:
            new = fn.need(need.group(1))
            rest = b[1:]
            unfolding = [l for l in rest if l.startswith("unfolding")]
            code = "\n".join(l for l in rest if not l.startswith("unfolding"))
            lhs, rhs = code.split("=", 1)
            pre_args = lhs.split()[1:]
            keep = [a for a in pre_args if a not in ("κs", "κ")]
            if new is None:
                said.append(f"{folder}: no goal for {need.group(1)}")
                others.append("-- LOST " + whole.replace("\n", "\n-- "))
                continue
            defined[name] = new
            at = len(answers)
            emit(answers, fn, new, keep, rhs, unfolding)
            if note and len(answers) > at:
                answers[at] = note + answers[at]
            continue
        others.append(respell(whole, fn))
        if "tie." in whole or "lts." in whole:
            said.append(f"{folder}: names generated types: {first[:70]}")
    # terms written in the closing line
    m = re.search(r"\.spec\b", closing)
    if m:
        body = closing[m.end() :]
        depth, end = 0, len(body)
        for i, ch in enumerate(body):
            depth += ch in "(["
            depth -= ch in ")]"
            if depth < 0:
                end = i
                break
        args = [a for a in arguments(body[:end])]
        args = args[3:] if cycle else args[2 * len(fn.loops) :]
        if len(args) == len(fn.needs):
            for a, (o, n) in zip(args, fn.needs):
                t = a[1:-1].strip() if a.startswith("(") else a
                t = re.sub(r"^λ c(?: κs)?\. ", "", t)
                if a.startswith("(") and not re.fullmatch(rf"search rules|{IDENT} t", t):
                    emit(answers, fn, n, ["t", "c"] if cycle else ["c"], " " + t, [])
        else:
            said.append(f"{folder}: {len(args)} terms, {len(fn.needs)} goals")
    use_text = [u for u in uses if not re.search(r"\.(Tie|Statement|Reads|Kinds)\b|\.Lts|borrow\.Fn\.(Kinds|PlainCycle)|\.\{statement\}", u)]
    head = header + use_text
    base = os.path.join("proofs", folder)
    if invariants:
        with open(os.path.join(base, "Invariants.antt"), "w", encoding="utf-8") as f:
            f.write("\n".join(head + [f"use Rattle.{crate}.proofs.{module}.Given as goal"]) + "\n\n" + "\n\n".join(invariants) + "\n")
    if answers or others:
        with open(os.path.join(base, "Answers.antt"), "w", encoding="utf-8") as f:
            f.write("\n".join(head + [f"use Rattle.{crate}.proofs.{module}.Goals as goal"]) + "\n\n" + "\n\n".join(others + answers) + "\n")
    os.remove(path)
    return "\n".join(said)


def emit(answers, fn, goal, args, rhs, unfolding):
    body = respell(rhs, fn).strip()
    if body == "search rules":
        return
    lets = ""
    m = re.match(r"((?:let .*? in\s+)*)", body, re.S)
    final = body
    pieces = re.split(r"(?<= in)\s+", body)
    if body.startswith("let "):
        # the last part after the outermost lets
        depth, cut = 0, 0
        tokens = list(re.finditer(r"\(|\)|\blet\b|\bin\b", body))
        level = 0
        for tok in tokens:
            if tok.group(0) == "(":
                depth += 1
            elif tok.group(0) == ")":
                depth -= 1
            elif depth == 0 and tok.group(0) == "let":
                level += 1
            elif depth == 0 and tok.group(0) == "in":
                level -= 1
                if level == 0:
                    nxt = body[tok.end() :].lstrip()
                    if not nxt.startswith("let "):
                        cut = tok.end()
                        break
        lets, final = body[:cut], body[cut:].strip()
    fields = fn.asked.get(norm(goal)) or fn.asked.get(norm(next((o for o, n in fn.needs if n == goal), "")))
    head = "".join(f"\n{u}" for u in unfolding)
    if fields and len(fields) > 1:
        parts = nested(final, len(fields))
        if parts:
            for f, p in zip(fields, parts):
                if p in ("search rules", "_"):
                    continue
                name = f"{goal}-clause-{f}"
                answers.append(f"pub {name} : goal.{name}{head}\n{name} {' '.join(args)} = {lets + chr(10) + '    ' if lets else ''}{p}")
            return
        body = (lets + "\n    " if lets else "") + f"let whole = {final} in record {{ " + "; ".join(f"{f} = whole{'.1' * k}{'.0' if k < len(fields) - 1 else ''}" for k, f in enumerate(fields)) + " }"
    answers.append(f"pub {goal} : goal.{goal}{head}\n{goal} {' '.join(args)} = {body}")


def main(argv):
    with open(argv[0], encoding="utf-8") as f:
        names = json.load(f)
    crate = os.path.basename(os.getcwd())
    for folder in argv[1:]:
        try:
            said = turn(folder, names, crate)
        except Exception as e:  # said, and the file stays
            said = f"{folder}: failed: {e!r}"
        if said:
            print(said)


if __name__ == "__main__":
    main(sys.argv[1:])
