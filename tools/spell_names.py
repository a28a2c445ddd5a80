#!/usr/bin/env python3
"""Brings the repository's own definitions and lemmas to the spelling of Rattle's library.

usage: python3 tools/spell_names.py [--pages]      at the top of the repository, once

In crates/*/specs, crates/*/proofs and the clauses of crates/*/src:
  - a name in lower camel case is written in snake case: rowsIn, rows_in;
  - a dash in the name of a definition of specs/ or of a record's field becomes an underscore: from-left, from_left
    (a dash in a lemma's name joins two names, and stays);
  - the proof of a function f is called f_spec: row-free-spec, row_free_spec;
  - a fact that had a small first letter gets a capital one.
Where two names would fall together, the lemma is renamed: LEMMAS. Functions of src/, strings, inputs and outputs keep their names.
With --pages the same is done to the names between backticks in README.md and docs/.
"""

import glob
import os
import re
import sys

TOKEN = re.compile(r"(?<![\w'₀-ₜ-])[a-z][\w'₀-ₜ]*(?:-[\w'₀-ₜ]+)*")
HUMP = re.compile(r"(?<=[a-z0-9])([A-Z])")

# lemmas and variables whose names a definition takes
LEMMAS = {w: w + "_lem" for w in "too_many by_side two_edges same_way one_below same_end is_below joined_step same_kind leaves_at one_way with_rows all_right same_from".split()}
LEMMAS["in_row"] = "row_in"

# names that other modules of the library had, and parts of names after them
OLD_WORDS = {"getD": "get_or", "natAbs": "nat_abs"}

# facts, that is terms of `Type 0`, in the files where they stand
FACTS = {"crates/sweep/proofs/Passing.antt": {"low": "Low", "bothLow": "BothLow"}}


def snake(word):
    for old, new in OLD_WORDS.items():
        word = re.sub(rf"(?<![A-Za-z0-9]){old}(?![a-z0-9])", new, word)
    return HUMP.sub(lambda m: "_" + m.group(1).lower(), word)


def files(ending):
    return sorted(p for p in glob.glob("crates/*/**/*" + ending, recursive=True) if "/out/" not in p)


def read(path):
    with open(path, encoding="utf-8") as f:
        return f.read()


def fields(text):
    """The names of the fields of the records in a file."""
    inside, depth = False, 0
    for line in text.splitlines():
        if not line.strip() or line.strip().startswith("--"):
            continue
        indent = len(line) - len(line.lstrip())
        if re.match(r"\s*(?:(?:abbrev|unfoldable|pub) )*record .* where\s*$", line):
            inside, depth = True, indent
        elif inside and indent <= depth:
            inside = False
        elif inside:
            found = re.match(r"\s*(?:pub )?([a-z][\w'₀-ₜ-]*) :", line)
            if found:
                yield found.group(1)


def definitions(text):
    for line in text.splitlines():
        found = re.match(r"\s*(?:(?:abbrev|unfoldable|pub) )*([a-z][\w'₀-ₜ]*(?:-[\w'₀-ₜ]+)+) :", line)
        if found:
            yield found.group(1)


def undashed():
    """Dashed names that become words with underscores: definitions of specs/, fields, proofs of functions."""
    names = {}
    for path in files(".antt"):
        text = read(path)
        own = set(fields(text))
        if "/specs/" in path:
            own |= set(definitions(text))
        if path.endswith("/Proof.antt"):
            own |= set(re.findall(r"^pub (\+?[a-z][\w-]*-spec) :", text, re.M))
        for name in own:
            bare = name.lstrip("+")
            if "-" in bare:
                names[bare] = bare.replace("-", "_")
    return names


def respelled(text, names, facts):
    def word(m):
        w = m.group(0)
        if w in facts:
            return facts[w]
        if w in LEMMAS and text[m.start() - 1 : m.start()] != "." and text[m.end() : m.end() + 1] != ".":
            return LEMMAS[w]
        return snake(names.get(w, w))

    return TOKEN.sub(word, text)


def clauses(text, names):
    """A source file: only its ghost imports, its clauses and its comments have names of antt, and only those are in camel case."""

    def line(l):
        code = l.split("//")[0]
        if re.match(r"\s*(ghost|requires|ensures)\b", code) or "//" in l or re.match(r"\s*[×(λ→]", code):
            return respelled(l, names, {}) if not re.match(r"\s*(pub )?fn ", l) else l
        return l

    return "\n".join(line(l) for l in text.split("\n"))


def pages(names):
    for path in ["README.md"] + sorted(glob.glob("docs/**/*.md", recursive=True)):
        text = read(path)
        new = re.sub(r"`[^`\n]+`", lambda m: m.group(0) if re.search(r"[./ ]rt\b|\.sh|cargo|https?:", m.group(0)) else respelled(m.group(0), names, {}), text)
        if new != text:
            write(path, new)


def write(path, text):
    with open(path, "w", encoding="utf-8") as f:
        f.write(text)


def main(argv):
    names = undashed()
    changed = 0
    for path in files(".antt") + files(".rt"):
        text = read(path)
        if path.endswith(".rt"):
            new = clauses(text, {n: w for n, w in names.items()})
        else:
            new = respelled(text, names, FACTS.get(path, {}))
        if new != text:
            write(path, new)
            changed += 1
    if "--pages" in argv:
        pages(names)
    print(f"{changed} files, {len(names)} names without dashes")


if __name__ == "__main__":
    main(sys.argv[1:])
