#!/usr/bin/env python3
"""Respells the repository's own definitions, lemmas, fields and constructors in snake case: once, after the kit's port.py.

usage: python3 tools/respell.py            at the top of the repository; writes the files in place

A name is respelled where a file of specs/ or proofs/ declares it, in every .antt file and in the ghost text of every .rt file.
Names of goals and of steps (behind `c.`, `w.` and `goal.`) come from the source and stay as they are.
A dash stays only where it joins a lemma's name to that of a definition, as in `arcs_at-append`.
"""

import os
import re
import sys

# names that would fall together with another
APART = {
    "sum-of": "sum_over",
    "arc-in": "arc_within",
    "here-in": "here_within",
    "landing-in": "landing_within",
    "turnAt": "turn_taken",
    "is_open": "stands_open",
    "all-of": "all_of_is",
    "turnedAway": "turned_away_by",
    "over-key": "over_key_case",
    "under-key": "under_key_case",
    "refusedAs": "refused_outcome",
    "move-declines": "move_declines_lem",
    "stretch-declines": "stretch_declines_lem",
    "search-course": "search_course_lem",
    "route-course": "route_course_lem",
    "route-declines": "route_declines_lem",
    "sum-declines": "sum_declines_lem",
    "beginAt": "begin_with",
    "part-of": "part_of_lem",
    "key-of": "same_key",
    "rowUp": "row_rise",
    "columnUp": "column_rise",
    "allFound": "are_all_found",
    "is-settled": "said_settled",
}
# names that a pattern or a `let` binds without its type
BARE = "neighbourOf c-in u-in in-t under-p q-in p-in j-in v-in not-open heights-low safe-t".split()
STOPS = r"\s(){};,.λ∷≡→×⊎:|↦\[\]=+*≤<∙@\"⌜⌝¬≢⊕"
TOKEN = re.compile(rf"[^{STOPS}]+")
DECLARED = re.compile(r"\s*(?:abbrev |unfoldable |pub |let |data |record |module )*([^\s:(){}]+(?: [^\s:(){}]+)*) : (.*)$")
BOUND = re.compile(r"\(([^():λ]+) : ")


def texts(kind):
    for folder, dirs, files in os.walk("crates"):
        dirs[:] = sorted(d for d in dirs if d != "out")
        for name in sorted(files):
            if name.endswith(kind):
                yield os.path.join(folder, name)


def is_old(name):
    return re.search(r"\w-\w", name) or re.match(r"[a-z][a-z0-9_']*[A-Z]", name)


def snake(name):
    camel = re.match(r"[a-z]+[A-Z]\w*-", name)
    words = re.sub(r"(?<=[a-z0-9])([A-Z])", lambda m: "_" + m.group(1).lower(), name)
    return words if camel else words.replace("-", "_")


def names():
    found = {n: n for n in [*APART, *BARE]}
    for path in texts(".antt"):
        for line in open(path, encoding="utf-8"):
            said = DECLARED.match(line)
            if said and not said.group(2).startswith("goal."):
                found |= {n: n for n in said.group(1).split() if is_old(n)}
            for group in BOUND.findall(line):
                found |= {n: n for n in group.split() if is_old(n)}
    for path in texts(".rt"):
        found |= {n: n for n in re.findall(r"^\s*ghost (\w+): ", open(path, encoding="utf-8").read(), re.M) if is_old(n)}
    return {n: APART.get(n) or snake(n) for n in found}


def respelled(text, table, own_steps):
    out, at = [], 0
    for m in TOKEN.finditer(text):
        word = m.group(0)
        new = table.get(word)
        if new and not (own_steps and re.search(r"(?<![\w'-])(?:c|w|goal)\.$", text[: m.start()])):
            out += [text[at : m.start()], new]
            at = m.end()
    return "".join(out) + text[at:]


def main():
    table = names()
    for path in texts(".antt"):
        text = open(path, encoding="utf-8").read()
        steps = os.path.basename(path) in ("Answers.antt", "Invariants.antt", "Proof.antt")
        goals = {m.group(1) for m in re.finditer(r"^pub (\S+) : goal\.", text, re.M)} if steps else set()
        new = respelled(text, {k: v for k, v in table.items() if k not in goals}, steps)
        if new != text:
            open(path, "w", encoding="utf-8").write(new)
    for path in texts(".rt"):
        lines = open(path, encoding="utf-8").read().split("\n")
        for i, line in enumerate(lines):
            if not line.lstrip().startswith("//") and '"' not in line:
                lines[i] = respelled(line, table, False)
        open(path, "w", encoding="utf-8").write("\n".join(lines))
    if "--table" in sys.argv:
        print("\n".join(f"{k} -> {v}" for k, v in sorted(table.items())))


if __name__ == "__main__":
    main()
