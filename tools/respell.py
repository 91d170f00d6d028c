#!/usr/bin/env python3
"""Brings the repository's own definitions and lemmas to today's spelling: words in snake case, types and modules in camel case.

Run at the top, after port.py of the kit. It renames what specs/ and proofs/ declare in mixed case (lookUp becomes look_up) and what specs/ declares
with a dash (new-bytes becomes new_bytes), wherever the name stands in .antt files and in .rt files outside strings. A second run changes nothing. Functions of src/, exported names and strings keep their names. Names that would
fall together with another one are told apart first (APART). A function's proof in Proof.antt gets the name by which the check finds it.
"""
import collections
import glob
import os
import re
import sys

# A lemma or a field whose name a definition takes: in these files (a prefix of their path), this word becomes that one.
APART = [
    ("crates/", "front_length", "front_length_lem"),
    ("crates/characters/proofs/Windows", "goes_on", "goes_on_lem"),
    ("crates/journal/proofs/", "in_order", "edits_are"),
    ("crates/record/proofs/", "bodies_of", "bodies_are"),
    ("crates/", "numbers_fit", "numbers_fit_lem"),
    ("crates/", "is_name", "is_name_lem"),
    ("crates/demands/proofs/BatchLaws", "one_more", "one_more_lem"),
    ("crates/demands/proofs/EditLaws", "left_by", "left_by_lem"),
    ("crates/demands/proofs/ContractLaws", "told_in", "told_in_lem"),
    ("crates/edit/", "none-bad", "no_bad_line"),
]
# Modules whose names Rattle now makes itself.
FILES = [("crates/demands/specs/Contracts.antt", "crates/demands/specs/ByContracts.antt")]
PATHS = [("Rattle.demands.specs.Contracts", "Rattle.demands.specs.ByContracts")]

WORD = re.compile(r"[A-Za-zα-ωℕ_][\w'₀-₉⁺ℕ-]*")
DECLARED = re.compile(r"^\s*(?:(?:unfoldable|abbrev|pub|data|record|mutual)\s+)*([A-Za-zα-ωℕ₀-₉][^\s(){}:,.]*)\s*(?:[({].*)?:\s")
STRING = re.compile(r"""b?"(?:\\.|[^"\\])*"|b?'(?:\\.[^']*|[^'\\\n])'""")


def snake(name):
    name = name.replace("LF", "Lf")
    name = re.sub(r"([a-z0-9])([A-Z])", lambda m: m.group(1) + "_" + m.group(2).lower(), name)
    return name.replace("-Lf", "-lf")


def words(text, names):
    return WORD.sub(lambda m: names.get(m.group(0), m.group(0)), text)


def outside_strings(text, names):
    parts, at = [], 0
    for m in STRING.finditer(text):
        parts += [words(text[at : m.start()], names), m.group(0)]
        at = m.end()
    return "".join(parts + [words(text[at:], names)])


def main():
    if not os.path.isdir("crates"):
        sys.exit("respell: run this at the top of the repository")
    for old, new in FILES:
        if os.path.exists(old):
            os.rename(old, new)
    lib = "crates/demands/specs/Lib.antt"
    antt = sorted(glob.glob("crates/*/specs/**/*.antt", recursive=True) + glob.glob("crates/*/proofs/**/*.antt", recursive=True))
    rt = sorted(glob.glob("crates/*/src/**/*.rt", recursive=True))
    texts = {f: open(f, encoding="utf-8").read() for f in antt + rt}
    for f in texts:
        for old, new in PATHS:
            texts[f] = re.sub(re.escape(old) + r"\b", new, texts[f])
        if f == lib:
            texts[f] = texts[f].replace("pub mod Contracts\n", "pub mod ByContracts\n")
    for start, old, new in APART:
        there = [f for f in antt if f.startswith(start)]
        if not any(new in WORD.findall(texts[f]) for f in there):
            for f in there:
                texts[f] = words(texts[f], {old: new})
    declared, dashed = set(), set()
    for f in antt:
        if f.endswith(("/Answers.antt", "/Invariants.antt")):
            continue  # they declare goals, whose names Rattle makes
        for line in texts[f].splitlines():
            m = DECLARED.match(line)
            if m:
                declared.add(m.group(1))
                if "/specs/" in f and "-" in m.group(1):
                    dashed.add(m.group(1))
    names = {n: snake(n) for n in declared if re.match(r"[a-z]", n) and re.search(r"[A-Z]", n)}
    names.update({n: snake(n).replace("-", "_") for n in dashed})
    fallen = []
    for f in antt:
        if not f.endswith("/Proof.antt"):
            there = set(WORD.findall(re.sub(r"Rattle(?:\.[\w]+)+", "", texts[f])))
            respelled = collections.Counter(names.get(n, n) for n in there)
            fallen += [(n, f) for n, c in respelled.items() if c > 1]
    if fallen:
        sys.exit(f"respell: names fall together: {fallen}")
    for f, text in texts.items():
        text = words(text, names) if f in antt else outside_strings(text, names)
        if f.endswith("/Proof.antt"):
            text = re.sub(r"(?m)^(pub )?([\w-]+)-spec\b", lambda m: (m.group(1) or "") + m.group(2).replace("-", "_") + "_spec", text)
        if text != open(f, encoding="utf-8").read():
            open(f, "w", encoding="utf-8").write(text)
    print(f"respell: {len(names)} names")


main()
