#!/usr/bin/env python3
"""Prints the lemmas of crates/NAME/proofs/ that nothing cites: no proof, no definition and no contract of any crate.

    scripts/gate/unused-lemmas.py

A name that stands twice in the repository may hide one. Answers, invariants and proofs of a function are called by their names,
so they are left out."""
import collections
import re
from pathlib import Path

CRATES = Path(__file__).resolve().parents[2] / "crates"
WORD = re.compile(r"[A-Za-z_][\w'-]*")
LEMMA = re.compile(r"(\s*)(?:abbrev |unfoldable )*(?:pub )?([A-Za-z_][\w'-]*) : ")
CALLED = {"Answers.antt", "Invariants.antt", "Proof.antt", "Lib.antt"}


def texts():
    """The files of proofs/, specs/ and src/."""
    for path in sorted(CRATES.rglob("*")):
        if path.suffix in (".antt", ".rt") and "out" not in path.relative_to(CRATES).parts:
            yield path, path.read_text(encoding="utf-8")


def lemmas(text):
    """Each lemma of a file of proofs/, with how often its own lines begin with its name."""
    lines = text.split("\n")
    for at, line in enumerate(lines):
        head = LEMMA.match(line)
        if head:
            end = next((row for row in range(at, len(lines)) if not lines[row].strip()), len(lines))
            clause = re.compile(re.escape("".join(head.groups())) + r"(?![\w'-])")
            yield head[2], 1 + sum(bool(clause.match(row)) for row in lines[at + 1 : end])


files = dict(texts())
count = collections.Counter(word for text in files.values() for word in WORD.findall(text))
for path, text in files.items():
    if "proofs" in path.parts and path.name not in CALLED:
        for name, own in lemmas(text):
            if count[name] == own:
                print(f"{path.relative_to(CRATES)}: {name}")
