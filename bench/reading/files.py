#!/usr/bin/env python3
"""Writes specifications near the limits of reading into FOLDER, each of at most a megabyte.

    bench/reading/files.py FOLDER"""
import sys
from pathlib import Path

RULES = 4_096
NAMED = "{D} ;\n"
CLASS = "[" + "abcdefghij" * 50_000 + "]"


def defined(lines, rules):
    return "".join(f"{name} {text}\n" for name, text in lines) + "%%\n" + rules


def doubling(first, times):
    """Names of which each stands for the one before it twice."""
    lines = [("N0", first)] + [(f"N{k}", f"{{N{k - 1}}}{{N{k - 1}}}") for k in range(1, times)]
    return lines + [("D", f"{{N{times - 1}}}{{N{times - 1}}}")]


FILES = {
    # a definition of 65,000 letters, used by each rule
    "letters": defined([("D", "a" * 65_000)], NAMED * RULES),
    # a tree of 65,535 nodes made of 16 short definitions, used by each rule
    "twice": defined(doubling("a", 15), NAMED * RULES),
    # the like with trailing context, so that each rule's lengths are counted
    "lengths": defined(doubling("a?", 14), "{D}/a ;\n" * RULES),
    # a class of 500,000 bytes in a definition that each rule uses
    "class": defined([("D", CLASS)], NAMED * RULES),
    # the same class inside a name that stands inside its own text
    "cycle": defined([("D", CLASS + "{D}")], NAMED),
    # as many rules and letters as a file may have
    "rules": defined([], ("a" * 237 + " ;\n") * RULES),
    # as many nodes as a pattern may have
    "nodes": defined([], "a" * 65_535 + " ;\n"),
}

folder = Path(sys.argv[1])
for name, text in FILES.items():
    (folder / f"{name}.l").write_text(text)
