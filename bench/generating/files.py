#!/usr/bin/env python3
"""Writes specifications that are slow to build into FOLDER: patterns of nested signs, many rules, and parts without positions
and signs on signs that many rules use.

    bench/generating/files.py FOLDER"""
import sys
from pathlib import Path

SIGNS = 64


def nested(items):
    """So many letters, each with nested signs."""
    return "%%\n" + ("a" + "+" * SIGNS) * items + " ;\n"


def words(count):
    """So many rules, each a word of three letters."""
    letters = str.maketrans("0123456789abcdef", "abcdefghijklmnop")
    return "%%\n" + "".join(f"{number:03x}".translate(letters) + " ;\n" for number in range(count))


def nothing(rules):
    """Rules that each use a tree of 32,767 nodes without a position."""
    names = ['N0 ""'] + [f"N{k} {{N{k - 1}}}{{N{k - 1}}}" for k in range(1, 15)]
    return "\n".join(names) + "\n%%\n" + "{N14}a ;\n" * rules


def signs(rules):
    """Rules that each use a letter with 3,840 signs, through names."""
    names = ["N0 a" + "+?*" * 20] + [f"N{k} {{N{k - 1}}}" + "+?*" * 20 for k in range(1, 64)]
    return "\n".join(names) + "\n%%\n" + "{N63} ;\n" * rules


def beside(rules):
    """Rules of four letters, each under signs beside parts without positions, through names."""
    names = ["N0 a"] + [f'N{k} (""{{N{k - 1}}}"")+' for k in range(1, 31)]
    return "\n".join(names) + "\n%%\n" + "{N30}{N30}{N30}{N30} ;\n" * rules


FILES = {f"nested{items}": nested(items) for items in (100, 200, 400, 1000)}
FILES |= {f"words{count}": words(count) for count in (2_000, 4_096)}
FILES |= {f"nothing{rules}": nothing(rules) for rules in (16, 256)}
FILES |= {"signs4096": signs(4_096), "beside4096": beside(4_096)}

folder = Path(sys.argv[1])
for name, text in FILES.items():
    (folder / f"{name}.l").write_text(text)
