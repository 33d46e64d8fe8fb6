#!/usr/bin/env python3
"""Writes crates/lexlook_unicode/src/table.rt, the sets of code points that lexlook knows by name, from Debian's package unicode-data.

    scripts/unicode/table.py            writes the file
    scripts/unicode/table.py --check    tells whether it is what would be written, with a status of 1 if not

A set is a general category, a group of these, a script, `XID_Start`, `XID_Continue` or `White_Space`. Each has a line: its names, a
colon, and its ranges in hexadecimal digits. `sets.py` reads the package."""
import os
import sys

import sets

TABLE = os.path.join(os.path.dirname(os.path.realpath(__file__)), "..", "..", "crates", "lexlook_unicode", "src", "table.rt")
WIDTH = 96


def group(name):
    """The general categories of a group, as `L` or `LC`."""
    return sets.GROUPS.get(name) or [one for one in sets.categories() if one.startswith(name)]


def named_sets():
    """Each set: its names, and its ranges."""
    found = sets.categories()
    found["Cs"] = [sets.SURROGATES]
    for kind, short, long, *_ in sets.lines("PropertyValueAliases.txt"):
        if kind == "gc":
            members = [short] if short in found else group(short)
            yield [short, long], whole([pair for one in members for pair in found[one]])
    scripts = {}
    for where, script, *_ in sets.lines("Scripts.txt"):
        scripts.setdefault(script, []).append(sets.span(where))
    yield from (([script], whole(scripts[script])) for script in sorted(scripts))
    for file, name in (("DerivedCoreProperties.txt", "XID_Start"), ("DerivedCoreProperties.txt", "XID_Continue"), ("PropList.txt", "White_Space")):
        yield [name], whole(sets.listed(file, name))


def whole(ranges):
    """The same code points, by ranges that ascend and do not touch."""
    found = []
    for first, last in sorted(ranges):
        if found and first <= found[-1][1] + 1:
            found[-1] = (found[-1][0], max(found[-1][1], last))
        else:
            found.append((first, last))
    return found


def words(names, ranges):
    """The words of the line of a set."""
    yield " ".join(names) + ":"
    for first, last in ranges:
        yield f"{first:X}" if first == last else f"{first:X}-{last:X}"


def wrapped(names, ranges):
    """The line of a set, by pieces that are not too long."""
    piece = ""
    for word in words(names, ranges):
        if len(piece) + len(word) > WIDTH:
            yield piece
            piece = ""
        piece += word + " "
    yield piece.rstrip() + "\\n"


def table():
    """The lines of the file."""
    yield f"//! Sets of code points by their names, of Unicode {sets.version()}. scripts/unicode/table.py writes this file."
    yield "//!"
    yield "//! The data is that of the Unicode Character Database, copyright 1991-2022 Unicode, Inc.:"
    yield "//! https://www.unicode.org/terms_of_use.html"
    yield ""
    yield "/// The line that tells the version of Unicode that the sets are of."
    yield f'pub const UNICODE: &str = "Unicode {sets.version()}\\n";'
    yield ""
    yield "/// A line for each set: its names, a colon, and its ranges, which ascend and do not touch, in hexadecimal digits."
    yield 'pub(crate) const SETS: &str = "\\'
    pieces = [piece for names, ranges in named_sets() for piece in wrapped(names, ranges)]
    yield from (f"    {piece}\\" for piece in pieces[:-1])
    yield f'    {pieces[-1]}";'


def main():
    text = "\n".join(table()) + "\n"
    if sys.argv[1:] == ["--check"]:
        with open(TABLE, encoding="ascii") as file:
            same = file.read() == text
        print("the table is what would be written" if same else f"{os.path.relpath(TABLE)}: differs from what would be written")
        sys.exit(0 if same else 1)
    if sys.argv[1:]:
        raise SystemExit(__doc__)
    with open(TABLE, "w", encoding="ascii") as file:
        file.write(text)


if __name__ == "__main__":
    main()
