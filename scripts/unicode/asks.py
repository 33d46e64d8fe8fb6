#!/usr/bin/env python3
"""Asks `lexlook utf8` for each set that it knows, and compares its words with the files of Debian's package unicode-data.

    scripts/unicode/asks.py LEXLOOK LEX

The sets are each general category by both names, each group of them, each script, `XID_Start`, `XID_Continue`, `White_Space` and `Any`, each
of these behind a `!`, and some ranges and unions. Each word of a pattern is decoded by Python's own decoder, so it is an encoding, and in the
shortest form. It has to stand there once. The files are read as `tries.py` does, by one line for each code point.

The program lex scans by each definition: all 1,112,064 code points, each once, of which it has to take those of the set and no others. Then
texts of random bytes and of code points cut short, of which BAD of share/utf8.l alone has to take what is no UTF-8.

The version that is told has to be that of the files."""
import re
import subprocess
import sys

import sets
from tries import POINTS, binary, decoded, odd_texts, values, written

BYTE = r"\\x([0-9a-f]{2})"
# Words that are no set, or a set without a code point: status 64.
REFUSED = [["lu"], ["Greek "], [""], ["!"], ["!!Lu"], ["U+41"], ["U+110000"], ["U+0042-U+0041"], ["U+0041-"], ["U+-041"], ["Lu", "nothing"], ["Cs"], ["U+D800-U+DFFF"]]


def asked(lexlook, words):
    """What the program writes for some words, and its status."""
    ended = subprocess.run([lexlook, "utf8", "--", *words], capture_output=True, check=False)
    return ended.returncode, ended.stdout.decode("ascii")


def bytes_of(members):
    """The bytes of a class, by what stands between its brackets."""
    ranges = re.findall(rf"{BYTE}(?:-{BYTE})?", members)
    return [bytes([byte]) for low, high in ranges for byte in range(int(low, 16), int(high or low, 16) + 1)]


def words_of(tokens):
    """The words of the branches that the next tokens are, each so often as they have it. A `)` or the end stands behind them."""
    found, series = [], [b""]
    while tokens and tokens[-1] != ")":
        token = tokens.pop()
        if token == "|":
            found, series = found + series, [b""]
            continue
        if token == "(":
            inner = words_of(tokens)
            tokens.pop()
        else:
            inner = bytes_of(token)
        series = [front + behind for front in series for behind in inner]
    return found + series


def points_of(pattern):
    """The code points whose encodings are the words of a pattern, so often as there are branches that have them."""
    if not re.fullmatch(rf"(\[({BYTE}(-{BYTE})?)+\]|[(|)])+", pattern):
        raise SystemExit(f"{pattern}: no classes in branches")
    tokens = re.findall(r"\[[^]]*\]|[(|)]", pattern)[::-1]
    found = [ord(word.decode("utf-8")) for word in words_of(tokens)]
    if tokens:
        raise SystemExit(f"{pattern}: a parenthesis too many")
    return found


def scanned(lex, pattern, text):
    """What a pattern takes of a text: a `y` for each code point of it, an `n` for another one, and a `!` for what is no UTF-8."""
    return written(lex, '{ASKED} printf("y");\n{ANY} printf("n");\n{BAD} printf("!");\n', text, f"ASKED {pattern}\n")


def named_sets():
    """Each set that has a name, and a test whether a code point is in it."""
    category, script = values("extracted/DerivedGeneralCategory.txt", "Cn"), values("Scripts.txt", "Unknown")
    names = [(short, long) for kind, short, long, *_ in sets.lines("PropertyValueAliases.txt") if kind == "gc" and short != "Cs"]
    for short, long in names:
        members = frozenset(sets.GROUPS.get(short) or [one for one in {*category} if one.startswith(short)])
        for name in (short, long):
            yield name, lambda point, members=members: category[point] in members
    for name in sorted({*script} - {"Unknown"}):
        yield name, lambda point, name=name: script[point] == name
    for name in ("XID_Start", "XID_Continue", "White_Space"):
        yield name, binary("PropList.txt" if name == "White_Space" else "DerivedCoreProperties.txt", name).__contains__


def wanted_sets():
    """The words of each question, and a test whether a code point is wanted."""
    script = values("Scripts.txt", "Unknown")
    for name, has in named_sets():
        yield [name], has
        yield ["!" + name], lambda point, has=has: not has(point)
    yield ["Any"], lambda point: True
    yield ["Greek", "Cyrillic", "U+0041"], lambda point: script[point] in ("Greek", "Cyrillic") or point == 0x41
    yield ["U+0041", "Cyrillic", "Greek", "Greek", "U+0400"], lambda point: script[point] in ("Greek", "Cyrillic") or point == 0x41
    yield ["U+0400-U+04FF", "U+0300-U+0450", "U+0500-U+0510"], lambda point: 0x300 <= point <= 0x510
    yield ["!Lu", "Lu"], lambda point: True
    for first, last in ((0, 0), (0x7F, 0x80), (0x7FE, 0x801), (0xD700, 0xE001), (0xFFFE, 0x10001), (0x3F, 0x10FFC0), (0x10FFFF, 0x10FFFF)):
        yield [f"U+{first:04X}-U+{last:04X}"], lambda point, first=first, last=last: first <= point <= last


def main():
    if len(sys.argv) != 3:
        raise SystemExit(__doc__)
    count = faults = 0
    every, odd = "".join(map(chr, POINTS)).encode(), b"\n".join(odd_texts(1000, 1))
    for words, has in wanted_sets():
        count += 1
        status, line = asked(sys.argv[1], words)
        name, _, pattern = line.rstrip("\n").partition(" ")
        wanted = "_or_".join(word.replace("!", "not_").replace("+", "_") for word in words)
        taken = "".join("y" if has(point) else "n" for point in POINTS)
        if status or name != wanted or sorted(points_of(pattern)) != [point for point, told in zip(POINTS, taken) if told == "y"]:
            print(f"{' '.join(words)}: status {status}, or another name, or other code points, or one twice")
            faults += 1
        elif scanned(sys.argv[2], pattern, every + odd) != taken + decoded(odd, lambda point, has=has: "y" if has(point) else "n"):
            print(f"{' '.join(words)}: scanned otherwise")
            faults += 1
    ended = subprocess.run([sys.argv[1], "utf8", "--version"], capture_output=True, check=False)
    if (ended.returncode, ended.stdout.decode("ascii")) != (0, f"Unicode {sets.version()}\n"):
        print("--version: not that of the files")
        faults += 1
    for words in REFUSED:
        count += 1
        if asked(sys.argv[1], words) != (64, ""):
            print(f"{words}: not refused")
            faults += 1
    print(f"{count} questions: {faults} faults")
    sys.exit(1 if faults else 0)


if __name__ == "__main__":
    main()
