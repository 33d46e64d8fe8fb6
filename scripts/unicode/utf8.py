#!/usr/bin/env python3
"""Writes sets of code points as patterns of lex, over the bytes of their UTF-8.

    scripts/unicode/utf8.py NAME SET..     one line for the definitions section: NAME, and a pattern for the code points of all sets
    scripts/unicode/utf8.py --share        the whole of share/utf8.l

`sets.py` says what a SET is. Each code point stands in its shortest form, surrogates in none, and the branches of a pattern are grouped by
their first bytes. (RFC 3629, section 3.)"""
import sys

import sets

# The definitions of share/utf8.l: a name, its sets, and what it is.
SHARED = [
    ("ANY", ["Any"], "a code point"),
    ("Letter", ["Letter"], "a letter"),
    ("Uppercase_Letter", ["Uppercase_Letter"], "a capital letter"),
    ("Lowercase_Letter", ["Lowercase_Letter"], "a small letter"),
    ("Mark", ["Mark"], "a mark that combines with what stands before it"),
    ("Number", ["Number"], "a number: a digit, a numeral that is a letter, or another one, as a fraction"),
    ("Decimal_Number", ["Decimal_Number"], "a decimal digit"),
    ("Punctuation", ["Punctuation"], "a punctuation mark"),
    ("Symbol", ["Symbol"], "a symbol, as of mathematics or money"),
    ("Separator", ["Separator"], "a blank, or what separates lines or paragraphs"),
    ("White_Space", ["White_Space"], "white space: separators, and tab to carriage return"),
    ("XID_Start", ["XID_Start"], "what an identifier may begin with (UAX 31)"),
    ("XID_Continue", ["XID_Continue"], "what an identifier may go on with (UAX 31)"),
    *((script, [script], f"the script {script}") for script in "Arabic Cyrillic Devanagari Greek Han Hangul Hebrew Hiragana Katakana Latin Thai".split()),
]
# What is no UTF-8: a byte that begins no code point, or the longest front of one that does not go on. (The Unicode Standard 15.0, section 3.9,
# U+FFFD Substitution of Maximal Subparts.)
BAD = (
    r"[\x80-\xff]|\xe0[\xa0-\xbf]|[\xe1-\xec\xee\xef][\x80-\xbf]|\xed[\x80-\x9f]"
    r"|\xf0[\x90-\xbf][\x80-\xbf]?|[\xf1-\xf3][\x80-\xbf]{1,2}|\xf4[\x80-\x8f][\x80-\xbf]?"
)


def sequences(first, last):
    """Lists of ranges of bytes, which together spell just the code points from the first to the last."""
    for most in (0x7F, 0x7FF, 0xFFFF):
        if first <= most < last:
            yield from sequences(first, most)
            yield from sequences(most + 1, last)
            return
    begin, end = chr(first).encode(), chr(last).encode()
    for behind in range(1, len(begin)):
        mask = (1 << 6 * behind) - 1
        if first & ~mask == last & ~mask:
            continue
        if first & mask:
            yield from sequences(first, first | mask)
            yield from sequences((first | mask) + 1, last)
            return
        if last & mask != mask:
            yield from sequences(first, (last & ~mask) - 1)
            yield from sequences(last & ~mask, last)
            return
    yield tuple(zip(begin, end))


def byte_class(ranges):
    """The pattern of one byte out of ranges."""
    if len(ranges) == 1 and ranges[0][0] == ranges[0][1]:
        return rf"\x{ranges[0][0]:02x}"
    return "[" + "".join(rf"\x{low:02x}" if low == high else rf"\x{low:02x}-\x{high:02x}" for low, high in ranges) + "]"


def pattern_of(spelled):
    """The pattern of lists of ranges, grouped by the first one, and those with the same rest in one class."""
    alone, behind = [], {}
    for first, *rest in spelled:
        if rest:
            behind.setdefault(first, []).append(rest)
        else:
            alone.append(first)
    groups = {}
    for first, rests in behind.items():
        groups.setdefault(pattern_of(rests), []).append(first)
    branches = [byte_class(alone)] if alone else []
    for rest, firsts in groups.items():
        branches.append(byte_class(firsts) + (f"({rest})" if "|" in rest else rest))
    return "|".join(branches)


def definition(name, names):
    """The line that defines a name for the code points of these sets."""
    ranges = sets.merged([pair for one in names for pair in sets.ranges_of(one)])
    if not ranges:
        raise SystemExit(f"{name}: no code point")
    return f"{name} {pattern_of([spelled for pair in ranges for spelled in sequences(*pair)])}"


def share():
    """The lines of share/utf8.l."""
    yield f"/* Code points of Unicode {sets.version()} as definitions, over the bytes of their UTF-8: scripts/unicode/utf8.py writes this file."
    yield "   Put it before a file, as in `lex share/utf8.l words.l`, or copy lines of it. Each takes one code point, so `{Letter}+` is"
    yield "   a word. BAD is what is no UTF-8, and wants a rule for ANY beside it: a code point is longer than its front."
    yield "   The data is that of the Unicode Character Database, copyright 1991-2022 Unicode, Inc.: https://www.unicode.org/terms_of_use.html */"
    for name, names, what in SHARED:
        yield f"/* {name}: {what} */"
        yield definition(name, names)
    yield "/* BAD: what is no UTF-8: a byte that begins no code point, or the longest front of one that does not go on */"
    yield f"BAD {BAD}"


def main():
    if sys.argv[1:] == ["--share"]:
        print("\n".join(share()))
    elif len(sys.argv) > 2 and not sys.argv[1].startswith("-"):
        print(definition(sys.argv[1], sys.argv[2:]))
    else:
        raise SystemExit(__doc__)


if __name__ == "__main__":
    main()
