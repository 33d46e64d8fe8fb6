#!/usr/bin/env python3
"""Writes a text in several scripts and specifications over it into FOLDER, the text of about SIZE bytes.

    bench/letters/files.py FOLDER [SIZE]

text.input has words, numbers and marks in twelve scripts. For each specification there are NAME.l for lex, with the definitions that
scripts/unicode/utf8.py writes; NAME.flex.l, with the same definitions cut into pieces that flex does not refuse as too long; and NAME.re for
re2c -8, with the same code points in classes of its own. The code points are those of Debian's package unicode-data. The same numbers make
the same text each time."""
import itertools
import random
import sys
from pathlib import Path

sys.path.insert(0, str(Path(__file__).resolve().parents[2] / "scripts" / "unicode"))
import sets
import utf8

# The scripts of the text, and how often each is taken.
SCRIPTS = {"Latin": 8, "Greek": 2, "Cyrillic": 4, "Arabic": 3, "Hebrew": 1, "Devanagari": 3, "Thai": 1, "Hangul": 2, "Hiragana": 2, "Katakana": 1, "Han": 4, "Armenian": 1}
MARKS = list(" " * 24 + "\n,.;:-()_")
# flex refuses a definition of 2,048 bytes or more.
MOST = 2000
GROUPS = ("Letter", "Mark", "Number", "Punctuation", "Symbol", "Separator", "Other")
# Each specification: its rules, as the pattern of lex, that of re2c, and what is written: the text, or between brackets, or a letter.
RULES = {
    "words": [("{Letter}({Letter}|{Mark})*", "Letter (Letter | Mark)*", "<>"), ("{Any}", "Any", None)],
    "identifiers": [("({XID_Start}|_){XID_Continue}*", '(XID_Start | "_") XID_Continue*', "<>"), ("{Any}", "Any", None)],
    "scripts": [(f"{{{name}}}+", f"{name}+", name[:2]) for name in SCRIPTS] + [("{Any}", "Any", "")],
    "categories": [(f"{{{name}}}+", f"{name}+", name[:1]) for name in GROUPS],
}


def ranges_of(name):
    """The ranges of a set, without U+0000."""
    return [(max(first, 1), last) for first, last in sets.ranges_of(name) if last > 0]


def names_in(rules):
    """The sets that rules name, each once, in order."""
    known = ["Letter", "Mark", "XID_Start", "XID_Continue", *SCRIPTS, *GROUPS, "Any"]
    return [name for name in dict.fromkeys(known) if any(f"{{{name}}}" in pattern for pattern, *_ in rules)]


def action(told):
    """The action of a rule for lex and flex."""
    return "ECHO;" if told is None else 'printf("<%s>", yytext);' if told == "<>" else f'printf("{told}");' if told else ";"


def rules_of(rules):
    """The rules section for lex and flex."""
    return "%%\n" + "".join(f"{pattern}   {action(told)}\n" for pattern, _, told in rules)


def definition(name):
    """The definition of a set for lex."""
    return f"{name} {utf8.pattern_of([spelled for pair in ranges_of(name) for spelled in utf8.sequences(*pair)])}\n"


def cut_definition(name):
    """The same for flex: definitions of parts that are short enough, and one of them all."""
    branches = ["".join(utf8.byte_class([pair]) for pair in spelled) for pair in ranges_of(name) for spelled in utf8.sequences(*pair)]
    parts = [[]]
    for branch in branches:
        if sum(len(one) + 1 for one in parts[-1]) + len(branch) > MOST:
            parts.append([])
        parts[-1].append(branch)
    lines = [f"{name}_{place} {'|'.join(part)}\n" for place, part in enumerate(parts)]
    return "".join(lines) + f"{name} " + "|".join(f"{{{name}_{place}}}" for place in range(len(parts))) + "\n"


def escaped(point):
    return f"\\u{point:04x}" if point < 0x10000 else f"\\U{point:08x}"


def for_re2c(name, rules):
    """The source for re2c."""
    classes = "".join(f"        {one} = [{''.join(escaped(first) + '-' + escaped(last) for first, last in ranges_of(one))}];\n" for one in names_in(rules))
    lines = ""
    for _, pattern, told in rules:
        done = "ECHO;" if told is None else 'PUT("<"); ECHO; PUT(">");' if told == "<>" else f'PUT("{told}");' if told else ""
        lines += f"        {pattern} {{ {done} continue; }}\n"
    return f"""/* {name}.re */
#include "ends.h"

int main(void) {{
    PLACES;
    for (;;) {{
        token = marker = cursor;
        /*!re2c
        re2c:eof = 0;
{classes}{lines}        *   {{ ECHO; continue; }}
        $   {{ flush(); return 0; }}
        */
    }}
}}
"""


def pieces(pick):
    """The pieces of the text."""
    points = {name: [point for first, last in sets.ranges_of(name) for point in range(first, last + 1)] for name in SCRIPTS}
    # Most words have the letters that the script begins with, as those of languages do.
    common = {name: all_of[: 4000 if name in ("Han", "Hangul") else 80] for name, all_of in points.items()}
    names, often = list(SCRIPTS), list(SCRIPTS.values())
    while True:
        script = pick.choices(names, often)[0]
        for _ in range(pick.randrange(4, 20)):
            letters = common[script] if pick.random() < 0.9 else points[script]
            yield "".join(chr(pick.choice(letters)) for _ in range(pick.randrange(1, 5 if script == "Han" else 11)))
            if pick.random() < 0.05:
                yield " " + str(pick.randrange(10_000))
            yield pick.choice(MARKS)


def main():
    if len(sys.argv) not in (2, 3):
        raise SystemExit(__doc__)
    folder, size = Path(sys.argv[1]), int(sys.argv[2]) if len(sys.argv) > 2 else 20_000_000
    for name, rules in RULES.items():
        (folder / f"{name}.l").write_text("".join(map(definition, names_in(rules))) + rules_of(rules))
        (folder / f"{name}.flex.l").write_text("".join(map(cut_definition, names_in(rules))) + rules_of(rules))
        (folder / f"{name}.re").write_text(for_re2c(name, rules))
    written = 0
    with open(folder / "text.input", "wb") as out:
        for piece in itertools.takewhile(lambda _: written < size, pieces(random.Random(1))):
            written += out.write(piece.encode())


if __name__ == "__main__":
    main()
