#!/usr/bin/env python3
"""Tries the definitions of share/utf8.l by the program lex.

    scripts/unicode/tries.py LEX [COUNT [SEED]]

Each definition is tried by one scan of all 1,112,064 code points, which it has to take or not as the files of Debian's package unicode-data
say. These are read another way than `sets.py` does: by one line for each code point. Then COUNT texts (10,000 by default) of random bytes and
of code points cut short are scanned by ANY and BAD, and what each takes is what Python's decoder takes. Also share/utf8.l has to be what
`utf8.py --share` writes."""
import codecs
import os
import random
import subprocess
import sys
import tempfile

import sets
import utf8

SHARE = os.path.join(os.path.dirname(os.path.realpath(__file__)), "..", "..", "share", "utf8.l")
POINTS = [point for point in range(sets.LAST + 1) if not sets.SURROGATES[0] <= point <= sets.SURROGATES[1]]
MARK = "\uf8ff"


def written(lex, rules, text, definition=""):
    """What the program writes for a text, by the shared definitions, one more line, and these rules."""
    with tempfile.NamedTemporaryFile("w", suffix=".l") as file:
        with open(SHARE, encoding="ascii") as shared:
            file.write(shared.read() + definition + "%%\n" + rules)
        file.flush()
        ended = subprocess.run([lex, "-w", "--scan-spec", file.name], input=text, capture_output=True, check=False)
    if ended.returncode:
        raise SystemExit(f"lex ended with {ended.returncode}: {ended.stderr.decode()}")
    return ended.stdout.decode("ascii")


def values(file, default):
    """For each code point what a file of the package says of it."""
    found = [default] * (sets.LAST + 1)
    for where, value, *_ in sets.lines(file):
        first, last = sets.span(where)
        found[first : last + 1] = [value] * (last + 1 - first)
    return found


def binary(file, name):
    """The code points that have a property of two values."""
    return {point for where, what, *_ in sets.lines(file) if what == name for point in range(sets.span(where)[0], sets.span(where)[1] + 1)}


def member_tests():
    """For each shared definition, but ANY and BAD, a test whether it has a code point."""
    category, script = values("extracted/DerivedGeneralCategory.txt", "Cn"), values("Scripts.txt", "Unknown")
    tests = {}
    for name, *_ in utf8.SHARED:
        short = sets.names_of("gc").get(name)
        if name == "ANY":
            continue
        if name in ("XID_Start", "XID_Continue", "White_Space"):
            points = binary("PropList.txt" if name == "White_Space" else "DerivedCoreProperties.txt", name)
            tests[name] = points.__contains__
        elif short:
            tests[name] = lambda point, short=short: category[point].startswith(short)
        else:
            tests[name] = lambda point, name=name: script[point] == name
    return tests


def try_members(lex):
    """Each definition takes the code points that it is to take, and no other one."""
    text = "".join(map(chr, POINTS)).encode()
    faults = 0
    for name, has in [("ANY", lambda point: True), *member_tests().items()]:
        rules = f"{{{name}}} printf(\"y\");\n" + ("" if name == "ANY" else "{ANY} printf(\"n\");\n") + "{BAD} printf(\"!\");\n"
        wanted = "".join("y" if has(point) else "n" for point in POINTS)
        if written(lex, rules, text) != wanted:
            print(f"{name}: takes other code points")
            faults += 1
    return faults


def decoded(text, told=lambda point: "c"):
    """What is told of each code point that Python's decoder finds, and a `!` for each front that does not go on."""
    codecs.register_error("mark", lambda error: (MARK, error.end))
    return "".join("!" if char == MARK else told(ord(char)) for char in text.decode("utf-8", "mark"))


def odd_text(chance):
    """Random bytes, or code points of which some lost their last bytes."""
    if chance.random() < 0.5:
        return bytes(chance.choice((0x41, 0x80, 0x90, 0x9F, 0xA0, 0xBF, 0xC0, 0xC2, 0xDF, 0xE0, 0xED, 0xEF, 0xF0, 0xF4, 0xF5, 0xFF)) for _ in range(chance.randrange(1, 12)))
    points = [chr(chance.choice(POINTS)).encode() for _ in range(chance.randrange(1, 8))]
    return b"".join(point[: chance.randrange(1, len(point) + 1)] for point in points)


def odd_texts(count, seed):
    """So many such texts, less those that have the mark."""
    chance = random.Random(seed)
    return [text for text in (odd_text(chance) for _ in range(count)) if MARK.encode() not in text]


def try_odd(lex, count, seed):
    """What is no UTF-8 is taken by BAD alone, piece by piece as the Unicode Standard advises."""
    texts = odd_texts(count, seed)
    lines = written(lex, '\\n ECHO;\n{ANY} printf("c");\n{BAD} printf("!");\n', b"\n".join(texts) + b"\n").split("\n")
    wrong = [text for text, line in zip(texts, lines) if decoded(text) != line]
    for text in wrong[:10]:
        print(f"{text.hex(' ')}: taken otherwise")
    return len(wrong), len(texts)


def main():
    if not 2 <= len(sys.argv) <= 4:
        raise SystemExit(__doc__)
    lex, count, seed = sys.argv[1], int((sys.argv[2:3] or ["10000"])[0]), int((sys.argv[3:4] or ["1"])[0])
    with open(SHARE, encoding="ascii") as shared:
        is_written = shared.read() == "\n".join(utf8.share()) + "\n"
    if not is_written:
        print("share/utf8.l is not what `scripts/unicode/utf8.py --share` writes")
    faults = try_members(lex)
    wrong, texts = try_odd(lex, count, seed)
    print(f"{len(utf8.SHARED)} definitions over {len(POINTS)} code points: {faults} faults; {texts} odd texts: {wrong} faults")
    sys.exit(0 if is_written and not faults + wrong else 1)


if __name__ == "__main__":
    main()
