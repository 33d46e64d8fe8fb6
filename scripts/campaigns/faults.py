#!/usr/bin/env python3
"""Changes the specifications of examples/ at random, and holds the first fault of `lexlook check` to that of lex.

    scripts/campaigns/faults.py LEX LEXLOOK [COUNT [SEED]]

LEX and LEXLOOK are the built programs. COUNT changes are made, 1,000 without it, by the seed SEED, 1 without it. Where lex takes the
specification, `lexlook check` has to tell no error, with status 0. Where lex refuses it, an error that is told has lex's kind, line and
offset, and the status is 1; an error of a word has lex's kind, and stands at the word, which may be behind that line. Errors have to stand
in order of line and column. No other reason may be told twice of one line, and 100 faults are the most. A line tells each specification where
this is not so, which is kept in a folder, and then how many were refused and how many faults were told. The status is 1 where something differs."""
import os
import random
import re
import subprocess
import sys
import tempfile

EXAMPLES = os.path.join(os.path.dirname(os.path.dirname(os.path.dirname(os.path.realpath(__file__)))), "examples")
PIECES = [b"foo();", b"[z-a]", b"<NONE>", b"{", b"}", b'"', b"(", b")", b"|", b"%{\n", b"%}\n", b"\n", b" ", b"{NONE}", b"/", b"$", b"^", b"\\400",
          b"REJECT;", b"yyless(0);", b"exit(64);", b"BEGIN(NONE);", b"<<EOF>> ;\n", b"/*", b"*/", b"\t", b"a |\n", b"%option none\n", b"%x INITIAL\n"]
TOLD = re.compile(rb"(?:lex: line (\d+): |lex: )(\w+)(?: at (\d+))?\n")
# What is told at a place that lex does not tell: that of a word, of what has no end, of a name that is twice, and of a slash.
OF_WORDS = (b"UnknownStatement", b"UnknownCondition", b"UnsupportedOption", b"BadCount", b"BadEofAction", b"BadStatus", b"LessAndMore",
            b"NotLast", b"RejectCombination", b"Unclosed", b"DuplicateName", b"DuplicateCondition", b"VariableTrailing")
ERROR = re.compile(rb"[^: ]*(?::(\d+))?(?::(\d+))?: error: (\w+)\n")


def changed(text, chance):
    """The text with one to four pieces put in, left out or doubled."""
    for _ in range(chance.randint(1, 4)):
        at = chance.randrange(len(text) + 1)
        end = min(len(text), at + chance.choice([1, 1, 2, 5, 20]))
        how = chance.randrange(4)
        if how == 0:
            text = text[:at] + text[end:]
        elif how == 1:
            text = text[:end] + text[at:]
        else:
            text = text[:at] + chance.choice(PIECES) + text[at:]
    return text


def refusal(text):
    """The line, or 0, the column, or 0, and the kind that lex tells."""
    found = TOLD.match(text)
    return (int(found[1] or 0), int(found[3]) + 1 if found[3] else 0, found[2]) if found else None


def fault(line):
    """The same of a line of lexlook, where it is one of a fault."""
    found = ERROR.fullmatch(line)
    return (int(found[1] or 0), int(found[2] or 0), found[3]) if found else None


def tells(errors, wanted):
    """Whether one of the errors is that of lex."""
    line, _, kind = wanted
    return wanted in errors or (kind in OF_WORDS and any(it[2] == kind and it[1] and it[0] >= line for it in errors))


def wrong_with(lex, lexlook, name):
    """What differs of a specification, if something does, and how many faults were told."""
    made = subprocess.run([lex, "-w", "-t", name], capture_output=True)
    checked = subprocess.run([lexlook, "check", name], capture_output=True)
    errors = [it for it in map(fault, checked.stdout.splitlines(keepends=True)) if it]
    places = [(line, kind) for line, _, kind in errors if kind not in OF_WORDS]
    order = [(line, column) for line, column, _ in errors]
    wanted = refusal(made.stderr) if made.returncode == 65 else None
    if made.returncode not in (0, 65) or checked.stderr:
        return f"status {made.returncode}, {checked.stderr}", len(errors)
    if checked.returncode != (1 if wanted else 0) or bool(errors) != bool(wanted) or (wanted and not tells(errors, wanted)):
        return f"lex tells {wanted}, status {checked.returncode}, first {errors[:1]}", len(errors)
    if order != sorted(order):
        return f"places {order}", len(errors)
    if len(set(places)) != len(places) or len(errors) > 100:
        return f"{len(errors)} faults, {len(set(places))} of them apart", len(errors)
    return None, len(errors)


def main():
    lex, lexlook = sys.argv[1:3]
    count, seed = (int(word) for word in (sys.argv[3:] + ["1000", "1"][len(sys.argv) - 3:])[:2])
    chance = random.Random(seed)
    texts = [open(os.path.join(EXAMPLES, it), "rb").read() for it in sorted(os.listdir(EXAMPLES)) if it.endswith(".l")]
    folder = tempfile.mkdtemp()
    refused = told = wrong = 0
    for number in range(count):
        name = os.path.join(folder, f"{number}.l")
        with open(name, "wb") as file:
            file.write(changed(chance.choice(texts), chance))
        what, faults = wrong_with(lex, lexlook, name)
        refused += faults > 0
        told += faults
        if what:
            print(f"{name}: {what}")
            wrong += 1
        else:
            os.remove(name)
    print(f"{count} changes, {refused} refused, {told} faults told, {wrong} told otherwise")
    return 1 if wrong else 0


if __name__ == "__main__":
    sys.exit(main())
