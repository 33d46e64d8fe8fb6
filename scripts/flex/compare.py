#!/usr/bin/env python3
"""Compares the program lex with flex 2.6.4 on random specifications and inputs: what is written, and the status.

    scripts/flex/compare.py LEX [COUNT [SEED]]          LEX is the program, as crates/lex/out/lex

A specification has up to two start conditions and up to six rules, with lists, `^`, `$`, trailing context, BEGIN, yymore,
yyless, REJECT, exit and an end of the input. Left out is what flex does otherwise by the manual's chapter on differences:
`|` as an action, an empty head before trailing context, `|` or an interval in a side that alone has a fixed length, `^` beside
yyless, a yyless that may pass the text, an action of <<EOF>> that does not end the scan, and definitions. It is no part of
the gate."""
import random
import subprocess
import sys
import tempfile
from dataclasses import dataclass
from pathlib import Path

FLEX = Path(__file__).resolve().parent / "flex-output.sh"
BYTES = ["a", "b", "c", "a", "b", "c", "\\n", ".", "[ab]", "[^a]", "[b-c]", "[^\\n]", '"ab"']
SIGNS = {"*": (0, None), "+": (1, None), "?": (0, 1), "{2}": (2, 2), "{1,2}": (1, 2), "{0,2}": (0, 2), "{2,}": (2, None)}
ITEM, SERIES, CHOICE = range(3)


@dataclass
class Pattern:
    text: str
    least: int
    greatest: int | None
    kind: int = ITEM
    is_plain: bool = True  # no choice and no interval, which flex takes to be of no fixed length

    def within(self, kind):
        """The text, in parentheses where it would fall apart."""
        return self.text if self.kind <= kind else f"({self.text})"

    def is_fixed(self):
        """Whether flex sees that its words have one length, which is not 0."""
        return self.is_plain and self.least == self.greatest and self.least > 0


def total(parts, fold):
    """The greatest length of parts, if each has one."""
    return None if None in parts else fold(parts)


def pattern(pick, depth):
    form = pick.random()
    if depth == 0 or form < 0.3:
        text = pick.choice(BYTES)
        length = 2 if text == '"ab"' else 1
        return Pattern(text, length, length)
    if form < 0.7:
        parts = [pattern(pick, depth - 1) for _ in range(pick.randint(2, 3))]
        least, greatest = [part.least for part in parts], [part.greatest for part in parts]
        if form < 0.55:
            plain = all(part.is_plain for part in parts)
            return Pattern("".join(part.within(SERIES) for part in parts), sum(least), total(greatest, sum), SERIES, plain)
        return Pattern("|".join(part.text for part in parts), min(least), total(greatest, max), CHOICE, False)
    inner, sign = pattern(pick, depth - 1), pick.choice(list(SIGNS))
    least, greatest = SIGNS[sign]
    most = None if greatest is None or inner.greatest is None else inner.greatest * greatest
    return Pattern(inner.within(ITEM) + sign, inner.least * least, most, SERIES, inner.is_plain and "{" not in sign)


def subject(pick):
    """A pattern, perhaps with trailing context, and its least length."""
    while True:
        head, form = pattern(pick, pick.randint(1, 3)), pick.random()
        if head.least == 0 and (form < 0.3 or pick.random() < 0.7):
            continue
        if form < 0.1:
            return head.within(SERIES) + "$", head.least
        if form >= 0.3:
            return head.within(SERIES), head.least
        trail = pattern(pick, pick.randint(0, 2))
        if trail.least > 0 and (head.is_fixed() or trail.is_fixed()):
            return f"{head.within(SERIES)}/{trail.within(SERIES)}", head.least


def action(pick, rule, mode, names, least):
    statements = []
    if pick.random() < 0.8:
        statements.append(pick.choice(["ECHO;", f'printf("{rule}");', f'printf("<{rule}:%s>", yytext);']))
    if len(names) > 1 and pick.random() < 0.5:
        statements.append(f"BEGIN({pick.choice(names)});")
    pick.shuffle(statements)
    if "REJECT" in mode and pick.random() < 0.5:
        return " ".join([*statements, "REJECT;"])
    if "yymore" in mode and pick.random() < 0.4:
        statements.insert(pick.randint(0, len(statements)), "yymore();")
    elif "yyless" in mode and least > 0 and pick.random() < 0.5:
        statements.insert(pick.randint(0, len(statements)), f"yyless({pick.randint(1, min(least, 3))});")
    elif pick.random() < 0.03:
        statements.append(f"exit({pick.randint(0, 63)});")
    return " ".join(statements) or ";"


def specification(pick):
    declared = pick.choice([[], ["%s S"], ["%x X"], ["%s S", "%x X"]])
    names = ["INITIAL", *(line[-1] for line in declared)]
    mode = pick.choice(["", "REJECT", "REJECT", "yymore", "yymore REJECT", "yyless", "yyless yymore"])
    lines = [*declared, *(["%option case-insensitive"] if pick.random() < 0.2 else []), "%%"]
    for rule in range(pick.randint(2, 6)):
        text, least = subject(pick)
        if "yyless" not in mode and pick.random() < 0.2:
            text = "^" + text
        if declared and pick.random() < 0.6:
            text = pick.choice(["<*>", f"<{','.join(pick.sample(names, pick.randint(1, len(names))))}>"]) + text
        lines.append(f"{text}  {action(pick, rule, mode, names, least)}")
    if pick.random() < 0.3:
        lines.append(pick.choice(["", "<*>"]) + '<<EOF>>  printf("end"); ' + pick.choice(["yyterminate();", "exit(5);"]))
    return "\n".join(lines) + "\n"


def run(command, given):
    with open(given) as source:
        done = subprocess.run(command, stdin=source, stdout=subprocess.PIPE, stderr=subprocess.PIPE)
    return done.stdout, done.returncode


def main(lex, count=100, seed=1):
    pick, different = random.Random(int(seed)), 0
    with tempfile.TemporaryDirectory() as folder:
        spec, given = Path(folder, "spec.l"), Path(folder, "input")
        for _ in range(int(count)):
            spec.write_text(specification(pick))
            given.write_text("".join(pick.choice("aaabbbccAB\n\nd") for _ in range(pick.randint(0, 40))))
            ours, theirs = run([lex, "--scan-spec", spec], given), run([FLEX, spec, given], given)
            if ours != theirs:
                different += 1
                print(f"{spec.read_text()}on {given.read_text()!r}\nlex:  {ours}\nflex: {theirs}\n")
    print(f"{count} specifications compared, {different} different")
    return min(different, 1)


if __name__ == "__main__":
    sys.exit(main(*sys.argv[1:]))
