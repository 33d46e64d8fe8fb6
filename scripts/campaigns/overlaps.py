#!/usr/bin/env python3
"""Compares the lines of `lexlook overlaps` with what Python's regular expressions say of random specifications.

    scripts/campaigns/overlaps.py LEXLOOK [COUNT [SEED]]

LEXLOOK is the built program. Patterns are of `a`, `b` and `c`, and some begin with `^`. Of each text of up to six bytes Python says which
of them it fits. The lines whose text is as short must be those that follow. The status is 1 where something differs."""
import itertools
import random
import re
import subprocess
import sys
import tempfile

LONGEST = 6
TEXTS = ["".join(it) for size in range(1, LONGEST + 1) for it in itertools.product("abc", repeat=size)]


def pattern(depth=0):
    """A random pattern."""
    kind = random.random()
    if depth > 2 or kind < 0.35:
        return random.choice(["a", "b", "c", "[ab]"])
    if kind < 0.6:
        return pattern(depth + 1) + pattern(depth + 1)
    if kind < 0.75:
        return f"({pattern(depth + 1)}|{pattern(depth + 1)})"
    return f"({pattern(depth + 1)}){random.choice('*?+')}"


def shared(patterns):
    """For each pair of patterns that share a text the first one, and whether it is one within a line."""
    found = {}
    for text in TEXTS:
        fits = [re.fullmatch(it.lstrip("^"), text) is not None for it in patterns]
        for starts in (False, True):
            rules = [at for at, it in enumerate(patterns) if fits[at] and (starts or not it.startswith("^"))]
            for other in rules[1:]:
                first, within = found.setdefault((rules[0], other), (text, not starts))
                if first == text and not starts:
                    found[rules[0], other] = (text, True)
    return found


def lines(patterns):
    """The lines that are to be written."""
    for (first, second), (text, within) in sorted(shared(patterns).items()):
        place = "" if within else " at the start of a line"
        yield f'at line {first + 2} and line {second + 2}: "{text}", in INITIAL{place}; line {first + 2} wins'


def main():
    program, count, seed = (sys.argv[1:] + ["200", "1"][len(sys.argv) - 2 :])[:3]
    random.seed(int(seed))
    told = faults = 0
    for _ in range(int(count)):
        patterns = [random.choice(["", "", "", "^"]) + pattern() for _ in range(random.randint(2, 6))]
        with tempfile.NamedTemporaryFile("w", suffix=".l") as file:
            file.write("%%\n" + "".join(f"{it} ;\n" for it in patterns))
            file.flush()
            ran = subprocess.run([program, "overlaps", file.name], capture_output=True, text=True)
        short = [it for it in ran.stdout.splitlines() if len(re.search(r'"(.*?)"', it)[1]) <= LONGEST]
        told += len(short)
        if ran.returncode or short != list(lines(patterns)):
            faults += 1
            print("otherwise:", patterns, ran.stderr, short)
    print(f"{count} specifications, {told} pairs, {faults} otherwise")
    sys.exit(1 if faults else 0)


main()
