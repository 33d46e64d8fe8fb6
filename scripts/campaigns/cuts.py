#!/usr/bin/env python3
"""Cuts the inputs of examples/ where lexlook says that they may be cut, and scans the pieces apart.

    scripts/campaigns/cuts.py LEX LEXLOOK

LEX and LEXLOOK are the built programs. For each specification of which `lexlook lines` answers 0, its input is cut after each newline
at which that leaves two pieces, and after all of them at once. What the pieces write, put together, must be what the whole input
writes. A line is printed for each specification that may be cut. The status is 1 where something differs."""
import os
import subprocess
import sys

EXAMPLES = os.path.join(os.path.dirname(os.path.dirname(os.path.dirname(os.path.realpath(__file__)))), "examples")


def scan(lex, spec, text):
    """What a scan of the text writes."""
    return subprocess.run([lex, "--scan-spec", spec, "-w"], input=text, capture_output=True).stdout


def cuts_of(text):
    """The pieces of each way to cut the text once, and those of all cuts together."""
    ends = [at + 1 for at, byte in enumerate(text[:-1]) if byte == 10]
    lines = [text[first:last] for first, last in zip([0, *ends], [*ends, len(text)])]
    return [[text[:end], text[end:]] for end in ends] + [lines]


def main():
    lex, lexlook = sys.argv[1:]
    faults = 0
    for name in sorted(it[:-2] for it in os.listdir(EXAMPLES) if it.endswith(".l")):
        spec, given = os.path.join(EXAMPLES, f"{name}.l"), os.path.join(EXAMPLES, f"{name}.input")
        if not os.path.isfile(given) or subprocess.run([lexlook, "lines", spec], capture_output=True).returncode:
            continue
        with open(given, "rb") as file:
            text = file.read()
        whole, ways = scan(lex, spec, text), cuts_of(text)
        wrong = sum(b"".join(scan(lex, spec, it) for it in pieces) != whole for pieces in ways)
        print(f"{name}: {len(ways)} ways to cut {len(text)} bytes, {wrong} with another output")
        faults += wrong
    return 1 if faults else 0


if __name__ == "__main__":
    sys.exit(main())
