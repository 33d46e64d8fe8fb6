#!/usr/bin/env python3
"""Compares what `lexlook words` shows with flex's warnings, on examples/.

    scripts/flex/words.py LEXLOOK

LEXLOOK is the program, as crates/lexlook/out/lexlook. For each specification of examples/ flex is run with -s. The rules that it warns of
as ones that cannot be matched must be those for which no text is shown, by their lines, and it must warn that the default rule can be
matched where a byte of that rule is shown in some condition. A line is printed for each specification; the status is 1 where something differs. It wants
flex 2.6.4, and is no part of the gate."""
import os
import re
import subprocess
import sys

EXAMPLES = os.path.join(os.path.dirname(os.path.dirname(os.path.dirname(os.path.realpath(__file__)))), "examples")
USELESS = re.compile(r":(\d+): warning, rule cannot be matched")
SHOWN_USELESS = re.compile(r"^at line (\d+): rule cannot be matched", re.M)


def of_flex(spec):
    """The lines of the rules that flex warns of, and whether it warns of the default rule."""
    ran = subprocess.run(["flex", "-s", "-o", os.devnull, spec], capture_output=True, text=True)
    return USELESS.findall(ran.stderr), "default rule can be matched" in ran.stderr


def of_lexlook(lexlook, spec):
    """The lines of the rules for which no text is shown, and whether a byte of the default rule is."""
    shown = subprocess.run([lexlook, "words", spec], capture_output=True, text=True, check=True).stdout
    return SHOWN_USELESS.findall(shown), "\ndefault rule: " in shown


def main():
    lexlook, faults = sys.argv[1], 0
    for name in sorted(it for it in os.listdir(EXAMPLES) if it.endswith(".l")):
        spec = os.path.join(EXAMPLES, name)
        agree = of_lexlook(lexlook, spec) == of_flex(spec)
        print(f"{name[:-2]}: {'as' if agree else 'otherwise than'} flex warns")
        faults += not agree
    return 1 if faults else 0


if __name__ == "__main__":
    sys.exit(main())
