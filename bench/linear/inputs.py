#!/usr/bin/env python3
"""Writes NAME.l and NAME.input, of SIZE bytes, into FOLDER for a family of run.sh: rules, and a text on which a match goes far and comes
back, again and again.

    bench/linear/inputs.py FOLDER NAME SIZE
"""
import math
import sys
from pathlib import Path

ONE = 'a { printf("A"); }\n'
WORDS = '[a-z]+ { printf("w"); }\n[ \\n]+ { printf(" "); }\n. { printf("."); }\n'


def every(*counts):
    """`a` beside rules that want so many letters, any number of times, and then another one. As many states fail at each
    place as the least common multiple of the counts."""
    return ONE + "".join(f'(a{{{count}}})*{chr(ord("b") + index)} {{ printf("B"); }}\n' for index, count in enumerate(counts))


def text(size, piece, first="", last=""):
    return first + (piece * (size // len(piece) + 1))[: size - len(first) - len(last)] + last


# Of each family its rules, the piece that is repeated, and how its text begins and ends.
FAMILIES = {
    # a match that is looked for to the end of the text and does not come
    "letters": (ONE + 'a*b { printf("B"); }\n', "a"),
    "line": ('a.*b { printf("L"); }\n. { printf("."); }\n\\n { printf("n"); }\n', "a"),
    "comments": ('"/*"([^*]|"*"+[^*/])*"*"+"/" { printf("C"); }\n' + WORDS, "int x = 3; /* oops "),
    "statements": ('[a-z]+[^;]*";" { printf("L"); }\n' + WORDS, "word and more "),
    "string": ('\\"[^"]*\\" { printf("S"); }\n' + WORDS, "word and more ", '"'),
    "context": ('a/a*b { printf("C"); }\n' + ONE, "a"),
    "less": ('a+b { yyless(1); printf("L"); }\n' + ONE, "a"),
    # a text that grows by each match
    "more": ('a { yymore(); }\n', "a"),
    # the first again, where many states fail at each place
    "every2": (every(2), "a"),
    "every7": (every(7), "a"),
    "every64": (every(64), "a"),
    "every2to6": (every(*range(2, 7)), "a"),
    "every2to8": (every(*range(2, 9)), "a"),
    # a match that comes, of which all but one byte is given back
    "context_found": ('a/a*b { printf("C"); }\n' + ONE, "a", "", "b"),
    "context_every2": ('a/(aa)*b { printf("C"); }\n' + ONE, "a", "", "b"),
    "less_found": ('a+ { yyless(1); printf("L"); }\n', "a"),
    # a match that is given up
    "reject": ('a+ { REJECT; }\n' + ONE, "a"),
    # the same after something was done: matches that are tried one after another
    "reject_set": ('%x A\n%%\n<INITIAL,A>a+ { BEGIN(A); REJECT; }\n<INITIAL,A>' + ONE, "a"),
}
assert math.lcm(*range(2, 7)) == 60 and math.lcm(*range(2, 9)) == 840

if __name__ == "__main__":
    folder, name, size = Path(sys.argv[1]), sys.argv[2], int(sys.argv[3])
    rules, *shape = FAMILIES[name]
    (folder / f"{name}.l").write_text(rules if "%%" in rules else "%%\n" + rules)
    (folder / f"{name}.input").write_text(text(size, *shape))
