#!/usr/bin/env python3
"""Writes rows for crates/lextest_product, into data/tokens.txt: the tokens that flex 2.6.4 finds in the inputs of two
specifications of examples/, and by some small ones.

    scripts/flex/tokens.py

It wants flex and a C compiler (apt-get install flex gcc), and is no part of the gate. What flex's scanner matched is written by
its macro YY_USER_ACTION, which runs before each action, or where an action may change the text or reject it, by the action's end."""
import subprocess
import sys
import tempfile
from pathlib import Path

ROOT = Path(__file__).resolve().parents[2]
sys.path.insert(0, str(ROOT / "scripts/gate"))
from row_format import escaped, file, group, row

EXAMPLES = ["c_tokens", "json"]

# a name, the rules as pairs of a pattern and an action, and an input
SMALL = [
    ("yyless", [("[a-z]+", "yyless(2);"), ("[0-9]+", ";")], "abcdef 12\n"),
    ("trailing_context", [("ab/cd", ";"), ("[a-z]", ";"), ("[0-9]+/kg", ";")], "abcdab 12kg"),
    ("reject", [("abc", "REJECT;"), ("ab", "REJECT;"), ("a|ab", ";"), ("b", ";")], "abcab\nabd"),
    ("yymore", [("mega-", "yymore();"), ("kludge", ";"), ("[ ]", ";")], "mega-kludge mega-mega-kludge mega-"),
    ("an_end", [("[a-z]+", ";"), ("!", "exit(3);")], "ab cd!ef"),
    ("no_input", [("a", ";")], ""),
]

HEAD = r"""%{
#include <stdlib.h>
#define T(n) fprintf(stderr, "%d %d %ld %d\n", (n), YY_START, (long)(yytext - YY_CURRENT_BUFFER->yy_ch_buf), (int)yyleng)
MACRO
%}
%option noyywrap 8bit
"""

MAIN = r"""
int main(int argc, char **argv) {
    static char text[1 << 20];
    FILE *file = fopen(argv[1], "rb");
    size_t size = fread(text, 1, sizeof text, file);
    yy_scan_bytes(text, size);
    return yylex();
}
"""


def told(spec, given):
    """What flex's scanner of a specification tells of an input: its tokens and its status."""
    with tempfile.TemporaryDirectory() as folder:
        where = Path(folder)
        (where / "scan.l").write_text(spec)
        (where / "given").write_bytes(given)
        subprocess.run(["flex", "-o", where / "scan.c", where / "scan.l"], check=True)
        with open(where / "scan.c", "a") as file:
            file.write(MAIN)
        subprocess.run(["cc", "-w", "-o", where / "scan", where / "scan.c"], check=True)
        run = subprocess.run([where / "scan", where / "given"], capture_output=True, timeout=10)
        return [tuple(map(int, line.split())) for line in run.stderr.splitlines()], run.returncode


def listing(name, spec, given, tokens, status, count):
    """The row of one specification: each token is a line of its rule, its condition, its line and its text. Where the number of the
    rule is the count of rules, it is the default rule."""
    lines = []
    for rule, condition, start, length in tokens:
        number = "-" if rule == count else rule
        line = 1 + given.count("\n", 0, start)
        lines.append(f'{number} {condition} {line} "{escaped(given[start:start + length])}"\n')
    fields = [("spec", spec), ("input", given), ("written", "".join(lines)), ("told", f"status {status}\n")]
    return group(name, [row("tokens", *fields)])


def main():
    groups = ["# The tokens that flex 2.6.4 finds: written by scripts/flex/tokens.py.\n"]
    for name in EXAMPLES:
        spec = (ROOT / "examples" / f"{name}.l").read_text()
        given = (ROOT / "examples" / f"{name}.input").read_text()
        head = HEAD.replace("MACRO", "#define YY_USER_ACTION T(yy_act - 1);")
        rules = spec.split("\n%%\n", 1)[1]
        # each line of a pattern is a rule, but for those of the end of the input
        count = sum(1 for line in rules.splitlines() if line and not line.startswith("<COMMENT><<EOF>>") and not line.startswith("<STRING><<EOF>>"))
        tokens, status = told(head + spec + "\n%%\n", given.encode())
        groups.append(listing(name, spec, given, tokens, status, count))
    for name, rules, given in SMALL:
        head = HEAD.replace("MACRO\n", "")
        spec = "%%\n" + "".join(f"{pattern} {action}\n" for pattern, action in rules)
        body = "".join(
            f"{pattern} {action}\n" if "REJECT" in action
            else f"{pattern} {{ T({number}); {action} }}\n" if "exit" in action
            else f"{pattern} {{ {action} T({number}); }}\n"
            for number, (pattern, action) in enumerate(rules)
        )
        tokens, status = told(f"{head}%%\n{body}.|\\n {{ T({len(rules)}); ECHO; }}\n%%\n", given.encode())
        groups.append(listing(name, spec, given, tokens, status, len(rules)))
    (ROOT / "crates/lextest_product/data/tokens.txt").write_text(file(*groups))


if __name__ == "__main__":
    main()
