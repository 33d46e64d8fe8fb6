#!/usr/bin/env python3
"""Writes crates/lextest_calls/src/c_rows.rt: the tokens that flex 2.6.4 finds in some inputs, with their lines and columns.

    scripts/flex/lines.py

It wants flex and a C compiler (apt-get install flex gcc), and is no part of the gate. What flex's scanner tells of a token at the end of
its action is yytext, the start condition in which it was made, and yylineno less the newlines of yytext, which is the line of its first
byte. Flex has no columns: they are counted here, in the bytes of the input."""
import subprocess
import tempfile
from pathlib import Path

ROOT = Path(__file__).resolve().parents[2]

# the definitions, the rules as pairs of a pattern and an action, what is done at the end of the input, and an input
SCANS = [
    ("", [("if", 'printf("K");'), ("[0-9]+", ";")], "", "if 1234 x5"),
    ("", [("a+", "yymore();"), ("b", "ECHO;")], "", "aaab"),
    ("", [("abc", "yyless(1);"), ("[a-z]", ";")], "", "abc"),
    ("", [("ab/cd", ";"), (".|\\n", ";")], "", "abcdab"),
    ("%x C\n", [("a", "BEGIN(C);"), ("<C>b", "BEGIN(INITIAL);")], "<C><<EOF>> exit(3);\n", "aba"),
    ("", [("ab", "exit(7);")], "", "abXY"),
    # lines of several words, and newlines in a row
    ("", [("[a-z]+", ";"), ("\\n+", ";"), ("[ \\t]+", ";")], "", "ab\n\n  c d\n\tef\n\n"),
    # newlines as trailing context, by `/` and by `$`
    ("", [("[a-z]+/\\n\\n", ";"), ("[0-9]+$", ";"), ("[a-z]", ";"), ("\\n", ";")], "", "ab\n\ncd\n12\n3 4\ne"),
    # newlines that yyless gives back
    ("", [("a\\n+b", "yyless(2);"), ("[a-z]", ";"), ("\\n", ";")], "", "a\n\nb\na\nbc"),
    # newlines that yymore keeps, also where the next match is one, and where the input ends after it
    ("", [("\\n", "yymore();"), ("[a-z]+", ";")], "", "\n\nab\ncd\n"),
    # tokens with newlines in them
    ("", [('"/*"([^*]|\\*+[^*/])*\\*+"/"', ";"), ("[a-z]+", ";"), ("[ \\n]", ";")], "", "a /* x\n y */ b\n/*\n\n*/c\n d"),
    # yyless gives back a newline that yymore had kept
    ("%x C\n", [("a\\n", "yymore(); BEGIN(C);"), ("<C>b", "yyless(1); BEGIN(INITIAL);"), ("[a-z\\n]", ";")], "", "a\nb\nca\nb"),
    # no byte at all, and the default rule at newlines
    ("", [("a", ";")], "", ""),
    ("", [("a", ";")], "", "\n\na\n"),
]

HEAD = r"""%{
#include <stdlib.h>
static int made_in;
#define YY_USER_ACTION made_in = YY_START;
static int newlines(const char *text, int size) {
    int count = 0;
    while (size-- > 0)
        count += *text++ == '\n';
    return count;
}
#define T(n) fprintf(stderr, "%d %d %ld %d %d\n", (n), made_in, (long)(yytext - YY_CURRENT_BUFFER->yy_ch_buf), (int)yyleng, \
                     yylineno - newlines(yytext, yyleng))
%}
%option noyywrap 8bit yylineno
"""

MAIN = r"""
int main(int argc, char **argv) {
    static char text[1 << 20];
    FILE *file = fopen(argv[1], "rb");
    size_t size = fread(text, 1, sizeof text, file);
    yy_scan_bytes(text, size);
    yylineno = 1;
    return yylex();
}
"""


def told(spec, given):
    """What flex's scanner of a specification tells of an input: its tokens and its status."""
    with tempfile.TemporaryDirectory() as folder:
        where = Path(folder)
        (where / "scan.l").write_text(spec)
        (where / "given").write_bytes(given)
        subprocess.run(["flex", "-o", where / "scan.c", where / "scan.l"], check=True)
        with open(where / "scan.c", "a") as file:
            file.write(MAIN)
        subprocess.run(["cc", "-w", "-o", where / "scan", where / "scan.c"], check=True)
        run = subprocess.run([where / "scan", where / "given"], capture_output=True, timeout=10)
        return [tuple(map(int, line.split())) for line in run.stderr.splitlines()], run.returncode


def literal(text):
    return '"' + text.replace("\\", "\\\\").replace('"', '\\"').replace("\n", "\\n").replace("\t", "\\t") + '"'


def scan(definitions, rules, ending, given):
    """The row of one scan, in the form of rt fmt."""
    spec = definitions + "%%\n" + "".join(f"{pattern} {action}\n" for pattern, action in rules) + ending
    body = "".join(
        f"{pattern} {{ T({number}); {action} }}\n" if "exit" in action else f"{pattern} {{ {action} T({number}); }}\n"
        for number, (pattern, action) in enumerate(rules)
    )
    tokens, status = told(f"{HEAD}{definitions}%%\n{body}<*>.|\\n {{ T({len(rules)}); }}\n{ending}%%\n", given.encode())
    lines = []
    for rule, condition, start, length, line in tokens:
        number = "DEFAULT" if rule == len(rules) else str(rule)
        column = start - given.rfind("\n", 0, start)
        lines.append(f"            ({number}, {start}, {condition}, {literal(given[start:start + length])}, {line}, {column}),\n")
    listed = "&[\n" + "".join(lines) + "        ]" if lines else "&[]"
    if len(lines) == 1:
        listed = "&[" + lines[0].strip().removesuffix(",") + "]"
    row = f"    (\n        b{literal(spec)},\n        b{literal(given)},\n        {listed},\n        {status},\n    ),\n"
    return row


NAMES = ["first", "second", "third", "fourth", "fifth", "sixth", "seventh"]


def group(name, rows):
    """The function that has some of the rows."""
    body = "".join(f"    {line}" for row in rows for line in scan(*row).splitlines(True))
    return f"""
/// Some of the scans.
pub(crate) fn {name}() -> &'static [Scan] {{
    const SCANS: &[Scan] = &[
{body}    ];
    SCANS
}}
"""


def main():
    head = """//! The tokens that flex 2.6.4 finds, with their lines and columns: written by scripts/flex/lines.py. The time that a function takes to be
//! proved grows with the square of the values in its constants, so each has few.

/// The number of the default rule.
pub(crate) const DEFAULT: u32 = 4_294_967_295;

/// A rule, where the text begins, the condition, the text, and the line and the column of its first byte.
pub(crate) type Row = (u32, u64, u32, &'static str, u64, u64);

/// A text, an input, its tokens, and the status.
pub(crate) type Scan = (&'static [u8], &'static [u8], &'static [Row], u8);
"""
    groups = [group(name, SCANS[2 * at : 2 * at + 2]) for at, name in enumerate(NAMES)]
    (ROOT / "crates/lextest_calls/src/c_rows.rt").write_text(head + "".join(groups))


if __name__ == "__main__":
    main()
