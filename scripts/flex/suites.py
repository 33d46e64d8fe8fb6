#!/usr/bin/env python3
"""Runs flex's scanners over the inputs that `lexlook suite` writes, on examples/ or on other specifications.

    scripts/flex/suites.py LEXLOOK [SPEC..]
    scripts/flex/suites.py LEXLOOK --rows
    scripts/flex/suites.py LEXLOOK --random [COUNT [SEED]]

LEXLOOK is the program, as crates/lexlook/out/lexlook. For each specification, or each one of examples/ if none is named, flex builds a
scanner, and scans each input of the suite. What it writes and its status must be those of the suite. With --rows the specifications are those of
the rows of scans of crates/lextest_product/data/, as far as flex takes them and writes what the row says; with --random they are those of
compare.py, which have what both take. Where an action prints the text by %s, inputs with a byte NUL are left out: printf of C ends the text
there. So are those at which flex's scanner stops with an internal error, as where a yyless passes the text, or does not end. A line is printed for each specification of a file, and for each input on which flex does otherwise; the status is 1 where there is one. It
wants flex 2.6.4 and a C compiler, and is no part of the gate."""
import glob
import os
import random
import re
import subprocess
import sys
import tempfile
from typing import NamedTuple

from compare import specification

ROOT = os.path.dirname(os.path.dirname(os.path.dirname(os.path.realpath(__file__))))
EXAMPLES, ROWS = os.path.join(ROOT, "examples"), os.path.join(ROOT, "crates", "lextest_product", "data")
QUOTED = rb'"((?:[^"\\]|\\.)*)"'
INPUT = re.compile(rb"^" + QUOTED + rb" -> " + QUOTED + rb" (\d+)$")
ESCAPE = re.compile(rb"\\([0-7]{3}|.)", re.S)
ROW_ESCAPE = re.compile(rb"\\(x[0-9a-f]{2}|.)", re.S)
NAMED = {b"t": b"\t", b"n": b"\n", b"r": b"\r"}


class Suite(NamedTuple):
    """The inputs, each with what is written and the status, and how many edges none goes over."""

    inputs: tuple
    missed: int


class Compared(NamedTuple):
    """How many inputs flex's scanner does otherwise, and how many were left out; none where flex refuses the specification."""

    wrong: int
    left_out: int


def plain(text):
    """The bytes that stand in quotes."""
    return ESCAPE.sub(lambda it: NAMED.get(it[1], it[1]) if len(it[1]) == 1 else bytes([int(it[1], 8)]), text)


def row_text(text):
    """The bytes of a field of a row in one line."""
    return ROW_ESCAPE.sub(lambda it: NAMED.get(it[1], it[1]) if len(it[1]) == 1 else bytes([int(it[1][1:], 16)]), text)


def scanner_of(spec, folder):
    """flex's scanner of a specification, or none where flex refuses it."""
    code, program = os.path.join(folder, "scan.c"), os.path.join(folder, "scan")
    if subprocess.run(["flex", "--noyywrap", "-o", code, spec], capture_output=True).returncode:
        return None
    with open(code, "a") as file:
        file.write("int main(void) { return yylex(); }\n")
    if subprocess.run(["cc", "-w", "-o", program, code], capture_output=True).returncode:
        return None
    return program


def scanned(scanner, text):
    """What a scanner writes, and its status; none where it stops with an internal error or does not end."""
    try:
        ran = subprocess.run([scanner], input=text, capture_output=True, timeout=10)
    except subprocess.TimeoutExpired:
        return None
    return None if b"fatal flex scanner internal error" in ran.stderr else (ran.stdout, ran.returncode)


def suite_of(lexlook, spec):
    shown = subprocess.run([lexlook, "suite", spec], capture_output=True, check=True).stdout
    lines = shown.split(b"\n")
    inputs = tuple(tuple(map(plain, match.group(1, 2))) + (int(match[3]),) for match in map(INPUT.match, lines) if match)
    return Suite(inputs, sum(line.startswith(b"not walked: ") for line in lines))


def compared(suite, scanner, spec, name):
    """flex's scanner beside the suite. What it does otherwise is printed."""
    wrong = left_out = 0
    with open(spec, "rb") as file:
        prints_text = b"%s" in file.read()
    for text, output, status in suite.inputs:
        if prints_text and b"\0" in text:
            left_out += 1
            continue
        theirs = scanned(scanner, text)
        if theirs is None:
            left_out += 1
        elif theirs != (output, status):
            print(f"{name}: {text!r}: {theirs!r}, not {output!r} {status}")
            wrong += 1
    return Compared(wrong, left_out)


def row_scans():
    """The specification, the input, the output and the status of each row that scans without a flag."""
    for path in sorted(glob.glob(os.path.join(ROWS, "*.txt"))):
        with open(path, "rb") as file:
            rows = re.split(rb"\n\n+", re.sub(rb"(?m)^#.*\n", b"", file.read()))
        for row in rows:
            kind, *lines = row.strip(b"\n").split(b"\n")
            fields = {}
            for line in lines:
                if line.startswith(b"|"):
                    fields[name] = fields.get(name, b"") + line[2:] + b"\n"
                elif not line.startswith(b"*"):
                    name, _, text = line.partition(b" ")
                    fields[name] = fields.get(name, b"") + row_text(text)
            if kind == b"scan" and b"spec" in fields and b"flag" not in fields and not any(line.startswith(b"*") for line in lines):
                told = re.fullmatch(rb"(?:status (\d+)\n?)?", fields.get(b"told", b""))
                if told:
                    yield fields[b"spec"], fields.get(b"input", b""), fields.get(b"written", b""), int(told[1] or 0)


def random_scans(count, seed):
    pick = random.Random(seed)
    for _ in range(count):
        yield specification(pick).encode(), None, None, None


def go_over(lexlook, scans):
    """Compares each specification that flex takes and whose own input, if it has one, flex scans as told."""
    taken = inputs = faults = missed = left_out = 0
    with tempfile.TemporaryDirectory() as folder:
        spec = os.path.join(folder, "spec.l")
        for text, given, output, status in scans:
            with open(spec, "wb") as file:
                file.write(text)
            scanner = scanner_of(spec, folder)
            if not scanner or (given is not None and scanned(scanner, given) != (output, status)):
                continue
            suite = suite_of(lexlook, spec)
            found = compared(suite, scanner, spec, repr(text.decode("latin-1")))
            taken, inputs, faults = taken + 1, inputs + len(suite.inputs), faults + found.wrong
            missed, left_out = missed + suite.missed, left_out + found.left_out
    print(f"{taken} specifications, {inputs} inputs, {missed} edges not walked, {left_out} left out, {faults} otherwise than flex's")
    return faults


def files_over(lexlook, specs):
    faults = 0
    for spec in specs:
        name, suite = os.path.basename(spec)[:-2], suite_of(lexlook, spec)
        with tempfile.TemporaryDirectory() as folder:
            scanner = scanner_of(spec, folder)
            if not scanner:
                print(f"{name}: {len(suite.inputs)} inputs, {suite.missed} edges not walked; flex refuses it")
                continue
            found = compared(suite, scanner, spec, name)
        print(
            f"{name}: {len(suite.inputs)} inputs, {suite.missed} edges not walked, {found.left_out} left out, "
            f"{found.wrong} otherwise than flex's"
        )
        faults += found.wrong
    return faults


def main():
    lexlook, *words = sys.argv[1:]
    if words[:1] == ["--rows"]:
        faults = go_over(lexlook, row_scans())
    elif words[:1] == ["--random"]:
        faults = go_over(lexlook, random_scans(int((words[1:] or [100])[0]), int((words[2:] or [1])[0])))
    else:
        faults = files_over(lexlook, words or sorted(glob.glob(os.path.join(EXAMPLES, "*.l"))))
    return 1 if faults else 0


if __name__ == "__main__":
    sys.exit(main())
