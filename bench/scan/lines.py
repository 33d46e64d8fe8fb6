#!/usr/bin/env python3
"""Tells how long a line takes that comes by itself, over pipes that stay open: a line is written to the program, and the next one once
its answer was read. Beside lex by examples/keywords.l runs `cat`, which shows what the pipes take. Each line tells the median
of the microseconds by the clock for a line, and the least of five rounds of LINES lines (2,000 without it).

    bench/scan/lines.py [LEX [LINES]]        LEX is another program to be measured in place of crates/lex/out/lex"""
import statistics
import subprocess
import sys
import time
from pathlib import Path

TOP = Path(__file__).resolve().parents[2]
# The byte behind the newline decides that the blank before it is a whole match.
LINE = b"if x1 then 42\nq"


def round_trips(words, answer, lines):
    """The seconds that so many lines take, each answered by a text with this word before the next one is written."""
    with subprocess.Popen(words, stdin=subprocess.PIPE, stdout=subprocess.PIPE, bufsize=0) as program:
        began = time.perf_counter()
        for _ in range(lines):
            program.stdin.write(LINE)
            got = b""
            while answer not in got:
                got += program.stdout.read(4096)
        took = time.perf_counter() - began
        program.stdin.close()
        program.stdout.read()
    return took


def main():
    lex = sys.argv[1] if len(sys.argv) > 1 else str(TOP / "crates/lex/out/lex")
    lines = int(sys.argv[2]) if len(sys.argv) > 2 else 2000
    programs = {"cat": (["cat"], b"then"), "lex": ([lex, "--scan-spec", str(TOP / "examples/keywords.l")], b"<then>")}
    took = {name: [] for name in programs}
    for _ in range(5):
        for name, (words, answer) in programs.items():
            took[name].append(1e6 * round_trips(words, answer, lines) / lines)
    for name, rounds in took.items():
        print(f"{name}: {statistics.median(rounds):.1f} ({min(rounds):.1f}) microseconds for a line")


if __name__ == "__main__":
    main()
