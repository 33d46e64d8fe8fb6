#!/usr/bin/env python3
"""Runs the program lex as a filter in a pipeline that stays open, and looks whether each line is answered before the next is sent.

    scripts/campaigns/pipeline.py LEX

LEX is the program, as crates/lex/out/lex. Each check writes its name and 'ok', or what went wrong; the status is 1 where one did.
It is no part of the gate: a contract says which bytes are written, and not when."""
import os
import select
import signal
import subprocess
import sys
import tempfile
from pathlib import Path

# What the program is tried on: a rule that is told at a glance, one that gives its match up, and one that steers.
FILTERS = {
    "plain": '%%\n[^\\n]*\\n printf("ok "); ECHO;\n',
    "reject": '%%\n[^\\n]*\\n REJECT;\n[^\\n]*\\n printf("ok "); ECHO;\n',
    "steering": '%x L\n%%\n. printf("ok "); ECHO; BEGIN(L);\n<L>[^\\n]*\\n ECHO; BEGIN(INITIAL);\n',
}
LINES = [b"first\n", b"second line\n", b"x\n", b"a longer line, of many words and of 1234567890\n"]
SECONDS = 10


class Refused(Exception):
    """What went wrong in a check."""


def answer(process, wanted):
    """Waits for these bytes of the program's output."""
    got = b""
    while len(got) < len(wanted):
        ready, _, _ = select.select([process.stdout], [], [], SECONDS)
        if not ready:
            raise Refused(f"no answer after {SECONDS} s, but {got!r}")
        more = os.read(process.stdout.fileno(), 65_536)
        if not more:
            raise Refused(f"the output ended after {got!r}")
        got += more
    if got != wanted:
        raise Refused(f"{got!r} in place of {wanted!r}")


def begin(lex, words):
    return subprocess.Popen([lex, *words], stdin=subprocess.PIPE, stdout=subprocess.PIPE, stderr=subprocess.PIPE, bufsize=0)


def line_after_line(lex, words):
    """Sends a line, and the next one once the first is answered."""
    process = begin(lex, words)
    try:
        for line in LINES:
            process.stdin.write(line)
            answer(process, b"ok " + line)
        process.stdin.close()
        if process.wait(SECONDS) != 0:
            raise Refused(f"status {process.returncode}")
    finally:
        process.kill()


def parts_of_lines(lex, words):
    """Sends a line with the front of the next one: the first is answered."""
    process = begin(lex, words)
    try:
        process.stdin.write(b"one\nt")
        answer(process, b"ok one\n" if "steering" not in words[-1] else b"ok one\n" + b"ok t")
        process.stdin.write(b"wo\nthree\n")
        rest = b"ok two\nok three\n"
        answer(process, rest if "steering" not in words[-1] else b"wo\nok three\n")
    finally:
        process.kill()


def closed_by_its_reader(lex, words):
    """The reader goes after the first line, as head -1 does: a write fault, told by its line."""
    process = begin(lex, words)
    process.stdin.write(b"one\n")
    answer(process, b"ok one\n")
    process.stdout.close()
    try:
        process.stdin.write(b"two\n")
        process.stdin.close()
    except BrokenPipeError:
        pass
    told = process.stderr.read()
    status = process.wait(SECONDS)
    if status not in (74, -signal.SIGPIPE) or status == 74 and told != b"lex: write fault\n":
        raise Refused(f"status {status}, {told!r}")


CHECKS = [line_after_line, parts_of_lines, closed_by_its_reader]


def main():
    lex = os.path.abspath(sys.argv[1])
    wrong = 0
    with tempfile.TemporaryDirectory() as folder:
        for name, text in FILTERS.items():
            spec, table = Path(folder, name + ".l"), Path(folder, name + ".tab")
            spec.write_text(text)
            subprocess.run([lex, "-o", table, spec], check=True, stderr=subprocess.DEVNULL)
            for words in (["-w", "--scan-spec", str(spec)], ["--scan-table", str(table)]):
                for check in CHECKS:
                    try:
                        check(lex, words)
                        told = "ok"
                    except Refused as refused:
                        told, wrong = str(refused), wrong + 1
                    print(f"{name}, {words[-2]}, {check.__name__}: {told}")
    return 1 if wrong else 0


if __name__ == "__main__":
    sys.exit(main())
