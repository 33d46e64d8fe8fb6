#!/usr/bin/env python3
"""Looks when `lexlook count` shows its progress, and what it shows.

    scripts/campaigns/progress.py LEXLOOK

LEXLOOK is the program, as crates/lexlook/out/lexlook. It counts the words of a made file that takes over a second, with standard error as a
terminal and as a pipe, and with standard input as a file and as a pipe. Progress must come on a terminal alone, and for a file alone: percents that
grow, the first of them after a second, and blanks over them at the end. What standard output has must be the same each time. A line is printed for
each check; the status is 1 where one fails. It is no part of the gate: it takes some seconds."""
import os
import pty
import re
import subprocess
import sys
import tempfile
import time

SPEC = b"%%\n[a-z]+ ;\n[ \\n] ;\n"
SHOWN = re.compile(rb"(?:\rlexlook: (\d+)% read)+\r +\r")
PIECE, MOST = b"a few words of a line\n" * 50_000, 2_000_000_000


def counted(lexlook, spec, source, error):
    with subprocess.Popen([lexlook, "count", spec], stdin=source, stdout=subprocess.PIPE, stderr=error) as run:
        return run.communicate()[0]


def on_a_terminal(lexlook, spec, source):
    """What is written, and what a terminal shows."""
    ours, theirs = pty.openpty()
    out = counted(lexlook, spec, source, theirs)
    os.close(theirs)
    shown = b""
    while True:
        try:
            more = os.read(ours, 65_536)
        except OSError:
            break
        if not more:
            break
        shown += more
    os.close(ours)
    return out, shown


def slow_file(lexlook, spec, path):
    """Makes a file that takes over two seconds."""
    size = len(PIECE) * 10
    while size < MOST:
        with open(path, "wb") as file:
            for _ in range(size // len(PIECE)):
                file.write(PIECE)
        began = time.monotonic()
        with open(path, "rb") as file:
            counted(lexlook, spec, file, subprocess.DEVNULL)
        if time.monotonic() - began > 2.2:
            return
        size *= 2
    sys.exit("no input takes over two seconds")


def main():
    lexlook, faults = sys.argv[1], 0

    def check(name, holds):
        nonlocal faults
        print(f"{name}: {'ok' if holds else 'FAILS'}")
        faults += not holds

    with tempfile.TemporaryDirectory() as folder:
        spec, path = os.path.join(folder, "words.l"), os.path.join(folder, "input")
        with open(spec, "wb") as file:
            file.write(SPEC)
        slow_file(lexlook, spec, path)
        with open(path, "rb") as file:
            plain = subprocess.run([lexlook, "count", spec], stdin=file, capture_output=True)
        check("a file, standard error a pipe: nothing is shown", plain.stderr == b"" and plain.stdout)
        with open(path, "rb") as file:
            out, shown = on_a_terminal(lexlook, spec, file)
        percents = [int(it) for it in re.findall(rb"(\d+)%", shown)]
        check("a file, standard error a terminal: percents that grow, and blanks at the end",
              SHOWN.fullmatch(shown) and 2 <= len(percents) and percents == sorted(percents) and percents[-1] <= 100)
        check("the counts are the same", out == plain.stdout)
        with subprocess.Popen(["cat", path], stdout=subprocess.PIPE) as cat:
            out, shown = on_a_terminal(lexlook, spec, cat.stdout)
        check("a pipe, standard error a terminal: nothing is shown", shown == b"" and out == plain.stdout)
        with open(path, "wb") as file:
            file.write(PIECE)
        with open(path, "rb") as file:
            out, shown = on_a_terminal(lexlook, spec, file)
        check("a short file: nothing is shown", shown == b"" and out)
    return 1 if faults else 0


if __name__ == "__main__":
    sys.exit(main())
