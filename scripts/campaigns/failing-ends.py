#!/usr/bin/env python3
"""Runs the program lex over ends that fail and over odd words, and holds each run to the manual: its status, and the line that
it writes on standard error.

    scripts/campaigns/failing-ends.py LEX

LEX is the program, as crates/lex/out/lex. The ends are a pipe that nobody reads any more, a full disk (/dev/full), a folder in
the place of a file, a closed standard input or output, and files that are not there or may not be read. The gate (.ci/run) ends with it."""
import os
import shutil
import subprocess
import sys
import tempfile
from pathlib import Path

SPEC = '%%\nif printf("K");\n[a-z]+ printf("I");\n'
ALL = "%%\n"
USELESS = "%%\na+ ;\naa ;\n"

READ, WRITE = "lex: read fault\n", "lex: write fault\n"


def broken_pipe():
    """A pipe that is read no more."""
    reading, writing = os.pipe()
    os.close(reading)
    return writing


def full():
    return os.open("/dev/full", os.O_WRONLY)


def nothing():
    return os.open("/dev/null", os.O_RDWR)


def folder_end():
    return os.open(".", os.O_RDONLY)


def closed():
    """No end at all: its number is free when the program begins."""


def many():
    """An input that is longer than what a pipe holds."""
    with open("many", "wb") as file:
        file.write(b"if x 42\n" * 100_000)
    return os.open("many", os.O_RDONLY)


def few():
    """An input whose output is shorter than a buffer."""
    Path("few").write_bytes(b"if x 42")
    return os.open("few", os.O_RDONLY)


def spec_given():
    """A specification as standard input."""
    return os.open("spec", os.O_RDONLY)


# What a run is, the words after the program's name, standard input, output and error, the status, and the line that is told.
# The program runs as nobody, so that a file of mode 0 may not be read.
RUNS = [
    ("a scan into a pipe that is read no more", ["--scan-spec", "all"], many, broken_pipe, None, 74, WRITE),
    ("a scan onto a full disk", ["--scan-spec", "all"], many, full, None, 74, WRITE),
    ("a short scan onto a full disk", ["--scan-table", "table"], few, full, None, 74, WRITE),
    ("a scan of a folder", ["--scan-spec", "all"], folder_end, nothing, None, 74, READ),
    ("a table onto a full disk", ["-t", "spec"], None, full, None, 74, WRITE),
    ("a table into a pipe that is read no more", ["-t", "spec"], None, broken_pipe, None, 74, WRITE),
    ("a table file onto a full disk", ["-o", "/dev/full", "spec"], None, nothing, None, 74, WRITE),
    ("a table file in a folder's place", ["-o", "folder", "spec"], None, nothing, None, 74, WRITE),
    ("a table file in no folder", ["-o", "none/table", "spec"], None, nothing, None, 74, WRITE),
    ("statistics onto a full disk", ["-v", "-o", "made", "spec"], None, full, None, 74, WRITE),
    ("warnings onto a full disk", ["-o", "made", "useless"], None, nothing, full, 74, ""),
    ("a specification that is a folder", ["-t", "folder"], None, nothing, None, 66, "lex: cannot read folder\n"),
    ("a scan by a folder", ["--scan-spec", "folder"], None, nothing, None, 66, "lex: cannot read folder\n"),
    ("a table that is a folder", ["--scan-table", "folder"], None, nothing, None, 66, "lex: cannot read folder\n"),
    ("a specification that is not there", ["-t", "none"], None, nothing, None, 66, "lex: cannot read none\n"),
    ("a specification from a folder as standard input", ["-t"], folder_end, nothing, None, 66, "lex: cannot read -\n"),
    ("a scan of a closed input", ["--scan-spec", "all"], closed, nothing, None, 74, READ),
    ("a scan into a closed output", ["--scan-table", "table"], few, closed, None, 74, WRITE),
    ("a table into a closed output", ["-t", "spec"], None, closed, None, 74, WRITE),
    ("statistics into a closed output", ["-v", "-o", "made", "spec"], None, closed, None, 74, WRITE),
    ("a specification from a closed input", ["-t"], closed, nothing, None, 66, "lex: cannot read -\n"),
    ("a specification that may not be read", ["-t", "secret"], None, nothing, None, 66, "lex: cannot read secret\n"),
    ("a scan by one that may not be read", ["--scan-spec", "secret"], None, nothing, None, 66, "lex: cannot read secret\n"),
    ("a table that may not be read", ["--scan-table", "secret"], None, nothing, None, 66, "lex: cannot read secret\n"),
    ("a table file that may not be written", ["-o", "secret", "spec"], None, nothing, None, 74, WRITE),
    ("a report that cannot be written", ["-b", "-o", "made", "spec"], None, nothing, None, 74, WRITE),
    ("a word that is not UTF-8", [b"\xff.l"], None, nothing, None, 64, "lex: usage\n"),
    ("a file of an empty name", ["-t", ""], None, nothing, None, 66, "lex: cannot read \n"),
    ("a file past the limit, and then one that is not there", ["-t", "long", "none"], None, nothing, None, 65, "lex: line 0: TooLong\n"),
    ("standard input twice, of which the second has nothing", ["-o", "twice", "-", "-"], spec_given, nothing, None, 0, ""),
]

NOBODY = 65_534


def run(lex, words, given, output, errors):
    """The status and what was told."""
    ends = [end() if end else nothing() for end in (given, output)]
    told = errors() if errors else subprocess.PIPE

    def begin():
        for number, end in enumerate(ends):
            if end is None:
                os.close(number)
        if os.getuid() == 0:
            os.setuid(NOBODY)

    done = subprocess.run([lex, *words], stdin=ends[0], stdout=ends[1], stderr=told, timeout=60, preexec_fn=begin)
    for end in ends:
        if end is not None:
            os.close(end)
    return done.returncode, (done.stderr or b"").decode()


def main():
    faults = 0
    with tempfile.TemporaryDirectory() as at:
        lex = shutil.copy(sys.argv[1], at)
        os.chdir(at)
        for name, text in (("spec", SPEC), ("all", ALL), ("useless", USELESS)):
            Path(name).write_text(text)
        Path("folder").mkdir()
        Path("lex.backup").mkdir()
        Path("secret").write_text(SPEC)
        Path("secret").chmod(0)
        Path("long").write_text("%%\n" + "\n" * 1_048_574)
        subprocess.run([lex, "-o", "table", "spec"], check=True)
        os.chmod(at, 0o777)
        for name, words, given, output, errors, status, line in RUNS:
            got = run(lex, words, given, output, errors)
            so = got == (status, line)
            faults += not so
            print(f"{name}: {got[0]}{'' if so else f', wanted {status} {line!r}, and told {got[1]!r}'}")
        if Path("twice").read_bytes() != Path("table").read_bytes():
            faults += 1
            print("standard input twice is another table file than once")
        os.chdir("/")
    print(f"faults: {faults}")
    return 1 if faults else 0


if __name__ == "__main__":
    sys.exit(main())
