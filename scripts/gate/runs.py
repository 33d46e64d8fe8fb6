#!/usr/bin/env python3
"""Runs the program lex with each of its flags, and lexlook over the most rules and where it fails. Holds each run to the manual: its status, what it writes on
both outputs, and the files that it makes.

    scripts/gate/runs.py LEX LEXLOOK

LEX and LEXLOOK are the programs, as crates/lex/out/lex. Each run that does otherwise is told, with a status of 1. The gate (.ci/run) ends
with it, since no clause speaks of the programs' files and outputs."""
import subprocess
import sys
import tempfile
from pathlib import Path
from typing import NamedTuple

# What the manual shows: a specification with its statistics, one with warnings, and one with a state that backs up.
SMALL = b'%%\nif      printf("K");\n[a-z]+  printf("I");\n'
STATISTICS = b"rules 2\nconditions 1\npositions 3\nsubsets 5\nstates 5\nclasses 4\nslots 9\nbytes 471\n"
WARNED = b"%{\nint n;\n%}\n%%\na+    ;\naa    ;\n"
WARNINGS = b"lex: line 1: warning: code skipped\nlex: line 6: warning: rule cannot be matched\n"
BACKING_UP = b'%%\nabc printf("X");\n'
REPORT = b'state 3 after "ab"\nstates that back up: 1\n'
SERIES = b'%%\nab{2} printf("X");\n'
# One byte longer than a specification may be.
LONG = b"%%\n" + 1_048_574 * b"\n"
# As many rules as a specification may have, of which the first takes all texts, and what lexlook says of their texts.
MOST = b"%%\n" + 4_096 * b"a ;\n"
TAKEN = "".join(f"at line {line}: rule cannot be matched, its texts are taken at line 2\n" for line in range(3, 4_098)).encode()
WORDS = b'at line 2: "a" in INITIAL\n' + TAKEN + b'default rule: "\\000" in INITIAL\n'
FILES = {"small.l": SMALL, "warned.l": WARNED, "back.l": BACKING_UP, "series.l": SERIES, "first.l": SMALL[:10], "second.l": SMALL[10:], "long.l": LONG, "most.l": MOST}


class Run(NamedTuple):
    """What a run is: its words and its input; its status, what it writes on standard output and error, and the files that it makes."""

    words: str
    given: bytes = b""
    status: int = 0
    written: bytes = b""
    told: bytes = b""
    made: dict = {}


def runs(table, folded, series):
    """The runs, by the table files of SMALL, of SMALL with letters for both cases, and of SERIES with intervals over series."""
    yield Run("small.l", made={"lex.yy.tab": table})
    yield Run("-o small.tab small.l", made={"small.tab": table})
    yield Run("small.l -osmall.tab", made={"small.tab": table})
    yield Run("-t small.l", written=table)
    yield Run("-t -o small.tab small.l", written=table)
    yield Run("-o small.tab", SMALL, made={"small.tab": table})
    yield Run("-o small.tab -", SMALL, made={"small.tab": table})
    yield Run("-t first.l second.l", written=table)
    yield Run("-v -o small.tab small.l", written=STATISTICS, made={"small.tab": table})
    yield Run("-tv small.l", written=table, told=STATISTICS)
    yield Run("-n -v -o small.tab small.l", made={"small.tab": table})
    yield Run("-v -n -o small.tab small.l", made={"small.tab": table})
    yield Run("-b -w -o back.tab back.l", made={"lex.backup": REPORT, "back.tab": None})
    yield Run("-o warned.tab warned.l", told=WARNINGS, made={"warned.tab": None})
    yield Run("-w -o warned.tab warned.l", made={"warned.tab": None})
    yield Run("-o none/warned.tab warned.l", status=74, told=WARNINGS + b"lex: write fault\n")
    yield Run("-o /dev/full small.l", status=74, told=b"lex: write fault\n")
    yield Run("-t long.l none", status=65, told=b"lex: line 0: TooLong\n")
    yield Run("-i -o folded.tab small.l", made={"folded.tab": folded})
    yield Run("-X -o series.tab series.l", made={"series.tab": series})
    yield Run("--scan-spec small.l", b"if iff IF\n", written=b"K I IF\n")
    yield Run("--scan-spec small.l -i", b"if iff IF\n", written=b"K I K\n")
    yield Run("--scan-spec series.l", b"abb abab\n", written=b"X abab\n")
    yield Run("-X --scan-spec series.l", b"abb abab\n", written=b"abb X\n")
    yield Run("--scan-spec warned.l", b"aab", written=b"b", told=WARNINGS)
    yield Run("-w --scan-spec warned.l", b"aab", written=b"b")
    yield Run("--scan-table small", b"if iff IF\n", written=b"K I IF\n")
    yield Run("--scan-table folded", b"if iff IF\n", written=b"K I K\n")
    yield Run("--scan-table series", b"abb abab\n", written=b"abb X\n")
    for words in ("-o=small.tab small.l", "--scan-spec=small.l", "--scan-table small -i", "--scan-spec small.l -t", "-h"):
        yield Run(words, status=64, told=b"lex: usage\n")


def looks():
    """Runs of lexlook: of the most rules, and those that fail, with its line of each."""
    yield Run("words most.l", written=WORDS)
    missing, folder = b"lexlook: none.l: No such file or directory\n", b"lexlook: .: Is a directory\n"
    refused, bad = b"lexlook: bad.l: line 1: BadDefinitionLine\n", b"lexlook: cut: table: Truncated\n"
    for words in ("picture", "words", "lines", "trace", "header", "check", "same small.l"):
        yield Run(f"{words} none.l", status=66, told=missing)
        yield Run(f"{words} .", status=66, told=folder)
    yield Run("check small.l small.l/x", status=66, told=b"lexlook: small.l/x: Not a directory\n")
    yield Run(f"words {300 * 'n'}", status=66, told=b"lexlook: " + 300 * b"n" + b": File name too long\n")
    for words in ("picture bad.l", "words bad.l", "lines bad.l", "trace bad.l", "header bad.l", "same bad.l small.l", "same small.l bad.l"):
        yield Run(words, status=65, told=refused)
    for words in ("picture small", "words small", "trace small", "header small"):
        yield Run(words, status=65, told=b"lexlook: small: a table file, and no specification\n")
    yield Run("words -", b"foo\n%%\n", 65, told=b"lexlook: -: line 1: BadDefinitionLine\n")
    yield Run("same bad.l cut", status=65, told=refused)
    yield Run("same cut bad.l", status=65, told=bad)
    yield Run("lines cut", status=65, told=bad)
    yield Run("picture", status=64, told=b"lexlook: usage\n")
    yield Run("utf8 Nothing", status=64, told=b"lexlook: usage\n")


def fault(lex, run, before):
    """What a run does otherwise, in a folder that has the files before it."""
    with tempfile.TemporaryDirectory() as folder:
        for name, text in before.items():
            (Path(folder) / name).write_bytes(text)
        done = subprocess.run([lex, *run.words.split()], input=run.given, cwd=folder, capture_output=True, timeout=60, check=False)
        after = {path.name: path.read_bytes() for path in Path(folder).iterdir() if path.name not in before}
    if (done.returncode, done.stdout, done.stderr) != (run.status, run.written, run.told):
        return f"status {done.returncode}, wrote {done.stdout[:200]!r}, and told {done.stderr[:200]!r}"
    if set(after) != set(run.made) or any(text not in (None, after[name]) for name, text in run.made.items()):
        return f"made {sorted(after)}, or other bytes in them"
    return None


def table_of(lex, *words):
    """A table file, as `-t` writes it."""
    return subprocess.run([lex, "-t", *words], input=b"", capture_output=True, timeout=60, check=True).stdout


def main():
    lex, lexlook = (str(Path(name).resolve()) for name in sys.argv[1:3])
    with tempfile.TemporaryDirectory() as folder:
        for name, text in FILES.items():
            (Path(folder) / name).write_bytes(text)
        here = lambda name: str(Path(folder) / name)
        small, folded, series = table_of(lex, here("small.l")), table_of(lex, "-i", here("small.l")), table_of(lex, "-X", here("series.l"))
    faults = 0 if len(small) == 471 else print(f"the table file of small.l has {len(small)} bytes") or 1
    before = {**FILES, "small": small, "folded": folded, "series": series, "bad.l": b"foo\n%%\n", "cut": small[:100]}
    tried = [(lex, run) for run in runs(small, folded, series)] + [(lexlook, run) for run in looks()]
    for program, run in tried:
        found = fault(program, run, before)
        if found:
            faults += 1
            print(f"{Path(program).name} {run.words}: {found}")
    print(f"runs of lex with its flags, and of lexlook over the most rules and where it fails: {faults} faults")
    return 1 if faults else 0


if __name__ == "__main__":
    sys.exit(main())
