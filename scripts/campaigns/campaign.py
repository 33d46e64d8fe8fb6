#!/usr/bin/env python3
"""Runs the program lex on mutated specifications and on mutated table files, and holds each run to the manual: a status of
its table of messages, on standard error nothing but warnings and one of its lines, at most 10 s and 1 GiB.

    scripts/campaigns/campaign.py LEX [COUNT [SEED [WORKERS]]]

LEX is the program, as crates/lex/out/lex; COUNT, 100,000 if left out, is how many there are of each kind. A run that does
otherwise is told, and its file is kept in the folder campaign-kept. It is no part of the gate."""
import collections
import multiprocessing
import random
import re
import resource
import subprocess
import sys
import tempfile
import time
from pathlib import Path

ROOT = Path(__file__).resolve().parents[2]
SECONDS = 10
MEMORY = 1 << 30
NUMBERS = [0, 1, 2, 3, 63, 64, 255, 256, 257, 4096, 4097, 8191, 8192, 8193, 65535, 65536, 2097152, 2097153, 2**31, 2**32 - 1]
PIECES = [
    b"%%\n", b"%{\n", b"%}\n", b"%x A\n", b"%s B\n", b"<A>", b"<*>", b"<<EOF>>", b"^", b"$", b"/", b"|", b"(", b")", b"[", b"]",
    b"{", b"}", b"{2,3}", b"{255}", b"*", b"+", b"?", b"\"", b"\\", b"[[:alpha:]]", b"[^\\n]", b"\\x41", b" ", b"\t", b"\n", b"\r\n",
    b" ECHO;", b" REJECT;", b" yymore();", b" yyless(1);", b" BEGIN(0);", b" exit(7);", b" printf(\"%s\", yytext);", b" |\n", b"/*", b"*/",
    b"%option case-insensitive\n", b"D [0-9]\n", b"{D}", b"\0", b"\xff",
]
REASONS = (
    "NoRulesSection BadDefinitionLine DuplicateName AnchoredDefinition DuplicateCondition UnsupportedOption UnknownCondition"
    " TwoTrailing VariableTrailing BadEofRule DuplicateEof BadEofAction UnknownStatement BadCount BadStatus LessAndMore"
    " RejectCombination NotLast Unclosed DanglingBar TooManyRules TooManyConditions TooLong"
)
PATTERN_REASONS = (
    "UnclosedQuote UnclosedClass BadRange EmptyClass UnknownClassName UnsupportedBracket BadEscape BadInterval UnbalancedParen"
    " MissingOperand MisplacedSlash UndefinedName DefinitionCycle TooBig TooDeep"
)
WARNING = re.compile(r"lex: line \d+: warning: (code skipped|rule cannot be matched)")
REFUSED_SPEC = re.compile(
    rf"lex: line \d+: ({REASONS.replace(' ', '|')})|lex: line \d+: ({PATTERN_REASONS.replace(' ', '|')}) at \d+"
    r"|lex: (TooManyPositions|TooManyStates)"
)
REFUSED_TABLE = re.compile(r"lex: table: (BadMagic|BadVersion|Truncated|TrailingBytes|BadField at \d+)")


def spliced(text, other, pick):
    return text[: pick.randrange(len(text) + 1)] + other[pick.randrange(len(other) + 1) :]


def mutated_spec(texts, pick):
    text = pick.choice(texts)
    for _ in range(pick.choice([1, 1, 2, 3, 6])):
        at = pick.randrange(len(text) + 1)
        end = min(len(text), at + pick.choice([1, 1, 2, 5, 20]))
        what = pick.randrange(6)
        if what == 0:
            text = text[:at] + bytes([pick.randrange(256)]) + text[at + 1 :]
        elif what == 1:
            text = text[:at] + pick.choice(PIECES) + text[at:]
        elif what == 2:
            text = text[:at] + text[end:]
        elif what == 3:
            text = text[:at] + text[at:end] * pick.choice([2, 3, 70]) + text[end:]
        elif what == 4:
            text = text[:at] + pick.choice(PIECES) + text[end:]
        else:
            text = spliced(text, pick.choice(texts), pick)
    return text


def mutated_table(files, pick):
    file = pick.choice(files)
    for _ in range(pick.choice([1, 1, 1, 2, 4])):
        at = pick.randrange(len(file) + 1)
        what = pick.randrange(7)
        if what == 0:
            file = file[:at] + bytes([pick.randrange(256)]) + file[at + 1 :]
        elif what in (1, 2):
            # numbers of the header, and those of states and slots, stand at places of four bytes
            at = pick.choice([8, 12, 16, 20, 24, at])
            file = file[:at] + pick.choice(NUMBERS).to_bytes(4, "big") + file[at + 4 :]
        elif what == 3:
            file = file[:at] + (file[at] ^ (1 << pick.randrange(8))).to_bytes(1, "big") + file[at + 1 :] if at < len(file) else file
        elif what == 4:
            file = file[:at]
        elif what == 5:
            file = file + bytes(pick.randrange(256) for _ in range(pick.choice([1, 4, 8])))
        else:
            file = spliced(file, pick.choice(files), pick)
    return file


def limited():
    resource.setrlimit(resource.RLIMIT_AS, (MEMORY, MEMORY))


def fault_of(status, lines, refused):
    """What is wrong with the end of a run, or nothing."""
    while lines and WARNING.fullmatch(lines[0]) and refused is REFUSED_SPEC:
        lines = lines[1:]
    if 0 <= status <= 63:
        return "words of a scan that ended" if lines else None
    if status == 65 and len(lines) == 1 and refused.fullmatch(lines[0]):
        return None
    return f"status {status}: {lines}"


def reason_of(status, lines):
    if status != 65:
        return f"status {status}" if status else "status 0"
    return re.sub(r"line \d+: | at \d+", "", lines[-1]) if lines else "status 65"


def campaign(job):
    lex, kind, count, seed = job
    pick = random.Random(seed)
    specs = [path.read_bytes() for path in sorted((ROOT / "examples").glob("*.l"))]
    inputs = [path.read_bytes() for path in sorted((ROOT / "examples").glob("*.input"))] + [b"", b"\0\xff\n", b"if 42 x\n"]
    files = [subprocess.run([lex, "-tw"], input=spec, capture_output=True, check=True).stdout for spec in specs]
    told, faults, slowest = collections.Counter(), [], 0.0
    with tempfile.NamedTemporaryFile(dir="/dev/shm") as place:
        for number in range(count):
            text = mutated_spec(specs, pick) if kind == "--scan-spec" else mutated_table(files, pick)
            Path(place.name).write_bytes(text)
            start = time.monotonic()
            try:
                run = subprocess.run([lex, kind, place.name], input=pick.choice(inputs), capture_output=True, timeout=SECONDS, preexec_fn=limited)
                lines = run.stderr.decode(errors="replace").splitlines()
                refused = REFUSED_SPEC if kind == "--scan-spec" else REFUSED_TABLE
                fault = fault_of(run.returncode, lines, refused)
                told[reason_of(run.returncode, lines)] += 1
            except subprocess.TimeoutExpired:
                fault = "no end"
            slowest = max(slowest, time.monotonic() - start)
            if fault:
                kept = Path("campaign-kept")
                kept.mkdir(exist_ok=True)
                (kept / f"{kind[2:]}-{seed}-{number}").write_bytes(text)
                faults.append(f"{kind} seed {seed} run {number}: {fault}")
    most = resource.getrusage(resource.RUSAGE_CHILDREN).ru_maxrss
    return kind, count, told, faults, slowest, most


def main():
    lex = str(Path(sys.argv[1]).resolve())
    count = int(sys.argv[2]) if len(sys.argv) > 2 else 100_000
    seed = int(sys.argv[3]) if len(sys.argv) > 3 else 1
    workers = int(sys.argv[4]) if len(sys.argv) > 4 else 1
    kinds = ["--scan-spec", "--scan-table"]
    jobs = [(lex, kind, count // workers, seed * 1000 + worker) for kind in kinds for worker in range(workers)]
    with multiprocessing.Pool(workers) as pool:
        results = pool.map(campaign, jobs, chunksize=1)
    bad = 0
    for kind in kinds:
        own = [result for result in results if result[0] == kind]
        told = sum((result[2] for result in own), collections.Counter())
        faults = [fault for result in own for fault in result[3]]
        runs = sum(result[1] for result in own)
        print(f"{kind}: {runs} runs, seed {seed}, {len(faults)} faults, slowest {max(r[4] for r in own):.2f} s, most {max(r[5] for r in own) // 1024} MiB")
        print("  " + ", ".join(f"{reason} {number}" for reason, number in told.most_common()))
        for fault in faults[:20]:
            print("  " + fault)
        bad += len(faults)
    return 1 if bad else 0


if __name__ == "__main__":
    sys.exit(main())
