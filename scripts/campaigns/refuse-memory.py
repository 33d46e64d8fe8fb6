#!/usr/bin/env python3
"""Runs the program lex with the Nth request for memory refused, for N = 1, 2, .. until a run meets no refusal, and holds each run
to the manual: either it ends as it does without a refusal, or with status 71 and `lex: out of memory`, and then what it wrote
is a front of what it writes else, and a table file that was begun is no whole one. Each test whose name begins with `refused_` is
run in the same way: it ends well, or fails with an error that says that memory ran out.

    scripts/campaigns/refuse-memory.py LEX [TESTS..]

LEX is the program as LLVM links it, as crates/lex/out/lex, and TESTS are tests that are linked so:
crates/lextest_calls/out/lextest_calls_tests and crates/lextest_parts/out/lextest_parts_tests. The requests are those to the C library: a small library
that counts them and refuses the Nth is made by cc in a folder of its own. The gate runs it."""
import os
import subprocess
import sys
import tempfile
from pathlib import Path

SHIM = r"""
#define _GNU_SOURCE
#include <dlfcn.h>
#include <errno.h>
#include <fcntl.h>
#include <stddef.h>
#include <stdlib.h>
#include <unistd.h>

static unsigned long asked;

static int is_refused(void) {
    static unsigned long refused;
    static int is_known;
    if (!is_known) {
        const char *text = getenv("REFUSED");
        refused = text ? strtoul(text, NULL, 10) : 0;
        is_known = 1;
    }
    if (++asked != refused)
        return 0;
    int mark = open(getenv("MARK"), O_CREAT | O_WRONLY, 0600);
    if (mark >= 0)
        close(mark);
    errno = ENOMEM;
    return 1;
}

extern void *__libc_malloc(size_t);
extern void *__libc_calloc(size_t, size_t);
extern void *__libc_realloc(void *, size_t);
extern void *__libc_memalign(size_t, size_t);

void *malloc(size_t size) { return is_refused() ? NULL : __libc_malloc(size); }
void *calloc(size_t count, size_t size) { return is_refused() ? NULL : __libc_calloc(count, size); }
void *realloc(void *old, size_t size) { return is_refused() ? NULL : __libc_realloc(old, size); }
void *aligned_alloc(size_t to, size_t size) { return is_refused() ? NULL : __libc_memalign(to, size); }
int posix_memalign(void **out, size_t to, size_t size) {
    if (is_refused())
        return ENOMEM;
    *out = __libc_memalign(to, size);
    return *out ? 0 : ENOMEM;
}
"""

REJECTS = "%%\na |\nab |\nabc |\nabcd ECHO; REJECT;\n.|\\n ;\n"
COMMENTS = '%x C\n%%\n"/*" BEGIN(C);\n<C>"*/" BEGIN(INITIAL);\n<C>.|\\n ;\n<C><<EOF>> printf("open"); exit(3);\n'
NAMES = 'N {D}+\nD [0-9]\n%%\n{N}"."{N} printf("F");\n'
WARNED = "%{\nint n;\n%}\n%%\na+ ;\naa ;\n%%\nint main(){}\n"
KEYS = '%%\nif printf("K");\n[a-z]+ printf("I");\n'
RETURNED = "%%\n[a-z]+ yyless(1);\n"

# A name, a specification, the words after the program's name, and an input; `spec` and `table` stand for the two files.
RUNS = [
    ("REJECT, made", REJECTS, ["-t", "spec"], b""),
    ("REJECT, scanned", REJECTS, ["--scan-spec", "spec"], b"abcd"),
    ("conditions, made", COMMENTS, ["-t", "spec"], b""),
    ("conditions, scanned", COMMENTS, ["--scan-spec", "spec"], b"a/*b*/c/*d"),
    ("names, made", NAMES, ["-t", "spec"], b""),
    ("names, scanned", NAMES, ["--scan-spec", "spec"], b"aa"),
    ("warnings, made", WARNED, ["-t", "-b", "-v", "spec"], b""),
    ("warnings, scanned", WARNED, ["--scan-spec", "spec"], b"aa"),
    ("two rules, made", KEYS, ["-v", "-o", "made", "spec"], b""),
    ("two rules, by their table", KEYS, ["--scan-table", "table"], b"if iff"),
    ("letters given back", RETURNED, ["--scan-spec", "spec"], b"a" * 40),
    ("usage", KEYS, ["--scan-spec"], b""),
]


def run(lex, folder, words, given, nth):
    """The status, what was written and told, what stands in the files that are made, and whether a request was refused."""
    for name in ("mark", "made", "lex.backup"):
        (folder / name).unlink(missing_ok=True)
    more = {"LD_PRELOAD": str(folder / "shim.so"), "MARK": str(folder / "mark"), "REFUSED": str(nth)}
    done = subprocess.run([lex, *words], input=given, capture_output=True, cwd=folder, env={**os.environ, **more}, timeout=60)
    made = [(folder / name).read_bytes() if (folder / name).exists() else b"" for name in ("made", "lex.backup")]
    return done.returncode, [done.stdout, *made], done.stderr, (folder / "mark").exists()


def fault(whole, got):
    """What is wrong with a run in which a request was refused, if anything."""
    status, wrote, told, _ = got
    if (status, wrote, told) == whole[:3]:
        return None
    if status != 71 or not told.endswith(b"lex: out of memory\n"):
        return f"status {status}, {told[-80:]!r}"
    if not whole[2].startswith(told[: -len(b"lex: out of memory\n")]):
        return f"other lines: {told[-80:]!r}"
    if not all(old.startswith(new) for old, new in zip(whole[1], wrote)):
        return "what was written is no front"
    return None


def fault_of_test(whole, got):
    """What is wrong with a test in which a request was refused, if anything."""
    if got[0] == whole[0]:
        return None
    told = b"".join([got[2], *got[1]])
    is_told = any(name in told for name in (b"OutOfMemory", b"AllocError", b"AllocFailed"))
    return None if is_told else f"status {got[0]}, {told[-200:]!r}"


def all_requests(name, program, folder, words, given, fault):
    """Runs the program with each request refused in turn, and answers how many runs were wrong."""
    whole = run(program, folder, words, given, 0)
    nth, borne, faults = 1, 0, 0
    while True:
        got = run(program, folder, words, given, nth)
        if not got[3]:
            break
        wrong = fault(whole, got)
        borne += got[0] == whole[0]
        if wrong:
            faults += 1
            print(f"{name}, request {nth}: {wrong}")
        nth += 1
    print(f"{name}: {nth - 1} requests, {nth - 1 - borne} runs ended for want of memory, {borne} as without a refusal")
    return faults


def main():
    lex, *tests = [str(Path(it).resolve()) for it in sys.argv[1:]]
    faults = 0
    with tempfile.TemporaryDirectory() as at:
        folder = Path(at)
        (folder / "shim.c").write_text(SHIM)
        subprocess.run(["cc", "-shared", "-fPIC", "-O1", "-o", "shim.so", "shim.c"], cwd=folder, check=True)
        (folder / "spec").write_text(KEYS)
        subprocess.run([lex, "-o", "table", "spec"], cwd=folder, check=True)
        for name, text, words, given in RUNS:
            (folder / "spec").write_text(text)
            faults += all_requests(name, lex, folder, words, given, fault)
        for program in tests:
            listed = subprocess.run([program, "--list"], capture_output=True, check=True, text=True).stdout
            names = [line.removesuffix(": test") for line in listed.splitlines() if "::refused_" in line]
            for name in names:
                faults += all_requests(name, program, folder, [name], b"", fault_of_test)
    print(f"faults: {faults}")
    return 1 if faults else 0


if __name__ == "__main__":
    sys.exit(main())
