#!/usr/bin/env python3
"""Compares the lines of `lexlook trace` with those of flex's scanners with -d, on examples/.

    scripts/flex/traces.py LEXLOOK

LEXLOOK is the program, as crates/lexlook/out/lexlook. For each specification of examples/ flex builds a scanner with -d, and both scan
the input of the same name. The statuses must agree, and the lines of the matches and of the end, one by one. What flex tells of its
buffers and of backing up is left out. Of a rule with trailing context flex tells all of the match, and lexlook its text: there the text
must be a front of what flex tells. A line is printed for each specification; the status is 1 where something differs. It wants flex 2.6.4
and a C compiler, and is no part of the gate."""
import os
import re
import subprocess
import sys
import tempfile

EXAMPLES = os.path.join(os.path.dirname(os.path.dirname(os.path.dirname(os.path.realpath(__file__)))), "examples")
BUFFERS = re.compile(rb"--\(end of buffer or a NUL\)\n|--scanner backing up\n")
MATCH = re.compile(rb'--accepting (default rule|rule at line (\d+)) \("(.*?)"\)\n(?=--accepting |--EOF |\Z)|--EOF \(start condition \d+\)\n', re.S)


def scanner_of(spec, folder):
    """flex's scanner of a specification, with -d, or none where flex refuses it."""
    code, program = os.path.join(folder, "scan.c"), os.path.join(folder, "scan")
    if subprocess.run(["flex", "--noyywrap", "-d", "-o", code, spec], capture_output=True).returncode:
        return None
    with open(code, "a") as file:
        file.write("int main(void) { return yylex(); }\n")
    subprocess.run(["cc", "-w", "-o", program, code], check=True)
    return program


def records(trace):
    """The lines of a trace: what each says but for its text, its rule's line, and its text. A text may have newlines."""
    found, at = [], 0
    for match in MATCH.finditer(trace):
        if match.start() != at:
            break
        at = match.end()
        found.append((match.group(1) or match.group(0), match.group(2), match.group(3) or b""))
    return found + ([(trace[at:], None, b"")] if at < len(trace) else [])


def trailing_lines(spec):
    """The lines of rules with trailing context, or with what may be taken for it."""
    with open(spec, "rb") as file:
        lines = file.read().split(b"\n")
    return {str(number).encode() for number, line in enumerate(lines, 1) if re.search(rb"/|\$(\s|$)", line)}


def agree(ours, theirs, trailing):
    """Whether two lines say the same."""
    if ours[0] != theirs[0]:
        return False
    return ours[2] == theirs[2] or (ours[1] in trailing and theirs[2].startswith(ours[2]))


def main():
    lexlook, faults = sys.argv[1], 0
    for name in sorted(it[:-2] for it in os.listdir(EXAMPLES) if it.endswith(".l")):
        spec, given = os.path.join(EXAMPLES, f"{name}.l"), os.path.join(EXAMPLES, f"{name}.input")
        if not os.path.isfile(given):
            continue
        with open(given, "rb") as file:
            text = file.read()
        with tempfile.TemporaryDirectory() as folder:
            scanner = scanner_of(spec, folder)
            if not scanner:
                print(f"{name}: flex refuses it")
                continue
            flex = subprocess.run([scanner], input=text, capture_output=True)
        lex = subprocess.run([lexlook, "trace", spec], input=text, capture_output=True)
        ours, theirs, trailing = records(lex.stdout), records(BUFFERS.sub(b"", flex.stderr)), trailing_lines(spec)
        wrong = abs(len(ours) - len(theirs)) + sum(not agree(a, b, trailing) for a, b in zip(ours, theirs)) + (lex.returncode != flex.returncode)
        print(f"{name}: {len(ours)} lines, status {lex.returncode}, {wrong} otherwise than flex's")
        faults += wrong
    return 1 if faults else 0


if __name__ == "__main__":
    sys.exit(main())
