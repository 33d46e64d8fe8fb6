#!/usr/bin/env python3
"""Whether each place that names the version agrees with the file VERSION.

    scripts/gate/version.py     a line for each place that has another version, or none where one has to stand, and then a status of 1

These have to name it: include/lex.pc, docs/lex.1, docs/lexlook.1, CHANGELOG.md (its first release), and Cargo.toml and Cargo.lock of
bindings/rust. These may: LEX_VERSION of include/lex.h, and constants in crates/ and bindings/rust/src whose names have the word VERSION
and whose values are texts. So may LEX_VERSION_NUMBER, and a constant VERSION of liblex, as numbers: 10203 is version 1.2.3."""
import re
import sys
from pathlib import Path

ROOT = Path(__file__).resolve().parents[2]
NUMBER = re.compile(r"\d+\.\d+\.\d+")
# Where the version has to stand: the first text that each pattern finds.
NEEDED = {
    "include/lex.pc": r"^Version: (.*)$",
    "docs/lex.1": r'^\.TH LEX 1 \S+ "lex ([^"]*)"',
    "docs/lexlook.1": r'^\.TH LEXLOOK 1 \S+ "lex ([^"]*)"',
    "CHANGELOG.md": r"^## \[(\d[^]]*)\]",
    "bindings/rust/Cargo.toml": r'^version = "([^"]*)"',
    "bindings/rust/Cargo.lock": r'^name = "liblex"\nversion = "([^"]*)"',
}
# Where it may stand, any number of times.
DEFINED = re.compile(r'^#define LEX_VERSION\s+"([^"]*)"', re.M)
CONSTANT = re.compile(r'\b(?:const|static) \w*VERSION\w*\s*:[^="\n]*=\s*b?"([^"\n]*)"')
TEXTS = {"include/lex.h": DEFINED, "crates/*/src/**/*.rt": CONSTANT, "bindings/rust/src/**/*.rs": CONSTANT}
# The same as a number.
DEFINED_NUMBER = re.compile(r"^#define LEX_VERSION_NUMBER\s+(\d+)", re.M)
CONSTANT_NUMBER = re.compile(r"\b(?:const|static) VERSION\s*:\s*u32\s*=\s*([\d_]+)")
NUMBERS = {"include/lex.h": DEFINED_NUMBER, "crates/liblex*/src/**/*.rt": CONSTANT_NUMBER}


def needed():
    """Each place that has to name the version, and what stands there."""
    for name, pattern in NEEDED.items():
        path = ROOT / name
        found = re.search(pattern, path.read_text(encoding="utf-8"), re.M) if path.exists() else None
        yield name, found[1] if found else None


def found_in(sources):
    """What the patterns find in the files, with the file and the line."""
    for files, pattern in sources.items():
        for path in sorted(ROOT.glob(files)):
            text = path.read_text(encoding="utf-8")
            for found in pattern.finditer(text):
                yield f"{path.relative_to(ROOT)}:{text.count(chr(10), 0, found.start()) + 1}", found[1]


def allowed():
    """Each place that names the version too. Of a text with other words the number counts."""
    for place, text in found_in(TEXTS):
        number = NUMBER.search(text)
        yield place, number[0] if number else text
    for place, digits in found_in(NUMBERS):
        number = int(digits.replace("_", ""))
        yield place, f"{number // 10_000}.{number // 100 % 100}.{number % 100}"


def main():
    path = ROOT / "VERSION"
    version = path.read_text(encoding="utf-8").removesuffix("\n") if path.exists() else ""
    if not NUMBER.fullmatch(version):
        print("VERSION: it has to be one line with three numbers, as 1.0.0")
        return 1
    faults = [(place, found) for place, found in [*needed(), *allowed()] if found != version]
    for place, found in faults:
        print(f"{place}: no version stands there" if found is None else f"{place}: {found}, and VERSION has {version}")
    return 1 if faults else 0


if __name__ == "__main__":
    sys.exit(main())
