#!/usr/bin/env python3
"""Tells whether docs/EDITS.md is the page of the wrong bodies that stand in the crates, with a status of 1 where it is not. The first
line of each wrong body says what it guards: `# TEXT`. A second one says by what it is refused, where `wrong-bodies.py --write` wrote it. For
those of must-fail/ the file refused-by.md there does.

usage: edits.py [--write]
  --write   writes the page
"""
import pathlib
import re
import sys

ROOT = pathlib.Path(__file__).resolve().parents[2]
PAGE = ROOT / "docs/EDITS.md"
OF_GATE = ("must-fail", "known-errors")
FOLDERS = (*OF_GATE, "wrong-bodies", "misreadings")


def guards(path):
    """What a wrong body guards, by its first line."""
    first = path.read_text().split("\n", 1)[0]
    if not first.startswith("# ") or "|" in first:
        sys.exit(f"{path.relative_to(ROOT)}: its first line does not say what it guards, as `# TEXT`")
    return first.removeprefix("# ")


def refused_by(path):
    """By what a wrong body is refused, where that is written."""
    beside = path.parent / "refused-by.md"
    if path.parent.name == "must-fail" and beside.exists():
        said = re.search(rf"(?m)^`{re.escape(path.stem)}`: (.*)", beside.read_text())
    else:
        said = re.match(r".*\n# refused by: (.*)", path.read_text())
    return said[1] if said else ""


def rows(crate):
    """The rows of a crate, by their names; those that the gate tries are bold."""
    found = [(path.stem, folder, path) for folder in FOLDERS for path in (crate / folder).glob("*.edit")]
    for name, folder, path in sorted(found):
        bold = "**" if folder in OF_GATE else ""
        yield f"| {bold}`{name}`{bold} | {guards(path)} | {refused_by(path)} |"


def page():
    """The head of the page as it is, and a chapter for each crate in the order of crates.txt."""
    head = re.split(r"(?m)^## ", PAGE.read_text())[0]
    crates = [re.split(r"[ :]", line)[0] for line in (ROOT / "crates.txt").read_text().splitlines()]
    chapters = [(crate, list(rows(ROOT / "crates" / crate))) for crate in crates]
    texts = (f"## {crate}\n\n| Edit | What it guards | Refused by |\n|---|---|---|\n" + "\n".join(lines) + "\n" for crate, lines in chapters if lines)
    return head + "\n".join(texts)


if sys.argv[1:] == ["--write"]:
    PAGE.write_text(page())
elif sys.argv[1:]:
    sys.exit(__doc__)
elif PAGE.read_text() != page():
    sys.exit("docs/EDITS.md is not the page of the wrong bodies: `scripts/gate/edits.py --write` writes it")
