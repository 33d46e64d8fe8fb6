#!/usr/bin/env python3
"""Writes rows for crates/lextest_product, into its data/: examples.txt from examples/, manual.txt from docs/MANUAL.md, and
manual_looks.txt from the chapters of the manual on lexlook. Run this where one of them changes.

    scripts/gate/rows.py           writes all three
    scripts/gate/rows.py --check   tells which of them differ from what it would write, with a status of 1
    scripts/gate/rows.py --flex    compares the rows of the manual with what flex 2.6.4 writes, by scripts/flex/flex-output.sh

The gate (.ci/run) begins with --check."""
import re
import subprocess
import sys
import tempfile
from pathlib import Path
from typing import NamedTuple

from row_format import file, group, row, told

ROOT = Path(__file__).resolve().parents[2]
DATA = ROOT / "crates/lextest_product/data"
PAIR = re.compile(
    r"(?:`([^`]*)`|Empty input) gives (?:`([^`]*)`|nothing)(?: with `(-[iX])`)?(?: and status (\d+))?"
)


class Scan(NamedTuple):
    """A scan that the manual shows: a specification, an input, what is written, the status, and the flag that it needs."""

    spec: str
    given: str
    written: str
    status: int = 0
    flag: str = ""


def plain(text):
    """What a cell or an example of the manual stands for."""
    return text.replace("\\n", "\n").replace("\\t", "\t").replace("\\0", "\0")


def code(cell):
    """The text of a cell in backquotes."""
    return cell.strip().strip("`").replace("\\|", "|")


def lines_of(cell):
    return code(cell).replace(" ;; ", "\n") + "\n"


def tables(text):
    """Each table of the manual: the names of its columns, and its rows."""
    for block in re.findall(r"(?:^\|.*\n)+", text, re.M):
        rows = [re.split(r"(?<!\\)\|", line)[1:-1] for line in block.splitlines()]
        names = [name.strip() for name in rows[0]]
        yield names, [dict(zip(names, row)) for row in rows[2:]]


def blocks(text):
    """Each specification of the manual that stands in a block, with the inputs below it."""
    for spec, below in re.findall(r"^```\n(.*?)^```\n\n(.*?)\n\n", text, re.M | re.S):
        for given, written, flag, status in PAIR.findall(below):
            yield Scan(spec, plain(given), plain(written), int(status or 0), flag)


def intervals(row):
    """What an interval stands for, with `-X` and without: each of the texts is matched whole."""
    rules = "%%\n" + code(row["Pattern"]) + ' printf("X");\n'
    for column, flag in (("Without `-X`", ""), ("With `-X`", "-X")):
        texts = re.findall(r"`([^`]*)`", row[column])
        yield Scan(rules, " ".join(texts), " ".join("X" for _ in texts), flag=flag)


def manual(text):
    """The rows of the manual that scan, those that flex scans otherwise, and those that are refused."""
    scans, others, refusals = list(blocks(text)), [], []
    for names, rows in tables(text):
        for row in rows:
            if "By flex" in names:
                whole = lines_of(row["Specification"])
                others.append(Scan(whole, plain(code(row["Input"])), plain(code(row["Written"]))))
            elif "With `-X`" in names:
                scans.extend(intervals(row))
            elif "Example" in names and row["Example"].strip():
                rules = "%%\n" + lines_of(row["Example"])
                scans.append(Scan(rules, plain(code(row["Input"])), plain(code(row["Written"]))))
            elif names[0] == "Line" and len(names) in (3, 4):
                head = "" if "Specification" in names else "%%\n"
                refusals.append((head + lines_of(row[names[2]]), code(row["Line"]) + "\n"))
    return scans, others, refusals


def scan_row(scan):
    """The row of a scan."""
    fields = [("spec", scan.spec), ("flag", scan.flag), ("input", scan.given), ("written", scan.written)]
    return row("scan", *fields, ("told", told(scan.status)))


def refusal_row(text, line):
    """The row of a specification that is refused by this line."""
    return row("scan", ("spec", text), ("input", "a"), ("told", "status 65\n" + line))


def examples():
    """The text of examples.txt."""
    groups = []
    for spec in sorted(ROOT.glob("examples/*.l")):
        status = spec.with_suffix(".status")
        texts = [spec.with_suffix(end).read_bytes().decode(errors="surrogateescape") for end in (".l", ".input", ".output")]
        scan = Scan(*texts, int(status.read_text()) if status.exists() else 0)
        groups.append(group(spec.stem, [scan_row(scan)]))
    return file("# The specifications of examples/, with what flex 2.6.4 writes, or Python where flex refuses one: written by scripts/gate/rows.py.\n", *groups)


def examples_of_manual(text):
    """The text of manual.txt."""
    scans, others, refusals = manual(text)

    def with_flag(head, flag):
        return group(head, [scan_row(scan) for scan in scans if scan.flag == flag])

    return file(
        "# The examples of docs/MANUAL.md: written by scripts/gate/rows.py.\n",
        with_flag("Scans.", ""),
        with_flag("Where letters stand for both cases.", "-i"),
        with_flag("Where intervals apply to series.", "-X"),
        group("Where flex 2.6.4 does something else.", map(scan_row, others)),
        group("What is refused.", [refusal_row(*refusal) for refusal in refusals]),
    )


def chapter(text, title):
    """The chapter of the manual that has this title."""
    return re.search(rf"^## {re.escape(title)}\n(.*?)(?=^## |\Z)", text, re.M | re.S)[1]


def indented(text):
    """The blocks of a chapter that stand four blanks to the right."""
    return [re.sub(r"(?m)^    ", "", block) for block in re.findall(r"(?:^    .*\n)+", text, re.M)]


def after(text, words):
    """The first block below these words."""
    return indented(text[text.index(words):])[0]


def hints():
    """What is expected for each reason, by the definitions of lexlook_check."""
    text = (ROOT / "crates/lexlook_check/specs/Hints.antt").read_text()
    found = re.findall(r'^\w+ (?:patterns|kinds|builds)\.(\w+) =\s+codes\s+"((?:[^"\\]|\\.)*)"', text, re.M)
    return {kind: re.sub(r"\\(.)", r"\1", hint) for kind, hint in found}


# How many are allowed, by the limit that is passed, and how many positions the only rule has.
ALLOWED = {"TooManyPositions": (16384, 255 * 65), "TooManyStates": (8192, 2 + 1 + 2 * 14)}
# What a word is not, by the reason, and the nearest one of words that have one.
NOUNS = {
    "UnsupportedOption": "option that is read",
    "UnknownCondition": "condition",
    "UnknownStatement": "word of a statement",
    "UndefinedName": "definition",
    "UnknownClassName": "class",
}
NEAREST = {"fprintf": "printf", "yyleng-1": "yyless"}
MEANING = "ECHO REJECT BEGIN printf fputs puts yymore yyless yyterminate exit yytext yyout".split()
# The words that are at fault in an action, by the reason.
AT_FAULT = {
    "UnknownStatement": "",
    "BadCount": "yyless",
    "LessAndMore": "yyless yymore",
    "BadStatus": "exit",
    "RejectCombination": "REJECT",
    "NotLast": "REJECT yyterminate exit",
    "BadEofAction": "ECHO REJECT BEGIN yymore yyless",
}
# So many of these stand before the one that is told.
BEFORE = {"LessAndMore": 1}


# Where a fault is whose line alone lex tells: at the first of these bytes.
PLACED = {"Unclosed": r'["{]', "DuplicateName": "", "DuplicateCondition": "INITIAL", "VariableTrailing": "/"}


def word_met(kind, shown, at):
    """What is said of the word in this line that is at fault, and its place; nothing, and the place where there is none."""
    if kind in ALLOWED:
        allowed, count = ALLOWED[kind]
        return f"{allowed} are allowed; the rule at a.l:2 has the most positions, {count} of {count}; ", at
    if kind in PLACED:
        return "", str(re.search(PLACED[kind], shown).start())
    if kind not in NOUNS and kind not in AT_FAULT:
        return "", at
    action = shown.index(" ") if kind in AT_FAULT or shown[0] not in "%<[{" else 1
    known = [it for it in [*MEANING, "option"] if it not in AT_FAULT.get(kind, "").split()]
    words = [met for met in re.finditer(r'"[^"]*"|[A-Za-z_][\w-]*', shown) if met.start() >= action]
    for met in [met for met in words if met[0][0] != '"' and met[0] not in known][BEFORE.get(kind, 0) :]:
        near = f", the nearest is `{NEAREST[met[0]]}`" if met[0] in NEAREST else ""
        return f"`{met[0]}` is no {NOUNS[kind]}{near}; " if kind in NOUNS else "", at or str(met.start())
    return "", at or str(action + 1)


# What is said of what stands at the place of a fault: by its reason, and the text from the byte before it on, or from it on.
LISTED = "rules in braces behind a condition list are not read, and each rule begins with its list; "
OTHER_CLASS = "no class is taken from another or added to one, and a class has all its bytes itself; "
CONSTANT = "no character constant is read, and what is written stands in a string; "
REMARKS = [
    ("BadInterval", ">{", "", LISTED),
    ("BadInterval", "", r"{[-+]}", OTHER_CLASS),
    ("MissingOperand", r"\(\?", "", "a group with flags is not read, and a letter of both cases is a class, as `[Aa]`, or by -i; "),
    ("MissingOperand", "", r"/\*", "a comment among rules stands behind a blank; "),
    ("MissingOperand", ">$", "", LISTED),
    ("UnknownStatement", "", "%{", "a block is no action, and braces alone hold several statements; "),
    ("UnknownStatement", "", "%", "a format has `%s` once, for yytext, and `%%` for a `%`; "),
    ("UnknownStatement", "'", "", CONSTANT),
    ("UnknownStatement", "", r"return(?![\w-])", 'what a parser is to read is written, as by puts("NAME"); '),
    ("UnknownStatement", "", r"(unput|input)(?![\w-])", "bytes are read and given back by rules and yyless alone; "),
    ("Unclosed", "'", "", CONSTANT),
]


def remark(kind, shown, at):
    """What is said of what stands at this place of a line."""
    around, rest = shown[max(at - 1, 0) :], shown[at:]
    met = [said for reason, before, behind, said in REMARKS if reason == kind and re.match(before, around) and re.match(behind, rest)]
    return met[0] if met else ""


def home(spec, shown, at):
    """Where the name at this place of a line is defined before the rules, if it is: one that begins the line, or one in braces."""
    name = re.match(r"[A-Za-z_][\w-]*" if at == 0 and shown[0] != "{" else r"{([A-Za-z_][\w-]*)}", shown[at:])
    lines = spec[: spec.index("%%")].splitlines()
    found = [n for n, line in enumerate(lines, 1) if name and re.match(rf"{name[name.lastindex or 0]}(?![\w-])", line)]
    return f"`{name[name.lastindex or 0]}` is defined at a.l:{found[0]}; " if found else ""


def faulty_rows(spec, line, expected):
    """The row of what `lexlook check` writes of a specification that lex refuses by this line; none where what follows is at fault too."""
    number, kind, at = re.fullmatch(r"lex: (?:line (\d+): )?(\w+)(?: at (\d+))?\n", line).groups()
    if any(later not in ("", "%%") for later in spec.splitlines()[int(number or 0) :]) and number:
        return
    shown = (spec.splitlines() + [""])[int(number) - 1] if number else ""
    named = kind == "DuplicateName" or at
    word, at = word_met(kind, shown, at)
    word += (home(spec, shown, int(at)) if named else "") + remark(kind, shown, int(at or 0))
    head = "".join(":" + part for part in (number, str(int(at) + 1) if at else None) if part and part != "0")
    written = f"a.l{head}: error: {kind}\n"
    if kind in expected:
        blank = " " * len(number or "0")
        written += f"    {number} | {shown}\n" if shown else ""
        written += f"    {blank} | {' ' * int(at)}^\n" if at else ""
        written += f"    {blank} = {word}{expected[kind]}\n"
    yield row("check", ("spec", spec), ("written", written), ("told", "status 1\n"))


def examples_of_lexlook(text):
    """The text of manual_looks.txt: what lexlook writes in the chapters on it."""
    small = after(text, "Say that `small.l` is this specification:")
    pictures, comparing, cutting, taken, shared, traced, every, counted, covered, tested, stepped, named = (
        chapter(text, title)
        for title in (
            "Pictures", "Comparing", "Cutting at newlines", "Texts that rules take", "Rules that overlap", "Lines of matches", "Every fault",
            "Counts of matches", "What matches go through", "Inputs for tests", "From a draft to its tests", "Names of rules",
        )
    )
    words = after(comparing, "Say that `words.l` is this:")
    compared = after(comparing, "Then `lexlook same small.l words.l`")
    given = re.search(r"`printf '([^']*)' \| lexlook trace a\.l`", traced)[1]
    sums = re.search(r"`printf '([^']*)' \| lexlook count a\.l`", counted)[1].replace("\\n", "\n")
    tried = re.search(r"`printf '([^']*)' \| lexlook count b\.l`", counted)[1]
    echoed = re.search(r"`echo (.*?) \| lexlook cover a\.l`", covered)[1] + "\n"
    cuts = [line for names, rows in tables(cutting) for line in rows if "As in" in names]
    return file(
        "# The examples of lexlook in docs/MANUAL.md: written by scripts/gate/rows.py.\n",
        row("picture", ("spec", small), ("written", after(pictures, "Then this is written:"))),
        row("same", ("names", "small.l words.l"), ("spec", small), ("again", words), ("written", compared)),
        *(row("lines", ("spec", lines_of(cut["As in"])), ("written", code(cut["What is written"]) + "\n")) for cut in cuts),
        row("words", ("spec", after(taken, "Of this one")), ("written", after(taken, "it writes\n"))),
        row("overlaps", ("spec", after(shared, "Of this specification")), ("written", after(shared, "it writes\n"))),
        row("trace", ("spec", after(traced, "Say that `a.l` is this:")), ("input", given), ("written", after(traced, "Then `printf"))),
        row(
            "trace",
            ("flag", "--offsets"),
            ("spec", after(traced, "Say that `a.l` is this:")),
            ("input", given),
            ("written", after(traced, "With `--offsets` each match")),
        ),
        row("cover", ("spec", after(covered, "Say that `a.l` is this")), ("input", echoed), ("written", after(covered, "Then `echo"))),
        row("suite", ("spec", after(covered, "Say that `a.l` is this")), ("written", after(tested, "Of `a.l` above it writes"))),
        row("counts", ("spec", after(counted, "Say that `a.l` is this")), ("input", sums), ("written", after(counted, "Then `printf"))),
        row("counts", ("spec", after(counted, "Say that `b.l` is this")), ("input", tried), ("written", after(counted, "lexlook count b.l` writes"))),
        row(
            "check",
            ("names", "draft.l b.l"),
            ("spec", after(every, "Say that `draft.l` is")),
            ("written", after(every, "Then `lexlook check draft.l`")),
            ("told", "status 1\n"),
        ),
        *step_rows(stepped),
        row("header", ("spec", after(named, "Of this one")), ("written", "\n".join(indented(named[named.index("it writes\n") :])))),
        *(faulty for spec, line in manual(text)[2] for faulty in faulty_rows(spec, line, hints())),
    )


def step_rows(stepped):
    """The rows of the chapter that takes one specification through several subcommands."""
    mended = ("spec", after(stepped, "So the lines 3 and 4"))
    given = ("input", re.search(r"`printf '([^']*)' \| lexlook count calc\.l`", stepped)[1].replace("\\n", "\n"))
    draft = ("spec", after(stepped, "Say that `calc.l` is this"))
    yield row("check", ("names", "calc.l b.l"), draft, ("written", after(stepped, "**Is it right?**")))
    yield row("overlaps", mended, ("written", after(stepped, "**Which rule wins?**")))
    yield row("counts", mended, given, ("written", after(stepped, "**What does an input use?**")))
    yield row("cover", mended, given, ("written", after(stepped, "**What does it leave out?**")))
    yield row("suite", mended, ("written", after(stepped, "**Which inputs test all of it?**")))


def check(files):
    """Tells which files are not what would be written."""
    stale = [name for name, text in files.items() if not (DATA / name).exists() or (DATA / name).read_text() != text]
    for name in stale:
        print(f"{name} is not what scripts/gate/rows.py writes")
    return 1 if stale else 0


def flex(scan):
    """What flex writes for a row, and its status."""
    spec, given, _, _, flag = scan
    with tempfile.TemporaryDirectory() as folder:
        folder = Path(folder)
        (folder / "spec.l").write_text(spec)
        (folder / "input").write_text(given)
        command = [ROOT / "scripts/flex/flex-output.sh", folder / "spec.l", folder / "input", *([flag] if flag else [])]
        done = subprocess.run(command, stdout=subprocess.PIPE, stderr=subprocess.DEVNULL)
        return done.stdout[:200].decode(), done.returncode


def compare(text):
    scans, others, _ = manual(text)
    for scan in scans:
        # flex has the other reading of intervals by another flag, and warns of it.
        if scan.flag != "-X" and flex(scan) != (scan.written, scan.status):
            print("flex differs:", scan, flex(scan))
    for other in others:
        print("difference:", other[:3], flex(other))
    print(len(scans), "rows compared")


text = (ROOT / "docs/MANUAL.md").read_text()
if sys.argv[1:] == ["--flex"]:
    compare(text)
else:
    files = {
        "examples.txt": examples(),
        "manual.txt": examples_of_manual(text),
        "manual_looks.txt": examples_of_lexlook(text),
    }
    if sys.argv[1:] == ["--check"]:
        sys.exit(check(files))
    for name, rows in files.items():
        (DATA / name).write_text(rows)
