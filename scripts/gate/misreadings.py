#!/usr/bin/env python3
"""Tries misreadings: changes one definition to what a hasty reader might take it for, and asks the prover whether the function whose
contract has the worked examples is still proved.

    scripts/gate/misreadings.py [CRATE[/NAME]..]    those of these crates, or of all; NAME may be the front of some names
        --jobs N        N checks side by side (1)
        --quick         does not ask of one that passes whether another function refuses it
        --anew          tries those too that rest on the same texts as when they were tried last
        --write         after a run of all, writes what came out into docs/PROVED.md
        --check         only asks whether docs/PROVED.md tells of the misreadings that there are
        --itself        two changes of lexre_bytes that change nothing, which must be told as passing, and one that does

A misreading is a file crates/CRATE/misreadings/NAME.edit of the crate that has the definition:

    # WHAT IT GUARDS
    crate: the crate whose examples must refuse it, where that is another one, above
    function: the function whose contract has these examples, or a law
    passes: why no example refuses it, where that is known
    whole: why the crates are read with all their functions, where that is needed
    file: .. old: .. new: ..    as a wrong body has them, one or more; 'each:' in place of 'old:' is changed wherever it stands

Lemmas may have to be changed with the definition that they speak of: so a file may be one of proofs/ too.

The crate of the definition is read as source with the change, and so is each crate between it and that of the examples, and each one
whose library is not built. None of them is proved: the prover is asked for that one function alone, and for the lemmas that its proof
cites. For examples these crates are copied without their other functions (slimming.py), since reading those takes most of the time. A
line of the answer begins with one of these words, and the status is 1 where one is not 'refused', 'law', or 'passes' of one that says
why:

    refused      an example is not proved any more: which one, and its line
    law          the function is no list of examples but a law, and is not proved any more
    lemma        only a lemma that leads from the definition to the examples is refused: no example was tried
    elsewhere    the examples are still proved, and another function of the definition's crate is not
    passes       the examples are still proved, and so is all of the definition's crate
    bad          it cannot be applied or read
"""
import argparse
import hashlib
import importlib.util
import json
import os
import re
import resource
import subprocess
import sys
import tempfile
import threading
from collections import Counter
from concurrent.futures import ThreadPoolExecutor
from pathlib import Path
from shutil import copytree
from typing import NamedTuple

sys.dont_write_bytecode = True
sys.path.insert(0, str(Path(__file__).resolve().parent))
import slimming

ROOT = Path(__file__).resolve().parents[2]
PAGE = ROOT / "docs/PROVED.md"
HEAD = re.compile(r"(?m)^(crate|function|passes|whole): (.*)$")
# What the prover says of functions, and of places.
SAID = re.compile(r"(?m)^fn (\S+): (proved|not proved|no proof|could not tell)")
TOLD = re.compile(r"(?m)^(?:note: )?(?:\./)?(\S+\.(?:antt|rt)):(\d+):\d+: error: (.*)$")
DEPENDS = re.compile(r"^\d+ declarations? that depends? on|^`?[^`]*`? ?depends on")
UNREAD = re.compile(r"is not in scope|has no `[^`]*` that can be named|expected an expression|unexpected|syntax", re.I)
PARAGRAPH = re.compile(r"(?ms)^<!-- misreadings -->\n.*?^<!-- end -->\n")


def beside(name):
    """A script of this folder whose name is no module's."""
    spec = importlib.util.spec_from_file_location(name.replace("-", "_"), Path(__file__).with_name(f"{name}.py"))
    made = importlib.util.module_from_spec(spec)
    sys.modules[spec.name] = made
    spec.loader.exec_module(made)
    return made


class Misreading(NamedTuple):
    """A changed definition: its crate and name, the crate and the function of the examples, why it passes if that is known, why the crates
    are read whole if they are, and its pairs."""

    crate: str
    name: str
    above: str
    function: str
    passes: str
    whole: str
    pairs: tuple

    def __str__(self):
        return f"{self.crate}/{self.name}"


def has_examples(function):
    """Whether a function's contract is a list of worked examples."""
    return function.startswith(("examples_of_", "example_of_"))


class BadMisreading(Exception):
    """Why a misreading cannot be applied."""


def read(path):
    """A misreading by its file."""
    crate, text = path.parents[1].name, path.read_text()
    said = dict(HEAD.findall(text))
    pairs, file, old, often = [], "", None, False
    for line in text.split("\n"):
        if line.startswith("file: "):
            file = line[6:].strip()
        elif line.startswith(("old: ", "each: ")):
            key, _, old = line.partition(": ")
            often = key == "each"
        elif line.startswith("new:") and old is not None:
            pairs.append((file, old, line[4:].removeprefix(" "), *([often] if often else [])))
            old = None
    if "function" not in said or not pairs:
        raise BadMisreading("it has no line 'function:', or no 'old:' and 'new:'")
    return Misreading(crate, path.stem, said.get("crate", crate), said["function"], said.get("passes", ""), said.get("whole", ""), tuple(pairs))


def changed_texts(folder, pairs):
    """The texts of the changed files."""
    texts = {}
    for file, old, new, *often in pairs:
        if file not in texts and not (folder / file).is_file():
            raise BadMisreading(f"there is no file {file}")
        text = texts.get(file) or (folder / file).read_text()
        if text.count(old) != 1 and not (often and old in text):
            raise BadMisreading(f"an 'old:' text stands {text.count(old)} times in {file}")
        texts[file] = text.replace(old, new)
    return texts


class Checked(NamedTuple):
    """What a check said, of each function, its status, and the folder of the crate that was checked."""

    text: str
    functions: dict
    status: int
    where: Path


def is_fresh(made):
    """Whether a crate's library is built, of its text as it stands."""
    kept = Path(made.rlib) / "format"
    newest = max(path.stat().st_mtime for part in ("src", "specs") for path in Path(made.folder, part).rglob("*.*"))
    # (what rt says itself takes long in the upper crates)
    return kept.is_file() and (newest < kept.stat().st_mtime or made.is_built())


class Pair:
    """The crate of some definitions, and that of the examples above it, with a folder for copies of both and for kept work."""

    def __init__(self, rtlib, crates, low, high, room):
        self.rtlib, self.room = rtlib, Path(room)
        self.low, self.high = crates[low], crates[high]
        self.folder = Path(self.low.folder)
        # The crates that are read as source: the definition's, those that are not built, each one above these, and that of the examples.
        self.sources = []
        for it in self.high.below():
            if it is self.low or any(dep in self.sources for dep in it.below()) or not is_fresh(it):
                self.sources.append(it)
        self.sources += [self.high]

    def sum_of(self, it):
        """A checksum of what the answer of a misreading rests on, but for the kit and this script."""
        made = [*self.high.below(), self.high]
        files = sorted(path for it in made for part in ("src", "specs", "proofs") for path in Path(it.folder, part).rglob("*.*"))
        texts = [Path(slimming.__file__).read_bytes(), repr(it).encode(), *(path.read_bytes() for path in files)]
        return hashlib.sha256(b"\0".join(texts)).hexdigest()

    def copies(self, function):
        """The folder with copies of the sources: of what a function needs alone, or whole."""
        name = function.split("::")[-1] if function else "whole"
        room = self.room / ("examples" if has_examples(name) else name)
        if not room.is_dir():
            if function:
                slimming.copy([it.folder for it in self.sources], room, has_examples if has_examples(name) else name.__eq__)
            for it in self.sources if not function else ():
                for part in ("src", "specs", "proofs"):
                    if Path(it.folder, part).is_dir():
                        copytree(Path(it.folder, part), room / it.name / part)
        return room

    def words(self, room, made, only):
        """The words of a check of the crate `made` for this function, or for all where it is None."""
        sources = [it for it in made.below() if it in self.sources]
        of_kit, names, kit = {*made.of_kit, "core"}, {}, self.rtlib.KIT
        for it in [made, *sources]:
            of_kit |= {*it.of_kit}
            names.update({dep.name: dep for dep in it.deps if dep not in sources})
        words = ["--crate-name", made.name, "src/main.rt" if made.is_program else "src/lib.rt"]
        for name in sorted(of_kit):
            words += ["--extern", f"{name}={kit}/rlibs/{name}.rlib"]
        for name, dep in names.items():
            words += ["--extern", f"{name}={dep.rlib}"]
        for it in sources:
            uses = dict.fromkeys(["core", *it.of_kit, *[dep.name for dep in it.deps]])
            words += ["--lib", f"{it.name}:{','.join(uses)}={room}/{it.name}/src/lib.rt"]
        for place in [f"{kit}/rlibs", *[os.path.dirname(it.rlib) for it in made.below() if it not in sources]]:
            words += ["-L", f"dependency={place}"]
        words += ["--antt-project", f"{kit}/rattle/logic/antt-project.json", "--logic-built", f"{kit}/logic_built"]
        return [*words, "--links", f"{made.name}=", "--jobs", "1", *(["--only", only] if only else [])]

    def check(self, pairs, function, whole=False):
        """Checks the function over the changed definition; or, where none is named, all of the definition's crate."""
        texts = changed_texts(self.folder, pairs)
        room, made = self.copies(None if whole else function), self.high if function else self.low
        for file, text in texts.items():
            (room / self.low.name / file).write_text(text)
        words = [*self.rtlib.guarded(), self.rtlib.RATTLE, "check", *self.words(room, made, function), "--incremental", f"{room}/kept-{made.name}"]
        how = {"stdin": subprocess.DEVNULL, "stdout": subprocess.PIPE, "stderr": subprocess.STDOUT, "errors": "replace", "text": True}
        try:
            ran = subprocess.run(words, cwd=room / made.name, check=False, **how)
        finally:
            for file in texts:
                (room / self.low.name / file).write_text((self.folder / file).read_text())
        return Checked(ran.stdout, dict(SAID.findall(ran.stdout)), ran.returncode, room / made.name)


# What is told of a misreading.

def names_of_examples(folder, function):
    """The declarations by which the examples of a function are proved, by file: all in its own files, and what these cite of others."""
    proofs, crate, found = folder / "proofs", folder.name, {}
    for path in sorted((proofs / function.replace("::", "/")).glob("*.antt")):
        text = path.read_text()
        found[str(path.relative_to(proofs.parent))] = None
        for module, short in re.findall(rf"(?m)^use Rattle\.{crate}\.proofs\.([\w.+]+) as (\w+)$", text):
            found[f"proofs/{module.replace('.', '/')}.antt"] = set(re.findall(rf"\b{short}\.(\w+)", text))
        for module, names in re.findall(rf"(?m)^use Rattle\.{crate}\.proofs\.([\w.+]+)\.{{(.*)}}$", text):
            found[f"proofs/{module.replace('.', '/')}.antt"] = set(names.split(", "))
    return found


def is_of_one(path, name):
    """Whether a lemma of a file with examples is used there by one of them alone."""
    parts = re.split(r"(?m)^(?=(?:pub )?[^\s:-][^:\n]* : )", path.read_text())
    word = re.compile(rf"(?<![\w'-]){re.escape(name)}(?![\w'-])")
    return sum(bool(word.search(part)) for part in parts if not part.startswith((f"{name} ", f"pub {name} "))) == 1


def line_at(path, number):
    """The text at a place, shortened."""
    lines = path.read_text().split("\n") if path.is_file() else []
    text = lines[number - 1].strip() if number <= len(lines) else ""
    return text if len(text) <= 100 else text[:97] + "..."


def name_in(text):
    """The name of the declaration that an error is of."""
    named = re.match(r"`([^`]+)`: ", text)
    return named[1] if named else ""


def is_own(folder, homes, error):
    """Whether an error is of an example, and not of a lemma that several rest on."""
    file, _, text = error
    if file.startswith("src/") or homes.get(file, ()) is None:
        return True
    return file in homes and (name_in(text) in homes[file] or is_of_one(folder / file, name_in(text)))


def judge(checked, it):
    """What a check says of a misreading: a word and why, or None where the function is proved."""
    said = next((word for name, word in checked.functions.items() if name == f"{it.above}::{it.function}"), None)
    if said == "proved" and checked.status == 0:
        return None
    errors = [(file, int(line), text) for file, line, text in TOLD.findall(checked.text) if not DEPENDS.search(text)]
    if said is None or said == "could not tell" or not errors:
        lost = re.search(r"error|^rattle: ", checked.text, re.M)
        return "bad", (checked.text[lost.start() :] if lost else checked.text[-300:]).strip().split("\n")[0][:200]
    if "specs/" in errors[0][0]:
        return "bad", f"{errors[0][0]}:{errors[0][1]}: {errors[0][2][:150]}"
    if not has_examples(it.function.split("::")[-1]):
        return "law", f"{it.function}: {errors[0][0]}: {errors[0][2][:80]}"
    homes = names_of_examples(checked.where, it.function)
    of_examples = [error for error in errors if is_own(checked.where, homes, error)]
    if of_examples:
        file, line, text = of_examples[0]
        more = f" (and {len(of_examples) - 1} more)" if len(of_examples) > 1 else ""
        return "refused", f"{it.function}: {name_in(text)}: {line_at(checked.where / file, line)}{more}"
    return "lemma", f"{errors[0][0]}: {errors[0][2][:100]}"


def tried(pair, it, quick):
    """What a misreading comes to."""
    try:
        told = judge(pair.check(it.pairs, it.function, bool(it.whole)), it)
        if told or quick:
            return told or ("passes", it.passes or "the examples are proved")
        whole = pair.check(it.pairs, None)
    except BadMisreading as why:
        return "bad", str(why)
    lost = [name for name, word in whole.functions.items() if word != "proved"]
    if whole.status == 0 and not lost:
        return "passes", it.passes or "no example and no function refuses it"
    return "elsewhere", f"{it.passes + ': ' if it.passes else ''}{len(lost)} functions of {it.crate}, first {', '.join(lost[:2])}"


class Kept:
    """What misreadings of a crate came to when they were tried last, in its folder out/."""

    def __init__(self, folder):
        self.path = Path(folder, "out/misreadings.json")
        self.told = json.loads(self.path.read_text()) if self.path.is_file() else {}

    def get(self, it, sum_of):
        known = self.told.get(it.name)
        return known[1:] if known and known[0] == sum_of else None

    def put(self, it, sum_of, told):
        self.told[it.name] = [sum_of, *told]
        self.path.parent.mkdir(exist_ok=True)
        self.path.write_text(json.dumps(self.told, indent=0, ensure_ascii=False))


class Report:
    """What is told, a line for each misreading."""

    def __init__(self):
        self.told, self.lock = {}, threading.Lock()

    def tell(self, it, word, why):
        with self.lock:
            self.told[it] = word
            print(f"{word:10} {it}: {why}", flush=True)

    def is_good(self):
        return all(word in ("refused", "law") or word in ("passes", "elsewhere") and it.passes for it, word in self.told.items())


def all_misreadings(wanted=()):
    """The misreadings that are asked for, by their files."""
    found = []
    for path in sorted(ROOT.glob("crates/*/misreadings/*.edit")):
        name = f"{path.parents[1].name}/{path.stem}"
        if not wanted or any(name == it or name.startswith(it if "/" in it else f"{it}/") for it in wanted):
            found.append(read(path))
    return found


def try_all(chosen, rtlib, crates, given):
    """Tries some misreadings, those of a pair of crates one after another."""
    report, groups = Report(), {}
    for it in chosen:
        groups.setdefault((it.crate, it.above), []).append(it)

    def work(low, high, group):
        with tempfile.TemporaryDirectory(prefix="misreadings-") as room:
            pair = Pair(rtlib, crates, low, high, room)
            for it in group:
                sum_of, kept = pair.sum_of(it), Kept(pair.folder)
                told = None if given.anew else kept.get(it, sum_of)
                if not told:
                    told = tried(pair, it, given.quick)
                    if told[0] != "passes" or not given.quick:
                        kept.put(it, sum_of, told)
                report.tell(it, *told)

    with ThreadPoolExecutor(given.jobs) as pool:
        for done in [pool.submit(work, *names, group) for names, group in groups.items()]:
            done.result()
    return report


# What the page tells.

def sentence(count, many):
    return f"{count} {many}" if count != 1 else f"1 {many.removesuffix('s')}"


def paragraph(told):
    """The lines of the page, by what each misreading came to."""
    count = Counter(told.values())
    lines = [
        f"Of {len(told)} misreadings the worked examples refuse {count['refused']}, each by the function that it names. Laws refuse {count['law']} more.",
    ]
    rest = sorted((str(it), word, it.passes) for it, word in told.items() if word not in ("refused", "law"))
    if rest:
        lines[0] += f" No example refuses {len(rest)}:"
        lines += ["", "| Misreading | Why |", "|---|---|", *(f"| `{name}` | {why or word} |" for name, word, why in rest)]
    return "<!-- misreadings -->\n" + "\n".join(lines) + "\n<!-- end -->\n"


def write_page(told):
    """Puts the paragraph into the page."""
    text = PAGE.read_text()
    if not PARAGRAPH.search(text):
        sys.exit("misreadings: docs/PROVED.md has no place for the count: two lines '<!-- misreadings -->' and '<!-- end -->'")
    PAGE.write_text(PARAGRAPH.sub(lambda _: paragraph(told), text))


def check_page():
    """Whether the page tells of as many misreadings as there are, and of those that are said to pass."""
    own, all_of = PARAGRAPH.search(PAGE.read_text()), all_misreadings()
    told = own and re.search(r"Of (\d+) misreadings", own[0])
    named = set(re.findall(r"(?m)^\| `([^`]+)`", own[0])) if own else set()
    if not told or int(told[1]) != len(all_of) or named != {str(it) for it in all_of if it.passes}:
        sys.exit("docs/PROVED.md tells of other misreadings than there are: `scripts/gate/misreadings.py --write` tries them and writes it")


# What the script is tried on: what it is, what it must be told as, and its text.
ITSELF = (
    ("changes nothing", "passes", "negated && s == 0", "s == 0 && negated"),
    ("says the same twice", "passes", "if nat_le lo hi then Some", "if nat_le lo hi && nat_le lo hi then Some"),
    ("takes [c-a]", "refused", "if nat_le lo hi then Some", "if nat_le lo hi || nat_le hi lo then Some"),
)


def itself(rtlib, crates):
    """Tries the script on changes of which it is known what they come to."""
    failed = 0
    with tempfile.TemporaryDirectory(prefix="misreadings-") as room:
        pair = Pair(rtlib, crates, "lexre_bytes", "lexre", room)
        for name, want, old, new in ITSELF:
            it = Misreading("lexre_bytes", name, "lexre", "laws::examples_of_patterns", "", "", (("specs/Lexical.antt", old, new),))
            word, why = judge(pair.check(it.pairs, it.function), it) or ("passes", "the examples are proved")
            failed += word != want
            print(f"{word:10} {name}: {why}{'' if word == want else f'; wanted: {want}'}", flush=True)
    return failed


def words():
    """The words of the command line."""
    parser = argparse.ArgumentParser(usage=__doc__, add_help=False)
    parser.add_argument("names", nargs="*")
    parser.add_argument("--jobs", type=int, default=1)
    for flag in ("--quick", "--anew", "--write", "--check", "--itself"):
        parser.add_argument(flag, action="store_true")
    return parser.parse_args()


def main():
    given = words()
    os.chdir(ROOT)
    if given.check:
        return check_page()
    rtlib = beside("wrong-bodies").kit()
    # (its first call sets the handler of a signal, which only this thread may)
    rtlib.guarded()
    crates = {it.name: it for it in rtlib.crates_below(str(ROOT))}
    for it in crates.values():
        it.out = open(os.devnull, "w")
    if given.itself:
        return 1 if itself(rtlib, crates) else 0
    report = try_all(all_misreadings(given.names), rtlib, crates, given)
    used = resource.getrusage(resource.RUSAGE_CHILDREN)
    counted = ", ".join(f"{number} {word}" for word, number in Counter(report.told.values()).most_common())
    print(f"{sentence(len(report.told), 'misreadings')}: {counted or 'none'}; {(used.ru_utime + used.ru_stime) / 60:.0f} minutes of the processor")
    if given.write and not given.names:
        write_page(report.told)
    return 0 if report.is_good() else 1


if __name__ == "__main__":
    sys.exit(main())
