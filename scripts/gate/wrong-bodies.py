#!/usr/bin/env python3
"""Tries wrong bodies in batches: puts those of many functions into one copy of a crate, checks these functions, and tells for each
whether the prover refuses it in its own function, and by which clause.

    scripts/gate/wrong-bodies.py [CRATE..]        those of these crates, or of all
        --gate            of known-errors/ alone, as the gate tries them, with what each check took
        --changed REV     of the crates whose src/ or specs/ differ from REV, and of those above whose inherited contracts do
        --jobs N          N checks side by side (as many as processors and free memory allow)
        --write           writes by what each is refused: as the second line of its file, but of must-fail/ in refused-by.md there
        --itself          two bodies of lex_machine that are right, which must be told as proved, and one that is wrong

The bodies stand in three folders of a crate, each a file with lines 'file:', 'old:' and 'new:' as `rt help` has them:

    must-fail/*.edit      errors that scanners are known for, which the kit tries in the gate, one by one
    known-errors/*.edit   such errors too, which this script tries in the gate
    wrong-bodies/*.edit   the others

Where the text stands in no function, a line 'function:' names the one whose proof must refuse it. Changes of a definition are
misreadings, which `misreadings.py` tries. They stand here only where that script cannot read their crate.

A line of the answer begins with one of these words, and the status is 1 where one is not 'refused':

    refused      in its own function; the clause, or what else the prover says of that function
    bound        in its own function, but only since a number may not fit, an index may lie outside, or a place may be reached
    name         in its own function, but only since a proof file cites what the edit took away
    elsewhere    only another function is refused: nothing shows that the contract of its own refuses it
    proves       the whole crate is still proved
    bad          it cannot be applied or read, so no contract was tried

Libraries below a crate have to be built: by `rt ci` here, or by `rt check`, which this calls where one is missing. Where `rt check` has
kept its work in crates/NAME/out/incremental, checks begin with a copy of that, else from nothing.

With --gate a line is written for each check too: of how many bodies, and the seconds of the processor and the memory that it took."""
import argparse
import importlib.util
import os
import re
import shutil
import signal
import subprocess
import sys
import tempfile
import threading
from collections import Counter
from concurrent.futures import ThreadPoolExecutor
from pathlib import Path
from typing import NamedTuple

sys.dont_write_bytecode = True
ROOT = Path(__file__).resolve().parents[2]
OF_KIT, OF_GATE = "must-fail", "known-errors"
FOLDERS = (OF_KIT, OF_GATE, "wrong-bodies")
PARTS = ("src", "specs", "proofs")
FUNCTION = re.compile(r'^\s*(?:pub(?:\([^)]*\))?\s+)?(?:const\s+)?(?:unsafe\s+)?(?:extern\s+"C"\s+)?(?:ghost\s+)?fn\s+(\w+)')
IMPL = re.compile(r"^\s*(?:unsafe\s+)?impl\b")
CYCLE = re.compile(r"^\s*#\[cycle\((\w+)\)\]")
# What the prover says of functions, of itself and of places.
SAID = re.compile(r"^fn (\S+): (proved|not proved|no proof)(.*)$", re.M)
INHERITED = re.compile(r"it calls \S+, (?:which|whose)|its? callee")
LOST = re.compile(r"error\[[\w-]+\]|^rattle: ", re.M)
GONE = re.compile(r"has no `[^`]*` that can be named from here|is not in scope|has no field")
TOLD = re.compile(r"^(?:note: )?(?:\./)?((?:src|specs|proofs)/[^:\s]+):(\d+):\d+: (?:error: |it is not proved that |`search` found no proof )(.*)$", re.M)
GOAL = re.compile(r"`([\w+-]+)`")
# How the line of a wrong body begins that says by what it is refused.
REFUSED_BY = "# refused by:"
# The file of must-fail/ that says it of each of these.
BESIDE = "refused-by.md"
# The memory that a check is reckoned to take, in bytes.
MEMORY = 3 << 30
# What the words of the prover say that a goal is of, the most telling first.
KINDS = (
    ("returned", re.compile(r"what the function ensures")),
    ("held", re.compile(r"the `invariant`|the struct's|the `&mut`")),
    ("loop", re.compile(r"the invariant (?:of the loop|that rattle tried)")),
    ("end", re.compile(r"the loop ends")),
    ("call", re.compile(r".*requires holds at this call")),
    ("answer", re.compile(r"`")),
    ("other", re.compile(r"")),
    ("bound", re.compile(r"the (?:index|array|part|value|float|sum|subtraction|negation|product|divisor|amount|bytes)\b|this is no NaN|control never")),
)


# Where the kit's inside is used: how it calls the prover for a crate.

def kit():
    """The kit's own module on crates. Kits 13b and 13f have what is used of it: crates_below, guarded, words, below,
    is_built, RATTLE."""
    program = shutil.which("rt")
    try:
        path = Path(program or "rt").resolve().parent / "rtlib.py"
        spec = importlib.util.spec_from_file_location("rtlib", path)
        made = importlib.util.module_from_spec(spec)
        sys.modules["rtlib"] = made
        spec.loader.exec_module(made)
        assert all(hasattr(made, name) for name in ("crates_below", "guarded", "RATTLE"))
        assert all(hasattr(made.Crate, name) for name in ("words", "below", "is_built"))
        return made
    except (OSError, AssertionError, AttributeError, SyntaxError) as error:
        sys.exit(f"wrong-bodies: this kit calls its prover otherwise than kits 13b and 13f ({str(error) or 'a name is gone'}): see kit() in {__file__}")


# How many checks run side by side.

def free_memory():
    """The free memory in bytes, within the limit of a control group too."""
    free = 1024 * int(re.search(r"MemAvailable:\s+(\d+)", Path("/proc/meminfo").read_text())[1])
    try:
        limit = int(Path("/sys/fs/cgroup/memory.max").read_text())
        held = re.search(r"(?m)^anon (\d+)", Path("/sys/fs/cgroup/memory.stat").read_text())
        return min(free, limit - int(held[1]))
    except (OSError, TypeError, ValueError):
        # (there is no such group, or no limit)
        return free


def side_by_side():
    """How many checks there is room for: as many as there are processors, and as free memory holds, but one in any case."""
    return max(1, min(len(os.sched_getaffinity(0)), free_memory() // MEMORY))


class Edit(NamedTuple):
    """A wrong body: its crate, folder and name, its pairs of old and new texts by file, the functions that it changes, and the folders
    in proofs/ of these, which those of a cycle of calls share."""

    crate: str
    folder: str
    name: str
    pairs: tuple
    functions: tuple
    homes: tuple

    def __str__(self):
        return f"{self.crate}/{self.folder}/{self.name}"


class BadEdit(Exception):
    """Why an edit cannot be applied."""


# The functions that an edit changes, by the names that the prover has for them.

def owner(line):
    """The words of an impl's type, then of its trait, but for its own parameters, and whether there is a trait."""
    head = re.sub(r"^\s*(?:unsafe\s+)?impl\s*|\s*\{?\s*$|\'\w+", "", line)
    own = re.match(r"<((?:[^<>]|<[^<>]*>)*)>", head)
    hidden = set(re.findall(r"(?:^|,)\s*(\w+)", own[1])) if own else set()
    head = re.sub(r"(\w)(\w*)::", lambda it: it[1].upper() + it[2], head[own.end() :] if own else head)
    behind, _, kind = head.rpartition(" for ")
    return "".join(word for word in re.findall(r"\w+", f"{kind} {behind}") if word not in hidden | {"_"}), bool(behind)


def holder(lines, at):
    """The impl, whether it is a trait's, the function whose text holds line AT, and its cycle of calls, if one does."""
    found, depth, cycle = None, None, None
    for number in range(at, -1, -1):
        line = lines[number]
        indent = len(line) - len(line.lstrip())
        named = FUNCTION.match(line)
        if found is None and line == "}":
            return None
        if found is None and named:
            found, depth = named[1], indent
            above = CYCLE.match(lines[number - 1])
            cycle = above and f"+{above[1]}"
        elif found is not None and indent < depth and IMPL.match(line):
            return (*owner(line), found, cycle)
        elif found is not None and indent < depth and (trait := re.match(r"\s*(?:pub(?:\([^)]*\))? )?trait (\w+)", line)):
            return trait[1], True, found, cycle
        if found is not None and depth == 0:
            return "", False, found, cycle
    return None


def module(file):
    """The module of a file of src/."""
    name = re.sub(r"^src/|(/mod)?\.rt$", "", file)
    return [] if name in ("lib", "main") else name.split("/")


def home(folder, kind):
    """The module that declares a type."""
    for path in sorted((folder / "src").rglob("*.rt")):
        if re.search(rf"^\s*(?:pub(?:\([^)]*\))?\s+)?(?:struct|enum)\s+{kind}\b", path.read_text(), re.M):
            return module(str(path.relative_to(folder)))
    return []


def function_at(folder, file, lines, at):
    """The name that the prover has for the function whose text holds line AT, and its folder in proofs/."""
    # (a place may be that of the comment or attribute above a function)
    while at + 1 < len(lines) and lines[at].lstrip().startswith(("///", "#[")):
        at += 1
    held = holder(lines, at)
    if not held:
        return None
    kind, is_trait, function, cycle = held
    above = [*(home(folder, kind) if kind and not is_trait else module(file)), *([kind] if kind else [])]
    return "::".join([*above, function]), "/".join([*above, cycle or function])


def read(folder, kind, path):
    """An edit, with the functions that it changes."""
    file, old, pairs, functions = "", None, [], {}
    texts = {}
    for line in path.read_text().split("\n"):
        if line.startswith("file: "):
            file = line[6:].strip()
        elif line.startswith("old: "):
            old = line[5:]
        elif line.startswith("function: "):
            functions[line[10:].strip()] = line[10:].strip().replace("::", "/")
        elif line.startswith("new:") and old is not None:
            new = line[4:].removeprefix(" ")
            try:
                text = texts.get(file) or (folder / file).read_text()
            except OSError:
                raise BadEdit(f"there is no file {file}") from None
            if text.count(old) != 1:
                raise BadEdit(f"an 'old:' text stands {text.count(old)} times in {file}")
            at = text[: text.index(old)].count("\n")
            if file.startswith("src/"):
                functions.update([it for it in [function_at(folder, file, text.split("\n"), at)] if it])
            texts[file] = text.replace(old, new)
            pairs.append((file, old, new))
            old = None
    if not pairs:
        raise BadEdit("it has no 'old:' and 'new:'")
    if not functions:
        raise BadEdit("no function holds its text, and it has no line 'function:'")
    return Edit(folder.name, kind, path.stem, tuple(pairs), tuple(functions), tuple(functions.values()))


def edits_of(folder, kinds):
    """The edits of a crate in folders of these kinds, and what is wrong with those that cannot be applied."""
    good, bad = [], []
    for kind in kinds:
        for path in sorted((folder / kind).glob("*.edit")):
            try:
                good.append(read(folder, kind, path))
            except BadEdit as why:
                bad.append((f"{folder.name}/{kind}/{path.stem}", str(why)))
    return good, bad


# A check of a copy.

def linked(source, to):
    """Copies kept work: what was proved by links, since a check replaces such a file and changes none."""

    def copy(one, other):
        try:
            return os.link(one, other) if one.endswith(".oantt") else shutil.copy2(one, other)
        except OSError:
            return shutil.copy2(one, other)

    shutil.copytree(source, to, symlinks=True, copy_function=copy)


def run_in(room, words):
    """Runs a command in a folder, and returns what it wrote, its status, and what it used."""
    how = {"stdin": subprocess.DEVNULL, "stdout": subprocess.PIPE, "stderr": subprocess.STDOUT, "errors": "replace", "text": True}
    with subprocess.Popen(words, cwd=room, **how) as ran:
        text = ran.stdout.read()
        _, status, used = os.wait4(ran.pid, 0)
        ran.returncode = os.waitstatus_to_exitcode(status)
    return text, ran.returncode, used


class Checked(NamedTuple):
    """What a check said: all of it, of each function, and its status."""

    text: str
    functions: dict
    status: int


class Crate:
    """A crate whose edits are tried. Of each check is told how many edits it had, and what it used."""

    def __init__(self, rtlib, made, tell_check=lambda *_: None):
        self.rtlib, self.made, self.folder, self.tell_check = rtlib, made, Path(made.folder), tell_check

    def build_below(self):
        """Builds the libraries below, where one is missing or older than its text, or was built over others than those that are there."""
        below = self.made.below()
        # (those of `rt check` have a stamp, and those of `rt ci` fit one another alone)
        are_mixed = len({Path(it.rlib).with_name("stamp").is_file() for it in below}) > 1

        def is_fresh(it):
            made = Path(it.rlib) / "format"
            newest = max((path.stat().st_mtime for part in PARTS[:2] for path in (Path(it.folder) / part).rglob("*.*")), default=0)
            # (what rt says itself takes long in the upper crates)
            return made.is_file() and newest < made.stat().st_mtime or it.is_built()

        if are_mixed or not all(is_fresh(it) for it in below):
            print(f"libraries below {self.made.name} are missing, old or of other runs: `rt check` builds them", flush=True)
            subprocess.run(["rt", "check", "--only", ""], cwd=self.folder, stdout=subprocess.DEVNULL, check=False)

    def check(self, edits, functions):
        """Checks a copy with these edits: these functions and what they call, or, where none is named, the whole crate."""
        texts = {}
        for edit in edits:
            for file, old, new in edit.pairs:
                text = texts.get(file) or (self.folder / file).read_text()
                if text.count(old) != 1:
                    raise BadEdit(f"an 'old:' text stands {text.count(old)} times in {file}")
                texts[file] = text.replace(old, new)
        with tempfile.TemporaryDirectory(prefix="wrong-bodies-") as room:
            for part in PARTS:
                if (self.folder / part).is_dir():
                    shutil.copytree(self.folder / part, f"{room}/{part}")
            for file, text in texts.items():
                Path(room, file).write_text(text)
            checked, used = self.check_in(room, [word for name in functions for word in ("--only", name)])
        self.tell_check(self.made.name, len(edits), used)
        return checked

    def check_in(self, room, only):
        """Checks what stands in a folder, over a copy of the crate's kept work where there is some."""
        words = [*self.rtlib.guarded(), self.rtlib.RATTLE, "check", *self.made.words(["--jobs", "1", *only], keeps=False)]
        kept = self.folder / "out/incremental"
        if kept.is_dir():
            linked(kept, f"{room}/kept")
            words += ["--incremental", f"{room}/kept"]
        text, status, used = run_in(room, words)
        if status == -signal.SIGKILL:
            # (most likely for memory, as `rt ci` takes it: once more)
            text, status, used = run_in(room, words)
        return Checked(text, {it[1]: (it[2], it[3]) for it in SAID.finditer(text)}, status), used


# What is told of an edit.

def is_of(name, function, crate):
    """Whether the prover's name is that of this function, or of a closure in it."""
    path = name.removeprefix(f"{crate}::")
    inside = "::".join([*function.split("::")[:-1], "fn", function.split("::")[-1]])
    owned = re.sub(r"(\w+)::(\w+)$", r"fn::\1::\2", function)
    return path == function or path.startswith((f"{inside}::", f"{owned}::"))


def told_of(checked, edit):
    """What the prover says of the edit's functions: what is not proved, or what is wrong in a proof file."""
    folder = ROOT / "crates" / edit.crate
    proofs = tuple(f"proofs/{home}/" for home in edit.homes)
    sources = {}
    for file, line, text in TOLD.findall(checked.text):
        # (an edit is one line for one line, so that lines keep their numbers)
        if file.startswith("src/") and file not in sources:
            sources[file] = (folder / file).read_text().split("\n")
        held = file in sources and function_at(folder, file, sources[file], min(int(line), len(sources[file])) - 1)
        if file.startswith(proofs) or held and held[0] in edit.functions:
            yield text


def named_kind(goal):
    """What a goal is of, by its name."""
    if goal.startswith("returns"):
        return "returned"
    if goal.startswith("invariant_of"):
        return "held"
    return "loop" if "-init" in goal or "-preserved" in goal else "call"


def kind_of(text):
    """What a goal is of, by the prover's words for it."""
    if text.startswith("(`"):
        return named_kind(GOAL.search(text)[1])
    fitting = [kind for kind, words in KINDS if kind not in ("other", "answer") and words.match(text)]
    if not fitting and (GOAL.search(text) or GONE.search(text)):
        return "answer"
    return fitting[0] if fitting else "other"


def reason(checked, edit):
    """The kind of the most telling goal of the edit's functions that the prover refuses, and the goal: a clause, if one is refused."""
    # (first what is not proved, then what a proof file cites in vain)
    told = sorted(told_of(checked, edit), key=lambda it: bool(GONE.search(it)))
    goals = [(kind_of(text), goal[1], text) for text in told for goal in [GOAL.search(text)] if goal]
    for _, goal, _ in goals:
        if "-clause-" in goal:
            return "clause", f"clause {goal.rpartition('-clause-')[2]}"
    if not goals:
        return "other", told[0][:90] if told else "no place told"
    order = [kind for kind, _ in KINDS]
    kind, goal, text = min(goals, key=lambda it: order.index(it[0]))
    return kind, goal if kind == "returned" else f"{goal} ({text.split(' (`')[0][:150]})"


def is_gone(checked, edit):
    """Whether all that the prover says of the edit's functions is that a proof file cites what is no more."""
    told = list(told_of(checked, edit))
    return bool(told) and all(GONE.search(text) for text in told)


def judge(checked, edit, others):
    """What a check of a batch says of one of its edits: a word and why, or None where it must be tried again, and without which."""
    own = {name: said for name, said in checked.functions.items() if any(is_of(name, it, edit.crate) for it in edit.functions)}
    refused = [name for name, (word, why) in own.items() if word == "not proved" or word == "no proof" and not INHERITED.search(why)]
    if refused:
        kind, why = reason(checked, edit)
        word = "name" if is_gone(checked, edit) else "bound" if kind == "bound" else "refused"
        return word, f"{refused[0].removeprefix(edit.crate + '::')}: {kind}: {why}"
    if not own or any(word != "proved" for word, _ in own.values()) or len(others) > 1:
        return None
    return "proves", "its functions are proved"


def whole(crate, edit):
    """What a check of the whole crate says of an edit whose own functions are proved."""
    checked = crate.check([edit], [])
    if checked.status == 0:
        return "proves", "the whole crate is proved"
    judged = judge(checked, edit, [edit])
    if judged and judged[0] != "proves":
        return judged
    refused = [name for name, (word, why) in checked.functions.items() if word != "proved" and not INHERITED.search(why)]
    if refused:
        return "elsewhere", f"by {', '.join(it.removeprefix(edit.crate + '::') for it in refused[:3])}"
    lost = LOST.search(checked.text)
    return "bad", (checked.text[lost.start() :] if lost else checked.text[-300:]).strip().split("\n")[0][:200]


def batch_of(pending):
    """The edits of a next batch: of each function one."""
    taken, batch = set(), []
    for edit in pending:
        if not taken & set(edit.homes):
            taken |= set(edit.homes)
            batch.append(edit)
    return batch


def tries(crate, batch):
    """What each edit of a batch comes to. Those that the batch hides are tried in smaller ones."""
    try:
        checked = crate.check(batch, [name for edit in batch for name in edit.functions])
    except BadEdit:
        checked = Checked("", {}, 2)
    if not checked.functions and len(batch) > 1:
        # (one of them cannot be read, or two of them not together)
        half = len(batch) // 2
        return {**tries(crate, batch[:half]), **tries(crate, batch[half:])}
    told = {edit: judge(checked, edit, batch) for edit in batch}
    hidden = [edit for edit in batch if not told[edit]]
    if len(batch) == 1:
        edit = batch[0]
        return {edit: told[edit] if told[edit] and told[edit][0] != "proves" else whole(crate, edit)}
    if len(hidden) == len(batch):
        half = len(batch) // 2
        return {**tries(crate, batch[:half]), **tries(crate, batch[half:])}
    return {**told, **(tries(crate, hidden) if hidden else {})}


# Which crates.

def statements(text):
    """The lines of a source file that stand outside the functions' bodies."""
    kept, end = [], None
    for line in text.split("\n"):
        if end is None:
            kept.append(line)
            head = re.match(r"(\s*)(?:.*\bfn \w.*)?\{$", line)
            if head and ("fn " in line or line.strip() == "{"):
                end = f"{head[1]}}}"
        elif line == end:
            end = None
    return kept


def changed(crates, revision):
    """The crates whose src/ or specs/ differ from a revision, and those above one whose contracts do."""
    listed = subprocess.run(["git", "diff", "--name-only", revision, "--", "crates"], cwd=ROOT, stdout=subprocess.PIPE, text=True, check=True).stdout.split()
    here, above = set(), set()
    for path in listed:
        _, name, part, *_ = [*path.split("/"), "", ""]
        if part not in ("src", "specs", *FOLDERS):
            continue
        here.add(name)
        old = subprocess.run(["git", "show", f"{revision}:{path}"], cwd=ROOT, stdout=subprocess.PIPE, stderr=subprocess.DEVNULL, text=True, check=False).stdout
        new = (ROOT / path).read_text() if (ROOT / path).is_file() else ""
        if part == "specs" or part == "src" and statements(old) != statements(new):
            above.add(name)
    return [it for it in crates if it.name in here or any(dep.name in above for dep in it.below())]


# What the script is tried on: what it is, what it must be told as, its function, and its text.
ITSELF = (
    ("a body that changes nothing", "proves", "action::Statement::is_yymore",
        (("src/action.rt", "        matches!(self, Statement::More)", "        matches!(&*self, Statement::More)"),)),
    ("a right body that is slower", "proves", "glance::are_simple",
        (("src/glance.rt", "        if !is_simple(statement) {", "        if !(is_simple(statement) && is_simple(statement)) {"),)),
    ("a wrong body", "refused", "action::Statement::is_yyless",
        (("src/action.rt", "        matches!(self, Statement::Less(_))", "        matches!(self, Statement::Less(_) | Statement::More)"),)),
)


def itself(rtlib, crates):
    """Tries the script on bodies of which it is known what they come to."""
    made = next(it for it in crates if it.name == "lex_machine")
    crate, failed = Crate(rtlib, made), 0
    crate.build_below()
    edits = [Edit("lex_machine", "itself", name, pairs, (function,), (function.replace("::", "/"),)) for name, _, function, pairs in ITSELF]
    told = tries(crate, edits)
    for edit, (name, want, _, _) in zip(edits, ITSELF):
        word, why = told[edit]
        failed += word != want
        print(f"{word:10}{name}: {why}{'' if word == want else f'; wanted: {want}'}")
    return failed


WORDS = {
    "returned": "what it returns",
    "held": "what its type keeps to",
    "loop": "the invariant of its loop",
    "end": "a loop that must end",
    "call": "what a call asks for",
    "other": "no place is told",
}


def refusal(why):
    """By what a wrong body is refused, in words."""
    _, kind, goal = why.split(": ", 2)
    if kind == "clause":
        return f"clause `{goal.removeprefix('clause ')}`"
    if kind == "answer":
        return f"{WORDS[named_kind(goal)]}; its written proof fits no more"
    return WORDS.get(kind, kind)


def record(edit, why):
    """Writes into a wrong body by what it is refused. For those that the kit tries it stands in a file beside them, so that
    what the kit tries stays as it is."""
    folder = ROOT / "crates" / edit.crate / edit.folder
    if edit.folder == OF_KIT:
        beside = folder / BESIDE
        lines = {line.split("`")[1]: line for line in beside.read_text().splitlines()} if beside.exists() else {}
        lines[edit.name] = f"`{edit.name}`: {refusal(why)}"
        beside.write_text("".join(f"{lines[name]}\n" for name in sorted(lines) if (folder / f"{name}.edit").exists()))
        return
    path = folder / f"{edit.name}.edit"
    head, *rest = path.read_text().split("\n")
    rest = [line for line in rest if not line.startswith(REFUSED_BY)]
    path.write_text("\n".join([head, f"{REFUSED_BY} {refusal(why)}", *rest]))


class Report:
    """What is told, a line for each wrong body, and how many of each kind. Where checks are told too, a line for each of these."""

    def __init__(self, tells_checks):
        self.count, self.kinds, self.lock = Counter(), Counter(), threading.Lock()
        self.tells_checks, self.seconds = tells_checks, 0

    def tell(self, name, word, why):
        with self.lock:
            self.count[word] += 1
            self.kinds[why.split(": ")[1] if word == "refused" else word] += 1
            print(f"{word:10} {name}: {why}", flush=True)

    def tell_check(self, crate, number, used):
        seconds = used.ru_utime + used.ru_stime
        with self.lock:
            self.seconds += seconds
            if self.tells_checks:
                print(f"{'checked':10} {crate}: {number} in {seconds:.0f} s of the processor and {used.ru_maxrss / 2**20:.1f} GB", flush=True)

    def total(self, crates, batches):
        told, kinds = (", ".join(f"{number} {word}" for word, number in of.most_common()) for of in (self.count, self.kinds))
        head = f"{sum(self.count.values())} wrong bodies of {crates} crates in {batches} batches, {self.seconds:.0f} s of the processor"
        return f"{head}: {told or 'none'}\nby what is refused first: {kinds or 'none'}"

    def passed(self):
        """The last line of the gate, as the kit has it."""
        return f"{self.count['refused']} passed, {sum(self.count.values()) - self.count['refused']} failed"


def batches_of(chosen, kinds, rtlib, report):
    """The batches of some crates, the largest first, with the libraries built that their checks need."""
    found = []
    for made in chosen:
        edits, bad = edits_of(Path(made.folder), kinds)
        for name, why in bad:
            report.tell(name, "bad", why)
        crate = Crate(rtlib, made, report.tell_check)
        if edits:
            crate.build_below()
        while edits:
            batch = batch_of(edits)
            edits = [it for it in edits if it not in batch]
            found.append((crate, batch))
    return sorted(found, key=lambda it: -len(it[1]))


def try_all(chosen, rtlib, given):
    """Tries the wrong bodies of some crates, writes by what each is refused where it is asked to, and returns whether each is."""
    report, lock = Report(given.gate), threading.Lock()
    batches = batches_of(chosen, [OF_GATE] if given.gate else FOLDERS, rtlib, report)

    def work(crate, batch):
        for edit, told in tries(crate, batch).items():
            report.tell(edit, *told)
            if given.write and told[0] == "refused":
                with lock:
                    record(edit, told[1])

    with ThreadPoolExecutor(given.jobs or side_by_side()) as pool:
        for done in [pool.submit(work, *it) for it in batches]:
            done.result()
    print(report.total(len({crate.folder for crate, _ in batches}), len(batches)))
    if given.gate and not report.count:
        sys.exit(f"wrong-bodies: no {OF_GATE}/ of these crates has a wrong body to try")
    if given.gate:
        print(report.passed())
    return set(report.count) <= {"refused"}


def words():
    """The words of the command line."""
    parser = argparse.ArgumentParser(usage=__doc__, add_help=False)
    parser.add_argument("crates", nargs="*")
    parser.add_argument("--gate", action="store_true")
    parser.add_argument("--changed")
    parser.add_argument("--jobs", type=int, default=0)
    parser.add_argument("--write", action="store_true")
    parser.add_argument("--itself", action="store_true")
    return parser.parse_args()


def main():
    given = words()
    os.chdir(ROOT)
    rtlib = kit()
    # (its first call sets the handler of a signal, which only this thread may)
    rtlib.guarded()
    crates = rtlib.crates_below(str(ROOT))
    for it in crates:
        it.out = open(os.devnull, "w")
    if given.itself:
        return 1 if itself(rtlib, crates) else 0
    lacking = set(given.crates) - {it.name for it in crates}
    if lacking:
        sys.exit(f"wrong-bodies: no crate is named {' '.join(sorted(lacking))}")
    chosen = changed(crates, given.changed) if given.changed else crates
    chosen = [it for it in chosen if not given.crates or it.name in given.crates]
    return 0 if try_all(chosen, rtlib, given) else 1


if __name__ == "__main__":
    sys.exit(main())
