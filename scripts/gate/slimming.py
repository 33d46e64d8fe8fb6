"""Copies crates without their functions: what is left are types, constants and definitions, with some functions and those that they call.
A check of such a function reads that alone, so it takes a third of the time. Used by misreadings.py."""
import re
import shutil
from pathlib import Path

HEAD = re.compile(r"^(?:pub(?:\([^)]*\))? )?(?:const )?(?:unsafe )?(?:ghost )?fn (\w+)")
ENDS = re.compile(r"^(?:\}|\};|\{\}|\)|\);|\]\);|\];|\S.*;)$")
FUNCTION_ENDS = re.compile(r"^(?:\}|\{\})$")
# (of a constant whose value is on a line of its own)
VALUE_ENDS = re.compile(r";$")
MADE = re.compile(r"^(?:pub(?:\([^)]*\))? )?(?:struct|enum) (\w+)")
KEPT_DERIVES = ("Clone", "Copy", "Drop")
USE = re.compile(r"(?m)^((?:pub(?:\([^)]*\))? )?)use ([\w:]+::)(?:\{([^}]*)\}|(\w+(?: as \w+)?));")
PROOFS = ("Answers.antt", "Invariants.antt", "Proof.antt")


def items(text):
    """The items of a file, as lists of lines, each with what stands above it. The layout is rt fmt's."""
    item, inside, ends = [], False, ENDS
    for line in text.split("\n"):
        item.append(line)
        if inside:
            inside = not ends.search(line)
        elif line.startswith(("//!", "#!")) or not line:
            pass
        elif line.startswith(("//", "#")):
            continue
        else:
            inside = not line.endswith((";", "}"))
            ends = FUNCTION_ENDS if HEAD.match(line) else VALUE_ENDS if line.endswith(" =") else ENDS
        if not inside:
            yield item
            item = []
    yield item


def line_kept(line):
    """A line of an item that is kept, without derives that make functions, and without what such derives read."""
    if line.startswith("#[derive("):
        names = [it for it in re.findall(r"[\w:]+", line[9:]) if it in KEPT_DERIVES]
        return f"#[derive({', '.join(names)})]" if names else ""
    return "" if re.match(r"\s*#\[(error|from|source)\b", line) else line


def without_functions(text, is_kept, gone):
    """A source file without functions, but those that are kept; the names of the others are added to `gone`. What has an impl of Drop, which
    goes too, derives it."""
    left, destroyed = [], set(re.findall(r"(?m)^impl\b.* Drop for (\w+)", text))
    for item in items(text):
        first = next((line for line in item if line and not line.startswith(("//", "#"))), "")
        head = HEAD.match(first)
        if head and not is_kept(head[1]):
            gone.add(head[1])
        elif not re.match(r"(unsafe )?impl\b(?!.*\bModel\b)|macro_rules", first):
            made = MADE.match(first)
            left += ["#[derive(Drop)]"] if made and made[1] in destroyed else []
            left += [line_kept(line) for line in item]
    return "\n".join(left)


def without_names(text, gone):
    """A source file that imports none of these names."""

    def use(found):
        names = [it for it in re.split(r",\s*", (found[3] or found[4]).strip().rstrip(",")) if it.partition(" as ")[0] not in gone]
        return f"{found[1]}use {found[2]}{{{', '.join(names)}}};" if names else ""

    return USE.sub(use, text)


def called_by(folders, is_asked):
    """The names of the functions that are asked for, and of those that they call, by name."""
    calls = {}
    for path in (path for folder in folders for path in Path(folder, "src").rglob("*.rt")):
        for item in items(path.read_text()):
            first = next((line for line in item if HEAD.match(line)), "")
            if first:
                calls.setdefault(HEAD.match(first)[1], set()).update(re.findall(r"\b(\w+)\(", "\n".join(item)))
    found, left = set(), {name for name in calls if is_asked(name)}
    while left:
        found |= left
        left = {name for it in left for name in calls[it] if name in calls} - found
    return found


def copy(folders, room, is_asked):
    """Copies these crates into a folder, those below first, without the functions that are neither asked for nor called by such."""
    gone, kept = set(), called_by(folders, is_asked)
    is_kept = kept.__contains__
    for folder in map(Path, folders):
        texts = {path.relative_to(folder): without_functions(path.read_text(), is_kept, gone) for path in (folder / "src").rglob("*.rt")}
        for path, text in texts.items():
            to = Path(room, folder.name, path)
            to.parent.mkdir(parents=True, exist_ok=True)
            to.write_text(without_names(text, gone))
        for part in ("specs", "proofs"):
            if (folder / part).is_dir():
                shutil.copytree(folder / part, Path(room, folder.name, part), ignore=lambda at, names: others(at, names, is_kept))


def others(at, names, is_kept):
    """The folders here that have the proof of a function that is not kept."""
    return [it for it in names if any(Path(at, it, file).is_file() for file in PROOFS) and not is_kept(it)]
