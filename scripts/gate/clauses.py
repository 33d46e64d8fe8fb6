#!/usr/bin/env python3
"""Compares how many clauses the public functions of two trees have.

    scripts/gate/clauses.py OLD NEW [OLD_NAME=NEW_NAME ..]

OLD and NEW are checkouts of the repository. A line is printed for each public function that is gone, asks for more (`requires`)
or promises less (`ensures`), and the status is 1 where there is one. Public is what the lib.rt of its crate exports: a function,
or a method of a type or a trait. A clause that is a record of specs/ counts as many as the record has fields, and so on for
these. A function is known by its type's name and its own; where one was renamed, say so, as `turns=interleaving`. Functions
that several crates have are compared together."""
import collections
import functools
import os
import re
import sys

FUNCTION = re.compile(r"^(\s*)(pub(?:\(\w+\))? )?(?:const )?(?:unsafe )?fn (\w+)")
HOLDER = re.compile(r"^(?:unsafe )?(?:impl(?:<.*?>)? (?:.* for )?(?:\w+::)*(\w+)|pub trait (\w+))")
CLAUSE = re.compile(r"^\s*(requires|ensures)\*?(?: \w+)? \{")
EXPORT = re.compile(r"^pub use (\w+)::(?:\{([^}]*)\}|(\w+))", re.M)
WHOLE = re.compile(r"^pub (?:mod|use) (\w+);", re.M)
IMPORT = re.compile(r"^\s*(?:ghost )?use Rattle\.(\w+)\.specs\.([\w.]+)\.\{([^}]*)\}", re.M)
RECORD = re.compile(r"^( *)(?:pub )?record (\S+)")
FIELD = re.compile(r"^( *)pub (\S+) : (.*)")
JOINED = re.compile(r"[→×≡≢⊎≤<λ]|\blet\b")


def read(path):
    if not os.path.exists(path):
        return ""
    with open(path, encoding="utf-8") as file:
        return file.read()


def imports(text):
    """Which crate and file of specs/ each name comes from."""
    told = {}
    for crate, module, names in IMPORT.findall(text):
        for name in names.split(","):
            told[name.split(" as ")[0].strip()] = (crate, module)
    return told


class Specs:
    """The records of a tree's definitions."""

    def __init__(self, tree):
        self.tree = tree

    @functools.lru_cache(maxsize=None)
    def module(self, crate, module):
        """What a file imports, and the types of the fields of each of its records."""
        text = read(os.path.join(self.tree, "crates", crate, "specs", *module.split(".")) + ".antt")
        records, fields, depth = {}, None, 0
        for line in text.split("\n"):
            start, field = RECORD.match(line), FIELD.match(line)
            if start:
                fields, depth = records.setdefault(start[2], []), len(start[1])
            elif line.strip() and len(line) - len(line.lstrip()) <= depth:
                fields = None
            elif field and fields is not None:
                fields.append(field[3])
        return imports(text), records

    def count(self, type_, home, names):
        """How many facts a clause or a field says, where its names come from here."""
        flat = type_
        while "(" in flat and flat != (shorter := re.sub(r"\([^()]*\)", "", flat)):
            flat = shorter
        head = flat.split()[0] if flat.split() else ""
        if JOINED.search(flat):
            return 1
        crate, module = names.get(head, home)
        inner, records = self.module(crate, module) if crate else ({}, {})
        fields = records.get(head, [])
        return sum(self.count(field, (crate, module), inner) for field in fields) or 1


def clause_text(lines, at):
    """A clause from its first line on, without its braces."""
    text = lines[at][lines[at].index("{") + 1:]
    while text.count("}") <= text.count("{") and at + 1 < len(lines):
        at += 1
        text += " " + lines[at].strip()
    return text[:text.rindex("}")].strip()


def functions(text, specs):
    """The functions of a file that others may call: type, name, and how many facts of each kind."""
    holder, is_trait, found, told, names = "", False, None, [], imports(text)
    lines = text.split("\nmod tests")[0].split("\n")
    for at, line in enumerate(lines):
        held = HOLDER.match(line)
        if held:
            holder, is_trait = held[1] or held[2], bool(held[2])
        elif line.startswith("}"):
            holder, is_trait = "", False
        start = FUNCTION.match(line)
        if start:
            found = None
            if start[2] == "pub " or is_trait:
                found = [holder, start[3], collections.Counter()]
                told.append(found)
        clause = CLAUSE.match(line)
        if clause and found:
            found[2][clause[1]] += specs.count(clause_text(lines, at), ("", ""), names)
    return told


def exported(crate):
    """Whether a crate exports what a file holds under a name, by its lib.rt; a program exports nothing."""
    text = read(os.path.join(crate, "src", "lib.rt"))
    names = {name.strip() for _, many, one in EXPORT.findall(text) for name in (many or one).split(",")}
    whole = set(WHOLE.findall(text))
    return lambda file, name: file == "lib" or file in whole or name in names


def counts(tree, renamed):
    """For each public function its counts, sorted where several have its name."""
    told, specs = collections.defaultdict(list), Specs(tree)
    for crate in sorted(os.listdir(os.path.join(tree, "crates"))):
        home = os.path.join(tree, "crates", crate)
        is_exported = exported(home)
        for folder, _, files in os.walk(os.path.join(home, "src")):
            for name in (name for name in files if name.endswith(".rt")):
                path = os.path.join(folder, name)
                first = os.path.relpath(path, os.path.join(home, "src")).removesuffix(".rt").split(os.sep)[0]
                for holder, function, facts in functions(read(path), specs):
                    if is_exported(first, holder or function):
                        key = (renamed.get(holder, holder), renamed.get(function, function))
                        told[key].append((facts["ensures"], -facts["requires"]))
    return {key: sorted(value, reverse=True) for key, value in told.items()}


def main():
    old, new, *pairs = sys.argv[1:]
    renamed = dict(pair.split("=") for pair in pairs)
    before, after = counts(old, renamed), counts(new, {})
    worse = 0
    for key, kinds in sorted(before.items()):
        now = after.get(key, [])
        if len(now) < len(kinds) or any(a[0] < b[0] or a[1] < b[1] for a, b in zip(now, kinds)):
            worse += 1
            print("::".join(filter(None, key)), [(e, -r) for e, r in kinds], "->", [(e, -r) for e, r in now])
    print(f"{sum(map(len, before.values()))} public functions before, {sum(map(len, after.values()))} after; {worse} with less")
    return 1 if worse else 0


if __name__ == "__main__":
    sys.exit(main())
