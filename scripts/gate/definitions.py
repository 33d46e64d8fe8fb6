#!/usr/bin/env python3
"""Prints which definitions the public contracts lead to, and whether docs/DEFINITIONS.md names them all: those that a contract
cites, and those that these are made of.

    scripts/gate/definitions.py             how many there are, by crate, and what is missing on the page
    scripts/gate/definitions.py --status    the same, and a status of 1 where something is missing, a name has two meanings, a line of
                                            specs/ has more than 120 columns, or a definition more than 20 lines
    scripts/gate/definitions.py --write     the same, and the table at the end of the page is written
    scripts/gate/definitions.py NAME ..     the definitions that the contracts of these calls lead to, with their lines
    scripts/gate/definitions.py --std NAME .. the names from outside this project that those definitions are written with

A public contract is a clause of a function, or of a method of a type or trait, that one of the crates of SURFACE gives its
callers, or a ghost field of such a type or trait. Lemmas, whose names have a hyphen, are no definitions."""
import collections
import os
import re
import sys

ROOT = os.path.dirname(os.path.dirname(os.path.dirname(os.path.realpath(__file__))))
CRATES = os.path.join(ROOT, "crates")
SURFACE = ["lexre", "lexspec", "lexauto", "lextab", "lexscan", "lexkit", "lex_command", "lex_names", "lexlook_calls", "lexlook_check", "lexlook_counts", "lexlook_letters", "lexlook_specs", "lexlook_suites", "lexlook_tables", "lexlook_unicode", "liblex_calls"]
# The page says what is behind this call.
HEADLINE = "scan_spec"
NAME = r"[A-Za-z_][\w'-]*"
# A word and its path. A field of something in parentheses is none, nor is the name of a field of a record that is written.
WORD = re.compile(rf"(?<![\w.'])({NAME}(?:\.{NAME})*|>>=)(?! = )")
# A text in quotes, which may have what a comment begins with, or a comment.
TEXT_OR_COMMENT = re.compile(r'("(?:[^"\\\n]|\\.)*")|(?:--|//).*')
USE = re.compile(r"^\s*(?:ghost |pub )?use Rattle\.(\w+)\.specs\.([\w.]+?)(?:\.\{([^}]*)\})?(?: as (\w+))?;?$")
OUTSIDE = re.compile(r"^\s*use (?!Rattle\.(?:lex|liblex))([\w.]+)\.\{([^}]*)\}$", re.M)
# How many definitions and names from outside the page says that there are behind the headline.
COUNTED = re.compile(r"(`scan_spec` leads to )[\d,]+( definitions, which are written with )[\d,]+( names)")
DEFINITION = re.compile(r"(?:(?:abbrev|unfoldable|instance|pub|record|data) )+([^\s:]+)|(\S+) :")
BLOCK = re.compile(r"(abbrev |unfoldable )*mutual$|module ")
CONSTRUCTOR = re.compile(rf"  ({NAME}) :")
FUNCTION = re.compile(r"\s*(pub(?:\(\w+\))? )?(?:const )?fn (\w+)")
HOLDER = re.compile(r"(?:impl(?:<.*?>)? (.* for )?(?:\w+::)*|pub (?:trait|struct|enum) )(\w+)")
CLAUSE = re.compile(r"\s*(?:(?:requires|ensures)\b|ghost (?!use|laws =|below =|inverse_ok =))\s*(?:\w+)?")


def read(*path):
    with open(os.path.join(*path), encoding="utf-8") as file:
        return file.read()


def imports(lines):
    """What names of a file stand for: (crate, module, name), or (crate, module, None) for a module."""
    known = {}
    for use in filter(None, map(USE.match, lines)):
        crate, module, names, other = use.groups()
        for name in (names or "").split(","):
            first, _, second = name.strip().partition(" as ")
            if first:
                known[second or first] = (crate, module, first)
        if names is None:
            known[other or module.split(".")[-1]] = (crate, module, None)
    return known


def parse(text):
    """The definitions of a file of specs/, each with its lines, and the type that each constructor makes."""
    found, makers, name, level = {}, {}, None, 0
    # the head of a module may stand on several lines
    for line in re.sub(r"(?m)^( *module )([^-]*? where)$", lambda head: head[1] + " ".join(head[2].split()), text).split("\n"):
        if not line.strip() or re.match(r"\s*--|(pub )?use |(pub )?mod |infix", line):
            continue
        level = min(level, len(line) - len(line.lstrip()))
        line = line[level:]
        if BLOCK.match(line):
            level += 2
            continue
        head = DEFINITION.match(line)
        if head and not line.startswith(" "):
            name = head[1] or head[2]
        elif name and CONSTRUCTOR.match(line) and re.match(r"(pub )?data ", found[name][0]):
            makers[CONSTRUCTOR.match(line)[1]] = name
        found.setdefault(name, []).append(line)
    return {name: lines for name, lines in found.items() if "-" not in name}, makers


class Specs:
    """All definitions, by crate, module and name."""

    def __init__(self):
        self.lines, self.known, self.makers, self.moved, self.outside = {}, {}, {}, {}, {}
        for crate in sorted(os.listdir(CRATES)):
            folder = os.path.join(CRATES, crate, "specs")
            for file in sorted(os.listdir(folder)) if os.path.isdir(folder) else []:
                text, module = read(folder, file), file[:-5]
                if file == "Lib.antt":
                    for other, moved in re.findall(r"pub use Rattle\.(\w+)\.specs\.(\w+)", text):
                        self.moved[(crate, moved)] = (other, moved)
                    continue
                found, makers = parse(text)
                self.known[(crate, module)] = imports(text.split("\n"))
                self.outside[(crate, module)] = {name.strip(): place for place, names in OUTSIDE.findall(text) for name in names.split(",")}
                for name, lines in found.items():
                    self.lines[(crate, module, name)] = lines
                for maker, name in makers.items():
                    self.makers[(crate, module, maker)] = (crate, module, name)

    def find(self, crate, module, name):
        while (crate, module) in self.moved:
            crate, module = self.moved[(crate, module)]
        target = (crate, module, name)
        if target in self.lines or target in self.makers:
            return self.makers.get(target, target)
        other = self.known.get((crate, module), {}).get(name)
        return self.find(*other) if other else None

    def cited(self, text, known, here=None):
        """The definitions that a text names, where `known` are its imports and `here` is its module."""
        for word in WORD.findall(TEXT_OR_COMMENT.sub(lambda found: '""' if found[1] else "", text)):
            first, *rest = ("◌>>=◌" if word == ">>=" else word).split(".")
            if first == "Rattle" and len(rest) > 3:
                crate, _, module, name, *_ = rest
            else:
                crate, module, name = known.get(first) or (*(here or (None, None)), first)
            found = self.find(crate, module, name or (rest or [None])[0])
            if found:
                yield found

    def closure(self, names):
        seen, waiting = set(names), list(names)
        while waiting:
            target = waiting.pop()
            module = target[:2]
            more = set(self.cited("\n".join(self.lines[target]), self.known[module], module)) - seen
            seen |= more
            waiting += more
        return seen

    def written_with(self, targets):
        """The names from outside this project that these definitions use, each with a module that has it."""
        found = {}
        for target in sorted(targets):
            text = TEXT_OR_COMMENT.sub(lambda found: '""' if found[1] else "", "\n".join(self.lines[target]))
            words = set(re.findall(r"\[\]|[^\s()\[\]{};,]+", text))
            for name, place in self.outside[target[:2]].items():
                if words.issuperset(part for part in name.split("◌") if part):
                    found.setdefault(name, place)
        return sorted(f"{place}.{name}" for name, place in found.items())


def given(crate, names=None):
    """The names that a crate gives its callers, each with the crate that has it."""
    for module, group, one in re.findall(r"pub use ([\w:]+?)::(?:\{([^}]*)\}|(\w+));", read(CRATES, crate, "src", "lib.rt")):
        for name in re.findall(r"\w+", group or one):
            if names is None or name in names:
                if os.path.isdir(os.path.join(CRATES, module)):
                    yield from given(module, {name})
                else:
                    yield crate, name


def clauses(text, names):
    """The lines of the public contracts of a file, each with the call or type that it is of."""
    holder, of_trait, call, in_clause = "", False, None, False
    for line in text.split("\n"):
        if re.match(r"#\[cfg\(test\)\]", line):
            return
        held, function, clause = HOLDER.match(line), FUNCTION.match(line), CLAUSE.match(line)
        if held:
            holder, call, of_trait = held[2], held[2], bool(held[1]) or line.startswith("pub trait")
        elif line.startswith("}"):
            holder, call = "", None
        elif function:
            public = (function[1] == "pub " or of_trait) if holder else function[1] == "pub "
            call = (f"{holder}::{function[2]}" if holder else function[2]) if public else None
        if function or held or not line.strip() or line.strip() in ("{", "{}"):
            in_clause = False
        if clause:
            in_clause = True
            call = holder if line.lstrip().startswith("ghost") else call
        if in_clause and call and (holder or call) in names:
            yield call, line[clause.end():] if clause else line


def contracts(specs):
    """For each public call or type with a contract, the definitions that its clauses name."""
    public, cited = collections.defaultdict(set), collections.defaultdict(set)
    for crate in SURFACE:
        for home, name in given(crate):
            public[home].add(name)
    for crate, names in public.items():
        for folder, _, files in os.walk(os.path.join(CRATES, crate, "src")):
            for text in (read(folder, file) for file in sorted(files) if file.endswith(".rt")):
                known = imports(text.split("\n"))
                for call, line in clauses(text, names):
                    cited[call].update(specs.cited(line, known))
    return cited


def named():
    """The names on the page, as `Module.name`; in a cell a name without a module is of the module before it."""
    page = read(ROOT, "docs", "DEFINITIONS.md")
    for cell in (cell for line in page.split("\n") if line.startswith("|") for cell in line.split("|")):
        module = None
        for word in re.findall(r"`([A-Za-z_][\w'.-]*|(?:[A-Z]\w*\.)?>>=)`", cell):
            first, _, name = word.rpartition(".")
            module = first or module
            if module and module[0].isupper():
                yield f"{module}.{'◌>>=◌' if name == '>>=' else name}"


def tokens(lines):
    """How many words, numbers and signs these lines have. A text in quotes is one; comments count for nothing."""
    text = TEXT_OR_COMMENT.sub(lambda found: '""' if found[1] else "", "\n".join(lines))
    return len(re.findall(r"[()\[\]{};,]|[^\s()\[\]{};,]+", text))


def listed(specs, targets):
    for target in sorted(targets):
        print(".".join(target), len(specs.lines[target]))
    lines = [specs.lines[target] for target in targets]
    print(len(targets), "definitions in", sum(map(len, lines)), "lines and", sum(map(tokens, lines)), "tokens")


def table(specs, direct):
    """The table at the end of the page."""
    reached = specs.closure(direct)
    rows = ["| Crate | Named by contracts | With all that they are made of | Lines | Tokens |", "|---|---|---|---|---|"]
    for crate in [*sorted({target[0] for target in reached}), "all"]:
        these = [specs.lines[target] for target in reached if crate in (target[0], "all")]
        named_here = sum(crate in (target[0], "all") for target in direct)
        rows.append(f"| {crate} | {named_here} | {len(these)} | {sum(map(len, these))} | {sum(map(tokens, these))} |")
    return "\n".join(rows)


def counted(specs, page, whole):
    """The page, with the numbers of what is behind the headline."""
    return COUNTED.sub(rf"\g<1>{len(whole)}\g<2>{len(specs.written_with(whole))}\g<3>", page)


def write(specs, direct, whole):
    """Puts the table into the page, in place of the one that is there, and the numbers of what is behind the headline."""
    path = os.path.join(ROOT, "docs", "DEFINITIONS.md")
    page = read(path)
    head = table(specs, direct).split("\n")[0]
    before, _, rest = page.partition(head)
    after = re.sub(r"\A(?:\n\|.*)*", "", rest)
    with open(path, "w", encoding="utf-8") as file:
        file.write(counted(specs, before + table(specs, direct) + after, whole))


def homes(targets):
    """The names that stand in more than one module, but for `>>=`: one step after another, of each kind of reader."""
    found = collections.defaultdict(list)
    for target in sorted(targets):
        found[target[2]].append(".".join(target[:2]))
    return {name: modules for name, modules in found.items() if len(modules) > 1 and name != "◌>>=◌"}


def wide():
    """The lines of specs/ that have more than 120 columns, but for imports and for those that are little but a text in quotes."""
    for crate in sorted(os.listdir(CRATES)):
        folder = os.path.join(CRATES, crate, "specs")
        for file in sorted(os.listdir(folder)) if os.path.isdir(folder) else []:
            for number, line in enumerate(read(folder, file).split("\n"), 1):
                bare = TEXT_OR_COMMENT.sub(lambda found: '""' if found[1] else found[0], line)
                if len(line) > 120 and len(bare) > 40 and not line.startswith("use "):
                    yield f"crates/{crate}/specs/{file}:{number}"


def long(specs, targets):
    """The definitions of more than 20 lines, but for tables that have a line or two for each case."""
    for target in sorted(targets):
        lines = specs.lines[target]
        cases = sum(line.strip().startswith(target[2] + " ") for line in lines)
        if len(lines) > 20 and 2 * cases < len(lines) - 1:
            yield ".".join(target)


def faults(specs, direct, whole):
    """What the page lacks, what it has that is not so, which names have two meanings, and what is too long."""
    for place in wide():
        yield f"more than 120 columns: {place}"
    for name in long(specs, specs.closure(direct)):
        yield f"more than 20 lines: {name}"
    for name, modules in homes(specs.closure(direct)).items():
        yield f"two meanings: {name} of {', '.join(modules)}"
    page = read(ROOT, "docs", "DEFINITIONS.md")
    on_page, there = collections.Counter(named()), {".".join(target[1:]) for target in [*specs.lines, *specs.makers]}
    for target in sorted(specs.closure(direct)):
        # A name that two crates have has to stand there twice.
        on_page.subtract([".".join(target[1:])])
        if on_page[".".join(target[1:])] < 0:
            yield "not in docs/DEFINITIONS.md: " + ".".join(target)
    for name in sorted(set(named()) - there):
        yield "no definition: " + name
    if table(specs, direct) not in page:
        yield "the table in docs/DEFINITIONS.md is another"
    if not COUNTED.search(page) or counted(specs, page, whole) != page:
        yield f"{len(whole)} definitions and {len(specs.written_with(whole))} names are behind {HEADLINE}, and the page says it otherwise"


def main():
    specs = Specs()
    cited = contracts(specs)
    asked = [word for word in sys.argv[1:] if not word.startswith("--")]
    if asked:
        targets = specs.closure(set().union(*(cited[word] for word in asked)))
        if "--std" in sys.argv:
            names = specs.written_with(targets)
            print("\n".join([*names, f"{len(names)} names"]))
        else:
            listed(specs, targets)
        return 0
    direct, whole = set().union(*cited.values()), specs.closure(cited[HEADLINE])
    if "--write" in sys.argv:
        write(specs, direct, whole)
    print(table(specs, direct))
    print(f"\n{len(cited)} calls and types have contracts, of which {sum(map(bool, cited.values()))} name definitions.")
    found = list(faults(specs, direct, whole))
    print("\n".join(found), end="\n" * bool(found))
    return 1 if found and "--status" in sys.argv else 0


if __name__ == "__main__":
    sys.exit(main())
