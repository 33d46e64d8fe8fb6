#!/usr/bin/env python3
"""Lists names that a file imports from a module of specs/ or proofs/ which does not have them, without proving anything.

    scripts/gate/uses.py        status 1 where there is one

It is for who renames a definition: a name is looked for as a word in the text of the module that is named, whether it is defined or passed on
there. Names behind an alias of a module (`use .. as A`, then `A.name`) and paths of tactics (`crate::specs::Module::name`) count too."""
import os
import re
import sys

CRATES = os.path.join(os.path.dirname(os.path.dirname(os.path.dirname(os.path.realpath(__file__)))), "crates")
MODULE = r"Rattle\.((?:lib)?lex\w*)\.((?:specs|proofs)\.[\w.+-]+?)"
IMPORT = re.compile(rf"use {MODULE}\.\{{([^}}]*)\}}")
ALIAS = re.compile(rf"use {MODULE} as (\w+)")
PATH = re.compile(r"(crate|(?:lib)?lex\w*)::specs::(\w+)::([\w-]+)")


def texts():
    """Each file of the crates with its text, by its path below crates/."""
    for folder, below, files in os.walk(CRATES):
        below[:] = sorted(name for name in below if name != "out")
        for file in sorted(files):
            if file.endswith((".antt", ".rt")):
                path = os.path.join(folder, file)
                with open(path, encoding="utf-8") as text:
                    yield os.path.relpath(path, CRATES), text.read()


def has(text, name):
    """Whether a module's text has the name, of an operator its first part."""
    first = next(part for part in name.split("◌") if part)
    return re.search(rf"(?<![\w'.-]){re.escape(first)}(?![\w'-])", text)


def named(path, text):
    """What a file names of modules: the crate, the module and the name."""
    for crate, module, names in IMPORT.findall(text):
        yield from ((crate, module, name.split(" as ")[0].strip()) for name in names.split(",") if name.strip())
    for crate, module, alias in ALIAS.findall(text):
        yield from ((crate, module, name) for name in sorted(set(re.findall(rf"(?<![\w.']){alias}\.([\w'-]+)", text))))
    for crate, module, name in PATH.findall(text):
        yield path.split(os.sep)[0] if crate == "crate" else crate, f"specs.{module}", name


def main():
    files = dict(texts())
    modules = {}
    for path, text in files.items():
        crate, *rest = path.removesuffix(".antt").split(os.sep)
        modules[(crate, ".".join(rest))] = text
    faults = 0
    for path, text in files.items():
        for crate, module, name in named(path, text):
            if (crate, module) in modules and not has(modules[(crate, module)], name):
                print(f"{path}: there is no {name} in {module} of {crate}")
                faults += 1
    return 1 if faults else 0


if __name__ == "__main__":
    sys.exit(main())
