#!/usr/bin/env python3
"""Writes inputs of about SIZE bytes into FOLDER, NAME.input for each specification NAME.l here and for four of examples/,
whose own inputs are repeated.

    bench/scan/inputs.py FOLDER [SIZE]

The same numbers make the same inputs each time."""
import itertools
import random
import sys
from pathlib import Path

EXAMPLES = Path(__file__).resolve().parents[2] / "examples"
REPEATED = "words documents c_tokens heredoc".split()
NAMES = "index count next_state table length source Scanner buffer at limit row total".split()


def program(pick):
    name, other, number = pick.choice(NAMES), pick.choice(NAMES), pick.randrange(10_000)
    return pick.choice([
        f"    int {name} = {other}[{number}] + 0x{number:x};\n",
        f"    if ({name} <= {number} && !{other}.{name}) {{ return {name} << 2; }}\n",
        f"    /* The {name} of each {other}, {number} at most.\n     * It is kept. */\n",
        f'    write({name}, "{other}: \\"%d\\"\\n", {number}.5);   // {name}\n',
        f"    for ({name} = 0; {name} < {other}->{name}; {name} += 1)\n\n",
        f"    static const char {name}[] = {{ 'a', '\\n', {number} }};\n",
    ])


def log(pick):
    time = f"2024-05-{pick.randrange(1, 31):02} 12:{pick.randrange(60):02}:{pick.randrange(60):02}.{pick.randrange(1000):03}"
    level = pick.choices(["DEBUG", "INFO", "WARN", "ERROR"], [4, 5, 1, 1])[0]
    name, number = pick.choice(NAMES), pick.randrange(10_000)
    line = f"{time} {level} worker-{number % 8} {name}: took {number} ms for /{name}/{number}?password=p{number} from 10.0.0.{number % 256}\n"
    return line + (f"    at {name} (main.c:{number})\n" if level == "ERROR" else "")


def json(pick):
    name, number = pick.choice(NAMES), pick.randrange(1_000_000)
    return (
        f'  {{"id": {number}, "name": "{name}", "at": [{number / 1000}, -{number}e-3, 0],\n'
        f'   "told": "a \\"{name}\\" of \\u00fcber\\n", "open": true, "next": null}},\n'
    )


def indented(pick):
    """A JSON object with a line for each member, and for each item of its list."""
    name, number = pick.choice(NAMES), pick.randrange(1_000_000)
    told = f"the {name} of \\\"{pick.choice(NAMES)}\\\"\\n"
    items = ",\n".join(f"            {number * step / 1000}" for step in (1, -1, 0))
    return (
        f'    {{\n        "id" : {number},\n        "name" : "{name}",\n        "at" : [\n{items}\n        ],\n'
        f'        "told" : "{told}",\n        "open" : true,\n        "next" : null\n    }},\n'
    )


def pieces(name):
    """The pieces of text of which the input for a specification is made."""
    if name in REPEATED:
        return itertools.repeat((EXAMPLES / f"{name}.input").read_text())
    make, pick = MAKERS[name], random.Random(1)
    return (make(pick) for _ in itertools.count())


MAKERS = {"program": program, "letters": program, "log": log, "lines": log, "json": json, "minify": indented}

if __name__ == "__main__":
    folder, size = Path(sys.argv[1]), int(sys.argv[2]) if len(sys.argv) > 2 else 20_000_000
    for name in [*MAKERS, *REPEATED]:
        written = 0
        with open(folder / f"{name}.input", "w") as out:
            for piece in pieces(name):
                written += out.write(piece)
                if written >= size:
                    break
