#!/usr/bin/env python3
"""Writes files that come near the limits of generating and of scanning into FOLDER: many conditions, many rules that all accept,
and a table file with as many slots as there may be, with two that are refused at its last bytes.

    bench/hostile/files.py FOLDER"""
import random
import struct
import sys
from pathlib import Path

CONDITIONS, RULES, STATES, CLASSES, SLOTS = 254, 4_096, 8_192, 256, 2_097_152


def conditions():
    """Rules of one letter, each in 54 conditions drawn at random."""
    drawn = random.Random(1)
    names = [f"C{number}" for number in range(CONDITIONS)]
    lists = (",".join(drawn.sample(names, 54)) for _ in range(RULES))
    return f"%x {' '.join(names)}\n%%\n" + "".join(f"<{some}>a ;\n" for some in lists)


def everywhere():
    """Words of three letters, each in all conditions."""
    letters = str.maketrans("0123456789abcdef", "abcdefghijklmnop")
    words = (f"{number:03x}".translate(letters) for number in range(RULES))
    names = " ".join(f"C{number}" for number in range(CONDITIONS))
    return f"%x {names}\n%%\n" + "".join(f"<*>{word} ;\n" for word in words)


def rejecting():
    """All rules but one are accepted by each of 8,161 states."""
    return "%%\n(a{255}){32} REJECT;\n" + "a+ REJECT;\n" * (RULES - 1)


def table(last_next):
    """A table of which each state has an entry of its own for each byte. The last slot leads to the state that is given."""
    head = b"LEXTAB" + struct.pack(">HIIIII", 1, 1, 0, STATES, CLASSES, SLOTS)
    condition = struct.pack(">IIIB", 1, 1, 0, 0)
    bases = [CLASSES * (state - 1) for state in range(1, STATES - 1)] + [SLOTS - CLASSES]
    rows = bytes(12) + b"".join(struct.pack(">III", 0, base, 0) for base in bases)
    slots = [bytes(8)] * SLOTS
    for state, base in enumerate(bases, start=1):
        for letter in range(CLASSES):
            slots[base + letter] = struct.pack(">II", state, (state * 31 + letter * 257) % STATES)
    slots[-1] = struct.pack(">II", STATES - 1, last_next)
    return head + condition + bytes(range(256)) + rows + b"".join(slots)


folder = Path(sys.argv[1])
whole = table(1)
FILES = {
    "conditions.l": conditions().encode(),
    "everywhere.l": everywhere().encode(),
    "rejecting.l": rejecting().encode(),
    "slots.tab": whole,
    "slots_short.tab": whole[:-1],
    "slots_wrong.tab": table(STATES),
    "lines.l": b"%%\n[^\\n]+|\\n ;\n",
    "trail.l": b"%%\n[^\\n]+ ;\n\\n REJECT;\n",
}
for name, text in FILES.items():
    (folder / name).write_bytes(text)
