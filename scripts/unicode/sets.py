"""Sets of code points, by the files of Debian's package unicode-data: used by `utf8.py` and `tries.py`.

A set is one of these: a code point or a range (`U+0400`, `U+0400-U+04FF`); a general category, by its short or its long name (`Lu`,
`Uppercase_Letter`, or `L` and `Letter` for a group of them); a script (`Greek`); `XID_Start`, `XID_Continue` or `White_Space`; `Any`; or one
of these after a `!`, for all others. Surrogates are in no set, since UTF-8 has none. (RFC 3629, section 3.)"""
import os
import re

DATA = "/usr/share/unicode"
LAST = 0x10FFFF
SURROGATES = (0xD800, 0xDFFF)
# General categories by which others are grouped, beside those that have one letter.
GROUPS = {"LC": ("Lu", "Ll", "Lt")}


def lines(file):
    """The fields of each line of a file of the package, without comments."""
    try:
        with open(os.path.join(DATA, file), encoding="utf-8") as text:
            for line in text:
                line = line.partition("#")[0].strip()
                if line:
                    yield [field.strip() for field in line.split(";")]
    except OSError as error:
        raise SystemExit(f"{error.filename}: {error.strerror}: Debian's package unicode-data has it")


def version():
    """The version of the data, as the first line of its files has it."""
    with open(os.path.join(DATA, "Scripts.txt"), encoding="utf-8") as text:
        return re.match(r"# Scripts-([\d.]+)\.txt", text.readline())[1]


def span(text):
    """The first and the last code point of `0041` or `0041..005A`."""
    first, _, last = text.partition("..")
    return int(first, 16), int(last or first, 16)


def merged(ranges):
    """The same code points, less the surrogates, by ranges that ascend and do not touch."""
    found = []
    for first, last in sorted(ranges):
        for low, high in ((first, min(last, SURROGATES[0] - 1)), (max(first, SURROGATES[1] + 1), last)):
            if low > high:
                continue
            if found and low <= found[-1][1] + 1:
                found[-1] = (found[-1][0], max(found[-1][1], high))
            else:
                found.append((low, high))
    return found


def others(ranges):
    """All code points that are in none of these ranges, which ascend."""
    found, after = [], 0
    for first, last in ranges:
        found.append((after, first - 1))
        after = last + 1
    return merged([pair for pair in [*found, (after, LAST)] if pair[0] <= pair[1]])


def categories():
    """For each general category its ranges. A code point that no line has is unassigned. (UAX 44, UnicodeData.txt.)"""
    found, begun, assigned = {}, None, []
    for code, name, category, *_ in lines("UnicodeData.txt"):
        point = int(code, 16)
        if name.endswith(", First>"):
            begun = point
            continue
        found.setdefault(category, []).append((point if begun is None else begun, point))
        assigned.append(found[category][-1])
        begun = None
    found["Cn"] = others(merged(assigned))
    return found


def names_of(prop):
    """The short name of each value of a property, by all its names."""
    return {name: short for kind, short, *long in lines("PropertyValueAliases.txt") if kind == prop for name in (short, *long)}


def category(name):
    """The ranges of a general category, or None where there is none of that name."""
    short = names_of("gc").get(name)
    if short is None:
        return None
    within = GROUPS.get(short) or [one for one in names_of("gc").values() if one == short or len(short) == 1 and one.startswith(short)]
    found = categories()
    return [pair for one in sorted(set(within)) for pair in found.get(one, [])]


def listed(file, name):
    """The ranges that a file gives to a name, or None where it has none."""
    return [span(where) for where, what, *_ in lines(file) if what == name] or None


def ranges_of(name):
    """The ranges of a set. A name that is none ends the program."""
    if name.startswith("!"):
        return others(ranges_of(name[1:]))
    given = re.fullmatch(r"U\+([0-9A-F]{4,6})(?:-U\+([0-9A-F]{4,6}))?", name)
    if given:
        first, last = int(given[1], 16), int(given[2] or given[1], 16)
        if first > last or last > LAST:
            raise SystemExit(f"{name}: no range of code points")
        return merged([(first, last)])
    if name == "Any":
        return merged([(0, LAST)])
    found = listed("DerivedCoreProperties.txt", name) if name.startswith("XID_") else None
    found = found or (listed("PropList.txt", name) if name == "White_Space" else None)
    found = found or category(name) or listed("Scripts.txt", name)
    if not found:
        raise SystemExit(f"{name}: no set of code points")
    return merged(found)
