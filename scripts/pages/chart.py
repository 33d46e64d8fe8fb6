#!/usr/bin/env python3
"""Draws docs/speed.svg of the first table of docs/SPEED.md's chapter on scanning: for each specification a bar for each program,
the seconds, as a part of those of flex's default scanner. `--check` says whether the picture is up to date.

    scripts/pages/chart.py [--check]
"""
import pathlib
import sys

TOP = pathlib.Path(__file__).resolve().parents[2]
PAGE = TOP / "docs" / "SPEED.md"
PICTURE = TOP / "docs" / "speed.svg"
CHAPTER = "## Scanning, beside flex and re2c"
FIRST_COLUMNS = ["Specification", "lex, by a table file"]
# The columns that are drawn, with their colours, from the top.
PROGRAMS = [("lex, by a table file", "lex", "#1b6ca8"), ("re2c", "re2c", "#8a8a8a"), ("flex -Cf", "flex -Cf", "#b9b9b9"),
            ("flex", "flex", "#dcdcdc")]
LEFT, WIDTH, BAR, GAP, HEAD = 110, 560, 9, 12, 34


def cells(line):
    """The cells of a line of a table."""
    return [cell.strip() for cell in line.strip().strip("|").split("|")]


def table():
    """The rows of the table: the specification, and the seconds of each column, or None where a program refuses."""
    lines = PAGE.read_text().split(CHAPTER, 1)[1].splitlines()
    first = next(at for at, line in enumerate(lines) if cells(line)[:2] == FIRST_COLUMNS)
    names = cells(lines[first])
    rows = []
    for line in lines[first + 2:]:
        if not line.startswith("|"):
            return rows
        row = cells(line)
        times = [None if cell == "refused" else float(cell.split()[0]) for cell in row[1:]]
        rows.append((row[0], dict(zip(names[1:], times))))
    return rows


def bars(name, times, top):
    """The bars of a specification, and its name beside them."""
    height = len(PROGRAMS) * BAR
    yield f'<text x="{LEFT - 8}" y="{top + height / 2 + 4:g}" text-anchor="end">{name.removesuffix(".l")}</text>'
    for place, (column, label, colour) in enumerate(PROGRAMS):
        seconds = times[column]
        at = top + place * BAR
        if seconds is None:
            yield f'<text class="small" x="{LEFT + 4}" y="{at + BAR - 1}">{label}: refused</text>'
            continue
        part = seconds / times["flex"]
        yield f'<rect x="{LEFT}" y="{at}" width="{part * WIDTH:.1f}" height="{BAR - 1}" fill="{colour}"/>'
        yield f'<text class="small" x="{LEFT + part * WIDTH + 4:.1f}" y="{at + BAR - 2}">{seconds:.3f}</text>'


def picture(rows):
    """The whole picture."""
    step = len(PROGRAMS) * BAR + GAP
    height = HEAD + len(rows) * step + 8
    width = LEFT + WIDTH + 50
    parts = [f'<svg xmlns="http://www.w3.org/2000/svg" width="{width}" height="{height}" viewBox="0 0 {width} {height}" '
             'font-family="sans-serif" font-size="13">',
             "<style>.small { font-size: 8px; fill: #555 }</style>",
             f'<rect width="{width}" height="{height}" fill="white"/>']
    at = LEFT
    for _, label, colour in PROGRAMS:
        parts.append(f'<rect x="{at}" y="10" width="12" height="12" fill="{colour}"/><text x="{at + 17}" y="20">{label}</text>')
        at += 90
    parts.append(f'<text class="small" x="{at}" y="20">seconds for 20 MB; bars are parts of flex\'s time</text>')
    for place, (name, times) in enumerate(rows):
        parts.extend(bars(name, times, HEAD + place * step))
    parts.append("</svg>")
    return "\n".join(parts) + "\n"


def main():
    drawn = picture(table())
    if sys.argv[1:] == ["--check"]:
        if not PICTURE.is_file() or PICTURE.read_text() != drawn:
            sys.exit("docs/speed.svg is not the table of docs/SPEED.md: run scripts/pages/chart.py")
        return
    PICTURE.write_text(drawn)


if __name__ == "__main__":
    main()
