#!/usr/bin/env python3
"""Measures the sentences of README.md and of each page of docs/.

    scripts/pages/prose.py            how many words a sentence has, by page; each sentence of more than 30 words and each word
                                to avoid, with its line
    scripts/pages/prose.py --status   the same, and a status of 1 where there is such a sentence or word

Headings, tables, code blocks, targets of links, and what stands in backquotes are left out."""
import re
import sys
from pathlib import Path

ROOT = Path(__file__).resolve().parents[2]
MOST = 30
# Words for which the field has others: out of memory, a prefix, re-exports, operators, the minimal DFA, says.
AVOIDED = re.compile(
    r"want of\s+memory|a front of|giv(?:e|es|en|ing)(?: \w+)? on\b|both ends|\bsigns?\b|least\s+automat(?:on|a)"
    r"|\b(?:tells?|told|telling)\b(?!\s(?:\w+\s){0,3}(?:apart|from))",
    re.I,
)
# A sentence begins with no blank, keeps within its paragraph, and ends with a full stop or with the paragraph.
SENTENCE = re.compile(r"[^\f\s][^\f]*?(?:[.?!][)\"*]*(?=\s)|(?=\f)|\Z)")
WORD = re.compile(r"\w[\w'/.-]*")


def page_text(lines):
    """The prose of a page in Markdown, line by line: a form feed ends a paragraph."""
    fenced, code, blank = False, False, True
    for line in lines:
        fence = line.startswith("```")
        code = line.startswith("    ") and (code or blank)
        blank = not line.strip()
        item = re.match(r"\s*(?:[-*]|\d+\.) ", line)
        if fence or fenced or code or blank or line.startswith(("#", "|")):
            yield "\f"
        else:
            yield "\f" + line[item.end():] if item else line
        fenced ^= fence


def manual_text(lines):
    """The same of a manual page: a line in another font is code, of which only the end of a sentence counts."""
    code = False
    for line in lines:
        code = (code or line == ".EX") and line != ".EE"
        if code or line.startswith((".SH", ".TH", ".TP", ".PP", ".E")):
            yield "\f"
        elif line.startswith("."):
            yield "." if line.endswith(" .") else ""
        else:
            yield re.sub(r"\\f.|\\", "", line)


def prose(path):
    lines = path.read_text(encoding="utf-8").splitlines()
    text = "\n".join(page_text(lines) if path.suffix == ".md" else manual_text(lines))
    return re.sub(r"`[^`\f]*`|(?<=\])\([^)\f]*\)", lambda code: "\n" * code[0].count("\n"), text)


def main():
    found = []
    pages = (page for page in sorted((ROOT / "docs").iterdir()) if page.suffix != ".svg")
    for path in [ROOT / "README.md", *pages]:
        text, name = prose(path), path.relative_to(ROOT)

        def at(place):
            return text.count("\n", 0, place) + 1

        sentences = [(at(s.start()), len(WORD.findall(s[0])), " ".join(s[0].split())) for s in SENTENCE.finditer(text)]
        counts = [count for _, count, _ in sentences if count]
        print(f"{name}: {len(counts)} sentences, {sum(counts) / len(counts):.1f} words in the mean, {max(counts)} at most")
        found += [(name, line, f"{count} words: {words[:60]}") for line, count, words in sentences if count > MOST]
        found += [(name, at(word.start()), " ".join(word[0].split())) for word in AVOIDED.finditer(text)]
    for name, line, what in sorted(found):
        print(f"{name}:{line}: {what}")
    return 1 if found and "--status" in sys.argv else 0


if __name__ == "__main__":
    sys.exit(main())
