"""Rows as crates/lextest_product/data/README says that they are written."""
import re

ESCAPES = {ord("\n"): "\\n", ord("\t"): "\\t", ord("\r"): "\\r", ord("\\"): "\\\\"}


def escaped(text):
    """The text in one line, byte by byte."""
    return "".join(ESCAPES.get(it) or (chr(it) if 32 <= it < 127 else f"\\x{it:02x}") for it in text.encode(errors="surrogateescape"))


def field(name, text):
    """A field that says this text: line by line where it is of whole lines, else in one line, and none where it is empty."""
    if not text:
        return ""
    if text.endswith("\n") and not re.search(r"[^ -~\n]| \n", text):
        return name + "\n" + "".join(f"| {line}".rstrip() + "\n" for line in text[:-1].split("\n"))
    # a blank at either end is written as an escape, so that it is seen
    value = re.sub(r"^ | $", r"\\x20", escaped(text))
    return f"{name} {value}\n"


def row(kind, *fields):
    """A row of this kind; each field is a name and a text."""
    return kind + "\n" + "".join(field(*it) for it in fields)


def told(status):
    """What a scan tells that ends with this status."""
    return f"status {status}\n" if status else ""


def group(head, rows):
    """Rows under a heading."""
    return f"# {head}\n\n" + "\n".join(rows)


def file(*groups):
    return "\n".join(groups)
