#!/usr/bin/env python3
"""docs/contracts/*.txt is the source of docs/CONTRACTS.md, which is written from it and never edited by hand.

    python3 docs/contracts.py        write docs/CONTRACTS.md

A source file holds headings (lines that begin with #), paragraphs and tables (as in Markdown), and rows. A row is a run of lines `field: value`, in this order;
a field that has nothing to say is left out, and a value that is too long for its line goes on in the next, indented.

    item:       vstd's file and the item in it, or `beyond vstd`
    clause:     what it says, in plain words
    restated:   the definitions that say it here
    export:     the exported functions whose contract it is
    operation:  the operations that they call
    law:        the laws that our operations keep it
    verdict:    same, or one of the other four and the reason
    pinned:     the laws that nothing else keeps it
    wrong:      the wrong answers that are refused, crate/function: edit, edit; ..

Names may be shortened, as the document's head says: `expand` and the functions behind it write them out again."""
import glob
import os
import re
import sys

HERE = os.path.dirname(os.path.abspath(__file__))
sys.path.append(os.path.join(os.path.dirname(HERE), "generate"))
from templates import WIDTHS

FIELDS = ["item", "clause", "restated", "export", "operation", "law", "verdict", "pinned", "wrong"]
FIRST, SECOND, THIRD = ("item", "clause", "verdict"), ("restated", "export", "operation"), ("law", "pinned", "wrong")
LABELS = {"restated": "restated as", "export": "export", "operation": "operation", "law": "law", "pinned": "pinned by", "wrong": "refused"}
RANGES = ["Range<usize>", "RangeTo<usize>", "RangeFrom<usize>", "RangeToInclusive<usize>", "RangeFull", "RangeInclusive<usize>"]
VSTD_FILES = [
    "arithmetic/power2", "bits", "bytes", "endian", "math", "slice", "std_specs/bits", "std_specs/char", "std_specs/num", "std_specs/range", "std_specs/slice", "utf8",
    "wrapping",
]
MEANINGS = "M"  # the letter of what our definitions mean, whose file has none
OF_ALL_WIDTHS = re.compile(r"(?<![A-Za-z])(u|i)N(?![A-Za-z])")


class Row(dict):
    """A row's fields, where it stands, and what it is cited by: the letter of its file and its number there."""


def sources():
    return {os.path.basename(path): read(path) for path in sorted(glob.glob(os.path.join(HERE, "contracts", "*.txt")))}


def read(path):
    with open(path, encoding="utf-8") as file:
        return file.read()


def parts(name, text):
    """A source file as a list of rows and of lines that are no row."""
    found, row, field, rows = [], None, None, 0
    for number, line in enumerate(text.split("\n"), 1):
        entry = re.match(r"(\w+): *(.*)$", line)
        if entry and entry.group(1) in FIELDS:
            if row is None:
                row = Row()
                rows += 1
                row.where = "docs/contracts/%s:%d" % (name, number)
                row.cited = "%s%d" % (name[0] if name[0].isalpha() else MEANINGS, rows)
                row.order = []
                found.append(row)
            field = entry.group(1)
            row.order.append(field)
            row[field] = entry.group(2).strip()
        elif row is not None and line.startswith("  "):
            row[field] += " " + line.strip()
        else:
            row = None
            found.append(line)
    return found


# ---- names written out

def commas(text):
    """Cut at commas that stand outside of braces."""
    return [piece.strip() for piece in re.split(r",\s*(?![^{]*\})", text) if piece.strip()]


def expand(name):
    """u{8,16}::x is u8::x and u16::x, x ({1..3}) is x, x (2) and x (3); uN and iN are all widths, <R as the six range types."""
    if name.startswith("<R as "):
        return ["<%s as %s" % (kind, name[len("<R as ") :]) for kind in RANGES]
    braces = re.search(r"\{([^{}]*)\}", name)
    if braces:
        numbers = re.match(r"(\d+)\.\.(\d+)$", braces.group(1))
        choices = range(int(numbers.group(1)), int(numbers.group(2)) + 1) if numbers else braces.group(1).split(",")
        return [whole for choice in choices for whole in expand(name[: braces.start()] + str(choice).strip() + name[braces.end() :])]
    if OF_ALL_WIDTHS.search(name):
        return [OF_ALL_WIDTHS.sub(r"\g<1>" + width.suffix, name) for width in WIDTHS]
    return [name]


def items(row):
    """The items of vstd's, as docs/upstream.txt has them; a file once named stands for the items behind it."""
    found, file = [], None
    for piece in commas(row.get("item", "")):
        first, _, rest = piece.partition(" ")
        if first in VSTD_FILES and rest and not rest.startswith("("):
            file, piece = first, rest
        found.extend("%s %s" % ((file or "").replace("/", "--"), name.replace(" (1)", "")) for name in expand(piece))
    return found


def named(row, field):
    """The names of a field; a name without crate and file is in those of the name before."""
    found, stands = [], ""
    for piece in commas(row.get(field, "")):
        if "/" in piece:
            stands = piece[: piece.index(".", piece.index("/")) + 1] if "." in piece[piece.index("/") :] else ""
        elif field in ("restated", "law", "pinned"):
            piece = stands + piece
        found.extend(expand(piece))
    return found


def refused(row):
    """The must-fail edits of a row: crate/function: edit, edit; crate/function: edit."""
    found = []
    for group in filter(None, (group.strip() for group in row.get("wrong", "").split(";"))):
        function, _, labels = group.partition(":")
        found.extend("%s.%s" % (function.strip(), label.strip()) for label in labels.split(","))
    return found


# ---- the document

def cell(row, field):
    text = row.get(field, "")
    if not text:
        return ""
    text = text.replace("|", "\\|")
    if field == "item":
        return "%s **%s**" % (row.cited, text if text == "beyond vstd" else "`%s`" % text)
    if field == "verdict":
        word, colon, reason = text.partition(":")
        return "*%s*%s%s" % (word, colon, reason)
    return "%s `%s`" % (LABELS[field], text) if field in LABELS else text


def printed(row):
    """A row's lines in the table: two where it has no more than three names beside its item, else three."""
    filled = [field for field in SECOND + THIRD if row.get(field)]
    for fields in [FIRST, filled + [""] * (3 - len(filled))] if len(filled) <= 3 else [FIRST, SECOND, THIRD]:
        if any(row.get(field) for field in fields):
            yield "| %s |" % " | ".join(cell(row, field) for field in fields)


def document(files):
    """docs/CONTRACTS.md as the source makes it."""
    lines, in_table = [], False
    for name in sorted(files):
        for part in parts(name, files[name]):
            if isinstance(part, Row):
                if not in_table:
                    lines.extend(["| item | clause | verdict |", "|---|---|---|"])
                in_table = True
                lines.extend(printed(part))
            elif part or not in_table:
                if in_table:
                    lines.append("")
                in_table = False
                lines.append(part)
    return re.sub(r"\n{3,}", "\n\n", "\n".join(lines)).strip("\n") + "\n"


def main():
    with open(os.path.join(HERE, "CONTRACTS.md"), "w", encoding="utf-8") as file:
        file.write(document(sources()))


if __name__ == "__main__":
    main()
