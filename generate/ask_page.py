"""The tables of names in docs/ASK.md, between the lines that say so; the rest of the page is written by hand."""
import os
import re

from declared import Struct
from help_text import LISTED, shown
from numbering import OTHER, rows
from table import Fault
from templates import CRATES, read

PATH = os.path.join(os.path.dirname(CRATES), "docs", "ASK.md")
TABLES = {"integers": "TSUWB", "bytes and text": "bt"}
WHOLE = re.compile(r"(<!-- names of ([a-z ]+): written by generate/ -->\n).*?(<!-- end of names -->\n)", re.S)


def answer(export):
    """The answer in words, where the table has none by what is given."""
    if export.operation.get("answer"):
        return export.operation.get("answer").replace("\n", " ")
    word = "less / equal / greater" if export.is_ordered else "true / false" if export.answer == "bool" else "number"
    return word + (" or refused" if isinstance(export.answer, Struct) and not export.is_ordered else "")


def arguments(row):
    listed = " ".join(shown(row.exports[0]))
    return listed + (", y of the other sign" if OTHER in row.takes else "")


def names(listed):
    """Those of one row: of both signs, the second is said to be the same."""
    first, *others = LISTED.get(listed[0].of, [listed[0].of])
    return " · ".join("%s.%s" % (first, row.name) for row in listed) + "".join("; %s.the same" % group for group in others)


def table(sets):
    """A row for those that stand side by side and take and answer the same."""
    lines = []
    for row in rows():
        if row.of not in sets:
            continue
        cells = (arguments(row), answer(row.exports[0]))
        if lines and lines[-1][1:] == (row.of, cells) and len(lines[-1][0]) < 4:
            lines[-1][0].append(row)
        else:
            lines.append(([row], row.of, cells))
    text = "| NAME | arguments | answer |\n|---|---|---|\n"
    for listed, _, (taken, given) in lines:
        text += "| %s | %s | %s |\n" % (names(listed), taken, given)
    return text


def files():
    page = read(PATH)
    found = [match.group(2) for match in WHOLE.finditer(page)]
    if sorted(found) != sorted(TABLES):
        raise Fault("docs/ASK.md: there are places for names of %s, and there should be for %s" % (", ".join(found) or "nothing", ", ".join(TABLES)))
    yield PATH, WHOLE.sub(lambda match: match.group(1) + table(TABLES[match.group(2)]) + match.group(3), page)
