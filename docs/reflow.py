#!/usr/bin/env python3
"""Prose has lines of at most 160 columns, in the documents and in docs/contracts.

    python3 docs/reflow.py     fill the paragraphs and list items anew that have a longer line, and write docs/CONTRACTS.md from its source

Tables, headings, rows of docs/contracts and what is indented by four columns stay as they are. docs/check.py, which the gate runs, fails where a line is longer."""
import glob
import os
import re

import contracts
from contracts import HERE

ROOT = os.path.dirname(HERE)
COLUMNS = 160
FIXED = re.compile(r"[|#]|    |(?:%s):" % "|".join(contracts.FIELDS))  # the line is no prose
ITEM = re.compile(r"(?:[-*]|\d+\.) ")
# what must not begin a line, as it would mean something else there, stays with the word before it
BOUND = re.compile(r" (?=(?:[-+*]|\d+\.) |[|#>]|(?:%s):)" % "|".join(contracts.FIELDS))


def files():
    patterns = ("*.md", "docs/*.md", "docs/*/*.md", "docs/contracts/*.txt", "tests/*/*.md", "dist/*.md", "bindings/*.md")
    return sorted(path for pattern in patterns for path in glob.glob(os.path.join(ROOT, pattern)) if os.path.basename(path) != "CONTRACTS.md")


def paragraphs(text):
    """The lines of a text in groups: those of a paragraph or a list item together, each other line alone. With each whether it is prose."""
    found, open_row = [], False
    for line in text.split("\n"):
        goes_on = found and found[-1][1] and not ITEM.match(line.lstrip())
        row = re.match(r"(?:%s):" % "|".join(contracts.FIELDS), line)
        open_row = bool(row) or open_row and line.startswith("  ")
        if not line or open_row or FIXED.match(line) and not (goes_on and line.startswith("    ") and ITEM.match(found[-1][0][0].lstrip())):
            found.append(([line], False))
        elif goes_on:
            found[-1][0].append(line)
        else:
            found.append(([line], True))
    return found


def filled(lines):
    """A paragraph or list item in lines as long as they may be; what stands in backticks is not broken, unless it is long."""
    begins = re.match(r" *(?:(?:[-*]|\d+\.) )?", lines[0]).group(0)
    indent = " " * len(begins) if begins.strip() else begins
    text = BOUND.sub("\0", " ".join(line.strip() for line in lines)[len(begins.strip()) :].strip())
    text = re.sub(r"`[^`]{1,60}`", lambda span: span.group(0).replace(" ", "\0"), text)
    made = [begins]
    for word in text.split(" "):
        if len(made[-1]) + len(word) + 1 > COLUMNS and made[-1].strip() and made[-1] != begins:
            made.append(indent)
        made[-1] += word if made[-1] in (begins, indent) else " " + word
    return [line.replace("\0", " ") for line in made]


def reflowed(text):
    groups = [filled(lines) if prose and max(map(len, lines)) > COLUMNS else lines for lines, prose in paragraphs(text)]
    return "\n".join(line for group in groups for line in group)


def too_long():
    for path in files():
        if reflowed(contracts.read(path)) != contracts.read(path):
            yield "%s: prose with a line of more than %d columns: run python3 docs/reflow.py" % (os.path.relpath(path, ROOT), COLUMNS)


def main():
    for path in files():
        text = reflowed(contracts.read(path))
        with open(path, "w", encoding="utf-8") as file:
            file.write(text)
    contracts.main()


if __name__ == "__main__":
    main()
