"""The names that can be asked for, and what each is asked with (docs/ASK.md): a number's type, or `bytes`. They come from the table of operations."""
import os
import re
import sys

sys.path.insert(0, os.path.join(os.path.dirname(os.path.abspath(__file__)), "..", "..", "generate"))

from declared import Struct
from kinds import BY_NAME, LETTERS as SETS
from numbering import asked, given, rows

# what stands for several types where `ask --help` lists the names
LETTERS = {letter: [kind.name for kind in kinds] for letter, kinds in SETS.items()}
KINDS = list(BY_NAME)
EXPORTS = {"%s.%s" % (export.group, row.name): export for row in rows() for export in row.exports}


def type_of(export, written):
    own = {"own": export.kind.name, "other": export.kind.other} if export.kind else {}
    return "bytes" if written.startswith("&") else own.get(written, written)


ASKED_WITH = {name: tuple(type_of(export, written) for _, written in asked(export)) for name, export in EXPORTS.items()}
OPERATIONS = list(dict.fromkeys(name.split(".")[1] for name, export in EXPORTS.items() if export.kind))
# names whose second argument is a distance
BY_DISTANCE = {name for name, export in EXPORTS.items() if [written for _, written in asked(export)] == ["own", "u32"]}


def width(kind):
    return BY_NAME[kind].bits


def least(kind):
    return BY_NAME[kind].least


def greatest(kind):
    return BY_NAME[kind].greatest


def may_refuse(name):
    """Whether it gives a refusal for some question: comparisons never do, nor what is given the room that it needs."""
    export = EXPORTS[name]
    return (isinstance(export.answer, Struct) and not export.is_ordered) or (export.writes and not given(export))


def listed(text):
    """The names that the text of `ask --help` lists: lines that begin with one."""
    for family, operation in re.findall(r"^ +(\w+)\.(\w+)", text, re.M):
        yield from (kind + "." + operation for kind in LETTERS.get(family, [family]))
