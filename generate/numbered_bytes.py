"""The crates numbered_bytes and numbered_digits: the operations on slices and text, and those of integers that take or answer bytes; a module
for each family and kind."""
import os
import re

from code import every, function, match
from forms import NUMBERS, module, variant
from kinds import BY_NAME, KINDS
from numbered_integers import wrappers
from numbering import GROUPS, camel, rows
from templates import CRATES, filled_file

FAMILIES = ["bytes", "text"]


def says(name, texts):
    """Whether one of the texts has the name."""
    return any(re.search(r"\b%s\b" % name, text) for text in texts)


def chooser(head, arms, bits, otherwise):
    """A function that chooses by the form, with the numbers that its arms need."""
    needed = {name: code for name, code in bits.items() if says(name, arms.values())}
    lets = ["    let %s = n[%d];\n" % (number, place) for place, number in enumerate(NUMBERS) if says(number, needed.values())]
    lets += ["    let %s = %s;\n" % pair for pair in needed.items()]
    return function(head, "".join(lets) + match("operation.form()", [(variant(form), arm) for form, arm in arms.items()], otherwise))


def of_group(group):
    """The module of a kind or a family: what only reads is apart from what writes, since a slice that may be written costs more to check."""
    functions, converters, arms, bits = module([(row, export) for row in rows() for export in row.exports if export.group == group and not row.on_numbers])
    other, handed = ("other: &[u8], ", "other, ") if says("other", [re.sub(r"\bother::", "", arm) for arm in arms.values()]) else ("", "")
    writing, reading = ({form: arm for form, arm in arms.items() if form.startswith(which)} for which in ("writing_", "reading_"))
    texts = [
        chooser("pub fn run(operation: Operation, s: &mut [u8], %sn: Numbers) -> Option<Parts>" % other, writing, bits, "reading(operation, s, %sn)" % handed),
        chooser("fn reading(operation: Operation, s: &[u8], %sn: Numbers) -> Option<Parts>" % other, reading, bits, "None"),
        *functions,
        *converters,
    ]
    uses = "use numbered::{Form, Numbers, Operation, Parts};\n"
    if group in BY_NAME:
        uses += "".join("use %s as %s;\n" % pair for pair in wrappers(BY_NAME[group]) if any(pair[1] + "::" in text for text in texts))
    about = {"bytes": "slices of bytes", "text": "text"}.get(group, group + " that take or answer bytes")
    return "\n".join(["// The operations of %s, as the faces export them.\n%s" % (about, uses), *texts])


def source(crate, file):
    return os.path.join(CRATES, crate, "src", file)


def modules(groups):
    return "".join(sorted("mod of_%s;\n" % group for group in groups))


def files():
    kinds = [kind.name for kind in KINDS]
    assert sorted(kinds + FAMILIES) == sorted(GROUPS)
    yield source("numbered_bytes", "lib.rt"), filled_file("numbered_bytes/lib.rt.in", MODULES=modules(FAMILIES))
    arms = [("Kind::" + camel(kind), "of_%s::run(operation, s, n)" % kind) for kind in kinds]
    yield source("numbered_digits", "lib.rt"), filled_file("numbered_digits/lib.rt.in", MODULES=modules(kinds), KINDS=every(arms))
    for group in GROUPS:
        yield source("numbered_bytes" if group in FAMILIES else "numbered_digits", "of_%s.rt" % group), of_group(group)
