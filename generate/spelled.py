"""The crate spelled: numbers of each kind as questions and answers have them, read and written by the functions that its face exports."""
import os

from code import every
from forms import from_bits, to_bits
from kinds import KINDS
from numbered_integers import wrappers
from numbering import camel, rows
from templates import CRATES, TEMPLATES, filled_file, read

FOLDER = os.path.join(CRATES, "spelled", "src")


def of_kind(kind):
    """A kind's module."""
    export = next(export for row in rows() if row.name == "read_decimal" for export in row.exports if export.kind == kind)
    parts = {"READ": to_bits(export, kind.name, "r.value"), "WRITE": from_bits(export, kind.name, "bits"), "TYPE": kind.name}
    text = read(os.path.join(TEMPLATES, "spelled", "kind.rt.in"))
    for word, part in parts.items():
        text = text.replace(word, part)
    uses = "".join("use %s as %s;\n" % pair for pair in wrappers(kind) if pair[1] + "::" in text)
    return text.replace("USES\n", uses) if uses else text.replace("USES\n\n", "")


def files():
    modules = "".join(sorted("mod of_%s;\n" % kind.name for kind in KINDS))
    reading, writing = (
        every([("Kind::" + camel(kind.name), "of_%s::%s" % (kind.name, call)) for kind in KINDS]) for call in ("read(s)", "write(out, at, bits)")
    )
    yield os.path.join(FOLDER, "lib.rt"), filled_file("spelled/lib.rt.in", MODULES=modules, READ=reading, WRITE=writing)
    for kind in KINDS:
        yield os.path.join(FOLDER, "of_%s.rt" % kind.name), of_kind(kind)
