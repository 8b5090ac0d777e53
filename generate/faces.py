"""The faces: every exported function with its contract, from the table (operations/*.txt), and its proof, from the template of its shape where one is named.

A face holds the functions of one type, or all of a family, by width where the family has a title for each."""
import functools
import os
import re

from declared import exports
from table import Fault
from templates import CRATES, PROOF, TEMPLATES, WIDTHS, filled, proofs, read

LONGEST = 100  # columns of a signature, as the formatter lays it out
WIDEST = 160  # columns of a line that imports
DECLARED = re.compile(r"^(?:(?:abbrev|unfoldable) )?pub (?:record |data )?(\S+) [:(]", re.M)
CONSTRUCTOR = re.compile(r"^  (?:pub )?(\S+) :", re.M)
BY_HAND, NOT_NEEDED = "by hand", "none needed"


# ---- what a contract cites

@functools.lru_cache(None)
def names_of(module):
    """The names that CRATE/FILE defines: those that it declares in their order, then those within them."""
    crate, _, file = module.partition("/")
    path = os.path.join(CRATES, crate, "specs", file + ".antt")
    if not os.path.exists(path):
        raise Fault("generate/operations: `uses` names %s, and there is no crates/%s/specs/%s.antt" % (module, crate, file))
    text = read(path)
    return DECLARED.findall(text) + CONSTRUCTOR.findall(text)


def cited(export):
    """The words of a contract that are neither its own nor numbers."""
    own = {"result"} | {name for name, _ in export.parameters}
    words = re.findall(r"(?<![\w.])[A-Za-z][\w.]*", export.contract)
    return [word for word in words if word.split(".")[0] not in own]


def cites(export, name):
    """Whether a contract has a name of the kit's, or an operator, as ◌+ℤ◌."""
    return " %s " % name.strip("◌") in export.contract if name.startswith("◌") else name in cited(export)


def imported(module, names):
    """The lines that import names of a module, as many as fit a line."""
    lines = []
    for name in names:
        if lines and len(lines[-1]) + len(", %s};" % name) <= WIDEST:
            lines[-1] += ", " + name
        else:
            lines.append("ghost use %s.{%s" % (module, name))
    return [line + "};\n" for line in lines]


def uses(found):
    """The lines that import what the contracts cite, in the order of the family's record."""
    lines, left = [], {word: export for export in reversed(found) for word in cited(export)}
    for written in found[0].operation.family.record.get("uses"):
        module, _, rest = found[0].filled(written).partition(" ")
        if rest.startswith("{"):
            names = [name for name in re.findall(r"[^{}, ]+", rest) if any(cites(export, name) for export in found)]
            lines += imported(module, names)
        elif rest.startswith("as "):
            crate, file = module.split("/")
            names = [word for word in left if word.startswith(rest[3:] + ".") and word.split(".")[1] in names_of(module)]
            lines.append("ghost use Rattle.%s.specs.%s %s;\n" % (crate, file, rest))
        else:
            crate, file = module.split("/")
            names = [name for name in names_of(module) if name in left]
            lines += imported("Rattle.%s.specs.%s" % (crate, file), names)
        for name in names:
            left.pop(name, None)
    for word, export in left.items():
        raise export.operation.fault("its contract cites %s, which no module under `uses` defines" % word)
    return "".join(lines)


# ---- the functions

def signature(export):
    parameters = ["%s: %s" % pair for pair in export.parameters]
    head, end = 'pub extern "C" fn %s(' % export.symbol, ") -> %s" % export.gives
    line = head + ", ".join(parameters) + end
    return line if len(line) <= LONGEST else head + "".join("\n    %s," % parameter for parameter in parameters) + "\n" + end


def function(export):
    heading, note = export.operation.record.get("heading"), export.operation.record.get("note")
    body = "".join("    %s\n" % line for line in export.body.split("\n"))
    return "%s\n%s#[unsafe(no_mangle)]\n%s\n    ensures { %s }\n{\n%s}\n" % (
        "\n// ---- %s\n" % export.filled(heading) if heading else "", "// %s\n" % note if note else "", signature(export), export.contract, body,
    )


def proof(export):
    """The files of its proof, where templates make them."""
    place = os.path.join(CRATES, export.face, "proofs", export.symbol)
    shape = export.operation.get("proof")
    if shape == BY_HAND:
        if not any(os.path.exists(os.path.join(place, file)) for file in PROOF):
            raise export.operation.fault("its proof is by hand, and crates/%s/proofs/%s has none of %s" % (export.face, export.symbol, ", ".join(PROOF)))
        return []
    if shape == NOT_NEEDED:
        return []
    folder = os.path.join(TEMPLATES, "promisebook_" + export.operation.family.name, "proofs")
    if export.kind and os.path.isdir(os.path.join(folder, export.kind.sign)):
        folder = os.path.join(folder, export.kind.sign)
    named = {**export.kind.code_words(), "OPERATION": export.name}
    made = [(os.path.join(place, file), filled(text, named)) for name, file, text in proofs(folder, export.kind.width) if name == shape]
    if not made:
        found = os.path.relpath(folder, os.path.dirname(TEMPLATES))
        raise export.operation.fault("there is no proof of the shape %s (%s.answers.antt.in in generate/%s)" % (shape, shape, found))
    return made


# ---- the faces

def faces():
    """The exports of each face, those of one width together where the family has a title for each."""
    made = {}
    for export in exports():
        made.setdefault(export.face, []).append(export)
    for face, found in made.items():
        if found[0].operation.family.record.get("title"):
            found.sort(key=lambda export: WIDTHS.index(export.kind.width))
        yield face, found


def proved():
    """The faces that templates prove."""
    return [face for face, found in faces() if all(export.operation.get("proof") != BY_HAND for export in found)]


def source(found):
    record, width = found[0].operation.family.record, None
    text = "".join("// %s\n" % line for line in found[0].filled(record.get("opening")).split("\n")) + "#![tactic(auto)]\n\n" + uses(found)
    for export in found:
        if record.get("title") and export.kind.width != width:
            width = export.kind.width
            text += "\n// ---- %s\n" % export.filled(record.get("title"))
        text += function(export)
    return text


def files():
    for face, found in faces():
        yield os.path.join(CRATES, face, "src", "lib.rt"), source(found)
        for export in found:
            yield from proof(export)
