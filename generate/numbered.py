"""The crate numbered: all operations, with what each takes and answers."""
import os

from code import enum, grouped, listed
from forms import form, forms
from kinds import KINDS
from numbering import BYTES, GROUPS, NOTHING, ORDER, OTHER, OWN, SETS, TRUTH, by_answer, camel, given, on_numbers, rows
from templates import CRATES, filled_file

SHAPES = {OWN: "Shape::Own", OTHER: "Shape::Other", TRUTH: "TRUTH", ORDER: "ORDER", BYTES: "BYTES"}
# The sets of several groups, as the code calls them.
SET_NAMES = {"B": "INTEGERS", "T": "UNSIGNED", "S": "SIGNED", "U": "COUNTED", "W": "OF_BYTES"}
KIND = {kind.name: "Kind::" + camel(kind.name) for kind in KINDS}


def group(name):
    return "Group::Integers(%s)" % KIND[name] if name in KIND else "Group::" + camel(name)


def shapes(letters):
    """A slice of the shapes that letters stand for."""
    found = [SHAPES.get(letter) or GROUPS[ord(letter) - ord("A")].upper() for letter in letters.rstrip(NOTHING)]
    return "&[%s]" % ", ".join(found)


def given_lengths():
    """A slice that is given has as many bytes as the kind."""
    found = []
    for row in rows():
        types = dict(row.exports[0].parameters)
        for name, value in given(row.exports[0]).items():
            if types[name].startswith("&"):
                assert int(value) == row.exports[0].kind.bits // 8, row
                found.append(row.variant)
    return found


def owners():
    """Who has operations: a constant for each set of several groups."""
    found = [(SET_NAMES[letter], [group(name) for name in GROUPS if name in SETS[letter]]) for letter in SETS if letter in SET_NAMES]
    return "\n".join(listed("const %s: [Group; %d]" % (name, len(groups)), groups) for name, groups in found)


def owner(row):
    return "&" + (SET_NAMES.get(row.of) or "[%s]" % group(row.exports[0].group))


def files():
    yield os.path.join(CRATES, "numbered", "src", "lib.rt"), filled_file(
        "numbered/lib.rt.in",
        KINDS=enum("Kind", map(camel, KIND)),
        KINDLIST=listed("pub const ALL: [Kind; %d]" % len(KIND), KIND.values(), "    "),
        SIGNED=grouped("self", {"true": [KIND[kind.name] for kind in KINDS if kind.sign == "signed"]}, "false"),
        OTHERS=grouped("self", {KIND[kind.other]: [KIND[kind.name]] for kind in KINDS}),
        WIDTHS=grouped("self", {str(bits): [KIND[kind.name] for kind in KINDS if kind.bits == bits] for bits in dict.fromkeys(kind.bits for kind in KINDS)}),
        GROUPLIST=listed("pub const ALL: [Group; %d]" % len(GROUPS), map(group, GROUPS), "    "),
        GROUPNAMES=grouped("self", {'"%s"' % name: [group(name)] for name in GROUPS}),
        OWNERS=owners(),
        SHAPES="\n".join("const %s: Shape = Shape::Always(Part::Number(%s));\n" % pair for pair in always()),
        OPERATIONS=enum("Operation", [row.variant.partition("::")[2] for row in rows()]),
        OPERATIONLIST=listed("pub const ALL: [Operation; %d]" % len(rows()), [row.variant for row in rows()], "    "),
        ON_NUMBERS=listed("pub const ON_NUMBERS: [Operation; %d]" % len(on_numbers()), [row.variant for row in on_numbers()], "    "),
        NAMES=grouped("self", by_answer(lambda row: '"%s"' % row.name)),
        TAKES=grouped("self", by_answer(lambda row: shapes(row.takes))),
        SAYS=grouped("self", by_answer(lambda row: shapes(row.says))),
        OWNED=grouped("self", by_answer(owner)),
        FORMOF=grouped("self", by_answer(lambda row: "Form::" + camel(form(row.exports[0])))),
        GIVEN=grouped("operation", {"self.width() as usize / 8": given_lengths()}, "0"),
        FORMS=enum("Form", map(camel, forms())),
    )


def always():
    """The kinds that operations take or answer whatever their own kind is."""
    letters = sorted({letter for row in rows() for letter in row.takes + row.says if letter.isupper()})
    return [(GROUPS[ord(letter) - ord("A")].upper(), KIND[GROUPS[ord(letter) - ord("A")]]) for letter in letters]
