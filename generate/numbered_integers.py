"""The crates numbered_u8 .. numbered_isize and numbered_integers: the operations of each kind on numbers alone, and those of all kinds
together."""
import os

from code import every, function, match
from forms import NUMBERS, form, forms, module, variant
from kinds import KINDS
from numbering import camel, on_numbers
from templates import CRATES, filled_file

ABOUT = (
    "// The operations of %s on numbers alone (crate `numbered`), as the faces export them (written by generate/ from the table of operations).\n"
)


def handed():
    """The numbers that the modules are handed."""
    return NUMBERS[: max(len(row.exports[0].parameters) for row in on_numbers())]


def wrappers(kind):
    """The crates that turn bits into a number of the kind, and of the other sign: pairs of a crate and what modules call it."""
    crates = {export.kind.name: export.filled(export.homes()["sums"]) for row in on_numbers() for export in row.exports if "sums" in export.homes()}
    return sorted([(crates[kind.name], "own"), (crates[kind.other], "other")])


def most_common(found):
    """The types of parameters that most forms have, and their forms."""
    by_types = {}
    for _, export in found:
        by_types.setdefault(tuple(type_name for _, type_name in export.parameters), set()).add(form(export))
    return max(by_types.items(), key=lambda pair: len(pair[1]))


def of_kind(kind):
    """A kind's crate. What takes the most common parameters is a function of its own: two functions with half of the forms each cost half to check."""
    found = [(row, export) for row in on_numbers() for export in row.exports if export.kind == kind]
    functions, converters, arms, bits = module(found)
    types, common = most_common(found)
    names = ["%s_%s" % pair if pair[1] != "usize" else pair[0] for pair in zip("abcd", types)]
    inner = function(
        "fn of_common(operation: Operation, %s) -> Option<Parts>" % ", ".join("%s: %s" % pair for pair in zip(names, types)),
        match("operation.form()", [(variant(name), arms[name]) for name in forms() if name in common], "None"),
        "Those that take what most of them take.",
    )
    others = {name: arm for name, arm in arms.items() if name not in common}
    lets = "".join("    let %s = n[%d];\n" % (name, place) for place, name in enumerate(handed()))
    lets += "".join("    let %s = %s;\n" % (name, code) for name, code in bits.items())
    run = function(
        "pub fn run(operation: Operation, n: Numbers) -> Option<Parts>",
        lets + match("operation.form()", [(variant(name), arm) for name, arm in others.items()], "of_common(operation, %s)" % ", ".join(names)),
        "Arguments are cut down to their kind's width.",
    )
    called = [pair for pair in wrappers(kind) if any(pair[1] + "::" in text for text in [run, *converters])]
    uses = "#![tactic(auto)]\n\nuse numbered::{Form, Numbers, Operation, Parts};\n" + "".join("use %s as %s;\n" % pair for pair in called)
    return "\n".join([ABOUT % kind.name + uses, run, inner, *functions, *converters])


def files():
    for kind in KINDS:
        yield os.path.join(CRATES, "numbered_" + kind.name, "src", "lib.rt"), of_kind(kind)
    arms = [("Kind::" + camel(kind.name), "numbered_%s::run(operation, n)" % kind.name) for kind in KINDS]
    yield os.path.join(CRATES, "numbered_integers", "src", "lib.rt"), filled_file("numbered_integers/lib.rt.in", KINDS=every(arms))
