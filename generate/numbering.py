"""Every operation as programs have it: those of integers on numbers alone first, then the others; with what each takes and answers, letter by letter.

A letter is x for the kind that the operation is of, o for the kind of the other sign, t for true or false, c for a comparison, b for bytes, . for nothing, and
a capital for a kind of its own."""
import functools
import re
from dataclasses import dataclass

from declared import SLICE, Struct, exports
from kinds import KINDS, LETTERS

GROUPS = [kind.name for kind in KINDS] + ["bytes", "text"]
TAKEN, SAID, NUMBERS = 5, 4, 4  # at most so many arguments, parts of an answer, and numbers among the arguments
OWN, OTHER, TRUTH, ORDER, BYTES, NOTHING = "xotcb."
# Which groups a letter of `of` stands for.
SETS = {
    "B": {kind.name for kind in KINDS}, "b": {"bytes"}, "t": {"text"}, **{letter: {kind.name for kind in kinds} for letter, kinds in LETTERS.items()},
}


@dataclass(frozen=True)
class Row:
    """An operation: the exports of one name that take and answer the same."""

    name: str
    takes: str
    says: str
    exports: tuple

    @property
    def of(self):
        groups = {export.group for export in self.exports}
        found = [letter for letter, known in SETS.items() if known == groups]
        if not found:
            raise self.exports[0].operation.fault(
                "the types that have it (%s) are no set that programs have a letter for (SETS of generate/numbering.py)" % " ".join(sorted(groups))
            )
        return found[0]

    @property
    def constant(self):
        """Its name in programs: with the family in front where that is no integer, and with the sign where another row has the name."""
        if self.of in "bt":
            return "%s_%s" % (self.exports[0].group.upper(), self.name.upper())
        return ("SIGNED_" if self.of == "S" and shared(self.name) else "") + self.name.upper()

    @property
    def variant(self):
        """The constant as a variant of an enum."""
        return "Operation::" + camel(self.constant)

    @property
    def on_numbers(self):
        """Whether it is an operation of integers on numbers alone."""
        return BYTES not in self.takes + self.says and self.of not in "bt"


def camel(name):
    return "".join(word.capitalize() for word in name.split("_"))


def letter(kind):
    """Of a type as the table writes it."""
    if SLICE.fullmatch(kind):
        return BYTES
    return {"own": OWN, "other": OTHER, "bool": TRUTH}.get(kind) or chr(ord("A") + GROUPS.index(kind))


def letter_of_field(export, kind):
    """Of a field of the struct that is given: of the operation's own kind where that is what it gives."""
    gives = export.operation.get("gives")
    own = {export.kind.name: OWN, export.kind.other: OTHER} if export.kind and gives == "own or none" else {}
    return own.get(kind) or letter(kind)


def asked(export):
    """The parameters that are asked for, in order: pairs of a name and a type as the table writes it."""
    listed = export.operation.get("asked")
    types = dict(export.written_parameters)
    names = listed.split() if listed else list(types)
    for name in names:
        if name not in types:
            raise export.operation.fault("`asked` names %s, which it does not take" % name)
    for name in types:
        if name not in names and name not in given(export):
            raise export.operation.fault("%s is neither asked for nor given (`given`)" % name)
    return [(name, types[name]) for name in names]


def given(export):
    """What is handed over for parameters that are not asked for: {name: number}, of a slice its length."""
    pairs = (part.split() for part in (export.operation.get("given") or "").split(",") if part.strip())
    return {name: export.filled(value) for name, value in pairs}


def said(export):
    """The parts of its answer: pairs of what is said and its letter. What is said is `r`, a field of the answer, a lent slice, or a number."""
    answer, types = export.answer, dict(export.parameters)
    if export.is_ordered:
        return [("value" if isinstance(answer, Struct) else "r", ORDER)]
    fields = dict(answer.fields) if isinstance(answer, Struct) else {}
    listed = export.operation.get("said")
    if listed:
        names = listed.split()
    elif fields:
        names = [name for name in fields if name != "ok"]
    else:
        names = [name for name, kind in types.items() if kind.startswith("&mut ")] if export.writes and answer == "bool" else ["r"]
    return [(name, part_letter(export, name, fields, types)) for name in names]


def part_letter(export, name, fields, types):
    if name == "r":
        return letter(export.operation.get("gives"))
    if name.isdigit():
        return letter("usize")
    if types.get(name, "").startswith("&mut "):
        return BYTES
    if name not in fields:
        raise export.operation.fault("`said` names %s, which is no field of the answer, no lent slice and no number" % name)
    return letter_of_field(export, fields[name])


@functools.lru_cache(None)
def rows():
    """All rows: of integers on numbers alone, then the others."""
    found = {}
    for export in exports():
        takes = "".join(letter(kind) for _, kind in asked(export)).ljust(TAKEN, NOTHING)
        says = "".join(part for _, part in said(export)).ljust(SAID, NOTHING)
        check_shape(export, takes, says)
        for name in [export.name] + (export.operation.get("also asked") or "").split():
            found.setdefault((name, takes, says, export.group if not export.kind else ""), []).append(export)
    made = [Row(name, takes, says, tuple(listed)) for (name, takes, says, _), listed in found.items()]
    return [row for row in made if row.on_numbers] + [row for row in made if not row.on_numbers]


def by_answer(value):
    """The operations by what a function of them answers: {answer: variants}."""
    found = {}
    for row in rows():
        found.setdefault(value(row), []).append(row.variant)
    return found


def check_shape(export, takes, says):
    """What programs can ask: bytes first and once more at most, and no more numbers than they hold."""
    numbers = len(takes.replace(BYTES, "").replace(NOTHING, ""))
    if len(takes) > TAKEN or len(says) > SAID or numbers > NUMBERS:
        most = "programs have at most %d arguments, %d numbers among them, and %d parts of an answer" % (TAKEN, NUMBERS, SAID)
        raise export.operation.fault("it cannot be asked: " + most)
    if not re.fullmatch(r"b?[^b.]*b?\.*", takes):
        raise export.operation.fault("it cannot be asked: bytes are the first argument, and other bytes the last (`asked`)")


def shared(name):
    """Whether several rows of integers have the name."""
    return sum(row.name == name and row.of not in "bt" for row in rows()) > 1


def on_numbers():
    return [row for row in rows() if row.on_numbers]
