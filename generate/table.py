"""The table of operations: reads operations/*.txt (operations/README.txt says how they are written), and says what is wrong with a record by its file and
line."""
import functools
import glob
import os
import re
from dataclasses import dataclass, field

from templates import HERE, read

ROOT = os.path.dirname(HERE)
FOLDER = os.path.join(HERE, "operations")
# The families, in the order in which everything lists them.
ORDER = ["integers", "zeros", "number_bytes", "slices", "text", "decimal"]
OF_FAMILY = re.compile(
    r"family|of|face|opening|uses|home|home of [A-Z]|title|about|module|struct \w+|word [A-Z_]+|bytes \w+|cases [a-z ]+?(?: of [A-Z])?"
)
OF_OPERATION = [
    "name", "of", "heading", "note", "takes", "gives", "home", "body", "contract", "proof", "sentence", "vstd", "cases", "characters", "shown", "asked",
    "given", "said", "answer", "also asked", "rust", "whole", "part", "always", "places", "range", "begins", "array", "error", "signed",
    "when", "when of S", "verus", "verus of S", "leaves", "besides",
]
# What every operation has, of its own or from its family; `body` may stand for `home`.
NEEDED = {
    "of": "of which types it is",
    "takes": "what it takes",
    "gives": "what it gives",
    "contract": "the contract of its export",
    "proof": "the shape of its export's proof",
    "sentence": "a sentence in plain words",
    "vstd": "where vstd promises it (or: beyond)",
    "cases": "cases for its example",
}


class Fault(SystemExit):
    """What is wrong with the table; ends the generator, which prints it."""


@dataclass
class Record:
    where: str
    fields: dict = field(default_factory=dict)  # of a field that stands several times, `uses`, the values' list

    def get(self, name, otherwise=None):
        return self.fields.get(name, otherwise)


@dataclass
class Family:
    record: Record
    operations: list

    @property
    def name(self):
        return self.record.get("family")


@dataclass
class Operation:
    record: Record
    family: Family

    @property
    def name(self):
        return self.record.get("name")

    @property
    def where(self):
        return self.record.where

    def get(self, name, otherwise=None):
        """The operation's own field, or else its family's."""
        return self.record.get(name, self.family.record.get(name, otherwise))

    def fault(self, text):
        return Fault("%s: %s: %s" % (self.where, self.name, text))


def records(file, text):
    """The records of a text, each with the line that it begins in."""
    made, record, last = [], None, None
    for number, line in enumerate(text.split("\n"), 1):
        where = "generate/operations/%s:%d" % (file, number)
        if line.startswith("#"):
            continue
        if not line.strip():
            record = None
        elif line.startswith(" "):
            if record is None:
                raise Fault("%s: this line continues nothing" % where)
            joined = "\n" + line[1:]
            if last == "uses":
                raise Fault("%s: a line of `uses` has no second line" % where)
            record.fields[last] += joined
        else:
            name, colon, value = line.partition(":")
            if not colon:
                raise Fault("%s: this is no `field: value`" % where)
            if record is None:
                record = Record(where)
                made.append(record)
            last, value = name.strip(), value.strip()
            if last == "uses":
                record.fields.setdefault("uses", []).append(value)
            elif last in record.fields:
                raise Fault("%s: the field %s stands twice in one record" % (where, last))
            else:
                record.fields[last] = value
    return made


def family(file, text):
    made = records(file, text)
    if not made or "family" not in made[0].fields:
        raise Fault("generate/operations/%s: its first record is not that of the family (family: NAME)" % file)
    found = Family(made[0], [])
    for name in found.record.fields:
        if not OF_FAMILY.fullmatch(name) and name not in OF_OPERATION:
            raise Fault("%s: a family has no field %s" % (found.record.where, name))
    found.operations = [Operation(record, found) for record in made[1:]]
    for operation in found.operations:
        if not operation.name:
            raise Fault("%s: an operation without a name" % operation.where)
        for name in operation.record.fields:
            if name not in OF_OPERATION:
                raise operation.fault("an operation has no field %s" % name)
        for name, what in NEEDED.items():
            if not operation.get(name):
                raise operation.fault("it lacks %s (the field `%s`)" % (what, name))
        if not operation.get("body") and not operation.get("home"):
            raise operation.fault("it lacks the crate where its code is (the field `home`), or what its export does instead (`body`)")
    return found


def families(texts):
    """The families of {file: text}, in order."""
    found = {made.name: made for made in (family(file, text) for file, text in sorted(texts.items()))}
    for name in sorted(set(found) ^ set(ORDER)):
        raise Fault("generate/operations: the family %s is %s" % (name, "not in the list ORDER of table.py" if name in found else "not there"))
    return [found[name] for name in ORDER]


def stored():
    return {os.path.basename(path): read(path) for path in glob.glob(os.path.join(FOLDER, "*.txt")) if os.path.basename(path) != "README.txt"}


TEXTS = None  # other texts than those that are stored, which selftest.py tries


@functools.lru_cache(None)
def families_now():
    return families(TEXTS or stored())
