"""The numbers in documents that the table and the crates settle, and the Rust crate's version, which is that of the file VERSION: each is written where a
sentence has it. The sentence stays as it is written by hand."""
import glob
import os
import re

from complete import functions
from declared import exports
from table import ROOT, Fault, families_now
from templates import CRATES, read

COMPARING = {"clone", "eq", "ne", "lt", "le", "gt", "ge", "cmp", "partial_cmp"}


def of(family, beyond=None):
    """How many exports a family has; of those alone that are, or are not, beyond vstd."""
    found = [export for export in exports() if export.operation.family.name == family]
    return sum(beyond is None or (export.operation.get("vstd") == "beyond" or export.name == "valid_up_to") == beyond for export in found)


def arithmetic():
    """The operations of integers but for comparing and copying, one for each sign."""
    family = next(family for family in families_now() if family.name == "integers")
    return sum(len(operation.get("of").split()) for operation in family.operations if operation.name not in COMPARING)


LAYERS = ["theory", "operations", "the promises", "the faces", "programs", "linked", "measured"]  # as the headings of crates.txt begin


def crates():
    """The crates of each layer: {layer: names}."""
    found, layer = {name: [] for name in LAYERS}, None
    for line in read(os.path.join(ROOT, "crates.txt")).split("\n"):
        name, colon, _ = line.strip("# ").partition(":")
        if line.startswith("#"):
            layer = name
        elif colon:
            found[layer].append(name.split()[0])
    return found


def layers():
    sizes = [len(found) for found in crates().values()]
    return [sum(sizes), *sizes]


def public():
    return sum(len(functions(crate)) for crate in crates()["operations"]) + len(exports())


def edits():
    """All, those of operations, and the others."""
    found = [path.split(os.sep)[-3] for path in glob.glob(os.path.join(CRATES, "*", "must-fail", "*.edit"))]
    operations = sum(crate in crates()["operations"] for crate in found)
    return [len(found), operations, len(found) - operations]


# The file, a sentence with the numbers in parentheses, and what they are.
SENTENCES = [
    ("README.md", r"(\d+) operations and the nine promises of comparing and copying for each sign, [^|]*: (\d+) exported functions", lambda: [
        arithmetic(), of("integers"),
    ]),
    ("README.md", r"leading and trailing zeros and ones at four widths: (\d+)", lambda: [of("zeros")]),
    ("README.md", r"the digit theory in any base: (\d+), and (\d+) highest first beyond vstd", lambda: [of("number_bytes", False), of("number_bytes", True)]),
    ("README.md", r"elements, parts, comparing, copying, reversing, pieces: (\d+)", lambda: [of("slices")]),
    ("README.md", r"counting, boundaries, white space: (\d+), and how far text is valid beyond vstd", lambda: [of("text", False)]),
    ("README.md", r"numbers to and from decimal text at every width, both signs: (\d+)", lambda: [of("decimal")]),
    ("bindings/rust/Cargo.toml", r'(?m)^version = "(.*)"', lambda: [read(os.path.join(ROOT, "VERSION")).strip()]),
    ("docs/DECISIONS.md", r"(\d+): (\d+) of theory, (\d+) of operations, (\d+) of promises, (\d+) faces, (\d+) of programs, (\d+) that are linked, (\d+) that is measured", layers),
    ("docs/DECISIONS.md", r"\| public functions \| (\d+), of which (\d+) are exported", lambda: [public(), len(exports())]),
    ("docs/DECISIONS.md", r"\| wrong answers refused \| (\d+): (\d+) of operations, (\d+) of clauses", edits),
]


def files():
    texts = {}
    for file, sentence, counted in SENTENCES:
        path = os.path.join(ROOT, file)
        text = texts.get(path) or read(path)
        match = re.search(sentence, text)
        if not match:
            raise Fault("%s: it no longer says `%s`, where the table of operations settles the number (SENTENCES of generate/counts.py)" % (file, sentence))
        for place, number in reversed(list(enumerate(counted(), 1))):
            text = text[: match.start(place)] + str(number) + text[match.end(place):]
        texts[path] = text
    yield from texts.items()
