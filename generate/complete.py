"""What an operation has besides its record, each by hand: its code, its independent meaning, its clause, law and row, its wrong answers, its rule in
every_pair. Yields a line for each that is missing."""
import functools
import glob
import importlib.util
import os
import re

from declared import SOURCES, exports
from meanings import MODULES
from numbering import on_numbers
from table import ROOT
from templates import CRATES, read

RULE = os.path.join(CRATES, "every_pair", "src", "rule.rt")
WRONG = 2  # so many wrong answers of each operation are refused, at one width


@functools.lru_cache(None)
def contracts():
    """docs/contracts.py, which reads the table of promises."""
    spec = importlib.util.spec_from_file_location("contracts", os.path.join(ROOT, "docs", "contracts.py"))
    module = importlib.util.module_from_spec(spec)
    spec.loader.exec_module(module)
    return module


@functools.lru_cache(None)
def promises():
    """The rows of docs/contracts that name an export: {export: rows}."""
    found = {}
    for file, text in contracts().sources().items():
        for part in contracts().parts(file, text):
            for name in contracts().named(part, "export") if isinstance(part, contracts().Row) else []:
                found.setdefault(name, []).append(part)
    return found


@functools.lru_cache(None)
def functions(crate):
    """The public functions of a crate."""
    folder = os.path.join(CRATES, crate, "src")
    paths = set(glob.glob(os.path.join(folder, "**", "*.rt"), recursive=True)) | {path for path in SOURCES if path.startswith(folder + os.sep)}
    return set(re.findall(r"^pub fn (\w+)", "\n".join(SOURCES[path] if path in SOURCES else read(path) for path in paths if path.endswith(".rt")), re.M))


@functools.lru_cache(None)
def tried():
    """The must-fail edits of each function: {crate::function: edits}."""
    found = {}
    for path in glob.glob(os.path.join(CRATES, "*", "must-fail", "*.edit")):
        crate, function, label = path.split(os.sep)[-3], *os.path.basename(path).split(".")[:2]
        found.setdefault("%s::%s" % (crate, function), set()).add("%s/%s.%s" % (crate, function, label))
    return found


def code(export):
    for crate, function in re.findall(r"\b(\w+)::(\w+)\(", export.body):
        if function not in functions(crate):
            yield "its code: crates/%s has no pub fn %s (`home` or `body`)" % (crate, function)


def meant(export):
    if not MODULES[export.operation.family.name].meaning(export.name):
        yield "an independent meaning: generate/meanings/%s.py has none of this name" % export.operation.family.name


def promised(export):
    rows, item = promises().get(export.symbol, []), export.filled(export.operation.get("vstd"))
    if not rows:
        yield "a row in docs/contracts that names %s" % export.symbol
        return
    if item == "beyond":
        laws = True
    else:
        file, _, name = item.partition(" ")
        if "%s %s" % (file.replace("/", "--"), name) not in [found for row in rows for found in contracts().items(row)]:
            yield "a row in docs/contracts of %s, vstd's %s (`vstd`)" % (export.symbol, item)
        laws = any(row.get("law") or row.get("operation") is None for row in rows) or export.operation.get("proof") in ("by hand", "none needed")
    if not laws:
        yield "a law in the rows of %s" % export.symbol
    edits = {edit for row in rows for edit in contracts().refused(row)}
    edits |= {edit for row in rows for name in contracts().named(row, "operation") for edit in tried().get(name, ())}
    if len(edits) < WRONG:
        yield "wrong answers: there are %d must-fail edits of it (in crates/*/must-fail, named in the rows of %s), and there must be %d" % (
            len(edits), export.symbol, WRONG,
        )


def ruled(rule):
    """Operations on numbers that the rule of every_pair does not name."""
    for row in on_numbers():
        if not re.search(r"\b%s\b" % row.variant, rule):
            yield row.exports[0].operation, "an independent rule: crates/every_pair/src/rule.rt does not name %s" % row.variant


def faults(rule=None):
    missing = {}
    for export in exports():
        assert export.sentence
        for each in (code, meant, promised):
            for what in each(export):
                missing.setdefault((export.operation.where, export.operation.name), []).append(what)
    for operation, what in ruled(rule or read(RULE)):
        missing.setdefault((operation.where, operation.name), []).append(what)
    for (where, name), listed in missing.items():
        first_of_a_kind = {what.split(":")[0].split(" pb_")[0]: what for what in reversed(listed)}
        yield from ("%s: %s: it lacks %s" % (where, name, what) for what in reversed(first_of_a_kind.values()))
