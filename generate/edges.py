"""What the programs `edges` and `every_pair` must print, worked out from the operations' meanings. Nothing is taken from a run."""
import itertools
import os

from kinds import BY_NAME, KINDS
from meanings import meaning
from numbering import ORDER, TRUTH, on_numbers, said
from templates import CRATES

ORDERS = {-1: "less", 0: "equal", 1: "greater"}


def edges_of(kind):
    root, half = 2 ** (kind.bits // 2), 2 ** (kind.bits - 1)
    if kind.sign == "unsigned":
        return [0, 1, 2, 3, 7, root - 1, root, half - 1, half, half + 1, 2 * half - 2, 2 * half - 1]
    return [0, 1, -1, 2, -2, 7, -7, root - 1, root, -root, -root - 1, half - 2, half - 1, 1 - half, -half]


def distances(kind):
    return [0, 1, kind.bits - 1, kind.bits, kind.bits + 1, 2 * kind.bits - 1, 31, 32, 33, 255, 2**31, 2**32 - 1]


def tried(export, written):
    """The arguments that are tried of a type as the table writes it."""
    kinds = {"own": export.kind, "other": BY_NAME[export.kind.other]}
    return [0, 1] if written == "bool" else edges_of(kinds[written]) if written in kinds else distances(export.kind)


def spelled(export, answer):
    """An answer as programs write it."""
    if answer is None:
        return "refused"
    parts = answer if isinstance(answer, tuple) else (answer,)
    letters = [letter for _, letter in said(export)]
    written = {ORDER: lambda part: ORDERS[part], TRUTH: lambda part: str(bool(part)).lower()}
    return " ".join(written.get(letter, str)(part) for part, letter in zip(parts, letters, strict=True))


def rows(kind):
    """The rows that a kind has, each with its export."""
    return [(row, export) for row in on_numbers() for export in row.exports if export.kind == kind]


def lines_of_edges():
    for kind in KINDS:
        for row, export in rows(kind) if not kind.width.all_pairs else []:
            first, *others = (tried(export, written) for _, written in export.written_parameters)
            for a in first:
                answers = [spelled(export, meaning(export)(kind, a, *rest)) for rest in itertools.product(*others)]
                yield "%s.%s %d: %s\n" % (kind.name, row.name, a, " ".join(answers))


def lines_of_every_pair():
    for kind in KINDS:
        for row, export in rows(kind) if kind.width.all_pairs else []:
            count = 256
            for _, written in export.written_parameters[1:]:
                count *= 2 if written == "bool" else 256
            yield "%s.%s %d\n" % (kind.name, row.name, count)


def files():
    yield os.path.join(CRATES, "edges", "stdout"), "".join(lines_of_edges())
    yield os.path.join(CRATES, "every_pair", "stdout"), "".join(lines_of_every_pair())
