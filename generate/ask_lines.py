"""What the program `ask` is asked in the gate, and what it must answer: crates/ask/stdin and stdout. First the cases of every export, answered by its meaning;
then the lines of templates/ask, which are written by hand: more arguments, and lines that are no questions. Nothing is taken from a run."""
import os

from declared import Struct
from meanings import cases, worked
from numbering import BYTES, ORDER, TRUTH, asked, given, rows, said
from table import Fault
from templates import CRATES, TEMPLATES, read

ORDERS = {-1: "less", 0: "equal", 1: "greater"}


def spelled(value):
    return bytes(value).hex() or "-" if isinstance(value, (bytes, bytearray)) else str(value)


def question(row, export, arguments):
    values = {name: value for (name, _), value in zip(export.parameters, arguments)}
    return " ".join(["%s.%s" % (export.group, row.name)] + [spelled(values[name]) for name, _ in asked(export)])


def answer(export, value, after):
    """What is said: of a slice, what it holds afterwards."""
    if value is None:
        return "refused"
    fields = [name for name, _ in export.answer.fields[1:]] if isinstance(export.answer, Struct) else ["r"]
    found = dict(zip(fields, value if isinstance(value, tuple) else (value,)))
    parts = []
    for name, letter in said(export):
        if letter == BYTES:
            parts.append(spelled(after[name]))
        elif letter == ORDER:
            parts.append(ORDERS[found[name]])
        else:
            part = found.get(name, name)
            parts.append(str(bool(part)).lower() if letter == TRUTH else str(part))
    return " ".join(parts)


def asked_cases(export):
    """The cases as questions have them: with what is given for the parameters that are not asked for."""
    here = {name: bytes(int(number)) if dict(export.parameters)[name].startswith("&") else int(number) for name, number in given(export).items()}
    found = [tuple(here.get(name, value) for (name, _), value in zip(export.parameters, arguments)) for arguments, _, _ in cases(export)]
    return worked(export, list(dict.fromkeys(found)))


def pairs():
    for row in rows():
        for export in row.exports:
            yield from ((question(row, export, arguments), answer(export, value, after)) for arguments, value, after in asked_cases(export))


def files():
    questions, answers = (read(os.path.join(TEMPLATES, "ask", name)) for name in ("stdin.in", "stdout.in"))
    if len(questions.rstrip("\n").split("\n")) != len(answers.rstrip("\n").split("\n")):
        raise Fault("generate/templates/ask: stdin.in and stdout.in have not as many lines")
    found = list(pairs())
    yield os.path.join(CRATES, "ask", "stdin"), "".join(line + "\n" for line, _ in found) + questions
    yield os.path.join(CRATES, "ask", "stdout"), "".join(line + "\n" for _, line in found) + answers
