"""tests/against_rust/of_integers.rs: what Rust's standard library is asked for under the names of integers."""
import os

from kinds import KINDS
from numbering import asked, rows
from templates import CRATES, filled_file

PATH = os.path.join(os.path.dirname(CRATES), "tests", "against_rust", "of_integers.rs")
GIVEN = ["", "one", "two", "three", "four", "five"]  # a question with so many arguments


def expression(export):
    if export.operation.get("rust"):
        return export.filled(export.operation.get("rust"))
    first, *others = (name for name, _ in asked(export))
    return "%s.%s(%s)" % (first, export.name, ", ".join(others))


def arm(row, export):
    types = dict(export.parameters)
    parameters = ["%s: %s" % (name, "Bytes" if kind.startswith("&") else types[name]) for name, kind in asked(export)]
    return '        "%s" => question.%s(|%s| %s),\n' % (row.name, GIVEN[len(parameters)], ", ".join(parameters), expression(export))


def function(kind):
    arms = "".join(arm(row, export) for row in rows() for export in row.exports if export.kind == kind)
    return (
        "pub fn %s(operation: &str, question: Question) -> Answered {\n    match operation {\n%s        _ => Err(NoAnswer::Unknown),\n    }\n}\n" % (kind.name, arms)
    )


def files():
    yield PATH, filled_file("of_integers.rs.in", FUNCTIONS="\n".join(map(function, KINDS)))
