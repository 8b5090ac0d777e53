"""What a safety case cites of an exported function: its rows in docs/CONTRACTS.md, the clause restated, the contract, the laws, and the wrong answers refused."""
from complete import contracts, promises


def once(names):
    return list(dict.fromkeys(names))


def shortened(names):
    """Names behind one of the same file without crate and file; edits of one function behind it: crate/function: edit, edit."""
    said, stands = [], None
    for name in names:
        front, _, rest = name.rpartition(".")
        said.append(rest if front == stands else name)
        stands = front
    return ", ".join(said)


def cited(export):
    """Pairs of what is cited and its names, in the order of a row."""
    rows = promises().get(export.symbol, [])
    of_rows = lambda field: once(name for row in rows for name in contracts().named(row, field))
    found = [
        ("rows", ", ".join(row.cited for row in rows)),
        ("clause", shortened(of_rows("restated"))),
        ("contract", "%s::%s" % (export.face, export.symbol)),
        ("law", shortened(of_rows("law"))),
        ("pinned by", shortened(of_rows("pinned"))),
        ("refused", shortened(once(edit for row in rows for edit in contracts().refused(row)))),
    ]
    return [(what, names) for what, names in found if names]


def citation(export):
    """The same in a line, as the header and the crate end what they say of a function."""
    return "Cited by %s." % "; ".join("%s %s" % pair for pair in cited(export))
