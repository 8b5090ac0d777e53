"""What `ask --help` lists, a line for each name and its arguments: crates/ask/src/help.rt, and the same as text, docs/ask_help.txt, for whoever has no program
yet. And what each operation takes, as the crate `reasons` says it."""
import os
import re

from code import function, grouped
from numbering import asked, by_answer, rows
from templates import CRATES, filled_file

LINES = 20  # of one function
PRINTS = "fn %s<W: Write>(out: &mut W) -> io::Result<()>"
LISTED = {"B": ["T", "S"], "b": ["bytes"], "t": ["text"]}


def shown(export):
    """The arguments as the help and docs/ASK.md call them."""
    names = dict(pair.split() for pair in (export.operation.get("shown") or "").split(",") if pair.strip())
    return [names.get(name, name) for name, _ in asked(export)]


def lines(group):
    for row in rows():
        if group in LISTED.get(row.of, [row.of]):
            yield "    %s.%s %s" % (group, row.name, " ".join(shown(row.exports[0])))


def in_turn(calls):
    """Calls that may fail, one after another: the last one's answer is the answer."""
    return "".join("    %s?;\n" % call for call in calls[:-1]) + "    %s\n" % calls[-1]


def lists(groups):
    """Functions that print the lines of the groups: their calls, and their text."""
    calls, texts = [], []
    for group in groups:
        found = list(lines(group))
        for start in range(0, len(found), LINES):
            name = "list_%s%s" % (group.lower(), "" if not start else "_%d" % (start // LINES + 1))
            calls.append("%s(out)" % name)
            texts.append(function(PRINTS % name, in_turn(['show::text(out, "%s\\n")' % line for line in found[start:start + LINES]])))
    return calls, texts


def files():
    calls_of_integers, integers = lists(["T", "S", "U", "W"])
    calls_of_bytes, others = lists(["bytes", "text"])
    calls = in_turn(["how_to_ask(out)", "legend_of_integers(out)"] + calls_of_integers + ["legend_of_bytes(out)"] + calls_of_bytes)
    text = filled_file("ask/help.rt.in", CALLS=calls, LISTS="\n".join(integers + others))
    yield os.path.join(CRATES, "ask", "src", "help.rt"), text
    yield os.path.join(os.path.dirname(CRATES), "docs", "ask_help.txt"), printed(text)
    names = grouped("operation", by_answer(lambda row: '"%s"' % " ".join(shown(row.exports[0]))), pad="    ")
    yield os.path.join(CRATES, "reasons", "src", "takes.rt"), filled_file("reasons/takes.rt.in", SHOWN=names)


def printed(code):
    """What help.rt prints: the texts of its functions, in the order in which `print` calls them."""
    bodies = dict(re.findall(r"^(?:pub )?%s \{\n(.*?)^\}" % (re.escape(PRINTS) % r"(\w+)"), code, re.M | re.S))
    texts = [text for name in re.findall(r"(\w+)\(out\)", bodies["print"]) for text in re.findall(r'"((?:[^"\\]|\\.)*)"', bodies[name])]
    return "".join(texts).replace("\\n", "\n")
