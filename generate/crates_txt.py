"""The lines of crates.txt of the crates that come from the table of operations: what a crate rests on is what its files name, and the crates of the structs that
the exports that it calls give. The other lines are written by hand."""
import os
import re

from declared import Struct, exports
from table import Fault
from templates import CRATES, read

PATH = os.path.join(os.path.dirname(CRATES), "crates.txt")
LINE = re.compile(r"^(\w+)(?: staticlib)?:", re.M)


def named(text, known):
    """The crates that a text names: by a path of code, by an import, by a module of laws."""
    found = re.findall(r"\b(\w+)::|^use (\w+) as |Rattle\.(\w+)", re.sub(r"(?m)^ *//.*$", "", text), re.M)
    return {name for names in found for name in names if name in known}


def rests_on(crate, texts, known, answered):
    found = set()
    for text in texts:
        found |= named(text, known)
        found |= {answered[symbol] for symbol in re.findall(r"\bpb_\w+", text) if symbol in answered}
    return found - {crate}


def line(listed, found, order):
    return "%s:%s" % (listed, "".join(" " + name for name in sorted(found, key=order.index)))


def files(made):
    stored = read(PATH)
    order = LINE.findall(stored)
    answered = {export.symbol: export.answer.crate for export in exports() if isinstance(export.answer, Struct)}
    texts = {}
    for path, text in made.items():
        if path.startswith(CRATES + os.sep) and path.endswith((".rt", ".antt")):
            texts.setdefault(os.path.relpath(path, CRATES).split(os.sep)[0], []).append(text)
    for crate, own in texts.items():
        if not any(path.startswith(os.path.join(CRATES, crate, "src") + os.sep) for path in made):
            continue
        if crate not in order:
            raise Fault("crates.txt does not list %s: put a line `%s:` where its layer stands, and the generator fills it in" % (crate, crate))
        whole = own + [read(os.path.join(place, file)) for place, _, names in os.walk(os.path.join(CRATES, crate)) for file in names
                       if file.endswith((".rt", ".antt")) and os.path.join(place, file) not in made]
        found = rests_on(crate, whole, order, answered)
        stored = re.sub(r"(?m)^(%s(?: staticlib)?):.*$" % crate, lambda listed: line(listed.group(1), found, order), stored)
    yield PATH, stored
