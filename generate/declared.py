"""What the table says of an operation at one of its types, with every word filled in: its export, and what is asked and said of it."""
import ast
import functools
import glob
import operator
import os
import re
from dataclasses import dataclass

from kinds import BY_NAME, LETTERS
from table import families_now
from templates import CRATES, filled, read

SLICE = re.compile(r"&(mut )?\[(\w+)\]")
ORDERED = "order"


@dataclass(frozen=True)
class Export:
    """An exported function."""

    operation: object  # the record of the table
    kind: object  # the integer type that it is of; None of a family without
    group: str  # its name in front of the operation's: u8, bytes, text

    # ---- its parts

    def filled(self, text):
        """A text of the table with the words in capitals and the homes filled in."""
        table = self.kind.code_words() if self.kind else {}
        table = {**table, "NAME": self.name}
        for home, crate in self.homes().items():
            text = re.sub(r"\b%s::" % home, crate + "::", text)
        return filled(text, table)

    def homes(self):
        """The crates that hold the parts of a family's code: {part: crate}."""
        letter = {"unsigned": "T", "signed": "S"}[self.kind.sign] if self.kind else ""
        listed = self.operation.family.record.get("home of " + letter, "")
        return dict(pair.split() for pair in listed.split(",") if pair.strip())

    @property
    def name(self):
        return self.operation.name

    @property
    def asked_as(self):
        return "%s.%s" % (self.group, self.name)

    @property
    def symbol(self):
        return "pb_%s_%s" % (self.group, self.name)

    @property
    def face(self):
        return self.filled(self.operation.get("face"))

    @property
    def written_parameters(self):
        """Pairs of a name and a type as the table writes it."""
        pairs = [tuple(word.strip() for word in part.split(":", 1)) for part in self.operation.get("takes").split(",")]
        if any(len(pair) != 2 for pair in pairs):
            raise self.operation.fault("`takes` is not written as NAME: TYPE, NAME: TYPE ..")
        return tuple(pairs)

    @property
    def parameters(self):
        """Pairs of a name and a type."""
        own = {"own": self.kind.name, "other": self.kind.other} if self.kind else {}
        pairs = tuple((name, own.get(kind, kind)) for name, kind in self.written_parameters)
        for name, kind in pairs:
            if not (kind == "bool" or kind in BY_NAME or SLICE.fullmatch(kind)):
                raise self.operation.fault("its parameter %s has the type %s, for which nothing has a form" % (name, kind))
        return pairs

    @property
    def gives(self):
        """A type's name, or of `.. or none` the struct that C reads such an answer from."""
        value, none, _ = self.operation.get("gives").partition(" or none")
        named = self.kind.name if value == "own" else self.kind.other if value == "other" else self.filled(value)
        return "answers::Answer" + named.capitalize() if none else named

    @property
    def answer(self):
        """What it gives: a type's name, or the struct that a path names."""
        return self.gives if self.gives == "bool" or self.gives in BY_NAME else struct(self)

    @property
    def body(self):
        if self.operation.get("body"):
            return self.filled(self.operation.get("body"))
        home = self.operation.get("home")
        call = self.filled("%s::NAME(%s)" % (self.homes().get(home, home), ", ".join(name for name, _ in self.parameters)))
        return call if isinstance(self.answer, str) else call + ".into()"

    @property
    def contract(self):
        """The ensures: in brackets stands what enters as a whole number, `pos` of an unsigned one."""
        types = {**dict(self.parameters), "result": self.gives, "result.value": self.value_type}

        def whole(match):
            name = match.group(1)
            if types.get(name) not in BY_NAME:
                raise self.operation.fault("its contract has [%s], which is no number that it takes or gives" % name)
            unsigned = BY_NAME[types[name]].sign == "unsigned"
            text = "pos " + name if unsigned else name
            return "(%s)" % text if " " in text and match.start() > 0 else text

        return self.filled(re.sub(r"\[([^\]]*)\]", whole, self.operation.get("contract")))

    @property
    def value_type(self):
        return self.answer.value if isinstance(self.answer, Struct) else None

    @property
    def writes(self):
        return any(kind.startswith("&mut ") for _, kind in self.parameters)

    @property
    def takes_slices(self):
        return any(kind.startswith("&") for _, kind in self.parameters)

    @property
    def is_ordered(self):
        """Whether its number says how two stand to each other."""
        return self.operation.get("said") == ORDERED

    @property
    def sentence(self):
        text = self.operation.get("sentence").replace("\n", " ")
        for name, words in self.operation.family.record.fields.items():
            if name.startswith("word "):
                text = text.replace(name[5:], words)
        text = text.format(**self.kind.sentence_words()) if self.kind else text
        known = {name for name, _ in self.parameters} | {name for name, _ in getattr(self.answer, "fields", ())}
        for code in re.findall(r"`([^`]*)`", text):
            for name in set(re.findall(r"[a-z_]\w*", code)) - known:
                raise self.operation.fault("its sentence names %s, which is no parameter and no field of the answer" % name)
        return text

    @property
    def characters(self):
        """Whether its bytes are shown as characters."""
        return self.operation.get("characters") == "yes"

    # ---- the cases of its example

    def arguments(self, meanings):
        """The arguments of each case, from the table, or from the meanings where a name stands there that only they know."""
        written, record = self.operation.get("cases"), self.operation.family.record
        letter = {"unsigned": "T", "signed": "S"}[self.kind.sign] if self.kind else ""
        for name in ("cases %s of %s" % (written, letter), "cases " + written):
            written = record.get(name, written)
        if hasattr(meanings, written) and "|" not in written:
            return getattr(meanings, written)(self.kind)
        return [self.case(text.split(), meanings) for text in written.split("|")]

    def case(self, words, meanings):
        if len(words) != len(self.parameters):
            raise self.operation.fault("a case has %d arguments (%s), and it takes %d" % (len(words), " ".join(words), len(self.parameters)))
        return tuple(self.spelled(word, meanings) if SLICE.fullmatch(kind) else number(word, self) for word, (_, kind) in zip(words, self.parameters))

    def spelled(self, word, meanings):
        """Bytes: two hex digits each, `-` for none, or a name, of the family's record or of the meanings, from a place on as NAME[1:]."""
        name, _, start = word.partition("[")
        known = self.operation.family.record.get("bytes " + name)
        if known is None and hasattr(meanings, name):
            return getattr(meanings, name)(self.kind)[int(start.rstrip(":]") or 0):]
        try:
            return bytes.fromhex(known if known is not None else "" if word == "-" else word)
        except ValueError:
            raise self.operation.fault("a case has %s where bytes are taken, which are no hex digits and no name of bytes" % word) from None


# ---- numbers in cases

SUMS = {ast.Add: operator.add, ast.Sub: operator.sub, ast.Mult: operator.mul, ast.Div: operator.floordiv}


def number(word, export):
    """A number as cases have it: 252, -7, 0x20ac, greatest-55, 2*bits-1; with `counting` it is a number that the meanings know."""
    names = {name: getattr(export.kind, name) for name in ("least", "greatest", "half", "bits")} if export.kind else {}
    if export.kind:
        names["counting"] = int.from_bytes(bytes(range(1, export.kind.bits // 8 + 1)), "big")

    def value(tree):
        if isinstance(tree, ast.Constant) and isinstance(tree.value, int):
            return tree.value
        if isinstance(tree, ast.Name) and tree.id in names:
            return names[tree.id]
        if isinstance(tree, ast.UnaryOp) and isinstance(tree.op, ast.USub):
            return -value(tree.operand)
        if isinstance(tree, ast.BinOp) and type(tree.op) in SUMS:
            return SUMS[type(tree.op)](value(tree.left), value(tree.right))
        raise export.operation.fault("a case has %s, which is no number" % word)

    try:
        return value(ast.parse(word, mode="eval").body)
    except SyntaxError:
        raise export.operation.fault("a case has %s, which is no number" % word) from None


# ---- the structs that are answered, as the crates that hold the code have them

STRUCT = re.compile(r"^#\[repr\(C\)\]\n(?:#\[derive\([^\n]*\n)?pub struct (\w+) \{\n(.*?)^\}", re.M | re.S)
FIELD = re.compile(r"^ *pub (\w+): (\w+),$", re.M)


@dataclass(frozen=True)
class Struct:
    crate: str
    name: str
    fields: tuple  # pairs of a name and a type, of which the first is ok

    @property
    def own_name(self):
        """Its name without its family's in front, which the crates of answers write there: Read of TextRead."""
        return re.sub(r"^[A-Z][a-z]+(?=[A-Z])", "", self.name) if self.crate.endswith("answers") else self.name

    @property
    def value(self):
        """The type of the value where it follows ok alone, else None."""
        return self.fields[1][1] if [name for name, _ in self.fields] == ["ok", "value"] else None


SOURCES = {}  # what other generators have made: {path: text}


@functools.lru_cache(None)
def structs(crate):
    folder = os.path.join(CRATES, crate, "src")
    paths = set(glob.glob(os.path.join(folder, "**", "*.rt"), recursive=True))
    paths |= {path for path in SOURCES if path.startswith(folder + os.sep) and path.endswith(".rt")}
    texts = [SOURCES[path] if path in SOURCES else read(path) for path in sorted(paths)]
    return {name: Struct(crate, name, tuple(FIELD.findall(fields))) for text in texts for name, fields in STRUCT.findall(text)}


def struct(export):
    crate, _, name = export.gives.rpartition("::")
    known = structs(crate)
    if name not in known:
        raise export.operation.fault("it gives %s, and %s has no #[repr(C)] struct %s" % (export.gives, crate or "no crate", name))
    if known[name].fields[0] != ("ok", "bool"):
        raise export.operation.fault("it gives %s, which does not begin with ok: bool" % export.gives)
    return known[name]


# ---- all of them

def of_operation(operation):
    """Its exports, one for each type that it is of."""
    for letter in operation.get("of").split():
        for kind in LETTERS.get(letter, [BY_NAME.get(letter)]):
            yield Export(operation, kind, kind.name if kind else letter)


def exports():
    """Every export, by the families' order and within one as the table has them."""
    return [export for family in families_now() for operation in family.operations for export in of_operation(operation)]


def grouped(found):
    """The exports of each integer type, by sign and width, then of each family."""
    groups = {name: [] for name in BY_NAME}
    for export in found:
        groups.setdefault(export.group, []).append(export)
    return {group: listed for group, listed in groups.items() if listed}
