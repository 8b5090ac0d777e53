"""bindings/verus/promisebook.rs: what Verus is to believe of each function of the Rust crate, an assume_specification in vstd's terms, from the table's
fields."""
import os
import re

from bindings.rust_functions import NUMBERS, PART, WHOLE, functions
from templates import filled_file

WIDTH = 160
PLACES = re.compile(r"(.*)\.\.(.*)")
OPERATORS = (" ==> ", " <==> ", " && ")  # before which a long line is broken


class Spec:
    """The specification of one function."""

    def __init__(self, function):
        self.function = function
        if not (self.field("verus") or self.field("leaves") or self.field("besides")):
            raise function.operation.fault("it lacks what the Rust crate's function promises in Verus' terms (the field `verus`, `leaves` or `besides`)")

    # ---- the table's fields, with the slice or part for S

    def field(self, name):
        function = self.function
        text = function.kind and function.kind.sign == "signed" and function.says(name + " of S") or function.says(name)
        if not text:
            return None
        text = self.of_own_type(function.export.filled(text.replace("\n", " ")))
        return text if function.form == NUMBERS else re.sub(r"\bS\b", self.slice, text)

    def of_own_type(self, text):
        """An unsigned number's fields for the signed number of the same bits."""
        if not self.function.casts:
            return text
        words = self.function.kind.code_words()
        for name, kind in self.function.parameters:
            if kind == words["INT"]:
                text = re.sub(r"\b%s\b" % name, "%s_of(%s)" % (words["UINT"], name), text)
        return text

    @property
    def whole(self):
        """All of the slice, before the call."""
        return "old(%s)@" % self.function.slice[0] if self.function.is_lent else "%s@" % self.function.slice[0]

    @property
    def slice(self):
        return "part_of(%s, part)" % self.whole if self.function.form == PART else self.whole

    # ---- when it answers, what, and what it leaves

    @property
    def begins(self):
        """What is written at the start of the slice or part; None where it is not such a function."""
        return self.field("verus") if self.function.says("begins") and not self.is_array else None

    @property
    def is_array(self):
        """Whether the bytes are answered as an array."""
        return self.function.form == WHOLE and self.function.array is not None

    @property
    def conditions(self):
        listed = ["is_part(%s, part)" % self.whole] if self.function.form == PART else []
        listed += [self.field("when")] if self.field("when") else []
        listed += ["%s <= %s.len()" % (self.function.array or self.begins + ".len()", self.slice)] if self.begins else []
        return [text for text in listed if text != "true"]

    def answered(self):
        """The value inside the Option, if there is one, as an expression; None where it is told by facts alone, or by several."""
        function, value = self.function, self.field("verus")
        if function.answer.inner == "()":
            return "()"
        if self.begins:
            return "%s.len() as usize" % self.begins
        if function.says("places") or function.answer.inner == getattr(function.export.answer, "own_name", None) or self.is_array:
            return None
        return "%s_of(%s)" % (function.kind.name, value) if function.casts else value

    def facts(self, r):
        """What holds of the value r."""
        value, function = self.field("verus"), self.function
        if self.is_array:
            yield "%s@ == %s" % (r, value)
        elif function.says("places"):
            items = [item.strip() for item in split(value)]
            for name, item in zip(names(len(items)), items):
                yield from placed(function, self.slice, name, item)
        elif self.answered() is None and value:
            for (name, _), item in zip(function.export.answer.fields[1:], split(value), strict=True):
                yield "%s.%s == %s" % (r, name, item.strip())
        elif self.answered() not in (None, "()"):
            yield "%s == %s" % (r, self.answered() if simple(self.answered()) else "(%s)" % self.answered())
        besides = re.sub(r"\bR\b", r, self.field("besides") or "")
        if besides:
            yield "(%s)" % besides if top_level(besides, " ==> ") >= 0 else besides

    def clauses(self):
        function, when = self.function, " && ".join(self.conditions)
        if not function.answer.refuses:
            yield from self.facts("r")
        elif self.answered() and not self.field("besides"):
            yield "r == (if %s { Some(%s) } else { None })" % (when, self.answered()) if when else "r == Some(%s)" % self.answered()
        else:
            pattern = "(%s)" % ", ".join(names(len(split(self.field("verus"))))) if function.says("places") and len(split(self.field("verus"))) > 1 else "v"
            yield "r is Some <==> %s" % when
            yield "r matches Some(%s) ==> %s" % (pattern, " && ".join(self.facts("v")))
        if function.form != NUMBERS and function.is_lent and function.slice in function.parameters:
            yield "final(%s)@ == %s" % (function.slice[0], self.left())

    def left(self):
        """What the slice holds afterwards."""
        new = self.field("leaves") or "begun(%s, %s)" % (self.slice, self.begins)
        new = "with_part(%s, part, %s)" % (self.whole, new) if self.function.form == PART else new
        return "(if r is Some { %s } else { %s })" % (new, self.whole) if self.function.answer.refuses else new

    def text(self):
        function = self.function
        item = function.export.filled(function.says("vstd"))
        replaced = "beyond vstd" if item == "beyond" or function.casts else "%s %s" % ("computes" if item.startswith("utf8 ") else "replaces", item)
        parameters = ", ".join("%s: %s" % pair for pair in function.parameters)
        head = "pub assume_specification[ promisebook::%s::%s ](%s)" % (function.module, function.name, parameters)
        answer = function.answer.type
        lines = ["// %s%s" % (replaced, ", of a part" * (function.form == PART)), head + (" -> (r: %s)" % answer if answer != "()" else ""), "    ensures"]
        for clause in self.clauses():
            lines += laid_out(clause, 8)
        return "\n".join([*lines, "    opens_invariants none", "    no_unwind", ";", ""])


def names(count):
    return ("a", "b", "c")[:count] if count > 1 else ("v",)


def split(text):
    """Parts with commas between, those in parentheses and brackets left alone."""
    parts, depth = [""], 0
    for letter in text:
        depth += {"(": 1, "[": 1, "{": 1, ")": -1, "]": -1, "}": -1}.get(letter, 0)
        if letter == "," and depth == 0:
            parts.append("")
        else:
            parts[-1] += letter
    return parts


def simple(text):
    """Whether it needs no parentheses behind ==."""
    return not re.search(r"==|!=|<|>|&&|\bif\b|\bforall\b", text)


def integer(text):
    return text if text.isdigit() else "%s as int" % text


def placed(function, s, name, item):
    """What holds of an item of an answer of places: of a whole slice its bytes, of a part its ends."""
    match = PLACES.fullmatch(item)
    if not match:
        yield "%s == %s" % (name, item)
    elif function.form == WHOLE:
        yield "%s@ == %s.subrange(%s, %s)" % (name, s, integer(match.group(1)), integer(match.group(2)))
    else:
        for end, place in zip(("start", "end"), match.groups()):
            yield "%s.%s == %s" % (name, end, "part.end" if place == s + ".len()" else "part.start + " + place if place != "0" else "part.start")


# ---- layout

def top_level(text, mark, start=0):
    """The first place of a mark outside of all brackets; -1 where there is none."""
    depth = 0
    for place in range(start, len(text)):
        if depth == 0 and text.startswith(mark, place):
            return place
        depth += {"(": 1, "[": 1, "{": 1, ")": -1, "]": -1, "}": -1}.get(text[place], 0)
    return -1


def laid_out(text, indent, behind=","):
    """Lines of a clause: one where there is room, else broken at its outermost `if`, operator or call."""
    if indent + len(text) + len(behind) <= WIDTH:
        return [" " * indent + text + behind]
    place = top_level(text, "if ")
    if place >= 0:
        return choice(text[:place], text[place:], indent, behind)
    if any(top_level(text, mark) >= 0 for mark in OPERATORS):
        return packed(text, indent, behind)
    place = max(at for at, letter in enumerate(text) if letter == "(" and text[at:].count("(") == text[at:].count(")") and top_level(text[at:], ")") < 0)
    return [" " * indent + text[:place + 1], *laid_out(text[place + 1:-1], indent + 4, ""), " " * indent + ")" + behind]


def packed(text, indent, behind):
    """Broken before operators, with as much on a line as there is room for."""
    parts, place = [], 0
    while place >= 0:
        found = [at for at in (top_level(text, mark, place + 1) for mark in OPERATORS) if at >= 0]
        parts.append(text[place:min(found)] if found else text[place:])
        place = min(found, default=-1)
    lines = [" " * indent + parts[0]]
    for part in parts[1:]:
        if len(lines[-1]) + len(part) + len(behind) <= WIDTH:
            lines[-1] += part
        else:
            lines.append(" " * (indent + 4) + part.strip())
    return lines[:-1] + [lines[-1] + behind]


def choice(lead, text, indent, behind):
    """`if CONDITION { THEN } else ..`, what stands before it, and what behind."""
    brace = top_level(text, "{")
    middle = top_level(text, "} else ", brace + 1)
    rest = text[middle + len("} else "):]
    head = lead + text[:brace + 1]
    lines = [" " * indent + head] if indent + len(head) <= WIDTH else packed(head, indent, "")
    lines += laid_out(text[brace + 1:middle].strip(), indent + 4, "")
    if rest.startswith("if "):
        return lines + choice("} else ", rest, indent, behind)
    return lines + [" " * indent + "} else {", *laid_out(rest[1:-1].strip(), indent + 4, ""), " " * indent + "}" + behind]


def specifications(found):
    """All of them, by modules: {group: specifications}."""
    return {group: [Spec(function) for function in listed] for group, listed in functions(found).items()}


def files(found, folder):
    groups = ["// ---- %s\n\n%s" % (listed[0].function.module, "\n".join(spec.text() for spec in listed)) for listed in specifications(found).values()]
    yield os.path.join(folder, "promisebook.rs"), filled_file("bindings/verus.rs.in", SPECIFICATIONS="\n".join(groups))
