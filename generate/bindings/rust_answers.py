"""What the crate's functions answer: the type in Rust, the value by the independent meaning, and how a value is written.

A value is None of what is refused, and Refusal where a reason is answered; bytes of a part of a slice and of an array, Places of a range; a tuple of several
and of places."""
import re
from dataclasses import dataclass
from typing import Callable, NamedTuple

from declared import SLICE, Struct

ORDERINGS = {-1: "Ordering::Less", 0: "Ordering::Equal", 1: "Ordering::Greater"}
PLACES = re.compile(r"(\w+)\.\.(\w*)")  # a part, in the table's field `places`


class Refusal(NamedTuple):
    reason: str


class Places(NamedTuple):
    start: int
    end: int


@dataclass(frozen=True)
class Answer:
    inner: str  # the type inside
    around: tuple  # what may stand around it, the outermost first: Option, and the type of an error
    literal: Callable  # of a value that is not refused
    value: Callable = lambda found, s, start, end: found  # of what the meaning answers of the part from start to end of s, which holds what is left in it

    @property
    def type(self):
        text = self.inner
        for name in reversed(self.around):
            text = "Option<%s>" % text if name == "Option" else "Result<%s, %s>" % (text, name)
        return text

    @property
    def refuses(self):
        return "Option" in self.around

    def written(self, value):
        if value is None:
            return "None"
        text = self.literal(value) if not isinstance(value, Refusal) else None
        for name in reversed(self.around):
            text = "Some(%s)" % text if name == "Option" else "Ok(%s)" % text if text else "Err(%s::%s)" % (name, value.reason)
        return text


def is_struct(answer):
    return isinstance(answer, Struct)


def option(refuses):
    return ("Option",) if refuses else ()


# ---- of an export on numbers

def of_numbers(export):
    answer = export.answer
    if export.is_ordered:
        return Answer("Ordering", option(is_struct(answer)), ORDERINGS.get)
    return Answer(answer.value if is_struct(answer) else answer, option(is_struct(answer)), number(export))


def number(export):
    return lambda value: str(value).lower()


# ---- of a function on a slice

def taken_up(function):
    export, answer, on_part = function.export, function.export.answer, function.form == "part"
    if function.array and not on_part:
        return Answer("[u8; %d]" % function.array, (), lambda value: listed(value, export), lambda found, s, start, end: s)
    around = option(on_part or is_struct(answer) and not function.says("always"))
    if answer == "bool" and export.writes:
        return Answer("()", option(on_part or not function.says("always")), lambda value: "()", lambda found, s, start, end: () if found else None)
    if not is_struct(answer):
        return Answer(answer, around, number(export))
    if function.says("error"):
        reason = lambda found, s, start, end: Refusal(function.refusal(s[start:end])) if found is None else found
        return Answer(answer.value, option(on_part) + (function.says("error"),), number(export), reason)
    if answer.value:
        return Answer(function.own(answer.value), around, number(export))
    if function.says("places"):
        return of_places(function, around)
    return Answer(answer.own_name, around, lambda values: struct_literal(function, values))


def struct_literal(function, values):
    fields = [(name, literal(value, kind, function.export)) for (name, kind), value in zip(function.export.answer.fields[1:], values, strict=True)]
    return "%s::%s { %s }" % (function.module, function.export.answer.own_name, ", ".join("%s: %s" % field for field in fields))


def places(function):
    """What the field `places` lists: names, and pairs of names; None for an end that is the slice's."""
    for item in function.says("places").split(","):
        match = PLACES.fullmatch(item.strip())
        yield (match.group(1), match.group(2) or None) if match else item.strip()


def of_places(function, around):
    on_part, fields = function.form == "part", dict(function.export.answer.fields)
    types = [fields[item] if isinstance(item, str) else "Range<usize>" if on_part else "&[u8]" for item in places(function)]

    def value(found, s, start, end):
        if found is None:
            return None
        known = dict(zip(list(fields)[1:], found, strict=True), **{"0": 0})
        known[None] = end - start
        made = []
        for item in places(function):
            if isinstance(item, str):
                made.append(known[item])
            else:
                both = Places(start + known[item[0]], start + known[item[1]])
                made.append(both if on_part else s[both.start:both.end])
        return tuple(made)

    def item_literal(item):
        return range_literal(item) if isinstance(item, Places) else part_literal(item, function.export) if isinstance(item, bytes) else str(item)

    def written(values):
        return together([item_literal(item) for item in values])

    return Answer(together(types), around, written, value)


def together(items):
    return "(%s)" % ", ".join(items) if len(items) > 1 else items[0]


# ---- literals

def range_literal(pair):
    return "%d..%d" % tuple(pair)


def characters(value):
    return 'b"%s"' % value.decode("ascii")


def listed(value, export):
    if export.characters:
        return "*" + characters(value)
    return "[%s]" % ", ".join("0x%02x" % byte if export.group == "text" else str(byte) for byte in value)


def part_literal(value, export):
    text = literal(value, "&[u8]", export)
    return text + "[..]" if text.startswith("&") else text


def literal(value, written, export):
    """A value of a type; in the family of text, bytes that are text stand as text, and others and scalar values in hexadecimal."""
    if written == "Range<usize>":
        return range_literal(value)
    if not SLICE.fullmatch(written):
        return hex(value) if export.group == "text" and written == "u32" else str(value)
    if export.characters:
        return characters(value)
    text = value.decode("utf-8", "replace")
    if export.group == "text" and text.isprintable() and text and text.encode() == value:
        return '"%s".as_bytes()' % text
    return "&" + listed(value, export)
