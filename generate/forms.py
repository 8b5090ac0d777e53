"""How programs run an operation: those of a form take and give the same, so that one function of a module runs them, which chooses by the number."""
import functools

from code import chosen, function
from declared import Struct
from numbering import BYTES, ORDER, SAID, asked, camel, given, rows, said

TAKEN_WORDS = {
    "own": "number", "other": "other", "u32": "u32", "usize": "place", "u8": "byte", "bool": "truth", "&[u8]": "bytes", "&mut [u8]": "bytes",
}
GIVEN_WORDS = {
    "own": "number", "other": "other", "bool": "test", "i8": "order",
    "own or none": "checked", "i8 or none": "partial_ordering", "usize or none": "place", "bool or none": "verdict", "u8 or none": "byte",
}
NUMBERS = ["first", "second", "third", "fourth"]


def given_word(export):
    """What it gives, in a word: of a struct its name, with what is said of it where that is not all."""
    gives = export.operation.get("gives")
    word = GIVEN_WORDS.get(gives) or "".join("_" + letter.lower() if letter.isupper() else letter for letter in gives.rpartition("::")[2]).strip("_")
    listed = export.operation.get("said")
    return word + "_said_" + listed.replace(" ", "_") if listed and not export.is_ordered else word


def form(export):
    """Its name: by what is asked, and, of integers on numbers alone, by what is given."""
    taken = "_".join(TAKEN_WORDS.get(kind, kind) for _, kind in asked(export))
    if not export.takes_slices and export.kind:
        return "%s_of_%s" % (given_word(export), taken)
    return ("writing_" if export.writes else "reading_") + taken


@functools.lru_cache(None)
def forms():
    """All of them, in the order of the operations."""
    return list(dict.fromkeys(form(export) for row in rows() for export in row.exports))


def variant(name):
    """A form in the enum of all."""
    return "Form::" + camel(name)


# ---- numbers as bits

UNSIGNED = {
    "u8": "numbered::low8(%s)", "u16": "numbered::low16(%s)", "u32": "numbered::low32(%s)", "u64": "%s", "usize": "%s as usize", "bool": "%s != 0",
}


def from_bits(export, kind, bits):
    """The number of a kind that has these bits; a module calls the crates `own` and `other` that turn bits into numbers of either sign."""
    if kind.startswith("i"):
        return "(%s).cast_signed()" % (UNSIGNED["u" + kind[1:]] % bits) if " " in UNSIGNED["u" + kind[1:]] else (UNSIGNED["u" + kind[1:]] % bits) + ".cast_signed()"
    return UNSIGNED[kind] % bits


def to_bits(export, kind, value):
    if kind == "bool":
        return "numbered::bit(%s)" % value
    if kind.startswith("i"):
        return "%s.cast_unsigned() as u64" % value if kind != "i64" else value + ".cast_unsigned()"
    return value if kind == "u64" else "%s as u64" % value


# ---- a module

def converter(export):
    """The function that makes an answer of what an export gives: its name and its text."""
    parts, answer = said(export), export.answer
    name = "as_" + given_word(export)
    if not isinstance(answer, Struct) and answer == "bool" and export.writes:
        name, body = "as_done", "    r.then_some([0; 4])\n"
    elif not isinstance(answer, Struct):
        body = "    numbered::order(r)\n" if parts[0][1] == ORDER else "    numbered::found(%s)\n" % to_bits(export, answer, "r")
    elif parts[0][1] == ORDER:
        body = "    if r.ok || r.value != 0 {\n        numbered::order(r.value)\n    } else {\n        None\n    }\n"
    else:
        fields = dict(answer.fields)
        shown = [part for part, letter in parts if letter != BYTES and not part.isdigit()]
        hidden = ["r.%s != 0" % field for field in fields if field != "ok" and field not in shown]
        bits = ["0" if letter == BYTES else part if part.isdigit() else to_bits(export, fields[part], "r." + part) for part, letter in parts]
        body = "    numbered::told(%s, [%s])\n" % (" || ".join(["r.ok", *hidden]), ", ".join((bits + ["0"] * SAID)[:SAID]))
    return name, function("fn %s(r: %s) -> Option<Parts>" % (name, export.gives), body)


def values(export):
    """What is handed over for each parameter: its name there, and how it is made of the numbers of the question; of a slice, the slice."""
    numbers = iter(NUMBERS)
    places = {name: None if kind.startswith("&") else next(numbers) for name, kind in asked(export)}
    slices = iter(["s", "other"])
    made = []
    for name, kind in export.parameters:
        if kind.startswith("&"):
            made.append((next(slices), None))
        elif name in places:
            letter = "abcd"[NUMBERS.index(places[name])]
            made.append((letter if kind == "usize" else "%s_%s" % (letter, kind), from_bits(export, kind, places[name])))
        else:
            made.append((given(export)[name], None))
    return made


def module(found):
    """The parts of a module for rows with their exports: functions, converters, the arms by form, and the numbers that are made of bits."""
    functions, converters, arms, bits = [], {}, {}, {}
    for name in forms():
        of_form = [(row, export) for row, export in found if form(export) == name]
        if not of_form:
            continue
        export = of_form[0][1]
        bits.update((value, code) for value, code in values(export) if code)
        calls = {}
        for row, each in of_form:
            converted, text = converter(each)
            if converters.setdefault(converted, text) != text:
                crate = each.gives.rpartition("::")[0]
                converters["%s_of_%s" % (converted, crate)] = text.replace("fn %s(" % converted, "fn %s_of_%s(" % (converted, crate))
                converted = "%s_of_%s" % (converted, crate)
            call = "%s(%s::%s(%%s))" % (converted, each.face, each.symbol)
            calls.setdefault(call, row.variant)
        handed = ", ".join(value for value, _ in values(export))
        if len(calls) == 1:
            arms[name] = next(iter(calls)) % handed
            continue
        head = "fn %s(operation: Operation, %s) -> Option<Parts>" % (name, ", ".join("%s: %s" % pair for pair in export.parameters))
        own = ", ".join(parameter for parameter, _ in export.parameters)
        functions.append(chosen(head, "operation", [(constant, call % own) for call, constant in calls.items()]))
        arms[name] = "%s(operation, %s)" % (name, handed)
    return functions, list(converters.values()), arms, bits
