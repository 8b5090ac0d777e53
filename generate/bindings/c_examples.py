"""bindings/c/every_promise.c: a program that calls every export as the header declares it, with the cases that the documentation in Rust shows; and those that take
slices with none at all, NULL and 0, and with one slice twice where they only read."""
from bindings.c_header import answer_type
from declared import SLICE, Struct, grouped
from kinds import BY_NAME
from meanings import cases, worked
from templates import filled_file


def literal(value, written):
    """A number as C reads it at its type; the least of 64 bits has no form of its own."""
    if written == "bool":
        return str(value).lower()
    if BY_NAME[written].sign == "unsigned":
        return "%du" % value
    return str(value) if value > -(2**63) else "(%d - 1)" % (value + 1)


def array(name, value, constant=True):
    """C has no empty array: one byte stands there, and the length that is passed is 0."""
    return "%suint8_t %s[] = {%s};" % ("const " if constant else "", name, ", ".join(map(str, value)) or "0")


def condition(export, answer):
    """What holds of r, the answer."""
    if not isinstance(export.answer, Struct):
        return "r == " + literal(bool(answer) if export.answer == "bool" else answer, export.answer)
    names = [field for field in export.answer.fields if field[0] != "ok"]
    values = [0] * len(names) if answer is None else answer if isinstance(answer, tuple) else (answer,)
    tests = ["r.%s == %s" % (name, literal(bool(value) if kind == "bool" else value, kind)) for (name, kind), value in zip(names, values, strict=True)]
    return " && ".join(["!r.ok" if answer is None else "r.ok", *tests])


def is_slice(written):
    return SLICE.fullmatch(written)


def case(export, arguments, answer, after):
    lines, passed = [], []
    for (name, written), value in zip(export.parameters, arguments):
        if not is_slice(written):
            passed.append(literal(value, written))
            continue
        lines.append(array(name, value, name not in after))
        passed += [name, str(len(value))]
    return called(export, lines, passed, answer, after)


def called(export, lines, passed, answer, after):
    lines.append("%s r = %s(%s);" % (answer_type(export), export.symbol, ", ".join(passed)))
    tests = [condition(export, answer)]
    for name, value in after.items():
        lines.append(array(name + "_after", value))
        tests.append("memcmp(%s, %s_after, %d) == 0" % (name, name, len(value)))
    lines.append('check("%s", %s);' % (export.symbol, " && ".join(tests)))
    return "    { %s }\n" % " ".join(lines)


def with_no_bytes(export):
    """Every slice is NULL, of no bytes, and every number 0, then 1."""
    for number in (0, 1):
        arguments = tuple(b"" if is_slice(written) else number for _, written in export.parameters)
        for _, answer, _ in worked(export, [arguments]):
            passed = ["NULL, 0" if is_slice(written) else literal(number, written) for _, written in export.parameters]
            yield called(export, [], passed, answer, {})


def with_one_slice_twice(export):
    """Every slice is the same three bytes, of which the whole is asked."""
    if export.writes or sum(bool(is_slice(written)) for _, written in export.parameters) < 2:
        return
    value = bytes([1, 2, 3])
    arguments = tuple(value if is_slice(written) else len(value) if name == "to" else 0 for name, written in export.parameters)
    for _, answer, _ in worked(export, [arguments]):
        passed = ["same, %d" % len(value) if is_slice(written) else literal(given, written) for (_, written), given in zip(export.parameters, arguments)]
        yield called(export, [array("same", value)], passed, answer, {})


def function(name, lines):
    return "static void of_%s(void)\n{\n%s}\n" % (name, "".join(lines))


def program(found):
    functions = {group: [case(export, *each) for export in exports for each in cases(export)] for group, exports in grouped(found).items()}
    slices = [export for export in found if export.takes_slices]
    functions["no_bytes"] = [line for export in slices for line in with_no_bytes(export)]
    functions["one_slice_twice"] = [line for export in slices for line in with_one_slice_twice(export)]
    return filled_file(
        "bindings/every_promise.c.in",
        FUNCTIONS="\n".join(function(name, lines) for name, lines in functions.items()),
        CALLS="".join("    of_%s();\n" % name for name in functions),
    )
