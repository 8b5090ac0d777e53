"""The example in a function's documentation: a test that calls it, with answers worked out from its meaning."""
from bindings.rust_answers import listed, literal


def assertion(call, answer, function):
    if function.answer.type == "()":
        return "%s;" % call
    if function.answer.type == "bool":
        return "assert!(%s%s);" % ("" if answer else "!", call)
    return "assert_eq!(%s, %s);" % (call, function.answer.written(answer))


def uses(function):
    if function.answer.inner == "Ordering":
        yield "use core::cmp::Ordering;"
    errors = [name for name in function.answer.around if name != "Option"]
    yield "use promisebook::%s;" % ("{%s}" % ", ".join([function.module, *errors]) if errors else function.module)


def example(function):
    """The example's lines; a slice that is the same in every case is named once."""
    worked, lines, named = function.cases(), list(uses(function)), set()
    for place, (name, written) in enumerate(function.parameters):
        if written.startswith("&[") and len({case[0][place] for case in worked}) == 1 and len(worked) > 1:
            named.add(name)
            lines.append("let %s = %s;" % (name, literal(worked[0][0][place], written, function.export)))
    for arguments, answer, after in worked:
        values = []
        for (name, written), value in zip(function.parameters, arguments):
            text = literal(value, written, function.export)
            if written.startswith("&mut "):
                lines.append("let mut %s = %s;" % (name, listed(value, function.export)))
                text = "&mut " + name
            values.append(name if name in named else text)
        lines.append(assertion("%s::%s(%s)" % (function.module, function.name, ", ".join(values)), answer, function))
        lines += ["assert_eq!(%s, %s);" % (name, listed(value, function.export)) for name, value in after.items()]
    return lines
