"""What a function of the crate does: one call of the export, with the ends of the slice or part, and its answer as Rust has it."""
from bindings.rust_answers import is_struct, places
from bindings.rust_functions import ENDS, NUMBERS, PART, WHOLE, Function
from declared import SLICE


def body(function):
    """The statements, without their indentation."""
    if function.form == NUMBERS:
        return of_numbers(function.export)
    if delegates(function):
        return [delegated(function)]
    if function.array:
        return of_array(function)
    call = called(function, cut_out(function, "part.clone()") if function.form == PART and not function.has_ends else None)
    if not is_struct(function.export.answer):
        return [call + ";" if function.answer.type == "()" else "%s.then_some(())" % call if function.answer.inner == "()" else call]
    if function.says("error"):
        signed = str(function.kind.sign == "signed").lower()
        return ["let answer = %s;" % call, "answer.ok.then_some(answer.value).ok_or_else(|| not_decimal(%s, %s))" % (function.slice[0], signed)]
    if not function.answer.around:
        return ["%s.value" % call]
    return ["let answer = %s;" % call, "answer.ok.then_some(%s)" % taken(function)]


def of_numbers(export):
    call = "exported::%s(%s)" % (export.symbol, ", ".join(name for name, _ in export.parameters))
    if is_struct(export.answer):
        return ["let answer = %s;" % call, "answer.ok.then_some(%s)" % ("ordering(answer.value)" if export.is_ordered else "answer.value")]
    return ["ordering(%s)" % call if export.is_ordered else call]


# ---- the call

def called(function, cut=None):
    return "exported::%s_%s(%s)" % (function.export.group, function.export.name, ", ".join(passed(function, cut or function.slice[0])))


def passed(function, cut):
    ends = ("part.start", "part.end") if function.form == PART else ("0", "%s.len()" % function.slice[0])
    known = {function.slice[0]: cut, function.says("begins"): "0"}
    known.update(zip(ENDS, ends) if function.has_ends else ())
    known.update(zip(function.range, ("range.start", "range.end")))
    for name, kind in function.export.parameters:
        cast = " as " + kind if function.own(kind) != kind else ""
        yield known.get(name, name) + cast


# ---- a part that is cut out of the slice, where the export takes a whole one

def cut_out(function, part="part"):
    return "%s.get%s(%s)?" % (function.slice[0], "_mut" * function.is_lent, part)


def delegates(function):
    """Whether it is the function on a whole slice, called with the part."""
    return function.form == PART and not (function.has_ends and not function.says("error")) and not function.says("places") and not function.array


def delegated(function):
    whole = Function(function.export, WHOLE, function.kind)
    call = "%s(%s)" % (whole.name, ", ".join([cut_out(function), *(name for name, _ in whole.parameters[1:])]))
    return call if whole.answer.refuses else "Some(%s)" % call


def of_array(function):
    if function.form == PART:
        return ["%s.then_some(())" % called(function, cut_out(function))]
    return ["let mut bytes = [0; %d];" % function.array, called(function, "&mut bytes") + ";", "bytes"]


# ---- the answer

def taken(function):
    answer = function.export.answer
    if answer.value:
        return "answer.value" + (" as " + function.kind.name if function.own(answer.value) != answer.value else "")
    if not function.says("places"):
        return "%s { %s }" % (answer.own_name, ", ".join("%s: answer.%s" % (name, name) for name, _ in answer.fields[1:]))
    items = [parted(function, item) for item in places(function)]
    return "(%s)" % ", ".join(items) if len(items) > 1 else items[0]


def parted(function, item):
    """A number that is answered, or a part: of a whole slice the bytes, of a part the places."""
    if isinstance(item, str):
        return "answer." + item
    start, end = ("answer." + name if name and name != "0" else name for name in item)
    if function.form == WHOLE:
        return "%s.get(%s..%s)?" % (function.slice[0], start if start != "0" else "", end or "")
    if not function.has_ends:
        start, end = (counted(place) for place in (start, end))
    return "%s..%s" % (start, end or "part.end")


def counted(place):
    """A place of the part, counted from the start of the slice: the proved sum, which cannot panic."""
    return "part.start" if place == "0" else place and "usizes::wrapping_add(part.start, %s)" % place
