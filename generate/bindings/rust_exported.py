"""bindings/rust/src/exported.rs: the declarations, in the only module of the crate that is not safe."""
from bindings.rust_answers import is_struct
from declared import SLICE
from kinds import BY_NAME
from templates import filled_file

# The most bytes of an answer that the machine's convention hands over in registers.
IN_REGISTERS = 16


def struct_name(group, struct):
    return "Answer<%s>" % struct.value if struct.value else struct.name


def declared_answer(export):
    return struct_name(export.group, export.answer) if is_struct(export.answer) else export.answer


def passed(name, written):
    """A parameter as it is passed: of a slice, where it begins and its length."""
    match = SLICE.fullmatch(written)
    if not match:
        return ["%s: %s" % (name, written)]
    return ["%s: *%s %s" % (name, "mut" if match.group(1) else "const", match.group(2)), "%s_len: usize" % name]


def size(struct):
    """The bytes of a struct as C lays it out."""
    place, widest = 0, 1
    for _, written in struct.fields:
        own = 1 if written == "bool" else BY_NAME[written].bits // 8
        place, widest = -(-place // own) * own + own, max(widest, own)
    return -(-place // widest) * widest


def through_memory(export):
    return is_struct(export.answer) and size(export.answer) > IN_REGISTERS


def declaration(export):
    all_passed, answer = [part for pair in export.parameters for part in passed(*pair)], declared_answer(export)
    if through_memory(export):
        if not export.takes_slices:
            raise export.operation.fault("its answer goes through memory, which the bindings have a call for only where a slice is passed")
        answer = "*mut " + answer
        all_passed.insert(0, "answer: " + answer)
    return "    %sfn %s(%s) -> %s;\n" % ("" if export.takes_slices else "pub safe ", export.symbol, ", ".join(all_passed), answer)


def safe_call(export):
    """The same function of slices as Rust has them, which makes the call safe."""
    values = []
    for name, written in export.parameters:
        match = SLICE.fullmatch(written)
        values += ["%s.as_%sptr()" % (name, "mut_" if match.group(1) else ""), name + ".len()"] if match else [name]
    parameters = ", ".join("%s: %s" % pair for pair in export.parameters)
    head = "#[inline]\npub fn %s_%s(%s) -> %s {\n" % (export.group, export.name, parameters, declared_answer(export))
    if not through_memory(export):
        return "%s    unsafe { %s(%s) }\n}\n" % (head, export.symbol, ", ".join(values))
    body = "    let mut answer = MaybeUninit::uninit();\n    unsafe {\n        %s(%s);\n        answer.assume_init()\n    }\n}\n"
    return head + body % (export.symbol, ", ".join(["answer.as_mut_ptr()", *values]))


def answers(found):
    made = {}
    for export in found:
        if is_struct(export.answer) and not export.answer.value:
            fields = "".join("    pub %s: %s,\n" % field for field in export.answer.fields)
            name = struct_name(export.group, export.answer)
            made[name] = "#[repr(C)]\npub struct %s {\n%s}\n" % (name, fields)
    return "\n".join(made.values())


def exported(found):
    return filled_file(
        "bindings/exported.rs.in",
        STRUCTS=answers(found),
        DECLARATIONS="".join(map(declaration, found)),
        CALLS="\n".join(safe_call(export) for export in found if export.takes_slices),
    )
