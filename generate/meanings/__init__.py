"""What each operation means, worked out in Python apart from the library: nothing here is taken from a run of its code, nor from its definitions.

A meaning is a function of the kind of integer (None of slices and text) and the arguments: None where the operation refuses, else what it answers, a tuple where
that has several parts; a lent bytearray is changed in place."""
from meanings import decimal, integers, number_bytes, slices, text, zeros

MODULES = {"integers": integers, "zeros": zeros, "number_bytes": number_bytes, "decimal": decimal, "slices": slices, "text": text}


def meaning(export):
    found = MODULES[export.operation.family.name].meaning(export.name)
    if not found:
        raise export.operation.fault("it lacks an independent meaning (generate/meanings/%s.py)" % export.operation.family.name)
    return found


def worked(export, listed):
    """What it answers to each of the arguments: these, the answer, and what each lent slice holds afterwards, by the parameter's name."""
    for arguments in listed:
        lent = [bytearray(value) if written.startswith("&mut ") else value for (_, written), value in zip(export.parameters, arguments, strict=True)]
        answer = meaning(export)(export.kind, *lent)
        yield arguments, answer, {name: value for (name, _), value in zip(export.parameters, lent) if isinstance(value, bytearray)}


def cases(export):
    """The cases of its example."""
    return worked(export, export.arguments(MODULES[export.operation.family.name]))
