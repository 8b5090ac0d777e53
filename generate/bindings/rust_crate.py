"""bindings/rust/src: a crate of safe functions over the exports, one module for each integer type and family."""
import os
import textwrap

from bindings.cited import citation
from bindings.rust_answers import is_struct
from bindings.rust_bodies import body
from bindings.rust_examples import example
from bindings.rust_exported import exported
from bindings.rust_functions import functions, module
from bindings.words import about, about_struct
from templates import TEMPLATES, filled_file, read

# How wide documentation is; code is laid out as rustfmt does by bindings/rust/rustfmt.toml.
WIDTH = 110
# Functions of a module that stand on another's, by hand.
BY_HAND = {"text": "bindings/text.rs.in"}


def documented(lines):
    return "".join(("/// " + line).rstrip() + "\n" for line in lines)


def wrapped(text):
    return textwrap.wrap(text, WIDTH, break_on_hyphens=False, break_long_words=False)


def function_text(function):
    comments = documented([*wrapped(function.sentence), "", "```", *example(function), "```", "", *wrapped(citation(function.export))])
    answer = function.answer.type
    head = "pub fn %s(%s)%s {" % (function.name, ", ".join("%s: %s" % pair for pair in function.parameters), " -> " + answer if answer != "()" else "")
    return "%s#[inline]\n%s%s\n%s}\n" % (comments, "#[must_use]\n" * must_use(answer), head, "".join("    %s\n" % line for line in body(function)))


def must_use(answer):
    """A Result is marked already, and nothing is lost where nothing is answered."""
    return answer != "()" and not answer.startswith("Result")


def structs(group, found):
    made = {}
    for function in found:
        answer = function.export.answer
        if is_struct(answer) and function.answer.inner == answer.own_name:
            fields = "".join("    pub %s: %s,\n" % field for field in answer.fields[1:])
            text = "/// %s\n#[derive(Clone, Copy, Debug, PartialEq, Eq)]\npub struct %s {\n%s}\n"
            made[answer.own_name] = text % (about_struct(group, answer), answer.own_name, fields)
    return list(made.values())


def uses(found):
    types = " ".join(text for function in found for text in [function.answer.type, *(kind for _, kind in function.parameters)])
    yield "crate::exported"
    yield from ["crate::ordering"] * ("Ordering" in types)
    yield from ["crate::usizes"] * any("usizes::" in line for function in found for line in body(function))
    yield from ["crate::{not_decimal, NotDecimal}"] * ("NotDecimal" in types)
    yield from ["core::cmp::Ordering"] * ("Ordering" in types)
    yield from ["core::ops::Range"] * ("Range<" in types)


def module_file(group, found):
    by_hand = [read(os.path.join(TEMPLATES, BY_HAND[group]))] if group in BY_HAND else []
    head = "//! %s\n\n%s" % (about(group, "module"), "".join("use %s;\n" % name for name in uses(found)))
    return "\n".join([head, *structs(group, found), *map(function_text, found), *by_hand])


def files(found, folder):
    groups = functions(found)
    modules = "".join("pub mod %s;\n" % module(group) for group in sorted(groups, key=module))
    yield os.path.join(folder, "lib.rs"), filled_file("bindings/lib.rs.in", MODULES=modules)
    yield os.path.join(folder, "exported.rs"), exported(found)
    for group, listed in groups.items():
        yield os.path.join(folder, module(group) + ".rs"), module_file(group, listed)
