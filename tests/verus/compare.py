#!/usr/bin/env python3
"""Holds bindings/verus/promisebook.rs, which no Verus is at hand to run, against what can be known without.

    python3 tests/verus/compare.py              the test that the gate runs
    python3 tests/verus/compare.py --record     and write verdict.txt anew
    python3 tests/verus/compare.py --rust       only print a Rust program that compiles where every function has the type that its specification says, and
                                                links where none can panic

Every public function of the crate has one specification and no other has; each names an item that the table of promises has, or says `beyond vstd`; and each
clause, evaluated with vstd's own definitions, holds of the right answer (generate/meanings) and of no wrong one that is tried; so does vstd's own promise about
the function that it replaces, where that is an equation. vstd's text is read from the folder that the variable VSTD names (or ../shared/docs/src beside the
repository). Where it is not at hand, verdict.txt stands in: the file must be the one that it is about. Exit status 1 where anything is not so, or a damage made
in memory is not found out."""
import hashlib
import os
import re
import sys
from typing import NamedTuple

from specifications import FILE, HERE, ROOT, Specifications, signatures
import tried_at
from faults import Fault, LeftOpen

sys.path.insert(1, os.path.join(ROOT, "generate"))
import complete  # noqa: E402
import declared  # noqa: E402
import generate  # noqa: E402
from bindings.rust_answers import Places, Refusal  # noqa: E402
from bindings.rust_functions import functions  # noqa: E402

VSTD = os.environ.get("VSTD", os.path.join(os.path.dirname(ROOT), "shared", "docs", "src"))
VSTD_FILES = ("std_specs--num", "wrapping", "std_specs--bits", "bytes", "utf8", "std_specs--char", "math")
VERDICT = os.path.join(HERE, "verdict.txt")
ORDERINGS = {-1: "Less", 0: "Equal", 1: "Greater"}
BY_HAND = {("text", "as_str"), ("text", "as_str_in")}  # functions of the crate that have no record


class Read(NamedTuple):
    value: int
    length: int


def text_of(path):
    with open(path, encoding="utf-8") as file:
        return file.read()


# ---- answers as the clauses have them

def answers(function):
    """What the function answers as the clauses have it, of a value of its meaning."""
    kind, around, places = function.answer.inner, function.answer.around, bool(function.operation.get("places"))

    def inner(value):
        if kind == "Ordering":
            return (ORDERINGS[value],)
        if isinstance(value, Refusal):
            return "Err", value.reason
        if kind == "Read":
            return Read(*value)
        if places:
            items = tuple(tuple(item) if isinstance(item, bytes) else item for item in value)
            return items if len(items) > 1 else items[0]
        return tuple(value) if isinstance(value, bytes) else bool(value) if kind == "bool" else value

    def answer(value):
        if value is None:
            return ("None",)
        made = inner(value)
        for name in reversed(around):
            made = ("Some", made) if name == "Option" else made if isinstance(value, Refusal) else ("Ok", made)
        return made

    return answer if function.answer.type != "()" else lambda value: ()


def given(value):
    return tuple(value) if isinstance(value, (bytes, bytearray)) else Places(*value) if isinstance(value, tuple) else value


def wrong(value, right_ones):
    """Answers of the same kind that are not this one."""
    if value == ("None",):
        yield from ({("Some", 0)} if not right_ones else right_ones)
    elif isinstance(value, bool):
        yield not value
    elif isinstance(value, int):
        yield from (value + 1, value - 1)
    elif isinstance(value, (Places, Read)):
        yield from (value._replace(**{name: getattr(value, name) + 1}) for name in value._fields)
    elif value[:1] in (("Less",), ("Equal",), ("Greater",)):
        yield from ((name,) for name in ORDERINGS.values() if (name,) != value)
    elif value[:1] == ("Some",):
        yield ("None",)
        yield from (("Some", other) for other in wrong(value[1], ()))
    elif value[:1] in (("Ok",), ("Err",)):
        yield from (other for other in (("Err", "NoNumber"), ("Err", "TooLarge"), ("Ok", 0 if value[0] == "Err" else value[1] + 1)) if other != value)
    elif all(isinstance(item, int) and not isinstance(item, bool) for item in value):
        yield from left_otherwise(value)
    else:
        for place, item in enumerate(value):
            yield from (value[:place] + (other,) + value[place + 1:] for other in wrong(item, ()))


def left_otherwise(sequence):
    yield sequence + (0,)
    if sequence:
        yield sequence[:-1]
        yield ((sequence[0] + 1) % 256,) + sequence[1:]
        yield sequence[:-1] + ((sequence[-1] + 1) % 256,)


# ---- one function

def promised(library, function):
    """vstd's own promise about the function that it replaces, of the arguments and the answer; None where that says nothing by itself."""
    file, _, _ = function.export.filled(function.operation.get("vstd")).partition(" ")
    item = library.keyed.get("%s %s::%s" % (file.replace("/", "--"), function.group, function.name))
    return library.keeps(item) if item and item.kind == "promise" else None


def tried(function, kept, promise=None):
    """How often its specification was evaluated; a Fault where it says something else than the meaning or vstd's own promise, or leaves the answer open."""
    name, count, right_ones = "%s::%s" % (function.module, function.name), 0, ()
    meant, answer = function.meant(), answers(function)

    def says(values, left, value):
        try:
            return kept(*values, *left, value)
        except LeftOpen as open_one:
            raise Fault("%s of %s: its clause is left open: %s" % (name, values, open_one)) from open_one

    for listed in tried_at.of(function):
        value, after = meant(*listed)
        values, left, right = [given(each) for each in listed], [given(each) for each in after.values()], answer(value)
        if not says(values, left, right):
            raise Fault("%s of %s: its specification does not hold of the right answer %s %s" % (name, values, right, left))
        if promise and not promise(*values, right):
            raise Fault("%s of %s: vstd's promise does not hold of the right answer %s" % (name, values, right))
        for other in wrong(right, right_ones) if right != () else []:
            count += 1
            if says(values, left, other):
                raise Fault("%s of %s: its specification holds of %s, too, which is wrong; right is %s" % (name, values, other, right))
            if promise and promise(*values, other):
                raise Fault("%s of %s: vstd's promise holds of %s, too; the specification says more than it" % (name, values, other))
        for other in left_otherwise(left[0]) if left else []:
            count += 1
            if says(values, [other], right):
                raise Fault("%s of %s: its specification holds where %s is left, which is wrong; right is %s" % (name, values, other, left))
        right_ones = {right} if isinstance(right, tuple) and right[:1] == ("Some",) else right_ones
        count += 1
    if not count:
        raise Fault("%s was tried at nothing" % name)
    return count


def tried_as_text(library):
    """as_str and as_str_in, by Python's own codec."""
    whole, part = (library.kept(library.promises()["text", name], ()) for name in ("as_str", "as_str_in"))
    count = 0
    for s in tried_at.TEXTS + tried_at.PAIRS:
        for start, end in tried_at.parts(s):
            is_part = start <= end <= len(s)
            text = s[start:end].decode("utf-8", "replace") if is_part else ""
            right = ("Some", tuple(map(ord, text))) if is_part and text.encode() == s[start:end] else ("None",)
            for value in (right, *wrong(right, {("Some", ())})):
                count += 1
                if part(given(s), Places(start, end), value) != (value == right) or is_part and whole(given(s[start:end]), value) != (value == right):
                    raise Fault("text::as_str of %s, %d..%d: %s is right, and of %s the specification says otherwise" % (s, start, end, right, value))
    return count


def evaluated(library, found):
    """How often specifications were evaluated, and how many stand beside vstd's own promise."""
    promises, count, beside = library.promises(), tried_as_text(library), 0
    for function in found:
        promise = promised(library, function)
        beside += promise is not None
        count += tried(function, library.kept(promises[function.module, function.name], [function.slice[0]] if lent(function) else []), promise)
    return count, beside


def lent(function):
    return any(kind.startswith("&mut ") for _, kind in function.parameters)


# ---- what is there

def public_functions():
    """(module, function) of the crate, from its source."""
    folder = os.path.join(ROOT, "bindings", "rust", "src")
    for file in sorted(os.listdir(folder)):
        if file not in ("lib.rs", "exported.rs"):
            yield from ((file.removesuffix(".rs"), name) for name in re.findall(r"^pub fn (\w+)", text_of(os.path.join(folder, file)), re.M))


def whole(text):
    """Every function of the crate has a specification that names its item."""
    listed = list(signatures(text))
    ours, theirs = {(module, name) for _, module, name, _, _ in listed}, set(public_functions())
    if len(listed) != text.count("assume_specification["):
        raise Fault("%d of %d specifications are not laid out as they should be" % (text.count("assume_specification[") - len(listed), len(listed)))
    for module, name in sorted(ours ^ theirs):
        raise Fault("%s::%s %s" % (module, name, "has no specification" if (module, name) in theirs else "is no function of the crate"))
    contracts = complete.contracts()
    parts = [part for file, source in contracts.sources().items() for part in contracts.parts(file, source)]
    known = {found for part in parts if isinstance(part, contracts.Row) for found in contracts.items(part)}
    for said, module, name, _, _ in listed:
        item = re.fullmatch(r"(?:replaces|computes) (\S+) (.*?)(?:, of a part)?", said)
        if not re.fullmatch(r"beyond vstd(, of a part)?", said) and not (item and "%s %s" % (item.group(1).replace("/", "--"), item.group(2)) in known):
            raise Fault("%s::%s: `%s` names no item of the table of promises" % (module, name, said))
    return len(listed)


RUST_HEAD = """//! Compiles where every function of the crate has the type that its specification for Verus says, and links where none of them can panic.
#![no_std]
#![no_main]
#![allow(unused_imports)]
use core::cmp::Ordering;
use core::hint::black_box;
use core::ops::Range;
use core::panic::PanicInfo;
use promisebook::text::Read;
use promisebook::NotDecimal;

#[link(name = "c")]
unsafe extern "C" {
    // Stands in no library: the linker misses it where a panic can be reached.
    fn a_function_of_the_crate_can_panic() -> !;
}

#[panic_handler]
fn panic(_: &PanicInfo) -> ! {
    unsafe { a_function_of_the_crate_can_panic() }
}

#[unsafe(no_mangle)]
extern "C" fn rust_eh_personality() {}

// The specifications are tokens of Rust.
macro_rules! verus {
    ($($token:tt)*) => {};
}
"""


def rust_program(text):
    yield RUST_HEAD
    yield text[text.index("verus! {"):]
    yield '#[unsafe(no_mangle)]\nextern "C" fn main() -> i32 {'
    for _, module, name, parameters, result in signatures(text):
        kind = "fn(%s)%s" % (", ".join(kind for _, kind in parameters), " -> " + result if result else "")
        yield "    black_box::<%s>(promisebook::%s::%s);" % (kind, module, name)
    yield "    0\n}"


# ---- damages, each of which must be found

DAMAGES = [
    ("u8::MIN <= x + y <= u8::MAX { Some((x + y) as u8) }", "u8::MIN <= x + y < u8::MAX { Some((x + y) as u8) }"),
    ("r == i8_specs::wrapping_mul(x, y)", "r == i8_specs::wrapping_add(x, y)"),
    ("r == (if i < s@.len() { Some(s@[i as int]) } else { None })", "r is Some <==> i < s@.len()"),
    ("a@ == s@.subrange(0, m as int) && b@ ==", "b@ =="),
    ("final(s)@ == (if r is Some { old(s)@.update(i as int, v) } else { old(s)@ })", "r is Some ==> final(s)@ == old(s)@.update(i as int, v)"),
    ("r is Some <==> valid_utf8(s@),", "r is Some ==> valid_utf8(s@),"),
    ("v.start == part.start + range.start", "v.start == range.start"),
    ("r@ == spec_u32_to_le_bytes(x).reverse()", "r@ == spec_u32_to_le_bytes(x)"),
    ("if x < 10 { seq![", "if x <= 10 { seq!["),
    ("pub assume_specification[ promisebook::bytes::last ]", "pub assume_specification[ promisebook::bytes::lost ]"),
    ("// replaces std_specs/slice <[T]>::last\n", "// replaces std_specs/slice <[T]>::lost\n"),
]


def checked(texts, found):
    count = whole(texts[FILE])
    return count, *evaluated(Specifications(texts), found)


def all_found(texts, found):
    for old, new in DAMAGES:
        if old not in texts[FILE]:
            raise Fault("the damage to `%s` cannot be done: %s does not have it" % (old, FILE))
        damaged = {**texts, FILE: texts[FILE].replace(old, new, 1)}
        before, after = texts[FILE].split("\n"), damaged[FILE].split("\n")
        line = next(place for place, pair in enumerate(zip(before, after)) if pair[0] != pair[1])
        near = [match for match in re.finditer(r"promisebook::(\w+)::(\w+) \]", "\n".join(after[:line + 1]))][-1:]
        touched = [function for function in found if any((function.module, function.name) == match.groups() for match in near)] or \
            [function for function in found if function.name.startswith("write_decimal") and function.group == "u8"]
        try:
            checked(damaged, touched)
        except Fault as fault:
            print("damaged in memory: %s; found: %s" % (new.strip(), str(fault)[:150]))
        else:
            raise Fault("a damage goes unnoticed: `%s` for `%s`" % (new, old))


# ---- the record

def record(texts, count):
    yield "What tests/verus/compare.py has evaluated with vstd's text at hand: the hash of each file that it read, and how often."
    for file, text in sorted(texts.items()):
        yield "%s %s" % (hashlib.sha256(text.encode()).hexdigest(), file)
    yield "%d evaluations" % count


def main():
    text = text_of(os.path.join(ROOT, FILE))
    if sys.argv[1:] == ["--rust"]:
        print("\n".join(rust_program(text)))
        return
    if sys.argv[1:] not in ([], ["--record"]):
        sys.exit(__doc__)
    declared.SOURCES.update({path: made for writer in generate.CODE for path, made in writer.files()})
    found = [function for listed in functions(declared.exports()).values() for function in listed]
    try:
        if not os.path.isdir(VSTD):
            print("vstd's text is not at hand: tests/verus/verdict.txt stands in")
            count = whole(text)
            if "%s %s" % (hashlib.sha256(text.encode()).hexdigest(), FILE) not in text_of(VERDICT).split("\n"):
                raise Fault("%s has changed since it was evaluated: run this where vstd's text is" % FILE)
            print("%d specifications" % count)
            return
        texts = {FILE: text, **{name: text_of(os.path.join(VSTD, name + ".rs.txt")) for name in VSTD_FILES}}
        count, evaluations, beside = checked(texts, found)
        all_found(texts, found)
        print("%d specifications, %d of them beside vstd's own promise, evaluated %d times; %d damages found" % (count, beside, evaluations, len(DAMAGES)))
        lines = "\n".join(record(texts, evaluations)) + "\n"
        if sys.argv[1:] == ["--record"]:
            with open(VERDICT, "w", encoding="utf-8") as file:
                file.write(lines)
        if not os.path.exists(VERDICT) or text_of(VERDICT) != lines:
            raise Fault("verdict.txt is not in step: renew it with python3 tests/verus/compare.py --record")
    except Fault as fault:
        sys.exit("FAULT: %s" % fault)


if __name__ == "__main__":
    main()
