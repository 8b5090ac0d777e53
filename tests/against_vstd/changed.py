"""A test that cannot fail is none: one clause or more of each of vstd's files is changed in memory, and one definition of each restated family, and each change
must be found; and what is put in that the test does not know must be refused."""
from typing import NamedTuple

from antt_values import Definitions
from faults import Fault
from items import RESTATED, Items
from rust_values import Library


class Change(NamedTuple):
    what: str
    where: str  # vstd's file, or the restated one
    old: str
    new: str
    item: str  # the item that must be found to differ


CLAUSES = (
    Change("the wrong division", "std_specs--num", "rust_rem(lhs as int, rhs as int)", "(lhs % rhs)", "std_specs--num i8::checked_rem"),
    Change("a missing refusal", "std_specs--num", "rhs == 0 || (lhs == <$iN>::MIN && rhs == -1)", "rhs == 0", "std_specs--num i16::checked_div"),
    Change("a bound off by one", "wrapping", "x + y > <$uN>::MAX", "x + y >= <$uN>::MAX", "wrapping u8_specs::wrapping_add"),
    Change("a width that is another's", "wrapping", "x << (shift % $bits)", "x << (shift % 8u32)", "wrapping u16_specs::wrapping_shl"),
    Change("another mask", "std_specs--bits", "(i & 1)", "(i & 2)", "std_specs--bits u8::trailing_zeros"),
    Change("a fact about another bit", "std_specs--bits", "sub(7u8,", "sub(6u8,", "std_specs--bits axiom_u8_leading_zeros"),
    Change("another mask", "bytes", "((x >> 8) & 0xff)", "((x >> 8) & 0x7f)", "bytes u16_to_le_bytes"),
    Change("a bound off by one", "utf8", "0xD800 <= codepoint", "0xD801 <= codepoint", "utf8 valid_utf8"),
    Change("a test left out", "utf8", "&&& (len == 2 ==> 0x80 <= codepoint)", "", "utf8 valid_utf8"),
    Change("another character", "std_specs--char", r"'\u{205F}'", r"'\u{205E}'", "std_specs--char char::is_whitespace"),
)
DEFINITIONS = (
    Change("the wrong test", "Unsigned", "lt_z (MAX w) (x *ℤ y)", "lt_z (MAX w) (x +ℤ y)", "std_specs--num u8::checked_mul"),
    Change("the wrong division", "Signed", "(rem_z lhs rhs)", "(emod lhs rhs)", "std_specs--num i8::checked_rem"),
    Change("the other way round", "Compare", "cond (lt_z y x) Greater Equal", "cond (lt_z y x) Equal Greater", "std_specs--num i64::cmp"),
    Change("a step too few", "Zeros", "cond (eqb i 0) w (leading", "cond (eqb i 1) w (leading", "std_specs--bits u8::leading_zeros"),
    Change("another mask", "Bytes", " 255 ∷", " 254 ∷", "bytes u32_to_le_bytes"),
    Change("another character", "Text", "0x3000", "0x3001", "std_specs--char is_white_space"),
)
# What is not understood is refused, by a fault that says `item`.
REFUSED = (
    Change("a form that is not known", "std_specs--bits", "forall|j: u8|", "exists|j: u8|", "not understood: exists"),
    Change("a function that is not known", "std_specs--num", "rust_div(", "rust_quotient(", "not understood: the function rust_quotient"),
    Change("a type that does not fit", "wrapping", "x << (shift % $bits)", "(x + 0) << (shift % $bits)", "not understood: a shift of int"),
    Change("an attribute that is not known", "std_specs--char", "#[verifier::allow_in_spec]", "#[only_on(tuesdays)]", "not understood: the attribute"),
    Change("an item that nobody takes up", "std_specs--char", "} // verus!", "pub proof fn added(c: char) ensures c == c { } }", "neither taken up nor left out"),
    Change("an item that is restated nowhere", "utf8", "/* ASCII */", "pub open spec fn is_nothing(b: u8) -> bool { false }", "does not restate is_nothing"),
)


def replaced(change, text):
    if change.old not in text:
        raise Fault("%s: what tests/against_vstd/changed.py changes (%s) does not stand there: give it another place" % (change.where, change.what))
    return text.replace(change.old, change.new, 1)


def found(change, library, definitions):
    for check in Items(library, definitions).checks():
        if check.item.key == change.item:
            for difference in check.differences():
                return difference
    raise Fault("%s of %s, changed in memory, is not found out: %s" % (change.what, change.where, change.item))


def all_refused(texts, definitions):
    """The fault that each change to something unknown brings about."""
    for change in REFUSED:
        changed = {file: replaced(change, text) if file == change.where else text for file, text in texts.items()}
        try:
            checks = Items(Library(changed), definitions).checks()
        except Fault as fault:
            if change.item not in str(fault):
                raise
            yield change, fault
        else:
            raise Fault("%s in %s, changed in memory, is passed over: %d checks" % (change.what, change.where, len(checks)))


def all_found(texts, root, library, definitions):
    """What is found for each change: that it differs, and where."""
    for change in CLAUSES:
        changed = {file: replaced(change, text) if file == change.where else text for file, text in texts.items()}
        yield change, found(change, Library(changed), definitions)
    for change in DEFINITIONS:
        paths = [module.file for module in definitions.restated(RESTATED[change.where])]
        path = next((path for path in paths if change.old in definitions.text(path)), paths[0])
        yield change, found(change, library, Definitions(root, {path: replaced(change, definitions.text(path))}))
