"""That each error of the table can happen: a copy of its texts is damaged in memory, once for each, and the generator must say what is missing."""
import ask_lines
import complete
import counts
import declared
import faces
import forms
import numbering
import table
from bindings import rust_functions, verus

DAMAGES = [
    # file, what stands there, what is put in its place, what the error must say
    ("integers.txt", "sentence: The product `x * y`, {wrapped}.\n", "", "wrapping_mul: it lacks a sentence in plain words"),
    ("integers.txt", "sentence: The product `x * y`, {wrapped}.\n", "sentence: The product `x * z`, {wrapped}.\n", "its sentence names z"),
    ("integers.txt", "name: clone\n", "name: copy\n", "copy: it lacks an independent meaning"),
    ("integers.txt", "contract: result ≡ lt [x] [y]\n", "contract: result ≡ less [x] [y]\n", "lt: its contract cites less, which no module"),
    ("integers.txt", "contract: result ≡ lt [x] [y]\n", "contract: result ≡ lt [x] [z]\n", "lt: its contract has [z]"),
    ("integers.txt", "home: sums\ncontract: [result] ≡ wrapping_mul", "contract: [result] ≡ wrapping_mul", "wrapping_mul: it lacks the crate where its code is"),
    ("integers.txt", "proof: copy\n", "proof: copied\n", "clone: there is no proof of the shape copied"),
    ("integers.txt", "cases: shifts left\n", "cases: 1 | 3\n", "wrapping_shl: a case has 1 arguments"),
    ("integers.txt", "cases: shifts left\n", "cases: shifts up\n", "wrapping_shl: a case has shifts"),
    ("integers.txt", "name: wrapping_mul\n", "name: wrapping_mul\nname: wrapping_product\n", "the field name stands twice"),
    ("integers.txt", "name: wrapping_mul\n", "names: wrapping_mul\n", "an operation without a name"),
    (
        "integers.txt", "gives: own or none\nhome: sums\ncontract: Answers result.ok [result.value] (checked_mul",
        "gives: u7 or none\nhome: sums\ncontract: Answers result.ok result.value (checked_mul",
        "checked_mul: it gives",
    ),
    (
        "integers.txt", "name: saturating_mul\nof: T\ngives: own\nhome: sums\n",
        "name: saturating_mul\nof: T\ngives: own\nhome: division\n",
        "saturating_mul: it lacks its code",
    ),
    (
        "integers.txt", "vstd: std_specs/num LETTER::NAME\n",
        "vstd: std_specs/num LETTER::NAME_\n",
        "wrapping_add: it lacks a row in docs/contracts of pb_u8_wrapping_add, vstd's",
    ),
    ("zeros.txt", "name: trailing_ones\n", "name: trailing_twos\n", "trailing_twos: "),
    ("slices.txt", "name: set\n", "name: put\n", "put: its proof is by hand"),
    (
        "slices.txt", "takes: s: &mut [u8], from: usize, to: usize, i: usize, v: u8\n",
        "takes: s: &mut [u8], from: usize, to: usize, i: usize, v: u8, w: u8\n",
        "set: it cannot be asked",
    ),
    (
        "slices.txt", "takes: s: &[u8], from: usize, to: usize, v: u8\n",
        "takes: v: u8, s: &[u8], from: usize, to: usize\n",
        "contains: it cannot be asked: bytes are the first",
    ),
    ("text.txt", "said: 0 middle end\n", "said: 0 middle last\n", "split_at: `said` names last"),
    ("decimal.txt", "asked: s at x\n", "asked: s at\n", "write_decimal: x is neither asked for nor given"),
    ("slices.txt", "whole: Whether S has no byte.\n", "", "is_empty: it lacks a sentence for the Rust crate"),
    ("slices.txt", "whole: The byte `i` of S", "whole: The byte `j` of S", "get: its sentence for the Rust crate names j"),
    ("slices.txt", "places: first, from..to\n", "places: first, from..middle\n", "split_first: `places` names middle"),
    ("slices.txt", "range: a e\n", "range: a b\n", "sub_range: `range` names b"),
    ("text.txt", "begins: at\n", "begins: place\n", "write: `begins` names place"),
    ("slices.txt", "verus: S.contains(v)\n", "", "contains: it lacks what the Rust crate's function promises in Verus' terms"),
]


def clear():
    for cached in (table.families_now, numbering.rows, forms.forms, declared.structs):
        cached.cache_clear()


def said(texts):
    """What the generator says of these texts of the table."""
    clear()
    table.TEXTS = texts
    try:
        for made in (faces.files(), ask_lines.files(), counts.files(), rust_functions.sentences(declared.exports()), verus.specifications(declared.exports())):
            list(made)
        forms.forms()
        return "\n".join(complete.faults())
    except table.Fault as fault:
        return str(fault)
    finally:
        table.TEXTS = None
        clear()


def faults():
    texts = table.stored()
    for file, old, new, expected in DAMAGES:
        if texts[file].count(old) < 1:
            yield "generate/selftest.py: the damage to %r cannot be done: %s does not have it" % (old, file)
            continue
        found = said({**texts, file: texts[file].replace(old, new, 1)})
        if expected not in found:
            yield "generate/selftest.py: damage goes unnoticed: %r for %r, of which is said: %s" % (new, old, found[:300] or "nothing")
    if "clone: it lacks an independent rule" not in "\n".join(complete.faults(complete.read(complete.RULE).replace("Operation::Clone", "Operation::Copy"))):
        yield "generate/selftest.py: an operation without a rule in every_pair goes unnoticed"
