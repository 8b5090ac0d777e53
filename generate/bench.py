"""The loops that bench/ times: the crate bench_loops, in one file.

Each part of the file is a template PART.rt.in, filled once for each kind that it names. PART.invariants.antt.in and PART.answers.antt.in are the proof of every
loop in it."""
import os
import re

from templates import CRATES, PROOF, TEMPLATES, filled, read

SOURCE = os.path.join(TEMPLATES, "bench_loops")
CRATE = os.path.join(CRATES, "bench_loops")

# The kinds of the loops, each with its sign.
KINDS = [("i32", "signed"), ("i64", "signed"), ("u32", "unsigned"), ("u64", "unsigned")]


def parts():
    for kind, sign in KINDS:
        table = {"KIND": kind, "SIGN": sign}
        yield "checked", table
        yield "wrapping", table
        if kind.startswith("u"):
            yield "saturating", table
    for part in ("zeros", "from_bytes", "to_bytes"):
        yield part, {}


def files():
    lib = read(os.path.join(SOURCE, "begin.rt.in"))
    for part, table in parts():
        code = filled(read(os.path.join(SOURCE, part + ".rt.in")), table)
        lib += code
        for file, ending in PROOF.items():
            path = os.path.join(SOURCE, "%s.%s.in" % (part, ending))
            for loop in re.findall(r'^pub extern "C" fn (\w+)', code, re.M) if os.path.exists(path) else []:
                yield os.path.join(CRATE, "proofs", loop, file), filled(read(path), {"LOOP": loop})
    yield os.path.join(CRATE, "src", "lib.rt"), lib
