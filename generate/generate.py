#!/usr/bin/env python3
"""Writes what exists once per width or comes from the table of operations: what the crate integers says of each type, the faces and what is linked, what the
programs have of each kind, the loops of the bench, and the bindings for C and Rust.

    python3 generate/generate.py           write
    python3 generate/generate.py --check   only compare; exit status 1 where a file differs, is missing, or is one too many
    python3 generate/generate.py --list    print the paths that it writes

A template is the code itself with some words in capitals (the table `words` in templates.py). NAME.VARIANT.rt.in stands in for NAME.rt.in at the widths of
that variant. NAME.invariants.antt.in and NAME.answers.antt.in make the two files of a function's proof; where there is neither, Rattle finds it."""
import glob
import os
import sys

import ask_lines
import ask_page
import bench
import bindings
import complete
import counts
import crates_txt
import declared
import edges
import faces
import help_text
import integers
import numbered
import numbered_bytes
import numbered_integers
import rust_integers
import selftest
import spelled
import statics
from templates import CRATES, read

CODE = [integers, bench]
FROM_THE_TABLE = [faces, statics, numbered, numbered_integers, numbered_bytes, spelled, help_text, edges, rust_integers, ask_lines, ask_page, counts, bindings]


def stored(proved, made):
    """The files of the folders that hold generated files alone, among them the proofs of the crates that templates prove, but for those of a module that is
    written by hand."""
    for crate in proved:
        proofs = os.path.join(CRATES, crate, "proofs")
        for place, _, files in os.walk(proofs):
            module = os.path.join(CRATES, crate, "src", os.path.relpath(place, proofs).split(os.sep)[0] + ".rt")
            if module in made or not os.path.exists(module):
                yield from (os.path.join(place, file) for file in files)
    for folder in bindings.WHOLE:
        yield from glob.glob(os.path.join(folder, "*"))


def main():
    check = sys.argv[1:] == ["--check"]
    if sys.argv[1:] not in ([], ["--check"], ["--list"]):
        sys.exit(__doc__)
    made = {path: text for writer in CODE for path, text in writer.files()}
    proved = {os.path.relpath(path, CRATES).split(os.sep)[0] for path in made}
    declared.SOURCES.update(made)
    declared_here = {path: text for writer in FROM_THE_TABLE for path, text in writer.files()}
    made.update(declared_here)
    made.update(crates_txt.files(declared_here))
    if sys.argv[1:] == ["--list"]:
        print("\n".join(sorted(os.path.relpath(path, os.path.dirname(CRATES)) for path in made)))
        return
    strays = sorted(set(stored(proved.union(faces.proved()), made)) - set(made))
    changed = [path for path, text in made.items() if not os.path.exists(path) or read(path) != text]
    done = ("differs from what is generated", "is not generated") if check else ("written", "removed")
    for path in changed + strays:
        print("%s: %s" % (os.path.relpath(path, os.path.dirname(CRATES)), done[path in strays]))
    missing = list(complete.faults())
    if check:
        missing += [] if missing else list(selftest.faults())
        print("".join(line + "\n" for line in missing) + "generated files: %d, %d wrong; operations: %d faults, %d damages tried" % (
            len(made), len(changed) + len(strays), len(missing), len(selftest.DAMAGES) + 1,
        ))
        sys.exit(1 if changed or strays or missing else 0)
    for path in changed:
        os.makedirs(os.path.dirname(path), exist_ok=True)
        with open(path, "w", encoding="utf-8") as file:
            file.write(made[path])
    for path in strays:
        os.remove(path)
    if missing:
        sys.exit("\n".join(missing))


if __name__ == "__main__":
    main()
