#!/usr/bin/env python3
"""No library crate's check names an axiom, and none stands on a crate that could.

    python3 tests/no_axioms.py LOG             exit status 1, and a line for each fault
    python3 tests/no_axioms.py LOG CRATE..     the same question of these crates, say of a program, of which the answer is that it does

A library crate is no program and calls nothing of Rattle's standard library that stands on foreign functions, directly or through others: each crate that
crates.txt lists above the programs is one. LOG is what `rt ci` or `rt check` said. Where it has the verdict on a crate, that is read: the line
`logic=proved ..`, which has `foreign=` where the crate declares functions that are not proved and `axioms=` where the check of a program or a static library
reached any, and lines `axioms LIBRARY: ..`, which name them. Of a crate whose proof rt had kept of the same files, it says only that: so the text of each crate
is read, too, in which nothing may be declared that is not proved. Without CRATE.. the programs' own axioms are looked for as well: a reader that does not see those would see none."""
import glob
import os
import re
import sys

import crates as listed
from crates import ROOT, below

BLOCK = re.compile(r"^== (\w+)$(.*?)(?=^== |\Z)", re.M | re.S)
NAMED = re.compile(r"^axioms (?!\w+: none reached ).*|^logic=proved .*?((?:foreign|axioms)=\S+).*|^.*\bassumed\b.*", re.M)
DECLARED = {"src/*.rt": re.compile(r'\bextern\s+"[^"]*"\s*\{'), "*s/**/*.antt": re.compile(r"^\s*(?:pub )?axiom\b", re.M)}


def verdicts(log):
    """What the check of each crate in a log names that is not proved: {crate: names}."""
    proved = {crate: said for crate, said in BLOCK.findall(log) if re.search(r"^logic=proved ", said, re.M)}
    return {crate: [found.group(1) or found.group(0) for found in NAMED.finditer(said)] for crate, said in proved.items()}


def declared(crate):
    """What a crate's text declares and does not prove."""
    for pattern, form in DECLARED.items():
        for path in sorted(glob.glob(os.path.join(ROOT, "crates", crate, pattern), recursive=True)):
            with open(path, encoding="utf-8") as file:
                found = form.search(file.read())
            if found:
                yield "%s: %s" % (os.path.relpath(path, ROOT), found.group().strip())


def main():
    if len(sys.argv) < 2:
        sys.exit(__doc__)
    with open(sys.argv[1], encoding="utf-8", errors="replace") as file:
        log = file.read()
    with open(os.path.join(ROOT, "crates.txt"), encoding="utf-8") as file:
        meant = listed.of_the_library(file.read())
    crates, said = listed.graph(), verdicts(log)
    kept, reaching, libraries = set(re.findall(r"^rt: (\w+) is kept: ", log, re.M)), listed.reaching(crates), listed.libraries(crates)
    asked = sys.argv[2:] or list(dict.fromkeys([*meant, *libraries]))
    faults = []
    for crate in asked:
        if crate not in said and crate not in kept:
            faults.append("%s: it was not proved here: the log has no verdict" % crate)
        faults += ["%s: its check names %s" % (crate, name) for name in said.get(crate, [])]
        faults += ["%s: its text declares what is not proved: %s" % (crate, name) for name in declared(crate)]
        faults += ["%s: it stands on %s, which calls what stands on foreign functions" % (crate, name) for name in sorted(reaching & ({crate} | below(crate, crates)))]
    if not sys.argv[2:]:
        programs = listed.programs(crates)
        if any(crate in said for crate in programs) and not any(said.get(crate) for crate in programs):
            faults.append("no program's check names an axiom, though they print: what names one is not read")
        faults += ["%s: it prints, and its text is not seen to call the standard library" % crate for crate in programs if crate not in reaching]
    for fault in faults:
        print("axioms: " + fault)
    print("axioms: %d crates asked, the verdicts on %d of them read, %d faults" % (len(asked), len([crate for crate in asked if crate in said]), len(faults)))
    sys.exit(1 if faults else 0)


if __name__ == "__main__":
    main()
