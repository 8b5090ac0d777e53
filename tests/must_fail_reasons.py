#!/usr/bin/env python3
"""Each must-fail edit is refused because a fact fails, and not because a proof no longer fits the code or the definitions.

    python3 tests/must_fail_reasons.py LOG                 exit status 1, and a line for each fault
    python3 tests/must_fail_reasons.py LOG CRATE/EDIT..    the same question of these edits

LOG is what `rt ci` or `rt must-fail` said. It has a line for each edit, with one thing that the prover said of it. Where that is a fact that fails, the edit is
refused by it. Elsewhere the edit is made in a copy of its crate, outside the repository, and the kit's checker says all of it.

An edit of a function is refused by a fact where what is said first is of a goal that could not be shown, and not that a proof names what the edited code does
not have. A changed condition changes the names of its goals and of what is known behind it: these are put right in the copy's proof, by the names that the
prover tells, and the question is asked again. An edit of a definition is refused by a fact where a law that is stated without it says so: a worked value is
computed to be another (proofs/Worked.antt), a pinning law has two answers (its name says pinned, or it is what such a law waits for), or arithmetic does not
follow and the numbers are shown at which it fails. Other lines that only wait for what another line refuses are passed over."""
import concurrent.futures
import glob
import os
import re
import shutil
import subprocess
import sys
import tempfile

import crates as listed

ROOT = listed.ROOT
KIT = os.path.dirname(os.path.dirname(os.path.realpath(shutil.which("rt") or "")))
TOLD = re.compile(r"^rt: must-fail (\S+)\.edit: (.*)", re.M)
REFUSED = re.compile(r"refused, as it must be(?: \(only because .*?\))?: (.*)")
ERROR = re.compile(r"^\S+: error: .*|^note: \S+: it is not proved that .*", re.M)
WAITS = re.compile(r"error: \d+ declarations? that depends? on (.*), which .* not checked: (.*)")
# Of a function: an answer that does not show its goal; a goal that is left, which alone says nothing where names are gone; one that is false at values.
ANSWER = re.compile(r"proofs/\S+/(?:Answers|Invariants|Proof)\.antt:\d+:\d+: error: `")
LEFT, FALSE = re.compile(r"it is not proved that "), re.compile(r"it is not proved that .*the facts known there allow values at ")
SHAPE = re.compile(r"has no field|has no `|that can be named from here|is not in scope|was not admitted")
# The names that are gone, and those nearest to them.
FIELD = re.compile(r"proofs/(\S+)/\w+\.antt:\d+:\d+: error: .* has no field `([^`]+)` \(nearest: \.([^)\s,]+)")
GOAL = re.compile(r"^help: `Goals` has no `([^`]+)`; rattle asks for `([^`]+)`", re.M)
ROUNDS = 4
# Of a law.
LAW = re.compile(r"proofs/(\w+)\.antt:\d+:\d+: error: `([^`]+)`: (.*)")
NUMBERS = re.compile(r"`omega`: the goal does not follow from what it read\. All of that holds, and the goal fails, at ")
MISFIT = re.compile(r"no occurrence of the path|is not determined|projects from a record|is not in scope|is not a function|takes? .* arguments?")
PROVED = re.compile(r"^logic=proved |^only=1 proved=1$", re.M)
PARTS = ("src", "specs", "proofs")


def by_law(line, pinning):
    """Whether a law says by this that the edited definition is wrong; `pinning` are those that pinning laws wait for."""
    law = LAW.search(line)
    if not law or MISFIT.search(law.group(3)):
        return False
    file, name, said = law.groups()
    return bool(file == "Worked" and re.search("the two types|expected type", said) or "pinned" in name or name in pinning or NUMBERS.match(said))


def by_fact(output):
    """Whether the prover's first line, or a law's, is of a fact that fails; and the first line."""
    lines = ERROR.findall(output)
    waits = [found.groups() for found in map(WAITS.search, lines) if found]
    said = [line for line in lines if not WAITS.search(line)]
    pinning = {waited for names, laws in waits if "pinned" in laws for waited in re.findall("`([^`]+)`", names)}
    first = said[0] if said else ""
    fact = (ANSWER.search(first) or LEFT.search(first)) and not SHAPE.search(first)
    return bool(fact or any(by_law(line, pinning) for line in said)), first


def pairs(edit):
    """The replacements of an edit: [(file, old, new)]."""
    found, file, old = [], None, None
    with open(os.path.join(ROOT, "crates", edit.replace("/", "/must-fail/") + ".edit"), encoding="utf-8") as text:
        for line in text.read().split("\n"):
            word, _, rest = line.partition(":")
            rest = rest[1:] if rest.startswith(" ") else rest
            if word == "file":
                file = rest.strip()
            elif word == "old":
                old = rest
            elif word == "new":
                found.append((file, old, rest))
    return found


def function_of(edit, file, crate):
    """The function that an edit is of, as the checker's --only takes it; None where its name says none of the file that is changed."""
    module, name = os.path.splitext(os.path.basename(file))[0], edit.split("/")[1].split(".")[0]
    with open(os.path.join(crate, file), encoding="utf-8") as text:
        if not file.startswith("src/") or not re.search(r"^(?:pub )?(?:extern \"C\" )?fn %s\b" % name, text.read(), re.M):
            return None
    return "::".join([os.path.basename(crate)] + ([] if module in ("lib", "main") else [module]) + [name])


class Room:
    """A copy of a crate, where its edits are made one after another, over the libraries that bindings/libraries sees to."""

    def __init__(self, crate, crates, folder):
        self.crate, self.own = os.path.join(folder, crate), os.path.join(ROOT, "crates", crate)
        os.makedirs(self.crate)
        rlib = os.path.join(ROOT, "crates", "%s", "out", "rlib")
        below = [name for name in crates if name in listed.below(crate, crates)]
        # rattle's words for a library, as rt gives them
        self.words = ["--crate-name", crate, "src/lib.rt", "--antt-project", os.path.join(KIT, "rattle", "logic", "antt-project.json"), "--links", crate + "="]
        self.words += ["--logic-built", os.path.join(KIT, "logic_built"), "--incremental", os.path.join(folder, crate + ".kept"), "--jobs", "2"]
        self.words += ["--extern", "std=" + os.path.join(KIT, "rlibs", "std.rlib"), "-L", "dependency=" + os.path.join(KIT, "rlibs")]
        for name in below:
            direct = ["--extern", "%s=%s" % (name, os.path.join(rlib % name, name + ".rlib"))] if name in crates[crate] else []
            self.words += [*direct, "-L", "dependency=" + rlib % name]

    def restored(self):
        for part in PARTS:
            if os.path.isdir(os.path.join(self.own, part)):
                shutil.rmtree(os.path.join(self.crate, part), ignore_errors=True)
                shutil.copytree(os.path.join(self.own, part), os.path.join(self.crate, part))

    def changed(self, path, change):
        with open(path, encoding="utf-8") as file:
            text = file.read()
        with open(path, "w", encoding="utf-8") as file:
            file.write(change(text))

    def said(self, *words):
        whole = [os.path.join(KIT, "bin", "rattle"), "check", *self.words, *words]
        return subprocess.run(whole, cwd=self.crate, stdout=subprocess.PIPE, stderr=subprocess.STDOUT, errors="replace", check=False).stdout

    def fault(self, edit):
        self.restored()
        replaced = pairs(edit)
        for file, old, new in replaced:
            self.changed(os.path.join(self.crate, file), lambda text, old=old, new=new: text.replace(old, new))
        output = self.put_right(function_of(edit, replaced[0][0], self.crate))
        if PROVED.search(output) or not re.search(r"^(?:logic|only)=", output, re.M):
            output = self.put_right()
        if PROVED.search(output):
            return "is proved, once its proof has the names that the edited code has"
        fact, first = by_fact(output)
        return None if fact else "the prover names no fact that fails, but: %s" % (first[:200] or "nothing")

    def put_right(self, function=None):
        """What is said of the crate, or of one function, once the names in its proof are right."""
        words = ["--only", function] if function else []
        output = self.said(*words)
        for _ in range(ROUNDS):
            if not self.renamed(output):
                break
            output = self.said(*words)
        return output

    def renamed(self, output):
        """Puts the names right that proofs of functions have, and the edited code has not; whether there were any."""
        goals, of_functions = dict(GOAL.findall(output)), {}
        for line in ERROR.findall(output):
            field, gone = FIELD.search(line), re.search(r"proofs/(\S+)/\w+\.antt:.*module `[^`]*Goals` has no `([^`]+)`", line)
            if field:
                of_functions.setdefault(field.group(1), {})[field.group(2)] = field.group(3)
            elif gone and gone.group(2) in goals:
                of_functions.setdefault(gone.group(1), {})[gone.group(2)] = goals[gone.group(2)]
        for function, names in of_functions.items():
            for path in glob.glob(os.path.join(self.crate, "proofs", function, "*.antt")):
                self.changed(path, lambda text, names=names: re.sub(r"[\w'-]+", lambda word: names.get(word.group(), word.group()), text))
        return bool(of_functions)


def looked_into(open_ones, crates):
    """The faults of edits, by crate."""
    if open_ones and subprocess.run([os.path.join(ROOT, "bindings", "libraries"), *open_ones], stdout=subprocess.DEVNULL, check=False).returncode:
        yield from ((edit, "what its crate stands on is not built") for edits in open_ones.values() for edit in edits)
        return
    with tempfile.TemporaryDirectory() as folder, concurrent.futures.ThreadPoolExecutor(max(1, (os.cpu_count() or 1) // 2)) as pool:

        def of_crate(crate):
            room = Room(crate, crates, folder)
            return [(edit, room.fault(edit)) for edit in open_ones[crate]]

        for found in pool.map(of_crate, open_ones):
            yield from found


def main():
    if len(sys.argv) < 2:
        sys.exit(__doc__)
    with open(sys.argv[1], encoding="utf-8", errors="replace") as file:
        told = dict(TOLD.findall(file.read()))
    edits = sorted("/".join(path.split(os.sep)[-3::2])[: -len(".edit")] for path in glob.glob(os.path.join(ROOT, "crates", "*", "must-fail", "*.edit")))
    asked = sys.argv[2:] or edits
    faults, open_ones, crates = ["%s: there is no such edit" % edit for edit in asked if edit not in edits], {}, listed.graph()
    for edit in (edit for edit in asked if edit in edits):
        refused = REFUSED.match(told.get(edit, ""))
        if not refused:
            faults.append("%s: %s" % (edit, told.get(edit, "was not tried")))
        elif not (FALSE.search(refused.group(1)) or ANSWER.search(refused.group(1)) and not SHAPE.search(refused.group(1)) or by_law(refused.group(1), ())):
            open_ones.setdefault(edit.split("/")[0], []).append(edit)
    faults += ["%s: %s" % (edit, fault) for edit, fault in looked_into(open_ones, crates) if fault]
    for line in faults:
        print("must-fail edits: " + line)
    print("must-fail edits: %d asked, %d of them looked into, %d faults" % (len(asked), sum(map(len, open_ones.values())), len(faults)))
    sys.exit(1 if faults else 0)


if __name__ == "__main__":
    main()
