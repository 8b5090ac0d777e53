#!/usr/bin/env python3
"""Holds the restated clauses (specs/*.antt), and what the exports answer through `ask`, against vstd's own text, evaluated with unbounded integers.

    python3 tests/against_vstd/compare.py               the test that the gate runs
    python3 tests/against_vstd/compare.py PROGRAM       with another program than the repository's ./ask
    python3 tests/against_vstd/compare.py --record      and write verdict.txt anew

vstd's text is read from the folder that the variable VSTD names (or ../shared/docs/src beside the repository). Where it is not at hand, verdict.txt stands in:
the restated files must be those that it is about. Exit status 1 where anything differs, an item of vstd's is neither taken up nor left out for a reason, a form
is not understood, a change made in memory is not found out, or verdict.txt is not in step."""
import argparse
import collections
import os
import sys

import changed
import record
from antt_values import Definitions
from faults import Fault
from items import FILES, FILES_LEFT_OUT, RESTATED, WORDS_OF_OUR_OWN, Items, left_out
from rust_values import Library

HERE = os.path.dirname(os.path.abspath(__file__))
ROOT = os.path.dirname(os.path.dirname(HERE))
VSTD = os.environ.get("VSTD", os.path.join(os.path.dirname(ROOT), "shared", "docs", "src"))
OWN = os.path.join(ROOT, "ask")
SHOWN = 10
AT_ONCE = 500000

sys.path.append(os.path.join(ROOT, "tests", "against_rust"))
import answerers  # noqa: E402


class Questions:
    """Questions for a program with their right answers, asked many at once."""

    def __init__(self, command):
        self.command, self.asked, self.right, self.count, self.differing = command, [], [], 0, []

    def add(self, question, right):
        self.asked.append(question)
        self.right.append(right)

    def ask(self, least=1):
        if len(self.asked) < least:
            return
        try:
            said = answerers.answers(self.command, "\n".join(self.asked + [""]).encode("ascii")).decode("ascii").split("\n")[:-1]
        except answerers.Fault as fault:
            raise Fault(str(fault)) from fault
        if len(said) != len(self.asked):
            raise Fault("%s gave %d answers to %d questions" % (self.command[0], len(said), len(self.asked)))
        self.differing += differing(self.asked, said, self.right)
        if not self.count and not differing(self.asked, ["another answer"] + said[1:], self.right):
            raise Fault("a wrong answer is not found out")
        self.count += len(self.asked)
        self.asked, self.right = [], []


def differing(asked, said, right):
    return [] if said == right else [entry for entry in zip(asked, said, right) if entry[1] != entry[2]]


def vstd_texts():
    """The text of each of vstd's files, or None where it is not at hand."""
    if not os.path.isdir(VSTD):
        return None
    found = {}
    for name in FILES:
        path = os.path.join(VSTD, name + ".rs.txt")
        if not os.path.exists(path):
            raise Fault("vstd's text lacks %s" % path)
        with open(path, encoding="utf-8") as file:
            found[name] = file.read()
    return found


def report_left_out(library):
    reasons = collections.Counter(filter(None, map(left_out, library.items)))
    for reason, count in reasons.items():
        print("left out: %d items: %s" % (count, reason))


def nothing_unread(items, definitions):
    """Every definition of the restated files is compared, or a part of one that is; every specs file beside them is one of them, or left out for a reason."""
    reached = definitions.reached(items.compared)
    for names in RESTATED.values():
        for module in definitions.restated(names):
            for own in [*module.functions, *module.records]:
                if (module.file, own) not in reached and own not in WORDS_OF_OUR_OWN:
                    raise Fault("%s: %s is held against nothing of vstd's" % (module.file, own))
            for file in os.listdir(os.path.join(definitions.root, os.path.dirname(module.file))):
                name = file.removesuffix(".antt")
                if name not in FILES_LEFT_OUT and not any(name in others for others in RESTATED.values()):
                    raise Fault("%s beside %s is held against nothing of vstd's" % (file, module.file))


def all_compared(checks, questions):
    """Runs every check; prints what differs, and a line for each of vstd's files."""
    differences, of_files = 0, collections.OrderedDict((name, [set(), 0, 0, 0]) for name in FILES)
    for check in checks:
        for difference in check.differences(questions):
            differences += 1
            if differences <= SHOWN:
                print("    %s" % (difference,))
        if not check.tried:
            raise Fault("%s was tried at nothing" % check.item.key)
        counted = of_files[check.item.file]
        counted[0].add(check.item.key)
        for place, more in enumerate((check.clauses, check.tried, check.compared), 1):
            counted[place] += more
        questions.ask(AT_ONCE)
    questions.ask()
    for name, (keys, clauses, tried, compared) in of_files.items():
        print("%s: %d items, %d clauses, tried at %d arguments, %d comparisons" % (name, len(keys), clauses, tried, compared))
    names = ("items", "clauses", "arguments", "comparisons")
    totals = [sum(len(counted[0]) for counted in of_files.values())] + [sum(counted[place] for counted in of_files.values()) for place in (1, 2, 3)]
    return differences, dict(zip(names, totals))


def compared(texts, command, renew):
    library, definitions = Library(texts), Definitions(ROOT)
    items, questions = Items(library, definitions), Questions(command)
    differences, counts = all_compared(items.checks(), questions)
    nothing_unread(items, definitions)
    report_left_out(library)
    print("%d differences" % differences)
    counts["answers"] = questions.count
    print("%d questions to %s, %d answered differently" % (questions.count, os.path.basename(command[0]), len(questions.differing)))
    for entry in questions.differing[:SHOWN]:
        print("    %s\n        here %s\n        vstd %s" % entry)
    for change, difference in changed.all_found(texts, ROOT, library, definitions):
        print("changed in memory, %s: %s; found: %s" % (change.where, change.what, difference))
    for change, fault in changed.all_refused(texts, definitions):
        print("changed in memory, %s: %s; refused: %s" % (change.where, change.what, fault))
    if differences or questions.differing:
        return False
    found = list(record.lines(texts, definitions.read, counts))
    if renew:
        record.write(found)
    if not record.in_step(found):
        print("verdict.txt is not in step: renew it with python3 tests/against_vstd/compare.py --record")
        return False
    return True


def main():
    options = argparse.ArgumentParser(description=__doc__, formatter_class=argparse.RawDescriptionHelpFormatter)
    options.add_argument("program", nargs="?")
    options.add_argument("--record", action="store_true")
    chosen = options.parse_args()
    try:
        texts = vstd_texts()
        if texts is None and chosen.record:
            raise Fault("vstd's text is not at %s" % VSTD)
        if texts is None:
            print("vstd's text is not at hand: tests/against_vstd/verdict.txt stands in")
            record.stands_in(ROOT)
            sys.exit(0)
        sys.exit(0 if compared(texts, [os.path.abspath(chosen.program or OWN)], chosen.record) else 1)
    except Fault as fault:
        sys.exit("FAULT: %s" % fault)


if __name__ == "__main__":
    main()
