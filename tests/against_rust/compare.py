#!/usr/bin/env python3
"""Holds the answers of a program (by default the repository's ./ask) against those of Rust's standard library, line by line.

    python3 tests/against_rust/compare.py                   the test that the gate runs
    python3 tests/against_rust/compare.py PROGRAM           another program
    python3 tests/against_rust/compare.py --seed 7 --all    other random questions; every 8-bit pair and every 16-bit number besides
    python3 tests/against_rust/compare.py --store           write sample.txt anew from the standard library's answers

Exit status 1 where an answer differs, a program ends badly or answers another number of lines, a wrong answerer is not found out, or the stored sample is not what
the standard library answers, or ./ask lists a name that nobody asks for. Where there is no rustc, only the stored sample is asked."""
import argparse
import os
import random
import sys

import questions
import sample
import sample_edges
from answerers import ROOT, Fault, answers, answers_to_pieces, built, rustc_version
from names import ASKED_WITH, listed

OWN = os.path.join(ROOT, "ask")
SHOWN = 10
WIDEST = 200


def shortened(line):
    text = line.decode("latin-1").encode("unicode_escape").decode("ascii")
    return text if len(text) <= WIDEST else "%s... (%d bytes)" % (text[:WIDEST], len(line))


def answer_lines(command, asked, pieces=None):
    """A program's answers as one text, which has a line for each question."""
    said = answers_to_pieces(command, pieces) if pieces else answers(command, asked)
    expected = questions.count_of(asked)
    if said and not said.endswith(b"\n"):
        raise Fault("%s does not end its last line" % command[0])
    if said.count(b"\n") != expected:
        raise Fault("%s gave %d answers to %d questions" % (command[0], said.count(b"\n"), expected))
    return said


def differences(command, asked, right, pieces=None):
    """The questions to which a program gives another answer than `right` has, with both answers."""
    ours = answer_lines(command, asked, pieces)
    if ours == right:
        return []
    return [entry for entry in zip(*map(questions.lines_of, (asked, ours, right))) if entry[1] != entry[2]]


def report(what, count, differing):
    print("%s: %d questions, %d answered differently" % (what, count, len(differing)))
    for question, ours, right in differing[:SHOWN]:
        print("    %s\n        here %s\n        Rust %s" % tuple(map(shortened, (question, ours, right))))
    return len(differing)


def stored_sample():
    """The stored questions as one input, and the stored answers."""
    return tuple(b"".join(line + b"\n" for line in lines) for lines in zip(*sample.stored()))


def cut(text, seed):
    """The same bytes in pieces of 1 to 5000."""
    draw, place, pieces = random.Random(seed), 0, []
    while place < len(text):
        size = draw.choice([1, 2, draw.randint(1, 50), draw.randint(1, 5000)])
        pieces.append(text[place : place + size])
        place += size
    return pieces


def of_sample(command, what, seed):
    asked, right = stored_sample()
    differing = differences(command, asked, right) or differences(command, asked, right, cut(asked, seed))
    return report(what, questions.count_of(asked), differing)


def is_found_out(command, asked, right):
    """Whether the one answer that is wrong is found, and no other."""
    differing = differences(command, asked, right)
    return differing and all(b".checked_rem -" in question and question.endswith(b" -1") for question, _, _ in differing)


def is_refused(command, asked, right):
    try:
        differences(command, asked, right)
    except Fault:
        return True
    return False


def wrong_answerers(wrong, asked, right):
    """A test that cannot fail is none: one wrong answer, a line too few and a bad end are all found out."""
    small, small_right = stored_sample()
    found = [
        is_found_out([wrong, "answer"], asked, right), is_found_out([wrong, "answer"], small, small_right), is_refused([wrong, "short"], small, small_right),
        is_refused([wrong, "status"], small, small_right),
    ]
    if not all(found):
        raise Fault("a wrong answerer was not found out")
    print("wrong answerers: %d of %d found out" % (len(found), len(found)))


def write_sample(standard, asked, right):
    chosen = list(dict.fromkeys([*sample_edges.questions(), *sample.chosen(questions.lines_of(asked), questions.lines_of(right))]))
    text = b"".join(question + b"\n" for question in chosen)
    sample.store(list(zip(chosen, questions.lines_of(answer_lines([standard], text)))))
    print("sample.txt: %d questions" % len(chosen))


def small_inputs(command, standard, seed):
    count, differing = 0, []
    inputs = list(questions.small_inputs(seed))
    for asked in inputs:
        differing += differences(command, asked, answer_lines([standard], asked))
        count += questions.count_of(asked)
    return report("%d small inputs" % len(inputs), count, differing)


def names_left_out(program):
    """Names that the program lists and nobody asks for, and those that are asked for and not listed: an operation that is added to it is compared, too."""
    there = set(listed(answers(program + ["--help"], b"").decode("ascii")))
    differing = sorted(there ^ set(ASKED_WITH))
    print("names: %d listed, %d left out%s" % (len(there), len(differing), "".join("\n    " + name for name in differing)))
    return len(differing)


def compared(chosen):
    version, program = rustc_version(), [os.path.abspath(chosen.program or OWN)]
    left_out = 0 if chosen.program or chosen.store else names_left_out(program)
    return left_out + compared_answers(chosen, version, program)


def compared_answers(chosen, version, program):
    if not version and chosen.store:
        raise Fault("the sample is written by the standard library: it needs rustc 1.90 or later")
    if not version:
        print("rustc (1.90 or later) is not at hand: only the stored sample is asked")
        return of_sample(program, "stored sample", chosen.seed)
    standard, wrong = built("std_answers", version), built("wrong_answers", version, "--cfg", "wrong")
    asked = questions.main_input(chosen.seed, chosen.all)
    right = answer_lines([standard], asked)
    if chosen.store:
        write_sample(standard, asked, right)
        return 0
    print("%s, seed %d" % (version, chosen.seed))
    differing = of_sample([standard], "stored sample, asked of the standard library", chosen.seed)
    wrong_answerers(wrong, asked, right)
    differing += of_sample(program, "stored sample", chosen.seed)
    differing += report("all names", questions.count_of(asked), differences(program, asked, right))
    return differing + small_inputs(program, standard, chosen.seed)


def main():
    options = argparse.ArgumentParser(description=__doc__, formatter_class=argparse.RawDescriptionHelpFormatter)
    options.add_argument("program", nargs="?")
    options.add_argument("--seed", type=int, default=1)
    options.add_argument("--all", action="store_true")
    options.add_argument("--store", action="store_true")
    try:
        sys.exit(1 if compared(options.parse_args()) else 0)
    except Fault as fault:
        sys.exit("FAULT: %s" % fault)


if __name__ == "__main__":
    main()
