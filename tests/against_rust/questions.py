#!/usr/bin/env python3
"""Writes questions in the form of docs/ASK.md to standard output.

    python3 tests/against_rust/questions.py                what compare.py asks by default
    python3 tests/against_rust/questions.py --seed 7       other random questions
    python3 tests/against_rust/questions.py --all          every 8-bit pair and every 16-bit number besides

Edges crossed with edges for every name, random ones, and damaged ones; one line is one question, and any byte may stand in a line."""
import argparse
import random
import sys

import damaged
import of_decimal
import of_integers
import of_slices
import of_text
from names import ASKED_WITH

LEAST_QUESTIONS = 200000
LEAST_OF_A_NAME = 100
SHARE = 16


def assert_covered(whole):
    """Every name is asked for, often enough, and no other name is."""
    asked = dict.fromkeys(ASKED_WITH, 0)
    for line in whole:
        asked[line.partition(" ")[0]] += 1
    seldom = [name for name, count in asked.items() if count < LEAST_OF_A_NAME]
    assert not seldom, "asked for too seldom: " + " ".join(seldom)
    assert len(whole) >= LEAST_QUESTIONS


def share_of(draw, block):
    """Some of the lines of a block that --all asks completely."""
    return block.split("\n")[draw.randrange(SHARE) :: SHARE]


def main_input(seed, complete):
    """The large input. Its last line has no newline."""
    draw = random.Random(seed)
    blocks = list(of_integers.complete_blocks())
    whole = [*of_integers.questions(draw), *of_slices.questions(draw), *of_text.questions(draw), *of_decimal.questions(draw)]
    for block in blocks:
        whole += share_of(draw, block)
    assert_covered(whole)
    lines = whole + list(damaged.questions(draw, whole))
    draw.shuffle(lines)
    lines += damaged.of_lengths()
    lines.append(damaged.binary(draw, 200000))
    if complete:
        lines += blocks
    lines.append("u8.wrapping_add 200 100")
    return "\n".join(lines).encode("latin-1")


def small_inputs(seed):
    """Whole inputs, where what matters is how they begin and end."""
    draw = random.Random(seed)
    question = b"i8.checked_rem -128 -1"
    yield from (b"", b"\n", b"\n\n\n", b" ", b" \n", b"\x00", b"\xff\n", b"\r\n", question, question + b"\n", question + b"\n\n", b"\n" + question, question + b"\r\n" + question)
    for length in (damaged.LONGEST_LINE - 1, damaged.LONGEST_LINE, damaged.LONGEST_LINE + 1, 2 * damaged.LONGEST_LINE, 2 * damaged.LONGEST_LINE + 1):
        for line in damaged.of_length(length):
            yield line.encode("latin-1")
            yield line.encode("latin-1") + b"\n"
    # a newline at, before and behind the places where a reader by blocks begins a new one
    for size in (4096, 8192, 32768, 65536):
        for off in (-2, -1, 0, 1):
            yield question.ljust(size + off - 40, b" ") + b"\n" + question.ljust(39, b" ") + b"\n" + question + b"\n" + question
    yield draw.randbytes(100000)
    yield b"\n" * 100000
    yield (question + b"\n") * 50000


def lines_of(text):
    """The lines of an input: what stands behind the last newline is one, if it is not empty."""
    lines = text.split(b"\n")
    return lines if lines[-1] else lines[:-1]


def count_of(text):
    return text.count(b"\n") + (not text.endswith(b"\n") and text != b"")


def main():
    options = argparse.ArgumentParser(description=__doc__, formatter_class=argparse.RawDescriptionHelpFormatter)
    options.add_argument("--seed", type=int, default=1)
    options.add_argument("--all", action="store_true")
    chosen = options.parse_args()
    sys.stdout.buffer.write(main_input(chosen.seed, chosen.all))


if __name__ == "__main__":
    main()
