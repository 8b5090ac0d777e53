"""verdict.txt: what was compared where vstd's text was at hand, and what both sides were then."""
import hashlib
import os

from faults import Fault

HERE = os.path.dirname(os.path.abspath(__file__))
PATH = os.path.join(HERE, "verdict.txt")
RELEASE = "0.0.0-2026-10-25-0158"
RENEW = "run it where vstd's text is at hand: python3 tests/against_vstd/compare.py --record"
HEAD = "# No difference was found between vstd's text and what is restated here, at these states of both. Written by compare.py --record.\n"


def hash_of(text):
    return hashlib.sha256(text.encode("utf-8")).hexdigest()


def lines(texts, here, counts):
    """The record of a comparison: `texts` are vstd's, `here` our files by their paths."""
    yield "release " + RELEASE
    yield from ("vstd %s %s" % (hash_of(text), name) for name, text in sorted(texts.items()))
    yield from ("here %s %s" % (hash_of(text), path) for path, text in sorted(here.items()))
    yield from ("count %d %s" % (count, name) for name, count in counts.items())


def write(found):
    with open(PATH, "w", encoding="utf-8") as file:
        file.write(HEAD + "".join(line + "\n" for line in found))


def stored():
    if not os.path.exists(PATH):
        raise Fault("there is no tests/against_vstd/verdict.txt: " + RENEW)
    with open(PATH, encoding="utf-8") as file:
        return [line for line in file.read().split("\n") if line and not line.startswith("#")]


def in_step(found):
    """Whether a fresh comparison is what the record says; a line for each that is not."""
    differing = sorted(set(found) ^ set(stored()))
    for line in differing:
        print("verdict.txt: %s %s" % ("lacks" if line in found else "has", line))
    return not differing


def stands_in(root):
    """Without vstd's text: the restated files must be those that the record is about."""
    changed = []
    for line in stored():
        kind, value, path = (line.split(" ", 2) + [""])[:3]
        if kind == "here":
            there = os.path.join(root, path)
            if not os.path.exists(there):
                changed.append(path)
                continue
            with open(there, encoding="utf-8") as file:
                if hash_of(file.read()) != value:
                    changed.append(path)
    if changed:
        raise Fault("changed since they were held against vstd's text: %s; %s" % (", ".join(changed), RENEW))
