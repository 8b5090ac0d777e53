#!/usr/bin/env python3
"""Where the gate's time went.

    rt ci 2>&1 | python3 .ci/times.py --stamp     each line, behind the seconds since the start
    python3 .ci/times.py LOG STEPS                LOG is made so, STEPS has the lines 'NAME: SECONDS' of the gate's steps
    python3 .ci/times.py --table LOG              writes .ci/seconds.txt, by which bindings/progress guesses how long proofs take

rt prints no seconds, and proves several crates at once, so what is known of a crate is when it was done. For the table rt does one thing at a time, so that a
crate takes the seconds since the line before its own: RT_JOBS=1 rt ci --anew."""
import os
import re
import sys
import time

STAMPED = re.compile(r"^(\d+) (.*)$", re.M)
PROOF = re.compile(r"rt: (\w+) (?:proved|NOT PROVED)$")
KEPT = re.compile(r"rt: (\w+) is kept: ")
EDIT = re.compile(r"rt: must-fail \S+: ")
RUN = re.compile(r"rt: (\w+)(?: ran\b.*|: its tests (?:passed|FAILED))$")
STEP = re.compile(r"^(.*): (\d+)$", re.M)
TABLE = os.path.join(os.path.dirname(os.path.abspath(__file__)), "seconds.txt")
SHORT = 4  # seconds that a crate without a line of the table is taken to need
SHOWN = 20
HEAD = """# About how many seconds the proof of each crate takes, by the clock, one at a time;
# of a crate that is not named, %d or fewer. bindings/progress guesses by it; .ci/times.py --table writes it anew from a run of rt ci.
"""


def stamp():
    began = time.monotonic()
    for line in sys.stdin.buffer:
        sys.stdout.buffer.write(b"%d %s" % (time.monotonic() - began, line))
        sys.stdout.flush()


def read(path):
    with open(path, encoding="utf-8", errors="replace") as file:
        return file.read()


def ended(log):
    """(seconds, line) of what rt said."""
    return [(int(seconds), line) for seconds, line in STAMPED.findall(log)]


def done(lines, pattern):
    return [(seconds, found.group(1)) for seconds, line in lines for found in [pattern.match(line)] if found]


def write_table(log):
    rows, before = [], 0
    for seconds, line in ended(log):
        found = PROOF.match(line)
        if found and seconds - before > SHORT:
            rows.append((before - seconds, found.group(1)))
        before = seconds if found else before
    with open(TABLE, "w", encoding="utf-8") as table:
        table.write(HEAD % SHORT)
        table.writelines("%s %d\n" % (name, -seconds) for seconds, name in sorted(rows))


def main():
    if sys.argv[1:] == ["--stamp"]:
        return stamp()
    if sys.argv[1] == "--table":
        return write_table(read(sys.argv[2]))
    lines, steps = ended(read(sys.argv[1])), STEP.findall(read(sys.argv[2]))
    proved, kept, runs, edits = done(lines, PROOF), done(lines, KEPT), done(lines, RUN), [line for _, line in lines if EDIT.match(line)]
    last = sorted(proved, reverse=True)[:SHOWN]
    print("proofs: %d done in this run, %d kept; the last ones, and the second at which each was done: %s" % (
        len(proved), len(kept), ", ".join("%s %d" % (name, seconds) for seconds, name in last) or "none"))
    print("wrong answers: %d; programs and tests that ran: %d; rt ci ended after %d s" % (len(edits), len(runs), lines[-1][0] if lines else 0))
    by_length = sorted(steps, key=lambda step: -int(step[1]))
    print("seconds of the gate's steps: %d: %s" % (sum(int(seconds) for _, seconds in steps), ", ".join("%s %s" % step for step in by_length)))


if __name__ == "__main__":
    main()
