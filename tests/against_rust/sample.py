"""The stored sample: questions with the standard library's answers, for where there is no rustc. A line of sample.txt is a question, a tab and the answer; bytes that are
no printable ASCII are written as Python writes them (\\xff, \\t, \\\\)."""
import os

from names import ASKED_WITH, KINDS, may_refuse

PATH = os.path.join(os.path.dirname(os.path.abspath(__file__)), "sample.txt")
LONGEST_LINE = 600
# of each name so many questions with a value, refused and malformed, besides those of sample_edges.py
OF_AN_INTEGER = {"value": 2, "refused": 1, "malformed": 1}
OF_BYTES_OR_TEXT = {"value": 6, "refused": 3, "malformed": 3}
UNKNOWN = 200


def kind_of(answer):
    return answer if answer in (b"refused", b"malformed", b"unknown") else b"value"


def chosen(questions, answers):
    """From all questions with their answers, a few of each name and each kind of answer."""
    left = {}
    for name in ASKED_WITH:
        for kind, count in (OF_AN_INTEGER if name.split(".")[0] in KINDS else OF_BYTES_OR_TEXT).items():
            left[name.encode(), kind.encode()] = count
    unknown = UNKNOWN
    for question, answer in zip(questions, answers):
        if len(question) + len(answer) > LONGEST_LINE:
            continue
        key = (question.partition(b" ")[0], kind_of(answer))
        if key[1] == b"unknown" and unknown:
            unknown -= 1
            yield question
        elif left.get(key):
            left[key] -= 1
            yield question


def assert_covering(pairs):
    """Every name is asked for with a value as the answer, and with a refusal where it may refuse."""
    there = {(question.partition(b" ")[0].decode("latin-1"), kind_of(answer)) for question, answer in pairs}
    missing = [name for name in ASKED_WITH if (name, b"value") not in there or (may_refuse(name) and (name, b"refused") not in there)]
    assert not missing, "the sample lacks answers of: " + " ".join(missing)


def stored():
    """The pairs of question and answer."""
    with open(PATH, encoding="ascii") as file:
        lines = file.read().split("\n")[:-1]
    pairs = [line.split("\t") for line in lines]
    found = [(question.encode("ascii").decode("unicode_escape").encode("latin-1"), answer.encode("ascii")) for question, answer in pairs]
    assert_covering(found)
    return found


def store(pairs):
    assert_covering(pairs)
    with open(PATH, "w", encoding="ascii") as file:
        for question, answer in pairs:
            file.write("%s\t%s\n" % (question.decode("latin-1").encode("unicode_escape").decode("ascii"), answer.decode("ascii")))
