"""vstd's text as tokens. Comments are left out, and so are the attributes that say nothing of a value; another attribute is not understood."""
import re
from typing import NamedTuple, Optional

from faults import NotUnderstood

TOKEN = re.compile(
    r"""
    (?P<space>\s+|//[^\n]*|/\*.*?\*/)
    |(?P<char>'(?:\\u\{[0-9A-Fa-f]+\}|\\.|[^'\\])')
    |(?P<text>"[^"]*")
    |(?P<number>0x[0-9a-fA-F_]+|[0-9][0-9_]*)(?P<suffix>[ui](?:8|16|32|64|128|size))?(?!\w)
    |(?P<name>\$?[A-Za-z_]\w*)
    |(?P<symbol><==>|=~=|&&&|\|\|\||==>|\.\.=|->|=>|::|\.\.|<<|>>|<=|>=|==|!=|&&|\|\||[-+*/%&|^!<>=(){}\[\],;:.\#@$])
    """,
    re.X | re.S,
)
CLOSING = {"(": ")", "[": "]", "{": "}"}
# What the prover is told: triggers, which code is checked and how, and what is built when. None of them is part of a promise.
ATTRIBUTES = {"trigger", "verifier", "verusfmt", "cfg", "allow"}


class Token(NamedTuple):
    kind: str
    text: str
    line: int
    suffix: Optional[str] = None


def tokens(file, text):
    found, place, line = [], 0, 1
    while place < len(text):
        match = TOKEN.match(text, place)
        if not match:
            raise NotUnderstood(file, line, repr(text[place : place + 20]))
        if match.lastgroup != "space":
            kind = "number" if match.group("number") else match.lastgroup
            found.append(Token(kind, match.group("number") or match.group(0), line, match.group("suffix")))
        line += match.group(0).count("\n")
        place = match.end()
    return without_attributes(file, found)


def group_end(file, found, place):
    """The place behind the bracket that closes the one at `place`."""
    waiting = []
    for at in range(place, len(found)):
        token = found[at]
        if token.kind == "symbol" and token.text in CLOSING:
            waiting.append(CLOSING[token.text])
        elif token.kind == "symbol" and waiting and token.text == waiting[-1]:
            waiting.pop()
            if not waiting:
                return at + 1
    raise NotUnderstood(file, found[place].line, "a bracket that is never closed")


def without_attributes(file, found):
    kept, place = [], 0
    while place < len(found):
        if found[place].text != "#":
            kept.append(found[place])
            place += 1
            continue
        at = place + 2 if found[place + 1].text == "!" else place + 1
        if found[at].text != "[" or found[at + 1].text not in ATTRIBUTES:
            raise NotUnderstood(file, found[place].line, "the attribute " + "".join(token.text for token in found[place : at + 3]))
        place = group_end(file, found, at)
    return kept
