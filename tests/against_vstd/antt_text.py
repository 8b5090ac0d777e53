"""Restated definitions, read from their files: what a file imports, its records and data types, and its functions by their clauses."""
import re
from dataclasses import dataclass, field
from typing import NamedTuple

from faults import NotUnderstood
from kit import FIXITIES

COMMENT = re.compile(r"(^|\s)--.*$")
TOKEN = re.compile(r"[(){};,]|\.?[^\s(){};,.]+")
USE = re.compile(r"use ([^\s{]+?)(?:\.\{([^}]*)\})?$")
FIXITY = re.compile(r"(infix|infixl|infixr) (\d+) (.*)$")
SIDES = {"infix": "none", "infixl": "left", "infixr": "right"}


class Token(NamedTuple):
    text: str
    line: int


@dataclass
class Module:
    file: str
    imports: dict = field(default_factory=dict)  # name: path of the module that has it
    fixities: dict = field(default_factory=dict)
    functions: dict = field(default_factory=dict)  # name: [(line, patterns, right side)]
    records: dict = field(default_factory=dict)  # name: (line, parameters, [(field, type)])
    constructors: dict = field(default_factory=dict)  # name: how many arguments


def declarations(text):
    """The lines of each declaration: it begins at the left edge, and what is indented goes on with it."""
    found = []
    for number, line in enumerate(text.split("\n"), 1):
        line = COMMENT.sub("", line).rstrip()
        if line and not line[0].isspace():
            found.append([(number, line)])
        elif line:
            found[-1].append((number, line))
    return found


def tokens_of(lines):
    return [Token(text, number) for number, line in lines for text in TOKEN.findall(line)]


def module_of(file, text, fixity_from):
    """`fixity_from(path, operator)` says how tightly an imported operator binds."""
    module, declared = Module(file, fixities=dict(FIXITIES)), declarations(text)
    for lines in declared:
        whole = " ".join(line.strip() for _, line in lines)
        use, fixity = USE.match(whole), FIXITY.match(whole)
        if use and use.group(2) is not None:
            for name in filter(None, map(str.strip, use.group(2).split(","))):
                module.imports[name] = use.group(1)
                operator = name.strip("◌")
                if name.startswith("◌") and operator not in FIXITIES:
                    module.fixities[operator] = fixity_from(use.group(1), operator)
        elif whole.startswith("use "):
            raise NotUnderstood(file, lines[0][0], whole)
        elif fixity:
            for operator in fixity.group(3).split():
                module.fixities[operator.strip("◌")] = int(fixity.group(2)), SIDES[fixity.group(1)]
    for lines in declared:
        if not lines[0][1].startswith(("use ", "infix", "pub mod ")):
            Reader(module, tokens_of(lines)).declaration(lines)
    return module


class Reader:
    """One declaration."""

    def __init__(self, module, found):
        self.module, self.tokens, self.place = module, found, 0

    def refuse(self, form):
        at = min(self.place, len(self.tokens) - 1)
        raise NotUnderstood(self.module.file, self.tokens[at].line, form)

    def peek(self, ahead=0):
        at = self.place + ahead
        return self.tokens[at].text if at < len(self.tokens) else ""

    def take(self):
        if self.place >= len(self.tokens):
            self.refuse("the end of a declaration")
        self.place += 1
        return self.tokens[self.place - 1].text

    def expect(self, text):
        if self.peek() != text:
            self.refuse("%s where %s should stand" % (self.peek(), text))
        self.place += 1

    def declaration(self, lines):
        while self.peek() in ("pub", "unfoldable", "abbrev"):
            self.place += 1
        if self.peek() in ("record", "data"):
            (self.record if self.take() == "record" else self.data)(lines)
        elif self.peek(1) == ":":
            self.module.functions.setdefault(self.peek(), [])
        else:
            self.clause()

    def record(self, lines):
        line, name, parameters = self.tokens[0].line, self.take(), []
        while self.peek() == "(":
            self.take()
            while self.peek() != ":":
                parameters.append(self.take())
            while self.take() != ")":
                pass
        fields = []
        for field_lines in lines[1:]:
            reader = Reader(self.module, tokens_of([field_lines]))
            if reader.peek() == "pub":
                reader.take()
            field_name = reader.take()
            reader.expect(":")
            fields.append((field_name, reader.whole()))
        self.module.records[name] = line, parameters, fields

    def data(self, lines):
        for number, line in lines[1:]:
            name, rest = line.strip().split(" : ", 1)
            if "(" in rest or "{" in rest:
                raise NotUnderstood(self.module.file, number, line.strip())
            self.module.constructors[name] = rest.count("→")

    def clause(self):
        line, left = self.tokens[0].line, self.expression(0)
        self.expect("=")
        right = self.whole()
        head, patterns = ("◌%s◌" % left[2], list(left[3:])) if left[0] == "operator" else (left[2], []) if left[0] == "name" else (left[2][2], left[3])
        if head not in self.module.functions:
            self.refuse("a clause of %s, which has no type" % head)
        self.module.functions[head].append((line, patterns, right))

    # ---- expressions: tuples (form, line, parts ..)

    def whole(self):
        inside = self.expression(0)
        if self.place != len(self.tokens):
            self.refuse("%s behind an expression" % self.peek())
        return inside

    def expression(self, least):
        left = self.dependent() if self.is_binder() else self.application()
        while self.peek() in self.module.fixities:
            level, side = self.module.fixities[self.peek()]
            if level < least:
                break
            line, sign = self.tokens[self.place].line, self.take()
            right = self.expression(level if side == "right" else level + 1)
            if side == "none" and self.module.fixities.get(self.peek(), (None,))[0] == level:
                self.refuse("%s beside %s" % (sign, self.peek()))
            left = ("arrow", line, left, right) if sign == "→" else ("operator", line, sign, left, right)
        return left

    def is_binder(self):
        """`(x y : A) → ..`"""
        ahead = 1
        while self.peek() == "(" and re.fullmatch(r"[^\W\d][\w']*", self.peek(ahead)):
            ahead += 1
        return ahead > 1 and self.peek(ahead) == ":"

    def dependent(self):
        line, names = self.tokens[self.place].line, []
        self.expect("(")
        while self.peek() != ":":
            names.append(self.take())
        self.expect(":")
        kind = self.expression(0)
        self.expect(")")
        self.expect("→")
        inside = self.expression(0)
        for name in reversed(names):
            inside = "for_all", line, name, kind, inside
        return inside

    def application(self):
        line, parts = self.tokens[min(self.place, len(self.tokens) - 1)].line, []
        while True:
            token = self.peek()
            if token in ("", ")", "}", ";", ",", "=", ":") or token in self.module.fixities:
                break
            if token == "{":
                while self.take() != "}":
                    pass
            elif token.startswith(".") and parts:
                self.place += 1
                parts[-1] = "field", line, parts[-1], token[1:]
            else:
                parts.append(self.atom())
        if not parts:
            self.refuse(self.peek() or "the end of a declaration")
        return parts[0] if len(parts) == 1 else ("apply", line, parts[0], parts[1:])

    def atom(self):
        line, token = self.tokens[self.place].line, self.take()
        if token == "(":
            inside = self.expression(0)
            self.expect(")")
            return inside
        if token == "record" and self.peek() == "{":
            return self.record_value(line)
        if re.fullmatch(r"0x[0-9a-fA-F]+|\d+", token):
            return "number", line, int(token, 0)
        if token in ("λ", "let", "in", "do", "∀", "@"):
            self.place -= 1
            self.refuse(token)
        return "name", line, token

    def record_value(self, line):
        self.expect("{")
        fields = []
        while self.peek() != "}":
            name = self.take()
            self.expect("=")
            fields.append((name, self.expression(0)))
            if self.peek() == ";":
                self.take()
        self.expect("}")
        return "record", line, fields
