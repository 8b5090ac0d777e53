"""Expressions of Verus' specification language, as far as vstd's clauses use them: read into tuples (form, line, parts ..)."""
from faults import NotUnderstood
from rust_tokens import Token

COMPARISONS = ("==", "!=", "<", "<=", ">", ">=", "=~=")
# loosest first, as Rust binds them
LEVELS = [("|",), ("^",), ("&",), ("<<", ">>"), ("+", "-"), ("*", "/", "%")]
ESCAPED = {"0": 0, "n": 10, "r": 13, "t": 9, "\\": 92, "'": 39}
# words that begin forms which no clause of the six files has
OTHER_FORMS = ("exists", "choose", "match", "matches", "let", "assert", "assume", "return", "while", "loop", "for", "move", "unsafe")
GENERIC = {"Seq": "Seq", "Vec": "Seq", "Option": "Option"}


class Expressions:
    def __init__(self, file, found):
        self.file, self.tokens, self.place = file, found, 0

    # ---- tokens

    def peek(self, ahead=0):
        at = self.place + ahead
        return self.tokens[at].text if at < len(self.tokens) else ""

    def line(self):
        return self.tokens[min(self.place, len(self.tokens) - 1)].line

    def take(self):
        if self.place >= len(self.tokens):
            raise NotUnderstood(self.file, self.line(), "the end of the text")
        self.place += 1
        return self.tokens[self.place - 1].text

    def accept(self, text):
        if self.peek() != text:
            return False
        self.place += 1
        return True

    def expect(self, text):
        if not self.accept(text):
            raise NotUnderstood(self.file, self.line(), "%s where %s should stand" % (self.peek(), text))

    def skip_through(self, text):
        while self.take() != text:
            pass

    def close_angle(self):
        """`>`, which may be the first half of `>>`."""
        if self.peek() == ">>":
            self.tokens[self.place] = Token("symbol", ">", self.line())
        else:
            self.expect(">")

    # ---- types: a name, or ("Seq", element), ("Option", value)

    def type(self):
        if self.accept("&"):
            return self.type()
        if self.accept("["):
            element = self.type()
            self.expect("]")
            return "Seq", element
        name = self.take()
        while self.accept("::"):
            name = self.take()
        if not self.accept("<"):
            return name
        inner = self.type()
        self.close_angle()
        return (GENERIC[name], inner) if name in GENERIC else name

    # ---- expressions, loosest first

    def expression(self):
        for mark, form in (("&&&", "all"), ("|||", "any")):
            if self.peek() == mark:
                line, parts = self.line(), []
                while self.accept(mark):
                    parts.append(self.equivalence())
                return form, line, parts
        return self.equivalence()

    def equivalence(self):
        left = self.implication()
        while self.peek() == "<==>":
            line = self.line()
            self.take()
            left = "iff", line, left, self.implication()
        return left

    def implication(self):
        left, line = self.either(), self.line()
        return ("implies", line, left, self.implication()) if self.accept("==>") else left

    def either(self):
        return self.joined("||", "any", self.both)

    def both(self):
        return self.joined("&&", "all", self.comparison)

    def joined(self, mark, form, part):
        line, parts = self.line(), [part()]
        while self.accept(mark):
            parts.append(part())
        return parts[0] if len(parts) == 1 else (form, line, parts)

    def comparison(self):
        line, parts, signs = self.line(), [self.binary(0)], []
        while self.peek() in COMPARISONS:
            signs.append(self.take())
            parts.append(self.binary(0))
        return ("compare", line, parts, signs) if signs else parts[0]

    def binary(self, level):
        if level == len(LEVELS):
            return self.cast()
        left = self.binary(level + 1)
        while self.peek() in LEVELS[level]:
            line, sign = self.line(), self.take()
            left = "binary", line, sign, left, self.binary(level + 1)
        return left

    def cast(self):
        left = self.unary()
        while self.peek() == "as":
            line = self.line()
            self.take()
            left = "cast", line, left, self.type()
        return left

    def unary(self):
        line = self.line()
        if self.accept("!"):
            return "not", line, self.unary()
        if self.accept("-"):
            return "negative", line, self.unary()
        if self.accept("*") or self.accept("&"):
            return self.unary()
        return self.postfix()

    def postfix(self):
        left = self.primary()
        while True:
            line = self.line()
            if self.accept("@"):
                continue
            if self.accept("."):
                left = self.dotted(line, left)
            elif self.accept("["):
                left = self.index(line, left)
            else:
                return left

    def dotted(self, line, left):
        return "method", line, self.take(), left, self.arguments()

    def index(self, line, left):
        low = None if self.peek() == ".." else self.expression()
        if not self.accept(".."):
            self.expect("]")
            return "index", line, left, low
        high = None if self.peek() == "]" else self.expression()
        self.expect("]")
        return "part", line, left, low, high

    def arguments(self):
        self.expect("(")
        return self.until(")")

    def until(self, closing):
        found = []
        while not self.accept(closing):
            found.append(self.expression())
            if not self.accept(","):
                self.expect(closing)
                break
        return found

    def primary(self):
        token = self.tokens[self.place] if self.place < len(self.tokens) else Token("end", "", self.line())
        line = token.line
        if token.kind == "number":
            self.place += 1
            return "number", line, int(token.text.replace("_", ""), 0), token.suffix
        if token.kind == "char":
            self.place += 1
            return "char", line, self.char(token)
        if self.accept("("):
            inside = self.expression()
            self.expect(")")
            return inside
        if token.text == "{":
            return self.block()
        if self.accept("if"):
            return self.choice(line)
        if self.accept("forall"):
            return self.for_all(line)
        if self.accept("<"):
            kind = self.type()
            self.expect(">")
            self.expect("::")
            return "name", line, [kind, self.take()]
        if token.text == "seq" and self.peek(1) == "!":
            self.place += 2
            self.expect("[")
            return "seq", line, self.until("]")
        if token.kind == "name" and token.text not in OTHER_FORMS:
            return self.path(line)
        raise NotUnderstood(self.file, line, token.text or "the end of the text")

    def char(self, token):
        inside = token.text[1:-1]
        if inside.startswith("\\u"):
            return int(inside[3:-1], 16)
        if inside.startswith("\\"):
            if inside[1:] not in ESCAPED:
                raise NotUnderstood(self.file, token.line, token.text)
            return ESCAPED[inside[1:]]
        return ord(inside)

    def path(self, line):
        path = [self.take()]
        while self.accept("::"):
            path.append(self.take())
        return ("call", line, path, self.arguments()) if self.peek() == "(" else ("name", line, path)

    def choice(self, line):
        condition, then = self.expression(), self.block()
        self.expect("else")
        again = self.line()
        return "if", line, condition, then, self.choice(again) if self.accept("if") else self.block()

    def for_all(self, line):
        self.expect("|")
        name = self.take()
        kind = self.type() if self.accept(":") else None
        self.expect("|")
        return "forall", line, name, kind, self.expression()

    def block(self):
        self.expect("{")
        bound = []
        while self.peek() == "let":
            line = self.line()
            self.take()
            name = self.take()
            self.expect("=")
            bound.append((line, name, self.expression()))
            self.expect(";")
        inside = self.expression()
        self.expect("}")
        for line, name, value in reversed(bound):
            inside = "let", line, name, value, inside
        return inside
