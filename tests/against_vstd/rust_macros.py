"""The macros of vstd's text, expanded: `verus! { .. }` is what it holds, and the text's own macros are substituted token by token."""
from faults import NotUnderstood
from rust_tokens import Token, group_end


class Expander:
    def __init__(self, file):
        self.file, self.macros = file, {}

    def expanded(self, found):
        result, place = [], 0
        while place < len(found):
            token = found[place]
            called = place + 2 < len(found) and token.kind == "name" and found[place + 1].text == "!" and found[place + 2].text in ("(", "[", "{")
            if token.text == "macro_rules":
                place = self.declared(found, place)
            elif called and token.text == "verus":
                end = group_end(self.file, found, place + 2)
                result += self.expanded(found[place + 3 : end - 1])
                place = end
            elif called and token.text in self.macros:
                end = group_end(self.file, found, place + 2)
                result += self.expanded(self.of_call(token, found[place + 3 : end - 1]))
                place = end + (end < len(found) and found[end].text == ";")
            else:
                result.append(token)
                place += 1
        return result

    def declared(self, found, place):
        """`macro_rules! NAME { (PATTERN) => { BODY }; }`, of one rule."""
        name, end = found[place + 2].text, group_end(self.file, found, place + 3)
        pattern_end = group_end(self.file, found, place + 4)
        body_end = group_end(self.file, found, pattern_end + 1)
        if found[pattern_end].text != "=>" or [token.text for token in found[body_end:end]] not in (["}"], [";", "}"]):
            raise NotUnderstood(self.file, found[place].line, "the macro %s, of more than one rule" % name)
        self.macros[name] = found[place + 5 : pattern_end - 1], found[pattern_end + 2 : body_end - 1]
        return end

    def of_call(self, token, given):
        pattern, body = self.macros[token.text]
        bound, rest = self.bound(pattern, given)
        if rest:
            raise NotUnderstood(self.file, token.line, "what %s! is given" % token.text)
        return self.substituted(body, bound)

    def bound(self, pattern, given):
        """What the pattern's names stand for, and what is left of what was given. A repeated pattern's names stand together, as a list, under `*`."""
        bound, place = {}, 0
        while place < len(pattern):
            token = pattern[place]
            if token.text == "$":
                end = group_end(self.file, pattern, place + 1)
                if end >= len(pattern) or pattern[end].text != "*":
                    raise NotUnderstood(self.file, token.line, "a repetition in a macro's pattern")
                bound["*"], given = self.repeated(pattern[place + 2 : end - 1], given)
                place = end + 1
            elif token.text.startswith("$"):
                bound[token.text], given = self.fragment(pattern[place + 2], given)
                place += 3
            elif token.text in ("(", "["):
                end, given_end = group_end(self.file, pattern, place), group_end(self.file, given, 0)
                inner, rest = self.bound(pattern[place + 1 : end - 1], given[1 : given_end - 1])
                if rest:
                    raise NotUnderstood(self.file, given[0].line, "what a macro is given")
                bound.update(inner)
                place, given = end, given[given_end:]
            elif given and given[0].text == token.text:
                place, given = place + 1, given[1:]
            elif not given and token.text == "," and place == len(pattern) - 1:
                place += 1
            else:
                raise NotUnderstood(self.file, token.line, "what a macro is given, at " + token.text)
        return bound, given

    def repeated(self, pattern, given):
        each = []
        while given:
            bound, given = self.bound(pattern, given)
            each.append(bound)
        return each, given

    def fragment(self, kind, given):
        if kind.text in ("ty", "ident"):
            return given[:1], given[1:]
        if kind.text != "expr":
            raise NotUnderstood(self.file, kind.line, "a macro's fragment " + kind.text)
        place = 0
        while place < len(given) and given[place].text != ",":
            place = group_end(self.file, given, place) if given[place].text in ("(", "[", "{") else place + 1
        line = given[0].line
        return [Token("symbol", "(", line), *given[:place], Token("symbol", ")", line)], given[place:]

    def substituted(self, body, bound):
        result, place = [], 0
        while place < len(body):
            token = body[place]
            if token.text == "$":
                end = group_end(self.file, body, place + 1)
                if body[end].text != "*":
                    raise NotUnderstood(self.file, token.line, "a repetition in a macro")
                for each in bound["*"]:
                    result += self.substituted(body[place + 2 : end - 1], {**bound, **each})
                place = end + 1
            elif token.text.startswith("$"):
                if token.text not in bound:
                    raise NotUnderstood(self.file, token.line, "a macro's name " + token.text)
                result += bound[token.text]
                place += 1
            else:
                result.append(token)
                place += 1
        return result
