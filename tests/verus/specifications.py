"""bindings/verus/promisebook.rs read and evaluated, together with vstd's own definitions: what tests/against_vstd has for vstd's text, and what that file has
besides: lent slices, parts, tuples, results, `is` and `matches`."""
import os
import re
import sys

HERE = os.path.dirname(os.path.abspath(__file__))
ROOT = os.path.dirname(os.path.dirname(HERE))
sys.path.append(os.path.join(ROOT, "tests", "against_vstd"))

import rust_text  # noqa: E402
import rust_values  # noqa: E402
from faults import NotUnderstood  # noqa: E402
from rust_clauses import Clause, is_sequence  # noqa: E402
from rust_macros import Expander  # noqa: E402
from rust_text import Item, items_of  # noqa: E402
from rust_tokens import tokens  # noqa: E402

FILE = os.path.join("bindings", "verus", "promisebook.rs")
BYTES = ("Seq", "u8")
METHODS = {  # of a sequence: arguments, code, type of the result for a sequence of type s
    "subrange": (2, "part({0}, {1}, {2})", lambda s: s),
    "reverse": (0, "({0})[::-1]", lambda s: s),
    "drop_last": (0, "part({0}, 0, len({0}) - 1)", lambda s: s),
    "update": (2, "updated({0}, {1}, {2})", lambda s: s),
    "contains": (1, "({1} in {0})", lambda s: "bool"),
}
FIELDS = {("Range", "start"): "usize", ("Range", "end"): "usize", ("Read", "value"): "u32", ("Read", "length"): "usize"}


# ---- reading

class Items(rust_text.Items):
    def item(self, scope, of_type):
        if self.peek() == "pub" and self.peek(1) == "struct":
            self.skip_through(";")
            return []
        return super().item(scope, of_type)

    def promise(self, line, scope):
        """`[ promisebook::MODULE::NAME ]`"""
        self.expect("[")
        path = [self.take()]
        while self.accept("::"):
            path.append(self.take())
        self.expect("]")
        return Item("promise", self.file, line, scope, path[-2], path[-1])

    def type(self):
        if self.accept("&"):
            self.accept("mut")
            return self.type()
        if self.accept("("):
            parts = []
            while not self.accept(")"):
                parts.append(self.type())
                self.accept(",")
            return ("Tuple", *parts) if parts else "unit"
        if self.accept("["):
            element = self.type()
            if self.accept(";"):
                self.take()
            self.expect("]")
            return "Seq", element
        if self.peek() in ("Result", "Range"):
            name = self.take()
            self.expect("<")
            parts = [self.type()]
            while self.accept(","):
                parts.append(self.type())
            self.close_angle()
            return name if name == "Range" else (name, *parts)
        if self.accept("str"):
            return "Seq", "char"
        return super().type()

    def comparison(self):
        left, line = super().comparison(), self.line()
        if self.accept("is"):
            return "is", line, left, self.take()
        if self.accept("matches"):
            return "matches", line, left, self.pattern()
        return left

    def pattern(self):
        """`Some(v)`, `Some((a, b))`: the names."""
        self.expect("Some")
        self.expect("(")
        names, several = [], self.accept("(")
        while not self.accept(")"):
            names.append(self.take())
            self.accept(",")
        if several:
            self.expect(")")
        return names

    def implication(self):
        left, line = self.either(), self.line()
        if not self.accept("==>"):
            return left
        right = self.implication()
        return ("where_matched", line, left, right) if left[0] == "matches" else ("implies", line, left, right)

    def dotted(self, line, left):
        name = self.take()
        return ("method", line, name, left, self.arguments()) if self.peek() == "(" else ("field", line, left, name)

    def primary(self):
        if self.peek() == "(" and self.peek(1) == ")":
            line = self.line()
            self.place += 2
            return "unit", line
        return super().primary()


def read(file, text):
    return Items(file, Expander(file).expanded(tokens(file, text))).all_items() if file == FILE else items_of(file, text)


# ---- evaluating

class Specification(Clause):
    def of_field(self, line, value, name):
        code, kind = self.of(value)
        return ("%s.%s" % (code, name), FIELDS[kind, name]) if (kind, name) in FIELDS else self.refuse(line, "the field %s of %s" % (name, kind))

    def of_unit(self, line):
        return "()", "unit"

    def of_is(self, line, value, name):
        code, kind = self.of(value)
        return ("(%s[0] == %r)" % (code, name), "bool") if kind[0] == "Option" and name in ("Some", "None") else self.refuse(line, "is %s of %s" % (name, kind))

    def of_where_matched(self, line, left, right):
        code, kind = self.of(left[2])
        names, types = left[3], [kind[1]] if len(left[3]) == 1 else kind[1][1:]
        if kind[0] != "Option" or len(names) != len(types):
            self.refuse(line, "a pattern of %s for %s" % (names, kind))
        body = self.with_names(dict(zip(names, types)), lambda: self.truth(right))
        given = "%s[1]" % code if len(names) == 1 else "*%s[1]" % code
        return "(%s[0] == 'None' or (lambda %s: %s)(%s))" % (code, ", ".join("v_" + name for name in names), body, given), "bool"

    def of_call(self, line, path, arguments):
        if path in (["old"], ["final"]) and len(arguments) == 1 and arguments[0][0] == "name":
            name = arguments[0][2][0]
            return "v_" + name + "_final" * (path == ["final"]), self.known[name]
        if path in (["Ok"], ["Err"]) and len(arguments) == 1:
            code, kind = self.of(arguments[0])
            return '("%s", %s)' % (path[0], code), ("Result", kind)
        if path == ["copy_within_result"] and len(arguments) == 4:
            return "copied_within(%s)" % ", ".join(self.of(argument)[0] for argument in arguments), BYTES
        return super().of_call(line, path, arguments)

    def of_name(self, line, path):
        if path[0] == "NotDecimal" and len(path) == 2:
            return repr(path[1]), "NotDecimal"
        return super().of_name(line, path)

    def of_method(self, line, name, receiver, arguments):
        if name not in METHODS or METHODS[name][0] != len(arguments):
            return super().of_method(line, name, receiver, arguments)
        code, kind = self.sequence(receiver)
        return METHODS[name][1].format(code, *(self.of(argument)[0] for argument in arguments)), METHODS[name][2](kind)

    def of_compare(self, line, parts, signs):
        """Options and results by their kind alone, which of_if leaves open in part."""
        kinds = [self.of(part)[1] for part in parts]
        if signs == ["=="] and all(isinstance(kind, tuple) and not is_sequence(kind) and kind[0] == kinds[0][0] for kind in kinds):
            return "(%s == %s)" % tuple(self.of(part)[0] for part in parts), "bool"
        return super().of_compare(line, parts, signs)

    def of_if(self, line, condition, then, otherwise):
        code, kind = super().of_if(line, condition, then, otherwise)
        other = self.of(otherwise)[1]
        return code, other if kind[0] == "Result" and kind[1] == "NotDecimal" and isinstance(other, tuple) else kind


def updated(sequence, place, value):
    if not 0 <= place < len(sequence):
        raise rust_values.LeftOpen("an update at %d of %d" % (place, len(sequence)))
    return sequence[:place] + (value,) + sequence[place + 1:]


def copied_within(sequence, start, end, at):
    """vstd's copy_within_result (std_specs/slice), element by element as it is defined there."""
    made = []
    for place in range(len(sequence)):
        source = start + (place - at) if at <= place < at + (end - start) else place
        if not 0 <= source < len(sequence):
            raise rust_values.LeftOpen("element %d of %d" % (source, len(sequence)))
        made.append(sequence[source])
    return tuple(made)


class Specifications(rust_values.Library):
    clause, read = Specification, staticmethod(read)

    def __init__(self, texts):
        super().__init__({file: text for file, text in texts.items() if file != FILE})
        known = len(self.items)
        self.own = read(FILE, texts[FILE])
        self.namespace.update(updated=updated, copied_within=copied_within)
        for place, item in enumerate(self.own, known):
            item.place = place
            if item.kind == "spec":
                if item.key in self.keyed or (item.owner, item.name) in self.functions:
                    raise NotUnderstood(FILE, item.line, "a second definition %s" % item.name)
                self.keyed[item.key] = self.functions[item.owner, item.name] = item
        for item in self.own:
            if item.kind == "spec":
                self.define(item)

    def promises(self):
        """{(module, function): item}"""
        found = {}
        for item in self.own:
            if item.kind == "promise":
                if (item.owner, item.name) in found:
                    raise NotUnderstood(FILE, item.line, "a second specification of %s::%s" % (item.owner, item.name))
                found[item.owner, item.name] = item
        return found

    def kept(self, item, lent):
        """What a specification says: a function of the arguments, of what each lent slice holds afterwards, and of the answer."""
        clause = self.clause(self, item)
        names = [name for name, _ in item.parameters] + [name + "_final" for name in lent] + [item.result[0] if item.result else "r"]
        return self.made(names, " and ".join(map(clause.truth, item.ensures)))


# ---- signatures and comments, from the text

SIGNATURE = re.compile(r"^// (.*)\npub assume_specification\[ promisebook::(\w+)::(\w+) \]\((.*?)\)(?: -> \(r: (.*)\))?\n    ensures$", re.M)


def signatures(text):
    """(what is said of vstd's item, module, function, [(name, type)], the answer's type or None) of each."""
    for said, module, name, parameters, answer in SIGNATURE.findall(text):
        yield said, module, name, [tuple(part.split(": ")) for part in parameters.split(", ")], answer or None
