"""One clause or definition of vstd's, as an expression of Python. Types are followed as Verus has them: a shift, a mask or a `!` is at its operand's type."""
import verus
from faults import NotUnderstood
from verus import MACHINE, SIGNED, UNSIGNED, greatest, least

WHOLE = ("int", "nat", "literal")
METHODS = {  # of a sequence: arguments, code, type of the result for a sequence of type s
    "len": (0, "len({0})", lambda s: "nat"),
    "drop_first": (0, "part({0}, 1, len({0}))", lambda s: s),
    "last": (0, "element({0}, len({0}) - 1)", lambda s: s[1]),
    "index": (1, "element({0}, {1})", lambda s: s[1]),
    "push": (1, "({0} + ({1},))", lambda s: s),
}


def is_number(kind):
    return kind in MACHINE or kind in WHOLE


def is_sequence(kind):
    return isinstance(kind, tuple) and kind[0] == "Seq"


def bounds(kind):
    return (least(kind), greatest(kind)) if kind in MACHINE else (0, verus.GREATEST_CHAR) if kind == "char" else None


class Clause:
    """The expressions of one item, as Python's."""

    def __init__(self, library, item, answers=None):
        self.library, self.item, self.answers, self.known = library, item, answers or {}, {}
        for name, kind in item.parameters + ([item.result] if item.result else []):
            self.known[name] = kind

    def refuse(self, line, form):
        raise NotUnderstood(self.item.file, line, "%s (in %s)" % (form, self.item.name))

    def of(self, expression):
        reader = getattr(self, "of_" + expression[0], None)
        return reader(*expression[1:]) if reader else self.refuse(expression[1], expression[0])

    def truth(self, expression):
        code, kind = self.of(expression)
        return code if kind == "bool" else self.refuse(expression[1], "a condition of type %s" % (kind,))

    def number(self, expression):
        code, kind = self.of(expression)
        return (code, kind) if is_number(kind) else self.refuse(expression[1], "a number of type %s" % (kind,))

    def sequence(self, expression):
        code, kind = self.of(expression)
        return (code, kind) if is_sequence(kind) else self.refuse(expression[1], "a sequence of type %s" % (kind,))

    # ---- names and literals

    def of_number(self, line, value, suffix):
        return str(value), suffix or "literal"

    def of_char(self, line, value):
        return str(value), "char"

    def of_seq(self, line, parts):
        each = [self.of(part) for part in parts]
        return "(%s)" % "".join(code + ", " for code, _ in each), ("Seq", each[0][1] if each else None)

    def of_name(self, line, path):
        name = path[-1]
        if len(path) == 1 and name in self.known:
            return "v_" + name, self.known[name]
        if path in (["true"], ["false"]):
            return name.capitalize(), "bool"
        if path == ["None"]:
            return '("None",)', ("Option", None)
        if path[0] == "Ordering" and name in ("Less", "Equal", "Greater"):
            return '("%s",)' % name, "Ordering"
        if len(path) == 2 and path[0] in MACHINE and name in ("MAX", "MIN"):
            return "(%d)" % (greatest if name == "MAX" else least)(path[0]), path[0]
        if len(path) == 2 and path[0] in MACHINE and name == "BITS":
            return str(MACHINE[path[0]]), "u32"
        return self.refuse(line, "the name " + "::".join(path))

    # ---- calls

    def of_call(self, line, path, arguments):
        name = path[-1]
        if path == ["Some"] and len(arguments) == 1:
            code, kind = self.of(arguments[0])
            return '("Some", %s)' % code, ("Option", kind)
        if path in (["rust_div"], ["rust_rem"]) and len(arguments) == 2:
            return "%s(%s)" % (name, ", ".join(self.number(argument)[0] for argument in arguments)), "int"
        if path == ["sub"] and len(arguments) == 2:
            return self.machine_difference(line, *arguments)
        called = self.library.function(self.item.scope, path)
        if not called:
            self.refuse(line, "the function " + "::".join(path))
        if name in self.answers:
            if [argument[:1] + argument[2:] for argument in arguments] != [("name", [parameter]) for parameter, _ in self.item.parameters]:
                self.refuse(line, "%s of something else than the item's parameters" % name)
            return self.answers[name], called.result[1]
        if len(arguments) != len(called.parameters):
            self.refuse(line, "%s with %d arguments" % (name, len(arguments)))
        given = [self.given(line, argument, kind) for argument, kind in zip(arguments, called.types)]
        return "%s(%s)" % (self.library.python_name(called), ", ".join(given)), called.result[1]

    def given(self, line, argument, kind):
        code, found = self.of(argument)
        if found == kind or (found == "literal" and is_number(kind)) or (kind == "int" and is_number(found)):
            return code
        if is_sequence(found) and is_sequence(kind) and found[1] in (None, "literal", kind[1]):
            return code
        return self.refuse(line, "%s given for %s" % (found, kind))

    def machine_difference(self, line, left, right):
        """`sub(x, y)`: the difference at the operands' type."""
        (a, first), (b, second) = self.number(left), self.number(right)
        kind = second if first == "literal" else first
        if kind not in MACHINE or second not in (kind, "literal"):
            self.refuse(line, "sub of %s and %s" % (first, second))
        return "fit(%s - %s, %d, %d)" % (a, b, least(kind), greatest(kind)), kind

    def of_method(self, line, name, receiver, arguments):
        code, kind = self.sequence(receiver)
        if name not in METHODS or METHODS[name][0] != len(arguments):
            self.refuse(line, "the method " + name)
        return METHODS[name][1].format(code, *(self.of(argument)[0] for argument in arguments)), METHODS[name][2](kind)

    def of_index(self, line, receiver, place):
        code, kind = self.sequence(receiver)
        return "element(%s, %s)" % (code, self.number(place)[0]), kind[1]

    def of_part(self, line, receiver, low, high):
        code, kind = self.sequence(receiver)
        return "part(%s, %s, %s)" % (code, self.number(low)[0] if low else "0", self.number(high)[0] if high else "len(%s)" % code), kind

    # ---- numbers

    def of_cast(self, line, inside, kind):
        code, found = self.of(inside)
        if not is_number(found) and found != "char":
            self.refuse(line, "a cast of %s" % (found,))
        own = bounds(found)
        if kind == "int":
            return code, kind
        if kind == "nat":
            return (code if own and own[0] >= 0 else "natural(%s)" % code), kind
        if kind == "char":
            return "char(%s)" % code, kind
        if kind not in MACHINE:
            self.refuse(line, "a cast to %s" % (kind,))
        low, high = bounds(kind)
        return (code if own and low <= own[0] and own[1] <= high else "fit(%s, %d, %d)" % (code, low, high)), kind

    def of_not(self, line, inside):
        code, kind = self.of(inside)
        if kind == "bool":
            return "(not %s)" % code, kind
        if kind in UNSIGNED:
            return "(%d ^ %s)" % (greatest(kind), code), kind
        return ("(~%s)" % code, kind) if kind in SIGNED else self.refuse(line, "! of %s" % (kind,))

    def of_negative(self, line, inside):
        return "(-%s)" % self.number(inside)[0], "int"

    def of_binary(self, line, sign, left, right):
        a, first = self.of(left)
        b, second = self.of(right)
        if sign == "+" and is_sequence(first) and is_sequence(second):
            return "(%s + %s)" % (a, b), second if first[1] is None else first
        if not (is_number(first) and is_number(second)):
            self.refuse(line, "%s of %s and %s" % (sign, first, second))
        if sign in ("+", "-", "*"):
            return "(%s %s %s)" % (a, sign, b), "int"
        kind = second if first == "literal" else first
        if sign in ("/", "%"):
            return "%s(%s, %s)" % ("divided" if sign == "/" else "remainder", a, b), "int" if kind in SIGNED else kind
        if sign in ("<<", ">>"):
            if first not in MACHINE:
                self.refuse(line, "a shift of %s" % first)
            return ("shifted_left(%s, %s, %r)" % (a, b, first) if sign == "<<" else "shifted_right(%s, %s)" % (a, b)), first
        if kind not in MACHINE or not {first, second} <= {kind, "literal"}:
            self.refuse(line, "%s of %s and %s" % (sign, first, second))
        return "(%s %s %s)" % (a, sign, b), kind

    # ---- truth

    def of_compare(self, line, parts, signs):
        each = [self.of(part) for part in parts]
        for (_, first), (_, second), sign in zip(each, each[1:], signs):
            alike = first == second or (is_number(first) and is_number(second)) or (is_sequence(first) and is_sequence(second))
            ordered = sign in ("==", "!=") or (is_sequence(first) if sign == "=~=" else is_number(first) or first == "char")
            options = isinstance(first, tuple) and isinstance(second, tuple) and first[0] == second[0]
            if not (alike or options) or not ordered:
                self.refuse(line, "%s of %s and %s" % (sign, first, second))
        python = [sign.replace("=~=", "==") for sign in signs]
        return "(%s)" % " ".join([each[0][0]] + ["%s %s" % (sign, code) for sign, (code, _) in zip(python, each[1:])]), "bool"

    def of_all(self, line, parts):
        return "(%s)" % " and ".join(map(self.truth, parts)), "bool"

    def of_any(self, line, parts):
        return "(%s)" % " or ".join(map(self.truth, parts)), "bool"

    def of_implies(self, line, left, right):
        return "(not %s or %s)" % (self.truth(left), self.truth(right)), "bool"

    def of_iff(self, line, left, right):
        return "(%s == %s)" % (self.truth(left), self.truth(right)), "bool"

    def of_if(self, line, condition, then, otherwise):
        (a, first), (b, second) = self.of(then), self.of(otherwise)
        return "(%s if %s else %s)" % (a, self.truth(condition), b), second if first == "literal" or first in (("Option", None), ("Seq", None)) else first

    def of_let(self, line, name, value, inside):
        code, kind = self.of(value)
        body, found = self.with_names({name: "int" if kind == "literal" else kind}, lambda: self.of(inside))
        return "(lambda v_%s: %s)(%s)" % (name, body, code), found

    def of_forall(self, line, name, kind, inside):
        kind = kind or "int"
        limits = self.limits(name, inside)
        if not limits or not is_number(kind):
            self.refuse(line, "forall over %s that no range bounds" % (kind,))
        (low, more), (high, less) = limits
        first, behind = "%s + %d" % (self.number(low)[0], more), "%s + %d" % (self.number(high)[0], less)
        if kind in MACHINE:
            first, behind = "max(%s, %d)" % (first, least(kind)), "min(%s, %d)" % (behind, greatest(kind) + 1)
        body = self.with_names({name: kind}, lambda: self.truth(inside))
        return "all(%s for v_%s in range(%s, %s))" % (body, name, first, behind), "bool"

    @staticmethod
    def limits(name, inside):
        """The two sides of the comparison that bounds a quantified name, each with what is added to it; None where nothing does."""
        if inside[0] != "implies":
            return None
        for part in inside[2][2] if inside[2][0] == "all" else [inside[2]]:
            if part[0] != "compare":
                continue
            for at in range(1, len(part[2]) - 1):
                before, behind = part[3][at - 1], part[3][at]
                if part[2][at][0] == "name" and part[2][at][2] == [name] and before in ("<", "<=") and behind in ("<", "<="):
                    return (part[2][at - 1], int(before == "<")), (part[2][at + 1], int(behind == "<="))
        return None

    def with_names(self, names, act):
        before = dict(self.known)
        self.known.update(names)
        result = act()
        self.known = before
        return result
