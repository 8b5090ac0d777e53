"""The right side of a restated definition, as an expression of Python. A name is looked up where the file says that it comes from."""
import kit
from faults import NotUnderstood


def mangled(name):
    return "".join(letter if letter.isalnum() and letter.isascii() else "_%x_" % ord(letter) for letter in name)


def names_in(parts):
    """All names that stand in expressions, operators as `◌+◌`."""
    for part in parts:
        if isinstance(part, tuple) and part and part[0] == "operator":
            yield "◌%s◌" % part[2]
        if isinstance(part, tuple) and part and part[0] == "name":
            yield part[2]
        elif isinstance(part, (tuple, list)):
            yield from names_in(part)


class Expression:
    def __init__(self, definitions, module, known):
        self.definitions, self.module, self.known = definitions, module, known

    def of(self, expression):
        return getattr(self, "of_" + expression[0])(*expression[1:])

    def refuse(self, line, form):
        raise NotUnderstood(self.module.file, line, form)

    def of_number(self, line, value):
        return str(value)

    def of_name(self, line, name):
        return self.applied(line, name, [])

    def of_operator(self, line, sign, left, right):
        return self.applied(line, "◌%s◌" % sign, [left, right])

    def of_apply(self, line, head, arguments):
        return self.applied(line, head[2], arguments) if head[0] == "name" else self.refuse(line, "an application of %s" % head[0])

    def of_field(self, line, inside, name):
        return "%s[%r]" % (self.of(inside), name)

    def of_record(self, line, fields):
        return "Record({%s})" % ", ".join("%r: %s" % (name, self.of(value)) for name, value in fields)

    def of_arrow(self, line, left, right):
        return "(not %s or %s)" % (self.of(left), self.of(right))

    def of_for_all(self, line, name, kind, inside):
        """For all numbers that the premises leave: they must bound them from above."""
        low, high, rest = "0", None, inside
        while rest[0] == "arrow":
            premise, rest = rest[2], rest[3]
            if premise[0] == "operator" and premise[2] in ("<", "≤"):
                left, right = premise[3], premise[4]
                if left[0] == "name" and left[2] == name:
                    high = "%s + %d" % (self.of(right), int(premise[2] == "≤"))
                elif right[0] == "name" and right[2] == name:
                    low = "%s + %d" % (self.of(left), int(premise[2] == "<"))
        if high is None or kind[0] != "name" or kind[2] != "ℕ":
            self.refuse(line, "for all %s, which nothing bounds" % name)
        inner = Expression(self.definitions, self.module, self.known | {name})
        return "all(%s for v_%s in range(%s, %s))" % (inner.of(inside), mangled(name), low, high)

    def applied(self, line, name, arguments):
        given = [self.of(argument) for argument in arguments]
        if name in self.known:
            return "v_%s(%s)" % (mangled(name), ", ".join(given)) if given else "v_" + mangled(name)
        home = self.definitions.home(self.module, name)
        if home is None:
            return self.of_kit(line, name, given)
        if name in home.constructors:
            if home.constructors[name] != len(given):
                self.refuse(line, "%s with %d arguments" % (name, len(given)))
            return "(%s,)" % ", ".join([repr(name), *given])
        if name in home.records:
            return self.of_facts(line, home, name, given)
        if name not in home.functions:
            self.refuse(line, "%s, which %s does not define" % (name, home.file))
        code = self.definitions.python_name(home, name)
        if given and len(given) != self.definitions.arity(home, name):
            self.refuse(line, "%s with %d arguments" % (name, len(given)))
        return "%s(%s)" % (code, ", ".join(given)) if given else code

    def of_facts(self, line, home, name, given):
        """A record of facts, as all of them."""
        _, parameters, fields = home.records[name]
        if len(parameters) != len(given) or not parameters:
            self.refuse(line, "%s with %d arguments" % (name, len(given)))
        read = Expression(self.definitions, home, set(parameters))
        facts = " and ".join(read.of(fact) for _, fact in fields)
        return "(lambda %s: %s)(%s)" % (", ".join("v_" + mangled(parameter) for parameter in parameters), facts, ", ".join(given))

    def of_kit(self, line, name, given):
        if name not in kit.NAMES or (name not in self.module.imports and name not in kit.BUILT_IN):
            self.refuse(line, name)
        arity, code = kit.NAMES[name]
        if arity != len(given):
            self.refuse(line, "%s with %d arguments" % (name, len(given)))
        return code.format(*given)
