"""vstd's items, evaluated: every definition and every clause becomes a function of Python, with unbounded integers. An Option is ("None",) or ("Some", value),
an Ordering ("Less",), ("Equal",) or ("Greater",), a sequence a tuple, a char its number."""
import functools

import verus
from faults import LeftOpen, NotUnderstood
from rust_clauses import Clause
from rust_text import items_of

REMEMBERED = 1 << 16


class Library:
    """All items of vstd's files. `texts` has each file's text under its name."""

    clause, read = Clause, staticmethod(items_of)  # how a clause becomes Python, and a text its items

    def __init__(self, texts):
        self.items = [item for file, text in texts.items() for item in self.read(file, text)]
        self.functions, self.keyed = {}, {}
        for place, item in enumerate(self.items):
            item.place = place
            if item.key in self.keyed:
                raise NotUnderstood(item.file, item.line, "a second item %s" % item.key)
            self.keyed[item.key] = item
            if item.kind == "spec":
                self.functions[item.owner, item.name] = item
        self.namespace = {name: getattr(verus, name) for name in (
            "fit", "natural", "char", "element", "part", "divided", "remainder", "rust_div", "rust_rem", "shifted_left", "shifted_right",
        )}
        self.namespace.update(LeftOpen=LeftOpen, remembered=functools.lru_cache(maxsize=REMEMBERED))
        for item in self.items:
            if item.kind == "spec":
                self.define(item)

    def function(self, scope, path):
        if len(path) == 1:
            return self.functions.get((scope, path[0])) or self.functions.get(("", path[0]))
        return self.functions.get(tuple(path)) if len(path) == 2 else None

    @staticmethod
    def python_name(item):
        return "f%d_%s" % (item.place, item.name)

    def define(self, item):
        clause, lines = self.clause(self, item), []
        if item.when:
            lines.append("    if not %s: raise LeftOpen('outside of its when')" % clause.truth(item.when))
        body = item.body
        while body[0] == "let":
            code, kind = clause.of(body[3])
            lines.append("    v_%s = %s" % (body[2], code))
            clause.known[body[2]], body = kind, body[4]
        lines.append("    return " + clause.of(body)[0])
        head = "def %s(%s):" % (self.python_name(item), ", ".join("v_" + name for name, _ in item.parameters))
        exec("\n".join((["@remembered"] if item.decreases else []) + [head] + lines), self.namespace)

    def made(self, names, code):
        return eval("lambda %s: %s" % (", ".join("v_" + name for name in names), code), self.namespace)

    # ---- what is asked of the library

    def value(self, item):
        """A definition as a function of its arguments."""
        return self.namespace[self.python_name(item)]

    def holds(self, item, which):
        """All clauses of one kind (`recommends`, `requires`) as one function of the item's arguments."""
        clause = Clause(self, item)
        return self.made([name for name, _ in item.parameters], " and ".join(["True", *map(clause.truth, getattr(item, which))]))

    def each(self, item, which):
        """The clauses of one kind, each as a function of the item's arguments."""
        clause = Clause(self, item)
        return [self.made([name for name, _ in item.parameters], clause.truth(each)) for each in getattr(item, which)]

    def keeps(self, item):
        """What a promise says of a result: a function of its arguments and the result. None where the item itself promises nothing."""
        clause, codes = Clause(self, item), []
        codes += map(clause.truth, item.ensures)
        if item.returns:
            codes.append("v_%s == %s" % (item.result[0], clause.of(item.returns)[0]))
        return self.made([name for name, _ in item.parameters] + [item.result[0]], " and ".join(codes)) if codes else None

    def statements(self, item):
        """A lemma's statements: for each clause its line, the types of what it is about, and a function of these. A name that is quantified in front, and that
        no range bounds, is one of them."""
        for ensured in item.ensures:
            clause, names = Clause(self, item), list(item.parameters)
            while ensured[0] == "forall" and ensured[3] and not clause.limits(ensured[2], ensured[4]):
                names.append((ensured[2], ensured[3]))
                clause.known[ensured[2]] = ensured[3]
                ensured = ensured[4]
            yield ensured[1], tuple(kind for _, kind in names), self.made([name for name, _ in names], clause.truth(ensured))

    def facts(self, item, function):
        """A lemma's clauses about the answer of one definition, each a function of its arguments and of any answer."""
        clause = Clause(self, item, {function: "v_answer"})
        return [self.made([name for name, _ in item.parameters] + ["answer"], clause.truth(ensured)) for ensured in item.ensures]
