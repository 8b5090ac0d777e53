"""The ways in which vstd's items are held against ours. Each check goes through its arguments, yields what differs, and may leave questions for `ask` with the
right answers."""
from typing import Any, NamedTuple

from faults import Fault, LeftOpen


REFUSED = ("None",)


class Difference(NamedTuple):
    item: Any
    given: tuple
    theirs: Any
    ours: Any

    def __str__(self):
        where = "%s (line %d) at %s" % (self.item.key, self.item.line, ", ".join(map(printed, self.given)))
        return "%s\n        vstd %s\n        here %s" % (where, printed(self.theirs), printed(self.ours))


def printed(value):
    if isinstance(value, tuple) and all(isinstance(part, int) for part in value):
        return "[%s]" % " ".join("%02x" % part for part in value)
    if isinstance(value, tuple):
        return " ".join(printed(part) for part in value)
    return str(value)


def answer(value):
    """A value as `ask` answers it."""
    if value is True or value is False:
        return "true" if value else "false"
    if isinstance(value, int):
        return str(value)
    if value and isinstance(value[0], str):
        return str(value[1]) if len(value) == 2 else "refused" if value == REFUSED else value[0].lower()
    return bytes(value).hex() or "-"


def spelled(part):
    """An argument as `ask` reads it."""
    return str(part) if isinstance(part, int) else answer(part)


def value_or_open(function, *given):
    """A value, or that vstd leaves it open, which is like no value of ours."""
    try:
        return function(*given)
    except LeftOpen as why:
        return "leaves it open: %s" % why


# An answer as vstd has it: an Option as it is; where it requires something, the value of an answer stands for it.
def value_of(ours):
    return ours[1] if len(ours) == 2 and isinstance(ours[0], str) else ours


def itself(ours):
    return ours


class Check:
    """`clauses` of vstd's item are tried at each of `arguments()`."""

    def __init__(self, item, clauses, arguments):
        self.item, self.clauses, self.arguments, self.tried, self.compared = item, clauses, arguments, 0, 0
        of_option = item.result is not None and isinstance(item.result[1], tuple) and item.result[1][0] == "Option"
        self.said = value_of if item.requires and not of_option else itself

    def differences(self, questions=None):
        raise NotImplementedError


class Definition(Check):
    """A definition of vstd's and the restated one have the same value, wherever vstd's has one; and it has one wherever vstd recommends it."""

    def __init__(self, library, item, ours, arguments):
        super().__init__(item, 1, arguments)
        self.theirs, self.recommended, self.ours = library.value(item), library.holds(item, "recommends"), ours

    def differences(self, questions=None):
        for given in self.arguments():
            self.tried += 1
            try:
                theirs = self.theirs(*given)
            except LeftOpen as why:
                if value_or_open(self.recommended, *given) is True:
                    yield Difference(self.item, given, "leaves it open: %s" % why, self.ours(*given))
                continue
            self.compared += 1
            if theirs != self.said(self.ours(*given)):
                yield Difference(self.item, given, theirs, self.ours(*given))


class Promise(Check):
    """The restated answer keeps every clause of the promise, and is refused where vstd requires something else. `asked` is the question's name, if any."""

    def __init__(self, library, item, ours, arguments, asked=None, keeps=None):
        super().__init__(item, max(1, len(item.ensures) + (item.returns is not None)), arguments)
        self.keeps, self.required = keeps or library.keeps(item), library.holds(item, "requires") if item.requires else None
        self.ours, self.asked = ours, asked

    def kept(self, given, ours):
        if self.required and not self.required(*given):
            return ours == REFUSED
        try:
            return self.keeps(*given, self.said(ours))
        except LeftOpen:
            return False

    def differences(self, questions=None):
        of_bytes = any(isinstance(kind, tuple) for kind in self.item.types)
        form = (self.asked or "") + (" %s" if of_bytes else " %d") * len(self.item.types)
        restated, kept, ask = self.ours, self.kept, questions.add if self.asked and questions is not None else None
        for given in self.arguments():
            self.tried += 1
            self.compared += 1
            ours = restated(*given)
            if not kept(given, ours):
                yield Difference(self.item, given, "promises another answer", ours)
            if ask:
                ask(form % (tuple(map(spelled, given)) if of_bytes else given), answer(ours))


class Statement(Check):
    """A lemma's clause holds of vstd's own definitions, wherever what it requires holds."""

    def __init__(self, library, item, arguments):
        self.stated = list(library.statements(item))
        super().__init__(item, len(self.stated), arguments)
        self.required, self.required_of = library.holds(item, "requires"), len(item.parameters)

    def differences(self, questions=None):
        for line, kinds, holds in self.stated:
            before = self.compared
            for given in self.arguments(kinds):
                self.tried += 1
                if value_or_open(self.required, *given[: self.required_of]) is not True:
                    continue
                self.compared += 1
                truth = value_or_open(holds, *given)
                if truth is not True:
                    yield Difference(self.item, given, "%s (line %d)" % (truth, line), "a lemma of vstd's")
            if self.compared == before:
                raise Fault("%s, line %d: %s was tried at nothing that it is about" % (self.item.file, line, self.item.name))


class Requirement(Check):
    """The first requirement of a lemma says the same as what restates it, wherever the others hold."""

    def __init__(self, library, item, ours, arguments):
        super().__init__(item, 1, arguments)
        (self.theirs, *self.others), self.ours = library.each(item, "requires"), ours

    def differences(self, questions=None):
        for given in self.arguments():
            self.tried += 1
            if all(value_or_open(other, *given) is True for other in self.others):
                self.compared += 1
                theirs, ours = value_or_open(self.theirs, *given), self.ours(*given)
                if theirs != ours:
                    yield Difference(self.item, given, theirs, ours)


class Facts(Check):
    """Each clause of a lemma about an answer says the same of any answer as the fact of the restated record in the same place; of more than the width, where it
    says anything."""

    def __init__(self, library, item, function, ours, width, arguments):
        self.theirs, self.ours, self.width = library.facts(item, function), ours, width
        super().__init__(item, len(self.theirs), arguments)

    def differences(self, questions=None):
        if len(self.theirs) != len(self.ours):
            yield Difference(self.item, (), "%d clauses" % len(self.theirs), "%d facts" % len(self.ours))
            return
        for (number,) in self.arguments():
            self.tried += 1
            for said in range(self.width + 3):
                for theirs, ours in zip(self.theirs, self.ours):
                    fact, restated = value_or_open(theirs, number, said), ours(self.width, number, said)
                    if said <= self.width or fact in (True, False):
                        self.compared += 1
                        if fact != restated:
                            yield Difference(self.item, (number, said), fact, restated)


class Export(Check):
    """What an export answers, by vstd's definitions: `right` gives the answer, or None where they leave it open."""

    def __init__(self, item, question, right, arguments):
        super().__init__(item, 0, arguments)
        self.question, self.right = question, right

    def differences(self, questions=None):
        if questions is None:
            return
        for given in self.arguments():
            self.tried += 1
            right = value_or_open(self.right, *given)
            if right is not None:
                questions.add(self.question.format(*map(spelled, given)), right)
        yield from ()
