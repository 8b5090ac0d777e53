"""vstd's items, read from its text: functions with their clauses and definitions, promises about Rust's functions, and the modules and impls they stand in."""
from dataclasses import dataclass, field
from typing import Any, Optional

from faults import NotUnderstood
from rust_expressions import Expressions
from rust_macros import Expander
from rust_tokens import group_end, tokens

MODIFIERS = ("pub", "open", "closed", "broadcast", "spec", "proof", "exec")
LISTS = ("recommends", "requires", "ensures", "decreases")


@dataclass
class Item:
    kind: str  # spec, proof, exec: a function of that mode; promise: of a function of Rust's; group: a list of lemmas
    file: str
    line: int
    scope: str  # the module that it stands in
    owner: str  # that module, or the type that it is a function of
    name: str
    parameters: list = field(default_factory=list)  # of (name, type)
    result: Optional[tuple] = None  # (name, type)
    recommends: list = field(default_factory=list)
    requires: list = field(default_factory=list)
    ensures: list = field(default_factory=list)
    decreases: list = field(default_factory=list)
    returns: Any = None
    when: Any = None
    body: Any = None

    @property
    def key(self):
        return "%s %s" % (self.file, "::".join(filter(None, (self.owner, self.name))))

    @property
    def types(self):
        return tuple(kind for _, kind in self.parameters)


class Items(Expressions):
    def all_items(self):
        found = []
        while self.place < len(self.tokens):
            found += self.item("", None)
        return found

    def item(self, scope, of_type):
        """The items that the next declaration makes; `of_type` is the type that an impl is for."""
        modes = []
        while self.peek() in MODIFIERS:
            modes.append(self.take())
        keyword, line = self.take(), self.line()
        if keyword == "use":
            self.skip_through(";")
            return []
        if keyword == "group":
            item = Item("group", self.file, line, scope, scope, self.take())
            self.place = group_end(self.file, self.tokens, self.place)
            return [item]
        if keyword == "mod":
            return self.inner_items(self.take(), None)
        if keyword == "impl":
            self.skip_through("for")
            kind = self.type()
            return self.inner_items(scope, kind)
        if keyword == "fn":
            mode = [mode for mode in modes if mode in ("spec", "proof", "exec")]
            if len(mode) != 1:
                raise NotUnderstood(self.file, line, "a function of no mode")
            return [self.function(Item(mode[0], self.file, line, scope, of_type or scope, self.take()), of_type)]
        if keyword == "assume_specification":
            return [self.function(self.promise(line, scope), None)]
        raise NotUnderstood(self.file, line, "an item that begins with %s" % keyword)

    def inner_items(self, scope, of_type):
        self.expect("{")
        found = []
        while self.peek() != "}":
            found += self.item(scope, of_type)
        self.expect("}")
        return found

    def promise(self, line, scope):
        """`[ u8::name ]`, `[<u8>::name]`, `[<u8 as Trait<u8>>::name]`"""
        self.expect("[")
        if self.accept("<"):
            owner = self.type()
            if self.accept("as"):
                self.type()
            self.close_angle()
        else:
            owner = self.take()
        self.expect("::")
        name = self.take()
        self.expect("]")
        return Item("promise", self.file, line, scope, owner, name)

    def function(self, item, of_type):
        self.expect("(")
        while not self.accept(")"):
            while self.peek() == "&":
                self.take()
            name = self.take()
            item.parameters.append((name, of_type if name == "self" else self.after_colon()))
            self.accept(",")
        if self.accept("->"):
            item.result = self.result()
        self.clauses(item)
        if item.kind == "spec":
            item.body = self.block()
        elif not self.accept(";"):
            if self.peek() != "{":
                raise NotUnderstood(self.file, self.line(), "%s behind the clauses of %s" % (self.peek(), item.name))
            self.place = group_end(self.file, self.tokens, self.place)
        return item

    def result(self):
        if not self.accept("("):
            return "result", self.type()
        name = self.take()
        kind = self.after_colon()
        self.expect(")")
        return name, kind

    def after_colon(self):
        self.expect(":")
        return self.type()

    def clauses(self, item):
        while self.peek() not in ("{", ";"):
            clause = self.take()
            if clause in LISTS:
                getattr(item, clause).extend(self.listed())
            elif clause == "returns":
                item.returns = self.expression()
                self.accept(",")
            elif clause == "when":
                item.when = self.expression()
            elif clause == "by":
                self.place = group_end(self.file, self.tokens, self.place)
            elif clause == "opens_invariants":
                self.expect("none")
            elif clause != "no_unwind":
                raise NotUnderstood(self.file, self.line(), "the clause %s of %s" % (clause, item.name))

    def listed(self):
        found = [self.expression()]
        while self.accept(",") and self.peek() not in ("{", ";", "returns", "when", "by", "opens_invariants", "no_unwind", *LISTS):
            found.append(self.expression())
        return found


def items_of(file, text):
    return Items(file, Expander(file).expanded(tokens(file, text))).all_items()
