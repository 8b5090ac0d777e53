"""Which of vstd's items are taken up, and how: each is held against a restated definition, or stands in LEFT_OUT with the reason. An item in neither place is
a fault."""
import functools
import itertools
import re

import arguments
from checks import Definition, Facts, Promise, Requirement, Statement
from exports import exports
from faults import Fault
from verus import MACHINE

FILES = ("std_specs--num", "wrapping", "std_specs--bits", "bytes", "utf8", "std_specs--char")
# the specs files that restate them, by family: what is there of these names
RESTATED = {
    "Unsigned": ("Unsigned",), "Signed": ("Signed",), "Compare": ("Compare",), "Zeros": ("Zeros",), "Bytes": ("Bytes",),
    "Text": ("Text", "Decoding", "Encoding", "Places", "Characters"),
}

LEFT_OUT = (
    (re.compile(r"[ui]128"), "128 bits are not here yet"),
    (re.compile(r" group_\w+$"), "a list of lemmas, each of which is an item of its own"),
)

# Files beside these in the same crates, and definitions in these, that restate no item. vstd_slices is of files that are not among the six.
FILES_LEFT_OUT = {
    "Lib": "names the others",
    "Promises": "what the exports promise, made of what is restated; they are asked",
}
WORDS_OF_OUR_OWN = {
    "Chars": "that each number of a list is a scalar value, as the type Seq<char> says",
}

# For unsigned numbers both pairs of divisions are one, and so is their promise.
SAME_PROMISE = {("Unsigned", "checked_div_euclid"): "checked_div", ("Unsigned", "checked_rem_euclid"): "checked_rem"}

# What vstd's traits of comparing (std_specs/cmp) read off the three definitions that each type gives them.
LESS, EQUAL, GREATER = (("Some", (name,)) for name in ("Less", "Equal", "Greater"))
READ_OFF = {
    "eq": lambda eq, cmp, partial: eq,
    "ne": lambda eq, cmp, partial: not eq,
    "cmp": lambda eq, cmp, partial: cmp,
    "partial_cmp": lambda eq, cmp, partial: partial,
    "lt": lambda eq, cmp, partial: partial == LESS,
    "le": lambda eq, cmp, partial: partial in (LESS, EQUAL),
    "gt": lambda eq, cmp, partial: partial == GREATER,
    "ge": lambda eq, cmp, partial: partial in (GREATER, EQUAL),
}
# requirements of lemmas that may have names of their own here: the first clause of each
REQUIREMENTS = {"partial_valid_utf8_extend_ascii_block": "AsciiBlock"}
OBEYS = ("obeys_eq_spec", "obeys_cmp_spec", "obeys_partial_cmp_spec")


def left_out(item):
    return next((reason for pattern, reason in LEFT_OUT if pattern.search(item.key)), None)


def kind_of(item):
    """The machine type that an item is about: u8 of `u8::f`, `u8_specs::f`, `u8_trailing_zeros`, `spec_u8_to_le_bytes`."""
    found = re.search(r"(?:^|[ _])([ui](?:8|16|32|64|size))(?=_|::|$)", item.key)
    if not found:
        raise Fault("%s, line %d: %s is about no machine type" % (item.file, item.line, item.key))
    return found.group(1)


def as_type(name):
    """The name of a definition into types: ValidUtf8 restates valid_utf8."""
    return "".join(part[:1].upper() + part[1:] for part in name.split("_"))


class Items:
    def __init__(self, library, definitions):
        self.library, self.definitions = library, definitions
        self.compared = set()  # restated definitions that a check compares: (module's file, name)

    def restating(self, family, *names):
        """The restated definition of one of these names, and the module that has it."""
        for module in self.definitions.restated(RESTATED[family]):
            for name in names:
                if name in module.functions or name in module.records:
                    self.compared.add((module.file, name))
                    return module, name
        raise Fault("%s does not restate %s" % (" ".join(module.file for module in self.definitions.restated(RESTATED[family])), names[0]))

    def ours(self, family, name, *first, given=None):
        """A restated definition, given its first arguments; where `given` says how many vstd's has, only if it takes more."""
        module, found = self.restating(family, SAME_PROMISE.get((family, name), name), as_type(name))
        function = self.definitions.function(module, found)
        return functools.partial(function, *first) if first and (given is None or self.definitions.parameters(module, found) > given) else function

    def checks(self):
        found = []
        for item in self.library.items:
            if not left_out(item):
                made = getattr(self, "of_" + item.file.replace("std_specs--", ""))(item)
                if not made:
                    raise Fault("%s, line %d: %s is neither taken up nor left out for a reason" % (item.file, item.line, item.key))
                found += made if isinstance(made, list) else [made]
        return found + exports(self.library)

    # ---- integers

    def integers(self, item):
        """Arguments of a function of a type's numbers, or of whole numbers."""
        if item.name in ("wrapping_shl", "wrapping_shr"):
            return lambda: itertools.product(arguments.numbers(item.types[0]), arguments.distances(MACHINE[item.types[0]]))
        if item.types == ("int",):
            return lambda: ((number,) for number in arguments.wholes(MACHINE[kind_of(item)]))
        if item.types == ("int", "int"):
            return lambda: itertools.product(arguments.SMALL_WHOLES, repeat=2)
        return lambda: itertools.product(*map(arguments.numbers, item.types))

    def of_integers(self, item):
        kind = kind_of(item)
        return self.ours("Signed" if kind[0] == "i" else "Unsigned", item.name, MACHINE[kind], given=len(item.types))

    def of_wrapping(self, item):
        return Definition(self.library, item, self.of_integers(item), self.integers(item))

    def of_num(self, item):
        if item.key == "std_specs--num next_multiple_of":
            return Definition(self.library, item, self.ours("Unsigned", item.name), self.integers(item))
        if item.name in OBEYS:
            return Definition(self.library, item, lambda: True, lambda: [()])
        if item.name.endswith("_spec"):
            return Definition(self.library, item, self.compare(item.name.removesuffix("_spec")), self.integers(item))
        if item.name in READ_OFF and not item.ensures and item.returns is None:
            return self.read_off(item)
        if item.kind == "promise" and item.name == "clone":
            return Promise(self.library, item, self.ours("Compare", "clone"), self.integers(item))
        if item.kind == "spec":
            return self.of_wrapping(item)
        if item.kind == "promise" and item.owner in MACHINE:
            return Promise(self.library, item, self.of_integers(item), self.integers(item), "%s.%s" % (item.owner, item.name))
        return None

    def compare(self, name):
        if name != "partial_cmp":
            return self.ours("Compare", name)
        cmp = self.ours("Compare", "cmp")
        return lambda x, y: ("Some", cmp(x, y))

    def read_off(self, item):
        of_type = ("%s %s::%s" % (item.file, item.owner, name) for name in ("eq_spec", "cmp_spec", "partial_cmp_spec"))
        eq, cmp, partial = (self.library.value(self.library.keyed[key]) for key in of_type)
        rule, asked = READ_OFF[item.name], item.owner + ".compare" if item.name == "cmp" else None
        keeps = lambda x, y, result: result == rule(eq(x, y), cmp(x, y), partial(x, y))
        return Promise(self.library, item, self.compare(item.name), self.integers(item), asked, keeps)

    # ---- zeros and ones

    def of_bits(self, item):
        kind = kind_of(item)
        width, operation = MACHINE[kind], item.name.split(kind + "_")[-1]
        every = lambda: ((number,) for number in (range(1 << width) if width == 8 else arguments.every_power(kind)))
        if item.kind == "proof":
            edges = lambda *_: ((number,) for number in arguments.every_power(kind))
            facts = self.definitions.facts(*self.restating("Zeros", as_type(operation) + "Facts"))
            return [Facts(self.library, item, "%s_%s" % (kind, operation), facts, width, edges), Statement(self.library, item, edges)]
        ours = self.ours("Zeros", "vstd_" + operation, width)
        if item.kind == "spec":
            return Definition(self.library, item, ours, every)
        return Promise(self.library, item, ours, every, "%s.%s" % (item.owner, item.name)) if item.kind == "promise" else None

    # ---- bytes of a number

    def of_bytes(self, item):
        kind = kind_of(item)
        width, count, reads = MACHINE[kind], MACHINE[kind] // 8, "from_le_bytes" in item.name
        numbers = lambda: ((number,) for number in arguments.every_power(kind))
        lists = lambda: ((given,) for given in arguments.short_lists())
        if item.kind == "proof":
            return Statement(self.library, item, lambda kinds: lists() if kinds == (arguments.BYTES,) else arguments.tried(kinds))
        if item.kind == "spec":
            ours = self.ours("Bytes", "spec_from_le_bytes", width, count - 1) if reads else self.ours("Bytes", "spec_to_le_bytes", count)
            return Definition(self.library, item, ours, lists if reads else numbers)
        if item.kind == "exec":
            asked = "%s.%s_le_bytes" % (kind, "from" if reads else "to")
            ours = self.ours("Bytes", "from_le_bytes", width, count - 1) if reads else self.ours("Bytes", "spec_to_le_bytes", count)
            return Promise(self.library, item, ours, lists if reads else numbers, asked)
        return None

    # ---- text

    def of_utf8(self, item):
        if item.kind == "proof":
            return [Statement(self.library, item, arguments.tried), *self.requirement(item)]
        if item.kind != "spec":
            return None
        natural = item.types[1:] == ("int",)
        given = lambda: (each for each in arguments.tried(item.types) if not natural or each[1] >= 0)
        return Definition(self.library, item, self.ours("Text", item.name), given)

    def requirement(self, item):
        """What a lemma requires, where it is restated under a name of its own: held against it where the lemma's other requirements are met."""
        if item.name not in REQUIREMENTS or not any(REQUIREMENTS[item.name] in module.functions for module in self.definitions.restated(RESTATED["Text"])):
            return []
        ours = self.definitions.function(*self.restating("Text", REQUIREMENTS[item.name]))
        return [Requirement(self.library, item, ours, lambda: arguments.tried(item.types))]

    def of_char(self, item):
        every = lambda: ((char,) for char in arguments.scalars())
        if item.key == "std_specs--char is_white_space":
            return Definition(self.library, item, self.ours("Text", item.name), lambda: ((char,) for char in range(0x3100)))
        if item.key == "std_specs--char char::is_whitespace":
            return Promise(self.library, item, self.ours("Text", "is_white_space"), every, "text.is_white_space")
        if item.key == "std_specs--char char::len_utf8":
            form = self.ours("Text", "encode_scalar")
            return Promise(self.library, item, lambda char: len(form(char)), every, "text.scalar_len")
        return None
