"""The Rattle kit's own numbers, lists and tests, which the restated definitions are written with: each name with how many arguments it takes and what it is in
Python. A natural number and a whole number are Python's, a list is a tuple, and a proposition is whether it holds. Whatever else a definition names is read
from its own file."""


def less(a, b):
    """Subtraction of natural numbers, cut off at 0."""
    return a - b if a > b else 0


def quotient(a, b):
    return a // b if b else 0


def remainder(a, b):
    return a % b if b else a


def towards_zero(a, b):
    return quotient(abs(a), abs(b)) * (1 if (a < 0) == (b < 0) else -1)


def with_dividends_sign(a, b):
    return remainder(abs(a), abs(b)) * (1 if a >= 0 else -1)


def element(sequence, place, otherwise):
    return sequence[place] if place < len(sequence) else otherwise


FUNCTIONS = {function.__name__: function for function in (less, quotient, remainder, towards_zero, with_dividends_sign, element)}

NAMES = {
    # natural numbers
    "zero": (0, "0"), "suc": (1, "({0} + 1)"), "◌+◌": (2, "({0} + {1})"), "◌-◌": (2, "less({0}, {1})"), "◌*◌": (2, "({0} * {1})"), "◌^◌": (2, "({0} ** {1})"),
    "◌/◌": (2, "quotient({0}, {1})"), "◌%◌": (2, "remainder({0}, {1})"),
    "bit_and": (2, "({0} & {1})"), "bit_or": (2, "({0} | {1})"), "bit_xor": (2, "({0} ^ {1})"),
    "eqb": (2, "({0} == {1})"), "leb": (2, "({0} <= {1})"), "ltb": (2, "({0} < {1})"),
    # whole numbers
    "pos": (1, "{0}"), "negsuc": (1, "(-1 - {0})"), "nat_abs": (1, "abs({0})"), "neg_ℤ": (1, "(-{0})"),
    "◌+ℤ◌": (2, "({0} + {1})"), "◌-ℤ◌": (2, "({0} - {1})"), "◌*ℤ◌": (2, "({0} * {1})"), "lt_z": (2, "({0} < {1})"), "le_z": (2, "({0} <= {1})"),
    "quot_z": (2, "towards_zero({0}, {1})"), "rem_z": (2, "with_dividends_sign({0}, {1})"),
    # truth
    "true": (0, "True"), "false": (0, "False"), "not": (1, "(not {0})"), "◌&&◌": (2, "({0} and {1})"), "◌||◌": (2, "({0} or {1})"),
    "cond": (3, "({1} if {0} else {2})"),
    # lists
    "[]": (0, "()"), "◌∷◌": (2, "(({0},) + {1})"), "◌++◌": (2, "({0} + {1})"), "length": (1, "len({0})"), "get_or": (3, "element({0}, {1}, {2})"),
    "take": (2, "{1}[:{0}]"), "drop": (2, "{1}[{0}:]"),
    # an Option, and an Ordering: what they are made of
    "None": (0, '("None",)'), "Some": (1, '("Some", {0})'), "Less": (0, '("Less",)'), "Equal": (0, '("Equal",)'), "Greater": (0, '("Greater",)'),
    # propositions
    "⊥": (0, "False"), "Unit": (0, "True"), "◌≡◌": (2, "({0} == {1})"), "◌≤◌": (2, "({0} <= {1})"), "◌<◌": (2, "({0} < {1})"),
    "◌×◌": (2, "({0} and {1})"), "◌⊎◌": (2, "({0} or {1})"), "◌↔◌": (2, "({0} == {1})"),
}
# of these, what patterns may name
VARIANTS = {name: NAMES[name][0] for name in ("None", "Some", "Less", "Equal", "Greater")}
# known to the language, without a line that imports them
BUILT_IN = ("⊥", "Unit", "◌×◌")
MODULES = ("Rattle.std.specs.",)

# how tightly the kit's operators bind, and to which side
FIXITIES = {
    "→": (0, "right"), "↔": (1, "none"), "⊎": (2, "right"), "×": (3, "right"), "≡": (4, "none"),
    "+ℤ": (6, "left"), "-ℤ": (6, "left"), "*ℤ": (7, "left"), "||": (30, "left"), "&&": (35, "left"), "≤": (50, "none"), "<": (50, "none"),
    "+": (65, "left"), "-": (65, "left"), "++": (65, "left"), "∷": (67, "right"), "*": (70, "left"), "/": (70, "left"), "%": (70, "left"), "^": (75, "right"),
}
