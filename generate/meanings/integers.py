"""The operations of integers, in Python's unbounded integers: one exact operation, and one of three ways to fit; and those that are neither."""
import re


def by_distance(kind, distance):
    return 2 ** (distance % kind.bits)


def towards_zero(a, b):
    return abs(a) // abs(b) * (1 if (a < 0) == (b < 0) else -1)


# The whole number that is then made to fit; None where there is none.
EXACT = {
    "add": lambda kind, a, b: a + b,
    "sub": lambda kind, a, b: a - b,
    "mul": lambda kind, a, b: a * b,
    "shl": lambda kind, a, b: a * by_distance(kind, b),
    "shr": lambda kind, a, b: a // by_distance(kind, b),
    "div": lambda kind, a, b: towards_zero(a, b) if b else None,
    "rem": lambda kind, a, b: a - b * towards_zero(a, b) if b else None,
    "div_euclid": lambda kind, a, b: (a - a % abs(b)) // b if b else None,
    "rem_euclid": lambda kind, a, b: a % abs(b) if b else None,
    "next_multiple_of": lambda kind, a, b: -(-a // b) * b if b else None,
}


def wrapping(kind, exact):
    return (exact - kind.least) % 2**kind.bits + kind.least


def saturating(kind, exact):
    return min(max(exact, kind.least), kind.greatest)


def checked(kind, exact):
    return exact if exact is not None and kind.least <= exact <= kind.greatest else None


WAYS = {"wrapping": wrapping, "saturating": saturating, "checked": checked}


def compared(a, b):
    return (a > b) - (a < b)


OTHERS = {
    "is_multiple_of": lambda kind, a, b: a == 0 or b != 0 and a % b == 0,
    "clone": lambda kind, a: a,
    "eq": lambda kind, a, b: a == b,
    "ne": lambda kind, a, b: a != b,
    "lt": lambda kind, a, b: a < b,
    "le": lambda kind, a, b: a <= b,
    "gt": lambda kind, a, b: a > b,
    "ge": lambda kind, a, b: a >= b,
    "cmp": lambda kind, a, b: compared(a, b),
    "partial_cmp": lambda kind, a, b: compared(a, b),
}


def meaning(name):
    if name in OTHERS:
        return OTHERS[name]
    way, _, rest = re.sub(r"_(un)?signed$", "", name).partition("_")
    if way not in WAYS or rest not in EXACT:
        return None

    def made_to_fit(kind, a, b):
        # The least number by -1 has no quotient that fits, and so no remainder either.
        missing = rest.startswith("rem") and -a > kind.greatest and b == -1
        return None if missing else WAYS[way](kind, EXACT[rest](kind, a, b))

    return made_to_fit
