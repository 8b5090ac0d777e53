"""What Verus itself brings: its machine types, `as`, elements and parts of sequences, and its divisions. `/` and `%` are the Euclidean pair, rust_div and
rust_rem round towards zero. What its logic leaves open is left open here, too."""
from faults import LeftOpen

WIDTHS = {"8": 8, "16": 16, "32": 32, "64": 64, "128": 128, "size": 64}
UNSIGNED = {"u" + name: width for name, width in WIDTHS.items()}
SIGNED = {"i" + name: width for name, width in WIDTHS.items()}
MACHINE = {**UNSIGNED, **SIGNED}
GREATEST_CHAR = 0x10FFFF
SURROGATES = range(0xD800, 0xE000)


def least(kind):
    return -(1 << SIGNED[kind] - 1) if kind in SIGNED else 0


def greatest(kind):
    return (1 << SIGNED[kind] - 1) - 1 if kind in SIGNED else (1 << UNSIGNED[kind]) - 1


def fit(value, low, high):
    """A cast to a machine type: where the value does not fit, Verus says nothing of the result."""
    if low <= value <= high:
        return value
    raise LeftOpen("%d is cast to a type from %d to %d" % (value, low, high))


def natural(value):
    if value >= 0:
        return value
    raise LeftOpen("%d is cast to nat" % value)


def char(value):
    if 0 <= value <= GREATEST_CHAR and value not in SURROGATES:
        return value
    raise LeftOpen("%d is cast to char" % value)


def element(sequence, place):
    if 0 <= place < len(sequence):
        return sequence[place]
    raise LeftOpen("element %d of %d" % (place, len(sequence)))


def part(sequence, low, high):
    if 0 <= low <= high <= len(sequence):
        return sequence[low:high]
    raise LeftOpen("the part from %d to %d of %d" % (low, high, len(sequence)))


def divided(a, b):
    if b == 0:
        raise LeftOpen("a division by 0")
    return a // b if b > 0 else -(a // -b)


def remainder(a, b):
    if b == 0:
        raise LeftOpen("a remainder by 0")
    return a % abs(b)


def rust_div(a, b):
    if b == 0:
        raise LeftOpen("a division by 0")
    return abs(a) // abs(b) if (a < 0) == (b < 0) else -(abs(a) // abs(b))


def rust_rem(a, b):
    return a - b * rust_div(a, b)


def shifted_left(value, distance, kind):
    """At the type: what is shifted past its width is lost."""
    if distance < 0:
        raise LeftOpen("a shift by %d" % distance)
    wide = value << min(distance, MACHINE[kind]) & (1 << MACHINE[kind]) - 1
    return wide - (1 << MACHINE[kind]) if kind in SIGNED and wide > greatest(kind) else wide


def shifted_right(value, distance):
    if distance < 0:
        raise LeftOpen("a shift by %d" % distance)
    return value >> distance
