"""The arguments that vstd's clauses are tried at, by the types of what they are about."""
import functools
import itertools

from faults import Fault
from verus import GREATEST_CHAR, MACHINE, SURROGATES, greatest, least

BYTES = ("Seq", "u8")
CHARS = ("Seq", "char")
EDGE_BYTES = (0x00, 0x7F, 0x80, 0x8F, 0x90, 0x9F, 0xA0, 0xBF, 0xC0, 0xC1, 0xC2, 0xDF, 0xE0, 0xED, 0xEF, 0xF0, 0xF4, 0xF5, 0xF7, 0xF8, 0xFF)
FEW_BYTES = (0x7F, 0x80, 0x8F, 0x90, 0x9F, 0xA0, 0xBF, 0xC2, 0xE0, 0xED, 0xEF, 0xF0, 0xF4, 0xF5, 0xF7)
FOLLOWING_EDGES = (0x00, 0x7F, 0x80, 0xBF, 0xC0, 0xFF)
FEWEST_BYTES = (0x00, 0x7F, 0x80, 0xFF)
SCALAR_EDGES = (
    0, 1, 9, 0x20, 0x41, 0x7F, 0x80, 0x85, 0xA0, 0x7FF, 0x800, 0x1680, 0x2028, 0x3000, 0xD7FF, 0xE000, 0xFEFF, 0xFFFD, 0xFFFF, 0x10000, 0x1F600, 0x3FFFF,
    0x40000, 0xFFFFF, 0x100000, 0x10FFFF,
)
# beyond the scalar values: what `u32` has besides
OTHER_CODES = (0xD800, 0xDBFF, 0xDC00, 0xDFFF, 0x110000, 0x13FFFF, 0x1FFFFF, 0x200000, 0x7FFFFFFF, 0x80000000, 0xFFFFFFFF)
# worked by hand: at the ends of each form, longer than needed, surrogates, too large, out of place, cut off
WORKED = (
    "7f", "c280", "dfbf", "e0a080", "ed9fbf", "ee8080", "efbfbf", "f0908080", "f48fbfbf", "c080", "c1bf", "e09fbf", "f08fbfbf", "eda080", "edbfbf", "f4908080",
    "f5808080", "80", "ff", "c2", "e282", "f09f98", "ffe282ac", "61c3a9e282acf09f9880", "f09f9880e282acc3a961",
)


def near(values, kind):
    return sorted({value + step for value in values for step in (-1, 0, 1) if least(kind) <= value + step <= greatest(kind)})


@functools.lru_cache(maxsize=None)
def edges(kind):
    """Both ends of a type, small numbers, and those beside powers of two; the negatives of all."""
    width = MACHINE[kind]
    powers = [1 << place for place in {3, 7, 8, width // 2 - 1, width // 2, width - 2, width - 1, width}]
    values = [0, 2, 5, 7, 10, 100, *powers]
    return near([least(kind), greatest(kind), *values, *(-value for value in values)], kind)


@functools.lru_cache(maxsize=None)
def every_power(kind):
    """Beside each power of two, their complements, and some patterns of bits."""
    powers = [1 << place for place in range(MACHINE[kind] + 1)]
    patterns = [greatest(kind) // 255 * byte for byte in (0x01, 0x50, 0x55, 0x80, 0xAA, 0xF7)] + [0x0102030405060708 & greatest(kind)]
    found = near([*powers, *patterns], kind)
    return sorted({*found, *(greatest(kind) - value for value in found)})


def distances(width):
    """Shift distances: all small ones, and those beside multiples of the width."""
    return sorted({*range(2 * width + 2), *near([width * times for times in (3, 4, 5, 100)] + [1 << 16, 1 << 31, (1 << 32) - 1, (1 << 32) - width], "u32")})


def numbers(kind):
    return range(least(kind), greatest(kind) + 1) if MACHINE[kind] == 8 else edges(kind)


def wholes(width):
    """Whole numbers beyond a width: those beside sums, differences and products of edges."""
    if width == 8:
        return range(-(1 << 17), 1 << 17)
    values = edges("i%d" % width)
    return sorted({a * b + step for a in values for b in values for step in (-1, 0, 1)})


SMALL_WHOLES = [*range(-70, 71), 255, 256, 257, 1000, 65535, 65536, (1 << 64) - 1, 1 << 64, 3 << 62]


def strings_of(letters, length):
    return itertools.product(letters, repeat=length)


@functools.lru_cache(maxsize=None)
def texts():
    """Texts of up to three scalar values of each size, and the worked ones."""
    few = [0x00, 0x7F, 0x80, 0x7FF, 0x800, 0xFFFF, 0x10000, 0x10FFFF]
    found = [bytes.fromhex(text) for text in WORKED]
    found += ["".join(map(chr, scalars)).encode() for length in range(4) for scalars in itertools.product(few, repeat=length)]
    return [tuple(text) for text in dict.fromkeys(found)]


@functools.lru_cache(maxsize=None)
def byte_strings():
    """All of up to two bytes, of three and four over those at the edges of the classes, and the forms of scalar values with one byte changed or left out."""
    found = [string for length in range(3) for string in strings_of(range(256), length)]
    found += strings_of(EDGE_BYTES, 3)
    found += strings_of(FEW_BYTES, 4)
    found += itertools.product(EDGE_BYTES, EDGE_BYTES, *[FOLLOWING_EDGES] * 2)
    for scalar in SCALAR_EDGES:
        form = tuple(chr(scalar).encode())
        found += [form, form[:-1], form + form, form + (0x80,), (0xFF,) + form]
        found += [form[:place] + (byte,) + form[place + 1 :] for place in range(len(form)) for byte in EDGE_BYTES]
    return list(dict.fromkeys(found + texts()))


@functools.lru_cache(maxsize=None)
def some_byte_strings():
    found = [string for length in range(4) for string in strings_of(FEWEST_BYTES + (0xC2, 0xE0, 0xED, 0xF0, 0xF4), length)]
    return list(dict.fromkeys(found + texts()))


@functools.lru_cache(maxsize=None)
def short_lists():
    """Up to nine bytes."""
    found = [string for length in range(5) for string in strings_of((0x00, 0x01, 0x7F, 0x80, 0xFE, 0xFF), length)]
    found += [string for length in range(5, 10) for string in strings_of((0x00, 0x80, 0xFF), length)]
    return found + [tuple(range(1, length + 1)) for length in range(2, 10)]


@functools.lru_cache(maxsize=None)
def char_strings():
    found = [string for length in range(3) for string in strings_of(SCALAR_EDGES, length)]
    return found + list(strings_of((0x00, 0x7F, 0x80, 0x800, 0x10FFFF), 3))


def places(sequence):
    return range(-1, len(sequence) + 3)


@functools.lru_cache(maxsize=None)
def codes():
    """Numbers beside those at which a scalar value's form changes, and others of 32 bits."""
    return near([*SCALAR_EDGES, *OTHER_CODES, *range(0, 0x110000, 0x3FF)], "u32")


def scalars():
    return (code for code in range(GREATEST_CHAR + 1) if code not in SURROGATES)


def pool(kind, few):
    """What is tried for a parameter; fewer where there are several."""
    if kind == "u8":
        return range(256)
    if kind == "char":
        return SCALAR_EDGES
    if kind == BYTES:
        return some_byte_strings() if few else byte_strings()
    if kind == CHARS:
        return char_strings()[:40] + char_strings()[-40:] if few else char_strings()
    if kind not in MACHINE:
        raise Fault("there are no arguments to try for the type %s" % (kind,))
    return codes() if kind == "u32" else every_power(kind)


def tried(kinds):
    """Tuples of arguments of these types. A whole number beside a sequence is a place in it; several bytes are edges."""
    if not kinds:
        return [()]
    if len(kinds) == 1:
        return ((value,) for value in pool(kinds[0], False))
    if set(kinds) == {"u8"} and len(kinds) > 2:
        return strings_of(EDGE_BYTES if len(kinds) == 3 else FEW_BYTES, len(kinds))
    if kinds[0] in (BYTES, CHARS) and set(kinds[1:]) == {"int"}:
        return ((sequence, *rest) for sequence in pool(kinds[0], True) for rest in itertools.product(places(sequence), repeat=len(kinds) - 1))
    if kinds == ("u32", "int"):
        return itertools.product(codes(), range(-1, 7))
    if kinds == ("char", "u32"):
        return ((char, code) for char in SCALAR_EDGES for code in (char, char + 1))
    if kinds == (CHARS,) * 3:
        return ((a + b, a, b) for a in char_strings()[:60] for b in char_strings()[::9])
    if kinds == (BYTES, BYTES):
        return itertools.product(some_byte_strings()[::4], texts()[::2])
    if len(kinds) == 2:
        return itertools.product(pool(kinds[0], True), pool(kinds[1], True))
    raise Fault("there are no arguments to try for the types %s" % (kinds,))
