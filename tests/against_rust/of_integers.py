"""Questions about integers, zeros and ones, and bytes of numbers."""
import itertools
import math

from names import ASKED_WITH, BY_DISTANCE, KINDS, greatest, least, width


def within(kind, values):
    return sorted({value for value in values if least(kind) <= value <= greatest(kind)})


def near(values, reach=1):
    return [value + step for value in values for step in range(-reach, reach + 1)]


def with_negatives(values):
    return list(values) + [-value for value in values]


def edges(kind):
    """The numbers that are crossed with each other: around 0, the ends, the halves, some powers of two, and the root, where products begin not to fit."""
    bits, low, high = width(kind), least(kind), greatest(kind)
    powers = [1 << power for power in {7, 8, bits // 2 - 1, bits // 2, bits - 2, bits - 1}]
    return within(kind, near([0, low, high], 3) + near(with_negatives(powers + [high // 2, high // 3, math.isqrt(high)])) + with_negatives([7, 10, 100]))


def powers(kind):
    return within(kind, near(with_negatives([1 << power for power in range(width(kind) + 1)])))


def distances(kind):
    """How far to shift: up to twice the width one by one, then by powers of two."""
    return within("u32", list(range(2 * width(kind) + 2)) + near([1 << power for power in range(33)]))


def drawn(draw, kind):
    """Numbers of every length are equally likely."""
    value = draw.getrandbits(draw.randint(0, width(kind)))
    return value if kind[0] == "u" else max(least(kind), min(greatest(kind), draw.choice([value, -value])))


def drawn_pair(draw, kind, other):
    """Half of the pairs come to lie where a sum, difference, product or quotient is at the edge of the type."""
    a, b = drawn(draw, kind), drawn(draw, other)
    end = draw.choice([least(kind), greatest(kind)])
    close = {0: end - a, 1: a - end, 2: end // a if a else 0, 3: a // b if b else 0}.get(draw.randint(0, 7), b) + draw.choice([-1, 0, 0, 1])
    if least(other) <= close <= greatest(other):
        b = close
    return (a * b, b) if draw.randint(0, 7) == 0 and least(kind) <= a * b <= greatest(kind) else (a, b)


def lines(name, pairs):
    return ["%s %d %d" % (name, a, b) for a, b in pairs]


def of_two(draw, name, kind, other):
    if name in BY_DISTANCE:
        yield from lines(name, itertools.product(edges(kind), distances(kind)))
        yield from lines(name, ((drawn(draw, kind), drawn(draw, "u32") if turn % 2 else draw.randint(0, width(kind))) for turn in range(200)))
        return
    yield from lines(name, itertools.product(edges(kind), edges(other)))
    few = within(other, [0, 1, 2, 3, 10, -1, -2, greatest(other), least(other)])
    yield from lines(name, itertools.product(powers(kind), few))
    yield from lines(name, itertools.product(within(kind, few), powers(other)))
    yield from lines(name, (drawn_pair(draw, kind, other) for _ in range(400)))


def every_pair(kind, other):
    """The text of all pairs of 8-bit numbers."""
    return ["%d %d" % pair for pair in itertools.product(range(least(kind), greatest(kind) + 1), range(least(other), greatest(other) + 1))]


def complete_blocks():
    """All questions of two 8-bit numbers, and of one number of 16 bits: for each name, all its lines as one text."""
    pairs = {}
    numbers = ["%d" % value for value in range(1 << 16)]
    bytes_of = ["%04x" % value for value in range(1 << 16)]
    for name, asked in ASKED_WITH.items():
        if len(asked) == 2 and set(asked) <= {"u8", "i8"}:
            arguments = pairs.setdefault(asked, every_pair(*asked))
        elif asked == ("u16",):
            arguments = numbers
        elif asked == ("bytes",) and name.startswith("u16."):
            arguments = bytes_of
        else:
            continue
        yield name + " " + ("\n" + name + " ").join(arguments)


def runs(bits):
    """Every number whose ones stand side by side, and its complement."""
    for low, high in itertools.combinations(range(bits + 1), 2):
        run = (1 << high) - (1 << low)
        yield run
        yield (1 << bits) - 1 - run


def of_one(draw, name, kind):
    bits = width(kind)
    all_of_them = range(least(kind), greatest(kind) + 1)
    values = all_of_them if bits == 8 else itertools.chain(range(300), powers(kind), runs(bits), (drawn(draw, kind) for _ in range(300)))
    for value in dict.fromkeys(values):
        if value in all_of_them:
            yield "%s %d" % (name, value)


def of_bytes(draw, name, kind):
    size = width(kind) // 8
    yield name + " -"
    for length in itertools.chain(range(1, 20), (31, 32, 33, 63, 64, 65)):
        yield "%s %s" % (name, draw.randbytes(length).hex())
    for byte in (0x00, 0x01, 0x7f, 0x80, 0xff):
        for place in range(size):
            for rest in (0x00, 0xff, 0x5a):
                yield "%s %s" % (name, bytes(byte if at == place else rest for at in range(size)).hex())
    for _ in range(400):
        yield "%s %s" % (name, draw.randbytes(size).hex())


def questions(draw):
    for name, asked in ASKED_WITH.items():
        kind = name.split(".")[0]
        if kind not in KINDS:
            continue
        if len(asked) == 1 and asked != ("bytes",):
            yield from of_one(draw, name, kind)
        elif asked == ("bytes",):
            yield from of_bytes(draw, name, kind)
        elif len(asked) == 2 and "bytes" not in asked:
            yield from of_two(draw, name, *asked)
