"""Questions about decimal text: numbers around the ends of each type and of each count of figures, texts that are no numbers, parts, and room that is just enough or not."""
from names import KINDS, greatest, least
from of_integers import drawn, near, powers
from of_slices import LARGEST, spelled

NO_NUMBERS = [b"", b"-", b"+", b"+1", b"--1", b"-0", b"00", b"-00", b"1-", b" 1", b"1 ", b"0x1", b"1e3", b"1_0", b"/", b":", b"a", b"\x80", b"\xff1", b"1\x00", b"-a", b"9" * 60, b"0" * 60 + b"7"]


def ask_read(kind, text, f, t):
    return "%s.read_decimal %s %d %d" % (kind, spelled(text), f, t)


def ask_write(kind, length, at, number):
    return "%s.write_decimal %s %d %d" % (kind, spelled(b"." * length), at, number)


def of_reading(draw, kind):
    numbers = near([least(kind), greatest(kind), 0] + [10**power for power in range(21)] + [-(10**power) for power in range(21)]) + powers(kind)
    for number in dict.fromkeys(numbers + [drawn(draw, kind) for _ in range(200)]):
        text = b"%d" % number
        yield ask_read(kind, text, 0, len(text))
        yield ask_read(kind, b"0" * draw.randrange(4) + text, 0, draw.randrange(len(text) + 4))
    for text in NO_NUMBERS:
        yield ask_read(kind, text, 0, len(text))
        yield ask_read(kind, b"12" + text + b"3", 0, len(text) + 3)
    data = b"n=-12;34"
    for f in range(len(data) + 2):
        for t in (*range(len(data) + 2), LARGEST):
            yield ask_read(kind, data, f, t)


def of_writing(draw, kind):
    fitting = [number for number in near([0, least(kind), greatest(kind)] + [10**power for power in range(20)]) if least(kind) <= number <= greatest(kind)]
    for number in dict.fromkeys(fitting + powers(kind) + [drawn(draw, kind) for _ in range(100)]):
        size = len(str(number))
        yield ask_write(kind, size, 0, number)
        yield ask_write(kind, size + draw.randrange(4), draw.randrange(4), number)
        yield ask_write(kind, size - 1, 0, number)
        yield ask_write(kind, size + 3, draw.choice([3, 4, 5, LARGEST, LARGEST - size + 1]), number)


def questions(draw):
    for kind in KINDS:
        yield from of_reading(draw, kind)
        yield from of_writing(draw, kind)
