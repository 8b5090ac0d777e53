"""The questions that the stored sample always has: those at which a wrong answer is most likely."""
import itertools
import random

from damaged import BAD_WORDS
from names import ASKED_WITH, BY_DISTANCE, KINDS, greatest, least, width
from of_integers import near, powers
from of_slices import LARGEST, STEPS, ask, changed, offsets, spelled
from of_text import ALPHABETS, BYTE_EDGES, FOLLOWING_EDGES, SCALAR_EDGES, WHITE, form, text_of

PLACES = [0, 1, 31, 32, 33, 62, 63, 64, 65, 126, 127, 128, 129]
LENGTH = 130
WORDS_ARE_TRIED_IN = [kind + ".compare" for kind in KINDS] + ["text.count", "bytes.equal"]


def of_integers():
    """The ends of each type crossed with each other, shifts around the width, powers of two."""
    ends = {kind: [least(kind), 0 if kind[0] == "u" else -1, 3 if kind[0] == "u" else 0, greatest(kind)] for kind in KINDS}
    for name, asked in ASKED_WITH.items():
        if len(asked) == 2 and "bytes" not in asked:
            yield from ("%s %d %d" % (name, a, b) for a, b in itertools.product(ends[asked[0]], ends[asked[1]]))
    for name in BY_DISTANCE:
        kind = name.split(".")[0]
        for distance in (1, width(kind) - 1, width(kind), width(kind) + 1, 2 * width(kind), 1 << 31):
            yield "%s %d %d" % (name, greatest(kind), distance)
    for name, asked in ASKED_WITH.items():
        if len(asked) == 1 and asked[0] == name.split(".")[0]:
            for value in powers(asked[0])[:: width(asked[0]) // 8]:
                yield "%s %d" % (name, value)


def of_slices(draw):
    data = bytes(draw.sample(range(256), LENGTH))
    absent = next(byte for byte in range(256) if byte not in data)
    for place in PLACES:
        yield ask("bytes.contains", data, 0, LENGTH, data[place])
        yield ask("bytes.contains", data, 1, place, data[place]) if place else ask("bytes.contains", data, 0, LENGTH, absent)
        for name in ("bytes.equal", "bytes.starts_with", "bytes.ends_with"):
            yield ask(name, data, 0, LENGTH, changed(data, place))
    for length in [2] + STEPS:
        yield ask("bytes.reverse", data[: length + 1], 1, length + 1)
        yield ask("bytes.copy_from", data[: length + 1], 0, length, data[1 : length + 1])
        yield ask("bytes.copy_from", data[: length + 1], 0, length, data[: length + 1])
    for distance in (1, 31, 32, 33):
        yield ask("bytes.copy_within", data, 0, LENGTH - distance, distance)
        yield ask("bytes.copy_within", data, distance, LENGTH, 0)
        yield ask("bytes.copy_within", data, 0, LENGTH - distance, distance + 1)
    few = data[:5]
    for f, t in ((0, 5), (1, 4), (2, 2), (3, 2), (0, 6)):
        for name in ("bytes.get", "bytes.split_at", "bytes.next_piece", "bytes.copy_within"):
            yield from (ask(name, few, f, t, number) for number in offsets(f, max(0, t - f)))
        yield from (ask("bytes.set", few, f, t, number, 255) for number in offsets(f, max(0, t - f)))
        yield from (ask("bytes.sub_range", few, f, t, a, e) for a, e in itertools.product(offsets(f, max(0, t - f))[:8], repeat=2))
        for other in (b"", few, few[f:t], few[f : t + 1], few[max(0, f - 1) : t]):
            yield from (ask(name, few, f, t, other) for name in ("bytes.equal", "bytes.starts_with", "bytes.ends_with"))


def of_text(draw):
    for c in near(WHITE):
        yield "text.is_white_space %d" % c
    for c in SCALAR_EDGES:
        own = form(c)
        yield "text.scalar_len %d" % c
        yield "text.is_white_space %d" % c
        for at in (0, 4 - len(own), 5 - len(own), LARGEST):
            yield "text.write 61626364 %d %d" % (at, c)
        for before, after in ((b"", b""), (b"\xff", b"\x80")):
            data = before + own + after
            yield ask("text.read_first", data, len(before), len(data))
            yield ask("text.read_last", data, 0, len(before) + len(own))
            yield ask("text.read_first", data, len(before), len(before) + len(own) - 1)
    for first, second in itertools.product(BYTE_EDGES, FOLLOWING_EDGES):
        for rest in ("", "80", "8080"):
            yield "text.valid %02x%02x%s" % (first, second, rest)
            yield "text.valid_up_to 61%02x%02x%s" % (first, second, rest)
    for alphabet in (ALPHABETS[0], ALPHABETS[1], ALPHABETS[-1]):
        data = text_of(draw, alphabet, LENGTH)
        for place in PLACES:
            yield "text.valid " + spelled(data[:place] + b"\xff" + data[place + 1 :])
            yield "text.count " + spelled(data[:place])
    for place in PLACES:
        yield "text.is_ascii " + (b"x" * place + b"\x80" + b"y" * (LENGTH - 1 - place)).hex()
    for length in (0, 20):
        word = spelled(text_of(draw, ALPHABETS[-1], length))
        for i in itertools.chain(range(length + 2), (LARGEST,)):
            yield "text.is_boundary %s %d" % (word, i)
            yield "text.split_at %s %d" % (word, i)


def of_decimal():
    """Both ends of each type and their neighbours, as text and into text; room that is one byte too small."""
    for kind in KINDS:
        for number in near([least(kind), greatest(kind)]):
            yield of_text_of_number(kind, b"%d" % number)
        for text in (b"0", b"-0", b"+1", b"007", b"", b"-", b"1a", b"x5"):
            yield of_text_of_number(kind, text)
        yield "%s.read_decimal 6e3d34323b 2 4" % kind
        for number in (least(kind), greatest(kind), 0, 10):
            size = len(str(number))
            for length, at in ((size, 0), (size + 2, 1), (size, 1), (size - 1, 0)):
                yield "%s.write_decimal %s %d %d" % (kind, spelled(b"." * length), at, number)


def of_text_of_number(kind, text):
    return "%s.read_decimal %s 0 %d" % (kind, spelled(text), len(text))


def of_lines():
    yield from ("", " ", " u8.compare 1 1", "u8.compare 1 1 ", "u8.compare  1 1", "u8.compare\t1 1", "u8.compare 1 1\r", "\x00", "\xff\xfe")
    for name in WORDS_ARE_TRIED_IN:
        right = ["00" if kind == "bytes" else "0" for kind in ASKED_WITH[name]]
        yield from (" ".join([name] + right[:-1] + [word]) for word in BAD_WORDS)
    for kind in KINDS:
        for number in (least(kind) - 1, greatest(kind) + 1):
            yield "%s.compare 1 %d" % (kind, number)


def questions():
    draw = random.Random(0)
    yield from (line.encode("latin-1") for line in itertools.chain(of_lines(), of_integers(), of_slices(draw), of_text(draw), of_decimal()))
