"""Questions about text: every boundary of the scalar values and of the bytes that write them, texts valid, and damaged at every place around blocks of 64 bytes."""
import itertools

from of_integers import near, within
from of_slices import LARGEST, ask, spelled

SCALAR_EDGES = [0, 0x7f, 0x80, 0xff, 0x7ff, 0x800, 0xfff, 0x1000, 0xcfff, 0xd000, 0xd7ff, 0xd800, 0xdbff, 0xdc00, 0xdfff, 0xe000, 0xfffd, 0xffff, 0x10000, 0x3ffff, 0x40000, 0xfffff, 0x100000, 0x10ffff, 0x110000]
WHITE = [0x9, 0xd, 0x20, 0x85, 0xa0, 0x1680, 0x180e, 0x2000, 0x200a, 0x200b, 0x2028, 0x2029, 0x202f, 0x205f, 0x2060, 0x3000, 0xfeff]
SCALARS = within("u32", near(SCALAR_EDGES + WHITE, 2) + near([1 << power for power in range(33)]))
# the ends of the ranges of bytes that the table of well-formed sequences has, and what lies just outside
BYTE_EDGES = [0x00, 0x7f, 0x80, 0x8f, 0x90, 0x9f, 0xa0, 0xbf, 0xc0, 0xc1, 0xc2, 0xdf, 0xe0, 0xe1, 0xec, 0xed, 0xee, 0xef, 0xf0, 0xf1, 0xf3, 0xf4, 0xf5, 0xff]
FOLLOWING_EDGES = [0x00, 0x7f, 0x80, 0x8f, 0x90, 0x9f, 0xa0, 0xbf, 0xc0, 0xff]
ALPHABETS = [
    range(0x20, 0x7f), range(0x80, 0x800), range(0x800, 0xd800), range(0x10000, 0x110000), range(0xe000, 0x10000),
    [0x41] * 30 + [0xe9], [0, 0x7f, 0x80, 0x7ff, 0x800, 0xd7ff, 0xe000, 0xffff, 0x10000, 0x10ffff],
]


def is_scalar(c):
    return c < 0x110000 and not 0xd800 <= c < 0xe000


def form(c):
    """The bytes of c, also of what is no scalar value but has 21 bits."""
    if c < 0x110000:
        return chr(c).encode("utf-8", "surrogatepass")
    return bytes([0xf0 | c >> 18 & 7, 0x80 | c >> 12 & 63, 0x80 | c >> 6 & 63, 0x80 | c & 63])


def text_of(draw, alphabet, length):
    """Valid text of so many bytes; ASCII fills what no further scalar of the alphabet fits."""
    found = b""
    while len(found) < length:
        next_form = form(draw.choice(alphabet))
        found += next_form if len(found) + len(next_form) <= length else b"a"
    return found


def of_scalars(draw):
    for c in itertools.chain(range(0x3100), SCALARS, (draw.randrange(0x110000) for _ in range(1000)), (draw.getrandbits(32) for _ in range(200))):
        yield "text.is_white_space %d" % c
    for c in itertools.chain(SCALARS, (draw.randrange(0x110000) for _ in range(2000)), (draw.getrandbits(32) for _ in range(200))):
        yield "text.scalar_len %d" % c
    for c in SCALARS:
        for length in range(7):
            for at in itertools.chain(range(length + 2), (LARGEST, LARGEST - 3)):
                yield "text.write %s %d %d" % (spelled(draw.randbytes(length)), at, c)
    for c in SCALARS + [draw.randrange(0x110000) for _ in range(500)]:
        own = form(c)
        for before, after in itertools.product((b"", b"a", b"\x80", b"\xf0\x9f", b"\xff\xe2\x82"), (b"", b"a", b"\x80", b"\xe2")):
            data = before + own + after
            yield ask("text.read_first", data, len(before), len(data))
            yield ask("text.read_last", data, 0, len(before) + len(own))
            yield ask("text.read_first", data, len(before), len(before) + max(0, len(own) - 1))
            yield ask("text.read_last", data, len(before) + 1, len(before) + len(own))
            yield "text.valid " + spelled(data)


def of_short(draw):
    """All texts of up to two bytes, and those of three and four whose bytes lie at the edges of the table's ranges."""
    for length in range(3):
        for data in map(bytes, itertools.product(range(256), repeat=length)):
            yield "text.valid " + spelled(data)
            if length < 2 or draw.random() < 0.2:
                yield from of_reading(data)
    for data in map(bytes, itertools.product(BYTE_EDGES, FOLLOWING_EDGES, FOLLOWING_EDGES)):
        yield "text.valid " + spelled(data)
        yield from of_reading(data)
    for data in map(bytes, itertools.product(BYTE_EDGES[6:], FOLLOWING_EDGES, FOLLOWING_EDGES, FOLLOWING_EDGES)):
        yield "text.valid " + spelled(data)
        if draw.random() < 0.3:
            yield from of_reading(data)


def of_reading(data):
    yield ask("text.read_first", data, 0, len(data))
    yield ask("text.read_last", data, 0, len(data))
    yield "text.count " + spelled(data)
    yield "text.valid_up_to " + spelled(data)


def of_whole(draw, data):
    """All that is asked of one text."""
    word = spelled(data)
    yield "text.valid " + word
    yield "text.valid_up_to " + word
    yield "text.count " + word
    yield "text.is_ascii " + word
    for i in draw.sample(range(len(data) + 2), min(3, len(data) + 2)) + [draw.choice([0, 1, 63, 64, 65, len(data), len(data) + 1, LARGEST])]:
        yield "text.is_boundary %s %d" % (word, i)
        yield "text.split_at %s %d" % (word, i)


def of_lengths(draw):
    for length in itertools.chain(range(0, 20), range(60, 70), range(124, 134), range(188, 196), (255, 256, 257, 500, 1000)):
        for alphabet in ALPHABETS:
            data = text_of(draw, alphabet, length)
            yield from of_whole(draw, data)
            if length <= 134:
                for f, t in [(0, length), (draw.randint(0, length), length), (0, draw.randint(0, length)), (length, length), (1, 0), (0, length + 1)]:
                    yield ask("text.read_first", data, f, t)
                    yield ask("text.read_last", data, f, t)
    for length in (20, 66):
        for alphabet in ALPHABETS:
            word = spelled(text_of(draw, alphabet, length))
            for i in range(length + 2):
                yield "text.is_boundary %s %d" % (word, i)
                yield "text.split_at %s %d" % (word, i)


def of_damage(draw):
    """At each place one byte is exchanged, left out or put in, or the text ends there."""
    for alphabet in ALPHABETS:
        data = text_of(draw, alphabet, 200)
        for place in range(len(data)):
            yield from of_whole(draw, data[:place] + bytes([draw.choice(BYTE_EDGES)]) + data[place + 1 :])
            yield from of_whole(draw, data[:place] + data[place + 1 :])
            for byte in draw.sample(BYTE_EDGES, 4):
                yield "text.valid " + spelled(data[:place] + bytes([byte]) + data[place + 1 :])
                yield "text.valid " + spelled(data[:place] + bytes([byte]) + data[place:])
            for wrong in (b"\xc0\x80", b"\xed\xa0\x80", b"\xe0\x80\x80", b"\xf4\x90\x80\x80", b"\xf0\x80\x80\x80", b"\xff"):
                if draw.random() < 0.5:
                    yield "text.valid " + spelled(data[:place] + wrong + data[place:])
            yield "text.count " + spelled(data[:place])
            yield ask("text.read_last", data, 0, place)
            yield ask("text.read_first", data, place, len(data))
    for place in range(200):
        ascii_but_one = b"x" * place + b"\x80" + b"y" * (199 - place)
        yield "text.is_ascii " + ascii_but_one.hex()
        yield "text.valid " + ascii_but_one.hex()


def of_long(draw):
    for alphabet in ALPHABETS:
        for length in (4096, 32000):
            data = text_of(draw, alphabet, length)
            yield from of_whole(draw, data)
            yield "text.valid " + spelled(data[:-1] + b"\xf0")
            yield "text.valid " + spelled(data[1:])


def questions(draw):
    for questions_of in (of_scalars, of_short, of_lengths, of_damage, of_long):
        yield from questions_of(draw)
