"""Questions about slices of bytes: lengths and places around the blocks that the operations work in."""
import itertools

LENGTHS = [0, 1, 2, 3, 7, 8, 9, 15, 16, 17, 31, 32, 33, 63, 64, 65, 95, 96, 97, 127, 128, 129, 130, 191, 192, 193, 255, 256, 257, 400]
STEPS = [1, 7, 8, 15, 16, 17, 31, 32, 33, 63, 64, 65, 127, 128, 129]
LARGEST = (1 << 64) - 1
OUTSIDE = [LARGEST, LARGEST - 1, 1 << 63, 1 << 32]


def spelled(data):
    return data.hex() or "-"


def ask(name, data, f, t, *more):
    words = [name, spelled(data), str(f), str(t)] + [spelled(word) if isinstance(word, bytes) else str(word) for word in more]
    return " ".join(words)


def parts(length):
    """The ends of parts: inside, at and past the end, the wrong way round, and as long as a block or its neighbours."""
    places = sorted({place for place in (0, 1, 2, length // 2, length - 2, length - 1, length, length + 1) if place >= 0})
    found = list(itertools.product(places, places))
    found += [(f, f + step) for f in (0, 1, 5) for step in STEPS if f + step <= length]
    found += [(length - step, length) for step in STEPS if step <= length]
    return list(dict.fromkeys(found)) + [(0, LARGEST), (LARGEST, 0), (LARGEST, LARGEST), (LARGEST - 1, LARGEST), (1 << 63, (1 << 63) + 1)]


def good_parts(length):
    return [(f, t) for f, t in parts(length) if f <= t <= length]


def offsets(f, size):
    """Numbers counted from f in a part of that size; some of them only fit if a sum wraps around."""
    return sorted({value for value in (0, 1, 2, size - 1, size, size + 1, LARGEST - f, LARGEST - f + 1) + tuple(OUTSIDE) if 0 <= value <= LARGEST})


def changed(data, place):
    return data[:place] + bytes([data[place] ^ 0x01 if place % 2 else data[place] ^ 0x80]) + data[place + 1 :]


def resembling(draw, part):
    """The part itself, its beginnings and ends, longer ones, and each of these with one byte changed."""
    size = len(part)
    lengths = [length for length in [0] + STEPS + [size - 1, size] if 0 <= length <= size]
    found = [part, part + b"\x00", b"\xff" + part, part + draw.randbytes(64)]
    for length in draw.sample(lengths, min(5, len(lengths))):
        found += [part[:length], part[size - length :]]
    for place in {place for step in STEPS + [0, size // 2] for place in (step, size - 1 - step, size - 1)}:
        if 0 <= place < size and draw.random() < 0.4:
            found.append(changed(part, place))
            found.append(changed(part, place)[: place + 1])
            found.append(changed(part, place)[place:])
    return found


def of_comparing(draw, length):
    data = draw.randbytes(length)
    for f, t in draw.sample(good_parts(length), min(12, len(good_parts(length)))):
        for other in resembling(draw, data[f:t]):
            yield ask("bytes.equal", data, f, t, other)
            yield ask("bytes.starts_with", data, f, t, other)
            yield ask("bytes.ends_with", data, f, t, other)
    for f, t in parts(length):
        for name in ("bytes.equal", "bytes.starts_with", "bytes.ends_with"):
            yield ask(name, data, f, t, draw.choice([b"", data[f:t], data]))


def of_containing(draw, length):
    for f, t in parts(length):
        value = draw.choice([0x00, 0x01, 0x7f, 0x80, 0xff, draw.randrange(256)])
        plain = bytes(byte ^ 0x55 if byte == value else byte for byte in draw.randbytes(length))
        yield ask("bytes.contains", plain, f, t, value)
        for place in {f - 1, f, f + 1, t - 2, t - 1, t, (f + t) // 2, f + 31, f + 32, f + 63, f + 64}:
            if 0 <= place < length and draw.random() < 0.5:
                yield ask("bytes.contains", plain[:place] + bytes([value]) + plain[place + 1 :], f, t, value)


def of_reading(draw, length):
    data = draw.randbytes(length)
    for f, t in parts(length):
        for name in ("bytes.len", "bytes.is_empty", "bytes.first", "bytes.last", "bytes.split_first"):
            yield ask(name, data, f, t)
        good = f <= t <= length
        numbers = offsets(f, max(0, t - f))
        for number in draw.sample(numbers, min(5 if good else 2, len(numbers))):
            yield ask("bytes.get", data, f, t, number)
            yield ask("bytes.split_at", data, f, t, number)
            yield ask("bytes.next_piece", data, f, t, number)
            yield ask("bytes.set", data, f, t, number, draw.randrange(256))
        for a, e in itertools.combinations_with_replacement(numbers[:5], 2) if good else []:
            yield ask("bytes.sub_range", data, f, t, a, e)
        for _ in range(3):
            yield ask("bytes.sub_range", data, f, t, draw.choice(numbers), draw.choice(numbers))


def of_writing(draw, length):
    data = draw.randbytes(length)
    for f, t in parts(length):
        yield ask("bytes.reverse", data, f, t)
        good = f <= t <= length
        size = t - f if good else draw.randrange(4)
        for wrong in (0, 0, 1, -1) if good else (0,):
            yield ask("bytes.copy_from", data, f, t, draw.randbytes(max(0, size + wrong)))
        places = {0, f, t, length - size, length - size + 1, length, length + 1, LARGEST, LARGEST - size + 1, LARGEST - size}
        places |= {f + sign * step for sign in (1, -1) for step in (1, 8, 31, 32, 33, 63, 64, 65, 128)}
        usable = sorted(place for place in places if 0 <= place <= LARGEST)
        for place in draw.sample(usable, min(8 if good else 2, len(usable))):
            yield ask("bytes.copy_within", data, f, t, place)


def drawn(draw):
    """Any slice, and a part of it."""
    length = draw.randrange(0, 300)
    data = draw.randbytes(length)
    f = draw.randint(0, length)
    t = draw.randint(f, length)
    part = data[f:t]
    number = draw.randint(0, t - f + 1)
    yield ask("bytes.reverse", data, f, t)
    yield ask("bytes.copy_from", data, f, t, draw.randbytes(t - f))
    yield ask("bytes.copy_within", data, f, t, draw.randint(0, length - (t - f)))
    yield ask("bytes.contains", data, f, t, draw.randrange(256))
    yield ask("bytes.starts_with", data, f, t, part[:number])
    yield ask("bytes.ends_with", data, f, t, part[max(0, len(part) - number) :])
    yield ask("bytes.get", data, f, t, number)
    yield ask("bytes.set", data, f, t, number, draw.randrange(256))
    yield ask("bytes.split_at", data, f, t, number)
    yield ask("bytes.next_piece", data, f, t, number)
    yield ask("bytes.sub_range", data, f, t, draw.randint(0, number), number)


def questions(draw):
    for length in LENGTHS:
        for questions_of in (of_reading, of_comparing, of_containing, of_writing):
            yield from questions_of(draw, length)
    for _ in range(1000):
        yield from drawn(draw)
    # long slices, whose lines and answers stay within 65,536 bytes
    for length in (1000, 4095, 4096, 4097, 16384, 32700):
        data = draw.randbytes(length)
        for f, t in [(0, length), (1, length), (0, length - 1), (length // 2, length)]:
            yield ask("bytes.reverse", data, f, t)
            yield ask("bytes.copy_within", data, f, t, f // 2)
            yield ask("bytes.copy_within", data, 0, t - f, f)
            yield ask("bytes.contains", data, f, t, data[-1])
            yield ask("bytes.last", data, f, t)
            yield ask("bytes.equal", data[: length // 2], 0, length // 2, data[: length // 2])
