"""Questions that are no questions: lines cut, exchanged and doubled, words of the wrong form, numbers too large, names that nothing has, binary, lines at the longest length."""
import itertools

from names import ASKED_WITH, KINDS, OPERATIONS, greatest, least

LONGEST_LINE = 65536
ANY_BYTE = [chr(byte) for byte in range(256) if byte != 10]
BAD_WORDS = [
    "", "-", "+1", "-0", "-00", "00", "007", "--1", "- 1", "1-", "1_000", "1.0", "0x10", "1e3", "a", "A0", "a", "0", "0A", "fF", "\t1", "1\t", "1\r", "\x00", "1\x00", "\xff", "\xb2", "\u00bd",
    "true", "refused", "99999999999999999999999999999999999999999999999999", "-99999999999999999999999999999999999999", "18446744073709551616", "340282366920938463463374607431768211456",
    "0" * 40 + "1", "-" + "0" * 40 + "1", "0" * 400,
]
OTHER_FAMILIES = ["", "u", "u0", "u4", "u08", "u128", "i128", "U8", "I8", "u8 ", "char", "str", "range", "byte", "texts", "Text", "f32", "bool", "u8.u8", "\u00b58"]
OTHER_OPERATIONS = [
    "", "add", "wrapping", "wrapping_", "wrapping_ad", "wrapping_addx", "Wrapping_add", "wrapping-add", "wrapping_add.", "wrapping_add\r", "wrapping_neg", "checked_neg", "checked_shl", "saturating_div",
    "pow", "valid\x00", "len_", "Len", "read", "split", "count_ones", "to_ne_bytes", "write_", "is_char_boundary",
]


def cut(draw, line):
    return line[: draw.randint(0, len(line))]


def cut_in_front(draw, line):
    return line[draw.randint(0, len(line)) :]


def put_in(draw, line):
    place = draw.randint(0, len(line))
    return line[:place] + draw.choice(ANY_BYTE) + line[place:]


def exchange(draw, line):
    place = draw.randrange(len(line))
    return line[:place] + draw.choice(ANY_BYTE) + line[place + 1 :]


def leave_out(draw, line):
    place = draw.randrange(len(line))
    return line[:place] + line[place + 1 :]


def swap(draw, line):
    place = draw.randrange(max(1, len(line) - 1))
    return line[:place] + line[place + 1 : place + 2] + line[place] + line[place + 2 :]


def double_a_space(draw, line):
    words = line.split(" ")
    place = draw.randint(0, len(words))
    return " ".join(words[:place] + [""] + words[place:])


def word_more(draw, line):
    return line + " " + draw.choice(["0", "00", "-", "x", ""])


def word_less(draw, line):
    return line.rpartition(" ")[0]


def words_swapped(draw, line):
    name, *words = line.split(" ")
    draw.shuffle(words)
    return " ".join([name] + words)


def bad_word(draw, line):
    words = line.split(" ")
    words[draw.randrange(len(words))] = draw.choice(BAD_WORDS)
    return " ".join(words)


def capitals(draw, line):
    return line.upper()


def too_large(draw, line):
    """A number just outside of its type, or one that fits if it is cut to the type's width."""
    name, *words = line.split(" ")
    numbers = [place for place, kind in enumerate(ASKED_WITH[name]) if kind != "bytes"]
    if numbers:
        place = draw.choice(numbers)
        kind = ASKED_WITH[name][place]
        words[place] = str(draw.choice([greatest(kind) + 1, least(kind) - 1, greatest(kind) * 2 + 2, (1 << 64) + 1, -(1 << 64) + 1, -(1 << 63) - 1, 1 << 128]))
    return " ".join([name] + words)


def other_hex(draw, line):
    name, *words = line.split(" ")
    found = [place for place, kind in enumerate(ASKED_WITH[name]) if kind == "bytes"]
    if found:
        place = draw.choice(found)
        words[place] = draw.choice([words[place] + "0", words[place] + "g0", words[place] + "0A", "-" + words[place], words[place] + "-", words[place].upper(), "0x" + words[place], ""])
    return " ".join([name] + words)


DAMAGES = [
    cut, cut_in_front, put_in, exchange, exchange, leave_out, swap, double_a_space, word_more, word_less, words_swapped, bad_word, bad_word, capitals, too_large, too_large, other_hex,
]


def of_lines(draw, whole, count):
    """Whole questions with one damage each; some of these are good questions again, which is no harm."""
    short = [line for line in whole if len(line) < 400]
    for _ in range(count):
        yield draw.choice(DAMAGES)(draw, draw.choice(short))


def of_names(draw):
    """Every type with every operation, also where there is no such name, with arguments and without; then names close to those that there are."""
    for kind, operation in itertools.product(KINDS + ["bytes", "text"], OPERATIONS):
        name = kind + "." + operation
        yield from (name, name + " 1", name + " 1 1", name + " 0102", name + " -")
    names = list(ASKED_WITH)
    for family, operation in itertools.product(OTHER_FAMILIES, ["wrapping_add", "valid", "len", ""]):
        yield from (family + "." + operation + " 1 1", family + operation)
    for family, operation in itertools.product(KINDS + ["bytes", "text"], OTHER_OPERATIONS):
        yield from (family + "." + operation, family + "." + operation + " 1 1")
    for name in names:
        yield from (name, name + " ", " " + name, name + "  ", name[:-1] + " 1 1", name + "_ 1 1", name.replace(".", " "), name.replace(".", ".."), name + "\t1\t1", name.upper() + " 1 1")


def of_words(draw):
    """Every word of a wrong or unusual form, at every place of every name."""
    right = {"bytes": "00", **{kind: "1" for kind in KINDS}}
    for name, asked in ASKED_WITH.items():
        for place, word in itertools.product(range(len(asked)), BAD_WORDS):
            yield " ".join([name] + [word if at == place else right[kind] for at, kind in enumerate(asked)])
        yield " ".join([name] + ["0"] * (len(asked) - 1))
        yield " ".join([name] + ["0"] * (len(asked) + 1))
        yield " ".join([name] + ["1"] * 50)


def of_length(length):
    """Lines of exactly so many bytes."""
    yield "u8.wrapping_add " + "0" * (length - 19) + "1 2"
    yield "i64.checked_sub -" + "0" * (length - 20) + "7 8"
    yield "u8.wrapping_add 1 " + " " * (length - 18)
    yield "x" * length
    yield " " * length
    yield "text.valid " + "61" * ((length - 11) // 2) + "6" * ((length - 11) % 2)
    bytes_there = (length - 24) // 2
    yield ("bytes.reverse " + "c3a9" * (bytes_there // 2) + " 0 1").ljust(length, "0")
    yield ("text.is_ascii " + "7f" * bytes_there).ljust(length, " ")


def of_lengths():
    for length in (4095, 4096, 4097, 8192, 32768, LONGEST_LINE - 1, LONGEST_LINE, LONGEST_LINE + 1, LONGEST_LINE + 2, 2 * LONGEST_LINE, 2 * LONGEST_LINE + 1, 300000):
        for line in of_length(length):
            assert len(line) == length
            yield line
            yield "u8.wrapping_add 200 100"


def binary(draw, size):
    return draw.randbytes(size).decode("latin-1")


def questions(draw, whole):
    yield from of_lines(draw, whole, 60000)
    yield from of_names(draw)
    yield from of_words(draw)
