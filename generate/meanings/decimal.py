"""Decimal text: what Python's own integers say of it, with only the signs that are read; and the cases."""
import re

SIGNED, UNSIGNED = re.compile(rb"-?[0-9]+"), re.compile(rb"[0-9]+")


def says_a_number(kind, part):
    return bool((SIGNED if kind.sign == "signed" else UNSIGNED).fullmatch(part))


def read(kind, s, start, end):
    part = s[start:end] if start <= end <= len(s) else b""
    return int(part) if says_a_number(kind, part) and kind.least <= int(part) <= kind.greatest else None


def refusal(kind, s):
    """Why it is refused."""
    return "TooLarge" if says_a_number(kind, s) else "NoNumber"


def write(kind, x, s, at):
    text = str(x).encode()
    if at + len(text) > len(s):
        return None
    s[at:at + len(text)] = text
    return len(text)


MEANINGS = {"read_decimal": read, "write_decimal": write}
meaning = MEANINGS.get


# ---- cases

def texts(k):
    """Both ends and the numbers past them, zeros in front, signs, no figure at all, and parts of a longer text."""
    ends = [k.greatest, k.greatest + 1, k.least, k.least - 1]
    whole = [str(number).encode() for number in ends] + [b"007", b"-0", b"+5", b"-", b""]
    return [(text, 0, len(text)) for text in whole] + [(b"n=42;", 2, 4), (b"n=42;", 1, 4), (b"n=42;", 2, 6), (b"n=42;", 4, 2)]


def numbers(k):
    """Both ends with a byte left on either side, numbers that fill the room or its end, and numbers for which there is one byte too few, or none."""
    ends = [(number, b"." * (len(str(number)) + 2), 1) for number in (k.greatest, k.least)]
    return ends + [(10, b"..", 0), (0, b"...", 2), (k.greatest, b"." * len(str(k.greatest)), 1), (10, b".", 0), (7, b".", 2)]
