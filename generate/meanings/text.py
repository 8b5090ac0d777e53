"""Text: UTF-8 as RFC 3629 has it, worked out by Python's own codec."""

WHITE_SPACE = {*range(0x9, 0xE), 0x20, 0x85, 0xA0, 0x1680, *range(0x2000, 0x200B), 0x2028, 0x2029, 0x202F, 0x205F, 0x3000}


def decoded(s):
    try:
        return bytes(s).decode("utf-8")
    except UnicodeDecodeError:
        return None


def form(c):
    """A scalar value's bytes; None of another number."""
    return chr(c).encode() if c <= 0x10FFFF and not 0xD800 <= c <= 0xDFFF else None


def write(kind, out, at, c):
    if form(c) is None or at + len(form(c)) > len(out):
        return None
    out[at:at + len(form(c))] = form(c)
    return len(form(c))


def read(first):
    """The one scalar that some bytes at this end of the part are the form of."""

    def at_end(kind, s, start, end):
        if not start <= end <= len(s):
            return None
        part = s[start:end]
        for size in range(1, 1 + min(4, len(part))):
            text = decoded(part[:size] if first else part[-size:])
            if text is not None and len(text) == 1:
                return ord(text), size
        return None

    return at_end


def boundary(s, at):
    return decoded(s[:at]) is not None and at <= len(s)


MEANINGS = {
    "scalar_len": lambda kind, c: len(form(c)) if form(c) else None,
    "is_white_space": lambda kind, c: c in WHITE_SPACE,
    "write": write,
    "read_first": read(True),
    "read_last": read(False),
    "valid": lambda kind, s: decoded(s) is not None,
    "valid_up_to": lambda kind, s: max(length for length in range(len(s) + 1) if decoded(s[:length]) is not None),
    "count": lambda kind, s: None if decoded(s) is None else len(decoded(s)),
    "is_boundary": lambda kind, s, at: None if decoded(s) is None else boundary(s, at),
    "split_at": lambda kind, s, at: (at, len(s)) if decoded(s) is not None and boundary(s, at) else None,
    "is_ascii": lambda kind, s: all(byte < 0x80 for byte in s),
}
meaning = MEANINGS.get
