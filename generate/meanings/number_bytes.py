"""The bytes of a number, by Python's own conversions; and the bytes that the cases name."""


def number_of(order):
    return lambda kind, s: int.from_bytes(s, order, signed=kind.sign == "signed") if len(s) == kind.bits // 8 else None


def written_into(order):
    def changed(kind, x, s, at):
        size = kind.bits // 8
        if at + size > len(s):
            return None
        s[at:at + size] = x.to_bytes(size, order, signed=kind.sign == "signed")
        return True

    return changed


MEANINGS = {
    "from_le_bytes": number_of("little"), "from_be_bytes": number_of("big"), "to_le_bytes": written_into("little"), "to_be_bytes": written_into("big"),
}
meaning = MEANINGS.get


# ---- bytes in cases: of 0x0102030405060708 and its ends, and room for them

def highest_first(kind):
    return bytes(range(1, kind.bits // 8 + 1))


def lowest_first(kind):
    return highest_first(kind)[::-1]


def room(kind):
    return bytes(kind.bits // 8 + 1)
