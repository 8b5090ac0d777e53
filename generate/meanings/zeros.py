"""Zeros and ones, read off a number's digits as Python writes them."""


def run(digit, highest_first):
    """How many digits from one end on are this one."""

    def counted(kind, i):
        digits = format(i, "0%db" % kind.bits)
        digits = digits if highest_first else digits[::-1]
        return len(digits) - len(digits.lstrip(digit))

    return counted


MEANINGS = {
    "leading_zeros": run("0", True), "leading_ones": run("1", True), "trailing_zeros": run("0", False), "trailing_ones": run("1", False),
}
meaning = MEANINGS.get
