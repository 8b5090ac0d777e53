"""The kinds of integer, each a type with its sign and width, and the letters that stand for several of them in operations/*.txt."""
import functools
from dataclasses import dataclass

from templates import SIGNS, WIDTHS, Width, type_name, words


@dataclass(frozen=True)
class Kind:
    """An integer type."""

    sign: str
    width: Width

    @property
    def name(self):
        return type_name(self.sign, self.width)

    @property
    def bits(self):
        return self.width.bits

    @property
    def other(self):
        """The type of the same width and the other sign."""
        return {"u": "i", "i": "u"}[self.name[0]] + self.name[1:]

    @property
    def least(self):
        return 0 if self.sign == "unsigned" else -(2 ** (self.bits - 1))

    @property
    def greatest(self):
        return 2**self.bits - 1 if self.sign == "unsigned" else 2 ** (self.bits - 1) - 1

    @property
    def half(self):
        """2 to half as many bits: its square is the first number that does not fit."""
        return 2 ** (self.bits // 2)

    @functools.lru_cache(None)
    def code_words(self):
        """What the words in capitals stand for."""
        return {
            **words(self.width),
            "BYTES": str(self.bits // 8),
            "LAST": str(self.bits // 8 - 1),
            "TYPE": self.name,
            "SIGN": self.sign.capitalize(),
            "LETTER": self.name[0],
            "TITLE": "the size type" if self.width.is_size else "%d bits" % self.bits,
        }

    def sentence_words(self):
        """What the words in braces stand for, in sentences."""
        return {
            "type": self.name,
            "sign": self.sign,
            "bits": self.bits,
            "bytes": self.bits // 8,
            "least": self.least,
            "greatest": self.greatest,
            "wrapped": "wrapped: the %s number of %d bits that differs from it by a multiple of 2^%d" % (self.sign, self.bits, self.bits),
            "fitting": "Refused where it is not from %d to %d" % (self.least, self.greatest),
            "divided": "Refused where `y` is 0" + (
                ", and where `x` is %d and `y` is -1, since the quotient does not fit" % self.least if self.sign == "signed" else ""
            ),
        }


KINDS = [Kind(sign, width) for sign in SIGNS for width in WIDTHS]
BY_NAME = {kind.name: kind for kind in KINDS}
LETTERS = {
    "T": [kind for kind in KINDS if kind.sign == "unsigned"],
    "S": [kind for kind in KINDS if kind.sign == "signed"],
    "U": [kind for kind in KINDS if kind.sign == "unsigned" and kind.width.has_zeros],
    "W": [kind for kind in KINDS if kind.sign == "unsigned" and kind.width.has_bytes],
}
