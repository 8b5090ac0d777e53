"""What every generator shares: the widths, the words that templates have in capitals, and filling them in."""
import os
import re
from dataclasses import dataclass

HERE = os.path.dirname(os.path.abspath(__file__))
CRATES = os.path.join(os.path.dirname(HERE), "crates")
TEMPLATES = os.path.join(HERE, "templates")

SIGNS = ["unsigned", "signed"]


@dataclass(frozen=True)
class Width:
    """A width of integers: its names, its bits, and what a generator must know of it. No generator tests the bits.

    One of 128 bits, for which the language has no type, is one record more:
        Width("128", "128", 128, of_halves=True, has_zeros=True, has_bytes=True)
    and NAME.halves.rt.in stands in for the templates that differ there."""

    crate: str  # its name in a crate: unsigned_size_sums
    suffix: str  # that of its types: usize
    bits: int
    has_wider: bool = False  # 64 bits are more: there a sum, a difference and a product of two such numbers fit
    is_distance: bool = False  # the distance of a shift is such a number, so that the language asks for no cast
    is_size: bool = False  # the size type
    of_halves: bool = False  # such a number is two of half its bits
    has_zeros: bool = False  # its zeros and ones are counted
    has_bytes: bool = False  # such a number is made of bytes and written as bytes
    all_pairs: bool = False  # it has so few numbers that every pair of them is tried, and not its edges alone

    def variants(self):
        """The variants of a template that serve this width, the closest first."""
        serves = {
            "distance": self.is_distance,
            "halves": self.of_halves,
            "narrow": self.has_wider,
            "wide": not self.has_wider and not self.of_halves,
            "": True,
        }
        return [variant for variant in serves if serves[variant]]


WIDTHS = [
    Width("8", "8", 8, has_wider=True, has_zeros=True, all_pairs=True),
    Width("16", "16", 16, has_wider=True, has_zeros=True, has_bytes=True),
    Width("32", "32", 32, has_wider=True, is_distance=True, has_zeros=True, has_bytes=True),
    Width("64", "64", 64, has_zeros=True, has_bytes=True),
    Width("_size", "size", 64, is_size=True),
]


def type_name(sign, width):
    return {"unsigned": "u", "signed": "i"}[sign] + width.suffix


def words(width):
    return {
        "UINT": "u" + width.suffix,
        "INT": "i" + width.suffix,
        "WIDTH": str(width.bits),
        "SIZE": str(2**width.bits),
        "GREATEST": str(2**width.bits - 1),
        "HALF": str(2 ** (width.bits - 1)),
        "TOP": str(2 ** (width.bits - 1) - 1),
        "MACHINE": "w%d" % width.bits,
    }


# The files of a function's proof, each with the ending of its templates.
PROOF = {"Invariants.antt": "invariants.antt", "Answers.antt": "answers.antt"}


def templates(folder, width, ending="rt"):
    """The templates of a folder at a width: the text for each name, without variant and ending."""
    variants, chosen = width.variants(), {}
    for file in sorted(os.listdir(folder)):
        match = re.fullmatch(r"(\w+)\.(?:(\w+)\.)?%s\.in" % re.escape(ending), file)
        if not match or (match.group(2) or "") not in variants:
            continue
        name, closeness = match.group(1), variants.index(match.group(2) or "")
        if name not in chosen or closeness < chosen[name][0]:
            chosen[name] = (closeness, os.path.join(folder, file))
    return {name: read(path) for name, (_, path) in chosen.items()}


def proofs(folder, width):
    """The templates of proofs at a width: each one's name, the file that it makes, and its text. A function that has none is proved without."""
    for file, ending in PROOF.items() if os.path.isdir(folder) else []:
        for name, text in templates(folder, width, ending).items():
            yield name, file, text


def read(path):
    with open(path, encoding="utf-8") as file:
        return file.read()


def filled(text, table):
    """Each word by what stands for it: pb_UINT_eq and END_UINT hold words, and CHECKED_ADD_SIGNED, a name in capitals of its own, holds none. A goal's name
    may end in a word, as gtHALF."""

    def part_filled(part):
        lead, word = re.fullmatch(r"([a-z]*)(.*)", part).groups()
        return lead + table[word] if word in table else part

    def replaced(match):
        parts = match.group().split("_")
        if match.group().isupper() and not all(part in table for part in parts):
            return match.group()
        return "_".join(map(part_filled, parts))

    return laid_out(re.sub(r"[A-Za-z0-9_]+", replaced, text))


def function_name(template, table):
    """The function that a proof's template is of: the template's name, each word filled."""
    name = filled(template, table)
    left = [part for part in name.split("_") if part.isupper()]
    if left:
        raise SystemExit("generate: no table has the word %s, in the name of the template %s" % (", ".join(left), template))
    return name


def laid_out(text):
    """What the formatter decides by columns, which depends on the width's names: an if stands on one line where that takes at most 50, and a function's
    parameters on lines of their own where one line takes more than 100."""

    def joined(match):
        line = "if %s { %s } else { %s }" % match.group(2, 3, 4)
        return match.group(1) + line + "\n" if len(line) <= 50 else match.group(0)

    def broken(match):
        name, parameters, answer = match.groups()
        return match.group(0) if len(match.group(0)) <= 100 else "%s(\n    %s,\n) -> %s" % (name, parameters.replace(", ", ",\n    "), answer)

    text = re.sub(r"^( +)if (.*) \{\n +([^;{}\n]*)\n\1\} else \{\n +([^;{}\n]*)\n\1\}\n", joined, text, flags=re.M)
    return re.sub(r"^(pub (?:extern \"C\" )?fn \w+)\((.*)\) -> (.*)$", broken, text, flags=re.M)


def filled_file(name, **parts):
    """A template whose lines of one word in capitals stand for whole parts."""
    text = read(os.path.join(TEMPLATES, name))
    for word, part in parts.items():
        assert word + "\n" in text, (name, word)
        text = text.replace(word + "\n", part)
    return text
