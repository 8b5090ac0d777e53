"""The crate integers: what the traits Unsigned and Signed say of each type, the same text for every width."""
import os

from templates import CRATES, SIGNS, TEMPLATES, WIDTHS, filled, proofs, read, type_name, words

FOLDER = os.path.join(TEMPLATES, "integers")


def in_64_bits(width):
    """How a number goes to 64 bits and back, and is multiplied there: as it is, by a cast, or where it fits. Of 64 bits the product goes by halves."""
    if width.has_wider:
        return {
            "AS_U64": "self as u64",
            "TRUNCATED": "(n % SIZE) as UINT",
            "FROM_U64": "if n < SIZE { Some(n as UINT) } else { None }",
            "TIMES": "((self as u64) * (other as u64) % SIZE) as UINT",
        }
    to, back = (" as u64", " as UINT") if width.is_size else ("", "")
    return {
        "AS_U64": "self" + to,
        "TRUNCATED": "n" + back,
        "FROM_U64": "Some(n%s)" % back,
        "TIMES": "crate::halves::product(self%s, other%s)%s" % (to, to, back),
    }


def files():
    for width in WIDTHS:
        for sign in SIGNS:
            integer = type_name(sign, width)
            source = read(os.path.join(FOLDER, sign + ".rt.in"))
            for word, text in in_64_bits(width).items():
                source = source.replace(word, text)
            yield os.path.join(CRATES, "integers", "src", integer + ".rt"), filled(source, words(width))
            of_trait = integer.capitalize() + sign.capitalize()
            for method, file, text in proofs(os.path.join(FOLDER, "proofs", sign), width):
                yield os.path.join(CRATES, "integers", "proofs", integer, of_trait, method, file), filled(text, {**words(width), "TYPE": of_trait})
