"""What the specifications are tried at: for each function of the crate, arguments by the types and names of its parameters."""
import itertools

from specifications import ROOT  # noqa: F401  (puts tests/against_vstd on the path)
import arguments as of_vstd

TEXTS = [bytes.fromhex(text) for text in of_vstd.WORKED]
SHORT = [bytes(each) for length in range(4) for each in itertools.product((0, 1, 255), repeat=length)]
PAIRS = [bytes(pair) for pair in itertools.product(of_vstd.FEW_BYTES, repeat=2)]
SCALARS = sorted({*of_vstd.SCALAR_EDGES, *of_vstd.OTHER_CODES})
MOST = 2**64 - 1


def decimal_texts(kind):
    """Both ends and the numbers past them, zeros in front, signs, and what says no number."""
    numbers = [0, 7, 10, kind.greatest, kind.greatest + 1, 10 * kind.greatest, kind.least, kind.least - 1, -7]
    return [str(number).encode() for number in numbers] + [b"", b"-", b"--1", b"+5", b"007", b"-0", b"-007", b"0" * 30 + b"1", b"12a", b"a", b"1-2", b":", b"/"]


def slices(function):
    family = function.operation.family.name
    if family == "text":
        return TEXTS + PAIRS[::4] + [b""]
    if family == "decimal":
        return decimal_texts(function.kind) if not function.is_lent else [b"." * length for length in (0, 1, 2, 3, 5, 21, 22)]
    if family == "number_bytes":
        size = function.kind.bits // 8
        lengths = (0, size - 1, size, size + 1)
        return [bytes(each) for length in lengths for each in ([0] * length, [255] * length, range(1, length + 1), range(256 - length, 256))]
    return SHORT + [bytes(range(10, 16))]


def parts(s):
    """All parts of a short slice, some of a longer one, and pairs that are no part."""
    length = len(s)
    if length <= 4:
        return list(itertools.product(range(length + 2), repeat=2))
    return [(0, length), (1, length), (0, length - 1), (1, length - 1), (length, length), (1, length + 1), (2, 1), (MOST, 0), (0, MOST)]


def numbers(function, name, kind, s):
    if s is None or kind not in ("usize",):
        if kind == "u32" and function.group == "text":
            return SCALARS
        if kind == "u32" and name == "rhs":
            return of_vstd.distances(function.kind.bits)[::3]
        if kind == "u8" and function.operation.family.name == "slices":
            return sorted({0, 1, 11, *s[:1]})
        found = of_vstd.edges(kind)
        return found if s is None else found[:: max(1, len(found) // 12)] + found[-1:]
    if function.operation.family.name == "decimal":
        return of_vstd.edges(kind)[::4]
    length = len(s)
    return sorted({0, 1, 2, length // 2, max(length - 1, 0), length, length + 1, MOST})


def other_slices(s):
    return [b"", s[:1], s[-1:], s, s + b"\0", s[:-1] + b"\x07", s[::-1]]


def of(function):
    """Lists of arguments."""
    names = dict(function.parameters)
    if not any(kind.startswith("&") for kind in names.values()):
        choices = [numbers(function, name, kind, None) for name, kind in function.parameters]
        if function.kind and function.kind.bits == 8:
            choices[0] = range(function.kind.least, function.kind.greatest + 1)
        yield from itertools.product(*choices)
        return
    for s in slices(function):
        for part in parts(s) if "part" in names else [(0, len(s))]:
            inner = s[part[0]:part[1]] if part[0] <= part[1] <= len(s) else b"\x01\x02"
            choices = []
            for name, kind in function.parameters:
                if name == function.slice[0]:
                    choices.append([s])
                elif name == "part":
                    choices.append([part])
                elif name == "range":
                    choices.append(list(itertools.product(range(len(inner) + 2), repeat=2)) if len(s) < 4 else parts(inner))
                else:
                    choices.append(other_slices(inner) if kind.startswith("&") else numbers(function, name, kind, inner))
            yield from itertools.product(*choices)
