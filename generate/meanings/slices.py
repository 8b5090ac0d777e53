"""Slices of bytes: of the part from start up to and without end, by Python's own slices."""


def of_part(answer):
    """A meaning that refuses where there is no such part; the answer is of the part and the further arguments."""

    def of_slice(kind, s, start, end, *rest):
        return answer(s[start:end], *rest) if start <= end <= len(s) else None

    return of_slice


def of_places(answer):
    """The same where places are answered: the answer is of the part's two ends and the further arguments."""

    def of_slice(kind, s, start, end, *rest):
        return answer(start, end, *rest) if start <= end <= len(s) else None

    return of_slice


def changed(replacement):
    """A meaning that writes: the replacement is (at, bytes) for the slice's content and the further arguments, or None."""

    def of_slice(kind, s, start, end, *rest):
        if not start <= end <= len(s):
            return None
        new = replacement(bytes(s), start, end, *rest)
        if new is None or new[0] + len(new[1]) > len(s):
            return None
        s[new[0]:new[0] + len(new[1])] = new[1]
        return True

    return of_slice


MEANINGS = {
    "len": of_part(len),
    "is_empty": of_part(lambda p: not p),
    "get": of_part(lambda p, i: p[i] if i < len(p) else None),
    "first": of_part(lambda p: p[0] if p else None),
    "last": of_part(lambda p: p[-1] if p else None),
    "sub_range": of_places(lambda start, end, a, e: (start + a, start + e) if a <= e <= end - start else None),
    "split_at": of_places(lambda start, end, m: (start, start + m, end) if m <= end - start else None),
    "split_first": lambda kind, s, start, end: (s[start], start + 1, end) if start < end <= len(s) else None,
    "next_piece": of_places(lambda start, end, n: (start, min(start + n, end)) if start < end and n else None),
    "starts_with": of_part(bytes.startswith),
    "ends_with": of_part(bytes.endswith),
    "contains": of_part(lambda p, v: v in p),
    "equal": of_part(lambda p, other: p == other),
    "set": changed(lambda s, start, end, i, v: (start + i, bytes([v])) if i < end - start else None),
    "reverse": changed(lambda s, start, end: (start, s[start:end][::-1])),
    "copy_from": changed(lambda s, start, end, other: (start, other) if len(other) == end - start else None),
    "copy_within": changed(lambda s, start, end, at: (at, s[start:end])),
}
meaning = MEANINGS.get
