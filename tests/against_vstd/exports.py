"""What the exports about text answer (docs/ASK.md), by vstd's definitions: where a promise here is made of several of them."""
import arguments
from checks import Export, answer

ROOM = 4


def exports(library):
    def definition(name):
        return library.value(library.keyed["utf8 " + name])

    valid, scalars, boundary, ascii = map(definition, ("valid_utf8", "decode_utf8", "is_char_boundary", "is_ascii_chars"))
    first_valid, first, first_length = map(definition, ("valid_first_scalar", "decode_first_scalar", "length_of_first_scalar"))
    last, last_length, is_scalar, form = map(definition, ("decode_last_scalar", "length_of_last_scalar", "is_scalar", "encode_scalar"))

    def read_first(text):
        return "%d %d" % (first(text), first_length(text)) if first_valid(text) else "refused"

    def read_last(text):
        """vstd says it of valid text alone; ours answers for more."""
        return "%d %d" % (last(text), last_length(text)) if text and valid(text) else None

    def split(text, at):
        return "0 %d %d" % (at, len(text)) if valid(text) and boundary(text, at) else "refused"

    def written(code):
        return answer(form(code) + (0,) * (ROOM - len(form(code)))) if is_scalar(code) else "refused"

    strings = lambda: ((text,) for text in arguments.byte_strings())
    parts = lambda: ((text, 0, len(text)) for text in arguments.byte_strings())
    placed = lambda: ((text, at) for text in arguments.some_byte_strings() for at in arguments.places(text) if at >= 0)
    codes = lambda: ((code,) for code in arguments.codes())
    return [Export(library.keyed["utf8 " + name], *rest) for name, *rest in (
        ("valid_utf8", "text.valid {0}", lambda text: answer(valid(text)), strings),
        ("decode_utf8", "text.count {0}", lambda text: answer(len(scalars(text))) if valid(text) else "refused", strings),
        ("is_char_boundary", "text.is_boundary {0} {1}", lambda text, at: answer(boundary(text, at)) if valid(text) else "refused", placed),
        ("valid_utf8_split", "text.split_at {0} {1}", split, placed),
        ("decode_first_scalar", "text.read_first {0} {1} {2}", lambda text, *_: read_first(text), parts),
        ("decode_last_scalar", "text.read_last {0} {1} {2}", lambda text, *_: read_last(text), parts),
        ("is_ascii_chars", "text.is_ascii {0}", lambda text: answer(ascii(text)), strings),
        ("encode_scalar", "text.write %s 0 {0}" % ("00" * ROOM), written, codes),
        ("is_scalar", "text.scalar_len {0}", lambda code: answer(len(form(code))) if is_scalar(code) else "refused", codes),
    )]
