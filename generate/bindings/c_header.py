"""bindings/c/promisebook.h: a declaration of every export, with its promise. The version is that of the file VERSION, the stack that of docs/STACK.md."""
import os
import re
import textwrap

from bindings.cited import citation
from bindings.words import about, about_struct
from declared import SLICE, grouped
from kinds import BY_NAME
from templates import CRATES, filled_file, read

WIDTH = 120
ROOT = os.path.dirname(CRATES)


def c_type(name):
    if name == "bool":
        return name
    kind = BY_NAME[name]
    if kind.width.is_size:
        return {"unsigned": "size_t", "signed": "ptrdiff_t"}[kind.sign]
    return "%sint%d_t" % ("u" if kind.sign == "unsigned" else "", kind.bits)


def struct_name(group, struct):
    if struct.value:
        return "pb_answer_" + struct.value
    return "pb_" + re.sub(r"(?<!^)(?=[A-Z])", "_", struct.name).lower()


def answer_type(export):
    return c_type(export.answer) if isinstance(export.answer, str) else struct_name(export.group, export.answer)


def comment(*paragraphs):
    return "/* %s */\n" % "\n   ".join(textwrap.fill(text, WIDTH - 6, subsequent_indent="   ", break_on_hyphens=False) for text in paragraphs)


def parameter(name, written):
    match = SLICE.fullmatch(written)
    if not match:
        return "%s %s" % (c_type(written), name)
    return "%s%s *%s, size_t %s_len" % ("" if match.group(1) else "const ", c_type(match.group(2)), name, name)


def declaration(export):
    begin, parameters = "%s %s(" % (answer_type(export), export.symbol), [parameter(*pair) for pair in export.parameters]
    line = begin + (", ".join(parameters) or "void") + ");\n"
    return line if len(line) <= WIDTH else begin + "\n    " + ", ".join(parameters) + ");\n"


def structs(found):
    made = {}
    for export in found:
        if isinstance(export.answer, str):
            continue
        name = struct_name(export.group, export.answer)
        fields = " ".join("%s %s;" % (c_type(kind), field) for field, kind in export.answer.fields)
        text = "typedef struct {\n    %s\n} %s;\n" % (fields.replace("; ", ";\n    "), name)
        if not export.answer.value:
            text = comment(about_struct(export.group, export.answer)) + text
        if made.setdefault(name, text) != text or name in {other.symbol for other in found}:
            raise SystemExit("%s: the name %s has two meanings in C" % (export.symbol, name))
    return "\n".join(made.values())


def macros():
    """The version, and the most stack that a call takes: the table's first row."""
    version = read(os.path.join(ROOT, "VERSION")).strip()
    parts = dict(zip(("MAJOR", "MINOR", "PATCH"), version.split("."), strict=True))
    most = re.search(r"^\|---\|---\|\n\| (\d+) \|", read(os.path.join(ROOT, "docs", "STACK.md")), re.M).group(1)
    lines = ["#define PB_VERSION_%s %s\n" % part for part in parts.items()] + ['#define PB_VERSION "%s"\n' % version, "\n", "#define PB_STACK_BYTES %s\n" % most]
    return "".join(lines)


def header(found):
    groups = []
    for group, exported in grouped(found).items():
        functions = "\n".join(comment(export.sentence, citation(export)) + declaration(export) for export in exported)
        groups.append("/* ---- %s\n" % comment(about(group))[3:] + functions)
    return filled_file("bindings/promisebook.h.in", MACROS=macros(), STRUCTS=structs(found), FUNCTIONS="\n".join(groups))
