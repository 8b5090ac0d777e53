#!/usr/bin/env python3
"""Counts the places in crates/*/src and crates/*/proofs that are written in an older way than the language has today: eight points, each in all and by layer
(crates.txt says which crates a layer has). docs/DESIGN-PASS.md says what was found so, and what became of it.

    python3 docs/count_places.py [FOLDER]              the counts, of the repository or of another checkout
    python3 docs/count_places.py [FOLDER] --places     the counts, and under each its places by crate
    python3 docs/count_places.py [FOLDER] --point 3    one point, with its places

A place is told by the text alone, by the rule that stands in its line: what a rule finds is to be looked at, and is not always to be changed. Comments and what
stands in strings count nowhere. An exported function (extern "C") is the C interface and is counted apart."""
import collections
import functools
import glob
import os
import re
import sys
from dataclasses import dataclass, field

INTEGERS = "u8 u16 u32 u64 u128 usize i8 i16 i32 i64 i128 isize".split()
INTEGER = "(?:%s)" % "|".join(INTEGERS)
LAYERS = "theory operations promises faces programs linked measured other".split()
OPEN, CLOSE = "([{", ")]}"


# ---- reading a text

def blanked(text):
    """The text without comments, and then without the contents of strings and characters, each as long as the text."""
    plain, code, at = [], [], 0
    token = re.compile(r"//[^\n]*|/\*.*?\*/|b?\"(?:\\.|[^\"\\])*\"|b?'(?:\\[^']+|[^'\\\n])'", re.S)
    for match in token.finditer(text):
        word = match.group()
        if word.startswith("/"):
            kept = hidden = re.sub(r"[^\n]", " ", word)
        else:
            start = 2 if word.startswith("b") else 1
            kept, hidden = word, word if word == '"C"' else word[:start] + re.sub(r"[^\n]", "_", word[start:-1]) + word[-1]
        plain += text[at : match.start()], kept
        code += text[at : match.start()], hidden
        at = match.end()
    return "".join(plain) + text[at:], "".join(code) + text[at:]


def closed(code, at):
    """The place of the bracket that closes the one at a place."""
    depth = 0
    for place in range(at, len(code)):
        depth += (code[place] in OPEN) - (code[place] in CLOSE)
        if depth == 0:
            return place
    raise SystemExit("a bracket is not closed: " + code[at : at + 80])


def angle(code, at):
    """1 where an angle bracket opens at a place, -1 where one closes, else 0."""
    return (code[at] == "<") - (code[at] == ">" and code[at - 1] not in "-=")


def behind_angle(code, at):
    """The place behind the angle bracket that closes the one at a place."""
    depth = 0
    for place in range(at, len(code)):
        depth += angle(code, place)
        if depth == 0:
            return place + 1
    raise SystemExit("an angle bracket is not closed: " + code[at : at + 80])


def cut(text, mark):
    """The parts of a text between marks that stand in no bracket; between commas, in no angle bracket either."""
    parts, depth, start = [], 0, 0
    for place, letter in enumerate(text):
        depth += (letter in OPEN) - (letter in CLOSE) + (angle(text, place) if mark == "," else 0)
        if depth == 0 and text.startswith(mark, place):
            parts.append(text[start:place])
            start = place + len(mark)
    return [part.strip() for part in parts + [text[start:]] if part.strip()]


def on_one_line(text):
    return " ".join(text.split())


def spread(path):
    """The paths that one use brings in: a::{b, c::d} gives a::b and a::c::d."""
    group = re.match(r"(.*?)\{(.*)\}$", path)
    return [one for part in cut(group.group(2), ",") for one in spread(group.group(1) + part)] if group else [path]


# ---- reading the source

@dataclass(eq=False)
class Function:
    """One function: where it stands, what it takes and answers, its clauses and its body."""

    source: "Source"
    name: str
    at: int
    exported: bool
    comment: str
    trait: str  # the one whose impl, or whose declaration, it stands in
    parameters: list = field(default_factory=list)  # (name, type), without self and ghosts
    answer: str = ""
    requires: list = field(default_factory=list)
    ensures: list = field(default_factory=list)
    head: str = ""  # its name and parameters, as they are written
    body: str = ""  # without what stands in strings
    start: int = 0
    end: int = 0

    @property
    def crate(self):
        return self.source.crate

    @property
    def plain_body(self):
        return self.source.plain[self.start : self.end]

    def place(self, at):
        return "%s:%d %s" % (os.path.basename(self.source.path), self.source.text.count("\n", 0, at) + 1, self.name)


class Source:
    """A file: its text without comments (plain), the same without what stands in strings (code), and its functions."""

    def __init__(self, path):
        self.path, self.crate, self.text = path, path.split(os.sep)[1], read(path)
        self.plain, self.code = blanked(self.text)
        self.uses = {}  # what a name that the file brings in stands for, as a path
        for path in re.findall(r"^(?:pub )?use ([^;]+);", self.code, re.M):
            for one in spread(on_one_line(path)):
                full, _, alias = one.partition(" as ")
                self.uses[alias or full.split("::")[-1]] = full
        self.functions = list(self.read_functions())

    def comment_before(self, at):
        """The lines of comment and attributes right above a line."""
        lines = self.text[: self.text.rfind("\n", 0, at) + 1].split("\n")[:-1]
        found = []
        while lines and re.match(r"\s*(//|#\[)", lines[-1]):
            found.insert(0, lines.pop().strip())
        return "\n".join(found)

    def trait_at(self, at):
        for found in re.finditer(r"^(?:pub )?(?:impl(?:<[^>]*>)? (\S.*?) for [^{]+|trait (\w+)[^{]*)\{", self.code[:at], re.M):
            if closed(self.code, found.end() - 1) > at:
                return found.group(1) or found.group(2)
        return ""

    def read_functions(self):
        code = self.code
        for match in re.finditer(r"^ *(?:pub(?:\([a-z]+\))? )?(?:const )?(?:unsafe )?(extern \"[^\"]*\" )?fn (\w+)", code, re.M):
            start = match.start()
            function = Function(self, match.group(2), start, bool(match.group(1)), self.comment_before(start), self.trait_at(start))
            at = behind_angle(code, match.end()) if code[match.end()] == "<" else match.end()
            end = closed(code, at)
            function.head = self.plain[match.start(2) : end + 1]
            for parameter in cut(code[at + 1 : end], ","):
                name, colon, kind = on_one_line(parameter).partition(": ")
                if colon and not name.startswith("ghost"):
                    function.parameters.append((name.replace("mut ", "").lstrip("_"), kind))
            at, depth = end + 1, 0
            while depth or not (code[at] in "{;" or re.match(r"\b(requires|ensures|where)\b", code[at : at + 9])):
                depth += (code[at] in OPEN) - (code[at] in CLOSE)
                at += 1
            function.answer = on_one_line(code[end + 1 : at].replace("->", "", 1))
            while clause := re.compile(r"\s*(requires|ensures)(?: \w+)? \{").match(code, at):
                end = closed(code, clause.end() - 1)
                getattr(function, clause.group(1)).append(on_one_line(self.plain[clause.end() : end]))
                at = end + 1
            at = re.compile(r"[^{;]*").match(code, at).end()
            if code[at] == "{":
                function.start, function.end = at + 1, closed(code, at)
                function.body = code[function.start : function.end]
            yield function


def read(path):
    with open(path, encoding="utf-8") as file:
        return file.read()


# ---- the repository, or the checkout that is named

ROOT = os.path.dirname(os.path.dirname(os.path.abspath(__file__)))
POINT = int(sys.argv[sys.argv.index("--point") + 1]) if "--point" in sys.argv else None
WITH_PLACES = "--places" in sys.argv or POINT is not None
os.chdir(next(filter(os.path.isdir, sys.argv[1:]), ROOT))


def layers():
    """The layer of each crate, by the headings of crates.txt."""
    found, layer = {}, "other"
    for line in read("crates.txt").split("\n"):
        if line.startswith("#"):
            word = line[1:].replace("the ", "", 1).split(":")[0].strip()
            layer = word if word in LAYERS else "other"
        elif ":" in line:
            found[line.split(":")[0].split()[0]] = layer
    return found


LAYER = layers()
SOURCES = [Source(path) for path in sorted(glob.glob("crates/*/src/**/*.rt", recursive=True))]
CRATES = {source.crate for source in SOURCES}
MODULES = {crate: {name for source in SOURCES if source.crate == crate for name in re.findall(r"^(?:pub )?mod (\w+);", source.code, re.M)} for crate in CRATES}
ALL = [function for source in SOURCES for function in source.functions]
OWN = [function for function in ALL if not function.exported]
EXPORTS = [function for function in ALL if function.exported]


def type_named(source, path):
    """The crate and the name of the type that a path stands for in a file."""
    words = path.split("<")[0].split("::")
    words = source.uses.get(words[0], words[0]).split("::") + words[1:]
    own = words[0] not in CRATES or words[0] in MODULES[source.crate]
    return source.crate if own else words[0], words[-1]


def layer_of(crate):
    return LAYER.get(crate, "other")


# ---- printing

def in_order(crates):
    return sorted(crates, key=lambda crate: (LAYERS.index(layer_of(crate)), crate))


def total(title, crates):
    """How many crates are in a list that names a crate once for each place, and how many of them by layer."""
    by_layer = collections.Counter(map(layer_of, crates))
    layered = ", ".join("%s %d" % (layer, by_layer[layer]) for layer in LAYERS if by_layer[layer])
    print("%s: %d%s" % (title, len(crates), " (%s)" % layered if layered else ""))


def report(title, places):
    """A count, and its places (crate, text) by crate; crates that have the same places share a line."""
    total(title, [crate for crate, _ in places])
    if not WITH_PLACES:
        return
    by_crate = collections.defaultdict(list)
    for crate, text in places:
        by_crate[crate].append(text)
    alike = collections.defaultdict(list)
    for crate in in_order(by_crate):
        texts = collections.Counter(by_crate[crate])
        alike[len(by_crate[crate]), "; ".join(text + (" x%d" % count if count > 1 else "") for text, count in texts.items())].append(crate)
    for (count, texts), crates in alike.items():
        print("    %s (%d%s): %s" % (" ".join(crates), count, " each" if len(crates) > 1 else "", texts))


def report_numbers(title, numbers):
    """A sum of numbers (crate, number), and how many each crate has."""
    by_crate = collections.Counter()
    for crate, number in numbers:
        by_crate[crate] += number
    total(title, list(by_crate.elements()))
    if WITH_PLACES and sum(by_crate.values()):
        print("    " + ", ".join("%s %d" % (crate, by_crate[crate]) for crate in in_order(by_crate) if by_crate[crate]))


def report_often(title, counted, least=3):
    """How many of the things that were counted stand in so many functions or more, and each with its count."""
    often = sorted(((count, text) for text, count in counted.items() if count >= least), key=lambda pair: (-pair[0], pair[1]))
    print("%s: %d (standing in %d)" % (title, len(often), sum(count for count, _ in often)))
    for count, text in often if WITH_PLACES else []:
        print("    %d: %s" % (count, text))


def functions(title, test, among=None):
    report(title, [(function.crate, function.name) for function in (OWN if among is None else among) if test(function)])


def found_in_code(title, pattern):
    report_numbers(title, [(source.crate, len(re.findall(pattern, source.code))) for source in SOURCES])


def found_in_bodies(title, pattern):
    report_numbers(title, [(function.crate, len(re.findall(pattern, function.body))) for function in ALL])


# ---- what stands in the source

@dataclass
class Struct:
    source: Source
    name: str
    fields: list  # (name, type)
    for_c: bool  # C lays it out

    @property
    def place(self):
        return self.source.crate, self.name

    @property
    def spelled(self):
        return "%s {%s}" % (self.name, ", ".join("%s: %s" % one for one in self.fields))


@functools.cache
def structs():
    """Every struct with named fields."""
    found = []
    for source in SOURCES:
        for match in re.finditer(r"^(?:pub )?struct (\w+)(?:<[^{;(]*>)? \{", source.code, re.M):
            body = source.code[match.end() : closed(source.code, match.end() - 1)]
            fields = [tuple(re.sub(r"^pub(\([a-z]+\))? ", "", on_one_line(one)).split(": ", 1)) for one in cut(body, ",")]
            found.append(Struct(source, match.group(1), [one for one in fields if len(one) == 2], "repr(C)" in source.comment_before(match.start())))
    return found


@functools.cache
def enums():
    """Every enum: its source, its name and its variants."""
    found = []
    for source in SOURCES:
        for match in re.finditer(r"^(?:pub )?enum (\w+)(?:<[^{]*>)? \{", source.code, re.M):
            body = source.code[match.end() : closed(source.code, match.end() - 1)]
            found.append((source, match.group(1), [re.match(r"(?:#\[[^\]]*\]\s*)*(\w+)", variant).group(1) for variant in cut(body, ",")]))
    return found


def constants():
    """Every constant that is one integer: its source, its name and its value."""
    form = re.compile(r"^\s*(?:pub )?const (\w+): %s = ([^;]+);" % INTEGER, re.M)
    return [(source, name, value) for source in SOURCES for name, value in form.findall(source.plain)]


def matches(function):
    """Every match of a function: what it is on, and its arms as (pattern, body)."""
    for found in re.finditer(r"\bmatch ([^{}]+?) \{", function.body):
        yield found.group(1), arms(function.plain_body[found.end() : closed(function.body, found.end() - 1)])


def arms(text):
    _, code = blanked(text)
    found, at = [], 0
    while "=>" in code[at:]:
        arrow = code.index("=>", at)
        pattern = on_one_line(text[at:arrow]).lstrip(", ")
        start = re.compile(r"\s*").match(code, arrow + 2).end()
        if code[start] == "{":
            at = closed(code, start) + 1
            body = text[start + 1 : at - 1]
        else:
            depth, at = 0, start
            while at < len(code) and (depth or code[at] != ","):
                depth += (code[at] in OPEN) - (code[at] in CLOSE)
                at += 1
            body = text[start:at]
        found.append((pattern, on_one_line(body)))
    return found


def alternatives(pattern):
    return [part.strip() for part in pattern.split("|")]


def is_constant(source, word):
    """Whether a pattern is a letter, or a constant and no variant of an enum."""
    return bool(re.match(r"(?:[a-z]\w*::)*[A-Z][A-Z0-9_]*$", source.uses.get(word, word)) or re.match(r"b'.*'$", word))


def is_code(source, pattern):
    """Whether a pattern is made of constants, numbers and letters alone."""
    number = re.compile(r"-?[0-9][0-9a-fx_]*$|\S+\.\.=\S+$")
    return all(is_constant(source, part) or number.match(part) for part in alternatives(pattern))


# ---- 0: size

def size():
    report_numbers("0 crates", [(crate, 1) for crate in CRATES])
    report_numbers("0 lines", [(source.crate, source.text.count("\n")) for source in SOURCES])
    report_numbers("0 own functions", [(function.crate, 1) for function in OWN])
    report_numbers("0 exports", [(function.crate, 1) for function in EXPORTS])


# ---- 1: flags and numbers for Option, Result and enums

STD_ENUMS = ("Equal Greater Less", "None Some", "Err Ok", "Excluded Included Unbounded")
SAYS_NONE = re.compile(r"\bNONE\b|\bNOTHING\b|\b0 (?:where(?! not)|past)\b|\bor 0\b|\bor the end\b|; 0 |of any other|: none at|stand nowhere")  # a comment
GIVES_NONE = re.compile(r"(?<![=!]= )(?<!:)\b(?:\w+::)*(?:NONE|NOTHING)\b(?! =>| \|)")
COMPARED = re.compile(r"(\b[A-Z][A-Z0-9_]+)\b(?!::| *[<({]) *[=!]=|[=!]= *(?:\w+::)*([A-Z][A-Z0-9_]+)\b(?!::)")


def answers():
    flags = [one for one in structs() if one.fields[:1] == [("ok", "bool")] and len(one.fields) > 1]
    named = {one.place for one in flags}

    def answers_one(function):
        return type_named(function.source, function.answer) in named

    report("1a structs with `ok: bool` first, laid out for C", [one.place for one in flags if one.for_c])
    report("1a structs with `ok: bool` first, others", [one.place for one in flags if not one.for_c])
    functions("1b functions that answer one of them (but for those of an impl From or Into)",
              lambda function: answers_one(function) and not function.trait.startswith(("From", "Into")))
    functions("1b exports that answer one of them", answers_one, EXPORTS)
    functions("1b functions that answer a tuple with a bool first", lambda function: function.answer.startswith("(bool,"))
    functions("1b functions that answer Option", lambda function: re.match(r"(\w+::)*Option<", function.answer))
    functions("1b functions that answer Result (but for io)", lambda function: function.answer.startswith("Result<"))
    functions("1b functions whose bare bool says done or refused",
              lambda function: function.answer == "bool" and re.search(r"\b(Outcome|Writes) result\b", " ".join(function.ensures)))
    found_in_code("1b refusals written out (`ok: false`)", r"\bok: false\b")
    found_in_code("1b answers written out (`ok: true`)", r"\bok: true\b")
    found_in_bodies("1b flags read in bodies (`.ok`)", r"\.ok\b(?!\()")


def codes():
    every = constants()
    by_function = [(function, [pattern for pattern, _ in found]) for function in ALL for _, found in matches(function)]
    words = [(function, word) for function, patterns in by_function for pattern in patterns for word in alternatives(pattern)]
    asked = {word.split("::")[-1] for function, word in words if is_constant(function.source, word)}
    asked.update(name for source in SOURCES for pair in COMPARED.findall(source.code) for name in pair)
    report("1c constants that are one integer", [(source.crate, name) for source, name, _ in every])
    report("1c of these, matched or compared as a code", [(source.crate, name) for source, name, _ in every if name in asked])
    report("1c constants named NONE or of the value 255",
           [(source.crate, "%s = %s" % (name, value)) for source, name, value in every if name == "NONE" or value in ("255", "u8::MAX")])
    integer = [function for function in OWN if function.answer in INTEGERS]
    saying = [function for function in integer if SAYS_NONE.search(function.comment) or GIVES_NONE.search(function.body)]
    functions("1c functions whose number may say 'none' (their comment says so, or they give a NONE)", lambda function: True, saying)
    functions("1c other functions that answer an integer and leave with `return 0`",
              lambda function: re.search(r"\breturn 0;", function.body) and function not in saying, integer)
    functions("1c functions that answer a truth as 0 or 1", lambda function: re.search(r"\{\s*[01]\s*\} else \{\s*[01]\s*\}", function.body), integer)
    counts = [(function, sum(any(is_constant(function.source, part) for part in alternatives(pattern)) for pattern in patterns))
              for function, patterns in by_function if not function.exported]
    counts = [(function, count) for function, count in counts if count]
    report("1c matches on constants or letters", [(function.crate, "%s %d" % (function.name, count)) for function, count in counts])
    report_numbers("1c arms of these with such a pattern", [(function.crate, count) for function, count in counts])
    functions("1c functions that take a kind or an operation as a number",
              lambda function: any(name in ("kind", "operation", "k", "o", "letter") and kind in ("u8", "u32") for name, kind in function.parameters))


def point_1():
    answers()
    codes()
    report("1d own enums", [(source.crate, "%s {%s}" % (name, ", ".join(variants))) for source, name, variants in enums()])
    report("1d of these, with the variants of one of std's",
           [(source.crate, name) for source, name, variants in enums() if " ".join(sorted(variants)) in STD_ENUMS])
    report("1d structs that are the two ends of a range, or a flag and the two",
           [one.place for one in structs() if [name for name, _ in one.fields if name != "ok"] == ["from", "to"]])


# ---- 2: twins

WORD = re.compile(r"[A-Za-z_]\w*|b?\"(?:\\.|[^\"\\])*\"|b?'(?:\\[^']+|[^'\\\n])'|[0-9][\w.]*|[^\s\w]")


def stripped(name):
    """A name without the widths and kinds in it."""
    parts = [re.sub(r"[UuIi]?(?:8|16|32|64|128|[Ss]ize)$", "", part) for part in name.split("_")]
    return "_".join(part for part in parts if part) or "_"


def normal(text):
    """The text with T for each type of integer, N for each number, and the names stripped of widths: twins are those that have the same."""

    def plain(word):
        if word in INTEGERS:
            return "T"
        if word[0].isdigit():
            return "N"
        return stripped(word) if word[0].isalpha() and word[-1] not in "\"'" else word

    line = re.sub(r", ([)\]}])", r"\1", " ".join(map(plain, WORD.findall(text))))
    return re.sub(r"=> \{ ([^{};]*) \}", r"=> \1 ,", line).replace(", }", "}")


def groups(members, text_of=lambda one: normal(one[2])):
    """The members (crate, name, text) that have the same text with another, together."""
    found = collections.defaultdict(list)
    for member in members:
        found[text_of(member)].append(member)
    return [group for group in found.values() if len(group) > 1]


def report_groups(title, found):
    """How many groups, by the layer of the first; how many members; and the names by the crates that have them."""
    total(title + ", groups", [group[0][0] for group in found])
    total(title + ", members", [member[0] for group in found for member in group])
    if not WITH_PLACES:
        return
    by_crates = collections.defaultdict(list)
    for group in found:
        crates = collections.Counter(member[0] for member in group)
        key = tuple(crate + (" x%d" % count if count > 1 else "") for crate, count in sorted(crates.items()))
        by_crates[key].append("/".join(sorted({stripped(member[1]) for member in group})))
    for key in sorted(by_crates, key=lambda key: (-len(by_crates[key]), key)):
        print("    %d in %s: %s" % (len(by_crates[key]), " ".join(key), ", ".join(by_crates[key])))


def written(found):
    """Functions as (crate, name, signature and body)."""
    return [(one.crate, one.name, one.head + " -> " + one.answer + " { " + one.plain_body + " }") for one in found if one.body]


def point_2():
    own = written(function for function in OWN if not function.trait)
    same = groups(own)
    in_groups = {id(one) for group in same for one in group}
    renamed = groups(own, lambda one: normal(one[2][len(one[1]) :]))
    report_groups("2 functions, but for those of traits", same)
    total("2 functions that are the second or later of their group", [member[0] for group in same for member in group[1:]])
    report_groups("2 functions of traits' impls", groups(written(function for function in OWN if function.trait)))
    report_groups("2 functions that differ in their name too", [group for group in renamed if any(id(one) not in in_groups for one in group)])
    report_groups("2 exports (the C interface)", groups(written(EXPORTS)))
    types = [(*one.place, "struct " + str(one.fields)) for one in structs()]
    types += [(source.crate, name, "enum " + str(variants)) for source, name, variants in enums()]
    report_groups("2 types", groups(types))
    constant = re.compile(r"^(?:pub )?const (\w+): ([A-Z][^;]+);", re.M)
    values = [(source.crate, name, text) for source in SOURCES for name, text in constant.findall(source.plain)]
    report_groups("2 constants of a type of our own", groups(values))


# ---- 3: loops

def loops(function):
    """Every `while` of a function: its place, its test, its body."""
    for found in re.finditer(r"\bwhile ([^{}]+?) \{", function.body):
        yield function.start + found.start(), on_one_line(found.group(1)), function.body[found.end() : closed(function.body, found.end() - 1)]


def steps(body):
    """What a loop's body does to its variables: (name, sign, amount), where the sign is `to` if it goes to the place behind one that was found, or by what a
    function says, and `call` if it goes to what a function says."""
    let = dict(re.findall(r"\blet (\w+) = ([^;]+);", body))
    found = []
    for name, sign, amount in re.findall(r"\b(\w+) ([-+/*%&|]|<<|>>)= ([^;=]+);", body):
        found.append((name, "to" if "(" in let.get(amount.strip(), "") else sign, amount.strip()))
    for name, value in re.findall(r"(?<!let )(?<!mut )(?<!\.)\b(\w+) = ([^;=]+);", body):
        value = let.get(value.strip(), value).strip()
        own = re.match(r"%s ([-+/*%%&|]|<<|>>) (.+)$" % name, value)
        if own:
            found.append((name, own.group(1), own.group(2)))
        elif re.match(r"\w+ \+ 1$", value):
            found.append((name, "to", value))
        elif re.match(r"(?:\w+::)*\w+\(", value) and re.search(r"\b%s\b" % name, value):
            found.append((name, "call", value))
    return found


def kind_of_loop(test, body):
    """found places: it goes on to a place that was found; elements: a number of the test goes by one, and stands in brackets or is held against a length;
    blocks: it goes by more; numbers: it goes by one otherwise; other: it is halved or shifted, or nothing of the test is stepped."""
    every = steps(body)
    tested = [step for step in every if re.search(r"\b%s\b" % step[0], test)]
    if any(sign == "to" for _, sign, _ in every) or any(sign == "call" for _, sign, _ in tested):
        return "found places"
    counted = [step for step in tested if step[1] in "+-"]
    if not counted or len(counted) < len(tested):
        return "other"
    if any(amount != "1" for _, _, amount in counted):
        return "blocks"
    return "elements" if ".len()" in test or re.search(r"\w\[[^\]]*\b%s\b[^\]]*\]" % counted[0][0], body) else "numbers"


def for_loops(function):
    """Every `for` of a function, by what it goes over."""
    for found in re.finditer(r"\bfor (\w+|\([^)]*\)) in ([^{}]+?) \{", function.body):
        body = function.body[found.end() : closed(function.body, found.end() - 1)]
        picks = re.search(r"\w\[%s\]" % re.escape(found.group(1)), body)
        yield "a slice or an iterator" if ".." not in found.group(2) else "a range that pick elements by its numbers" if picks else "a range, others"


def point_3():
    every = [(function, at, test, body) for function in ALL for at, test, body in loops(function)]
    total("3 while loops", [function.crate for function, _, _, _ in every])
    stepping = [function.crate for function, _, _, body in every if any(sign in ("+", "-", "to") for _, sign, _ in steps(body))]
    total("3 while loops that step a number by `+` or `-`", stepping)
    for kind in "elements", "blocks", "numbers", "found places", "other":
        report("3 while loops, " + kind,
               [(function.crate, "%s `%s`" % (function.place(at), test)) for function, at, test, body in every if kind_of_loop(test, body) == kind])
    for kind in "a range that pick elements by its numbers", "a range, others", "a slice or an iterator":
        report("3 for loops over " + kind, [(function.crate, function.name) for function in ALL for found in for_loops(function) if found == kind])
    found_in_bodies("3 calls of iterators' methods", r"\.(?:iter|iter_mut|chunks\w*|windows|enumerate|rev|fold|all|any|position|take_while|sum|count)\(")


# ---- 4: what derives and std's traits would write

COMPARES_ELEMENTS = re.compile(r"\w\[[^\]]*\] [=!]= \w|\bat\([^()]*(\([^()]*\)[^()]*)*\) [=!]= ")
SETS_ELEMENTS = re.compile(r"\b\w+\[[^\]]+\] = (?:\w+\[[^\]]+\]|[a-d];)")
RECKONS_WITH_DIGITS = re.compile(r"b'[0-9a-f]' ?[-+<]|[-+<]=? ?b'[0-9a-f]'")
A_WORD = re.compile(r"b?\"[a-z]+\"")
ONE_WRITTEN = r"\{\s*(?:\w+::)*\w+\([^()]*b?\"[a-z]+\"\)\??;?\s*\}"


def converts(function):
    one_expression = len(function.parameters) == 1 and function.answer and function.body and ";" not in function.body
    return one_expression and (" as " in function.body or re.match(r"(as|of|low|bit|one_if|number|order)(_|\d|$)", function.name))


def chooses_words(function):
    by_match = any(sum(A_WORD.search(body) is not None for _, body in found) >= 2 for _, found in matches(function))
    return by_match or re.search(r"if [^{}]+%s else %s" % (ONE_WRITTEN, ONE_WRITTEN), function.plain_body)


def point_4():
    own = {(source.crate, name) for source, name, variants in enums() if sorted(variants) == ["Equal", "Greater", "Less"]}
    functions("4 order: functions that answer an Ordering of our own", lambda function: type_named(function.source, function.answer) in own)
    functions("4 order: functions that take an Ordering of our own",
              lambda function: any(type_named(function.source, kind) in own for _, kind in function.parameters))
    functions("4 equality: functions that compare elements in a loop", lambda function: any(COMPARES_ELEMENTS.search(body) for _, _, body in loops(function)))
    functions("4 equality: functions that compare two or more fields", lambda function: len(re.findall(r"\.\w+ [=!]= ", function.body)) >= 2)
    functions("4 copying: functions that set elements from elements one by one", lambda function: SETS_ELEMENTS.search(function.body))
    functions("4 conversion: functions of one argument that are one expression with a cast, or named as_.., of_.., low..", converts)
    found_in_code("4 conversion: casts (`as` a type of integer)", r"\bas %s\b" % INTEGER)
    functions("4 printing and reading: functions that reckon with the letters of digits", lambda function: RECKONS_WITH_DIGITS.search(function.plain_body))
    functions("4 printing: functions that choose words by a code or a truth", chooses_words)
    found_in_code("4 derives", r"#\[derive\(")
    found_in_code("4 derives of PartialEq, PartialOrd or Default", r"#\[derive\([^)]*\b(?:PartialEq|PartialOrd|Default)\b")
    impl = re.compile(r"^impl(?:<[^>]*>)? ([^{]+? for [^{]+?) \{", re.M)
    report("4 impls of traits", [(source.crate, on_one_line(found)) for source in SOURCES for found in impl.findall(source.code)])


# ---- 5: facts and parameters that travel together

def conjuncts(clause):
    """The facts of a clause: it is cut at each × that stands in no bracket."""
    found = []
    for inner in cut(clause, "×"):
        while inner.startswith("(") and closed(inner, 0) == len(inner) - 1:
            inner = inner[1:-1].strip()
        found.extend(conjuncts(inner) if len(cut(inner, "×")) > 1 else [inner])
    return found


def operands(text):
    """The operands of an application: words and what stands in brackets."""
    found, at = [], 0
    while at < len(text):
        if text[at] == " ":
            at += 1
            continue
        end = closed(text, at) + 1 if text[at] in OPEN else re.compile(r"[^\s()\[\]{}]+").match(text, at).end()
        found.append(text[at:end])
        at = end
    return found


def relation(fact):
    """The relation of a fact: its first word, or the sign between its sides."""
    sign = re.search(r" ([≡≤<]) ", fact)
    return sign.group(1) if sign and not fact.split()[0][0].isupper() else fact.split()[0]


def facts(function):
    """What a function's clauses ask, and what they name as a refusal's condition (that of an Outcome or a SomeIff)."""
    found = [fact for clause in function.requires for fact in conjuncts(clause)]
    for part in (part for clause in function.ensures for part in conjuncts(clause)):
        words = operands(part)
        if words and words[0] in ("Outcome", "SomeIff") and len(words) > 2:
            found.extend(conjuncts(words[2]))
    return {re.sub(r"\.(now|old|new)\b", "", fact) for fact in found}


def runs(function):
    """The parameters that stand beside one another, two or more, with their types."""
    names = ["%s: %s" % (name, re.sub(r"^&(mut )?", "&", kind)) for name, kind in function.parameters]
    return {", ".join(names[start:end]) for start in range(len(names)) for end in range(start + 2, len(names) + 1)}


def longest(counted):
    """Those that are not part of a longer one that stands in as many functions."""
    often = {text: count for text, count in counted.items() if count >= 3}

    def within(text, other):
        return other != text and ", %s, " % text in ", %s, " % other and often[other] >= often[text]

    return {text: count for text, count in often.items() if not any(within(text, other) for other in often)}


def tests_ends(function):
    return re.search(r"\bif (to < from|to <= from|from >= to) \{", function.body) and re.search(r"\.len\(\) < to\b", function.body)


def early_returns(function):
    return {on_one_line(found) for found in re.findall(r"\bif ([^{}]+?) \{\s*return\b", function.body)}


def in_functions(found, what):
    """In how many of the functions each of the things stands that `what` finds in one."""
    return collections.Counter(thing for function in found for thing in what(function))


def point_5():
    functions("5 own functions with a requires", lambda function: function.requires)
    report_often("5 facts in the clauses of three or more own functions", in_functions(OWN, facts))
    report_often("5 relations of facts in the clauses of three or more own functions", in_functions(OWN, lambda function: set(map(relation, facts(function)))))
    heads = in_functions(OWN, lambda function: [operands(cut(clause, "×")[0])[0] for clause in function.ensures])
    report_often("5 relations that begin the ensures of three or more own functions", {head: heads[head] for head in heads if re.match(r"(\w+\.)?[A-Z]", head)})
    report_often("5 tests before an early return in three or more own functions", in_functions(OWN, early_returns))
    functions("5 functions that test the ends of a part (`to < from` and `len() < to`)", tests_ends)
    report_often("5 parameters beside one another in three or more own functions", longest(in_functions(OWN, runs)))
    report_often("5 parameters beside one another in three or more exports", longest(in_functions(EXPORTS, runs)))
    functions("5 own functions of five or more parameters", lambda function: len(function.parameters) >= 5)


# ---- 6: buffers with a length beside

def takes_room_and_place(function):
    kinds = [kind for _, kind in function.parameters]
    return any(first.startswith("&mut [u8") and second == "usize" for first, second in zip(kinds, kinds[1:]))


def point_6():
    arrays = {one.spelled: [kind for _, kind in one.fields if kind.startswith("[")] for one in structs()}
    places = {one.spelled: [name for name, kind in one.fields if kind == "usize"] for one in structs()}
    report("6 structs with two or more arrays of one length (parallel arrays)",
           [(one.source.crate, one.spelled) for one in structs() if len({kind.split(";")[-1] for kind in arrays[one.spelled]}) < len(arrays[one.spelled])])
    report("6 structs with an array and a number of its elements beside it", [one.place for one in structs() if arrays[one.spelled] and places[one.spelled]])
    report("6 structs of two or more places or lengths (usize)",
           [(one.source.crate, "%s {%s}" % (one.name, ", ".join(places[one.spelled]))) for one in structs() if len(places[one.spelled]) >= 2])
    giving = [function.name for function in OWN if function.answer.startswith("[") and not function.parameters] or ["no_such"]
    room = re.compile(r"\blet mut (\w+)(?:: [^=;]+)? = (?:\[[^\]]*; [^\]]*\]|(?:\w+::)*(?:%s)\(\))" % "|".join(giving))
    rooms = [(function, name) for function in ALL for name in room.findall(function.body)]
    report("6 rooms: local arrays of a fixed size that are filled", [(function.crate, "%s.%s" % (function.name, name)) for function, name in rooms])
    report("6 of these, cut to a length that stands beside",
           [(function.crate, "%s.%s" % (function.name, name)) for function, name in rooms if re.search(r"\b%s\[0?\.\.[^\]]" % name, function.body)])
    functions("6 functions that take room and a place in it (`out: &mut [u8], at: usize`)", takes_room_and_place)
    functions("6 functions that take room and answer a place in it or a length (usize)",
              lambda function: function.answer == "usize" and any(kind.startswith("&mut [u8") for _, kind in function.parameters))
    strings = re.compile(r"const (\w+): \[u8; (\d+)\] =\s*\*b\"")
    report("6 constant byte strings with their length beside (`[u8; N] = *b\"..\"`)",
           [(source.crate, "%s %s" % found) for source in SOURCES for found in strings.findall(source.code)])
    functions("6 functions that answer an array of bytes", lambda function: re.match(r"\[u8; \d+\]", function.answer))
    found_in_code("6 words Vec, String and Box", r"\b(?:Vec|String|Box)\b")


# ---- 7: switches

def is_call(body):
    return re.match(r"(?:\w+::)*[a-z_]\w*\(", body) is not None


def ladder(function):
    """Whether one function is called three or more times with the same arguments but for the last, a number."""
    calls = collections.defaultdict(set)
    for name, arguments, last in re.findall(r"\b((?:\w+::)*\w+)\((?:([^()]*), )?(\d+)\)", function.body):
        calls[name, arguments].add(last)
    return any(len(numbers) >= 3 for numbers in calls.values())


def asks_for_codes(function):
    asked = collections.Counter(re.findall(r"\bif (\w+) == (?:\d+|(?:\w+::)*[A-Z_]+) \{", function.body))
    return any(count >= 3 for count in asked.values())


def point_7():
    found = [(function, subject, every) for function in ALL for subject, every in matches(function)
             if any(is_code(function.source, pattern) for pattern, _ in every)]
    calls = [all(is_call(body) for _, body in every) for _, _, every in found]
    total("7 matches on a code", [function.crate for function, _, _ in found])
    for title, wanted in ("whose arms are all calls (which step to run)", True), ("others (tables of values)", False):
        chosen = [one for one, call in zip(found, calls) if call == wanted]
        report("7 of these, " + title, [(function.crate, "%s on %s, %d" % (function.name, subject, len(every))) for function, subject, every in chosen])
    functions("7 functions that ask three or more times which code a number is (`if kind == 0`)", asks_for_codes)
    functions("7 functions that choose one of two by is_signed", lambda function: re.match(r"\s*if (?:\w+::|\w+\.)*is_signed\(\w*\) \{", function.body))
    functions("7 functions that call one function three or more times with only the last number another (ladders, loops written out)", ladder, ALL)
    functions("7 functions that take a function (impl Fn, fn pointers, a type that is Fn)",
              lambda function: re.search(r"\bimpl Fn|\bfn\(|\bFn(Mut|Once)?\(", function.source.code[function.at : function.start]), ALL)
    tables = re.compile(r"(?:const|static) (\w+): [^=]*\bfn\(")
    report("7 tables of functions", [(source.crate, name) for source in SOURCES for name in tables.findall(source.code)])
    found_in_bodies("7 closures", r"[(,=]\s*(?:move )?\|[^|\n]*\| ")


# ---- 8: proofs

GOAL = re.compile(r"^(?:(?:abbrev|unfoldable) )*(?:pub )?(\S+) : goal\.", re.M)
DECLARED = re.compile(r"(?:(?:abbrev|unfoldable|pub) )*(?:record |data )?([^\s(){}:]+)(?: *[({][^:=\n]*:[^=\n]*[)}])* :(?: |$)(?!goal\.)")


def declared(text):
    """The names that a proof file declares, but for the answers to goals: at the margin, or two spaces further in for each module that it stands in."""
    found, modules = [], []
    for line in text.split("\n"):
        indent = len(line) - len(line.lstrip(" "))
        if line:
            modules = [module for module in modules if module < indent]
        if indent != 2 * len(modules):
            continue
        signature = DECLARED.match(line[indent:])
        if line[indent:].startswith("module "):
            modules.append(indent)
        elif signature:
            found.append(signature.group(1))
    return found


def point_8():
    texts = [(path.split(os.sep)[1], path, read(path)) for path in sorted(glob.glob("crates/*/proofs/**/*.antt", recursive=True))]
    for file, entry in ("Answers.antt", "answers"), ("Invariants.antt", "invariants and measures"):
        found = [(crate, 1, len(GOAL.findall(text)), len(declared(text)), text.count("\n")) for crate, path, text in texts if os.path.basename(path) == file]
        for place, what in enumerate(("files", entry, "helpers beside them", "lines"), 1):
            report_numbers("8 %s, %s" % (file, what), [(one[0], one[place]) for one in found])
    helping = [(crate, os.path.basename(path)[: -len(".antt")], text) for crate, path, text in texts
               if path.count(os.sep) == 3 and layer_of(crate) not in ("theory", "promises") and not path.endswith(os.sep + "Lib.antt")]
    report("8 helpers in proofs/*.antt of crates that are no theory and no promises",
           [(crate, "%s.%s" % (file, name)) for crate, file, text in helping for name in declared(text)])
    report_numbers("8 lines of these", [(crate, text.count("\n")) for crate, _, text in helping])
    report_numbers("8 must-fail edits", [(path.split(os.sep)[1], 1) for path in sorted(glob.glob("crates/*/must-fail/*.edit"))])


POINTS = [size, point_1, point_2, point_3, point_4, point_5, point_6, point_7, point_8]

if __name__ == "__main__":
    for point in POINTS if POINT is None else [POINTS[POINT]]:
        point()
