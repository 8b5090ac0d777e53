"""Rattle code as the formatter lays it out: enums, constants that list values, functions that choose."""

WIDEST = 100


def enum(name, variants, comment=""):
    """An enum of variants without fields."""
    head = "// %s\n" % comment if comment else ""
    return head + "#[derive(Clone, Copy, PartialEq, Eq, Debug)]\npub enum %s {\n%s}\n" % (name, "".join("    %s,\n" % variant for variant in variants))


def listed(head, values, pad=""):
    """A constant that lists values: on one line, or one a line."""
    values = list(values)
    line = "%s = [%s];\n" % (pad + head, ", ".join(values))
    if len(line) <= WIDEST + 1:
        return line
    return "%s = [\n%s%s];\n" % (pad + head, "".join("%s    %s,\n" % (pad, value) for value in values), pad)


def grouped(subject, arms, otherwise=None, pad="        "):
    """The match of a body: {value: patterns}, with the patterns of an arm on one line, or one a line."""
    lines, deep = [pad + "match %s {\n" % subject], pad + "    "
    for value, patterns in arms.items():
        first = "%s%s =>" % (deep, " | ".join(patterns))
        if len(first + " %s," % value) <= WIDEST:
            lines.append("%s %s,\n" % (first, value))
        elif len(first) <= WIDEST:
            lines.append("%s\n%s    %s,\n" % (first, deep, value))
        else:
            lines.append("%s%s => %s,\n" % (deep, ("\n%s| " % deep).join(patterns), value))
    if otherwise:
        lines.append("%s_ => %s,\n" % (deep, otherwise))
    return "".join(lines) + pad + "}\n"


def arm(pattern, value):
    """An arm of a match, in a block where the line is too wide, and a call of a call by its arguments where that is, too."""
    line = "        %s => %s,\n" % (pattern, value)
    if len(line) <= WIDEST + 1:
        return line
    inner = "            %s\n" % value
    if len(inner) > WIDEST:
        head, _, arguments = value.rpartition("(") if value.count("(") > 1 else value.partition("(")
        closed = len(arguments) - len(arguments.rstrip(")"))
        inner = "            %s(\n%s            %s\n" % (
            head, "".join("                %s,\n" % argument for argument in arguments[:-closed].split(", ")), ")" * closed,
        )
    return "        %s => {\n%s        }\n" % (pattern, inner)


def every(arms, subject="kind"):
    """The match of a function's body whose arms are all there are."""
    return "    match %s {\n%s    }\n" % (subject, "".join(arm(*pair) for pair in arms))


def match(subject, arms, otherwise):
    """The match of a function's body."""
    return "    match %s {\n%s%s    }\n" % (subject, "".join(arm(*pair) for pair in arms), arm("_", otherwise))


def function(head, body, comment=""):
    """A function; a head that is too wide has its parameters on lines of their own."""
    if len(head) + 2 > WIDEST:
        name, _, rest = head.partition("(")
        parameters, _, answer = rest.rpartition(")")
        head = "%s(\n%s)%s" % (name, "".join("    %s,\n" % parameter for parameter in parameters.split(", ")), answer)
    return "%s%s {\n%s}\n" % ("// %s\n" % comment if comment else "", head, body)


def chosen(head, subject, arms, comment=""):
    """A function that chooses: the last of the arms takes what is left. With one arm alone there is nothing to choose."""
    if len(arms) == 1:
        return function(head, "    %s\n" % arms[0][1], comment)
    return function(head, match(subject, arms[:-1], arms[-1][1]), comment)
