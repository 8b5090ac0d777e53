#!/usr/bin/env python3
"""Spells the library's own definitions and lemmas as today's Rattle spells its own: words in snake case, types in upper camel case.

    python3 tools/respell.py        respell, once, after the kit's port.py has turned the language
    python3 tools/respell.py --list print each old name beside its new one, and the names that fall together

Names of Rust's functions, exported names, strings and inputs stay; a name that a file brings in from the kit stays there. In documents a name is respelled
in backticks, and in the rows of docs/contracts in the fields that name definitions and laws."""
import collections
import glob
import os
import re
import subprocess
import sys

ROOT = os.path.dirname(os.path.dirname(os.path.abspath(__file__)))
OWN = {name for name in os.listdir(os.path.join(ROOT, "crates")) if os.path.isdir(os.path.join(ROOT, "crates", name))}
DECLARED = re.compile(r"(?m)^ *(?:(?:pub|abbrev|unfoldable|infixl \d+|infixr \d+|infix \d+) +)*(?:(?:data|record) +)?([^\s(){}.;,@\"«»:]+)(?: *[({][^\n]*?[)}])* :(?= |$)")
TYPES = re.compile(r"(?m)^ *(?:(?:pub|abbrev|unfoldable) +)*(?:data|record) +([^\s(){}.;,@\"«»:]+)")
WORD = re.compile(r"(?<![^\s(){}\[\].;,@\"«»`|/:])[^\s(){}\[\].;,@\"«»`|/:]+")
USE = re.compile(r"(?m)^ *(?:pub |ghost )*use ([^\s;{]+?)\.\{([^}]*)\}")
LANDED = "592c6c050e1a33e5b42b48546f8ce0e30530a75d"

# A lemma that would have its function's name: the two would fall together.
LEMMAS = {"is-multiple", "is-equal", "is-within", "is_within", "part-or-none", "same-range", "same-ranges", "valid-to", "valid_to"}


def read(path):
    with open(path, encoding="utf-8") as file:
        return file.read()


def texts(*patterns):
    for pattern in patterns:
        for path in sorted(glob.glob(os.path.join(ROOT, pattern), recursive=True)):
            if "/out/" not in path and os.path.isfile(path):
                yield path


def spelled(name):
    """A type in upper camel case; all else in snake case, in which a capital and an acronym are words."""
    if name in LEMMAS:
        return name.replace("-", "_") + "_lem"
    if name[0].isupper() and "-" in name:
        return "".join(part[:1].upper() + part[1:] for part in name.split("-"))
    if name[0].isupper() or not re.search(r"\w", name):
        return name
    return re.sub(r"(?<=[a-z0-9])[A-Z]", lambda match: "_" + match.group().lower(), name).replace("-", "_").replace("′", "'")


def at_landed():
    """The antt files as they landed in the older language, whose names documents still have."""
    listed = subprocess.run(["git", "ls-tree", "-r", "--name-only", LANDED, "crates"], cwd=ROOT, capture_output=True, text=True, check=True).stdout.split("\n")
    paths = [path for path in listed if path.endswith(".antt")]
    asked = "".join("%s:%s\n" % (LANDED, path) for path in paths).encode()
    answered = subprocess.run(["git", "cat-file", "--batch"], cwd=ROOT, input=asked, capture_output=True, check=True).stdout
    place = 0
    for path in paths:
        end = answered.index(b"\n", place)
        size = int(answered[place:end].split()[-1])
        yield path, answered[end + 1 : end + 1 + size].decode()
        place = end + 2 + size


def declared(text):
    return set(DECLARED.findall(text)) | set(TYPES.findall(text))


def names():
    """Each name that is spelled anew, from the files as they stand and as they landed."""
    found = set()
    for text in [read(path) for path in texts("crates/**/*.antt")] + [text for _, text in at_landed()]:
        found |= declared(text)
    found = {name for name in found if re.search(r"[A-Za-z]", name) and not re.search(r"[◌_]?[+*/%^≤<≡&|∷][◌_]?$", name)}
    return {name: spelled(name) for name in found if spelled(name) != name}


def brought(text):
    """The names that a file brings in from the kit."""
    kits = set()
    for path, listed in USE.findall(text):
        steps = path.split(".")
        if steps[0] != "Rattle" or steps[1] not in OWN:
            kits |= {part.split(" as ")[0].strip() for part in listed.split(",")} | {part.split(" as ")[-1].strip() for part in listed.split(",")}
    return kits


def respelled(text, table, kept=()):
    return WORD.sub(lambda match: match.group() if match.group() in kept else table.get(match.group(), match.group()), text)


def fallen(table):
    """Names that fall together within a crate: two old names with one new, or a new one that another declaration there already has."""
    for crate in sorted(OWN):
        met = collections.defaultdict(set)
        for path in texts("crates/%s/specs/*.antt" % crate, "crates/%s/proofs/*.antt" % crate):
            for name in declared(read(path)):
                met[os.path.basename(path), table.get(name, name)].add(name)
        for (file, new), old in sorted(met.items()):
            if len(old) > 1:
                yield "%s/%s: %s" % (crate, file, ", ".join(sorted(old)))


def backticked(text, table):
    return re.sub(r"`[^`\n]+`", lambda match: respelled(match.group(), table), text)


def row_fields(text, table):
    """The rows of docs/contracts: the fields that name definitions and laws, with the lines that go on from them; elsewhere what stands in backticks."""
    lines, inside = [], False
    for line in text.split("\n"):
        field = re.match(r"(\w+): ", line)
        if field or not line.startswith("  "):
            inside = bool(field) and field.group(1) in ("restated", "law", "pinned")
        lines.append(respelled(line, table) if inside else backticked(line, table))
    return "\n".join(lines)


def main():
    table = names()
    if sys.argv[1:] == ["--list"]:
        print("\n".join("%s %s" % pair for pair in sorted(table.items())))
        print("\n".join("falls together: " + line for line in fallen(table)))
        return
    if sys.argv[1:]:
        sys.exit(__doc__)
    turns = [
        (texts("crates/**/*.antt", "crates/**/*.rt", "crates/*/must-fail/*.edit"), lambda text: respelled(text, table, brought(text))),
        (texts("generate/operations/*.txt"), lambda text: respelled(text, table)),
        (texts("docs/contracts/*.txt"), lambda text: row_fields(text, table)),
        ([path for path in texts("*.md", "docs/*.md", "tests/*/*.md", "bindings/*.md") if not path.endswith(("CONTRACTS.md", "PORT.md"))], lambda text: backticked(text, table)),
    ]
    for paths, turn in turns:
        for path in paths:
            before = read(path)
            after = turn(before)
            if after != before:
                with open(path, "w", encoding="utf-8") as file:
                    file.write(after)


if __name__ == "__main__":
    main()
