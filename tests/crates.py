"""crates.txt as the tests read it: each crate with what it stands on, directly or through others, and what stands on it."""
import glob
import os
import re

ROOT = os.path.dirname(os.path.dirname(os.path.abspath(__file__)))
FOREIGN = {"io", "libc", "os"}  # the kit's libraries of foreign functions
# What a crate's text has that calls what stands on those. The traits of operators and comparisons, ranges and orderings do not; nor does what needs no path,
# such as an Option's or a slice's own functions: that a static library reaches no axiom through any of it, its check says.
STD = re.compile(r"\bstd\s*::\s*(?!(?:ops|cmp)\s*::)|\bHostRuntime\b|\bprintln!")


def parsed(text):
    """The lines of a crates.txt: {crate: what it names}."""
    lines = [line.split(":") for line in text.split("\n") if line.strip() and not line.startswith("#")]
    return {name.split()[0]: below.split() for name, below in lines}


def graph():
    with open(os.path.join(ROOT, "crates.txt"), encoding="utf-8") as file:
        return parsed(file.read())


def below(crate, crates):
    """All that a crate stands on."""
    found, todo = set(), [crate]
    while todo:
        new = set(crates.get(todo.pop(), [])) - found
        found |= new
        todo.extend(new)
    return found


def above(names, crates):
    """These crates and all that stand on one of them, in the order of crates.txt."""
    names = set(names)
    return [crate for crate in crates if crate in names or names & below(crate, crates)]


def programs(crates):
    return [crate for crate in crates if os.path.exists(os.path.join(ROOT, "crates", crate, "src", "main.rt"))]


def code(crate):
    """A crate's source, without comments."""
    texts = []
    for path in sorted(glob.glob(os.path.join(ROOT, "crates", crate, "src", "**", "*.rt"), recursive=True)):
        with open(path, encoding="utf-8") as file:
            texts.append(re.sub(r"(?m)//.*$", "", file.read()))
    return "\n".join(texts)


def reaching(crates):
    """The crates that call what stands on foreign functions, or stand on what does."""
    own = {crate for crate in crates if STD.search(code(crate)) or FOREIGN & set(crates[crate])}
    return {crate for crate in crates if crate in own or own & below(crate, crates)}


def libraries(crates):
    """The crates that are no program and call nothing that stands on foreign functions, directly or through others."""
    beyond = {*reaching(crates), *programs(crates)}
    return [crate for crate in crates if crate not in beyond]


def of_the_library(text):
    """The crates that a crates.txt lists above the heading of the programs."""
    return list(parsed(text.partition("\n# programs: ")[0]))
