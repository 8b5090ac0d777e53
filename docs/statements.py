"""Reads what the library says: the statements of laws and definitions (crates/*/specs, crates/*/proofs), the contracts of functions (crates/*/src) and the
names of must-fail edits. A law or a definition is named by the crate and the file it stands in, vstd_slices/Kept.get_kept; a function by its crate,
slices::get, one of a trait by that, too, integers::Signed::bits, an exported one by its name alone, pb_bytes_get; an edit by its crate,
slices/get.one_past_the_end. Names of the kit's libraries begin with kit/."""
import collections
import glob
import os
import re
import shutil

ROOT = os.path.dirname(os.path.dirname(os.path.abspath(__file__)))
SIGNATURE = re.compile(r"( *)((?:unfoldable |abbrev )*)(pub )?((?:unfoldable |abbrev )*)(record |data )?([^\s(){}:]+)((?: *[({][^:=]*:[^=]*[)}])*(?: \{\w+\})?) :(?: |$)(.*)")
USE = re.compile(r"^(?:ghost )?use Rattle\.(?!std\.)(\w+)\.(?:specs|proofs)\.(\w+)(?:\.\{([^}]*)\}| as (\w+))?;?$", re.M)
BUILT_IN = ("◌+◌", "◌-◌", "◌*◌", "◌/◌", "◌%◌", "◌^◌", "◌≤◌", "◌<◌")  # of the kit's Prim.Native.Nat, which no file declares
PUNCTUATION = re.compile(r"[\s(){}\[\],;⌜⌝]+")


# The names in a function's contract, whether it is exported, and what its body calls.
Function = collections.namedtuple("Function", "contract exported calls")


class Said:
    """What is said of a name: whether it is a definition or a law, and its statement as hypotheses and a conclusion, each with the names it is written with."""

    def __init__(self, name, definition, hypotheses, conclusion, meaning):
        self.name, self.definition, self.hypotheses, self.conclusion, self.meaning = name, definition, hypotheses, conclusion, meaning

    def names(self, text):
        return names_in(text, self.meaning)

    def all_names(self):
        return set().union(self.names(self.conclusion), *(self.names(text) for text in self.hypotheses))


def read(path):
    with open(path, encoding="utf-8") as file:
        return file.read()


def words(text):
    return [word for word in PUNCTUATION.split(text) if word]


def names_in(text, meaning):
    """The full names of the words of a text, in a file where `meaning` says which name a word stands for. Of the kit's, its word without places for operands."""
    return {meaning.get(word, "kit " + word.split(".")[-1].strip("◌")) for word in words(text)}


def meanings(crate, file, text, own):
    """Which name each word stands for: what the file brings in, under an alias with the alias before it, and what it declares itself."""
    meaning = {}
    for used, of, listed, alias in USE.findall(text):
        if listed:
            for entry in listed.split(","):
                parts = entry.strip().split(" as ")
                meaning[parts[-1].strip()] = "%s/%s.%s" % (used, of, parts[0].strip())
        else:
            meaning[alias or of] = "%s/%s" % (used, of)
    meaning.update({name: "%s/%s.%s" % (crate, file, name) for name in own})
    return Aliased(meaning)


class Aliased(dict):
    def get(self, word, otherwise=None):
        if word in self:
            return self[word]
        alias, dot, name = word.rpartition(".")
        return self[alias] + "." + name if dot and alias in self else otherwise


def pieces(text):
    """A type cut at the arrows that stand outside of brackets."""
    depth, start, found = 0, 0, []
    for place, char in enumerate(text):
        depth += char in "({"
        depth -= char in ")}"
        if char == "→" and depth == 0:
            found.append(text[start:place].strip())
            start = place + 1
    return found + [text[start:].strip()]


def binders(text):
    """(x y : T) {z : U} as [T, T, U]; a text that binds nothing as it is."""
    if not text.startswith(("(", "{")):
        return [text] if text else []
    depth, start, groups = 0, 0, []
    for place, char in enumerate(text):
        if char in "({":
            start = place if depth == 0 else start
            depth += 1
        elif char in ")}":
            depth -= 1
            if depth == 0:
                groups.append(text[start + 1 : place])
        elif depth == 0 and not char.isspace():
            return [text]
    if not all(re.match(r"[^()]*? : ", group) for group in groups):
        return [text]
    return [kind for group in groups for names, kind in [group.split(" : ", 1)] for _ in names.split()]


def statements(path, crate, file):
    """Every declaration of one file that is not local to a proof."""
    text = read(path)
    lines = text.split("\n")
    modules, found = [], []
    for number, line in enumerate(lines):
        if not line.strip() or line.lstrip().startswith("--"):
            continue
        indent = len(line) - len(line.lstrip())
        while modules and indent <= modules[-1][0]:
            modules.pop()
        opened = re.match(r" *module _ (.*)where", line)
        if opened and indent == 2 * len(modules):
            modules.append((indent, opened.group(1).strip()))
            continue
        signature = SIGNATURE.match(line)
        if not signature or indent != 2 * len(modules) or line.lstrip().startswith(("use ", "module ")):
            continue
        rest = [signature.group(8)]
        for following in lines[number + 1 :]:
            if not following.strip() or len(following) - len(following.lstrip()) <= indent or following.lstrip().startswith("--"):
                break
            if signature.group(5):
                break
            rest.append(following.strip())
        kind = pieces(" ".join(rest))
        if kind[-1] == "⊥" and len(kind) > 1:  # what is refuted is concluded
            kind[-2:] = [kind[-2] + " → ⊥"]
        hypotheses = [one for _, telescope in modules for one in binders(telescope)] + binders(signature.group(7).strip()) + [one for piece in kind[:-1] for one in binders(piece)]
        marked = signature.group(2) or signature.group(4) or signature.group(5)
        found.append((signature.group(6), bool(marked) or kind[-1].startswith("Type"), hypotheses, kind[-1]))
    meaning = meanings(crate, file, text, [name for name, *_ in found])
    for name, definition, hypotheses, conclusion in found:
        yield Said("%s/%s.%s" % (crate, file, name), definition, hypotheses, conclusion, meaning)


def library():
    """Everything that the crates' specs and proofs declare, by name: {name: Said}."""
    said = {}
    for part in ("proofs", "specs"):
        for path in sorted(glob.glob(os.path.join(ROOT, "crates", "*", part, "*.antt"))):
            crate, file = path.split(os.sep)[-3], os.path.basename(path)[: -len(".antt")]
            for one in statements(path, crate, file):
                said.setdefault(one.name, one)
    return said


def kit(name):
    """Whether the kit's libraries declare a name kit/File.name, as far as the kit is at hand."""
    rt = shutil.which("rt")
    if not rt:
        return True
    root = os.path.dirname(os.path.dirname(os.path.realpath(rt)))
    file, name = name[len("kit/") :].split(".", 1)
    places = [os.path.join(root, "rattle", *folder, file + ".antt") for folder in (("logic", "*"), ("antt", "lib", "**"), ("core", "specs"), ("std", "specs"))]
    declared = re.compile(r"^ *(?:unfoldable |abbrev )*(?:pub )?(?:unfoldable |abbrev )*(?:data |record )?%s(?: [({].*)? :" % re.escape(name), re.M)
    found = [path for place in places for path in glob.glob(place, recursive=True)]
    return file == "Nat" and name in BUILT_IN or any(declared.search(read(path)) for path in found)


def functions(programs):
    """The public functions of all crates but the programs, and those that public traits ask for: {name: Function}."""
    found = {}
    for path in sorted(glob.glob(os.path.join(ROOT, "crates", "*", "src", "*.rt"))):
        crate = path.split(os.sep)[-3]
        if crate in programs:
            continue
        text = read(path)
        meaning = meanings(crate, "", text, [])

        def contract(head):
            return names_in(head[head.find("ensures") :] if "ensures" in head else "", meaning)

        for exported, name, head, body in re.findall(r"^pub (extern \"C\" )?fn (\w+)(.*?)^\{(.*?)^\}", text, re.M | re.S):
            found[name if exported else crate + "::" + name] = Function(contract(head), bool(exported), set(re.findall(r"(\w+::\w+)(?:::<[^()]*>)?\(", body)))
        for trait, members in re.findall(r"^pub trait (\w+)(.*?)^\}", text, re.M | re.S):
            for name, head in re.findall(r"^    fn (\w+)(.*?);$", members, re.M | re.S):
                found["%s::%s::%s" % (crate, trait, name)] = Function(contract(head), False, set())
    return found


def edits():
    """The must-fail edits, crate/function.label."""
    return {"%s/%s" % (path.split(os.sep)[-3], os.path.basename(path)[: -len(".edit")]) for path in glob.glob(os.path.join(ROOT, "crates", "*", "must-fail", "*.edit"))}
