#!/usr/bin/env python3
"""Holds docs/contracts, the source of docs/CONTRACTS.md, and the documents beside it against the code, the laws and vstd's text.

    python3 docs/check.py            exit status 1, and a line for each fault (the functions named check_.. say what is a fault); it then damages a copy of
                                     the source in memory, once for each check, and fails where the damage goes unnoticed
    python3 docs/check.py --items    print vstd's items, as docs/upstream.txt lists them

vstd's text is read from the folder that the variable VSTD names (or ../shared/docs/src beside the repository); where it is not at hand, docs/upstream.txt, the
committed list of its items, stands in, and where it is, the list must be in step with it."""
import functools
import glob
import os
import re
import sys

import contracts
import reflow
import statements
from contracts import HERE, Row, commas, expand, items, named, refused

VSTD = os.environ.get("VSTD", os.path.join(os.path.dirname(statements.ROOT), "shared", "docs", "src"))

# vstd's files whose items all have a row. The other files of the list are of families that are not taken up yet.
TAKEN_UP = [
    "arithmetic--power2", "bits", "bytes", "endian", "math", "slice", "std_specs--bits", "std_specs--char", "std_specs--num", "std_specs--slice", "utf8", "wrapping",
]
# The crates that crates.txt lists under the headings of programs, of what is linked and of what is measured: their functions have no rows.
PROGRAMS = re.findall(r"^(\w+)(?: staticlib)?:", contracts.read(os.path.join(statements.ROOT, "crates.txt")).partition("\n# programs: ")[2], re.M)
VERDICTS = ["same", "stronger", "refused instead of required", "different", "left out"]
BEYOND = "beyond vstd"
LONGEST = 110  # characters of a cell, but for the wrong answers, which are a list


# ---- vstd's text

EVERYWHERE = ("no_unwind", "opens_invariants")  # clauses that stand at many promises, in lines of their own


def upstream_items(file, text):
    """A file's items, in order: `FILE SCOPE::NAME`, each with those of the clauses EVERYWHERE that stand at it. The scope is u or i inside a macro's module for
    unsigned or signed types."""
    scope, found, marks = "", [], {}
    for line in text.split("\n"):
        module = re.match(r"\s*(?:pub )?mod \$mod(?:name)?_([ui])(?:_tmp)? \{", line)
        if module:
            scope = module.group(1) + "::"
        promise = re.match(r"\s*(?:pub )?(?:unsafe )?(?:broadcast )?assume_specification(?:<.*?>)?\s*\[\s*(.*?)\s*\]\s*(?:\(|$)", line)
        function = re.match(r"\s*(?:pub(?:\([a-z]+\))? )?(?:open |closed |uninterp )?(?:broadcast )?(?:const )?(?:spec|proof|axiom|exec)? ?fn (\w+)", line)
        if promise:
            found.append(scope + re.sub(r".*::", "", promise.group(1).strip()) if scope else short_path(promise.group(1)))
        elif function:
            found.append(scope + function.group(1))
        for clause in EVERYWHERE:
            if re.match(r"\s*%s\b" % clause, line):
                marks.setdefault(len(found) - 1, []).append(clause)
    found.extend(re.findall(r"^\w+!\(\s*(lemma_\w+),", text, re.M))
    seen = {}
    for place, item in enumerate(found):
        seen[item] = seen.get(item, 0) + 1
        yield file + " " + item + ("" if seen[item] == 1 else " (%d)" % seen[item]), marks.get(place, [])


def short_path(text):
    """A path as rows have it: `<[T] as Index<I>>::index` is `<[T] as Index>::index`, and of a path by modules the last two parts stand."""
    text = re.sub(r"::<\w+>$", "", re.sub(r"'\w+ ", "", text.strip()))
    text = re.sub(r" as (?:\w+::)*(\w+)(?:<.*>)?>::", r" as \1>::", text)
    return text if text.startswith("<") else re.sub(r"^.*::(?=\w+::\w+$)", "", text)


def upstream(faults):
    """vstd's items, each with the clauses that stand everywhere: {item: clauses}."""
    lines = [line.split(" : ") for line in contracts.read(os.path.join(HERE, "upstream.txt")).split("\n") if line and not line.startswith("#")]
    listed = {line[0]: line[1].split() if len(line) > 1 else [] for line in lines}
    if not os.path.isdir(VSTD):
        print("docs: vstd's text is not at hand; docs/upstream.txt stands in")
        return listed
    found = {}
    for path in sorted(glob.glob(os.path.join(VSTD, "*.rs.txt"))):
        found.update(upstream_items(os.path.basename(path)[: -len(".rs.txt")], contracts.read(path)))
    if "--items" in sys.argv:
        print("\n".join(" : ".join([item] + ([" ".join(clauses)] if clauses else [])) for item, clauses in found.items()))
        sys.exit(0)
    for item in sorted(set(found) | set(listed)):
        if found.get(item) != listed.get(item):
            faults.append("docs/upstream.txt: %s: %s" % (item, "is missing" if item not in listed else "is not in vstd's text" if item not in found else "other clauses stand at it"))
    return found


# ---- the library

class Library:
    def __init__(self, faults):
        self.items = upstream(faults)
        self.said = statements.library()
        self.functions = statements.functions(PROGRAMS)
        self.edits = statements.edits()
        self.crates = {name.split("/")[0] for name in self.said} | {name.split("::")[0] for name in self.functions if "::" in name}
        self.kit = functools.lru_cache(None)(statements.kit)

    def exists(self, name):
        return self.kit(name) if name.startswith("kit/") else name in self.said

    def contract(self, functions):
        return set().union(*(self.functions[name].contract for name in functions if name in self.functions))


def word(name):
    """A name as `statements.names_in` has it: of the kit's, the word alone."""
    return "kit " + name.split(".", 1)[1].strip("◌") if name.startswith("kit/") else name


def reason(row):
    return row.get("verdict", "").partition(":")[2].strip()


# ---- the checks: each yields what is wrong with a row

def check_shape(row, library):
    """A row has each field once, in the schema's order, an item and a clause, and no cell that does not fit on paper."""
    if row.order != [field for field in contracts.FIELDS if field in row]:
        yield "its fields are not in the order %s" % ", ".join(contracts.FIELDS)
    for field in ("item", "clause"):
        if not row.get(field):
            yield "it has no %s" % field
    for field, text in row.items():
        if field != "wrong" and len(text) > LONGEST:
            yield "its %s has %d characters, more than %d" % (field, len(text), LONGEST)


def check_items(row, library):
    """An item is one of vstd's, or the row is `beyond vstd`."""
    if row.get("item") == BEYOND:
        return
    for item in items(row):
        if item not in library.items:
            yield "vstd has no item %s" % item


def check_verdict(row, library):
    """A verdict is one of five, and has a reason unless it is `same`; a row beyond vstd has none."""
    verdict = row.get("verdict", "").partition(":")[0]
    if row.get("item") == BEYOND:
        if verdict:
            yield "what is beyond vstd has no verdict"
    elif verdict not in VERDICTS:
        yield "%s is no verdict: it is one of %s" % (verdict or "nothing", ", ".join(VERDICTS))
    elif (verdict == "same") == bool(reason(row)):
        yield "the verdict %s has %s" % (verdict, "a reason" if reason(row) else "no reason")
    if verdict == "left out" and ("export" in row or "operation" in row):
        yield "it is left out and names a function"


def check_names(row, library):
    """What a field names exists, and is what the field is for."""
    for field in ("restated", "law", "pinned"):
        for name in named(row, field):
            if not library.exists(name):
                yield "%s names %s, which does not exist" % (field, name)
            elif name in library.said and library.said[name].definition != (field == "restated"):
                yield "%s names %s, which is a %s" % (field, name, "definition" if library.said[name].definition else "law")
    for field in ("export", "operation"):
        for name in named(row, field):
            if name not in library.functions:
                yield "%s names %s, which is no public function" % (field, name)
            elif library.functions[name].exported != (field == "export"):
                yield "%s names %s, which is %s" % (field, name, "exported" if library.functions[name].exported else "not exported")
    for edit in refused(row):
        if edit not in library.edits:
            yield "there is no must-fail edit %s" % edit


def check_law(row, library):
    """A law concludes the row's restated clause; where the row has operations, one of its laws also names what stands in their contracts, or in the export's;
    elsewhere one names something of ours, unless it is the row's own item, a lemma of vstd's proved under its name."""
    restated = {word(name) for name in named(row, "restated")}
    laws = [library.said[name] for name in named(row, "law") if name in library.said]
    if laws and not restated:
        yield "it has a law and nothing restated"
        return
    ours = library.contract(named(row, "operation") + named(row, "export"))
    tied = not laws or row.get("item") == BEYOND
    for law in laws:
        concluded = restated & (law.all_names() if row.get("item") == BEYOND or joins_nothing(law, library) else law.names(law.conclusion))
        if not concluded:
            yield "%s does not conclude %s" % (law.name, " or ".join(sorted(restated)))
        others = {name for name in law.all_names() - concluded if name in library.said}
        if named(row, "operation"):
            tied = tied or any(library.said[name].conclusion != "Kind" for name in others & ours)
        else:
            tied = tied or bool(others) or free_side(law, restated) or not all(name.startswith("vstd_") for name in concluded) or is_item(law, row)
    if not tied:
        yield "no law of it names what stands in the contract of %s" % row["operation"] if "operation" in row else "no law of it names anything of ours"


def is_item(law, row):
    """Whether a law has the name of an item of the row, without `lemma_`."""
    return law.name.split(".")[-1] in {item.split(" ", 1)[1].replace("lemma_", "") for item in items(row)}


def joins_nothing(law, library):
    """Whether a law says that two things with one image are equal: an equation that names no definition."""
    return "≡" in law.conclusion and not any(name in library.said for name in law.names(law.conclusion))


def free_side(law, restated):
    """Whether a law is an equation, and one of its sides is free of what is restated."""
    sides = re.split(r"[≡↔]", law.conclusion)
    return len(sides) == 2 and any(not restated & law.names(side) for side in sides)


def check_export(row, library):
    """A restated definition stands in the contract of each export, and in the operation's, too, where no law leads from the one to the other; and each export
    calls one of the operations."""
    restated = {word(name) for name in named(row, "restated")}
    for name in named(row, "export"):
        function = library.functions.get(name)
        if function and not restated & function.contract:
            yield "nothing restated stands in the contract of %s" % name
        if function and "operation" in row and not function.calls & set(named(row, "operation")):
            yield "%s calls none of %s" % (name, row["operation"])
    if "export" in row and "operation" in row and "law" not in row and not restated & library.contract(named(row, "operation")):
        yield "no law leads from the contract of %s to what is restated" % row["operation"]


def twice(law, library):
    """What stands in two hypotheses of a law: a definition, or an equation with the same right side."""
    heads = []
    for text in law.hypotheses:
        equation = re.match(r"[^()]*(?:\([^()]*\)[^()]*)* ≡ (.*)$", text)
        if equation:
            heads.append("≡ " + equation.group(1))
        elif len(statements.words(text)) > 1:
            heads.append(law.meaning.get(statements.words(text)[0], ""))
    return {head for head in heads if head and heads.count(head) > 1 and (head.startswith("≡") or head in library.said)}


def check_pinned(row, library):
    """A law that pins has two hypotheses of one definition, which is the row's or stands in its contracts, and concludes an equation."""
    near = {word(name) for name in named(row, "restated")} | library.contract(named(row, "export") + named(row, "operation"))
    for name in named(row, "pinned"):
        law = library.said.get(name)
        if not law or law.definition:
            continue
        both = twice(law, library)
        if not both or "≡" not in law.conclusion:
            yield "%s does not pin: it has no two hypotheses of one definition, or concludes no equation" % name
        elif not any(head.startswith("≡") or head in near for head in both):
            yield "%s pins %s, which is not of this row" % (name, " and ".join(sorted(both)))
    if "export" in row and row.get("item") != BEYOND and not row.get("verdict", "").startswith("refused") and "pinned" not in row:
        yield "its export is not pinned"


ROW_CHECKS = [check_shape, check_items, check_verdict, check_names, check_law, check_export, check_pinned]
NAMES_IN_WORDS = re.compile(r"(?<![\w/.:-])(?:(kit|[a-z]\w*)/([A-Z]\w*)\.([^\s,;:()`|]*[^\s,;:.()`|])|(\w+)::(\w+(?:::\w+)?)|(pb_\w+))(?![\w{])")


def check_words(text, library):
    """A name in words, as in a paragraph, a clause or a reason, exists, too."""
    for crate, file, name, owner, function, export in NAMES_IN_WORDS.findall(text):
        if file and name != "md" and not library.exists("%s/%s.%s" % (crate, file, name)):
            yield "%s/%s.%s does not exist" % (crate, file, name)
        if owner in library.crates and owner + "::" + function not in library.functions:
            yield "%s::%s is no public function" % (owner, function)
        if export and export not in library.functions:
            yield "%s is no export" % export


def check_whole(rows, files, markdown, library):
    """Every item taken up, every public function and every must-fail edit has a row, but for those of programs, and the document is what the source makes."""
    covered = {item for row in rows for item in items(row) if not row.get("clause", "").startswith(EVERYWHERE)}
    said = {(item, clause) for row in rows for item in items(row) for clause in EVERYWHERE if row.get("clause", "").startswith(clause)}
    functions = {name for row in rows for field in ("export", "operation") for name in named(row, field)}
    tried = {edit for row in rows for edit in refused(row)}
    for item in library.items:
        if item.split(" ")[0] in TAKEN_UP and item not in covered:
            yield "docs/contracts: no row for %s" % item
        for clause in library.items[item]:
            if item.split(" ")[0] in TAKEN_UP and (item, clause) not in said:
                yield "docs/contracts: no row for %s of %s" % (clause, item)
    for name in sorted(set(library.functions) - functions):
        yield "docs/contracts: no row names the function %s" % name
    for edit in sorted(edit for edit in library.edits - tried if edit.split("/")[0] not in PROGRAMS):
        yield "docs/contracts: no row names the must-fail edit %s" % edit
    if markdown != contracts.document(files):
        yield "docs/CONTRACTS.md is not what docs/contracts makes: run python3 docs/contracts.py"


def check_findings(text, library):
    """A finding names a file of vstd's and items that it has, in the first cell of its row."""
    for cell in re.findall(r"^\| ([^|]*) \|", text, re.M):
        file, _, rest = cell.partition(",")
        if file not in contracts.VSTD_FILES:
            continue
        have = [item.split(" ", 1)[1] for item in library.items if item.startswith(file.replace("/", "--") + " ")]
        for name in re.findall(r"`([^`]*)`", rest):
            if not any(item == name or re.split(r"::(?=\w+$)", item)[-1] == name for item in have):
                yield "%s has no item %s" % (file, name)


def check_glossary(text, library):
    """A word of the glossary has a meaning, and names, in its last cell, what exists: a definition, a law, a function or a must-fail edit."""
    for word, meaning, names in re.findall(r"^\| ([^|]*) \| ([^|]*) \| ([^|]*) \|$", text, re.M):
        named_there = re.findall(r"`([^`]*)`", names)
        if word not in ("word", "---") and not (meaning.strip() and named_there):
            yield "the word %s has no meaning, or names nothing" % word
        for name in named_there:
            if not library.exists(name) and name not in library.edits and name not in library.functions:
                yield "the word %s names %s, which does not exist" % (word, name)


def check(files, markdown, others, library):
    """All faults of a source, its document and the documents beside it."""
    faults, rows = [], []
    for file in sorted(files):
        for part in contracts.parts(file, files[file]):
            if isinstance(part, Row):
                rows.append(part)
                texts = [part.get("clause", ""), reason(part)]
                for one in ROW_CHECKS:
                    faults.extend("%s: %s: %s" % (part.where, part.get("item", "?"), fault) for fault in one(part, library))
            else:
                texts = [part]
            for text in texts:
                faults.extend("docs/contracts/%s: %s" % (file, fault) for fault in check_words(text, library))
    for name, text in others.items():
        checks = (check_words, check_glossary) if name == "GLOSSARY.md" else (check_words, check_findings)
        faults.extend("docs/%s: %s" % (name, fault) for one in checks for fault in one(text, library))
    faults.extend(check_whole(rows, files, markdown, library))
    return faults, rows


# ---- that each check can fail

DAMAGES = [
    # file, what stands there, what is put in its place, what the fault must say
    ("A", "restated: vstd_integers/Unsigned.wrapping_sub\n", "restated: vstd_integers/Unsigned.wrapping_add\n", "wrapping_sub_kept does not conclude"),
    ("A", "restated: vstd_integers/Unsigned.wrapping_sub\n", "restated: vstd_integers/Unsigned.wrapping_add\n", "nothing restated stands in the contract of pb_u8_wrapping_sub"),
    ("A", "law: vstd_integers/Unsigned.wrapping_sub_kept", "law: vstd_integers/Unsigned.wrapping_sub_holds", "which does not exist"),
    ("A", "law: vstd_integers/Unsigned.wrapping_sub_kept", "law: vstd_integers/Unsigned.wrapping_sub", "which is a definition"),
    ("A", "operation: unsigned_sums::wrapping_sub\n", "operation: unsigned_sums::saturating_sub\n", "no law of it names what stands in the contract"),
    ("A", "operation: unsigned_sums::wrapping_sub\n", "operation: unsigned_sums::wrapping_less\n", "which is no public function"),
    ("A", "operation: unsigned_sums::wrapping_sub\n", "operation: unsigned_sums::wrapping_add\n", "pb_u8_wrapping_sub calls none of"),
    ("A", "export: pb_uN_wrapping_sub\n", "export: pb_uN_wrapping_less\n", "which is no public function"),
    ("A", "export: pb_uN_wrapping_sub\n", "export: pb_u{8,16,32,64}_wrapping_sub\n", "no row names the function pb_usize_wrapping_sub"),
    ("A", "item: std_specs/num u::wrapping_sub\n", "item: std_specs/num u::wrapping_less\n", "vstd has no item"),
    ("A", "item: std_specs/num u::checked_mul\n", "item: std_specs/num u::checked_sub\n", "no row for std_specs--num u::checked_mul"),
    ("A", "pinned: vstd_integers/Pinned.pinned_unsigned\n", "pinned: theory_whole/Fit.wrap\n", "which is a definition"),
    ("A", "pinned: vstd_integers/Pinned.pinned_unsigned\n", "pinned: theory_whole/Wrap.wrap_is\n", "does not pin"),
    ("A", "pinned: vstd_integers/Pinned.pinned_unsigned\n", "pinned: theory_text/Ends.begins_unique\n", "is not of this row"),
    ("A", "pinned: vstd_integers/Pinned.pinned_unsigned\n", "", "its export is not pinned"),
    ("A", "verdict: same\n", "verdict: much the same\n", "is no verdict"),
    ("A", "verdict: same\n", "verdict: same: by and large\n", "has a reason"),
    ("A", "verdict: same\n", "verdict: stronger\n", "has no reason"),
    ("A", "verdict: same\n", "verdict: left out: for now\n", "it is left out and names a function"),
    ("A", "wrong: unsigned_sums/wrapping_sub: one_too_many", "wrong: unsigned_bits/wrapping_sub: one_too_many", "no must-fail edit unsigned_bits/wrapping_sub.one_too_many"),
    ("A", "wrong: unsigned_sums/wrapping_sub: one_too_many, ", "wrong: unsigned_sums/wrapping_sub: ", "no row names the must-fail edit unsigned_sums/wrapping_sub.one_too_many"),
    ("A", "clause: the product modulo 2^w\n", "clause: %s\n" % ("the product modulo 2^w " * 6), "more than"),
    ("A", "clause: the product modulo 2^w\nrestated: vstd_integers/Unsigned.wrapping_mul\n", "restated: vstd_integers/Unsigned.wrapping_mul\nclause: the product modulo 2^w\n", "not in the order"),
    ("A", "theory_whole/Order.numbered)", "theory_whole/Order.counted)", "theory_whole/Order.counted does not exist"),
    ("A", "law: vstd_integers/Compare.cmp_kept\n", "", "no law leads from the contract"),
    ("D", "<[T]>::{first,last,first_mut,", "<[T]>::{first,first_mut,", "no row for no_unwind of std_specs--slice <[T]>::last"),
    ("B", "law: vstd_zeros/Zeros.vstd_trailing_ones_is\n", "law: vstd_zeros/Zeros.vstd_trailing_zeros_is\n", "does not conclude"),
    ("B", "law: vstd_zeros/Zeros.trailing_zeros_facts\n", "law: theory_digits/Facts.low_facts\n", "does not conclude"),
    ("B", "law: vstd_zeros/Zeros.vstd_trailing_zeros_unfolds, vstd_trailing_zeros_is\n", "law: vstd_zeros/Zeros.vstd_trailing_zeros_unfolds\n", "names anything of ours"),
    ("C", "law: kit/Bits.and_mask\n", "law: kit/Bits.and_masks\n", "which does not exist"),
    ("F", "item: beyond vstd\n", "item: beyond vstd\nverdict: same\n", "what is beyond vstd has no verdict"),
]
OTHER_DAMAGES = [
    ("FINDINGS.md", ".longer_clause_open", ".longer_clause_closed"),
    ("FINDINGS.md", "`split_at_mut`", "`split_at_must`"),
    ("GLOSSARY.md", "Fit.wrap`", "Fit.wraps`"),
    ("GLOSSARY.md", "sum_of_255_refused", "sum_of_256_refused"),
    ("GLOSSARY.md", "`theory_whole/Fit.clamp`", "the theory"),
]


def selftest(files, others, library):
    """Each damage is noticed, in the source and in the documents."""
    for letter, old, new, expected in DAMAGES:
        file = next(name for name in files if name.startswith(letter))
        if old not in files[file]:
            yield "docs/check.py: the damage to %r cannot be done: docs/contracts/%s does not have it" % (old.strip(), file)
            continue
        damaged = dict(files, **{file: files[file].replace(old, new, 1)})
        if not any(expected in fault for fault in check(damaged, contracts.document(damaged), others, library)[0]):
            yield "docs/check.py: damage goes unnoticed: %r for %r, with no fault that says %r" % (new.strip(), old.strip(), expected)
    if not check(files, contracts.document(files) + "\n", others, library)[0]:
        yield "docs/check.py: a changed docs/CONTRACTS.md goes unnoticed"
    for file, old, new in OTHER_DAMAGES:
        damaged = dict(others, **{file: others[file].replace(old, new)})
        if not check(files, contracts.document(files), damaged, library)[0]:
            yield "docs/check.py: damage goes unnoticed, or cannot be done: %s for %s in docs/%s" % (new, old, file)


def main():
    faults = []
    library = Library(faults)
    files = contracts.sources()
    others = {name: contracts.read(os.path.join(HERE, name)) for name in ("FINDINGS.md", "BELIEVED.md", "GLOSSARY.md")}
    found, rows = check(files, contracts.read(os.path.join(HERE, "CONTRACTS.md")), others, library)
    faults.extend(found)
    faults.extend(reflow.too_long())
    if not faults:
        faults.extend(selftest(files, others, library))
    for fault in faults:
        print(fault)
    taken = sum(item.split(" ")[0] in TAKEN_UP for item in library.items)
    print("docs: %d rows, %d items of vstd's in the files taken up, %d public functions, %d must-fail edits, %d damages tried, %d faults" % (
        len(rows), taken, len(library.functions), len(library.edits), len(DAMAGES) + len(OTHER_DAMAGES) + 1, len(faults),
    ))
    sys.exit(1 if faults else 0)


if __name__ == "__main__":
    main()
