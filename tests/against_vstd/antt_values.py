"""The restated definitions, evaluated: every function of a specs file, and of the files that it imports, becomes a function of Python. A value of a data type
is a tuple of its constructor's name and arguments, a record a dictionary; a function into types is whether the proposition holds."""
import functools
import glob
import os
import re

import kit
from antt_expressions import Expression, mangled, names_in
from antt_text import module_of
from faults import Fault, NotUnderstood

THEIRS = re.compile(r"Rattle\.(?!std\.)(\w+)\.specs\.(.+)$")
RESTATING = "vstd_*"
REMEMBERED = 1 << 12


class Record(dict):
    def __hash__(self):
        return hash(tuple(self.items()))


class Definitions:
    """The specs files under `root`/crates. `changed` has other texts for some of them, under their paths."""

    def __init__(self, root, changed=None):
        self.root, self.changed, self.modules, self.read, self.places = root, changed or {}, {}, {}, {}
        self.namespace = {**kit.FUNCTIONS, "Record": Record, "remembered": functools.lru_cache(maxsize=REMEMBERED)}

    def text(self, path):
        if path not in self.read:
            with open(os.path.join(self.root, path), encoding="utf-8") as file:
                self.read[path] = file.read()
        return self.changed.get(path, self.read[path])

    def restated(self, names):
        """The modules of these names, of those that are there: all in one of the crates that restate vstd."""
        if names not in self.places:
            found = [path for name in names for path in glob.glob(os.path.join(self.root, "crates", RESTATING, "specs", name + ".antt"))]
            self.places[names] = [os.path.relpath(path, self.root) for path in found]
            if len({os.path.dirname(path) for path in self.places[names]}) != 1:
                raise Fault("%s.antt should be in the specs of one crate %s, and is: %s" % (" or ".join(names), RESTATING, " ".join(found) or "nowhere"))
        return [self.module(path) for path in self.places[names]]

    def module(self, path):
        if path not in self.modules:
            self.modules[path] = None
            self.modules[path] = module_of(path, self.text(path), self.fixity)
            for name in self.modules[path].functions:
                self.define(self.modules[path], name)
        if self.modules[path] is None:
            raise Fault("%s imports itself" % path)
        return self.modules[path]

    def imported(self, path):
        """The module that a `use` names, or None for one of the kit's."""
        theirs = THEIRS.match(path)
        if theirs and theirs.group(2).startswith("declared."):
            return self.declared(theirs.group(1), theirs.group(2).split(".")[1])
        if theirs:
            return self.module("crates/%s/specs/%s.antt" % (theirs.group(1), theirs.group(2).replace(".", "/")))
        if path.startswith(kit.MODULES):
            return None
        raise Fault("a module %s that is neither the kit's nor a crate's specs" % path)

    def declared(self, crate, name):
        """The variants of a type that code and definitions share: `enum NAME` of the crate's source."""
        key = "declared %s %s" % (crate, name)
        if key not in self.modules:
            path = "crates/%s/src/lib.rt" % crate
            variants = re.search(r"enum %s \{([\w\s,]*)\}" % name, self.text(path))
            if not variants:
                raise Fault("%s declares no enum %s of plain variants" % (path, name))
            self.modules[key] = module_of(path, "", self.fixity)
            self.modules[key].constructors.update((variant, 0) for variant in re.findall(r"\w+", variants.group(1)))
        return self.modules[key]

    def fixity(self, path, operator):
        theirs = self.imported(path)
        return theirs.fixities[operator] if theirs else kit.FIXITIES[operator]

    @staticmethod
    def python_name(module, name):
        return "d_%s_%s" % (mangled(module.file), mangled(name))

    def arity(self, module, name):
        return len(module.functions[name][0][1])

    def define(self, module, name):
        clauses = module.functions[name]
        if not clauses or len({len(patterns) for _, patterns, _ in clauses}) != 1:
            raise Fault("%s: %s has no clauses, or of different length" % (module.file, name))
        arity = len(clauses[0][1])
        lines = ["def %s(%s):" % (self.python_name(module, name), ", ".join("a%d" % place for place in range(arity)))]
        for _, patterns, right in clauses:
            tests, bound = [], {}
            for place, pattern in enumerate(patterns):
                self.matched(module, pattern, "a%d" % place, tests, bound)
            lines += ["    if %s:" % (" and ".join(tests) or "True"), *("        v_%s = %s" % (mangled(name), code) for name, code in bound.items())]
            lines.append("        return " + Expression(self, module, set(bound)).of(right))
        lines.append("    raise ValueError('no clause of %s')" % self.python_name(module, name))
        exec("\n".join((["@remembered"] if arity == 1 else []) + lines), self.namespace)

    def matched(self, module, pattern, code, tests, bound):
        """Adds what a pattern tests of a value, and what its names stand for."""
        (form, line), parts = pattern[:2], []
        head, arguments = (pattern[2][2], pattern[3]) if form == "apply" else ("◌%s◌" % pattern[2], pattern[3:]) if form == "operator" else (pattern[2], [])
        if form == "number":
            tests.append("%s == %d" % (code, pattern[2]))
        elif head in ("zero", "suc"):
            tests.append("%s %s 0" % (code, "==" if head == "zero" else ">"))
            parts = ["(%s - 1)" % code]
        elif head in ("pos", "negsuc"):
            tests.append("%s %s 0" % (code, ">=" if head == "pos" else "<"))
            parts = [code if head == "pos" else "(-1 - %s)" % code]
        elif head in ("true", "false"):
            tests.append("%s is %s" % (code, head.capitalize()))
        elif head in ("[]", "◌∷◌"):
            tests.append(("not %s" if head == "[]" else "%s") % code)
            parts = ["%s[0]" % code, "%s[1:]" % code]
        elif self.constructor(module, head) is not None:
            tests.append("%s[0] == %r" % (code, head))
            parts = ["%s[%d]" % (code, place + 1) for place in range(self.constructor(module, head))]
        elif form == "name":
            bound[head] = code
        else:
            raise NotUnderstood(module.file, line, "the pattern %s" % head)
        if arguments:
            if len(arguments) != len(parts):
                raise NotUnderstood(module.file, line, "the pattern %s with %d arguments" % (head, len(arguments)))
            for argument, part in zip(arguments, parts):
                self.matched(module, argument, part, tests, bound)

    def home(self, module, name):
        """The module that defines a name, or None where it is the kit's."""
        if name in module.functions or name in module.records or name in module.constructors:
            return module
        return self.imported(module.imports[name]) if name in module.imports else None

    def constructor(self, module, name):
        home = self.home(module, name)
        return home.constructors.get(name) if home else kit.VARIANTS.get(name) if name in module.imports else None

    def function(self, module, name):
        """A definition, a record of facts among them, as a function of Python."""
        if name in module.functions:
            return self.namespace[self.python_name(module, name)]
        if name in module.records:
            facts = self.facts(module, name)
            return lambda *given: all(fact(*given) for fact in facts)
        raise Fault("%s has no definition %s" % (module.file, name))

    def facts(self, module, name):
        """Each fact of a record, as a function of the record's parameters."""
        _, parameters, fields = module.records[name]
        read = Expression(self, module, set(parameters))
        names = ", ".join("v_" + mangled(parameter) for parameter in parameters)
        return [eval("lambda %s: %s" % (names, read.of(fact)), self.namespace) for _, fact in fields]

    def reached(self, start):
        """The definitions that these (module's file, name) are made of, themselves among them."""
        found, waiting = set(), list(start)
        while waiting:
            file, name = waiting.pop()
            module = self.modules[file]
            if (file, name) in found or (name not in module.functions and name not in module.records):
                continue
            found.add((file, name))
            parts = [right for _, _, right in module.functions[name]] if name in module.functions else [fact for _, fact in module.records[name][2]]
            for used in names_in(parts):
                home = self.home(module, used)
                if home and home.file in self.modules:
                    waiting.append((home.file, used))
        return found

    def parameters(self, module, name):
        """How many arguments a definition takes."""
        return len(module.records[name][1]) if name in module.records else self.arity(module, name)
