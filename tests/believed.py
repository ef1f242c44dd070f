#!/usr/bin/env python3
"""What a reader has to believe: the definitions that the contracts of the public calls, and what is stated of several calls,
rest on, transitively.

usage: believed.py [ROOT]                prints them for each of these and for all, and fails where a check below does
       believed.py --table [ROOT]        prints the tables that docs/DESIGN.md shows
       believed.py --write-table [ROOT]  puts them there

Checked, with a line `file:line: what` on standard error for each fault, and exit status 1 if there is one:
 - What any contract or any definition in a definitions file cites, transitively, stands in no file named ...Laws, in `specs/`
   or in `proofs/`.
 - A definitions file, which is any other file of `specs/`, holds no law and imports nothing from a file of laws.
 - No symbol of the library has another meaning in a contract or a definition (`check_meanings`).
 - The tables in docs/DESIGN.md are those that this script prints.
 - Every text that matters was read, and every name in it found: it is read as text, by antt.py and rattle.py.
"""
import os
import re
import sys
from collections import namedtuple

import antt
import rattle

# The public calls: crate and function, or a crate alone for all its functions for C. No crate is named elsewhere here.
CALLS = [
    ("role_file", "read"),
    ("role_question", "ask"),
    ("rule_file", "read"),
    ("rule_question", "ask"),
    ("rule_judge", "judge"),
    ("rule_show", "show"),
    ("role_circle", "circle"),
    ("load_file", "generate"),
    ("right_edits", "fill"),
    ("right_edits", "edit"),
    ("log_denials", "denials"),
    ("mining", "mine"),
    ("mining", "rule_bytes"),
    ("fichtengarn_c", None),
]

# What is stated of more than one use of a call, and so in no contract: crate and definition. A law has it as its type.
STATEMENTS = [
    ("renumbering", "SameRules"),
    ("renumbering", "NewNumbers"),
    ("files", "AnyScratch"),
]

# Symbols with the one module of the library that they may come from. It has others of the same spelling: `◌<◌`,
# `length` and `get_or` over another ℕ, `◌∷◌` of texts, `◌∈◌` of sets that are predicates.
ORIGINS = {
    "Rattle.std.specs.Prelude": "ℕ zero suc ◌+◌ ◌*◌ ◌-◌ ◌/◌ ◌%◌ ◌^◌ ◌≤◌ ◌<◌ min max ◌≡◌ refl ◌⊎◌ ◌≢◌ ◌↔◌"
    " Bool true false cond not ◌&&◌ ◌||◌ List [] ◌∷◌ ◌++◌ map length get_or take drop set replicate eqb ltb leb",
    "Rattle.std.proofs.Math.Logic": "inl inr",
    "mathlib.Core.List": "Memᴰ",
    "Rattle.std.proofs.Math.Option": "Option none some",
    "mathlib.Mathlib.Data.Set.Defs": "◌∈◌ ◌∉◌ ◌⊆◌",
    "Rattle.std.specs.Int.Bits": "bit_and bit_or bit_xor",
}
CORE = {name: module for module, names in ORIGINS.items() for name in names.split()}

# Symbols that another module has as well. The Prelude passes those of lists on as they are. `map` of an Option has the name that
# `map` of a list has; which one is meant is told by what it is given, and no file can bring both. The Option of the code's results has
# the name of that of the definitions; its cases, Some and None, tell it from the other's, and no file can bring both.
ALSO = {("mathlib.Core.List", name) for name in "List [] ◌∷◌ ◌++◌ map".split()}
ALSO |= {("Rattle.std.proofs.Math.Option", "map"), ("Rattle.std.specs.Prelude", "Option")}

# In scope without an import: everywhere, and in contracts.
PRELUDE = "⊥ absurd ¬◌ Unit tt Dec yes no IsProp IsSet Discrete Id J Path ∥◌∥₁ ∣◌∣₁ ◌×◌ ◌→◌".split()
LENT = ["result"]

# Names of the library that stand for themselves in a pattern; any other name there is bound by it.
CONSTRUCTORS = "zero suc true false [] ◌∷◌ none some inl inr tt yes no refl Some None Ok Err".split()

DESIGN = "docs/DESIGN.md"
BEGIN, END = "<!-- believed: begin -->", "<!-- believed: end -->"

Library = namedtuple("Library", "module name")
Fault = namedtuple("Fault", "path line what")


# ---- the files


class Entry:
    """What can be cited: a definition, a law, a type of the code; and a contract."""

    def __init__(self, path, name, kind, line, rows):
        self.path = path
        self.name = name
        self.kind = kind
        self.line = line
        self.lines = len(rows)
        self.read = None
        self._citations = None

    def citations(self):
        if self._citations is None:
            self._citations = self.read()
        return self._citations

    def title(self):
        return "the contract of " + self.name if self.kind == "contract" else self.name


def is_laws(path):
    return path.endswith("Laws.antt")


class Spec:
    """A file of a crate's `specs/`, or one of laws of its `proofs/`."""

    def __init__(self, tree, crate, path):
        self.tree = tree
        self.crate = crate
        self.path = path
        self.file = antt.File(tree.text(path))
        self.entries = {}
        self._scope = None
        for item in self.file.items:
            entry = Entry(path, item.name, item.kind, item.line, item.rows())
            entry.read = lambda item=item, entry=entry: self.cited(item, entry)
            for name, line in item.names():
                self.entries.setdefault(name, entry)

    def definitions(self):
        return [entry for name, entry in self.entries.items() if name == entry.name and entry.kind != "law"]

    def scope(self):
        if self._scope is None:
            self._scope = self.tree.scope(self, PRELUDE)
            for name, entry in self.entries.items():
                self._scope.add(name, entry, name != entry.name)
        return self._scope

    def cited(self, item, entry):
        citations = antt.Citations(self.scope(), self.tree.by_path)
        try:
            citations.item(item)
        except antt.NotRead as what:
            self.tree.fault(self.path, item.line, "%s is not read: %s" % (item.name, what))
        citations.cited.pop(entry, None)
        return citations


class Source:
    """A file of a crate's `src/`."""

    def __init__(self, tree, crate, path):
        self.tree = tree
        self.crate = crate
        self.path = path
        self.file = rattle.File(tree.text(path))
        self._scope = None
        self.types = {piece.name: self.type(piece) for piece in self.file.types}
        self.contracts = [self.contract(function) for function in self.file.functions]
        self.members = [self.member(piece) for piece in self.file.members]

    def scope(self):
        if self._scope is None:
            self._scope = self.tree.scope(self, PRELUDE + LENT + ["Self"])
        return self._scope

    def type(self, piece):
        entry = Entry(self.path, piece.name, piece.kind, piece.line, piece.rows)
        entry.read = lambda: self.trait(piece) if piece.kind == "trait" else self.types_in(piece)
        return entry

    def trait(self, piece):
        """What a trait promises rests on its ghost members, and on those of its impls, which stand in its file."""
        citations = self.types_in(piece)
        for member in self.members:
            citations.cited.update(member.citations().cited)
        return citations

    def member(self, piece):
        entry = Entry(self.path, piece.name, "contract", piece.line, ())
        entry.read = lambda: self.member_cited(piece)
        return entry

    def member_cited(self, piece):
        citations = antt.Citations(self.scope(), self.tree.by_path)
        names = citations.bind(self.file.generics(0, 0), frozenset())
        try:
            citations.part(antt.nodes_of(piece.rows), names)
        except antt.NotRead as what:
            self.tree.fault(self.path, piece.line, "the ghost member %s is not read: %s" % (piece.name, what))
        return citations

    def contract(self, function):
        entry = Entry(self.path, function.name, "contract", function.line, ())
        entry.crate = self.crate
        entry.function = function
        entry.read = lambda: self.cited(function)
        return entry

    def types_in(self, piece):
        """The types and constants of the project's code that a type or a signature names."""
        citations = antt.Citations(antt.Scope())
        named = [(self.file.used.get(name), name) for name in piece.words]
        named += [(self.file.used.get(first, first), name) for first, name in piece.paths]
        for crate, name in named:
            entry = self.types.get(name) or self.tree.type(self.crate if crate == "crate" else crate, name)
            if entry and name != piece.name:
                citations.cited[entry] = piece.line
        return citations

    def cited(self, function):
        citations = antt.Citations(self.scope(), self.tree.by_path)
        parameters = citations.bind(function.parameters, frozenset())
        for rows in function.clauses:
            try:
                citations.part(antt.nodes_of(rows), parameters)
            except antt.NotRead as what:
                self.tree.fault(self.path, rows[0][0], "a contract of %s is not read: %s" % (function.name, what))
        citations.cited.update(self.types_in(function).cited)
        return citations


class Tree:
    """The files of all crates, and the faults found in them."""

    def __init__(self, root):
        self.root = root
        self.faults = set()
        rows = [row for row in self.text("crates.txt").split("\n") if ":" in row.partition("#")[0]]
        self.crates = [row.split(":")[0].split()[0] for row in rows]
        self.specs = {**self.files("specs", ".antt", Spec), **self.files("proofs", "Laws.antt", Spec)}
        self.sources = self.files("src", ".rt", Source)

    def text(self, path):
        with open(os.path.join(self.root, path), encoding="utf-8") as file:
            return file.read()

    def files(self, folder, ending, make):
        found = {}
        for crate in self.crates:
            for base, folders, names in os.walk(os.path.join(self.root, "crates", crate, folder)):
                folders.sort()
                for name in sorted(names):
                    path = os.path.relpath(os.path.join(base, name), self.root)
                    if name.endswith(ending):
                        found[path] = make(self, crate, path)
        return found

    def place(self, path):
        """The place in crates.txt of the crate that a file belongs to."""
        return self.crates.index(path.split("/")[1])

    def fault(self, path, line, what):
        self.faults.add(Fault(path, line, what))

    def definitions_files(self):
        return [spec for path, spec in self.specs.items() if not is_laws(path)]

    def contracts(self):
        return [contract for source in self.sources.values() for contract in source.contracts]

    def believable(self):
        """All contracts, ghost members, and all definitions that stand where a reader looks for them."""
        members = [member for source in self.sources.values() for member in source.members]
        return self.contracts() + members + [entry for spec in self.definitions_files() for entry in spec.definitions()]

    def type(self, crate, name):
        """The struct, enum, alias or constant of the code of a crate."""
        for source in self.sources.values():
            if source.crate == crate and name in source.types:
                return source.types[name]
        return None

    def target(self, path, name):
        """What a name of a module stands for: an entry or a symbol of the library; none if the module lacks it."""
        match = re.match(r"Rattle\.(\w+)\.(.+)$", path)
        if not match or match.group(1) not in self.crates:
            return Library(path, name)
        crate, parts = match.group(1), match.group(2).split(".")
        if parts[:2] == ["specs", "declared"]:
            return self.type(crate, [part for part in parts if part != "TheVariants"][-1])
        spec = self.specs.get("/".join(["crates", crate] + parts) + ".antt")
        return spec.entries.get(name) if spec else None

    def by_path(self, text):
        """What a text names by its whole path."""
        path, dot, name = text.rpartition(".")
        target = self.target(path, name) if dot else None
        if isinstance(target, Library) and path.split(".")[0] not in ("Prim", "lib", "mathlib", "native", "borrow", "Rattle"):
            return []
        return [target] if target else []

    def imports(self, file):
        """What a file imports, each with what it stands for."""
        return [(brought, self.target(brought.path, brought.original)) for brought in file.file.imports]

    def scope(self, file, given):
        """The names that a file has without declaring them."""
        scope = antt.Scope()
        scope.modules = getattr(file.file, "modules", {})
        for name in given:
            scope.add(name, Library("Prim", name), name in CONSTRUCTORS)
        for brought, target in self.imports(file):
            if target is None:
                what = "imports %s, which %s does not have" % (brought.original, brought.path)
                self.fault(file.path, brought.line, what)
            else:
                scope.add(brought.name, target, is_constructor(brought, target))
        return scope


def is_constructor(brought, target):
    if isinstance(target, Library):
        return brought.original in CONSTRUCTORS
    return brought.path.endswith(".TheVariants") or target.kind == "data" and brought.original != target.name


# ---- what rests on what


def closure(starts):
    """All that these cite, transitively, with themselves: entries, and symbols of the library."""
    entries, symbols, waiting = set(), set(), list(starts)
    while waiting:
        target = waiting.pop()
        if isinstance(target, Library):
            symbols.add(target)
        elif target not in entries:
            entries.add(target)
            waiting += target.citations().cited
    return entries, symbols


def is_call(contract, crate, name):
    function = contract.function
    wanted = function.exported if name is None else function.public and function.name == name
    return wanted and contract.crate == crate


def calls(tree):
    """The public calls: the label and the contract of each."""
    found = []
    for crate, name in CALLS:
        contracts = [contract for contract in tree.contracts() if is_call(contract, crate, name)]
        found += [("%s::%s" % (crate, contract.name), contract) for contract in contracts]
        if not contracts:
            tree.fault("crates.txt", 1, "no public call %s in the crate %s" % (name or "for C", crate))
    return found


def statements(tree):
    """What is stated of several uses: the label and the definition of each."""
    found = []
    for crate, name in STATEMENTS:
        specs = [spec for spec in tree.definitions_files() if spec.crate == crate and name in spec.entries]
        found += [("%s, %s" % (crate, name), spec.entries[name]) for spec in specs]
        if not specs:
            tree.fault("crates.txt", 1, "no statement %s in the definitions of the crate %s" % (name, crate))
    return found


def promises(tree):
    """Calls and statements, each with its label."""
    return calls(tree) + statements(tree)


def believed(starts):
    """What a reader of these contracts and statements has to believe."""
    entries, symbols = closure(starts)
    return {entry for entry in entries if entry.kind != "contract"}, symbols


def by_file(tree, entries):
    """The entries of each file in the order of the text, files in the order of crates.txt."""
    found = {}
    for entry in sorted(entries, key=lambda entry: (tree.place(entry.path), entry.path, entry.line)):
        found.setdefault(entry.path, []).append(entry)
    return list(found.items())


def lines_of(entries):
    """How many lines they have; comments, blank lines and the `module` lines above them do not count."""
    return sum(entry.lines for entry in entries)


# ---- checks


def check_laws(tree):
    """What contracts and definitions cite, transitively, stands in no file of laws."""
    for entry in closure(tree.believable())[0]:
        for target, line in entry.citations().cited.items():
            if isinstance(target, Entry) and is_laws(target.path):
                what = "%s cites %s, which stands in %s:%d"
                tree.fault(entry.path, line, what % (entry.title(), target.name, target.path, target.line))


def check_definitions_files(tree):
    """Definitions files hold definitions alone, and import from definitions files alone."""
    for spec in tree.definitions_files():
        for item in spec.file.items:
            if item.kind == "law":
                tree.fault(spec.path, item.line, "%s is a law in a definitions file" % item.name)
        for brought, target in tree.imports(spec):
            if isinstance(target, Entry) and is_laws(target.path):
                tree.fault(spec.path, brought.line, "imports %s from %s" % (brought.original, target.path))
        if os.path.basename(spec.path) == "Lib.antt" and (spec.file.items or spec.file.imports):
            tree.fault(spec.path, 1, "holds more than the names of modules")


def check_read(tree):
    """All text that matters was read, and every name in it found."""
    for file in tree.definitions_files() + list(tree.sources.values()):
        for line, what in file.file.not_read:
            tree.fault(file.path, line, "is not read: " + what)
    for spec in tree.definitions_files():
        names = [named for item in spec.file.items for named in item.names()]
        for i, (name, line) in enumerate(names):
            if name in [other for other, first in names[:i]]:
                tree.fault(spec.path, line, "%s is declared twice, and is not read" % name)
    for entry in closure(tree.believable())[0]:
        for name, line in entry.citations().unknown if entry.kind != "law" else ():
            tree.fault(entry.path, line, "%s names %s, which is not found" % (entry.title(), name))
    for folder in sorted(os.listdir(os.path.join(tree.root, "crates"))):
        if folder not in tree.crates:
            tree.fault("crates/" + folder, 1, "is not in crates.txt")


def library_names(tree):
    """Names with a meaning in the library: in scope without an import, the core, and all that the project imports."""
    names = set(PRELUDE) | set(LENT) | set(CORE)
    for file in list(tree.specs.values()) + list(tree.sources.values()):
        names |= {brought.original for brought, target in tree.imports(file) if isinstance(target, Library)}
    return names


def check_meanings(tree):
    """No symbol of the library has another meaning in a contract or a definition.

    Looked at are definitions files and contracts. No definition, type or constructor may have such a name, no import
    may bring something else under it, and each name comes from one module of the library. A name that is bound (a
    parameter, a pattern, a field for the fields below it) may not be an operator of the library. It may be a word such
    as `set`, but may not be used in a file that imports this word, where it could be read as either. A field that is
    only projected, `r .length`, cannot be read as the library's.
    """
    names = library_names(tree)
    origins = dict(CORE)
    for spec in tree.definitions_files():
        check_names(tree, spec, names)
    for file in tree.definitions_files() + list(tree.sources.values()):
        for brought, target in tree.imports(file):
            check_import(tree, file, brought, target, names, origins)
    for entry in tree.believable():
        check_bound(tree, entry, names)


def check_names(tree, spec, names):
    declared = {name for item in spec.file.items for name, line in item.names()}
    for item in spec.file.items:
        for name, line in item.names() if item.kind != "law" else ():
            if name in names:
                tree.fault(spec.path, line, "%s is a symbol of the library and is given another meaning" % name)
    for line, name in spec.file.fixities:
        if name in names - declared:
            tree.fault(spec.path, line, "%s is a symbol of the library and is given another fixity" % name)


def check_import(tree, file, brought, target, names, origins):
    """An import brings a symbol of the library under its own name, and from the module that others bring it from."""
    is_code = isinstance(target, Entry) and target.path.endswith(".rt")
    if brought.name in names and (brought.name != brought.original or is_code):
        what = "brings %s of %s under the name %s of a symbol of the library"
        tree.fault(file.path, brought.line, what % (brought.original, brought.path, brought.name))
    elif isinstance(target, Library) and brought.name == brought.original:
        origin = origins.setdefault(brought.name, brought.path)
        if origin != brought.path and (brought.path, brought.name) not in ALSO:
            what = "brings %s from %s in place of %s"
            tree.fault(file.path, brought.line, what % (brought.name, brought.path, origin))


def check_bound(tree, entry, names):
    citations = entry.citations()
    for name, line in citations.bound:
        if name in names and antt.operator_parts(name):
            tree.fault(entry.path, line, "%s binds %s, a symbol of the library" % (entry.title(), name))
    for target, line in citations.hiding:
        if isinstance(target, Library):
            what = "%s uses a name %s of its own, which the file imports from %s"
            tree.fault(entry.path, line, what % (entry.title(), target.name, target.module))


# ---- what is printed


def counted(entries):
    """Types of the code count as definitions."""
    return "%d definitions, %d lines" % (len(entries), lines_of(entries))


def listing(tree, entries):
    rows = []
    for path, found in by_file(tree, entries):
        rows.append("  %s: %s: %s" % (path, counted(found), " ".join(entry.name for entry in found)))
    return rows


def by_module(symbols):
    """The symbols of the library with their modules."""
    modules = sorted({symbol.module for symbol in symbols})
    return [(module, sorted(symbol.name for symbol in symbols if symbol.module == module)) for module in modules]


def report(tree):
    rows = []
    for label, promise in promises(tree):
        entries = believed([promise])[0]
        rows.append("%s (%s:%d): %s" % (label, promise.path, promise.line, counted(entries)))
        rows += listing(tree, entries) + [""]
    entries, symbols = believed([promise for label, promise in promises(tree)])
    rows += ["all of these: " + counted(entries)] + listing(tree, entries) + ["", "symbols of the library:"]
    rows += ["  %s: %s" % (module, " ".join(names)) for module, names in by_module(symbols)]
    return rows


def cell(text):
    return text.replace("|", "\\|")


def what_file_says(tree, path):
    return cell((tree.specs.get(path) or tree.sources[path]).file.comment)


def table(tree):
    """The tables of docs/DESIGN.md."""
    entries, symbols = believed([promise for label, promise in promises(tree)])
    rows = ["| file | what it says | definitions | lines |", "| --- | --- | ---: | ---: |"]
    for path, found in by_file(tree, entries):
        rows.append("| `%s` | %s | %d | %d |" % (path, what_file_says(tree, path), len(found), lines_of(found)))
    types = {entry for entry in entries if entry.path.endswith(".rt")}
    for what, found in (("all definitions", entries - types), ("all types of the code", types), ("all", entries)):
        rows.append("| %s | | %d | %d |" % (what, len(found), lines_of(found)))
    rows.append("")
    rows += ["| call or statement | definitions | lines |", "| --- | ---: | ---: |"]
    for label, promise in promises(tree):
        found = believed([promise])[0]
        rows.append("| `%s` | %d | %d |" % (label, len(found), lines_of(found)))
    rows += ["", "Symbols of the library that they use:", ""]
    rows += ["- `%s`: %s" % (module, " ".join("`%s`" % name for name in names)) for module, names in by_module(symbols)]
    return rows


def shown(text):
    """The lines between the two marks, with where they begin; none if the marks are missing."""
    rows = text.split("\n")
    if BEGIN not in rows or END not in rows:
        return None, 1
    start = rows.index(BEGIN) + 1
    return rows[start : rows.index(END)], start


def check_table(tree):
    rows, start = shown(tree.text(DESIGN))
    wanted = table(tree)
    if rows is None:
        tree.fault(DESIGN, start, "has no tables between %s and %s" % (BEGIN, END))
    elif rows != wanted:
        pairs = list(zip(rows + [None], wanted + [None]))
        first = next((i for i, (row, other) in enumerate(pairs) if row != other), len(pairs))
        tree.fault(DESIGN, start + 1 + first, "the tables are not what --table prints")


def write_table(tree):
    text = tree.text(DESIGN)
    before, between = text.split(BEGIN + "\n")
    after = between.split(END)[1]
    with open(os.path.join(tree.root, DESIGN), "w", encoding="utf-8") as file:
        file.write(before + "\n".join([BEGIN] + table(tree) + [END]) + after)


def check(tree):
    check_laws(tree)
    check_definitions_files(tree)
    check_read(tree)
    check_meanings(tree)
    check_table(tree)
    for fault in sorted(tree.faults):
        print("%s:%d: %s" % fault, file=sys.stderr)
    return 1 if tree.faults else 0


def main(arguments):
    options = [argument for argument in arguments if argument.startswith("--")]
    places = [argument for argument in arguments if not argument.startswith("--")]
    if len(places) > 1 or options not in ([], ["--table"], ["--write-table"]):
        print(__doc__.split("\n\n")[1], file=sys.stderr)
        return 2
    tree = Tree(places[0] if places else ".")
    if options == ["--table"]:
        print("\n".join(table(tree)))
        return 0
    if options == ["--write-table"]:
        write_table(tree)
        return 0
    print("\n".join(report(tree)))
    status = check(tree)
    entries = believed([promise for label, promise in promises(tree)])[0]
    print("believed: %s in all calls and statements; %d faults" % (counted(entries), len(tree.faults)))
    return status


if __name__ == "__main__":
    sys.exit(main(sys.argv[1:]))
