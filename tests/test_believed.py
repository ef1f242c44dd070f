#!/usr/bin/env python3
"""believed.py fails where it should: a small made-up tree passes, and with a fault put into it just that one is told.

The last test puts faults into the project's own tree, in memory.
"""
import contextlib
import io
import os
import tempfile
import unittest

import believed

ROOT = os.path.join(os.path.dirname(os.path.abspath(__file__)), "..")

LISTS = "crates/base/specs/Lists.antt"
LAWS = "crates/base/specs/ListLaws.antt"
NUMBERS = "crates/call/specs/Deep/Numbers.antt"
CODE = "crates/call/src/lib.rt"

OWN_LENGTH = "uses a name length of its own, which the file imports from Rattle.std.specs.Prelude"

FILES = {
    "crates.txt": "base:\ncall: base\n",
    "crates/base/specs/Lib.antt": "pub mod Lists\npub mod ListLaws\n",
    LISTS: """-- Lists of numbers. Made up.
-- Assumes nothing.
use Rattle.std.specs.Prelude.{ℕ, ◌+◌, length, List, [], ◌∷◌}

-- how long two lists are together
unfoldable pub both : List ℕ → List ℕ → ℕ
both x y = length x + length y

pub data Answer : Type 0 where
  refused : ℕ → Answer
  -- a number
  accepted : ℕ → Answer

pub record Pair : Type 0 where
  pub length : ℕ
  pub twice : ℕ

module _ (x : List ℕ) where
  unfoldable pub answer : List ℕ → Answer
  answer [] = refused 2
  answer (n ∷ y) = accepted (let m = both x y in m + n)

abbrev pub unused : Pair → ℕ
unused p = p.length
""",
    LAWS: """-- Laws of lists. Made up.
use Rattle.std.specs.Prelude.{ℕ, ◌+◌, length, List, [], ◌≡◌, refl}
use Rattle.base.specs.Lists.{both}

abbrev pub one : ℕ
one = 1

abbrev pub short : List ℕ → ℕ
short x = one + length x

pub none-longer : both [] [] ≡ 0
unfolding both
none-longer = refl
""",
    "crates/base/src/lib.rt": "// No code.\n",
    "crates/call/specs/Lib.antt": "pub mod Deep\n",
    "crates/call/specs/Deep.antt": "pub mod Numbers\n",
    NUMBERS: """-- The numbers of answers. Made up.
use Rattle.std.specs.Prelude.{ℕ}
use Rattle.base.specs.Lists.{Answer, refused, accepted}

abbrev pub number_of : Answer → ℕ
number_of (refused n) = n
number_of (accepted n) = 0
""",
    CODE: """// A call. Made up.
ghost use Rattle.std.specs.Prelude.{◌≡◌, length};
ghost use Rattle.base.specs.Lists.{answer};
ghost use Rattle.call.specs.Deep.Numbers.{number_of};

// What is told.
pub struct Told {
    pub number: usize, // 01's
}

fn many(s: &[u8]) -> usize
    ensures { result ≡ length s.now }
{
    s.len()
}

pub fn ask(first: &[u8], second: &[u8]) -> Told
    ensures numbered { result.number ≡ number_of (answer first.now second.now) }
{
    Told { number: 0 }
}
""",
    "docs/DESIGN.md": "# Design\n\n%s\n%s\n\nMore.\n" % (believed.BEGIN, believed.END),
}


def write(root, files):
    for path, text in files.items():
        os.makedirs(os.path.dirname(os.path.join(root, path)), exist_ok=True)
        with open(os.path.join(root, path), "w", encoding="utf-8") as file:
            file.write(text)


def line_of(text, part):
    """The number of the first line that has this part."""
    return next(number for number, row in enumerate(text.split("\n"), 1) if part in row)


class MadeUp(unittest.TestCase):
    def setUp(self):
        folder = tempfile.TemporaryDirectory()
        self.addCleanup(folder.cleanup)
        self.root = folder.name
        self.files = dict(FILES)
        self.look_at("CALLS", [("call", "ask")])
        self.look_at("STATEMENTS", [])
        write(self.root, self.files)
        self.run_script("--write-table")

    def look_at(self, name, value):
        self.addCleanup(setattr, believed, name, getattr(believed, name))
        setattr(believed, name, value)

    def run_script(self, *options):
        """Exit status, what is printed, and the faults."""
        out, errors = io.StringIO(), io.StringIO()
        with contextlib.redirect_stdout(out), contextlib.redirect_stderr(errors):
            status = believed.main(list(options) + [self.root])
        return status, out.getvalue(), errors.getvalue().splitlines()

    def put(self, path, old, new):
        self.assertIn(old, self.files[path])
        self.files[path] = self.files[path].replace(old, new, 1)
        write(self.root, {path: self.files[path]})

    def faults(self, *wanted):
        """These faults are told, at the lines that have these parts, and no others. DESIGN's tables are new."""
        self.run_script("--write-table")
        status, out, errors = self.run_script()
        self.assertEqual(status, 1)
        places = ["%s:%d: %s" % (path, line_of(self.files[path], part), what) for path, part, what in wanted]
        self.assertEqual(sorted(errors), sorted(places))

    def passes(self):
        self.run_script("--write-table")
        status, out, errors = self.run_script()
        self.assertEqual((status, errors), (0, []))
        return out

    # ---- healthy

    def test_healthy(self):
        out = self.passes()
        self.assertIn("call::ask (%s:%d): 5 definitions, 14 lines\n" % (CODE, line_of(FILES[CODE], "pub fn ask")), out)
        self.assertIn("  %s: 3 definitions, 8 lines: both Answer answer\n" % LISTS, out)
        self.assertIn("  %s: 1 definitions, 3 lines: Told\n" % CODE, out)
        self.assertIn("  Rattle.std.specs.Prelude: List [] length ℕ ◌+◌ ◌∷◌ ◌≡◌\n", out)

    def test_table(self):
        status, out, errors = self.run_script("--table")
        self.assertIn("| `%s` | Lists of numbers. Made up. | 3 | 8 |\n" % LISTS, out)
        self.assertIn("| all definitions | | 4 | 11 |\n| all types of the code | | 1 | 3 |\n| all | | 5 | 14 |\n", out)
        self.assertIn("| `call::ask` | 5 | 14 |\n", out)

    # ---- what stands in files of laws

    def test_contract_cites_laws(self):
        self.put(CODE, "Lists.{answer};", "Lists.{answer};\nghost use Rattle.base.specs.ListLaws.{one};")
        self.put(CODE, "length s.now", "one")
        self.faults((CODE, "≡ one", "the contract of many cites one, which stands in %s:5" % LAWS))

    def test_definition_two_steps_away(self):
        self.put(LISTS, "use Rattle.std", "use Rattle.base.specs.ListLaws.{short}\nuse Rattle.std")
        self.put(LISTS, "both x y = length x", "both x y = short x")
        self.faults(
            (LISTS, "{short}", "imports short from %s" % LAWS),
            (LISTS, "both x y", "both cites short, which stands in %s:8" % LAWS),
            (LAWS, "short x =", "short cites one, which stands in %s:5" % LAWS),
        )

    def brings_one(self, path):
        """The file imports `one` from the laws; that fault is told too."""
        self.put(path, "use Rattle.std", "use Rattle.base.specs.ListLaws.{one}\nuse Rattle.std")
        return path, "{one}", "imports one from %s" % LAWS

    def test_cited_in_a_module_line(self):
        brought = self.brings_one(LISTS)
        self.put(LISTS, "module _ (x : List ℕ)", "module _ (x : List ℕ) (n : Path ℕ one one)")
        self.faults(brought, (LISTS, "module _", "answer cites one, which stands in %s:5" % LAWS))

    def test_cited_in_a_signature(self):
        brought = self.brings_one(NUMBERS)
        self.put(NUMBERS, "number_of : Answer →", "number_of : Answer → Path ℕ one one →")
        self.faults(brought, (NUMBERS, "number_of : Answer", "number_of cites one, which stands in %s:5" % LAWS))

    def test_cited_in_a_helper(self):
        brought = self.brings_one(NUMBERS)
        helper = "number_of (accepted n) = go n\n  where\n    go : ℕ → ℕ\n    go m = one"
        self.put(NUMBERS, "number_of (accepted n) = 0", helper)
        self.faults(brought, (NUMBERS, "go m = one", "number_of cites one, which stands in %s:5" % LAWS))

    def test_cited_in_a_pattern(self):
        self.put(LAWS, "abbrev pub one", "pub data Kind : Type 0 where\n  single : Kind\n\nabbrev pub one")
        self.put(NUMBERS, "use Rattle.std", "use Rattle.base.specs.ListLaws.{single}\nuse Rattle.std")
        self.put(NUMBERS, "number_of (accepted n) = 0", "number_of (accepted n) = elim n [ single ↦ 0 ]")
        self.faults(
            (NUMBERS, "{single}", "imports single from %s" % LAWS),
            (NUMBERS, "elim", "number_of cites Kind, which stands in %s:5" % LAWS),
        )

    def test_own_name_is_not_cited(self):
        self.put(LISTS, "both x y = length x + length y", "both one short = length one + length short")
        self.passes()

    # ---- laws in definitions files

    def test_law_in_definitions(self):
        self.put(NUMBERS, "abbrev pub number_of", "pub numbers : ℕ → ℕ\nnumbers n = n\n\nabbrev pub number_of")
        self.faults((NUMBERS, "pub numbers", "numbers is a law in a definitions file"))

    def test_private_law_in_a_block(self):
        self.put(LISTS, "  unfoldable pub answer", "  longer : ℕ\n  longer = length x\n\n  unfoldable pub answer")
        self.faults((LISTS, "  longer :", "longer is a law in a definitions file"))

    def test_import_from_laws(self):
        self.put(NUMBERS, "use Rattle.std", "use Rattle.base.specs.ListLaws.{none-longer}\nuse Rattle.std")
        self.faults((NUMBERS, "none-longer", "imports none-longer from %s" % LAWS))

    def test_import_from_proofs(self):
        self.files["crates/base/proofs/MoreLaws.antt"] = self.files[LAWS]
        write(self.root, self.files)
        self.put(NUMBERS, "use Rattle.std", "use Rattle.base.proofs.MoreLaws.{one}\nuse Rattle.std")
        self.put(NUMBERS, "number_of (accepted n) = 0", "number_of (accepted n) = one")
        self.faults(
            (NUMBERS, "{one}", "imports one from crates/base/proofs/MoreLaws.antt"),
            (NUMBERS, "= one", "number_of cites one, which stands in crates/base/proofs/MoreLaws.antt:5"),
        )

    def test_module_names_only(self):
        self.put("crates/base/specs/Lib.antt", "pub mod ListLaws", "pub mod ListLaws\nabbrev pub f : Type 0\nf = Unit")
        self.faults(("crates/base/specs/Lib.antt", "pub mod Lists", "holds more than the names of modules"))

    # ---- symbols of the library

    def test_operator_defined(self):
        self.put(LISTS, "abbrev pub unused", "abbrev pub ◌<◌ : ℕ → ℕ → Type 0\na < b = Unit\n\nabbrev pub unused")
        self.faults((LISTS, "pub ◌<◌", "◌<◌ is a symbol of the library and is given another meaning"))

    def test_word_defined(self):
        self.put(NUMBERS, "abbrev pub number_of", "abbrev pub length : ℕ → ℕ\nlength n = n\n\nabbrev pub number_of")
        self.faults((NUMBERS, "pub length", "length is a symbol of the library and is given another meaning"))

    def test_constructor(self):
        self.put(LISTS, "  refused : ℕ", "  some : Answer\n  refused : ℕ")
        self.faults((LISTS, "  some :", "some is a symbol of the library and is given another meaning"))

    def test_symbol_that_a_law_brings(self):
        """What only a law brings is a symbol of the library too."""
        self.put(LAWS, "◌≡◌, refl}", "◌≡◌, refl, is_some}")
        self.put(LISTS, "abbrev pub unused", "abbrev pub is_some : ℕ → ℕ\nis_some n = n\n\nabbrev pub unused")
        self.faults((LISTS, "pub is_some", "is_some is a symbol of the library and is given another meaning"))

    def test_ghost_use_under_the_name(self):
        self.put(CODE, "◌≡◌, length};", "◌≡◌};\nghost use Rattle.base.specs.Lists.{both as length};")
        what = "brings both of Rattle.base.specs.Lists under the name length of a symbol of the library"
        self.faults((CODE, "both as length", what))

    def test_ghost_use_of_another_module(self):
        self.put(CODE, "◌≡◌, length};", "◌≡◌};\nghost use mathlib.Core.List.{length};")
        self.faults((CODE, "Core.List.{length}", "brings length from mathlib.Core.List in place of Rattle.std.specs.Prelude"))

    def test_passed_on(self):
        self.put(NUMBERS, "use Rattle.std", "use mathlib.Core.List.{List, map}\nuse Rattle.std.proofs.Math.Option.{map as mapped}\nuse Rattle.std")
        self.passes()

    def test_use_of_another_symbol(self):
        self.put(LISTS, "{ℕ, ◌+◌,", "{ℕ, ◌*◌ as ◌+◌,")
        self.faults((LISTS, "as ◌+◌", "brings ◌*◌ of Rattle.std.specs.Prelude under the name ◌+◌ of a symbol of the library"))

    def test_two_origins(self):
        self.put(LISTS, "use Rattle.std", "use lib.Count.{ones}\nuse Rattle.std")
        self.put(NUMBERS, "use Rattle.std", "use lib.Other.{ones}\nuse Rattle.std")
        self.faults((NUMBERS, "lib.Other", "brings ones from lib.Other in place of lib.Count"))

    def test_bound_operator(self):
        self.put(LISTS, "module _ (x : List ℕ)", "module _ (◌≡◌ : ℕ → ℕ → Type 0) (x : List ℕ)")
        self.faults((LISTS, "module _", "answer binds ◌≡◌, a symbol of the library"))

    def test_bound_word_that_is_imported(self):
        self.put(LISTS, "let m = both x y in m + n", "let length = both x y in length + n")
        self.faults((LISTS, "let length", "answer " + OWN_LENGTH))

    def test_parameter_that_is_imported(self):
        self.put(CODE, "fn many(s: &[u8])", "fn many(s: &[u8], length: usize)")
        self.faults((CODE, "≡ length", "the contract of many " + OWN_LENGTH))

    def test_field_below_a_field(self):
        self.put(LISTS, "pub twice : ℕ", "pub twice : at length")
        self.put(LISTS, "abbrev pub unused", "abbrev pub at : ℕ → Type 0\nat n = ℕ\n\nabbrev pub unused")
        self.faults((LISTS, "at length", "Pair " + OWN_LENGTH))

    def test_fixity(self):
        self.put(LISTS, "-- how long", "infixl 10 ◌+◌\n-- how long")
        self.faults((LISTS, "infixl", "◌+◌ is a symbol of the library and is given another fixity"))

    # ---- tables and calls

    def test_stale_table(self):
        self.put(LISTS, "both x y = length x", "both x y =\n    length x")
        status, out, errors = self.run_script()
        self.assertEqual(status, 1)
        self.assertEqual(errors, ["docs/DESIGN.md:6: the tables are not what --table prints"])

    def test_no_table(self):
        write(self.root, {"docs/DESIGN.md": "# Design\n"})
        status, out, errors = self.run_script()
        self.assertEqual(status, 1)
        self.assertEqual(errors, ["docs/DESIGN.md:1: has no tables between %s and %s" % (believed.BEGIN, believed.END)])

    def test_no_call(self):
        self.put(CODE, "pub fn ask", "fn ask")
        self.faults(("crates.txt", "base", "no public call ask in the crate call"))

    def test_statement(self):
        self.look_at("STATEMENTS", [("base", "unused")])
        self.run_script("--write-table")
        status, out, errors = self.run_script()
        self.assertEqual((status, errors), (0, []))
        self.assertIn("base, unused (crates/base/specs/Lists.antt:%d)" % (1 + FILES[LISTS].split("\n").index("abbrev pub unused : Pair → ℕ")), out)

    def test_no_statement(self):
        self.look_at("STATEMENTS", [("base", "missing")])
        self.faults(("crates.txt", "base", "no statement missing in the definitions of the crate base"))

    def test_crate_not_listed(self):
        write(self.root, {"crates/other/specs/Lib.antt": ""})
        status, out, errors = self.run_script()
        self.assertEqual((status, errors), (1, ["crates/other:1: is not in crates.txt"]))

    # ---- what is not read is said

    def test_unknown_name(self):
        self.put(NUMBERS, "number_of (accepted n) = 0", "number_of (accepted n) = nought")
        self.faults((NUMBERS, "nought", "number_of names nought, which is not found"))

    def test_unknown_import(self):
        self.put(NUMBERS, "{Answer,", "{Reply, Answer,")
        self.faults((NUMBERS, "Reply", "imports Reply, which Rattle.base.specs.Lists does not have"))

    def test_declared_twice(self):
        self.put(LISTS, "pub record Pair", "pub data Reply : Type 0 where\n  accepted : Reply\n\npub record Pair")
        self.faults((LISTS, "accepted : Reply", "accepted is declared twice, and is not read"))

    def test_whole_module(self):
        self.put(NUMBERS, "use Rattle.std", "use Rattle.std.proofs.Math.Option\nuse Rattle.std")
        self.put(NUMBERS, "number_of (accepted n) = 0", "number_of (accepted n) = Option.map n")
        self.assertIn("  Rattle.std.proofs.Math.Option: map\n", self.passes())

    def test_laws_through_a_module(self):
        self.put(NUMBERS, "use Rattle.std", "use Rattle.base.specs.ListLaws\nuse Rattle.std")
        self.put(NUMBERS, "number_of (accepted n) = 0", "number_of (accepted n) = ListLaws.one")
        self.faults((NUMBERS, "= ListLaws.one", "number_of cites one, which stands in %s:5" % LAWS))

    def test_all_of_a_module(self):
        self.put(NUMBERS, "use Rattle.std", "use lib.ListN.*\nuse Rattle.std")
        self.faults((NUMBERS, "use lib.ListN", "is not read: use lib.ListN.*"))

    def test_form_not_read(self):
        self.put(NUMBERS, "number_of (accepted n) = 0", "number_of (accepted n) = do n")
        self.faults((NUMBERS, "abbrev pub number_of", "number_of is not read: `do`"))

    def test_contract_not_read(self):
        self.put(CODE, "{ result ≡ length s.now }", "{ do result ≡ length s.now }")
        self.faults((CODE, "do result", "a contract of many is not read: `do`"))

    def test_axiom(self):
        self.put(NUMBERS, "abbrev pub number_of", "axiom pub given : ℕ\n\nabbrev pub number_of")
        self.faults((NUMBERS, "axiom", "is not read: axiom"))

    def test_statement_outside_contracts(self):
        self.put(CODE, "    s.len()", "    let f = |x| requires { s } { x };\n    s.len()")
        self.faults((CODE, "|x| requires", "is not read: a statement outside the contracts"))

    def test_ghost_member(self):
        self.put(CODE, "pub struct Told {", "pub struct Told {\n    ghost twice: { ℕ },")
        self.faults((CODE, "ghost twice", "is not read: a statement outside the contracts"))

    def test_ghost_member_that_no_promise_counts(self):
        heads = ["pub(crate) struct Twice", "#[derive(Clone)] pub struct Twice", "impl Told", "impl base::Twice for Told"]
        for head in heads:
            with self.subTest(head):
                self.setUp()
                self.put(CODE, "pub struct Told {", head + " {\n    ghost twice: { ℕ },\n}\n\npub struct Told {")
                self.faults((CODE, "ghost twice", "is not read: a statement outside the contracts"))

    def test_ghost_member_of_a_trait(self):
        self.put(CODE, "pub struct Told {", "pub trait Twice {\n    ghost twice: { nought };\n}\n\npub struct Told {")
        self.faults((CODE, "ghost twice", "the contract of twice names nought, which is not found"))

    def test_all_clauses_are_read(self):
        self.put(CODE, "{ result ≡ length s.now }", "long { result ≡ length s.now }\n    ensures* { nought }")
        self.faults((CODE, "ensures* ", "the contract of many names nought, which is not found"))


class Edited(believed.Tree):
    """The project's tree with some texts replaced in memory."""

    def __init__(self, edits):
        self.edits = edits
        believed.Tree.__init__(self, ROOT)

    def text(self, path):
        return self.edits.get(path) or believed.Tree.text(self, path)

    def told(self):
        """All faults but those of DESIGN's tables."""
        with contextlib.redirect_stderr(io.StringIO()):
            believed.check(self)
        return {"%s:%d: %s" % fault for fault in self.faults if fault.path != believed.DESIGN}


def with_laws(tree):
    """A file of laws, and a law in it."""
    for path, spec in tree.specs.items():
        for item in spec.file.items:
            if believed.is_laws(path) and item.kind == "law":
                return path, item


def imported(path, name):
    """The path that brings a name of a file of `specs/` or `proofs/`."""
    return "Rattle.%s.{%s}" % (path[len("crates/") : -len(".antt")].replace("/", "."), name)


class Project(unittest.TestCase):
    """Faults put into the project's own tree, into files that are found by what they hold."""

    def test_faults_put_in(self):
        tree = Edited({})
        before = tree.told()
        contract = believed.calls(tree)[0][1]
        laws, law = with_laws(tree)
        code = tree.text(contract.path).replace("ensures { ", "ensures { %s × " % law.name)
        code += "ghost use %s;\nghost use mathlib.Core.Nat.{◌<◌};\n" % imported(laws, law.name)
        definitions = next(spec.path for spec in tree.definitions_files() if spec.definitions())
        text = tree.text(definitions) + "\nabbrev pub ◌≤◌ : Type 0\n◌≤◌ = Unit\n\npub lawful : Type 0\nlawful = Unit\n"
        told = Edited({contract.path: code, definitions: text}).told() - before
        clause = line_of(code, "ensures { %s × " % law.name)
        for wanted in (
            "%s:%d: brings ◌<◌ from mathlib.Core.Nat in place of Rattle.std.specs.Prelude" % (contract.path, code.count("\n")),
            "%s:%d: ◌≤◌ is a symbol of the library and is given another meaning" % (definitions, text.count("\n") - 4),
            "%s:%d: lawful is a law in a definitions file" % (definitions, text.count("\n") - 1),
        ):
            self.assertIn(wanted, told)
        begin = "%s:%d: the contract of " % (contract.path, clause)
        end = " cites %s, which stands in %s:%d" % (law.name, laws, law.line)
        self.assertTrue(any(fault.startswith(begin) and fault.endswith(end) for fault in told))


if __name__ == "__main__":
    unittest.main()
