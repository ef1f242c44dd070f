#!/usr/bin/env python3
"""Try wrong meanings: each must fail a row of the table of examples.

    tests/meanings.py

A file tests/meanings/NAME.edit is a wrong meaning: a definition's file, its old and its new
text, as in a must-fail edit, and the name of the row that it fails.

`rt must-fail` edits one crate and proves that crate alone, and the definitions stand in crates
below the table's. So the table and the definitions that it rests on are copied to a folder of
their own, outside the repository. There the table is proved as it stands; then, with each edit in turn, that the
row fails. What the table does not rest on, laws and code without a type that it speaks of, is not
copied: many laws are true of a wrong meaning too, and none is to refuse it in the table's place. Each processor has a copy of
its own and tries every so many edits.
"""
import concurrent.futures
import os
import re
import shutil
import subprocess
import sys
import tempfile

ROOT = os.path.dirname(os.path.dirname(os.path.abspath(__file__)))
EDITS = os.path.join(ROOT, "tests", "meanings")

# each crate stands on all before it
CRATES = ["sets", "policy", "files", "renumbering", "examples"]

# the table's proof: its module and its statement, and what is stated of a wrong meaning
PROOF = ("examples", "proofs", "ExamplesLaws")
ALL_HOLD = "pub shown : failing table ≡ []\n"
ONE_FAILS = 'pub shown : any (eqt "{row}") (failing table) ≡ true\n'
WORDS = """use lib.Text.{eqt}
use Rattle.std.specs.Prelude.{true}
use Rattle.sets.specs.Tests.{any}
"""

# `use Rattle.policy.specs.Rules.{..}`: a module of one of these crates
USE = re.compile(rf"^use Rattle\.({'|'.join(CRATES)})\.(specs|proofs)\.(\w+)\b", re.MULTILINE)

# `use Rattle.policy.specs.declared.Weights.{..}`: a type of the crate's code
TYPES = "declared"


def fail(why):
    sys.exit(f"meanings: {why}")


def read(*path):
    with open(os.path.join(*path), encoding="utf-8") as file:
        return file.read()


def write(text, *path):
    name = os.path.join(*path)
    os.makedirs(os.path.dirname(name), exist_ok=True)
    with open(name, "w", encoding="utf-8") as file:
        file.write(text)


def replaced(text, old, new, where):
    if text.count(old) != 1:
        fail(f"{where}: {old.strip()!r} stands there {text.count(old)} times")
    return text.replace(old, new)


def source(crate, folder, module):
    return os.path.join("crates", crate, folder, f"{module}.antt")


def rests_on(module, found):
    """The module, those that it uses, those that they use, and so on. The types of a crate's code are one module."""
    if module not in found:
        found.add(module)
        for used in USE.findall(read(ROOT, source(*module))) if module[2] != TYPES else []:
            rests_on(used, found)
    return found


def code(crate, modules):
    """The code of a crate whose types the definitions use."""
    is_typed = (crate, "specs", TYPES) in modules
    return read(ROOT, "crates", crate, "src", "lib.rt") if is_typed else "// Definitions only.\n#![tactic(auto)]\n"


def copy_crates(copy):
    modules = rests_on(PROOF, set())
    for crate in CRATES:
        for folder in ("specs", "proofs"):
            names = sorted(name for owner, inside, name in modules if (owner, inside) == (crate, folder) and name != TYPES)
            for name in names:
                write(read(ROOT, source(crate, folder, name)), copy, source(crate, folder, name))
            if names:
                write("".join(f"pub mod {name}\n" for name in names), copy, source(crate, folder, "Lib"))
        write(code(crate, modules), copy, "crates", crate, "src", "lib.rt")


def words():
    """What has rattle check the last crate over the sources of the others, and keep its work for the next check."""
    kit = os.path.dirname(subprocess.run(["rt", "doc"], check=True, capture_output=True, text=True).stdout.strip())
    found = [f"{kit}/bin/rattle", "check", "--crate-name", CRATES[-1], "src/lib.rt", "--jobs", "1", "--incremental", "out"]
    found += ["--antt-project", f"{kit}/rattle/logic/antt-project.json", "--logic-built", f"{kit}/logic_built"]
    for name in ("core", "std"):
        found += ["--extern", f"{name}={kit}/rlibs/{name}.rlib"]
    found += ["-L", f"dependency={kit}/rlibs"]
    for at, crate in enumerate(CRATES[:-1]):
        found += ["--lib", f"{crate}:{','.join(['core', 'std', *CRATES[:at]])}=../{crate}/src/lib.rt"]
    return found


def prove(copy, what):
    """Prove the table's crate in a copy, or end with what the prover says."""
    folder = os.path.join(copy, "crates", CRATES[-1])
    done = subprocess.run(words(), cwd=folder, stdout=subprocess.PIPE, stderr=subprocess.STDOUT, text=True)
    if done.returncode != 0 or "\nlogic=proved " not in done.stdout:
        fail(f"{what}: not proved\n{done.stdout}")


def read_edit(name):
    keys = ["file", "old", "new", "row"]
    lines = [line.split(": ", 1) for line in read(EDITS, name).splitlines()]
    if [line[0] for line in lines] != keys:
        fail(f"{name}: its lines are {', '.join(keys)}")
    return [line[1] for line in lines]


def try_edit(copy, name):
    path, old, new, row = read_edit(name)
    text, proof = read(copy, path), read(copy, source(*PROOF))
    write(replaced(text, old, new, f"{name}: {path}"), copy, path)
    write(WORDS + replaced(proof, ALL_HOLD, ONE_FAILS.format(row=row), source(*PROOF)), copy, source(*PROOF))
    prove(copy, f"{name}: that it fails the row '{row}'")
    write(text, copy, path)
    write(proof, copy, source(*PROOF))
    print(f"meanings: {name[: -len('.edit')]} fails '{row}'", flush=True)


def try_edits(copy, names):
    for name in names:
        try_edit(copy, name)


def main():
    names = [name for name in os.listdir(EDITS) if name.endswith(".edit")]
    # those of one file together: what stands below it is not proved again
    names.sort(key=lambda name: (read_edit(name)[0], name))
    many = len(os.sched_getaffinity(0))
    with tempfile.TemporaryDirectory() as folder, concurrent.futures.ThreadPoolExecutor(many) as pool:
        copies = [os.path.join(folder, str(k)) for k in range(many)]
        copy_crates(copies[0])
        prove(copies[0], "the table")
        for copy in copies[1:]:
            shutil.copytree(copies[0], copy)
        parts = [pool.submit(try_edits, copy, names[k::many]) for k, copy in enumerate(copies)]
        for part in parts:
            part.result()
    print(f"meanings: the table refuses {len(names)} wrong meanings")


main()
