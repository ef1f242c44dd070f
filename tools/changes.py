"""Writes what changed between a commit and the working tree, old and new side by side: tools/changes.py COMMIT.

Listed are the functions that other crates see and the types and ghost members beside them, each with its contract, and the definitions and
laws of specs/ and proofs/ that another file can name: of a definition the whole text, of a law what it states. Comments, layout and imports
do not count.
"""
import io
import re
import subprocess
import sys
import tarfile
from pathlib import Path

ROOT = Path(__file__).resolve().parent.parent
sys.path.insert(0, str(ROOT / "tests"))

import antt  # noqa: E402
import rattle  # noqa: E402

HEAD = re.compile(r"(?m)^[ \t]*((?:#\[[^\]]*\]\s*)*)pub(?:\([^)]*\))?\s+(?:extern\s+\"C\"\s+)?(fn|struct|enum|trait|type|const)\s+(\w+)")


def before(commit):
    """The files of a commit by their paths."""
    packed = subprocess.run(["git", "archive", commit, "crates"], cwd=ROOT, capture_output=True, check=True).stdout
    with tarfile.open(fileobj=io.BytesIO(packed)) as archive:
        return {
            member.name: archive.extractfile(member).read().decode()
            for member in archive
            if member.isfile() and wanted(member.name)
        }


def wanted(path):
    parts = path.split("/")
    if len(parts) < 4 or parts[2] not in ("src", "specs", "proofs"):
        return False
    return path.endswith(".rt") or path.endswith(".antt") and parts[-1] not in ("Answers.antt", "Invariants.antt", "Proof.antt", "Lib.antt")


def after():
    found = {}
    for path in sorted(ROOT.glob("crates/*/*/**/*")):
        name = str(path.relative_to(ROOT))
        if path.is_file() and "/out/" not in name and wanted(name):
            found[name] = path.read_text()
    return found


def squeezed(text):
    return " ".join(text.split())


def code(text):
    """The public items of a source file: a function with its clauses, and another item whole."""
    text = rattle.without_comments(text)
    found = {}
    for match in HEAD.finditer(text):
        kind, name = match.group(2), match.group(3)
        if kind == "fn":
            start = rattle.generics_end(text, match.end())
            end = rattle.closing(text, text.index("(", start) if start == match.end() else start)
            result = rattle.RESULT.match(text, end)
            end = result.end() if result else end
            clause = rattle.CLAUSE.match(text, end)
            while clause:
                end = rattle.closing(text, clause.end())
                clause = rattle.CLAUSE.match(text, end)
        else:
            end = rattle.declaration_end(text, match.end())
        found[f"{kind} {name}"] = squeezed(text[match.start():end]).replace("#[derive(Clone, Copy)] ", "")
    return found


def theory(text):
    """The items of a file of definitions or laws: a definition whole, of a law what it states."""
    found = {}
    for item in antt.File(text).items:
        first = squeezed(antt.joined(item.declarations[0]))
        if item.kind != "law":
            found[item.name] = squeezed(antt.joined(item.rows()))
        elif first.startswith("pub "):
            found[item.name] = first
    return found


def items(files):
    """Everything by its crate and name, with the file and the text."""
    found = {}
    for path, text in files.items():
        crate = path.split("/")[1]
        read = code(text) if path.endswith(".rt") else theory(text)
        for name, said in read.items():
            found.setdefault((crate, name), []).append((path.split("/", 2)[2], said))
    return found


def main(commit):
    old, new = items(before(commit)), items(after())
    crates = sorted({crate for crate, _ in list(old) + list(new)}, key=order().index)
    for crate in crates:
        rows = []
        names = sorted({name for at, name in list(old) + list(new) if at == crate})
        for name in names:
            was = sorted(said for _, said in old.get((crate, name), []))
            now = sorted(said for _, said in new.get((crate, name), []))
            if was != now:
                rows += [f"- {name}", *(f"  - was: `{said}`" for said in was if said not in now)]
                rows += [f"  - is: `{said}`" for said in now if said not in was]
                if not now:
                    rows.append("  - gone")
        if rows:
            print(f"\n## {crate}\n")
            print("\n".join(rows))


def order():
    lines = [line.partition("#")[0] for line in (ROOT / "crates.txt").read_text().split("\n")]
    return [line.split(":")[0].split()[0] for line in lines if ":" in line]


if __name__ == "__main__":
    main(sys.argv[1])
