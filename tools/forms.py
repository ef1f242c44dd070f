"""Counts the places of older forms in the sources, point by point: tools/forms.py [COMMIT] [--list].

Without a commit it reads the working tree. The points are those of docs/DESIGN-PASS.md.
"""
import re
import subprocess
import sys
from pathlib import Path

ROOT = Path(__file__).resolve().parent.parent


def sources(commit):
    """Gives the path and the text of each source file."""
    if commit is None:
        for path in sorted(ROOT.glob("crates/*/src/*.rt")):
            yield str(path.relative_to(ROOT)), path.read_text()
        return
    listed = subprocess.run(
        ["git", "ls-tree", "-r", "--name-only", commit, "crates"],
        cwd=ROOT, capture_output=True, text=True, check=True,
    ).stdout.split("\n")
    for path in listed:
        if re.fullmatch(r"crates/\w+/src/\w+\.rt", path):
            shown = subprocess.run(
                ["git", "show", f"{commit}:{path}"],
                cwd=ROOT, capture_output=True, text=True, check=True,
            )
            yield path, shown.stdout


def bare(line):
    """A line without its comment, and nothing of a line that is imported for proofs."""
    return "" if line.startswith("ghost use") else line.split("//")[0]


# A point, what it counts, and how a line with it looks.
LINES = [
    ("1a", "refusals by a constant's number", r"\brefusal::[A-Z][A-Z_]"),
    ("1b", "phases of reading by a constant's number", r"\bphase::[A-Z][A-Z_]"),
    ("1c", "an answer's number in a field or a local", r"\bcode\b"),
    ("1d", "a flag that says whether the value beside it holds", r"\bstrays\b"),
    ("1e", "a side or a kind by a number", r"\b(side|kind): usize"),
    ("3a", "`while` loops", r"^\s*('\w+: )?while "),
    ("3b", "`for` loops over the numbers of a range", r"^\s*('\w+: )?for \w+ in [\w:.]+\.\."),
    ("4a", "equality, order and conversion by hand", r"^(pub )?fn (before|same|differ|number|iff)\("),
    ("4b", "functions that print a part of a line", r"^(pub )?fn (say|tell|print|complain)_\w+"),
    ("5a", "a slice whose length a clause states by a number", r"length \w+\.(old|now) ≡ \d+"),
    ("6a", "a text put into a buffer of bytes", r"\[0u8; \d+\]"),
    ("7a", "a parameter that says which of two things to do", r"\b(gives|contained|turned|rules|left|right): bool"),
]

OWN = r"(pub )?enum (\w+) \{([^}]*(?:\{[^}]*\}[^}]*)*)\}"

SHAPED = r"\b(Refused\(usize\)|Nothing\(usize\)|Wrong|NoneStray|Illegal|Unknown|Short|Same),"


def parameters(text):
    """Gives each function's name and how many parameters it has."""
    for found in re.finditer(r"\bfn (\w+)(?:<[^(]*>)?\(([^)]*)\)", text):
        yield found.group(1), len([p for p in found.group(2).split(",") if ":" in p])


def places(commit):
    """Gives the point and the place of each."""
    for path, text in sources(commit):
        for number, line in enumerate(text.split("\n"), 1):
            for point, _, looks in LINES:
                for _ in re.findall(looks, bare(line)):
                    yield point, f"{path}:{number}"
            if "only a slice tells its length" in line:
                yield "2a", f"{path}:{number}"
        for found in re.finditer(OWN, text):
            if re.search(SHAPED, found.group(3)):
                yield "1f", f"{path} {found.group(2)}"
        for name, count in parameters(text):
            if count >= 8:
                yield "5b", f"{path} {name}"
        for found in re.finditer(r"\bfn (\w+)(?:<[^(]*>)?\(([^)]*distinct: [^)]*having: [^)]*)\)", text):
            yield "6b", f"{path} {found.group(1)}"


WORDS = {
    "1f": "own enums of the shape of Option or Result",
    "2a": "functions over a slice beside one over the array",
    "5b": "functions of eight parameters or more",
    "6b": "functions that are lent two tables of equal length",
    **{point: said for point, said, _ in LINES},
}


def main(words):
    commits = [w for w in words if not w.startswith("--")]
    found = list(places(commits[0] if commits else None))
    for point in sorted(WORDS):
        here = [place for at, place in found if at == point]
        print(f"{point}  {len(here):4}  {WORDS[point]}")
        if "--list" in words:
            for place in here:
                print(f"          {place}")


if __name__ == "__main__":
    main(sys.argv[1:])
