#!/usr/bin/env python3
"""Moves the laws of some crates from specs/ to proofs/, statements unchanged, so that a wrong edit of a definition is refused there.

usage: tools/move_laws.py CRATE..     (once, after tools/respell.py)

A file of specs/ whose name ends in Laws moves, and so does each file of the crate's specs/ that imports from one that moves. It
prints what it moved.
"""

import glob
import os
import re
import sys

ROOT = os.path.dirname(os.path.dirname(os.path.realpath(__file__)))


def read(path):
    with open(path, encoding="utf-8") as it:
        return it.read()


def write(path, text):
    os.makedirs(os.path.dirname(path), exist_ok=True)
    with open(path, "w", encoding="utf-8") as it:
        it.write(text)


def imports(text, crate):
    return set(re.findall(rf"\bRattle\.{crate}\.specs\.([A-Z][\w.]*?)(?=\.\{{|$| as )", text, re.M))


def move(crate):
    specs, proofs = (f"{ROOT}/crates/{crate}/{it}" for it in ("specs", "proofs"))
    files = {os.path.relpath(it, specs)[:-5].replace("/", "."): it for it in glob.glob(f"{specs}/**/*.antt", recursive=True)}
    files = {name: it for name, it in files.items() if name.split(".")[-1] != "Lib"}
    texts = {name: read(it) for name, it in files.items()}
    moved = {name for name in files if name.endswith("Laws")}
    while True:
        more = {name for name in files if name not in moved and imports(texts[name], crate) & moved}
        if not more:
            break
        moved |= more
    for name in sorted(moved):
        *above, last = name.split(".")
        node = "/".join(above) + ".antt" if above else "Lib.antt"
        was, to = f"{specs}/{node}", f"{proofs}/{node}"
        line = re.compile(rf"(?m)^(?:pub )?mod {last}\n")
        write(was, line.sub("", read(was)))
        write(to, (read(to) if os.path.exists(to) else "") + f"pub mod {last}\n")
        if above:
            lib = f"{proofs}/Lib.antt"
            for k in range(len(above)):
                up = f"{proofs}/{'/'.join(above[:k])}.antt" if k else lib
                have = read(up) if os.path.exists(up) else ""
                if f"mod {above[k]}\n" not in have:
                    write(up, have + f"pub mod {above[k]}\n")
        write(f"{proofs}/{name.replace('.', '/')}.antt", texts[name])
        os.remove(files[name])
    print(crate, *sorted(moved))
    return {f"Rattle.{crate}.specs.{name}": f"Rattle.{crate}.proofs.{name}" for name in moved}


def main():
    new = {}
    for crate in sys.argv[1:]:
        new.update(move(crate))
    name = re.compile(r"\bRattle\.\w+\.specs\.[A-Z][\w.]*\w")
    for path in glob.glob(f"{ROOT}/crates/*/*/**/*", recursive=True):
        if path.endswith((".antt", ".rt")) and "/out/" not in path:
            text = read(path)
            to = name.sub(lambda it: new.get(it[0], it[0]), text)
            if to != text:
                write(path, to)


main()
