#!/usr/bin/env python3
"""Brings the repository's own definitions and lemmas to one spelling: words in snake case, and a dash only between two names.

usage: tools/respell.py          once, after the toolchain's port.py, in a checkout
       tools/respell.py --list   writes nothing, and lists each name with its new spelling

A name of camel case that begins with a small letter is written in snake case: `gridOf` is `grid_of`, `heldTable-unique` is
`held_table-unique`. In the name of a lemma of specs/ a dash stays where both sides are names of definitions, as in
`low_part-append`, and where the name would be that of something else without it; elsewhere it is `_`, as in `shift_out`. A lemma
that has the new name of a definition gets `_lem` behind it. Names of types and facts keep their capital, and names of src/, of the
library and those that the checker makes for a proof (goals, steps) are left alone. Inputs, outputs and strings stay.
"""

import glob
import os
import re
import sys

ROOT = os.path.dirname(os.path.dirname(os.path.realpath(__file__)))
TOKEN = re.compile(r"--[^\n]*|//[^\n]*|b?\"(?:[^\"\\]|\\.)*\"|[^\s(){}.;,@\"«»\[\]\\]+|.", re.S)
HEAD = re.compile(r"(?m)^ *(?:unfoldable |abbrev |pub )*([^\s(){}.;,:@\"λ]+)(?: [^\n]*)? : ")
# Definitions of the library that lemmas of lists and numbers are named after.
OF_STD = set("length append take drop set replicate reverse map filter sum get_or bit_and bit_or cond insert sort".split())


def antt(part="*"):
    return sorted(glob.glob(f"{ROOT}/crates/*/{part}/**/*.antt", recursive=True))


def read(path):
    with open(path, encoding="utf-8") as it:
        return it.read()


def words(text):
    for it in TOKEN.findall(text):
        if not it.startswith(("--", "//", '"', 'b"')) and not it.isspace():
            yield it


def snake(name):
    return re.sub(r"(?<=[a-z0-9'])[A-Z]", lambda it: "_" + it[0].lower(), name)


def parts_in_snake(name):
    parts = [it if it[:1].isupper() else snake(it) for it in name.split("-")]
    return "-".join(parts)


def clauses(text):
    """The parts of a source file that are antt: `ghost use` lines and clauses, as spans."""
    for it in re.finditer(r"(?m)^[ \t]*(?:pub )?ghost use [^;]*;", text):
        yield it.span()
    for it in re.finditer(r"(?m)^[ \t]*(?:requires|ensures|ghost)\*?(?: \w+)?:? ?\{", text):
        depth, at = 1, it.end()
        while depth:
            depth += {"{": 1, "}": -1}.get(text[at], 0)
            at += 1
        yield it.end(), at - 1


def dashes(name, defined):
    parts = name.split("-")
    out = parts[0]
    for i, part in enumerate(parts[1:], 1):
        left, right = "-".join(parts[:i]), "-".join(parts[i:])
        is_name = lambda it: it in defined or it in OF_STD or not re.search(r"[A-Za-z]", it)
        out += ("-" if is_name(left) and is_name(right) else "_") + part
    return out


def of_library():
    """What files import from the library and the logic."""
    for path in antt():
        for it in re.finditer(r"(?m)^(?:pub )?use (\S+?)\.\{([^}]*)\}", read(path)):
            crate = it[1].split(".")
            if crate[0] != "Rattle" or crate[1] == "std":
                yield from (name.strip() for name in it[2].split(","))


def table():
    """The new spelling of each name that changes, and of each lemma that makes room."""
    seen, lemmas, heads = set(), set(), set()
    for path in antt():
        seen.update(words(read(path)))
    for path in glob.glob(f"{ROOT}/crates/*/src/**/*.rt", recursive=True):
        text = read(path)
        seen.update(words(text))
    for path in antt("specs"):
        heads.update(HEAD.findall(read(path)))
    lemmas = {it for it in heads if "-" in it}
    camel = re.compile(r"(?:^|[-◌])[a-z][a-z0-9_']*[A-Z]")
    new = {}
    for it in seen:
        if camel.search(it) and not it[0].isdigit():
            new[it] = parts_in_snake(it) if "◌" not in it else re.sub(r"[^◌]+", lambda m: snake(m[0]), it)
    room = {to: to + "_lem" for to in new.values() if to in heads and to not in new}
    defined = {parts_in_snake(it) for it in heads if "-" not in it}
    taken = seen | set(new.values()) | set(of_library())
    for it in sorted(lemmas - set(of_library())):
        to = dashes(parts_in_snake(it), defined)
        if to != it and to not in taken:
            new[it] = to
            taken.add(to)
    return new, room


def turned(text, new, room, is_proof=False):
    out, last = [], ""
    for it in TOKEN.findall(text):
        to = new.get(it, it)
        if last == ".":
            to = it if is_proof and "-" in it and not re.search("[a-z][A-Z]", it) else to
        elif it in room:
            to = room[it]
        out.append(to)
        last = it
    return "".join(out)


def write(path, was, text):
    if text != was:
        with open(path, "w", encoding="utf-8") as it:
            it.write(text)


def main():
    new, room = table()
    if "--list" in sys.argv:
        for old, to in sorted({**new, **room}.items()):
            print(old, to)
        return
    for path in antt():
        text = read(path)
        write(path, text, turned(text, new, room, "/proofs/" in path))
    for path in sorted(glob.glob(f"{ROOT}/crates/*/src/**/*.rt", recursive=True)):
        text, out, last = read(path), [], 0
        for a, b in sorted(clauses(text)):
            out += [text[last:a], turned(text[a:b], new, room)]
            last = b
        write(path, text, "".join(out) + text[last:])


main()
