#!/usr/bin/env python3
"""Turns the texts of edits, crates/*/must-fail/*.edit and tests/meanings/*.edit, to the spelling that port.py and respell.py gave the files.

usage: tools/turn_edits.py MAP    MAP is what `tools/respell.py --list` printed before it wrote

Code kept its text, so an edit of src/ that still stands in its file is left alone. Of an edit of specs/ both texts are turned: names,
and projections written tight. It is written if each old text then stands once in its file; else it is listed, to be done by hand.
"""

import glob
import os
import re
import sys

ROOT = os.path.dirname(os.path.dirname(os.path.realpath(__file__)))
# Words that begin or end a term: a projection reaches no further back.
STOPS = set("= : λ ↦ | ∷ ++ + - * / % ^ ≡ ≤ < × → && || ⊎ in let record elim ; , { } [ ] .".split())
NAMES = {"getD": "get_or", "bitXor": "bit_xor"}
WHOLE = {"lib.ListN.drop": "Rattle.std.specs.Prelude.drop"}


def name(word, table):
    word = NAMES.get(word, word)
    word = word.replace("′", "'").replace("Option·map", "Option.map")
    if re.fullmatch(r"_[^\w\s]+_", word):
        return word.replace("_", "◌")
    if word in table:
        return table[word]
    if re.fullmatch(r"[a-z][A-Za-z0-9_']*", word):
        return re.sub(r"(?<=[a-z0-9'])[A-Z]", lambda it: "_" + it[0].lower(), word)
    return word


def tokens(text):
    """Words, brackets, and projections as `.f`, each with the blanks before it."""
    out, blank = [], ""
    for it in re.findall(r"\s+|(?<=\s)\.[A-Za-z0-9_]+|[(){}\[\];,.]|[^\s(){}\[\];,.]+", text):
        if it.isspace():
            blank = it
        else:
            out.append((blank, it))
            blank = ""
    return out, blank


def turned(text, table):
    """The text with today's names, and each projection written tight."""
    for i, it in enumerate(WHOLE):
        text = text.replace(it, f"whole{i}")
    words, tail = tokens(text)
    # A stack of open brackets; in each the pieces so far, and where the spine of the present term begins.
    stack = [["", [], 0]]
    for blank, it in words:
        top = stack[-1]
        if it in "([{":
            stack.append([blank + it, [], 0])
        elif it in ")]}" and len(stack) > 1:
            opening, pieces, start = stack.pop()
            inner = "".join(pieces)
            lone = opening.endswith("(") and start == 0 and len(pieces) == 1 and re.fullmatch(r"(\w|')+(\.\w+)+|\(.*\)\.\w+", inner) and whole(inner)
            stack[-1][1].append(opening[:-1] + inner if lone else opening + inner + blank + it)
        elif re.fullmatch(r"\.[A-Za-z0-9_]+", it) and len(top[1]) > top[2]:
            spine = "".join(top[1][top[2] :])
            lead = spine[: len(spine) - len(spine.lstrip())]
            spine = spine.strip()
            to = "." + name(it[1:], table)
            top[1][top[2] :] = [lead + (spine + to if len(top[1]) - top[2] == 1 else f"({spine}){to}")]
        else:
            top[1].append(blank + name(it, table))
            if it in STOPS or re.fullmatch(r"[^\w\s'(){}\[\]]+", it):
                top[2] = len(top[1])
    out = ""
    for opening, pieces, _ in stack:
        out += opening + "".join(pieces)
    for i, it in enumerate(WHOLE):
        out = out.replace(f"whole{i}", WHOLE[it])
    return out + tail


def whole(inner):
    """Whether `(..).f` is one bracket with a projection."""
    if not inner.startswith("("):
        return True
    depth = 0
    for i, it in enumerate(inner):
        depth += {"(": 1, ")": -1}.get(it, 0)
        if depth == 0:
            return bool(re.fullmatch(r"\.\w+", inner[i + 1 :]))
    return False


def read(path):
    with open(path, encoding="utf-8") as it:
        return it.read()


def fits(text, pairs):
    for old, new in pairs:
        if text.count(old) != 1:
            return False
        text = text.replace(old, new)
    return True


def main():
    table = dict(line.split() for line in read(sys.argv[1]).splitlines())
    edits = glob.glob(f"{ROOT}/crates/*/must-fail/*.edit") + glob.glob(f"{ROOT}/tests/meanings/*.edit")
    turns = 0
    for path in sorted(edits):
        lines = read(path).split("\n")
        file = next(it[6:] for it in lines if it.startswith("file: "))
        text = read(os.path.join(ROOT if "/meanings/" in path else os.path.dirname(os.path.dirname(path)), file))
        pairs = lambda all: list(zip([it[5:] for it in all if it.startswith("old: ")], [it[5:] for it in all if it.startswith("new:")]))
        if fits(text, pairs(lines)) and not file.endswith(".antt"):
            continue
        to = [it[:5] + turned(it[5:], table) if it.startswith(("old: ", "new: ")) else it for it in lines]
        if to == lines:
            continue
        if fits(text, pairs(to)):
            turns += 1
            with open(path, "w", encoding="utf-8") as it:
                it.write("\n".join(to))
        else:
            print("by hand:", os.path.relpath(path, ROOT))
            for one in lines, to:
                for old, new in pairs(one):
                    print("   -", old, "\n   +", new)
    print(turns, "edits turned")


if __name__ == "__main__":
    main()
