#!/usr/bin/env python3
"""Use the programs mine, judge, ask, explain, show, circle, load, rights and denials, rightly and wrongly, and compare all that they print and write.

    tests/programs.py [FOLDER]      FOLDER has the programs; if left out, each is the one that `rt ci`, or `rt run` in its
                                    crate's folder, has built: crates/NAME/out/NAME

Each use runs in a folder of its own. Standard output, standard error and every file in the folder afterwards are compared
byte for byte. Prints one line if all is as it should be; else a message for each use that is not, and the exit status is 1.

The rule files that mine has to write are those of the samples and, for larger ones, checksums; all of them, the lengths at
refusal 9, the verdicts and the role files that load has to write are those of the second miner, an implementation by another
author.
"""
import hashlib
import os
import resource
import shutil
import signal
import stat
import subprocess
import sys
import tempfile

# no files beside this one are left
sys.dont_write_bytecode = True
from rolefiles import (
    END,
    EXAMPLE_A,
    NOBODY,
    NO_COMMAND,
    assign,
    declare,
    joined,
    line,
    members,
    opening,
    permit,
    single,
    sizes,
    with_operand,
)

HERE = os.path.dirname(os.path.abspath(__file__))
SAMPLES = os.path.join(os.path.dirname(HERE), "samples")
PROGRAMS = ["mine", "judge", "ask", "explain", "show", "circle", "load", "rights", "denials"]

# Where the tests run as root, who may write everything, the programs run as somebody who may not.
NOBODY_ID = 65534


def sample(name):
    with open(os.path.join(SAMPLES, name), "rb") as file:
        return file.read()


# ---- role files and rule files

A_RULES = sample("example-a.rules")


def rules_beside(roles, text):
    """The rule file of these bytes in hexadecimal behind the 20 of the role file."""
    return opening(roles) + bytes.fromhex(text)


# Nothing but the end.
NO_RULES = "2F"

# The words of every refusal.
MEANING = {
    1: "the role file is too long, above 65,535 bytes",
    2: "the role file ends inside operands or before 0F",
    3: "the role file has an unknown command",
    4: "the role file has a byte after its end or a command out of place",
    5: "an operand of the role file, or a number handed in, is beyond its limit or declared size, or there is a seventh attribute",
    6: "the role file has a value of the wrong kind or a value given twice",
    7: "a role is its own senior",
    9: "output is shorter than the rule file",
    10: "the rule file is cut off",
    11: "the rule file has an unknown command",
    12: "the rule file has a byte after its end or a command out of order, missing or repeated",
    13: "the rule file has an operand beyond its size or of the wrong kind, an atom across domains, a zero operation set, or a part that the role file does not have",
    14: "the rule file has no rule of this number",
    15: "the seed is 0",
    16: "the rule file was made for other sizes or numbers of attributes than the role file's",
    18: "a rule of the rule file tells another level than the lowest that allows its conjuncts",
    19: "the window has no records or more than 64",
    20: "the length of the log is not divisible by three",
    21: "the cuts do not ascend strictly, or one is not from 1 to the number of roles less one",
}

# Role files that reading refuses, by the number.
REFUSED_ROLES = {
    1: EXAMPLE_A + bytes(65536 - len(EXAMPLE_A)),
    2: EXAMPLE_A[:-1],
    3: EXAMPLE_A[:5] + NO_COMMAND + EXAMPLE_A[5:],
    4: EXAMPLE_A + END,
    5: joined(sizes(65, 0, 0, 0), END),
    6: EXAMPLE_A[:-1] + single(0, 0, 0, 5) + END,
    7: EXAMPLE_A[:-1] + line(0, 1) + line(1, 0) + END,
}

# Rule files that are refused beside example A.
REFUSED_RULES = {
    10: A_RULES[:-1],
    11: b"\x2e" + A_RULES,
    12: A_RULES + b"\x2f",
    13: A_RULES.replace(bytes.fromhex("27 00 00"), bytes.fromhex("27 00 01")),
    16: sample("provider.rules"),
    18: A_RULES.replace(bytes.fromhex("29 00"), bytes.fromhex("29 01")),
}

# The longest rule file that the programs can hold, and one that is longer; both are refused by 12.
HELD_RULES = opening(EXAMPLE_A) + b"\x2f" * (262143 - len(opening(EXAMPLE_A)))
LONG_RULES = HELD_RULES + b"\x2f"

# Two records of a usage log beside example A, and a log that denials cannot hold.
GRANTED, DENIED = bytes([0, 0, 0]), bytes([0, 1, 0])
LONG_LOG = GRANTED * 1048576


def resources_of(part, parts, resources):
    """The resources of one of so many parts, which have so many in all."""
    count = resources * (part + 1) // parts - resources * part // parts
    return [(7 * part + part // 16 + n) % 62 for n in range(count)]


def long_rules(parts, resources, with_atom, twins=0):
    """A role file that is mined to a long rule file: so many parts of one user each, with so many resources in all.

    Each resource has a value of its own, and so many lines has each rule. With two roles more, which become one rule
    with an atom, the length of the rule file is odd. Twins are roles with the user and the resources of the first part, which
    join its rule; each adds a line.
    """
    roles = -(-parts // 16)
    spare = (0, 1) if with_atom else ()
    first_twin = roles + len(spare)
    return joined(
        sizes(roles + len(spare), 64, 16, first_twin + twins),
        *[declare(0, 0) for _ in spare[:1]],
        declare(1, 1),
        *[declare(1, 0) for _ in spare[:1]],
        *[members(1, 0, number, 1 << number) for number in range(64 - len(spare))],
        *[single(0, 0, roles + n, 5 + n) + single(1, 1, 62 + n, 5 + n) for n in spare],
        *[assign(roles + n, roles + n) + permit(roles + n, 62 + n, 0) for n in spare],
        *[assign(role, role) for role in range(roles)],
        *[
            permit(part // 16, number, part % 16)
            for part in range(parts)
            for number in resources_of(part, parts, resources)
        ],
        *[assign(first_twin + n, 0) for n in range(twins)],
        *[permit(first_twin + n, number, 0) for n in range(twins) for number in resources_of(0, parts, resources)],
        END,
    )


def longest_rules():
    """A role file of 512 parts, of which none merge, and of long user conditions: six attributes, all of them needed.

    A user has the set of her own number in every attribute. Six more, who hold no role, lack one attribute each.
    """
    return joined(
        sizes(64, 64, 16, 32),
        declare(0, 1) * 6,
        declare(1, 1),
        *[members(0, attribute, user, 1 << user) for attribute in range(6) for user in range(58)],
        *[members(0, attribute, 58 + n, 0 if n == attribute else 1 << 40) for attribute in range(6) for n in range(6)],
        *[members(1, 0, number, 1 << number) for number in range(64)],
        *[assign(role, user) for role in range(32) for user in range(58) if user != role],
        *[permit(role, number, n) for role in range(32) for n in range(16) for number in (role, 32 + n)],
        END,
    )


def long_between():
    """A role file that is mined to a long rule file, and with a cut at 17 to one of another length.

    Behind the roles of a long one stand three, of which the middle one has the user of the one before it and the resources of the
    one behind it, so that it becomes one rule with either.
    """
    _, users, resources, operations, roles = long_rules(241, 6070, False)[:5]
    return joined(
        sizes(users + 2, resources, operations, roles + 3),
        long_rules(241, 6070, False)[5:-1],
        *[assign(roles, users), permit(roles, 0, 0)],
        *[assign(roles + 1, users), permit(roles + 1, 1, 0), permit(roles + 1, 2, 0)],
        *[assign(roles + 2, users + 1), permit(roles + 2, 1, 0), permit(roles + 2, 2, 0)],
        END,
    )


# The same of three roles alone, and what they are mined to: the middle one merges with the first, and with a cut between these
# two with the last.
BETWEEN = joined(
    sizes(2, 2, 1, 3),
    *[assign(0, 0), assign(1, 0), assign(2, 1), permit(0, 0, 0), permit(1, 1, 0), permit(2, 1, 0)],
    END,
)
BETWEEN_RULES = rules_beside(
    BETWEEN,
    "21 23 FF 03 00 00 00 00 00 00 00 26 01 00 28 00 01 00 28 01 01 00 29 01"
    "21 23 FF 04 00 00 00 00 00 00 00 24 FF 01 00 26 01 00 28 02 01 00 29 03 2F",
)
BETWEEN_CUT = rules_beside(
    BETWEEN,
    "21 23 FF 03 00 00 00 00 00 00 00 24 FF 00 00 26 01 00 28 00 01 00 29 03"
    "21 24 FF 01 00 26 01 00 28 01 01 00 28 02 01 00 29 02 2F",
)

# As many roles as there may be, with as many places between them, each with the one resource: one rule.
MOST_ROLES = joined(sizes(32, 1, 1, 32), *[assign(role, role) + permit(role, 0, 0) for role in range(32)], END)
EVERY_CUT = [str(cut) for cut in range(1, 32)]

# A single and a set attribute on each side, and two parts.
KINDS = joined(
    sizes(2, 2, 3, 2),
    *[declare(side, kind) for side in (0, 1) for kind in (0, 1)],
    *[single(side, 0, who, [5, 7][who]) for side in (0, 1) for who in (0, 1)],
    *[members(0, 1, 0, 6), members(0, 1, 1, 0), members(1, 1, 0, 2), members(1, 1, 1, 6)],
    *[assign(0, 0), permit(0, 0, 0), permit(0, 0, 1), assign(1, 1), permit(1, 1, 2)],
    END,
)

# A rule with every kind of condition, one with none, and one of level 2.
KINDS_PARTS = [
    "21 22 00 05 00 22 00 07 00 23 01 00 00 00 00 00 00 00 00 23 01 06 00 00 00 00 00 00 00 "
    "23 FF 01 00 00 00 00 00 00 00 23 FF 03 00 00 00 00 00 00 00 24 00 05 00 24 FF 00 00 24 FF 01 00 "
    "25 01 02 00 00 00 00 00 00 00 25 01 06 00 00 00 00 00 00 00 26 03 00 27 00 00 27 01 00 27 01 01 28 00 03 00 29 03",
    "21 26 04 00 28 01 04 00 29 00",
    "21 24 FF 01 00 26 04 00 28 01 04 00 29 02",
]
KINDS_RULES = rules_beside(KINDS, "".join(KINDS_PARTS) + "2F")

# The first of its two parts alone.
ONE_OF_KINDS = rules_beside(KINDS, "21 23 FF 01 00 00 00 00 00 00 00 24 FF 00 00 26 03 00 28 00 03 00 29 03 2F")

KINDS_TOLD = """\
rule 0, level 3: any user may do operations 0, 1 on any resource
  if the user's attribute 0 is 5 or 7
  and the user's attribute 1 contains all of {} (any value that is known) or all of {1, 2}
  and the user holds all of the roles {0} or all of the roles {0, 1}
  and the resource's attribute 0 is 5
  and the resource is number 0 or number 1
  and the resource's attribute 1 is exactly {1} or exactly {1, 2}
  and the user's attribute 0 equals the resource's attribute 0, both of domain 0
  and the user's attribute 1 contains the resource's attribute 0, both of domain 0
  and the user's attribute 1 contains all of the resource's attribute 1, both of domain 0
  in place of role 0 for operations 0, 1

rule 1, level 0: any user may do operation 2 on any resource
  in place of role 1 for operation 2

rule 2, level 2: any user may do operation 2 on any resource
  if the resource is number 1
  in place of role 1 for operation 2
"""

BRANCHES_TOLD = """\
rule 0, level 0: any user may do operation 0 on any resource
  if the user's attribute 0 equals the resource's attribute 0, both of domain 0
  in place of role 0 for operation 0
  in place of role 1 for operation 0
  in place of role 2 for operation 0
  in place of role 3 for operation 0

rule 1, level 1: any user may do operation 0 on any resource
  if the user holds all of the roles {4}
  in place of role 4 for operation 0

rule 2, level 1: any user may do operation 1 on any resource
  if the user holds all of the roles {5}
  in place of role 5 for operation 1

rule 3, level 1: any user may do operations 0, 1 on any resource
  if the user holds all of the roles {6}
  and the resource's attribute 0 is 303
  in place of role 6 for operations 0, 1
"""

REGIONS_TOLD = """\
rule 0, level 0: any user may do operation 0 on any resource
  if the user's attribute 0 equals the resource's attribute 0, both of domain 1
  in place of role 0 for operation 0
  in place of role 1 for operation 0

rule 1, level 0: any user may do operation 1 on any resource
  if the user's attribute 1 contains the resource's attribute 1, both of domain 2
  in place of role 2 for operation 1
  in place of role 3 for operation 1
"""

# Three regions, mined over all roles at once, and with cuts between the regions.
THREE_REGIONS_TOLD = """\
rule 0, level 3: any user may do operation 0 on any resource
  if the user holds all of the roles {0, 2, 4}
  and the resource is number 0 or number 2 or number 3
  in place of role 0 for operation 0
  in place of role 2 for operation 0
  in place of role 4 for operation 0

rule 1, level 2: any user may do operation 0 on any resource
  if the resource is number 1 or number 2 or number 3
  and the user's attribute 0 equals the resource's attribute 0, both of domain 0
  in place of role 1 for operation 0
  in place of role 3 for operation 0
  in place of role 5 for operation 0
"""

THREE_REGIONS_CUT_TOLD = """\
rule 0, level 3: any user may do operation 0 on any resource
  if the user holds all of the roles {0, 2, 4}
  and the resource is number 0
  in place of role 0 for operation 0

rule 1, level 2: any user may do operation 0 on any resource
  if the resource is number 1
  and the user's attribute 0 equals the resource's attribute 0, both of domain 0
  in place of role 1 for operation 0

rule 2, level 1: any user may do operation 0 on any resource
  if the user holds all of the roles {3} or all of the roles {0, 2, 4}
  and the resource's attribute 0 is 2
  in place of role 2 for operation 0
  in place of role 3 for operation 0

rule 3, level 1: any user may do operation 0 on any resource
  if the user holds all of the roles {0, 2, 4} or all of the roles {5}
  and the resource's attribute 0 is 3
  in place of role 4 for operation 0
  in place of role 5 for operation 0
"""

# Example A's two parts under rules of their own, of which the second grants both; the same with each rule right, and the
# second part under both rules; and two equal parts of which one stands under no rule.
A_FIRST = "21 22 00 05 00 24 00 05 00 26 01 00 28 00 01 00 29 00"
A_SECOND = "21 22 00 07 00 24 00 07 00 26 01 00 28 01 01 00 29 00"
STRAY_RULE = rules_beside(EXAMPLE_A, A_FIRST + "21 26 01 00 27 00 00 28 01 01 00 29 00 2F")
TWICE_LISTED = A_RULES[:-1] + bytes.fromhex(A_SECOND + "2F")
EQUAL_PARTS = joined(sizes(1, 1, 1, 2), *[assign(role, 0) + permit(role, 0, 0) for role in (0, 1)], END)
NOT_LISTED = rules_beside(EQUAL_PARTS, "21 26 01 00 28 00 01 00 29 00 2F")


# ---- a use of a program

# What stands under a name in the folder: the bytes of a file, or one of these.
FOLDER = "a folder"


class Link(str):
    """A symbolic link to this name."""


class Checksum:
    """The bytes of this length and checksum."""

    def __init__(self, length, checksum):
        self.length = length
        self.told = f"{length} bytes with checksum {checksum}"

    def __eq__(self, held):
        return isinstance(held, bytes) and self.told == f"{len(held)} bytes with checksum {hashlib.sha256(held).hexdigest()}"

    def __repr__(self):
        return self.told


class Use:
    """A program, its arguments and its surroundings, and what is expected of it."""

    def __init__(self, program, *arguments, **other):
        self.program = program
        self.arguments = arguments
        self.out = ""
        self.err = ""
        # what is in the folder before, and what is otherwise afterwards
        self.files = {}
        self.after = {}
        # standard input: bytes, the descriptor of something that is open, or none; standard output, if it is not to be read
        self.input = b""
        self.output = subprocess.PIPE
        # files and folders (. is the folder of the use) with another mode than usual, before and afterwards
        self.modes = {}
        self.modes_after = {}
        self.umask = 0o022
        # limits of the system: the number of the limit, and its value
        self.limits = {}
        assert set(other) <= set(vars(self)), "no such thing is said of a use"
        vars(self).update(other)

    def name(self):
        shown = [self.program, *[repr(argument[:60]) for argument in self.arguments]]
        given = f" with {len(self.input)} bytes on standard input" if self.input and isinstance(self.input, bytes) else ""
        return f"{' '.join(shown)}{given}, beside {', '.join(sorted(self.files)) or 'nothing'}"


def mine(file, *cuts, **other):
    return Use("mine", *cuts, input=file, **other)


def both(program, roles, rules, **other):
    """A program that takes two files."""
    return Use(program, "roles", "rules", files={"roles": roles, "rules": rules}, **other)


def refused(n):
    return f"refused {n}: {MEANING[n]}\n"


# ---- mine


def mined():
    """What mine writes and prints."""
    counts = {
        "branches": "parts 7 rules 4 merges 3 cost 10",
        "example-a": "parts 2 rules 1 merges 1 cost 2",
        "hierarchy": "parts 3 rules 3 merges 0 cost 13",
        "provider": "parts 8 rules 4 merges 4 cost 11",
        "regions": "parts 4 rules 2 merges 2 cost 4",
        "three-regions": "parts 6 rules 2 merges 4 cost 12",
    }
    for name, printed in counts.items():
        rules = sample(name + ".rules")
        for former in [{}, {"rules.out": b"former"}]:
            yield mine(sample(name + ".roles"), files=former, out=printed + "\n", after={"rules.out": rules})
    nothing = {"rules.out": bytes.fromhex("20 00 00 00 00 00 00 2F")}
    yield mine(NOBODY, out="parts 0 rules 0 merges 0 cost 0\n", after=nothing)
    # as much output as the program lends, and no byte more
    filled = Checksum(65536, "169fd669b2033474c6b34edbb22cd0884b1dd9650ab17b95b7e9a0e632087f49")
    yield mine(long_rules(241, 6070, False, 2), out="parts 243 rules 241 merges 2 cost 6584\n", after={"rules.out": filled})


def mined_with_cuts():
    """The same with cuts."""
    told = "parts 3 rules 2 merges 1 cost 6\n"
    for cuts in [["1"], ["01"], ["0" * 4095 + "1"]]:
        yield mine(BETWEEN, *cuts, out=told, after={"rules.out": BETWEEN_CUT})
    # with a cut between all roles, and with one before the last role, the first pair is found as it is without
    for cuts in [[], ["2"], ["1", "2"]]:
        yield mine(BETWEEN, *cuts, files={"rules.out": b"former"}, out=told, after={"rules.out": BETWEEN_RULES})
    regions, cut = sample("three-regions.roles"), {"rules.out": sample("three-regions-cut.rules")}
    yield mine(regions, "2", "4", out="parts 6 rules 4 merges 2 cost 20\n", after=cut)
    whole = rules_beside(MOST_ROLES, "21 26 01 00" + "".join(f"28 {role:02X} 01 00" for role in range(32)) + "29 00 2F")
    yield mine(MOST_ROLES, *EVERY_CUT, out="parts 32 rules 1 merges 31 cost 1\n", after={"rules.out": whole})


def lengthy(length):
    return (
        f"mine: {MEANING[9]}\nmine: the rule file has {length}, and this program lends 65,536 for it; "
        "the library's call takes output of any length\n"
    )


def mine_refusals():
    """Each refusal prints its line, writes no file and leaves a former one as it was."""
    files = [(n, file, f"mine: {MEANING[n]}\n") for n, file in REFUSED_ROLES.items()]
    files += [
        (2, b"", f"mine: {MEANING[2]}\n"),
        (4, END, f"mine: {MEANING[4]}\n"),
        (9, long_rules(240, 6070, True, 3), lengthy("65537 bytes")),
        (9, long_rules(512, 12500, False), lengthy("135248 bytes")),
        (9, longest_rules(), lengthy("1766408 bytes")),
    ]
    for n, file, err in files:
        for former in [{}, {"rules.out": b"former"}]:
            yield mine(file, files=former, out=f"refused {n}\n", err=err)


def mine_bad_cuts():
    """Cuts are refused behind the role file and before short output."""
    bad = ["0", "3", "2 1", "1 1", "0 1", "1 3", "254", "255", "256", "257", str(2**32 + 1), str(2**64 + 1), "9" * 4096]
    for cuts in [*map(str.split, bad), ["1", "2"] * 20]:
        yield mine(BETWEEN, *cuts, files={"rules.out": b"former"}, out="refused 21\n", err=f"mine: {MEANING[21]}\n")
    # 32 roles have 31 places between them: one cut more, behind or among them, and so many that the program does not hold them
    for cuts in [[*EVERY_CUT, "32"], [*EVERY_CUT, "31"], ["1", *EVERY_CUT], EVERY_CUT * 100]:
        yield mine(MOST_ROLES, *cuts, out="refused 21\n", err=f"mine: {MEANING[21]}\n")
    # where there are no two roles, there is no place between them
    one = joined(sizes(0, 0, 0, 1), END)
    for file in [NOBODY, one]:
        yield mine(file, "1", out="refused 21\n", err=f"mine: {MEANING[21]}\n")
    for n, file in REFUSED_ROLES.items():
        yield mine(file, "0", out=f"refused {n}\n", err=f"mine: {MEANING[n]}\n")
    long = long_between()
    yield mine(long, "19", out="refused 21\n", err=f"mine: {MEANING[21]}\n")
    for cuts, length in [([], "65622 bytes"), (["17"], "65612 bytes"), (["18"], "65622 bytes")]:
        yield mine(long, *cuts, out="refused 9\n", err=lengthy(length))


def mine_wrongly():
    usage = (
        "usage: mine CUT.. < ROLES, which writes the rules to rules.out in the working directory; "
        "cuts are numbers of roles, and may be left out\n"
    )
    # with an argument that is no number nothing is read, and so nothing waited for from a pipe whose other end stays open
    reading, _ = os.pipe()
    for text in ["--help", "-h", "example-a.roles", "1,2", *WRONG_NUMBERS]:
        for before in [[], ["1"], EVERY_CUT * 2]:
            yield Use("mine", *before, text, "2", input=reading, err=no_number("mine", text, "CUT") + usage)
    yield mine(os.open(SAMPLES, os.O_RDONLY), err="mine: cannot read standard input: Is a directory\n")
    yield mine(None, err="mine: cannot read standard input: Bad file descriptor\n")


def mine_saving():
    yield from saving("rules.out", A_RULES, "parts 2 rules 1 merges 1 cost 2\n", "mine", input=EXAMPLE_A)
    full = "mine: cannot print the answer: No space left on device\n"
    yield mine(END, output=os.open("/dev/full", os.O_WRONLY), err=full + f"mine: {MEANING[4]}\n")


def saving(name, written, printed, *use, **given):
    """Where a program's file of this name comes to stand, or does not."""
    program = use[0]

    def saved(**other):
        return Use(*use, **given, **other)

    for umask in [0, 0o022, 0o027, 0o077]:
        yield saved(umask=umask, out=printed, after={name: written}, modes_after={name: 0o666 & ~umask})
    linked = f"{program}: {name} is a link and stays as it is; nothing is written\n"
    yield saved(files={name: Link("other"), "other": b"former"}, err=linked)
    yield saved(files={name: Link("nowhere")}, err=linked)
    kept = {name: b"former"}
    denied = "Permission denied\n"
    yield saved(files=kept, modes={name: 0o444}, err=f"{program}: cannot write {name}: {denied}")
    yield saved(files=kept, modes={".": 0o555}, err=f"{program}: cannot make a file beside {name}: {denied}")
    yield saved(modes={".": 0o555}, err=f"{program}: cannot make a file beside {name}: {denied}")
    yield saved(files={name: FOLDER}, err=f"{program}: cannot replace {name}: Is a directory\n")
    short = {resource.RLIMIT_FSIZE: 10}
    yield saved(files=kept, limits=short, err=f"{program}: cannot write the bytes of {name}: File too large\n")
    full = f"{program}: cannot print the answer: No space left on device\n"
    yield saved(output=os.open("/dev/full", os.O_WRONLY), err=full, after={name: written})


def mine_small():
    """Mining needs no more than a 16th of the stack that a program usually gets, also where it tells how long the rules are."""
    limits = {resource.RLIMIT_STACK: 1 << 19}
    rules = {"rules.out": sample("provider.rules")}
    yield mine(sample("provider.roles"), limits=limits, out="parts 8 rules 4 merges 4 cost 11\n", after=rules)
    yield mine(longest_rules(), limits=limits, out="refused 9\n", err=lengthy("1766408 bytes"))


# ---- what judge, ask, explain, show and denials have in common


def file_refusals(program, *arguments, beside=()):
    """Refusals of both files, for a program that takes them and then these arguments, with these files beside them."""

    def use(roles, rules, **other):
        files = {"roles": roles, "rules": rules, **dict(beside)}
        return Use(program, "roles", "rules", *arguments, files=files, **other)

    for n, roles in REFUSED_ROLES.items():
        yield use(roles, A_RULES, out=refused(n))
        # a role file that is refused is so whatever the rules are, even where they are refused or cannot be held
        yield use(roles, REFUSED_RULES[10], out=refused(n))
        yield use(roles, LONG_RULES, out=refused(n))
    for n, rules in REFUSED_RULES.items():
        yield use(EXAMPLE_A, rules, out=refused(n))
    # the first command: none, cut off, unknown, another than 20; and one with its last operand another
    shape = opening(EXAMPLE_A)
    for n, rules in [(10, b""), (10, shape[:-1]), (10, shape), (11, b"\x1f"), (12, A_RULES[len(shape) :])]:
        yield use(EXAMPLE_A, rules, out=refused(n))
    yield use(EXAMPLE_A, with_operand(A_RULES, 6, 2), out=refused(16))
    yield use(EXAMPLE_A, HELD_RULES, out=refused(12))
    too_long = f"{program}: rules: the rule file is longer than this program can hold, 262,143 bytes\n"
    yield use(EXAMPLE_A, LONG_RULES, err=too_long)
    yield use(EXAMPLE_A, LONG_RULES * 2, err=too_long)


def file_errors(program, *arguments, names=("roles", "rules")):
    """Files that cannot be read, each in the place of each of these."""
    usual = {"roles": EXAMPLE_A, "rules": A_RULES, "log": DENIED}
    files = {name: usual[name] for name in names}
    for place in range(len(names)):

        def use(wrong, err, held=None, modes=None):
            given = [*names[:place], wrong, *names[place + 1 :], *arguments]
            more = {} if held is None else {wrong: held}
            return Use(program, *given, files={**files, **more}, modes=modes or {}, err=f"{program}: {err}\n")

        yield use("none", "none: No such file or directory")
        yield use("folder", "folder: Is a directory", FOLDER)
        yield use("secret", "secret: Permission denied", files[names[place]], {"secret": 0})
        yield use("", ": No such file or directory")
        yield use("roles/under", "roles/under: Not a directory")
        yield use("n" * 300, "n" * 300 + ": File name too long")
        yield use("n" * 5000, "n" * 40 + ": File name too long")


def not_printed(program, *arguments, beside=()):
    err = f"{program}: cannot print the answer: No space left on device\n"
    for file in [EXAMPLE_A, END]:
        files = {"roles": file, "rules": A_RULES, **dict(beside)}
        yield Use(program, "roles", "rules", *arguments, files=files, output=os.open("/dev/full", os.O_WRONLY), err=err)


# What is no number.
WRONG_NUMBERS = ["x", "", "-1", "1x", "0x1", " 1", "1 ", "+1", "1.5", "9" * 4097]


def no_number(program, text, name):
    shown = text if len(text) < 4097 else text[:40]
    return f"{program}: {shown}: {name} is no number of up to 4,096 digits\n"


def two_files_wrongly(program):
    for arguments in [[], ["--help"], ["roles"], ["roles", "rules", "0"]]:
        files = {"roles": EXAMPLE_A, "rules": A_RULES}
        yield Use(program, *arguments, files=files, err=f"usage: {program} ROLES RULES\n")


# ---- judge


def judged():
    sound = "verdict 0: roles and rules grant the same, every rule what its parts do, and every part stands under one rule\n"
    for name in ["branches", "example-a", "hierarchy", "provider", "regions", "three-regions"]:
        yield both("judge", sample(name + ".roles"), sample(name + ".rules"), out=sound)
    # with cuts the rules are others, and as right
    yield both("judge", sample("three-regions.roles"), sample("three-regions-cut.rules"), out=sound)
    yield both("judge", BETWEEN, BETWEEN_CUT, out=sound)
    differ = "verdict 1: user {}, resource {}, operation {} is granted by roles or rules only: {}\n"
    rule_alone, roles_alone = "a rule grants it, the roles do not", "the roles grant it, no rule does"
    yield both("judge", sample("provider.roles"), sample("provider-wide.rules"), out=differ.format(7, 0, 0, rule_alone))
    none = rules_beside(sample("provider.roles"), NO_RULES)
    yield both("judge", sample("provider.roles"), none, out=differ.format(0, 0, 0, roles_alone))
    yield both("judge", KINDS, ONE_OF_KINDS, out=differ.format(1, 1, 2, roles_alone))
    # a rule that ties region to model, because both happened to be 7
    yield both("judge", sample("regions.roles"), sample("regions-tied.rules"), out=refused(13))
    yield both("judge", EXAMPLE_A, STRAY_RULE, out="verdict 2: rule 1 grants other than its parts\n")
    yield both("judge", EXAMPLE_A, TWICE_LISTED, out="verdict 3: part 1 stands under no rule or several\n")
    yield both("judge", EQUAL_PARTS, NOT_LISTED, out="verdict 3: part 1 stands under no rule or several\n")


# ---- ask


def asked():
    granted = {
        ("hierarchy", False, "3", "2", "2"): "answer 1: yes, the roles grant user 3, resource 2, operation 2\n",
        ("hierarchy", False, "0", "2", "2"): "answer 0: no, the roles do not grant user 0, resource 2, operation 2\n",
        ("hierarchy", True, "3", "2", "2"): "answer 1: yes, some rule grants user 3, resource 2, operation 2\n",
        ("hierarchy", True, "0", "2", "2"): "answer 0: no, no rule grants user 0, resource 2, operation 2\n",
        ("provider", True, "005", "3", "02"): "answer 1: yes, some rule grants user 5, resource 3, operation 2\n",
        ("provider", False, "7", "0", "0"): "answer 0: no, the roles do not grant user 7, resource 0, operation 0\n",
        ("regions", False, "0", "1", "0"): "answer 1: yes, the roles grant user 0, resource 1, operation 0\n",
        ("regions", True, "0", "1", "0"): "answer 1: yes, some rule grants user 0, resource 1, operation 0\n",
        ("regions", True, "0", "2", "0"): "answer 0: no, no rule grants user 0, resource 2, operation 0\n",
        ("regions", True, "3", "2", "1"): "answer 1: yes, some rule grants user 3, resource 2, operation 1\n",
        ("regions", True, "3", "2", "0"): "answer 0: no, no rule grants user 3, resource 2, operation 0\n",
    }
    # the provider has 8 users, 6 resources and 3 operations
    beyond = [("8", "0", "0"), ("0", "6", "0"), ("0", "0", "3")]
    beyond += [("1000000", "0", "0"), ("0", "18446744073709551616", "0"), ("0", "0", "9" * 4096)]
    for by_rules in [False, True]:
        granted.update({("provider", by_rules, *question): refused(5) for question in beyond})
    for (name, by_rules, *question), out in granted.items():
        files = {"roles": sample(name + ".roles"), "rules": sample(name + ".rules")}
        yield Use("ask", *["roles", "rules"][: 1 + by_rules], *question, files=files, out=out)
    # the rules that somebody widened grant what the roles do not
    files = {"roles": sample("provider.roles"), "rules": sample("provider-wide.rules")}
    yield Use("ask", "roles", "rules", "7", "0", "0", files=files, out="answer 1: yes, some rule grants user 7, resource 0, operation 0\n")
    # an atom across domains is refused, whatever is asked
    files = {"roles": sample("regions.roles"), "rules": sample("regions-tied.rules")}
    yield Use("ask", "roles", "rules", "0", "1", "0", files=files, out=refused(13))


def ask_refusals():
    yield from file_refusals("ask", "0", "0", "0")
    for n, roles in REFUSED_ROLES.items():
        yield Use("ask", "roles", "0", "0", "0", files={"roles": roles}, out=refused(n))
        # the file comes first, the numbers last
        yield Use("ask", "roles", "99", "0", "0", files={"roles": roles}, out=refused(n))
    for n, rules in REFUSED_RULES.items():
        yield Use("ask", "roles", "rules", "99", "0", "0", files={"roles": EXAMPLE_A, "rules": rules}, out=refused(n))


def ask_wrongly():
    usage = "usage: ask ROLES [RULES] USER RESOURCE OPERATION, the last three numbers from 0\n"
    files = {"roles": EXAMPLE_A, "rules": A_RULES}
    for arguments in [[], ["--help"], ["roles"], ["roles", "0"], ["roles", "0", "0"], ["roles", "rules", "0", "0", "0", "0"]]:
        yield Use("ask", *arguments, files=files, err=usage)
    for place, name in enumerate(["USER", "RESOURCE", "OPERATION"]):
        for text in WRONG_NUMBERS:
            numbers = ["0", "0", "0"]
            numbers[place] = text
            err = no_number("ask", text, name) + usage
            yield Use("ask", "roles", *numbers, files=files, err=err)
            yield Use("ask", "roles", "rules", *numbers, files=files, err=err)
    # with a number too few the rule file is taken for one; the first that is wrong is named
    err = "ask: rules: USER is no number of up to 4,096 digits\n" + usage
    yield Use("ask", "roles", "rules", "0", "x", files=files, err=err)


# ---- explain


def explained():
    yield both("explain", KINDS, KINDS_RULES, out=KINDS_TOLD)
    yield both("explain", sample("branches.roles"), sample("branches.rules"), out=BRANCHES_TOLD)
    yield both("explain", sample("regions.roles"), sample("regions.rules"), out=REGIONS_TOLD)
    yield both("explain", sample("regions.roles"), sample("regions-tied.rules"), out=refused(13))
    yield both("explain", sample("three-regions.roles"), sample("three-regions.rules"), out=THREE_REGIONS_TOLD)
    yield both("explain", sample("three-regions.roles"), sample("three-regions-cut.rules"), out=THREE_REGIONS_CUT_TOLD)
    yield both("explain", NOBODY, rules_beside(NOBODY, NO_RULES), out="there is no rule: nobody may do anything\n")


# ---- show


def showing(roles, rules, number, **other):
    return Use("show", "roles", "rules", number, files={"roles": roles, "rules": rules}, **other)


def shown():
    """The bytes of a rule, and its words: the paragraph that explain has for it."""
    for number, part in enumerate(KINDS_PARTS):
        yield showing(KINDS, KINDS_RULES, str(number), out=f"{part}\n{paragraph(KINDS_TOLD, number)}\n")
    # the last rule asks for the value 303, whose low byte is 2F
    last = "21 23 FF 40 00 00 00 00 00 00 00 24 00 2F 01 26 03 00 28 06 03 00 29 01"
    told = f"{last}\n{paragraph(BRANCHES_TOLD, 3)}\n"
    yield showing(sample("branches.roles"), sample("branches.rules"), "003", out=told)
    told = f"21 26 02 00 27 01 01 28 02 02 00 28 03 02 00 29 00\n{paragraph(REGIONS_TOLD, 1)}\n"
    yield showing(sample("regions.roles"), sample("regions.rules"), "1", out=told)


def paragraph(told, number):
    """What explain has for one rule."""
    return told.rstrip("\n").split("\n\n")[number]


def show_refusals():
    yield from file_refusals("show", "0")
    # a number that no rule has comes behind the files' own refusals, the largest too
    for number in ["1", "99", "1000000", "18446744073709551616", "9" * 4096]:
        yield showing(EXAMPLE_A, A_RULES, number, out=refused(14))
        for n, roles in REFUSED_ROLES.items():
            yield showing(roles, A_RULES, number, out=refused(n))
        for n, rules in REFUSED_RULES.items():
            yield showing(EXAMPLE_A, rules, number, out=refused(n))
    yield showing(NOBODY, rules_beside(NOBODY, NO_RULES), "0", out=refused(14))
    yield showing(sample("branches.roles"), sample("branches.rules"), "4", out=refused(14))
    # what stands behind the rule counts too
    yield showing(EXAMPLE_A, A_RULES[:-1] + bytes.fromhex("21 26 01 00 29 00 2F"), "0", out=refused(12))


def show_wrongly():
    usage = "usage: show ROLES RULES NUMBER, the last a number from 0\n"
    files = {"roles": EXAMPLE_A, "rules": A_RULES}
    for arguments in [[], ["--help"], ["roles"], ["roles", "rules"], ["roles", "rules", "0", "0"]]:
        yield Use("show", *arguments, files=files, err=usage)
    for text in WRONG_NUMBERS:
        yield showing(EXAMPLE_A, A_RULES, text, err=no_number("show", text, "NUMBER") + usage)


# ---- circle


def circling(roles, **other):
    return Use("circle", "roles", files={"roles": roles}, **other)


def ring(roles):
    """A role file of 32 roles in which each of these is the junior of the next, and the last of the first."""
    return joined(sizes(0, 0, 0, 32), *[line(junior, senior) for junior, senior in zip(roles, roles[1:] + roles[:1])], END)


def circled():
    """The roles in order, and which line of seniority to look at."""
    yield circling(ring([7]), out="circle 7: role 7 is junior to 7\n")
    yield circling(ring([3, 1]), out="circle 1 3: role 1 is junior to 3, 3 to 1\n")
    yield circling(ring([2, 31, 0]), out="circle 0 2 31: role 0 is junior to 2, 2 to 31, 31 to 0\n")
    every = list(range(32))
    lines = ", ".join(f"{role} to {(role + 1) % 32}" for role in every[1:])
    listed = " ".join(str(role) for role in every)
    yield circling(ring(every), out=f"circle {listed}: role 0 is junior to 1, {lines}\n")
    yield circling(REFUSED_ROLES[7], out="circle 0 1: role 0 is junior to 1, 1 to 0\n")
    for roles in [EXAMPLE_A, NOBODY, sample("branches.roles"), sample("regions.roles")]:
        yield circling(roles, out="no circle\n")


def circle_refusals():
    for n, roles in REFUSED_ROLES.items():
        if n != 7:
            yield circling(roles, out=refused(n))
    yield circling(b"", out=refused(2))
    # a fault behind the circle is told in its place
    yield circling(ring([0, 1]) + END, out=refused(4))
    yield circling(ring([0, 1])[:-1], out=refused(2))


def circle_wrongly():
    for arguments in [[], ["roles", "rules"]]:
        yield Use("circle", *arguments, files={"roles": EXAMPLE_A}, err="usage: circle ROLES\n")
    yield Use("circle", "--help", err="circle: --help: No such file or directory\n")
    err = "circle: cannot print the answer: No space left on device\n"
    for roles in [EXAMPLE_A, END, REFUSED_ROLES[7]]:
        yield circling(roles, output=os.open("/dev/full", os.O_WRONLY), err=err)


# ---- load

# Two of each, from seed 1; without anything; seniors alone; and, by their checksums, README's, one of 65,535 bytes, the longest
# there is, and one from the greatest seed.
LOADS = {
    "1 2 2 2 2": bytes.fromhex(
        "01 02 02 02 02 02 00 00 02 01 00 03 00 00 00 01 00 03 00 00 01 01 00 03 01 00 00 05 00 03 01 00 01 07 00 "
        "05 00 01 06 00 00 00 06 00 00 01 06 00 01 01 06 01 00 00 06 01 00 01 0F"
    ),
    "1 0 0 0 0": joined(sizes(0, 0, 0, 0), declare(0, 0), declare(1, 0), END),
    "136 0 0 0 4": joined(sizes(0, 0, 0, 4), declare(0, 0), declare(1, 0), line(0, 1), line(0, 2), line(1, 3), END),
    "1 64 60 16 32": Checksum(63583, "6547f379d22ead8e73fe2aa0203fe1402e56727cb571d7f97e7ab6aa7284495a"),
    "37 64 62 16 32": Checksum(65535, "36e9624aa6441012ea478bdea8a347190d0318a3fbc102259500d7dbd14114ea"),
    "4294967295 8 8 4 8": Checksum(681, "85941a6edc9a6458cb1b37cce93ce99440516e5bb3eeae234e9257f185566fac"),
}


def loading(words, **other):
    return Use("load", *words.split(" "), **other)


def loaded():
    for words, file in LOADS.items():
        length = file.length if isinstance(file, Checksum) else len(file)
        for former in [{}, {"roles.out": b"former"}]:
            yield loading(words, files=former, out=f"length {length}\n", after={"roles.out": file})
    yield loading("01 02 2 0002 2", out="length 59\n", after={"roles.out": LOADS["1 2 2 2 2"]})


def load_refusals():
    """Each refusal prints its line, writes no file and leaves a former one as it was."""
    refusals = {
        "0 2 2 2 2": 15,
        "00 0 0 0 0": 15,
        # the seed comes first, and sizes before the length
        "0 65 0 0 0": 15,
        "1 65 0 0 0": 5,
        "1 0 65 0 0": 5,
        "1 0 0 17 0": 5,
        "1 0 0 0 33": 5,
        "1 65 64 16 32": 5,
        "1 256 0 0 0": 5,
        f"1 0 {2**32} 0 0": 5,
        f"1 0 0 {2**64} 0": 5,
        "1 0 0 0 " + "9" * 4096: 5,
        "1 64 64 16 32": 1,
        # one byte more than a role file may have
        "191 64 62 16 32": 1,
    }
    for words, n in refusals.items():
        for former in [{}, {"roles.out": b"former"}]:
            yield loading(words, files=former, out=refused(n))


def load_wrongly():
    usage = (
        "usage: load SEED USERS RESOURCES OPERATIONS ROLES, which writes a role file to roles.out in the working directory; "
        "all are numbers from 0, SEED has 32 bits\n"
    )
    for words in ["--help", "1", "1 2 2 2", "1 2 2 2 2 2"]:
        yield loading(words, err=usage)
    yield Use("load", err=usage)
    for seed in [2**32, 2**64, 2**64 + 1, int("9" * 4096)]:
        shown = str(seed)
        yield loading(f"{shown} 2 2 2 2", err=f"load: {shown}: SEED is above 4,294,967,295\n" + usage)
    for place, name in enumerate(["SEED", "USERS", "RESOURCES", "OPERATIONS", "ROLES"]):
        for text in WRONG_NUMBERS:
            words = ["1", "2", "2", "2", "2"]
            words[place] = text
            yield Use("load", *words, err=no_number("load", text, name) + usage)


def load_saving():
    yield from saving("roles.out", LOADS["1 2 2 2 2"], "length 59\n", "load", *"12222")
    full = "load: cannot print the answer: No space left on device\n"
    yield loading("0 2 2 2 2", output=os.open("/dev/full", os.O_WRONLY), err=full)


# ---- rights


# User 0 is in role 0, which is senior to role 1, and user 1 in role 2. Role 1 may do operation 1 on all resources, role 2
# operation 0 on resource 1.
DESKS = joined(
    sizes(2, 3, 2, 3),
    *[assign(0, 0), assign(2, 1), line(1, 0)],
    *[permit(1, 0, 1), permit(1, 1, 1), permit(1, 2, 1), permit(2, 1, 0)],
    END,
)

# What these two users may do.
BY_SENIOR = "user 0, operation 1: resources 0, 1, 2\n"
BY_ROLE = "user 1, operation 0: resources 1\n"

RIGHTS_USAGE = "usage: rights ROLES [+ROLE,USER | -ROLE,USER].., numbers from 0\n"


def keeping(roles, *edits, **other):
    return Use("rights", "roles", *edits, files={"roles": roles}, **other)


def kept():
    """A line for each user and operation with a right, behind an answer for each edit."""
    yield keeping(DESKS, out=BY_SENIOR + BY_ROLE)
    given = "+1,1: user 1 is assigned to role 1\n"
    yield keeping(DESKS, "+1,1", out=given + BY_SENIOR + BY_ROLE + "user 1, operation 1: resources 0, 1, 2\n")
    taken = "-0,0: user 0 is not assigned to role 0\n"
    yield keeping(DESKS, "-0,0", out=taken + BY_ROLE)
    itself = "+1,0: user 0 is assigned to role 1\n"
    yield keeping(DESKS, "+1,0", "-0,0", out=itself + taken + BY_SENIOR + BY_ROLE)
    through = "-1,0: user 0 is not assigned to role 1\n"
    yield keeping(DESKS, "+1,0", "-1,0", out=itself + through + BY_SENIOR + BY_ROLE)
    # what is so already, and what is not there
    yield keeping(DESKS, "+0,0", out="+0,0: user 0 is assigned to role 0\n" + BY_SENIOR + BY_ROLE)
    yield keeping(DESKS, "-1,1", out="-1,1: user 1 is not assigned to role 1\n" + BY_SENIOR + BY_ROLE)
    yield keeping(DESKS, "-0,0", "-2,1", out=taken + "-2,1: user 1 is not assigned to role 2\nno rights\n")
    largest = joined(sizes(64, 64, 16, 32), assign(31, 63), permit(31, 63, 15), permit(31, 0, 15), END)
    yield keeping(largest, out="user 63, operation 15: resources 0, 63\n")
    for roles in [NOBODY, joined(sizes(1, 1, 1, 1), permit(0, 0, 0), END)]:
        yield keeping(roles, out="no rights\n")


def rights_refusals():
    for n, roles in REFUSED_ROLES.items():
        yield keeping(roles, out=refused(n))
        yield keeping(roles, "+0,0", out=refused(n))
    for edit in ["+3,0", "-3,0", "+0,2", "-0,2", "+3,2", "+" + "9" * 2000 + "," + "9" * 2000]:
        yield keeping(DESKS, edit, out=f"{edit}: {refused(5)}" + BY_SENIOR + BY_ROLE)
    # refused edits among others
    some = f"+3,0: {refused(5)}-0,0: user 0 is not assigned to role 0\n+9,9: {refused(5)}"
    yield keeping(DESKS, "+3,0", "-0,0", "+9,9", out=some + BY_ROLE)


def rights_wrongly():
    yield Use("rights", err=RIGHTS_USAGE)
    yield Use("rights", "--help", err="rights: --help: No such file or directory\n")
    wrong = ["", "+", "-", ",", "0,0", "+0", "+0,", "+,0", "+0,0,0", "+0 0", "+ 0,0", "++0,0", "+-0,0", "*0,0", "+x,0", "+0,x"]
    wrong += ["+" + "9" * 5000 + ",0"]
    for edit in wrong:
        shown = edit if len(edit) < 4097 else edit[:40]
        err = f"rights: {shown}: an edit is +ROLE,USER or -ROLE,USER\n" + RIGHTS_USAGE
        yield keeping(DESKS, edit, err=err)
        # none is answered, and no file is looked for
        yield keeping(DESKS, "+1,1", edit, err=err)
        yield Use("rights", "none", edit, err=err)
    err = "rights: cannot print the answer: No space left on device\n"
    for roles, edits in [(DESKS, []), (DESKS, ["+1,1", "+9,9"]), (NOBODY, []), (END, [])]:
        yield keeping(roles, *edits, output=os.open("/dev/full", os.O_WRONLY), err=err)


# ---- denials


def denying(roles, rules, log, window, **other):
    return Use("denials", "roles", "rules", "log", window, files={"roles": roles, "rules": rules, "log": log}, **other)


def denied():
    """The most denials in a window, and the lowest record from which so many are."""
    log = DENIED + GRANTED + DENIED + DENIED + GRANTED + DENIED
    for window, most, start in [(1, 1, 0), (2, 2, 2), (3, 2, 0), (4, 3, 0), (5, 3, 0), (6, 4, 0), (7, 4, 0), (64, 4, 0)]:
        yield denying(EXAMPLE_A, A_RULES, log, str(window), out=f"most {most} start {start}\n")
    yield denying(EXAMPLE_A, A_RULES, log, "0002", out="most 2 start 2\n")
    yield denying(EXAMPLE_A, A_RULES, GRANTED * 3, "2", out="most 0 start 0\n")
    yield denying(EXAMPLE_A, A_RULES, b"", "64", out="most 0 start 0\n")
    # the last window, and one that holds the whole log
    yield denying(EXAMPLE_A, A_RULES, GRANTED * 70 + DENIED * 64, "64", out="most 64 start 70\n")
    yield denying(EXAMPLE_A, A_RULES, DENIED * 64, "64", out="most 64 start 0\n")
    # a window that only the record behind it makes as bad as the first
    yield denying(EXAMPLE_A, A_RULES, DENIED * 2 + GRANTED * 2 + DENIED * 2, "3", out="most 2 start 0\n")
    # a million records, and as many as there is room for
    yield denying(EXAMPLE_A, A_RULES, GRANTED * 999936 + DENIED * 64, "64", out="most 64 start 999936\n")
    yield denying(EXAMPLE_A, A_RULES, GRANTED * 1048574 + DENIED, "1", out="most 1 start 1048574\n")
    # by the rules, which need not be those of the roles
    yield denying(EXAMPLE_A, rules_beside(EXAMPLE_A, NO_RULES), GRANTED * 3, "2", out="most 2 start 0\n")
    # user, resource, operation: the last right of the provider, and what its rules let nobody else do
    provider = sample("provider.roles"), sample("provider.rules")
    yield denying(*provider, bytes([7, 5, 1]), "1", out="most 0 start 0\n")
    yield denying(*provider, bytes([7, 5, 1, 6, 5, 1]), "1", out="most 1 start 1\n")


def denial_refusals():
    yield from file_refusals("denials", "log", "1", beside={"log": DENIED})
    # a window comes behind the files' own refusals, the largest too, and before the log
    for window in ["0", "65", "99", "1000000", "18446744073709551616", "9" * 4096]:
        for log in [DENIED, b"", bytes(2), bytes([255, 255, 255]), LONG_LOG]:
            yield denying(EXAMPLE_A, A_RULES, log, window, out=refused(19))
        for n, roles in REFUSED_ROLES.items():
            yield denying(roles, A_RULES, DENIED, window, out=refused(n))
        for n, rules in REFUSED_RULES.items():
            yield denying(EXAMPLE_A, rules, bytes(2), window, out=refused(n))
    # the log's length comes before its records
    for log in [bytes(1), bytes(2), bytes(4), bytes([255] * 5), LONG_LOG[:-1], LONG_LOG[:-2]]:
        yield denying(EXAMPLE_A, A_RULES, log, "1", out=refused(20))
    for record in [bytes([2, 0, 0]), bytes([0, 2, 0]), bytes([0, 0, 1]), bytes([255, 255, 255])]:
        for log in [record, record + DENIED, DENIED + record, DENIED * 100 + record]:
            yield denying(EXAMPLE_A, A_RULES, log, "2", out=refused(5))
    yield denying(NOBODY, rules_beside(NOBODY, NO_RULES), DENIED, "1", out=refused(5))
    # a log that cannot be held: refused as it would be before it is looked at, else there is no answer
    too_long = "denials: log: the log is longer than this program can hold, 3,145,727 bytes\n"
    for log in [LONG_LOG, LONG_LOG + bytes(1)]:
        yield denying(EXAMPLE_A, A_RULES, log, "1", err=too_long)
    for n, roles in REFUSED_ROLES.items():
        yield denying(roles, A_RULES, LONG_LOG, "1", out=refused(n))
    for n, rules in REFUSED_RULES.items():
        yield denying(EXAMPLE_A, rules, LONG_LOG, "1", out=refused(n))


def denials_wrongly():
    usage = "usage: denials ROLES RULES LOG WINDOW, the last a number from 1 to 64\n"
    files = {"roles": EXAMPLE_A, "rules": A_RULES, "log": DENIED}
    for arguments in [[], ["--help"], ["roles"], ["roles", "rules"], ["roles", "rules", "log"], ["roles", "rules", "log", "1", "1"]]:
        yield Use("denials", *arguments, files=files, err=usage)
    for text in WRONG_NUMBERS:
        yield denying(EXAMPLE_A, A_RULES, DENIED, text, err=no_number("denials", text, "WINDOW") + usage)


def uses():
    yield from mined()
    yield from mined_with_cuts()
    yield from mine_refusals()
    yield from mine_bad_cuts()
    yield from mine_wrongly()
    yield from mine_saving()
    yield from mine_small()
    yield from judged()
    yield from asked()
    yield from explained()
    for program in ["judge", "explain"]:
        yield from file_refusals(program)
        yield from file_errors(program)
        yield from two_files_wrongly(program)
        yield from not_printed(program)
    yield from ask_refusals()
    yield from file_errors("ask", "0", "0", "0")
    yield from file_errors("ask", "0", "0", "0", names=("roles",))
    yield from not_printed("ask", "0", "0", "0")
    yield from ask_wrongly()
    yield from shown()
    yield from show_refusals()
    yield from file_errors("show", "0")
    yield from not_printed("show", "0")
    yield from show_wrongly()
    yield from circled()
    yield from circle_refusals()
    yield from file_errors("circle", names=("roles",))
    yield from circle_wrongly()
    yield from loaded()
    yield from load_refusals()
    yield from load_wrongly()
    yield from load_saving()
    yield from kept()
    yield from rights_refusals()
    yield from file_errors("rights", names=("roles",))
    yield from file_errors("rights", "+0,0", names=("roles",))
    yield from rights_wrongly()
    yield from denied()
    yield from denial_refusals()
    yield from file_errors("denials", "1", names=("roles", "rules", "log"))
    yield from not_printed("denials", "log", "1", beside={"log": DENIED})
    yield from denials_wrongly()


# ---- running


def fill(folder, use):
    for name, held in use.files.items():
        path = os.path.join(folder, name)
        if isinstance(held, Link):
            os.symlink(held, path)
        elif held is FOLDER:
            os.mkdir(path)
        else:
            with open(path, "wb") as file:
                file.write(held)
    if os.geteuid() == 0:
        for name in [".", *use.files]:
            os.chown(os.path.join(folder, name), NOBODY_ID, NOBODY_ID, follow_symlinks=False)
    for name, mode in use.modes.items():
        os.chmod(os.path.join(folder, name), mode)


def found(folder):
    """What is in the folder."""

    def held(entry):
        if entry.is_symlink():
            return Link(os.readlink(entry.path))
        if entry.is_dir():
            return FOLDER
        with open(entry.path, "rb") as file:
            return file.read()

    with os.scandir(folder) as entries:
        return {entry.name: held(entry) for entry in entries}


def modes_of(folder, names):
    """The modes of those of these files that there are."""
    paths = {name: os.path.join(folder, name) for name in names}
    return {name: stat.S_IMODE(os.lstat(path).st_mode) for name, path in paths.items() if os.path.lexists(path)}


def begin(use):
    """What is done in the new process before the program starts."""
    os.umask(use.umask)
    for limit, value in use.limits.items():
        resource.setrlimit(limit, (value, value))
    # a file at its limit is an error like others, not the end of the program
    signal.signal(signal.SIGXFSZ, signal.SIG_IGN)
    if use.input is None:
        os.close(0)
    if os.geteuid() == 0:
        os.setgroups([])
        os.setgid(NOBODY_ID)
        os.setuid(NOBODY_ID)


def run(programs, folder, use):
    """Standard output, standard error and the status of the program."""
    given = {"input": use.input} if isinstance(use.input, bytes) else {"stdin": use.input}
    command = [os.path.join(programs, use.program), *use.arguments]
    done = subprocess.run(
        command, cwd=folder, stdout=use.output, stderr=subprocess.PIPE, timeout=60, preexec_fn=lambda: begin(use), **given
    )
    return (done.stdout or b"").decode(), done.stderr.decode(), done.returncode


def short(held):
    shown = repr(held)
    return shown if len(shown) < 600 else shown[:600] + "..."


def differences(programs, folder, use):
    """What is other than it should be."""
    fill(folder, use)
    try:
        out, err, status = run(programs, folder, use)
    except subprocess.TimeoutExpired:
        yield "it does not end"
        return
    modes = modes_of(folder, use.modes_after)
    for name in [".", *use.modes]:
        os.chmod(os.path.join(folder, name), 0o755)
    pairs = [
        ("standard output", out, use.out),
        ("standard error", err, use.err),
        ("the status", status, 0),
        ("what is in the folder", found(folder), {**use.files, **use.after}),
        ("the modes of files", modes, use.modes_after),
    ]
    for what, given, wanted in pairs:
        if given != wanted:
            yield f"{what} is\n    {short(given)}\n  and should be\n    {short(wanted)}"


def main(arguments):
    if len(arguments) > 1:
        raise SystemExit(__doc__)
    count, wrong = 0, 0
    with tempfile.TemporaryDirectory() as top:
        os.chmod(top, 0o755)
        # the programs stand where everybody may run them
        for program in PROGRAMS:
            built = os.path.join(os.path.dirname(HERE), "crates", program, "out")
            shutil.copy(os.path.join(arguments[0] if arguments else built, program), top)
            os.chmod(os.path.join(top, program), 0o755)
        for use in uses():
            folder = os.path.join(top, str(count))
            os.mkdir(folder)
            for text in differences(top, folder, use):
                print(f"{use.name()}: {text}")
                wrong += 1
            shutil.rmtree(folder)
            count += 1
    if wrong:
        raise SystemExit(f"programs: {wrong} of what {count} uses print and write is not as it should be")
    print(f"programs: {count} uses print and write what they should")


if __name__ == "__main__":
    main(sys.argv[1:])
