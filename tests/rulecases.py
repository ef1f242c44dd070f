#!/usr/bin/env python3
"""Make the cases of the program test_rule, and their answers, with the help of a second miner.

    tests/rulecases.py SECOND-MINER      write crates/test_rule/stdin and crates/test_rule/stdout

SECOND-MINER is the command of an independent implementation of the paper 01. It takes
'batch' and then one command a line on standard input (see secondminer.py).

A case is a role file, a rule file and a question. Cases with one role file stand together in
stdin: the length of the role file (two bytes, low byte first), the number of cases (one byte),
the role file, and then for each case the length of its rule file (two bytes), user, resource
and operation of the question (one byte each) and the rule file. A line of stdout is: what the
judge says of the two files, a comma, and the answer to the rule question:

    verdict 0, yes
    verdict 1 USER RESOURCE OPERATION, no
    verdict 2 RULE, yes
    verdict 3 PART, no
    refused 13, refused 13

All lines are made of the second miner's answers to 'judge' and 'ask-rules', never of those
of the programs of this repository.

The cases are of three sorts. Most are written out below, a function for each group; what they
write out is what stands behind the 20 of a rule file, and 'asked' puts the 20 of the role file
in front of it, but for the groups about the 20 itself. Those of the last groups are the second
miner's: files that it mined (mined), and random role files with random rule files beside them,
whole and damaged, from fixed seeds (made). Behind the lines of the cases stand those of the
long files, which the program builds itself (see long_files).
"""
import functools
import os
import sys
import tempfile

from rolefiles import (
    BOTH_KINDS,
    CHAIN_DOWN,
    CHAIN_UP,
    END as END_OF_ROLES,
    EQUAL_DOMAINS,
    EXAMPLE_A,
    FULL,
    INHERITS,
    NOBODY,
    NO_COMMAND as NO_ROLE_COMMAND,
    ONE_OF_TWO,
    ONE_PART,
    SETS,
    TWO_PARTS,
    UNEQUAL_DOMAINS,
    assign,
    declare,
    each_once,
    grid,
    joined,
    line,
    members,
    opening,
    permit,
    random_numbers,
    single,
    sizes,
    with_domains,
    with_operand,
)
from secondminer import Folder, told

# ---- commands of a rule file

OPEN = bytes([0x21])
END = bytes([0x2F])
COMMANDS = [0x20, 0x21, 0x22, 0x23, 0x24, 0x25, 0x26, 0x27, 0x28, 0x29, 0x2F]
UNKNOWN = [byte for byte in range(256) if byte not in COMMANDS]
# Bytes that are no command: two beside commands, and more with the first and the last.
NO_COMMANDS = [0x1F, 0x2A]
MORE_NO_COMMANDS = [0x00, 0x01, 0x0F, 0x1F, 0x2A, 0x2B, 0x2E, 0x30, 0xFF]
NO_COMMAND = bytes(NO_COMMANDS[:1])

# The number of bytes of the 20 and its operands.
OPENING = 7

# The attribute of the roles that a user holds, and of a resource's own number.
OWN = 255


def user_single(attribute, value):
    return bytes([0x22, attribute]) + value.to_bytes(2, "little")


def user_set(attribute, mask):
    return bytes([0x23, attribute]) + mask.to_bytes(8, "little")


def resource_single(attribute, value):
    return bytes([0x24, attribute]) + value.to_bytes(2, "little")


def resource_set(attribute, mask):
    return bytes([0x25, attribute]) + mask.to_bytes(8, "little")


def operations(mask):
    return bytes([0x26]) + mask.to_bytes(2, "little")


def atom(user_attribute, resource_attribute):
    return bytes([0x27, user_attribute, resource_attribute])


def part(role, mask):
    return bytes([0x28, role]) + mask.to_bytes(2, "little")


def level(number):
    return bytes([0x29, number])


def level_of(*lines):
    """The lowest level that allows these lines: by the 255s that they list."""
    return any(line[:2] == bytes([0x23, OWN]) for line in lines) + 2 * any(line[:2] == bytes([0x24, OWN]) for line in lines)


def untold(*lines):
    """A rule of these lines alone."""
    return joined(OPEN, *lines)


def rule(*lines):
    """A rule of these lines, and behind them its level."""
    return untold(*lines, level(level_of(*lines)))


def filed(*rules):
    return joined(*rules, END)


def elements(*numbers):
    """The mask of a set."""
    return sum(1 << number for number in numbers)


# ---- files that several groups use

# Example A's rules of 01; these and the rules below stand behind a 20.
RULES_OF_A = bytes.fromhex("21 26 01 00 27 00 00 28 00 01 00 28 01 01 00 29 00 2F")

# A single and a set attribute on each side, with values for user 0 and resource 0. Role 0 has user 0 and
# resource 0 under both operations, role 1 user 1 and resource 1 under operation 0.
BASE = joined(
    BOTH_KINDS,
    single(0, 0, 0, 1),
    members(0, 1, 0, elements(1, 2)),
    single(1, 0, 0, 1),
    members(1, 1, 0, elements(1, 2)),
    assign(0, 0),
    permit(0, 0, 0),
    permit(0, 0, 1),
    assign(1, 1),
    permit(1, 1, 0),
    END_OF_ROLES,
)

# All lines that a rule may have, in order; with them the rule grants just what role 0 does.
LINES = [
    user_single(0, 1),
    user_set(1, elements(1)),
    resource_single(0, 1),
    resource_set(1, elements(1, 2)),
    operations(0b11),
    atom(0, 0),
    atom(1, 0),
    atom(1, 1),
    part(0, 0b11),
    level(0),
]
FIRST = untold(*LINES)

# The rule of role 1.
SECOND = rule(user_set(OWN, elements(1)), resource_single(OWN, 1), operations(0b1), part(1, 0b1))

RULES_OF_BASE = filed(FIRST, SECOND)

# The shortest rules of ONE_OF_TWO, TWO_PARTS and SETS.
OF_ONE = rule(user_set(OWN, elements(0)), resource_single(OWN, 0), operations(0b1), part(0, 0b1))
OF_TWO_PARTS = filed(
    rule(resource_single(OWN, 0), operations(0b1), part(0, 0b1)), rule(operations(0b10), part(0, 0b10))
)
OF_SETS = rule(operations(0b1), part(0, 0b1))

# Six attributes a side, single and set in turn; one part, of the last role, operation and user.
LARGEST = joined(
    sizes(64, 64, 16, 32),
    *[declare(side, kind) for kind in [0, 1] * 3 for side in [0, 1]],
    assign(31, 63),
    permit(31, 63, 15),
    END_OF_ROLES,
)
LAST_PART = part(31, elements(15))
RULES_OF_LARGEST = rule(user_set(OWN, elements(31)), resource_single(OWN, 63), operations(elements(15)), LAST_PART)

# ---- the groups: each yields triples of a role file, a rule file and a question

ANY = (0, 0, 0)


def asked(roles, rules, *questions):
    """These rules behind the 20 of the role file, with each question, or with question 0 0 0."""
    yield from asked_whole(roles, opening(roles) + rules, *questions)


def asked_whole(roles, file, *questions):
    """The same with a rule file as it is."""
    for question in questions or [ANY]:
        yield roles, file, question


def every(roles):
    """Every question within the sizes of a role file."""
    users, resources, operations_, _ = roles[1:5]
    return [q for q in grid(users, resources, operations_) if q[0] < users and q[1] < resources and q[2] < operations_]


def examples():
    """Example A of 01 and the other files of its section 'Files to try', with rules of theirs and of others."""
    yield from asked(EXAMPLE_A, RULES_OF_A, *grid(2, 2, 1))
    # A's rules beside other role files
    start, values, roles = EXAMPLE_A[:11], EXAMPLE_A[11:35], EXAMPLE_A[35:-1]
    assert start == sizes(2, 2, 1, 2) + declare(0, 0) + declare(1, 0)
    changed = [
        # a permission more, one less
        joined(start, values, roles, permit(0, 1, 0), END_OF_ROLES),
        joined(start, values, roles, permit(1, 0, 0), END_OF_ROLES),
        joined(start, values, roles[:-4], END_OF_ROLES),
        joined(start, values, roles[:-8], roles[-4:], END_OF_ROLES),
        # a holder more, one less, another one
        joined(start, values, roles, assign(0, 1), END_OF_ROLES),
        joined(start, values, roles, assign(1, 0), END_OF_ROLES),
        joined(start, values, roles[3:], END_OF_ROLES),
        joined(start, values, roles[:3], roles[6:], END_OF_ROLES),
        joined(start, values, assign(0, 1), assign(1, 0), roles[6:], END_OF_ROLES),
        # an inherited holder
        joined(start, values, roles, line(0, 1), END_OF_ROLES),
        joined(start, values, roles, line(1, 0), END_OF_ROLES),
        joined(start, values, roles[:3], line(1, 0), roles[6:], END_OF_ROLES),
        # other sizes
        *[
            joined(with_operand(start, place, value), values, roles, END_OF_ROLES)
            for place in [1, 2, 3, 4]
            for value in [start[place] - 1, start[place] + 1]
        ],
        # other kinds and attributes
        joined(start, declare(0, 0), declare(1, 1), values, roles, END_OF_ROLES),
        joined(sizes(2, 2, 1, 2), declare(0, 0), single(0, 0, 0, 5), roles, END_OF_ROLES),
        joined(sizes(2, 2, 1, 2), declare(0, 0), declare(1, 1), members(1, 0, 0, 5), roles, END_OF_ROLES),
        joined(sizes(2, 2, 1, 2), declare(0, 1), declare(1, 0), members(0, 0, 0, 32), values[12:], roles, END_OF_ROLES),
        # no values at all, and one of them not given
        joined(start, roles, END_OF_ROLES),
        *[joined(start, values[: 6 * n], values[6 * n + 6 :], roles, END_OF_ROLES) for n in range(4)],
    ]
    for file in changed:
        yield from asked(file, RULES_OF_A, (0, 0, 0), (1, 1, 0), (0, 1, 0))
        # with the 20 of A
        yield from asked_whole(file, opening(EXAMPLE_A) + RULES_OF_A)
    # one value another
    for n in range(4):
        for low, high in [(5, 0), (7, 0), (5, 1), (0, 5)]:
            other = values[: 6 * n + 4] + bytes([low, high]) + values[6 * n + 6 :]
            yield from asked(joined(start, other, roles, END_OF_ROLES), RULES_OF_A, (n % 2, n % 2, 0))
    # no rules
    for file in [NOBODY, EXAMPLE_A, ONE_OF_TWO, INHERITS, SETS, BASE, joined(sizes(2, 2, 2, 2), END_OF_ROLES)]:
        yield from asked(file, END)
        yield from asked(file, b"")
    yield from asked(ONE_OF_TWO, filed(OF_ONE), *grid(2, 2, 1))
    yield from asked(INHERITS, filed(rule(operations(0b1), part(1, 0b1))))
    yield from asked(INHERITS, filed(rule(operations(0b1), part(0, 0b1))))
    yield from asked(TWO_PARTS, OF_TWO_PARTS, *grid(1, 2, 2))
    yield from asked(ONE_PART, OF_TWO_PARTS)
    yield from asked(ONE_PART, filed(rule(operations(0b11), part(0, 0b11))), *every(ONE_PART))
    yield from asked(SETS, filed(OF_SETS))
    # user set {1, 2} meets {{1}}; resource set {1, 2} does not
    yield from asked(SETS, filed(rule(user_set(0, 2), operations(0b1), part(0, 0b1))))
    yield from asked(SETS, filed(rule(resource_set(0, 2), operations(0b1), part(0, 0b1))))
    yield from asked(SETS, filed(rule(resource_set(0, 6), operations(0b1), part(0, 0b1))))
    yield from asked(BASE, RULES_OF_BASE, *grid(2, 2, 2))
    yield from asked(FULL, filed(OF_ONE))
    yield from asked(LARGEST, filed(RULES_OF_LARGEST), (63, 63, 15), (63, 63, 14), (62, 63, 15), (63, 62, 15))


# Six numbers, each of them another.
EVERY_SIZE = joined(
    sizes(3, 4, 5, 6), declare(0, 0), declare(1, 0), declare(1, 1, 7), assign(5, 2), permit(5, 3, 4), END_OF_ROLES
)
RULES_OF_EVERY_SIZE = filed(rule(operations(0b10000), part(5, 0b10000)))


def first_command():
    """The first command: a 20 like the role file's; no byte and cut off are 10, an unknown one 11, another than 20 is 12."""
    for roles, rules in [
        (EXAMPLE_A, RULES_OF_A),
        (BASE, RULES_OF_BASE),
        (NOBODY, END),
        (LARGEST, filed(RULES_OF_LARGEST)),
        (EVERY_SIZE, RULES_OF_EVERY_SIZE),
    ]:
        yield from asked(roles, rules)
        # cut at every byte, before the first one too; the 20 alone is cut off before 2F
        whole = opening(roles) + rules
        for length in range(OPENING + 1):
            yield from asked_whole(roles, whole[:length])
        # without the 20
        yield from asked_whole(roles, rules)
    for byte in UNKNOWN:
        yield from asked_whole(ONE_OF_TWO, bytes([byte]))
    for byte in MORE_NO_COMMANDS:
        # before the 20, and in its place
        other = bytes([byte])
        yield from asked_whole(ONE_OF_TWO, joined(other, opening(ONE_OF_TWO), filed(OF_ONE)))
        yield from asked_whole(ONE_OF_TWO, joined(other, opening(ONE_OF_TWO)[1:], filed(OF_ONE)))
    for command in [OPEN, *LINES, END]:
        # cut off at every byte, and whole; before the 20, and in its place
        for length in range(1, len(command) + 1):
            yield from asked_whole(BASE, command[:length])
        yield from asked_whole(BASE, joined(command, opening(BASE), RULES_OF_BASE))
        yield from asked_whole(BASE, joined(command, RULES_OF_BASE))
        yield from asked_whole(BASE, joined(command, NO_COMMAND))
    # out of order comes before beyond, and before what is missing
    for command in [user_single(9, 9), resource_set(9, 9), operations(0), atom(9, 9), part(9, 9), END + END, OPEN + END]:
        yield from asked_whole(BASE, command)
    # the 20 behind a rule, or behind the end
    yield from asked_whole(BASE, joined(FIRST, opening(BASE), SECOND, END))
    yield from asked_whole(BASE, joined(RULES_OF_BASE, opening(BASE)))


def shapes():
    """Refusal 16: each operand of the 20 another than the role file's, whatever stands behind it."""
    for roles, rules in [
        (EXAMPLE_A, RULES_OF_A),
        (EVERY_SIZE, RULES_OF_EVERY_SIZE),
        (NOBODY, END),
        (LARGEST, filed(RULES_OF_LARGEST)),
    ]:
        right = opening(roles)
        others = bytes([0x20, *[number + 1 for number in right[1:]]])
        for place in range(1, OPENING):
            own = right[place]
            for value in sorted({own - 1, own + 1, own ^ 0x80} - {-1}):
                yield from asked_whole(roles, with_operand(right, place, value) + rules)
            for value in sorted({0, 1, 255} - {own}):
                yield from asked_whole(roles, with_operand(right, place, value) + END)
            # all of them but this one another, and two of them exchanged
            yield from asked_whole(roles, with_operand(others, place, own) + END)
            for second in range(1, place):
                exchanged = with_operand(with_operand(right, place, right[second]), second, own)
                yield from asked_whole(roles, exchanged + END)
    # whatever stands behind it; cut off it is 10
    right = opening(BASE)
    for place in range(1, OPENING):
        wrong = with_operand(right, place, right[place] + 1)
        for behind in [
            b"",
            b"\0",
            NO_COMMAND,
            OPEN,
            END,
            END + END,
            SECOND,
            filed(SECOND),
            user_single(0, 1)[:2],
            operations(0),
            filed(rule(operations(0))),
            filed(rule(operations(0b1))),
            right,
            right[:3],
        ]:
            yield from asked_whole(BASE, wrong + behind)
        for length in range(1, OPENING):
            yield from asked_whole(BASE, wrong[:length])
    # attributes by 02 and by 08 count together
    for side in [0, 1]:
        for by_02, by_08 in [(0, 1), (0, 6), (1, 0), (1, 1), (1, 5), (2, 3), (3, 3), (4, 1), (5, 1), (6, 0)]:
            declared = declare(side, 0) * by_02 + declare(side, 1, 9) * by_08
            roles = joined(sizes(1, 1, 1, 1), declared, assign(0, 0), permit(0, 0, 0), END_OF_ROLES)
            right = opening(roles)
            yield from asked(roles, filed(OF_SETS))
            for count in sorted({by_02, by_08, by_02 + by_08 - 1, by_02 + by_08 + 1, by_02 + 2 * by_08}):
                yield from asked_whole(roles, with_operand(right, 5 + side, count) + END)
            # on the other side
            yield from asked_whole(roles, right[:5] + right[:4:-1] + END)


def second_opening():
    """A second 20 is 12, wherever it stands and whatever it says; cut off it is 10, behind the end 12."""
    right = opening(ONE_OF_TWO)
    for second in [right, with_operand(right, 1, 9), with_operand(right, 6, 9), bytes([0x20]) + bytes(6)]:
        # at once, in a rule, before the end, in its place and behind it
        for before in [b"", OPEN, OF_ONE[:-6], OF_ONE[:-2], OF_ONE, filed(OF_ONE)]:
            yield from asked(ONE_OF_TWO, joined(before, second, END))
            yield from asked(ONE_OF_TWO, joined(before, second))
        yield from asked(ONE_OF_TWO, joined(second, filed(OF_ONE)))
        yield from asked(ONE_OF_TWO, joined(second, second, filed(OF_ONE)))
        # in place of the next rule's 21
        yield from asked(ONE_OF_TWO, joined(OF_ONE, second, OF_ONE[1:], END))
    for length in range(1, OPENING):
        for before in [b"", OPEN, OF_ONE[:-6], OF_ONE, filed(OF_ONE)]:
            yield from asked(ONE_OF_TWO, joined(before, right[:length]))
    right = opening(BASE)
    for n in range(len(LINES)):
        yield from asked(BASE, joined(OPEN, *LINES[: n + 1], right, END))
    # before it the refusals of earlier commands; it comes before those of later ones
    for bad in [operations(0), atom(9, 9), user_single(7, 7), part(9, 9)]:
        yield from asked(BASE, joined(OPEN, bad, right))
        yield from asked(BASE, joined(OPEN, right, bad))
    yield from asked(BASE, joined(NO_COMMAND, right))
    yield from asked(BASE, joined(right, NO_COMMAND))


def cut():
    """Refusal 10: rule files cut at every byte, and what comes before it."""
    for roles, rules in [(EXAMPLE_A, RULES_OF_A), (BASE, RULES_OF_BASE), (TWO_PARTS, OF_TWO_PARTS)]:
        for length in range(len(rules)):
            yield from asked(roles, rules[:length])
    for command in [OPEN, *LINES]:
        # cut off where no rule is open, where most may not stand
        for length in range(1, len(command) + 1):
            yield from asked(BASE, command[:length])
    # cut off comes before out of order; before that come the refusals of earlier commands
    for n, command in enumerate(LINES):
        yield from asked(BASE, joined(OPEN, *LINES[n:], command[:-1]))
        yield from asked(BASE, joined(OPEN, *LINES[n:], command))
        yield from asked(BASE, joined(OPEN, operations(0), command[:-1]))
        yield from asked(BASE, joined(OPEN, atom(9, 9), command[:-1]))
        yield from asked(BASE, joined(command, command[:-1]))


def unknown():
    """Refusal 11: bytes that are no command."""
    for byte in UNKNOWN:
        yield from asked(ONE_OF_TWO, joined(OPEN, bytes([byte]), bytes(2), END))
    for byte in MORE_NO_COMMANDS:
        other = bytes([byte])
        # directly behind the 20, as the last byte, behind a whole rule, in place of the end and behind it
        yield from asked(ONE_OF_TWO, other)
        yield from asked(ONE_OF_TWO, other + bytes(10))
        yield from asked(ONE_OF_TWO, joined(OPEN, other))
        yield from asked(ONE_OF_TWO, joined(OF_ONE, other, END))
        yield from asked(ONE_OF_TWO, joined(OF_ONE, other))
        yield from asked(ONE_OF_TWO, joined(filed(OF_ONE), other))
    for byte in NO_COMMANDS:
        # behind each line of a rule, also where the next command would be refused
        for n in range(len(LINES)):
            yield from asked(BASE, joined(OPEN, *LINES[: n + 1], bytes([byte, 0, 0]), END))
    # before it the refusals of earlier commands
    for earlier in [operations(0), atom(9, 9), user_single(7, 7), part(9, 9)]:
        yield from asked(BASE, joined(OPEN, earlier, NO_COMMAND, END))
        yield from asked(BASE, joined(earlier, NO_COMMAND, END))


def places():
    """Refusal 12: commands out of order, repeated, and bytes behind the end."""
    for command in [OPEN, *LINES, END]:
        # without a 21 before it; behind the end, whole, its first byte, and before another end
        yield from asked(BASE, joined(command, RULES_OF_BASE))
        yield from asked(BASE, filed(command))
        yield from asked(BASE, joined(END, command))
        yield from asked(BASE, joined(RULES_OF_BASE, command))
        yield from asked(BASE, joined(RULES_OF_BASE, command[:1]))
        yield from asked(BASE, joined(RULES_OF_BASE, command, END))
    yield from asked(BASE, joined(RULES_OF_BASE, RULES_OF_BASE))
    for byte in [0x00, 0x2E, 0x30, 0xFF]:
        yield from asked(BASE, joined(END, bytes([byte]) * 3))
    # two lines of a rule: where they ascend the file is cut off, and otherwise out of order
    for earlier in LINES:
        for later in LINES:
            yield from asked(BASE, joined(OPEN, earlier, later))
    # every line of a rule repeated, left out, and two of them changed places
    for n, command in enumerate(LINES):
        yield from asked(BASE, filed(untold(*LINES[: n + 1], *LINES[n:]), SECOND))
        yield from asked(BASE, filed(untold(*LINES[:n], *LINES[n + 1 :]), SECOND))
        yield from asked(BASE, filed(SECOND, untold(*LINES[:n], *LINES[n + 1 :])))
        yield from asked(BASE, filed(untold(*LINES, command), SECOND))
        yield from asked(BASE, filed(untold(command, *LINES), SECOND))
        if n > 0:
            yield from asked(BASE, filed(untold(*LINES[: n - 1], LINES[n], LINES[n - 1], *LINES[n + 1 :]), SECOND))
    # the order of a rule begins afresh with its 21
    yield from asked(BASE, filed(SECOND, FIRST))
    yield from asked(BASE, filed(FIRST, FIRST, SECOND))
    yield from asked(BASE, filed(SECOND, SECOND, FIRST, SECOND))
    # out of order comes before beyond
    of_values = [command(9, 9) for command in [user_single, user_set, resource_single, resource_set]]
    for bad in [*of_values, operations(0), atom(9, 9), part(9, 9)]:
        yield from asked(BASE, filed(bad))
        yield from asked(BASE, filed(rule(bad)))
        yield from asked(BASE, filed(rule(part(1, 0b1), bad)))
        yield from asked(BASE, filed(rule(part(0, 0b11), bad)))
        yield from asked(BASE, joined(filed(SECOND), bad))
        yield from asked(BASE, filed(rule(bad, bad)))


def second_operations():
    """A second 26, which is refused by 12, and one that is missing."""
    for one in [0b01, 0b10, 0b11]:
        for two in [0b00, 0b01, 0b10, 0b11, 0b100, 0xFFFF]:
            yield from asked(BASE, filed(rule(operations(one), operations(two), part(1, 0b1)), SECOND))
    # with lines between, cut off, and of two bytes
    yield from asked(BASE, filed(rule(operations(0b01), atom(0, 0), operations(0b10), part(1, 0b1))))
    yield from asked(BASE, filed(rule(operations(0b01), part(1, 0b1), operations(0b10))))
    yield from asked(BASE, joined(OPEN, operations(0b01), operations(0b10)[:2]))
    for one, two in [(0x0100, 0x00FF), (0x00FF, 0x0100), (0x0100, 0x0002), (0x0002, 0x0100), (0x8000, 0x8000)]:
        yield from asked(LARGEST, filed(rule(operations(one), operations(two), LAST_PART)))
        yield from asked(LARGEST, filed(rule(operations(one), LAST_PART), RULES_OF_LARGEST), (63, 63, 8))
    # another one in the next rule is good
    yield from asked(BASE, filed(rule(operations(0b10), part(1, 0b1)), rule(operations(0b01), part(1, 0b1))))


def missing():
    """Refusal 12 for a 26, 28 or 29 that is missing, seen at the next 21 and at 2F; an earlier 10, 11, 13 or 18 wins."""
    incomplete = [
        [],
        [operations(0b11)],
        [part(0, 0b11)],
        [part(0, 0b11), part(1, 0b1)],
        [atom(0, 0)],
        [user_single(0, 1)],
        [operations(0b11), atom(0, 0)],
        [atom(0, 0), part(0, 0b11)],
        [user_single(0, 1), resource_set(1, 6), part(0, 0b11)],
        LINES[:-2],
        LINES[:4],
        LINES[:4] + LINES[5:-1],
    ]
    # without the level, and with nothing but it missing
    for lines in [*incomplete, LINES[:-1], [operations(0b1), part(1, 0b1)]]:
        yield from asked(BASE, filed(untold(*lines)))
        yield from asked(BASE, joined(untold(*lines), OPEN))
        yield from asked(BASE, filed(SECOND, untold(*lines)))
        yield from asked(BASE, filed(untold(*lines), SECOND))
    for lines in incomplete:
        # at the end, at the next 21, behind a whole rule, before one, and cut off
        yield from asked(BASE, filed(rule(*lines)))
        yield from asked(BASE, joined(rule(*lines), OPEN))
        yield from asked(BASE, filed(SECOND, rule(*lines)))
        yield from asked(BASE, filed(rule(*lines), SECOND))
        yield from asked(BASE, joined(SECOND, rule(*lines)))
        yield from asked(BASE, joined(rule(*lines), END, b"\0"))
        # an earlier refusal wins, a later one does not
        yield from asked(BASE, filed(rule(*lines, part(1, 0b10))))
        yield from asked(BASE, filed(untold(*lines, level(3))))
        yield from asked(BASE, filed(rule(*lines), rule(operations(0))))
        yield from asked(BASE, joined(rule(*lines), NO_COMMAND))
        yield from asked(BASE, joined(rule(*lines), part(1, 0b1)[:2]))
        yield from asked(BASE, joined(rule(*lines), rule(), part(1, 0b1)[:2]))
    # two parts and no more; many rules, the last one not whole
    yield from asked(BASE, filed(rule(operations(0b1), part(0, 0b11), part(1, 0b1))))
    yield from asked(BASE, filed(*[SECOND] * 5, rule(operations(0b1))))


def levels():
    """The 29: a level for each rule, the lowest that its conjuncts allow, or 18; once, behind the parts."""
    none, users, resources = [], [user_set(OWN, elements(0))], [resource_single(OWN, 0)]
    two_users, two_resources = [user_set(OWN, 0b01), user_set(OWN, 0b10)], [resource_single(OWN, 0), resource_single(OWN, 1)]
    ends = [operations(0b1), part(1, 0b1)]
    for lines in [
        none,
        users,
        resources,
        users + resources,
        two_users,
        two_resources,
        two_users + two_resources,
        [user_set(OWN, 0)],
        # other attributes, sets and atoms are of level 0
        [user_single(0, 1)],
        [user_set(1, 6)],
        [resource_single(0, 1)],
        [resource_set(1, 6)],
        LINES[:4],
        [user_single(0, 255), user_set(1, 255)],
        [resource_single(0, 255), resource_set(1, 255)],
        [user_set(1, 6), *users],
        [resource_single(0, 1), *resources],
    ]:
        for number in [0, 1, 2, 3, 4, 5, 7, 127, 128, 254, 255]:
            yield from asked(BASE, filed(untold(*lines, *ends, level(number))), (1, 1, 0))
    for number in [0, 1, 2, 3]:
        yield from asked(BASE, filed(untold(operations(0b1), atom(0, 0), part(1, 0b1), level(number))))
    # the level of one rule is not that of the next
    four = [untold(*lines, *ends, level(level_of(*lines))) for lines in [none, users, resources, users + resources]]
    for one in four:
        for two in four:
            yield from asked(BASE, filed(one, two))
            # with the other's level
            yield from asked(BASE, filed(one, two[:-1] + one[-1:]))
    yield from asked(BASE, filed(*four, *four[::-1]))
    # twice, and more than one number
    for one in [0, 1, 3]:
        for two in [0, 1, 2, 3, 255]:
            yield from asked(BASE, filed(untold(*ends, level(one), level(two))))
            yield from asked(BASE, filed(untold(*users, *ends, level(one), level(two))))
    # before the parts, the atoms, the operations and the conjuncts, with the right number and a wrong one
    whole = [*users, operations(0b1), atom(0, 0), part(1, 0b1)]
    for n in range(len(whole) + 1):
        for number in [0, 1, 3]:
            yield from asked(BASE, filed(untold(*whole[:n], level(number), *whole[n:])))
            yield from asked(BASE, filed(untold(*whole[:n], level(number))))
            yield from asked(BASE, joined(OPEN, *whole[:n], level(number)))
            yield from asked(BASE, joined(OPEN, *whole[:n], level(number)[:1]))
    # where the level is tested: behind 10, 11 and 12 of its command, before those of the next, and before 5 of the question
    for number in [0, 1]:
        for rules in [
            level(number),
            level(number)[:1],
            filed(level(number)),
            joined(END, level(number)),
            joined(OPEN, level(number), NO_COMMAND),
            joined(OPEN, *ends, level(number), NO_COMMAND),
            joined(OPEN, *ends, level(number), level(number)[:1]),
            joined(OPEN, *ends, level(number), part(9, 9)),
            joined(OPEN, *ends, level(number), part(0, 0b11)),
            joined(OPEN, *ends, part(9, 9), level(number)),
            joined(OPEN, operations(0), part(1, 0b1), level(number)),
            joined(filed(untold(*ends, level(number))), b"\0"),
            filed(untold(*ends, level(number)), untold()),
            filed(untold(*ends, level(number)), untold(operations(0))),
            filed(untold(operations(0b1)), untold(*ends, level(number))),
        ]:
            yield from asked(BASE, rules, (0, 0, 0), (9, 9, 9))
    # beside the largest sizes: the last role and the last resource
    for lines in [[], [user_set(OWN, elements(31))], [resource_single(OWN, 63)], [user_set(OWN, elements(31)), resource_single(OWN, 63)]]:
        for number in range(5):
            rules = filed(untold(*lines, operations(elements(15)), LAST_PART, level(number)))
            yield from asked(LARGEST, rules, (63, 63, 15))


def in_rule(command, mask, listed):
    """A rule with this line among the operations and the part that it needs; 26 and 28 take their places."""
    lines = {0x26: operations(mask), 0x28: listed}
    lines[command[0]] = command
    return rule(*[lines[byte] for byte in sorted(lines)])


def operands():
    """Refusal 13: operands at their last good number, one beyond, and others; and the wrong kind."""
    # attributes of each command, beside a file with one of each kind on each side and one with six on each
    for roles, mask, listed, numbers in [
        (BASE, 0b11, part(0, 0b11), [0, 1, 2, 3, 254, 255]),
        (LARGEST, elements(15), LAST_PART, [0, 1, 4, 5, 6, 7, 64, 255]),
    ]:
        question = (0, 0, 0) if roles == BASE else (63, 63, 15)
        for number in numbers:
            for command in [user_single, user_set, resource_single, resource_set]:
                yield from asked(roles, filed(in_rule(command(number, 1), mask, listed)), question)
            for other in numbers:
                yield from asked(roles, filed(in_rule(atom(number, other), mask, listed)), question)
    # no attributes at all, and on one side only
    for start in [[], [declare(0, 0)], [declare(0, 1)], [declare(1, 0)], [declare(1, 1)]]:
        roles = joined(sizes(1, 1, 1, 1), *start, assign(0, 0), permit(0, 0, 0), END_OF_ROLES)
        for command in [user_single(0, 0), user_set(0, 0), resource_single(0, 0), resource_set(0, 0), atom(0, 0)]:
            yield from asked(roles, filed(in_rule(command, 0b1, part(0, 0b1))))
    # the four pairs of kinds in an atom
    for kind in [0, 1]:
        for other in [0, 1]:
            kinds = declare(0, kind) + declare(1, other)
            roles = joined(sizes(1, 1, 1, 1), kinds, assign(0, 0), permit(0, 0, 0), END_OF_ROLES)
            yield from asked(roles, filed(in_rule(atom(0, 0), 0b1, part(0, 0b1))))
            yield from asked(roles, filed(rule(atom(0, 0))))
            yield from asked(roles, filed(in_rule(atom(0, 1), 0b1, part(0, 0b1))))
            yield from asked(roles, filed(in_rule(atom(1, 0), 0b1, part(0, 0b1))))
    # values of any size are good
    for value in [0, 1, 255, 256, 65535]:
        yield from asked(BASE, filed(in_rule(user_single(0, value), 0b11, part(0, 0b11))))
        yield from asked(BASE, filed(in_rule(resource_single(0, value), 0b11, part(0, 0b11))))
    for value in [0, 1, 2**32, 2**63, 2**64 - 1]:
        yield from asked(BASE, filed(in_rule(user_set(1, value), 0b11, part(0, 0b11))))
        yield from asked(BASE, filed(in_rule(resource_set(1, value), 0b11, part(0, 0b11))))
    # the earlier of two bad lines, and a bad line in a later rule
    yield from asked(BASE, filed(rule(user_single(2, 0), operations(0b11), part(0, 0b11)), rule()))
    yield from asked(BASE, filed(FIRST, rule(operations(0b11), part(0, 0b01))))
    yield from asked(BASE, filed(FIRST, SECOND, rule(operations(0b100), part(0, 0b11))))


def operation_sets():
    """Operations in 26: none, the last one, one beyond, with no and with all sixteen declared."""
    for count in [0, 1, 2, 7, 8, 9, 15, 16]:
        permits = [permit(0, 0, count - 1)] if count > 0 else []
        roles = joined(sizes(1, 1, count, 1), assign(0, 0), *permits, END_OF_ROLES)
        last = elements(count - 1) if count > 0 else 1
        masks = {0, 1, last, 2 * last, 2**count - 1, 2**count, 2**count + 1, 0x0100, 0x8000, 0xFFFF}
        for mask in sorted(mask for mask in masks if mask < 65536):
            # where the class is no part the 26 is seen first
            yield from asked(roles, filed(rule(operations(mask), part(0, last))), (0, 0, max(count, 1) - 1))
            yield from asked(roles, filed(rule(operations(mask))))


def own_attributes():
    """255: good only in 23, with roles as elements, and in 24, with a resource number."""
    for count in [0, 1, 2, 31, 32]:
        # the part is of role 0, where there is one
        lines = [assign(0, 0), permit(0, 0, 0)] if count > 0 else []
        roles = joined(sizes(1, 1, 1, count), *lines, END_OF_ROLES)
        masks = {0, 1, 2**count - 1, 2**count, 2**count + 1, 2**31, 2**32, 2**63, 2**64 - 1}
        if count > 0:
            masks.add(2 ** (count - 1))
        for mask in sorted(masks):
            yield from asked(roles, filed(rule(user_set(OWN, mask), operations(0b1), part(0, 0b1))))
    for count in [0, 1, 2, 63, 64]:
        lines = [assign(0, 0), permit(0, count - 1, 0)] if count > 0 else []
        roles = joined(sizes(1, count, 1, 1), *lines, END_OF_ROLES)
        numbers = {0, 1, count, count + 1, 63, 64, 255, 256, 256 + max(count, 1) - 1, 65535}
        if count > 0:
            numbers.add(count - 1)
        for number in sorted(numbers):
            rules = filed(rule(resource_single(OWN, number), operations(0b1), part(0, 0b1)))
            yield from asked(roles, rules, (0, max(count, 1) - 1, 0))
    for roles in [BASE, LARGEST]:
        for command in [user_single(OWN, 0), resource_set(OWN, 1), atom(OWN, 0), atom(0, OWN), atom(OWN, OWN)]:
            yield from asked(roles, joined(OPEN, command))
            yield from asked(roles, filed(rule(command)))
    # several of them, in order and not
    two_roles = [user_set(OWN, 0b01), user_set(OWN, 0b10)]
    two_resources = [resource_single(OWN, 0), resource_single(OWN, 1)]
    for lines in [two_roles, two_roles[::-1], two_resources, two_resources[::-1], two_roles + two_resources]:
        yield from asked(BASE, filed(rule(*lines, operations(0b11), part(0, 0b11))), (0, 1, 0), (1, 1, 1))


# Role 0 has the classes {0, 2} and {1} with one user; role 1 has the same without a user, role 2 has a user and no
# permissions; role 3 has the class {0, 1, 2}.
CLASSES = joined(
    sizes(2, 3, 4, 4),
    assign(0, 0),
    permit(0, 0, 0),
    permit(0, 1, 1),
    permit(0, 0, 2),
    permit(1, 0, 0),
    permit(1, 1, 1),
    permit(1, 0, 2),
    assign(2, 1),
    assign(3, 1),
    permit(3, 2, 0),
    permit(3, 2, 1),
    permit(3, 2, 2),
    END_OF_ROLES,
)


def parts_listed():
    """Parts in 28: a role and exactly the class of one of its parts."""
    for role in range(5):
        for mask in range(16):
            yield from asked(CLASSES, filed(rule(operations(0b1), part(role, mask))))
    for mask in [0x0105, 0x8005, 0x0500, 0x0100, 0xFFFF]:
        yield from asked(CLASSES, filed(rule(operations(0b1), part(0, mask))))
    for role in [31, 32, 255]:
        yield from asked(CLASSES, filed(rule(operations(0b1), part(role, 0b101))))
    # a role whose holder is inherited, one whose junior has a holder, and one of a longer chain
    steps = [permit(role, 0, 0) for role in range(3)] + [assign(1, 0), line(0, 1), line(1, 2)]
    roles = joined(sizes(1, 1, 1, 3), *steps, END_OF_ROLES)
    for role in range(3):
        yield from asked(roles, filed(rule(operations(0b1), part(role, 0b1))))
    yield from asked(roles, filed(rule(operations(0b1), part(0, 0b1), part(1, 0b1))))
    # the largest numbers
    for mask in [0x7FFF, 0x8000, 0xFFFF, 0x8001, 0x0080]:
        yield from asked(LARGEST, filed(rule(operations(0x8000), part(31, mask))))
        yield from asked(LARGEST, filed(rule(operations(0x8000), part(30, mask))))
    all_sixteen = joined(sizes(1, 1, 16, 1), assign(0, 0), *[permit(0, 0, o) for o in range(16)], END_OF_ROLES)
    for mask in [0xFFFF, 0x7FFF, 0xFFFE, 0x00FF, 0xFF00]:
        yield from asked(all_sixteen, filed(rule(operations(0xFFFF), part(0, mask))), (0, 0, 15))


# Two attributes of each kind on each side, singles first, and classes of two bytes.
TWO_OF_EACH = joined(
    sizes(1, 3, 16, 2),
    *[declare(side, kind) for side in [0, 1] for kind in [0, 0, 1, 1]],
    assign(0, 0),
    assign(1, 0),
    permit(0, 0, 0),
    permit(0, 0, 2),
    permit(0, 1, 1),
    permit(0, 2, 8),
    permit(1, 0, 8),
    permit(1, 1, 0),
    END_OF_ROLES,
)


def numbers():
    """Operands of several bytes are compared as numbers, operand by operand: pairs in the right and the wrong order."""
    pairs = [
        (5, 6),
        (0x0000, 0x0100),
        (0x0001, 0x0100),
        (0x00FF, 0x0100),
        (0x01FF, 0x0200),
        (0x7FFF, 0x8000),
        (0xFFFE, 0xFFFF),
    ]
    words = [
        (0xFF, 0x100),
        (0x01, 2**56),
        (2**56 - 1, 2**56),
        (2**32 - 1, 2**32),
        (2**31, 2**32),
        (2**63 - 1, 2**63),
        (2**63, 2**64 - 1),
        (2**64 - 2, 2**64 - 1),
        (0x0100000000000000, 0x02000000000000FF),
        (0xFF, 2**63),
        (0, 1),
    ]
    for command, attribute, of_width in [
        (user_single, 0, pairs),
        (user_set, 1, words),
        (resource_single, 0, pairs),
        (resource_set, 1, words),
    ]:
        for low, high in of_width:
            for one, two in [(low, high), (high, low), (low, low)]:
                lines = [command(attribute, one), command(attribute, two)]
                yield from asked(BASE, filed(rule(*lines, operations(0b11), part(0, 0b11)), SECOND))
    # the attribute comes before the value, and 255 is the last one
    ends = [operations(0b10), part(0, 0b10)]
    for one, two in [
        (user_single(0, 0xFFFF), user_single(1, 0)),
        (user_set(2, 2**64 - 1), user_set(3, 0)),
        (resource_single(0, 0xFFFF), resource_single(1, 0)),
        (resource_set(2, 2**64 - 1), resource_set(3, 0)),
        (user_set(3, 2**64 - 1), user_set(OWN, 0)),
        (resource_single(1, 0xFFFF), resource_single(OWN, 0)),
        # the command byte comes before both
        (user_single(1, 0xFFFF), user_set(2, 0)),
        (user_set(OWN, 3), resource_single(0, 0)),
        (resource_single(OWN, 2), resource_set(2, 0)),
    ]:
        yield from asked(TWO_OF_EACH, filed(rule(one, two, *ends)))
        yield from asked(TWO_OF_EACH, filed(rule(two, one, *ends)))
    # atoms
    for one, two in [((0, 1), (1, 0)), ((0, 0), (0, 1)), ((0, 1), (2, 0)), ((2, 1), (2, 2)), ((2, 3), (3, 0))]:
        for first, second in [(one, two), (two, one), (one, one)]:
            yield from asked(TWO_OF_EACH, filed(rule(operations(0b10), atom(*first), atom(*second), part(0, 0b10))))
    # parts: {0, 2} = 5 and {1} = 2; {0} = 1 and {8} = 256; a role before the class
    listed = [(0, 0b10), (0, 0b101), (0, 0x0100), (1, 0b1), (1, 0x0100)]
    for one in listed:
        for two in listed:
            yield from asked(TWO_OF_EACH, filed(rule(operations(0b10), part(*one), part(*two))))
    yield from asked(TWO_OF_EACH, filed(rule(operations(0b10), *[part(*one) for one in listed])))
    yield from asked(TWO_OF_EACH, filed(rule(operations(0b10), *[part(*one) for one in listed[:3][::-1]])))


def order_of_refusals():
    """1 to 7 of the role file, then 10 to 13, 16 and 18 of the rule file, then 5 for the question's numbers."""
    refused_roles = [
        b"",  # 2
        BASE[:-1],  # 2
        joined(sizes(1, 1, 1, 1), NO_ROLE_COMMAND, END_OF_ROLES),  # 3
        END_OF_ROLES,  # 4
        joined(ONE_OF_TWO, b"\0"),  # 4
        joined(sizes(65, 1, 1, 1), END_OF_ROLES),  # 5
        joined(sizes(1, 1, 1, 1), assign(0, 1), END_OF_ROLES),  # 5
        joined(sizes(1, 1, 1, 1), declare(0, 0), members(0, 0, 0, 1), END_OF_ROLES),  # 6
        joined(sizes(1, 1, 1, 1), declare(0, 0), single(0, 0, 0, 1), single(0, 0, 0, 1), END_OF_ROLES),  # 6
        joined(sizes(1, 1, 1, 1), line(0, 0), END_OF_ROLES),  # 7
    ]
    refused_rules = [
        b"",  # 10
        OPEN,  # 10
        NO_COMMAND,  # 11
        joined(END, END),  # 12
        filed(OPEN),  # 12
        filed(rule(operations(0))),  # 13
        filed(rule(operations(0b1), part(0, 0b100))),  # 13
        filed(untold(operations(0b1), part(0, 0b1), level(1))),  # 18
    ]
    refused_whole = [
        b"",  # 10
        opening(ONE_OF_TWO)[:-1],  # 10
        NO_COMMAND,  # 11
        END,  # 12
        with_operand(opening(ONE_OF_TWO), 6, 9),  # 16
    ]
    beyond = [(255, 0, 0), (0, 255, 0), (0, 0, 255), (255, 255, 255)]
    for roles in refused_roles:
        for rules in [*refused_rules, END, filed(OF_ONE)]:
            yield from asked(roles, rules)
        yield from asked(roles, END, *beyond)
        yield from asked(roles, OPEN, beyond[-1])
        for file in refused_whole:
            yield from asked_whole(roles, file, ANY, beyond[-1])
    for rules in refused_rules:
        yield from asked(ONE_OF_TWO, rules, ANY, *beyond)
        yield from asked(BASE, rules, ANY, beyond[-1])
    for file in refused_whole:
        yield from asked_whole(ONE_OF_TWO, file, ANY, *beyond)
    # each number at the last good one and beyond, whatever the verdict
    for rules in [END, RULES_OF_EVERY_SIZE]:
        yield from asked(EVERY_SIZE, rules, (2, 3, 4), (3, 4, 5))
        for user, resource, operation in [(3, 4, 5), (64, 64, 16), (255, 255, 255)]:
            yield from asked(EVERY_SIZE, rules, (user, 3, 4), (2, resource, 4), (2, 3, operation))
    for question in [(64, 63, 15), (63, 64, 15), (63, 63, 16), (63, 63, 15)]:
        yield from asked(LARGEST, filed(RULES_OF_LARGEST), question)
    # sizes of 0: any number is beyond
    for nothing in [sizes(0, 1, 1, 1), sizes(1, 0, 1, 1), sizes(1, 1, 0, 1), sizes(1, 1, 1, 0), sizes(0, 0, 0, 0)]:
        yield from asked(joined(nothing, END_OF_ROLES), END, ANY, (1, 1, 1))


# Three users with numbers as values, three resources, two operations.
NUMBERED = joined(sizes(3, 3, 2, 2), declare(0, 0), *[single(0, 0, user, user) for user in range(3)])
TRIPLES = [(user, resource, operation) for user in range(3) for resource in range(3) for operation in range(2)]


def granting(triples, listed):
    """Rules that grant just these triples, beside NUMBERED: one for each user and each set of operations."""
    rules = []
    for user in range(3):
        for mask in [1, 2, 3]:
            lines = []
            for resource in range(3):
                if mask == elements(*[o for o in range(2) if (user, resource, o) in triples]):
                    lines.append(resource_single(OWN, resource))
            if lines:
                rules.append(rule(user_single(0, user), *lines, operations(mask), listed))
    return filed(*rules)


def differences():
    """Verdict 1: the first triple, by user, then resource, then operation, at which roles and rules differ."""
    permits = [permit(0, resource, operation) for resource in range(3) for operation in range(2)]
    everything = joined(NUMBERED, *[assign(0, user) for user in range(3)], *permits, END_OF_ROLES)
    for triple in TRIPLES:
        # everything is granted but this; nothing is but this and one more
        yield from asked(everything, granting([t for t in TRIPLES if t != triple], part(0, 0b11)), triple)
        user, resource, operation = (2, 2, 1) if triple != (2, 2, 1) else (0, 0, 0)
        little = joined(NUMBERED, assign(0, user), permit(0, resource, operation), END_OF_ROLES)
        listed = part(0, 1 << operation)
        yield from asked(little, granting([triple, (user, resource, operation)], listed), triple)
        yield from asked(little, granting([triple], listed), triple)
    # two of them: the resource comes before the operation, the user before both; too many and too few
    for one in [(0, 0, 1), (0, 1, 0), (1, 0, 0), (0, 2, 0), (1, 1, 1), (2, 0, 0)]:
        for two in [(0, 1, 0), (1, 0, 0), (1, 1, 0), (2, 0, 1)]:
            if one != two:
                yield from asked(everything, granting([t for t in TRIPLES if t not in (one, two)], part(0, 0b11)), one)
                halved = joined(NUMBERED, assign(0, one[0]), permit(0, one[1], one[2]), END_OF_ROLES)
                yield from asked(halved, granting([two], part(0, 1 << one[2])), two)
    # the first and the last triple of the largest sizes; one too many and one too few there
    last, first = (63, 63, 15), (0, 0, 0)
    mask = elements(15)
    for roles in [LARGEST, joined(LARGEST[:-1], permit(31, 0, 0), assign(0, 0), END_OF_ROLES)]:
        for lines in [
            [user_set(OWN, elements(31)), resource_single(OWN, 63), operations(mask)],
            [user_set(OWN, elements(31)), resource_single(OWN, 62), operations(mask)],
            [user_set(OWN, elements(31)), resource_single(OWN, 63), operations(mask | elements(14))],
            [user_set(OWN, elements(31)), operations(mask)],
            [resource_single(OWN, 63), operations(mask)],
            [user_set(OWN, elements(0)), resource_single(OWN, 63), operations(mask)],
            [operations(0xFFFF)],
        ]:
            yield from asked(roles, filed(rule(*lines, LAST_PART)), first, last)
    # no rule at all for the parts, and a rule that nobody meets
    yield from asked(everything, END, (1, 1, 1))
    yield from asked(everything, filed(rule(user_single(0, 9), operations(0b11), part(0, 0b11))), (1, 1, 1))


# Role 0: user 0, resource 0; role 1: user 1, resource 1; role 2: both users, both resources.
COVERED = joined(
    sizes(2, 2, 1, 3),
    *[assign(role, user) for role, user in [(0, 0), (1, 1), (2, 0), (2, 1)]],
    *[permit(role, resource, 0) for role, resource in [(0, 0), (1, 1), (2, 0), (2, 1)]],
    END_OF_ROLES,
)


def stray_rules():
    """Verdict 2: the first rule that grants other than its parts, where all of them together agree with the roles."""
    users = {0: [user_set(OWN, elements(0))], 1: [user_set(OWN, elements(1))], 2: []}
    resources = {0: [resource_single(OWN, 0)], 1: [resource_single(OWN, 1)], 2: []}

    def written(grants, *listed):
        return rule(*users[grants], *resources[grants], operations(0b1), *[part(role, 0b1) for role in listed])

    good = [written(0, 0), written(1, 1), written(2, 2)]
    yield from asked(COVERED, filed(*good), *every(COVERED))
    yield from asked(COVERED, filed(*good[::-1]))
    # each rule with each role's part under it
    for one in range(3):
        for two in range(3):
            yield from asked(COVERED, filed(written(2, one), written(0, two), good[1]))
            yield from asked(COVERED, filed(good[0], written(1, one), written(2, two)))
            yield from asked(COVERED, filed(good[1], good[2], written(one, two)))
    # one rule for several parts
    yield from asked(COVERED, filed(written(2, 0, 1, 2)))
    yield from asked(COVERED, filed(written(2, 0, 1)))
    yield from asked(COVERED, filed(written(2, 0, 2), good[1]))
    yield from asked(COVERED, filed(good[2], written(0, 0, 1)))
    yield from asked(COVERED, filed(good[2], good[0], written(1, 0, 1)))
    # the fourth of five; the last of them
    yield from asked(COVERED, filed(good[2], good[0], good[1], written(0, 1), good[1]))
    yield from asked(COVERED, filed(good[2], good[0], good[1], good[1], written(0, 1)))
    # a rule that grants nothing lists a part
    nothing = rule(user_set(OWN, elements(0)), resource_single(OWN, 1), operations(0b1), part(0, 0b1))
    yield from asked(COVERED, filed(good[2], nothing))
    # operations only: the rule grants one of a class of two, another rule the other
    halves = [rule(operations(0b01), part(0, 0b11)), rule(operations(0b10), part(0, 0b11))]
    both = rule(operations(0b11), part(0, 0b11))
    one_class = joined(sizes(1, 1, 2, 1), assign(0, 0), permit(0, 0, 0), permit(0, 0, 1), END_OF_ROLES)
    for rules in [halves, halves[::-1], [both, halves[0]], [halves[1], both], [both], [both, both]]:
        yield from asked(one_class, filed(*rules), (0, 0, 1))
    # two classes: each rule with the other's part
    swapped = [rule(resource_single(OWN, 0), operations(0b1), part(0, 0b10)), rule(operations(0b10), part(0, 0b1))]
    yield from asked(TWO_PARTS, filed(*swapped))
    yield from asked(TWO_PARTS, filed(rule(resource_single(OWN, 0), operations(0b1), part(0, 0b1)), swapped[1]))


def stray_parts():
    """Verdict 3: the first part under no rule or several, where all else is right."""
    # three roles with one block: any listing is right but for the parts
    alike = joined(sizes(1, 1, 1, 3), *[assign(role, 0) + permit(role, 0, 0) for role in range(3)], END_OF_ROLES)

    def listing(mask):
        return rule(operations(0b1), *[part(role, 0b1) for role in range(3) if mask >> role & 1])

    for one in range(1, 8):
        yield from asked(alike, filed(listing(one)))
        for two in range(1, 8):
            yield from asked(alike, filed(listing(one), listing(two)))
    yield from asked(alike, filed(listing(1), listing(2), listing(4)))
    yield from asked(alike, filed(listing(4), listing(2), listing(1)))
    yield from asked(alike, filed(listing(4), listing(4), listing(4), listing(3)))
    # a part of several operations, listed twice and thrice
    for times in [1, 2, 3]:
        yield from asked(BASE, filed(*[FIRST] * times, SECOND))
        yield from asked(BASE, filed(FIRST, *[SECOND] * times))
        yield from asked(BASE, filed(*[FIRST, SECOND] * times))
    # numbers of parts go by lowest operation: {0, 2} before {1}; roles without holder or permissions have no parts
    for roles, first in [
        (joined(sizes(1, 2, 3, 2), assign(0, 0), assign(1, 0)), 0),
        (joined(sizes(1, 2, 3, 4), assign(1, 0), assign(2, 0), assign(3, 0), permit(0, 0, 0)), 2),
    ]:
        two = [first, first + 1]
        classes = [permit(role, resource, o) for role in two for resource, o in [(0, 0), (0, 2), (1, 1)]]
        file = joined(roles, *classes, END_OF_ROLES)
        line_of = {mask: [part(role, mask) for role in two] for mask in [0b010, 0b101]}
        rules_of = {
            0b010: lambda listed: rule(resource_single(OWN, 1), operations(0b010), *listed),
            0b101: lambda listed: rule(resource_single(OWN, 0), operations(0b101), *listed),
        }
        for upper in [[0], [1], [0, 1]]:
            for lower in [[0], [1], [0, 1]]:
                rules = [
                    rules_of[0b101]([line_of[0b101][role] for role in upper]),
                    rules_of[0b010]([line_of[0b010][role] for role in lower]),
                ]
                yield from asked(file, filed(*rules))
                yield from asked(file, filed(*rules, rules[1]))
    # 32 roles with two parts each: the first or the second of one of them left out, and the last of all listed twice
    steps = [permit(role, resource, o) for role in range(32) for resource, o in [(0, 0), (1, 15)]]
    many = joined(sizes(1, 2, 16, 32), *[assign(role, 0) for role in range(32)], *steps, END_OF_ROLES)
    whole = [resource_single(OWN, 0), operations(0x0001)], [resource_single(OWN, 1), operations(0x8000)]
    listed = [part(role, 0x0001) for role in range(32)], [part(role, 0x8000) for role in range(32)]
    both = [rule(*whole[n], *listed[n]) for n in [0, 1]]
    yield from asked(many, filed(*both), (0, 1, 15))
    yield from asked(many, filed(*both, rule(*whole[1], listed[1][31])), (0, 1, 15))
    for role in [0, 16, 31]:
        for n in [0, 1]:
            less = rule(*whole[n], *listed[n][:role], *listed[n][role + 1 :])
            yield from asked(many, filed(less, both[1 - n]), (0, 1, 15))


def verdicts_in_order():
    """1 before 2 before 3."""
    # a triple that differs behind a stray rule and a stray part; then these two
    base_rules = [FIRST, SECOND]
    wrong = rule(resource_single(OWN, 0), operations(0b1), part(0, 0b11))
    wide = rule(operations(0b11), part(1, 0b1))
    for rules in [
        base_rules + [wrong],
        [wrong] + base_rules,
        [FIRST, wrong],
        [wrong, SECOND],
        base_rules + [wide],
        [wide],
        [FIRST, FIRST],
        [SECOND, SECOND],
        [FIRST, FIRST, SECOND, wide],
    ]:
        yield from asked(BASE, filed(*rules), (1, 1, 1))
    narrow = rule(user_set(OWN, 0b01), resource_single(OWN, 0), operations(0b01), part(0, 0b11))
    for rules in [
        [FIRST, SECOND, narrow],
        [narrow, FIRST, SECOND],
        [FIRST, narrow, SECOND, SECOND],
        [SECOND, SECOND, narrow],
        [SECOND, FIRST, FIRST],
        [narrow, SECOND],
    ]:
        yield from asked(BASE, filed(*rules), (0, 0, 1))


def paired(kinds, user_values, resource_values, domains=(None, None)):
    """A role file of one attribute a side with these values, None for unknown; user 0 has role 0, with resource 0.

    The domains are None for 02.
    """
    values = []
    for side, given in enumerate([user_values, resource_values]):
        give = [single, members][kinds[side]]
        values += [give(side, 0, who, value) for who, value in enumerate(given) if value is not None]
    return joined(
        sizes(len(user_values), len(resource_values), 1, 1),
        declare(0, kinds[0], domains[0]),
        declare(1, kinds[1], domains[1]),
        *values,
        assign(0, 0),
        permit(0, 0, 0),
        END_OF_ROLES,
    )


def atoms():
    """What each form of an atom says of values that are known and unknown."""
    for kinds, user_values, resource_values in [
        # set contains set
        ((1, 1), [elements(1, 2), 0, None], [elements(1), 0, elements(1, 2), elements(3), None]),
        ((1, 1), [2**64 - 1, 2**63], [2**63, 2**64 - 1, elements(31, 32)]),
        # set contains single: nothing above 63 is contained
        ((1, 0), [elements(0, 1, 63), 0, None], [0, 1, 2, 63, 64, 65, None]),
        ((1, 0), [2**64 - 1], [63, 64, 127, 128, 256, 319, 65535]),
        # single equals single: all sixteen bits count
        ((0, 0), [5, 64, 0, None], [5, 64, 0, None]),
        ((0, 0), [65535, 320, 256], [65535, 255, 64, 320, 0, 256]),
        # no form: refused
        ((0, 1), [1], [elements(1), elements(0)]),
    ]:
        roles = paired(kinds, user_values, resource_values)
        yield from asked(roles, filed(rule(operations(0b1), atom(0, 0), part(0, 0b1))), *every(roles))
    # several atoms: all must hold
    two = joined(
        sizes(2, 2, 1, 1),
        declare(0, 0),
        declare(0, 1),
        declare(1, 0),
        declare(1, 1),
        single(0, 0, 0, 3),
        single(0, 0, 1, 4),
        members(0, 1, 0, elements(3, 4)),
        members(0, 1, 1, elements(4)),
        single(1, 0, 0, 3),
        single(1, 0, 1, 4),
        members(1, 1, 0, elements(4)),
        members(1, 1, 1, elements(3)),
        assign(0, 0),
        permit(0, 0, 0),
        END_OF_ROLES,
    )
    pairs = [(0, 0), (1, 0), (1, 1)]
    for mask in range(8):
        lines = [atom(*pair) for n, pair in enumerate(pairs) if mask >> n & 1]
        yield from asked(two, filed(rule(operations(0b1), *lines, part(0, 0b1))), *every(two))


# Six attributes a side, single and set in turn, with domains of which some are equal, None for 02; the last user and resource
# have the same values in all of them.
USER_DOMAINS = [None, 1, 2, 2, 255, 0]
RESOURCE_DOMAINS = [2, 0, 1, 255, None, 2]
TWELVE = joined(
    sizes(64, 64, 16, 32),
    *[declare(0, n % 2, domain) for n, domain in enumerate(USER_DOMAINS)],
    *[declare(1, n % 2, domain) for n, domain in enumerate(RESOURCE_DOMAINS)],
    *[[single, members][n % 2](side, n, 63, 7) for n in range(6) for side in [0, 1]],
    assign(31, 63),
    permit(31, 63, 15),
    END_OF_ROLES,
)


def domains():
    """Refusal 13 for an atom across domains, in each form; equal values are no excuse, and conjuncts do not look at domains."""
    yield from asked(EXAMPLE_A, RULES_OF_A)
    by_values = filed(
        *[
            rule(user_single(0, value), resource_single(0, value), operations(0b1), part(role, 0b1))
            for role, value in enumerate([5, 7])
        ]
    )
    for pair in EQUAL_DOMAINS + UNEQUAL_DOMAINS:
        yield from asked(with_domains(*pair), RULES_OF_A, (0, 0, 0), (0, 1, 0))
        yield from asked(with_domains(*pair), by_values, (0, 0, 0), (0, 1, 0))
    # the three forms and the one that is none, with values of which the atom is true
    one = rule(operations(0b1), atom(0, 0), part(0, 0b1))
    for kinds, user_values, resource_values in [
        ((1, 1), [elements(1, 2), elements(3)], [elements(1, 2), elements(3)]),
        ((1, 0), [elements(5, 7), elements(7)], [7, 5]),
        ((0, 0), [7, 65535], [7, 65535]),
        ((0, 1), [7, 5], [elements(7), elements(5)]),
    ]:
        for pair in [(None, None), (None, 0), (9, 9), (None, 9), (9, 0), (8, 9)]:
            roles = paired(kinds, user_values, resource_values, pair)
            yield from asked(roles, filed(one), *every(roles))
            # only part of a rule, and behind a whole one
            yield from asked(roles, joined(OPEN, atom(0, 0)))
            yield from asked(roles, filed(OF_SETS, one))
    # where the kind is tested: behind 10, 11 and 12 of its command, before those of the next, and before 5 of the question
    across = paired((0, 0), [7], [7], (1, 2))
    for rules in [
        atom(0, 0),
        joined(OPEN, atom(0, 0)[:2]),
        joined(OPEN, part(0, 0b1), atom(0, 0)),
        joined(END, atom(0, 0)),
        joined(OPEN, atom(0, 0), NO_COMMAND),
        joined(OPEN, atom(0, 0), atom(0, 0)),
        joined(OPEN, atom(0, 0), END),
        joined(OPEN, atom(0, 0), part(9, 9)),
        joined(OPEN, operations(0), atom(0, 0)),
        joined(OPEN, atom(0, 1)),
        joined(OPEN, atom(1, 0)),
        joined(OPEN, atom(OWN, 0)),
        joined(OPEN, atom(0, OWN)),
    ]:
        yield from asked(across, rules, (0, 0, 0), (1, 1, 1))
    # an attribute has its own domain, whatever those before and behind it have; all 36 atoms
    for number in range(6):
        for other in range(6):
            rules = filed(in_rule(atom(number, other), elements(15), LAST_PART))
            yield from asked(TWELVE, rules, (63, 63, 15))
    # all that are legal, together, and one of another domain among them
    legal = [
        atom(number, other)
        for number, domain in enumerate(USER_DOMAINS)
        for other, of_resource in enumerate(RESOURCE_DOMAINS)
        if (domain or 0) == (of_resource or 0) and (number % 2, other % 2) != (0, 1)
    ]
    ends = [operations(elements(15)), LAST_PART]
    yield from asked(TWELVE, filed(rule(ends[0], *legal, ends[1])), (63, 63, 15), (63, 62, 15), (62, 63, 15))
    for added in [atom(1, 1), atom(2, 2), atom(4, 4), atom(5, 5)]:
        yield from asked(TWELVE, filed(rule(ends[0], *sorted({*legal, added}), ends[1])), (63, 63, 15))
    # the same numbers of attributes the other way round
    for pair in [(1, 2), (2, 1)]:
        declared = [declare(0, 0, 1), declare(0, 0, 2), *[declare(1, 0, domain) for domain in pair]]
        values = [single(side, n, 0, 7) for side in [0, 1] for n in [0, 1]]
        roles = joined(sizes(1, 1, 1, 1), *declared, *values, assign(0, 0), permit(0, 0, 0), END_OF_ROLES)
        for number in [0, 1]:
            for other in [0, 1]:
                yield from asked(roles, filed(in_rule(atom(number, other), 0b1, part(0, 0b1))))
    # a role file that 08 has refused
    for command in [declare(2, 0, 0), declare(0, 2, 0), declare(0, 0, 0)[:3], joined(assign(0, 0), declare(0, 0, 0))]:
        roles = joined(sizes(1, 1, 1, 1), command)
        yield from asked(roles, filed(OF_SETS))
        yield from asked(roles + END_OF_ROLES, filed(OF_SETS))


def conjuncts():
    """What conjuncts say: of values that are known and unknown, of several values, of several conjuncts."""
    one = [operations(0b1), part(0, 0b1)]
    # singles: 0 is not unknown
    roles = paired((0, 0), [0, 1, 256, None], [0, 1, 256, None])
    each_user, each_resource = [(n, 0, 0) for n in range(4)], [(0, n, 0) for n in range(4)]
    for command, questions in [(user_single, each_user), (resource_single, each_resource)]:
        for values in [[0], [1], [256], [65535], [0, 1], [0, 256], [1, 256, 257], [0, 1, 256]]:
            yield from asked(roles, filed(rule(*[command(0, value) for value in values], *one)), *questions)
    # sets: the empty set is not unknown; a user's contains, a resource's equals
    roles = paired((1, 1), [0, elements(1), elements(1, 2), None], [0, elements(1), elements(1, 2), None])
    for command, questions in [(user_set, each_user), (resource_set, each_resource)]:
        for values in [[0], [2], [4], [6], [7], [0, 2], [2, 6], [4, 8], [8, 16], [2**63]]:
            yield from asked(roles, filed(rule(*[command(0, value) for value in values], *one)), *questions)
    # highest bits
    roles = paired((1, 1), [2**64 - 1, 2**63 + 1], [2**64 - 1, 2**63 + 1])
    for value in [2**63, 1, 2**62, 2**63 + 1, 2**64 - 1]:
        yield from asked(roles, filed(rule(user_set(0, value), *one)), (0, 0, 0), (1, 0, 0))
        yield from asked(roles, filed(rule(resource_set(0, value), *one)), (0, 0, 0), (0, 1, 0))
    # conjuncts of several attributes: all must be met; each side by itself
    file = joined(BASE[:-1], single(0, 0, 1, 1), single(1, 0, 1, 2), members(1, 1, 1, 0), END_OF_ROLES)
    good = [user_single(0, 1), user_set(1, 2), resource_single(0, 1), resource_set(1, 6)]
    bad = [user_single(0, 2), user_set(1, 8), resource_single(0, 9), resource_set(1, 2)]
    for mask in range(16):
        chosen = [good[n] for n in range(4) if mask >> n & 1]
        mixed = [bad[n] if mask >> n & 1 else good[n] for n in range(4)]
        yield from asked(file, filed(rule(*chosen, operations(0b11), part(0, 0b11))), (0, 0, 0), (1, 0, 1), (1, 1, 1))
        yield from asked(file, filed(rule(*mixed, operations(0b11), part(0, 0b11))))
    # conjuncts and atoms together
    for chosen in [good[:1], good[1:2], good[2:3], good[3:], good[:2], good[2:]]:
        for atom_of in [atom(0, 0), atom(1, 0), atom(1, 1)]:
            yield from asked(file, filed(rule(*chosen, operations(0b11), atom_of, part(0, 0b11))), (0, 0, 1), (1, 0, 0))
    # operations: those of the rule and no other
    for mask in [0b01, 0b10, 0b11]:
        yield from asked(BASE, filed(rule(operations(mask), part(0, 0b11))), (1, 1, 0), (1, 1, 1))
    # several rules: one that grants it is enough
    few = [rule(resource_single(OWN, n), *one) for n in range(3)]
    file = joined(sizes(2, 4, 1, 1), assign(0, 0), permit(0, 0, 0), END_OF_ROLES)
    for rules in [few, few[::-1], few[:1], few[1:2], few[:1] + few[2:]]:
        yield from asked(file, filed(*rules), *[(1, resource, 0) for resource in range(4)])


def seniority():
    """Roles held through seniors: in 255, in blocks, in parts."""
    # user 3 holds no role; role 0 is junior to 1, and that to 2
    steps = [line(0, 1), line(1, 2), assign(2, 0), assign(1, 1), assign(0, 2), permit(0, 0, 0), permit(2, 1, 0)]
    roles = joined(sizes(4, 2, 1, 3), *steps, END_OF_ROLES)
    each_user = [(user, 0, 0) for user in range(4)]
    for mask in range(8):
        yield from asked(roles, filed(rule(user_set(OWN, mask), operations(0b1), part(0, 0b1))), *each_user)
    of_zero = rule(user_set(OWN, elements(0)), resource_single(OWN, 0), operations(0b1), part(0, 0b1))
    of_two = rule(user_set(OWN, elements(2)), resource_single(OWN, 1), operations(0b1), part(2, 0b1))
    yield from asked(roles, filed(of_zero, of_two), *every(roles))
    # inherited permissions are in no block: with resource 0 under role 2 as well the rules are others
    yield from asked(roles, filed(of_zero, rule(user_set(OWN, elements(2)), operations(0b1), part(2, 0b1))))
    yield from asked(roles, filed(of_zero, of_two, rule(operations(0b1), part(1, 0b1))))
    # two sets listed: one of them is enough
    for one in [0b001, 0b010]:
        lines = [user_set(OWN, one), user_set(OWN, 0b100), operations(0b1), part(0, 0b1)]
        yield from asked(roles, filed(rule(*lines)), *each_user)
    # chains of 32 roles
    for chain, low, high in [(CHAIN_UP, 0, 20), (CHAIN_DOWN, 31, 10)]:
        rules = [
            rule(user_set(OWN, elements(low)), resource_single(OWN, 0), operations(0b01), part(low, 0b01)),
            rule(user_set(OWN, elements(high)), resource_single(OWN, 1), operations(0b10), part(high, 0b10)),
        ]
        yield from asked(chain, filed(*rules), (0, 0, 0), (1, 0, 0), (2, 0, 0), (0, 1, 1), (1, 1, 1))
        yield from asked(chain, filed(rules[0]), (1, 1, 1))
        yield from asked(chain, filed(*rules[::-1]), (1, 0, 0))
    # the holders of 01's file that loses them when 000 is read literally
    yield from asked(INHERITS, filed(rule(user_set(OWN, 0b11), operations(0b1), part(1, 0b1))))
    yield from asked(INHERITS, filed(rule(user_set(OWN, 0b10), operations(0b1), part(1, 0b1))))


def many():
    """More rules, values and listings than a byte can count."""
    one_class = joined(sizes(1, 1, 2, 1), assign(0, 0), permit(0, 0, 0), permit(0, 0, 1), END_OF_ROLES)
    both, half = [rule(operations(mask), part(0, 0b11)) for mask in [0b11, 0b01]]
    for count in [255, 256, 257]:
        yield from asked(one_class, filed(both * count, half))
        yield from asked(one_class, filed(both * count))
    # the value that is met is the first, the last or one of those between, or none is
    roles = paired((0, 1), [300], [elements(9)])
    one = [operations(0b1), part(0, 0b1)]
    for start in [0, 1, 44, 45, 300, 301]:
        yield from asked(roles, filed(rule(*[user_single(0, value) for value in range(start, start + 256)], *one)))
    for start in [256, 512, 513]:
        yield from asked(roles, filed(rule(*[resource_set(0, value) for value in range(start, start + 257)], *one)))
    everybody = joined(sizes(64, 64, 1, 1), assign(0, 63), permit(0, 63, 0), END_OF_ROLES)
    for resources in [range(64), range(63), range(1, 64)]:
        lines = [resource_single(OWN, resource) for resource in resources]
        yield from asked(everybody, filed(rule(*lines, *one)), (0, 0, 0), (63, 63, 0))


def each_byte():
    """Rule files with each byte changed in turn."""
    for roles, rules in [(EXAMPLE_A, RULES_OF_A), (BASE, RULES_OF_BASE)]:
        file = opening(roles) + rules
        for place, byte in enumerate(file):
            for other in [0x00, (byte + 1) % 256, byte ^ 0x80]:
                if other != byte:
                    yield from asked_whole(roles, file[:place] + bytes([other]) + file[place + 1 :])


# ---- files that the second miner makes


def question_of(roles, below):
    """A question beside a role file, within its sizes if it has any, and now and then beyond them."""
    limits = [max(size, 1) for size in (roles[1:4] + bytes([1, 1, 1]))[:3]]
    return tuple(below(limit) if below(60) else limit for limit in limits)


# The number of bytes that the commands behind a 20 take.
LENGTHS = {0x21: 1, 0x22: 4, 0x23: 10, 0x24: 4, 0x25: 10, 0x26: 3, 0x27: 3, 0x28: 4, 0x29: 2, 0x2F: 1}


def rules_in(file):
    """The rules of a legal rule file, each from its 21 on."""
    rules = []
    at = OPENING
    while file[at : at + 1] != END:
        end = at + LENGTHS[file[at]]
        if file[at : at + 1] == OPEN:
            rules.append(b"")
        rules[-1] += file[at:end]
        at = end
    return rules


def mined(second_miner):
    """Files mined by the second miner: as they are, with a rule left out, repeated or moved, and beside other files."""
    of_01 = [EXAMPLE_A, NOBODY, ONE_OF_TWO, INHERITS, TWO_PARTS, ONE_PART, SETS]
    with_08 = [with_domains(3, 3), with_domains(None, 3), TWELVE]
    roles_of = [*of_01, *with_08, BASE, FULL, CHAIN_UP, CHAIN_DOWN, CLASSES, TWO_OF_EACH, COVERED, LARGEST]
    with tempfile.TemporaryDirectory() as path:
        folder = Folder(path)
        names = [folder.file(roles) for roles in roles_of]
        told(second_miner, [f"mine {name} {name}.rules" for name in names])
        mined_of = []
        for name in names:
            with open(f"{name}.rules", "rb") as file:
                mined_of.append(file.read())
    below = random_numbers(7)
    for roles, file in zip(roles_of, mined_of):
        yield from asked_whole(roles, file, ANY, question_of(roles, below))
        each = rules_in(file)
        if each:
            for changed in [each[1:], each[:-1], each[::-1], each + each[-1:], each[:1] + each]:
                yield from asked(roles, filed(*changed), question_of(roles, below))
        # as it is, and with the other's 20
        other = roles_of[below(len(roles_of))]
        yield from asked_whole(other, file, question_of(other, below))
        yield from asked(other, file[OPENING:], question_of(other, below))


# Profiles of the second miner's role files, how many to take of each, and how long both files may be together.
PROFILES = [
    ("tiny", 90, 260),
    ("edge", 12, 300),
    ("mid", 24, 380),
    ("attributes", 6, 1000),
    ("hierarchy", 14, 480),
    ("parts", 10, 620),
    ("duplicates", 14, 330),
    ("departments", 7, 620),
    ("projects", 7, 620),
    ("skills", 7, 620),
    ("positions", 7, 700),
    ("mixed", 5, 980),
    ("layers", 7, 750),
    ("circles", 8, 150),
]


def made(second_miner):
    """Random role files with random rule files, and one of the two damaged in half of them."""
    with tempfile.TemporaryDirectory() as path:
        commands = []
        tried = []
        for profile, count, _ in PROFILES:
            for seed in range(12 * count):
                # the letters of the names: role file, rule file; d for damaged
                name = os.path.join(path, f"{profile}-{seed}")
                tried.append((profile, seed, name))
                commands += [
                    f"gen --seed {seed} --profile {profile} {name}.r",
                    f"rulegen --seed {seed} {name}.r {name}.u",
                    f"damage --seed {seed} {name}.r {name}.rd",
                    f"damage --seed {seed} --rules yes {name}.u {name}.ud",
                ]
        told(second_miner, commands)

        def contents(name):
            # beside a role file that is refused no rule file is made
            if not os.path.exists(name):
                return b""
            with open(name, "rb") as file:
                return file.read()

        found = {name: [contents(f"{name}.{end}") for end in ["r", "u", "rd", "ud"]] for _, _, name in tried}
    below = random_numbers(15)
    for profile, count, longest in PROFILES:
        taken = 0
        for of, seed, name in tried:
            roles, rules, damaged_roles, damaged_rules = found[name]
            # files without any rule say little
            short = len(rules) <= OPENING + 1 and profile not in ["edge", "circles"]
            if of != profile or taken == count or short or len(roles) + len(rules) > longest:
                continue
            taken += 1
            yield from asked_whole(roles, rules, question_of(roles, below))
            if taken % 2 == 0:
                yield from asked_whole(roles, damaged_rules, question_of(roles, below))
            if taken % 8 == 1:
                yield from asked_whole(damaged_roles, rules, question_of(roles, below))


GROUPS = [
    examples,
    first_command,
    shapes,
    second_opening,
    cut,
    unknown,
    places,
    second_operations,
    missing,
    levels,
    operands,
    operation_sets,
    own_attributes,
    parts_listed,
    numbers,
    order_of_refusals,
    differences,
    stray_rules,
    stray_parts,
    verdicts_in_order,
    atoms,
    domains,
    conjuncts,
    seniority,
    many,
    each_byte,
]
MADE = [mined, made]


def long_files():
    """The files that the program builds, each asked 0 0 0, in the order in which it does.

    A role file of 65,536 zeros beside a rule file of the same; and beside a role file with one
    part a rule file of 6,553 rules, 65,538 bytes, whole, without its last byte and with a zero
    behind it.
    """
    yield from asked_whole(bytes(65536), bytes(65536))
    one = joined(sizes(1, 1, 1, 1), assign(0, 0), permit(0, 0, 0), END_OF_ROLES)
    file = opening(one) + filed(rule(operations(0b1), part(0, 0b1)) * 6553)
    assert len(file) == 65538
    for long_one in [file, file[:-1], file + b"\0"]:
        yield from asked_whole(one, long_one)


# ---- the two files

# The program's room for standard input.
ROOM = 327680


def together(all_cases):
    """The cases in order: a role file, and the rule files and questions of neighbours that have it, at most 255."""
    found = []
    for roles, rules, question in all_cases:
        if not found or found[-1][0] != roles or len(found[-1][1]) == 255:
            found.append((roles, []))
        found[-1][1].append((rules, question))
    return found


def corpus(all_cases):
    pieces = []
    for roles, asked_of in together(all_cases):
        pieces.append(len(roles).to_bytes(2, "little") + bytes([len(asked_of)]) + roles)
        pieces += [len(rules).to_bytes(2, "little") + bytes(question) + rules for rules, question in asked_of]
    whole = b"".join(pieces)
    assert len(whole) <= ROOM, "the corpus is longer than the program reads"
    return whole


def verdict(said):
    """The second miner's 'verdict 1 user 0 resource 2 operation 1' without the words between the numbers."""
    words = said.split()
    assert words[0] in ["verdict", "refused"], said
    return " ".join(words[:1] + [word for word in words[1:] if word.isdigit()])


def answers(second_miner, all_cases):
    """The second miner's answers, a line for each case."""
    with tempfile.TemporaryDirectory() as path:
        folder = Folder(path)
        commands = []
        for roles, rules, question in all_cases:
            names = f"{folder.file(roles)} {folder.file(rules)}"
            commands.append(f"judge {names}")
            commands.append(f"ask-rules {names} {question[0]} {question[1]} {question[2]}")
        said = told(second_miner, commands)
    lines = []
    for judged, answered in zip(said[0::2], said[1::2]):
        assert answered in ["yes", "no"] or answered.startswith("refused "), answered
        lines.append(f"{verdict(judged)}, {answered}\n")
    return "".join(lines)


def main():
    if len(sys.argv) != 2:
        sys.exit(__doc__)
    second_miner = sys.argv[1]
    crate = os.path.join(os.path.dirname(os.path.abspath(__file__)), "..", "crates", "test_rule")
    all_cases = list(each_once(GROUPS + [functools.partial(group, second_miner) for group in MADE]))
    whole = corpus(all_cases)
    with open(os.path.join(crate, "stdin"), "wb") as out:
        out.write(whole)
    text = answers(second_miner, all_cases + list(long_files()))
    with open(os.path.join(crate, "stdout"), "w", encoding="ascii") as out:
        out.write(text)
    print(f"{len(all_cases)} cases, {len(whole)} bytes; {text.count(chr(10))} answers")


if __name__ == "__main__":
    main()
