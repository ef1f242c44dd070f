#!/usr/bin/env python3
"""Make the cases of the program test_role, and their answers by a second miner.

    tests/rolecases.py                   write crates/test_role/stdin
    tests/rolecases.py SECOND-MINER      write crates/test_role/stdout as well

SECOND-MINER is the command of an independent implementation of the paper 01. It
takes 'batch' and then, on standard input, lines 'read-roles FILE', 'circle FILE'
and 'ask-roles FILE USER RESOURCE OPERATION'; to each it answers with a line
'accepted', 'circle ROLE ..', 'yes', 'no' or 'refused N', and a line with a single
dot. The answers come from it alone and never from the programs of this repository.

A case in stdin is: the length of the file (two bytes, low byte first), user,
resource and operation of a question (one byte each), the bytes of the file.
A line of stdout is: the number of the refusal to read the file or 0, the answer
to showing its circle, and the answer to the question. Behind the lines of the cases stand those of the long
files, which the program builds itself (see long_files below): a case's length
has two bytes, and 65,536 does not fit.
"""
import os
import sys
import tempfile

from rolefiles import (
    ALL_KINDS,
    BOTH_KINDS,
    CHAIN_DOWN,
    CHAIN_UP,
    END,
    EQUAL_DOMAINS,
    EXAMPLE_A,
    FULL,
    INHERITS,
    NOBODY,
    NO_COMMAND,
    NO_COMMANDS,
    ONE_OF_TWO,
    ONE_PART,
    SETS,
    TWO_PARTS,
    UNEQUAL_DOMAINS,
    UNKNOWN,
    assign,
    declare,
    each_once,
    grid,
    joined,
    line,
    members,
    permit,
    random_numbers,
    single,
    sizes,
    with_domains,
    with_operand,
)
from secondminer import Folder, told

# ---- the groups: each yields pairs of a file and a question

ANY = (0, 0, 0)


def asked(file, *questions):
    """The file with each question, or with question 0 0 0."""
    for question in questions or [ANY]:
        yield file, question


def examples():
    """The role files of 01's section 'Files to try'."""
    yield from asked(EXAMPLE_A, *grid(2, 2, 1))
    yield from asked(NOBODY)
    yield from asked(b"")
    yield from asked(END)
    yield from asked(ONE_OF_TWO, *grid(2, 2, 1))
    yield from asked(INHERITS)
    # the other way round nothing is inherited
    yield from asked(joined(sizes(1, 1, 1, 2), assign(0, 0), line(0, 1), permit(1, 0, 0), END))
    yield from asked(TWO_PARTS, *grid(1, 2, 2))
    yield from asked(ONE_PART, *grid(1, 2, 2))
    yield from asked(SETS)
    # 07 with one role twice; 64 users and 65
    yield from asked(joined(sizes(0, 0, 0, 1), line(0, 0), END))
    yield from asked(joined(sizes(64, 0, 0, 0), END))
    yield from asked(joined(sizes(65, 0, 0, 0), END))


def cut():
    """Legal files cut at every byte: each is refused by 2."""
    for file in [EXAMPLE_A, NOBODY, ONE_OF_TWO, INHERITS, TWO_PARTS, ONE_PART, SETS, ALL_KINDS, FULL]:
        for length in range(len(file)):
            yield from asked(file[:length])
        yield from asked(file)


def unknown():
    """Bytes that are no command: behind 01, as the first byte, and as the last."""
    for byte in UNKNOWN:
        yield from asked(joined(sizes(1, 1, 1, 1), bytes([byte]), bytes(12), END))
    for byte in NO_COMMANDS:
        yield from asked(bytes([byte]))
        yield from asked(bytes([byte]) + bytes(12))
        yield from asked(joined(sizes(1, 1, 1, 1), bytes([byte])))
        yield from asked(joined(sizes(1, 1, 1, 1), declare(0, 0), bytes([byte]), END))
        yield from asked(joined(sizes(1, 1, 1, 1), assign(0, 0), bytes([byte]), END))


# A whole command of each kind, fit to stand behind BOTH_KINDS.
WHOLE = [
    sizes(2, 2, 2, 2),
    declare(0, 0),
    single(0, 0, 0, 7),
    members(0, 1, 0, 7),
    assign(0, 0),
    permit(0, 0, 0),
    line(0, 1),
    declare(0, 0, 1),
    END,
]


def places():
    """Refusal 4: commands out of place, and bytes behind the end."""
    for command in WHOLE:
        # before 01: cut off it is 2, whole it is 4
        yield from asked(command)
        yield from asked(command[:1])
        yield from asked(command + sizes(2, 2, 2, 2) + END)
        # 01 a second time, 02, and 08, behind each command
        yield from asked(joined(BOTH_KINDS, command, sizes(2, 2, 2, 2), END))
        yield from asked(joined(BOTH_KINDS, command, declare(1, 0), END))
        yield from asked(joined(BOTH_KINDS, command, declare(1, 0, 7), END))
        # behind the end: whole, and its first byte
        yield from asked(joined(BOTH_KINDS, END, command))
        yield from asked(joined(BOTH_KINDS, END, command[:1]))
    # 01 a second time directly, with sizes beyond the limits, and cut off
    yield from asked(joined(sizes(1, 1, 1, 1), sizes(1, 1, 1, 1), END))
    yield from asked(joined(sizes(1, 1, 1, 1), sizes(65, 65, 17, 33), END))
    yield from asked(joined(sizes(1, 1, 1, 1), sizes(1, 1, 1, 1)[:4]))
    # 02 out of place with operands beyond: still 4; two steps behind the last 02: still 4
    yield from asked(joined(sizes(1, 1, 1, 1), assign(0, 0), declare(2, 2), END))
    yield from asked(joined(BOTH_KINDS, assign(0, 0), permit(0, 0, 0), declare(0, 0), END))
    yield from asked(joined(sizes(1, 1, 1, 1), assign(0, 0), declare(2, 2, 2), END))
    yield from asked(joined(BOTH_KINDS, assign(0, 0), permit(0, 0, 0), declare(0, 0, 0), END))
    # unknown and many bytes behind the end
    for byte in NO_COMMANDS:
        yield from asked(joined(sizes(1, 1, 1, 1), END, bytes([byte])))
        yield from asked(joined(sizes(1, 1, 1, 1), END, bytes([byte]) * 20))
    # an end behind the end, and a whole second file
    yield from asked(joined(EXAMPLE_A, END))
    yield from asked(joined(EXAMPLE_A, EXAMPLE_A))


def operands():
    """Refusal 5: each operand of each command at its last good number, one beyond, and 255."""
    for place, limit in [(1, 64), (2, 64), (3, 16), (4, 32)]:
        for value in [0, limit - 1, limit, limit + 1, 255]:
            yield from asked(with_operand(sizes(1, 1, 1, 1), place, value) + END)
            # cut off before the end is seen only behind a command that passed
            yield from asked(with_operand(sizes(1, 1, 1, 1), place, value))
    yield from asked(sizes(64, 64, 16, 32) + END)
    yield from asked(sizes(255, 255, 255, 255) + END)
    # side and kind
    for place in [1, 2]:
        for value in [0, 1, 2, 255]:
            yield from asked(joined(sizes(1, 1, 1, 1), with_operand(declare(1, 1), place, value), END))
    # operands of the other commands, in a small file and in one of the largest sizes
    largest = joined(sizes(64, 64, 16, 32), *[declare(side, kind) for kind in [0, 1] * 3 for side in [0, 1]])
    small_file = [
        (single(0, 0, 0, 1), [(1, 2), (2, 2), (3, 2)]),
        (single(1, 0, 0, 1), [(2, 2), (3, 2)]),
        (members(0, 1, 0, 1), [(1, 2), (2, 2), (3, 2)]),
        (members(1, 1, 0, 1), [(2, 2), (3, 2)]),
        (assign(0, 0), [(1, 2), (2, 2)]),
        (permit(0, 0, 0), [(1, 2), (2, 2), (3, 2)]),
        (line(0, 1), [(1, 2), (2, 2)]),
    ]
    large_file = [
        (single(0, 0, 0, 1), [(2, 6), (3, 64)]),
        (single(1, 4, 0, 1), [(2, 6), (3, 64)]),
        (members(0, 5, 0, 1), [(2, 6), (3, 64)]),
        (members(1, 1, 0, 1), [(2, 6), (3, 64)]),
        (assign(0, 0), [(1, 32), (2, 64)]),
        (permit(0, 0, 0), [(1, 32), (2, 64), (3, 16)]),
        (line(0, 1), [(1, 32), (2, 32)]),
    ]
    for start, commands in [(BOTH_KINDS, small_file), (largest, large_file)]:
        for command, limits in commands:
            for place, limit in limits:
                for value in [limit - 1, limit, 64, 128, 255]:
                    yield from asked(joined(start, with_operand(command, place, value), END))
    # nobody and nothing is there: every number is beyond
    for command in WHOLE[2:7]:
        yield from asked(joined(sizes(0, 0, 0, 0), declare(0, 0), declare(0, 1), command, END))
        yield from asked(joined(sizes(0, 0, 0, 0), command, END))
    # a side has its own attributes and its own size
    yield from asked(joined(sizes(2, 1, 1, 1), declare(0, 0), single(1, 0, 0, 1), END))
    yield from asked(joined(sizes(2, 1, 1, 1), declare(0, 0), declare(1, 0), single(1, 0, 1, 1), END))
    yield from asked(joined(sizes(2, 1, 1, 1), declare(0, 0), declare(1, 0), single(0, 0, 1, 1), END))


def attributes():
    """Six attributes on a side and the seventh."""
    for side in [0, 1]:
        for kind in [0, 1]:
            six = sizes(1, 1, 1, 1) + declare(side, kind) * 6
            yield from asked(six + END)
            yield from asked(six + declare(side, kind) + END)
            yield from asked(six + declare(1 - side, kind) * 6 + END)
            yield from asked(six + declare(1 - side, kind) * 7 + END)
            yield from asked(six + declare(1 - side, kind) * 6 + declare(side, 1 - kind) + END)
            # a value of the sixth, and of one that was refused by its number
            give = single if kind == 0 else members
            yield from asked(six + give(side, 5, 0, 9) + END)
            yield from asked(six + give(side, 6, 0, 9) + END)
            yield from asked(six + give(side, 255, 0, 9) + END)


def domains():
    """08: where it stands, its three operands, and the six attributes that it counts among; and what else is as with 02."""
    # any byte is a domain
    for domain in [0, 1, 2, 15, 127, 128, 254, 255]:
        for side in [0, 1]:
            for kind in [0, 1]:
                yield from asked(joined(sizes(1, 1, 1, 1), declare(side, kind, domain), END))
    # side and kind, whatever the domain; cut off is seen only behind a command that passed
    for domain in [0, 1, 255]:
        for place in [1, 2]:
            for value in [0, 1, 2, 255]:
                command = with_operand(declare(1, 1, domain), place, value)
                yield from asked(joined(sizes(1, 1, 1, 1), command, END))
                yield from asked(joined(sizes(1, 1, 1, 1), command))
    # directly behind 01, 02 and 08 and behind others: cut at each byte, cut before an end that is then an operand, and whole
    two = [declare(0, 0), declare(1, 1, 9)]
    for before in [[], *[[one] for one in two], two, two[::-1], *[[*two, command] for command in WHOLE]]:
        for command in [declare(0, 1, 3), declare(0, 1, 255)]:
            for length in range(1, len(command) + 1):
                yield from asked(joined(sizes(2, 2, 2, 2), *before, command[:length]))
                yield from asked(joined(sizes(2, 2, 2, 2), *before, command[:length], END))
        yield from asked(joined(sizes(2, 2, 2, 2), *before, declare(0, 1, 3), declare(0, 1), END))
    # 08 and 02 mixed to six attributes of a side, and to seven
    for side in [0, 1]:
        for mask in [0b000001, 0b100000, 0b010101, 0b101010, 0b000111, 0b111110, 0b011111, 0b111111]:
            each = [declare(side, n % 2, n if mask >> n & 1 else None) for n in range(6)]
            six = joined(*each)
            others = joined(*[declare(1 - side, 0, None if mask >> n & 1 else 255) for n in range(6)])
            yield from asked(joined(sizes(1, 1, 1, 1), six, END))
            yield from asked(joined(sizes(1, 1, 1, 1), six, others, END))
            yield from asked(joined(sizes(1, 1, 1, 1), others, six, END))
            for seventh in [declare(side, 0), declare(side, 0, 0), declare(side, 1, 255)]:
                yield from asked(joined(sizes(1, 1, 1, 1), six, seventh, END))
                yield from asked(joined(sizes(1, 1, 1, 1), *each[:5], seventh, END))
                yield from asked(joined(sizes(1, 1, 1, 1), others, six, seventh, END))
            # values of all six, by their kinds; of the wrong kind, twice, and of a seventh
            gives = [[single, members][n % 2](side, n, 0, 9) for n in range(6)]
            yield from asked(joined(sizes(1, 1, 1, 1), six, *gives, END))
            for n in [0, 1, 4, 5]:
                yield from asked(joined(sizes(1, 1, 1, 1), six, [members, single][n % 2](side, n, 0, 9), END))
                yield from asked(joined(sizes(1, 1, 1, 1), six, gives[n], gives[n], END))
            yield from asked(joined(sizes(1, 1, 1, 1), six, single(side, 6, 0, 9), END))
    # the roles grant what they do, whatever the domains
    for pair in EQUAL_DOMAINS + UNEQUAL_DOMAINS:
        yield from asked(with_domains(*pair), (0, 0, 0), (0, 1, 0))
    # before 01, and alone
    for length in range(1, 5):
        yield from asked(declare(0, 0, 0)[:length])
        yield from asked(declare(0, 0, 0)[:length] + END)
    # an earlier refusal wins, a later one does not
    for refused in [declare(2, 0, 0), declare(0, 2, 0), declare(0, 0, 0)[:2]]:
        yield from asked(joined(BOTH_KINDS, assign(2, 0), refused))
        yield from asked(joined(BOTH_KINDS, NO_COMMAND, refused, END))
        yield from asked(joined(BOTH_KINDS, refused, NO_COMMAND, END))
        yield from asked(joined(BOTH_KINDS, line(0, 0), refused, END))


def values():
    """Refusal 6: the wrong kind, and a value given twice."""
    for side in [0, 1]:
        yield from asked(joined(BOTH_KINDS, single(side, 1, 0, 7), END))
        yield from asked(joined(BOTH_KINDS, members(side, 0, 0, 7), END))
        # beyond comes before the kind
        yield from asked(joined(BOTH_KINDS, single(side, 1, 2, 7), END))
        yield from asked(joined(BOTH_KINDS, members(side, 0, 2, 7), END))
        for give, attribute, highest in [(single, 0, 65535), (members, 1, 2**64 - 1)]:
            for first, second in [(7, 7), (7, 8), (0, 0), (0, 1), (highest, highest), (highest, 0)]:
                one = give(side, attribute, 1, first)
                # twice in a row, with other commands between, and for somebody else
                two = give(side, attribute, 1, second)
                yield from asked(joined(BOTH_KINDS, one, two, END))
                yield from asked(joined(BOTH_KINDS, one, assign(0, 0), line(0, 1), two, END))
                yield from asked(joined(BOTH_KINDS, one, give(side, attribute, 0, second), END))
            # for the same number on the other side, and for another attribute of the same kind
            yield from asked(joined(BOTH_KINDS, give(side, attribute, 1, 7), give(1 - side, attribute, 1, 7), END))
            alike = sizes(2, 2, 2, 2) + declare(side, attribute) * 2
            yield from asked(joined(alike, give(side, 0, 1, 7), give(side, 1, 1, 7), END))
            yield from asked(joined(alike, give(side, 1, 1, 7), give(side, 1, 1, 7), END))
    # values stand anywhere behind 01 and 02, and commands in any order
    yield from asked(joined(BOTH_KINDS, line(0, 1), permit(0, 0, 0), assign(1, 0), single(0, 0, 0, 7), END))
    # the first and the last of the largest file
    largest = joined(sizes(64, 64, 16, 32), declare(0, 1) * 6, declare(1, 0) * 6)
    for who in [0, 1, 31, 32, 62, 63]:
        yield from asked(joined(largest, members(0, 5, who, 1), single(1, 5, who, 1), members(0, 5, 63 - who, 1), END))
        yield from asked(joined(largest, members(0, 0, who, 1), single(1, 0, who, 1), single(1, 0, who, 1), END))


def order():
    """Of two refusals the one of the earlier command; within a command in 01's order; 7 last."""
    # an earlier refusal of each kind, before a later one of each kind
    refused = [
        NO_COMMAND,  # 3
        sizes(1, 1, 1, 1),  # 4
        assign(2, 0),  # 5
        members(0, 0, 0, 1),  # 6
        line(1, 1),  # 7, which comes last
        assign(0, 0)[:2],  # 2, at the end only
    ]
    for earlier in refused:
        for later in refused:
            yield from asked(joined(BOTH_KINDS, earlier, later))
            yield from asked(joined(BOTH_KINDS, earlier, later, END))
    # cut off comes before out of place, and that before beyond
    yield from asked(joined(sizes(1, 1, 1, 1), assign(0, 0), sizes(65, 0, 0, 0)[:4]))
    yield from asked(assign(9, 9))
    yield from asked(declare(9, 9))
    yield from asked(sizes(65, 0, 0, 0)[:4])
    # a question beyond the sizes comes last
    yield from asked(joined(sizes(1, 1, 1, 1), line(0, 0), END), (1, 1, 1))
    yield from asked(joined(sizes(1, 1, 1, 1), NO_COMMAND, END), (1, 1, 1))
    yield from asked(joined(sizes(1, 1, 1, 1), assign(0, 0)[:2]), (255, 255, 255))


def circles():
    """Refusal 7: circles of roles, of each length, and what is no circle; which of several circles is shown."""
    for count in [1, 2, 3, 4, 32]:
        roles = list(range(count))
        around = [line(role, (role + 1) % count) for role in roles]
        for circle in [around, around[::-1]]:
            file = joined(sizes(1, 1, 1, count), *circle)
            yield from asked(file + END)
            yield from asked(file)
            yield from asked(file + END + b"\0")
            yield from asked(joined(file, assign(0, 1), END))
            yield from asked(joined(file, assign(0, 0), permit(count - 1, 0, 0), END))
        # one step left out: no circle
        for missing in roles[:3] + roles[-1:]:
            yield from asked(joined(sizes(1, 1, 1, count), *(around[:missing] + around[missing + 1 :]), END))
    # each length among roles that are all above it or all below it, with lines down from the others
    for count in range(1, 33):
        around = [line(role, (role + 1) % count) for role in range(count)]
        yield from asked(joined(sizes(0, 0, 0, 32), *around, *[line(role, role - 1) for role in range(count, 32)], END))
        above = [line(31 - role, 31 - (role + 1) % count) for role in range(count)]
        yield from asked(joined(sizes(0, 0, 0, 32), *above, *[line(32 - count, role) for role in range(32 - count)], END))
    # the shortest, and of those the first by its bytes; a longer one with lower roles is none
    yield from asked(joined(sizes(0, 0, 0, 4), line(3, 3), line(0, 1), line(1, 0), END))
    for low in range(4):
        two = [(4, 2), (2, 4), (1, 3), (3, 1), (0, 1), (1, 2), (2, 0)]
        yield from asked(joined(sizes(0, 0, 0, 5), *[line(*pair) for pair in two[low:]], END))
        yield from asked(joined(sizes(0, 0, 0, 5), *[line(*pair) for pair in two[: low + 3]], END))
        yield from asked(joined(sizes(0, 0, 0, 5), *[line(4 - a, 4 - b) for a, b in two[low:]], END))
    # two ways behind one lowest role: the lesser next role
    yield from asked(joined(sizes(0, 0, 0, 4), line(0, 3), line(3, 1), line(1, 0), line(0, 2), line(2, 1), END))
    yield from asked(joined(sizes(0, 0, 0, 4), line(0, 1), line(1, 3), line(3, 0), line(1, 2), line(2, 0), END))
    # a line to a lower role never helps to close a circle of the lowest
    yield from asked(joined(sizes(0, 0, 0, 4), line(1, 0), line(0, 2), line(2, 3), line(3, 1), line(3, 2), END))
    # circles among other roles, at either end
    yield from asked(joined(sizes(1, 1, 1, 5), line(0, 1), line(1, 2), line(2, 3), line(3, 1), END))
    yield from asked(joined(sizes(1, 1, 1, 5), line(0, 1), line(1, 0), line(2, 3), line(3, 4), END))
    yield from asked(joined(sizes(1, 1, 1, 5), line(3, 2), line(4, 4), line(2, 0), END))
    yield from asked(joined(sizes(1, 1, 1, 32), line(31, 31), END))
    yield from asked(joined(sizes(1, 1, 1, 32), line(31, 0), line(0, 31), END))
    # two ways up to one role: no circle
    two_ways = joined(sizes(1, 1, 1, 4), line(0, 1), line(0, 2), line(1, 3), line(2, 3))
    yield from asked(joined(two_ways, assign(3, 0), permit(0, 0, 0), END))
    yield from asked(joined(two_ways, line(0, 3), assign(3, 0), permit(0, 0, 0), END))
    yield from asked(joined(two_ways, line(3, 0), assign(3, 0), permit(0, 0, 0), END))


def repeats():
    """Repeats of 05, 06 and 07 change nothing."""
    commands = [assign(1, 0), permit(0, 1, 1), line(0, 1)]
    start = sizes(2, 2, 2, 2)
    questions = [(0, 1, 1), (1, 1, 1), (0, 0, 1), (0, 1, 0)]
    yield from asked(joined(start, *commands, END), *questions)
    for command in commands:
        for times in [1, 2, 5]:
            yield from asked(joined(start, *commands, command * times, END), *questions[:2])
    yield from asked(joined(start, *commands, *commands[::-1], *commands, END), *questions)


def questions():
    """Numbers at and beyond the sizes, and grants through no, one and several steps of seniority."""
    # every size another number
    file = joined(
        sizes(3, 4, 5, 6), assign(5, 2), permit(5, 3, 4), assign(0, 0), permit(0, 0, 0), line(0, 5), END
    )
    for user in [0, 1, 2, 3, 64, 255]:
        for resource in [0, 3, 4, 64, 255]:
            for operation in [0, 4, 5, 16, 255]:
                if sum(number > 4 for number in (user, resource, operation)) < 2:
                    yield from asked(file, (user, resource, operation))
    # sizes of 0: any number is beyond
    for empty in [sizes(0, 1, 1, 1), sizes(1, 0, 1, 1), sizes(1, 1, 0, 1), sizes(1, 1, 1, 0)]:
        yield from asked(empty + END, (0, 0, 0), (1, 0, 0), (0, 1, 0), (0, 0, 1))
    # the largest numbers
    for user in [0, 62, 63, 64]:
        for resource, operation in [(63, 15), (0, 0), (63, 14), (62, 15), (63, 16), (64, 15), (64, 16)]:
            yield from asked(FULL, (user, resource, operation))
    # along the chains: from both ends, from the middle, and past the holder
    for chain in [CHAIN_UP, CHAIN_DOWN]:
        for user in range(3):
            yield from asked(chain, (user, 0, 0), (user, 1, 1), (user, 0, 1))
    # one, two and three steps; the senior's permissions are not the junior's
    own = joined(sizes(4, 4, 1, 4), *[assign(role, role) + permit(role, role, 0) for role in range(4)])
    steps = joined(own, line(2, 1), line(3, 2), line(1, 0), END)
    yield from asked(steps, *[(user, resource, 0) for user in range(4) for resource in range(4)])
    # each of three roles between the two others
    for low, middle, high in [(0, 1, 2), (0, 2, 1), (1, 0, 2), (1, 2, 0), (2, 0, 1), (2, 1, 0)]:
        chain = joined(sizes(1, 1, 1, 3), line(low, middle), line(middle, high))
        yield from asked(joined(chain, assign(high, 0), permit(low, 0, 0), END))
        yield from asked(joined(chain, assign(low, 0), permit(high, 0, 0), END))
    # several seniors of one role, and several juniors of one role
    yield from asked(joined(own, line(0, 1), line(0, 2), line(0, 3), END), *[(user, 0, 0) for user in range(4)])
    yield from asked(joined(own, line(1, 0), line(2, 0), line(3, 0), END), *[(0, resource, 0) for resource in range(4)])
    # lines told before and after the assignments; a role without users or permissions between two
    between = [line(0, 1), line(1, 2), assign(2, 0), permit(0, 0, 0)]
    for told in [between, between[::-1], between[2:] + between[:2], between[1:] + between[:1]]:
        yield from asked(joined(sizes(2, 1, 1, 3), *told, END), (0, 0, 0), (1, 0, 0))
    # two roles, each with one half of what is asked
    halves = joined(sizes(2, 2, 2, 2), assign(0, 0), assign(1, 1), permit(0, 0, 0), permit(1, 1, 1), END)
    yield from asked(halves, *grid(2, 2, 2))


def random_file(below):
    """A role file of small sizes, in most cases a legal one, and its sizes."""
    users, resources, operations, roles = 1 + below(4), 1 + below(4), 1 + below(3), 1 + below(6)
    file = sizes(users, resources, operations, roles)
    kinds = [[below(2) for _ in range(below(3))] for _ in range(2)]
    for side, of_side in enumerate(kinds):
        file += joined(*[declare(side, kind, [None, below(3)][below(2)]) for kind in of_side])
    given = set()
    for _ in range(4 + below(16)):
        choice = below(8)
        side = below(2)
        who = below([users, resources][side])
        if choice < 2 and kinds[side]:
            attribute = below(len(kinds[side]))
            if (side, attribute, who) not in given:
                given.add((side, attribute, who))
                if kinds[side][attribute] == 0:
                    file += single(side, attribute, who, below(65536))
                else:
                    file += members(side, attribute, who, below(2**31))
        elif choice < 4:
            file += assign(below(roles), below(users))
        elif choice < 6:
            file += permit(below(roles), below(resources), below(operations))
        else:
            # mostly upwards, so that not every file has a circle
            low, high = sorted((below(roles), below(roles)))
            if low != high:
                file += line(low, high) if below(12) else line(high, low)
    return file + END, (users, resources, operations)


def random_files():
    """Random files with random questions, and random files with one byte changed, put in or left out."""
    below = random_numbers(2024)
    for _ in range(60):
        file, limits = random_file(below)
        yield from asked(file, *[tuple(below(limit) for limit in limits) for _ in range(2)])
    for _ in range(80):
        file, limits = random_file(below)
        place = below(len(file))
        change = [bytes([below(256)]), bytes([below(16)]), bytes([below(16)]) + file[place : place + 1], b""]
        file = file[:place] + change[below(4)] + file[place + 1 :]
        yield from asked(file, tuple(below(limit) for limit in limits))


def each_byte():
    """Example A, with 02 and with 08, and each byte of it changed in turn."""
    for file in [EXAMPLE_A, with_domains(3, 3)]:
        for place, byte in enumerate(file):
            for other in [0x00, 0x0F, (byte + 1) % 256]:
                if other != byte:
                    yield from asked(file[:place] + bytes([other]) + file[place + 1 :])


GROUPS = [
    examples,
    cut,
    unknown,
    places,
    operands,
    attributes,
    domains,
    values,
    order,
    circles,
    repeats,
    questions,
    random_files,
    each_byte,
]


def long_files():
    """The files that the program builds, each asked 0 0 0, in the order in which it does.

    Nothing but zeros, at the limit and one byte beyond it; and a legal file of the
    greatest length (repeats of 05, three times 06, the end), without a zero behind it
    and with one.
    """
    longest = joined(sizes(1, 1, 1, 1), assign(0, 0) * 21839, permit(0, 0, 0) * 3, END)
    assert len(longest) == 65535
    for file in [bytes(65535), bytes(65536), longest, longest + b"\0"]:
        yield from asked(file)


# ---- the two files

# The program's room for standard input.
ROOM = 131072


def corpus(all_cases):
    parts = []
    for file, question in all_cases:
        parts.append(len(file).to_bytes(2, "little") + bytes(question) + file)
    whole = b"".join(parts)
    assert len(whole) <= ROOM, "the corpus is longer than the program reads"
    return whole


def answers(second_miner, all_cases):
    """The second miner's answers, a line for each case."""
    with tempfile.TemporaryDirectory() as path:
        folder = Folder(path)
        commands = []
        for file, question in all_cases:
            name = folder.file(file)
            commands.append(f"read-roles {name}")
            commands.append(f"circle {name}")
            commands.append(f"ask-roles {name} {question[0]} {question[1]} {question[2]}")
        said = told(second_miner, commands)
    lines = []
    for read, circle, asked_roles in zip(said[0::3], said[1::3], said[2::3]):
        code = "0" if read == "accepted" else read.removeprefix("refused ")
        assert code in "01234567" and len(code) == 1, read
        assert asked_roles in ["yes", "no"] or asked_roles.startswith("refused "), asked_roles
        assert circle.startswith("circle ") if code == "7" else circle == ("circle" if code == "0" else read), circle
        lines.append(f"{code} {circle} {asked_roles}\n")
    return "".join(lines)


def main():
    if len(sys.argv) > 2:
        sys.exit(__doc__)
    crate = os.path.join(os.path.dirname(os.path.abspath(__file__)), "..", "crates", "test_role")
    all_cases = list(each_once(GROUPS))
    whole = corpus(all_cases)
    with open(os.path.join(crate, "stdin"), "wb") as out:
        out.write(whole)
    print(f"{len(all_cases)} cases, {len(whole)} bytes")
    if len(sys.argv) == 2:
        text = answers(sys.argv[1], all_cases + list(long_files()))
        with open(os.path.join(crate, "stdout"), "w", encoding="ascii") as out:
            out.write(text)
        print(f"{text.count(chr(10))} answers")


if __name__ == "__main__":
    main()
