#!/usr/bin/env python3
"""Make the cases of the program test_mine, and their answers, with the help of a second miner.

    tests/minecases.py SECOND-MINER      write crates/test_mine/stdin and crates/test_mine/stdout

SECOND-MINER is the command of an independent implementation of the paper 01. It takes
'batch' and then one command a line on standard input (see secondminer.py); here 'gen',
'damage' and 'mine --out-len BYTES --scratch WORDS --cuts CUTS ROLES RULES', to which it
answers with a line 'parts P rules R merges M cost C' and writes the rules, or 'refused N'.

A case in stdin is: the length of the role file (two bytes, low byte first), the words of
scratch to lend (two bytes), the bytes of output to lend (three bytes), the number of cuts (a
byte), the cuts (a byte each), and the role file.
A line of stdout is: what mining answers, and what the memory that was lent for output holds
afterwards, in hexadecimal or, if it is longer than 48 bytes, by its checksum:

    length 25 parts 2 rules 1 merges 1 cost 2, memory 20020201...
    refused 9, memory 00070e...
    length 74 parts 3 rules 3 merges 0 cost 7, checksum 2384729384

The memory is filled before the call (see memory below), so that a byte written behind the
rules shows, or one written though the file is refused. All answers are those of the second
miner, never those of the programs of this repository.

Most cases are written out below, a function for each group. Those of the last groups are
the second miner's random role files, from fixed seeds. Behind the lines of the cases stand
those of the long files, which the program builds itself (see long_files).
"""
import functools
import itertools
import os
import sys
import tempfile

from rolefiles import (
    ALL_KINDS,
    BOTH_KINDS,
    CHAIN_DOWN,
    CHAIN_UP,
    END,
    EQUAL_DOMAINS,
    EXAMPLE_A,
    FULL,
    INHERITS,
    NOBODY,
    NO_COMMAND,
    ONE_OF_TWO,
    ONE_PART,
    SETS,
    TWO_PARTS,
    UNEQUAL_DOMAINS,
    assign,
    declare,
    each_once,
    joined,
    line,
    members,
    permit,
    random_numbers,
    single,
    sizes,
    with_domains,
)
from secondminer import Folder, told

# ---- what is lent

ENOUGH = 2048

# The program's room for standard input, and for output.
CORPUS = 344064
ROOM = 327680


class Beyond(int):
    """So many bytes of output more than the rule file has."""


EXACT = Beyond(0)
SHORT = Beyond(-1)


def mined(file, *rooms, words=ENOUGH, cuts=()):
    """The file with each of these lengths of output, or with some bytes more than it needs."""
    for room in rooms or [Beyond(5)]:
        yield file, bytes(cuts), words, isinstance(room, Beyond), int(room)


# ---- role files

USER, RESOURCE = 0, 1
SINGLE, SET = 0, 1


def elements(*numbers):
    """The mask of a set."""
    return sum(1 << number for number in numbers)


def given(side, attribute, kind, values):
    """The values of one attribute, by who; None is unknown."""
    give = members if kind == SET else single
    return joined(*[give(side, attribute, who, value) for who, value in enumerate(values) if value is not None])


def policy(users, resources, roles, operations=1, lines=()):
    """A role file.

    users and resources are lists of attributes, each its kind, the values by who and, where it is
    declared by 08, its domain; or the number of them alone if there are no attributes. A role is
    its users, and its resources by operation.
    """

    def count(side):
        return side if isinstance(side, int) else len(side[0][1])

    def attributes(side):
        return [] if isinstance(side, int) else side

    sides = list(enumerate([attributes(users), attributes(resources)]))
    return joined(
        sizes(count(users), count(resources), operations, len(roles)),
        *[declare(side, kind, *domain) for side, of_side in sides for kind, _, *domain in of_side],
        *[
            given(side, attribute, kind, values)
            for side, of_side in sides
            for attribute, (kind, values, *_) in enumerate(of_side)
        ],
        *[assign(role, user) for role, (holders, _) in enumerate(roles) for user in holders],
        *[
            permit(role, resource, operation)
            for role, (_, permissions) in enumerate(roles)
            for operation, own in enumerate(permissions)
            for resource in own
        ],
        *[line(junior, senior) for junior, senior in lines],
        END,
    )


def one_role(users, resources, holders, own):
    """A role file with one role and one operation."""
    return policy(users, resources, [(holders, [own])])


def pairs(users, resources, *grants):
    """A role for each pair of a user and a resource."""
    return policy(users, resources, [([user], [[resource]]) for user, resource in grants])


# ---- the groups: each yields a file, the cuts, the words of scratch, and the bytes of output


def examples():
    """The role files of 01's section 'Files to try'."""
    yield from mined(EXAMPLE_A, 0, 1, 6, 7, 8, 16, 22, 23, 24, 25, 26, 40, 65535, 65536)
    yield from mined(NOBODY, 0, 1, 6, 7, 8, 9, 48, 49)
    yield from mined(b"", 0, 16)
    yield from mined(END, 0, 16)
    for file in [ONE_OF_TWO, INHERITS, TWO_PARTS, ONE_PART, SETS]:
        yield from mined(file, 0, SHORT, EXACT, Beyond(1), Beyond(7))
    # the other way round nothing is inherited
    yield from mined(joined(sizes(1, 1, 1, 2), assign(0, 0), line(0, 1), permit(1, 0, 0), END))
    # user set {1, 2} meets {{1}}; a resource set {1, 2} does not
    for user_set in [2, 4, 6, 14]:
        yield from mined(one_role([(SET, [2, user_set])], 1, [0], [0]))
        yield from mined(one_role(1, [(SET, [2, user_set])], [0], [0]))
    # 07 with one role twice; 64 users and 65
    yield from mined(joined(sizes(0, 0, 0, 1), line(0, 0), END))
    yield from mined(joined(sizes(64, 0, 0, 0), END))
    yield from mined(joined(sizes(65, 0, 0, 0), END))


# A file for each refusal by 2 to 7.
REFUSED = [
    EXAMPLE_A[:-1],
    EXAMPLE_A[:-3],
    joined(BOTH_KINDS, NO_COMMAND, END),
    joined(BOTH_KINDS, assign(0, 0), declare(0, 0), END),
    joined(BOTH_KINDS, assign(0, 0), declare(0, 0, 1), END),
    joined(BOTH_KINDS, declare(0, 2, 1), END),
    joined(EXAMPLE_A, END),
    joined(BOTH_KINDS, assign(2, 0), END),
    joined(sizes(1, 1, 17, 1), END),
    joined(BOTH_KINDS, members(0, 0, 0, 1), END),
    joined(BOTH_KINDS, single(0, 0, 0, 1), single(0, 0, 0, 1), END),
    joined(BOTH_KINDS, line(0, 1), line(1, 0), END),
]


def refusals():
    """Every refusal but 1, the words of scratch at the limit, and which of several refusals it is."""
    for file in REFUSED:
        yield from mined(file, 0, 1, 24)
        yield from mined(file, 0, 24, words=ENOUGH - 1)
        # two refusals in one file: that of the earlier command, 7 last
        for other in REFUSED:
            at = 0 if other.startswith(EXAMPLE_A[:3]) else len(BOTH_KINDS)
            yield from mined(file[:-1] + other[at:], 6)
    for words in [0, 1, 1024, ENOUGH - 1, ENOUGH, ENOUGH + 1, 3000, 4095, 4096]:
        yield from mined(EXAMPLE_A, 0, SHORT, EXACT, Beyond(3), words=words)
        yield from mined(NOBODY, 0, SHORT, EXACT, words=words)
        yield from mined(b"", 0, 7, words=words)
    for file in [FULL, CHAIN_UP, CHAIN_DOWN, ALL_KINDS]:
        yield from mined(file, SHORT, EXACT, words=ENOUGH - 1)
        yield from mined(file, 0, SHORT, EXACT, Beyond(60))


def sizes_at_limits():
    """Nobody or nothing on a side, one of everything, and everything at its limit."""
    for users in [0, 1, 64]:
        for resources in [0, 1, 64]:
            for operations in [0, 1, 16]:
                for roles in [0, 1, 32]:
                    everything = [
                        *[assign(roles - 1, user) for user in {0, users - 1} if roles and users],
                        *[
                            permit(roles - 1, resource, operation)
                            for resource in {0, resources - 1}
                            for operation in {0, operations - 1}
                            if roles and resources and operations
                        ],
                    ]
                    yield from mined(joined(sizes(users, resources, operations, roles), *everything, END))


def openings():
    """The 20 that a rule file opens with: six numbers, each of them another; attributes by 02 and 08 count together."""
    everything = [assign(5, 2), permit(5, 3, 4), END]
    for users, resources in [(0, 0), (0, 1), (1, 0), (1, 2), (2, 1), (2, 5), (5, 2), (6, 6)]:
        for by_08 in [[], [0], [1], [0, 1]]:
            counts = [users, resources]
            declared = [declare(side, 0, 9 if side in by_08 else None) * counts[side] for side in [0, 1]]
            file = joined(sizes(3, 4, 5, 6), *declared, *everything)
            yield from mined(file, EXACT)
    # a side's attributes by both, and those of the sides in turn
    for kinds in [[0, 1], [1, 0], [0, 1, 0], [0, 0, 1, 1, 0, 0]]:
        for side in [0, 1]:
            declared = [declare(side, 0, 9 if kind else None) for kind in kinds]
            yield from mined(joined(sizes(3, 4, 5, 6), *declared, *everything), SHORT, EXACT)
        both = [declare(side, 1, 9 if kind else None) for kind in kinds for side in [1, 0]]
        yield from mined(joined(sizes(3, 4, 5, 6), *both, *everything), SHORT, EXACT, Beyond(1))
        yield from mined(joined(sizes(3, 4, 5, 6), *both, END), SHORT, EXACT)


def levels():
    """Each level, with and without attributes that lower it, and merges at, below and up to a level."""
    users = {"apart": [(SINGLE, [5, 7])], "alike": [(SINGLE, [5, 5])], "unknown": [(SINGLE, [5, None])], "none": 2}
    for of_users in users.values():
        for of_resources in users.values():
            yield from mined(one_role(of_users, of_resources, [0], [0]))
            yield from mined(one_role(of_users, of_resources, [1], [1]))
            yield from mined(one_role(of_users, of_resources, [0, 1], [0]))
            yield from mined(one_role(of_users, of_resources, [0], [0, 1]))
            yield from mined(one_role(of_users, of_resources, [0, 1], [0, 1]))
            yield from mined(pairs(of_users, of_resources, (0, 0), (1, 1)))
            yield from mined(pairs(of_users, of_resources, (0, 0), (1, 0), (0, 1), (1, 1)))
    three = [5, None, None]
    # the higher of two levels is enough; user 0 has 5, the others are unknown
    yield from mined(pairs([(SINGLE, three)], 1, (0, 0), (1, 0)))
    yield from mined(pairs(1, [(SINGLE, three)], (0, 0), (0, 1)))
    # neither level is
    yield from mined(pairs([(SINGLE, three), (SINGLE, [None, 7, None])], 1, (0, 0), (1, 0)))
    yield from mined(pairs(1, [(SINGLE, three), (SINGLE, [None, 7, None])], (0, 0), (0, 1)))
    # one of level 1 or 2 and one of another
    yield from mined(policy([(SINGLE, three)], 2, [([0, 1], [[0, 1]]), ([0], [[1]])]))
    yield from mined(policy(2, [(SINGLE, three)], [([0, 1], [[0, 1]]), ([1], [[0]])]))
    yield from mined(policy([(SINGLE, three)], [(SINGLE, three)], [([1], [[0, 1, 2]]), ([0, 1, 2], [[1]])]))
    yield from mined(policy([(SINGLE, three)], [(SINGLE, three)], [([0, 1, 2], [[1]]), ([1], [[0, 1, 2]])]))
    yield from mined(policy([(SINGLE, three)], [(SINGLE, three)], [([1, 0], [[1]]), ([1], [[0, 1]])]))
    # a union that fits a level below both
    for of_users in [2, [(SINGLE, [5, 5])], [(SINGLE, [5, None])]]:
        yield from mined(policy(of_users, 1, [([0], [[0]]), ([1], [[0]])]))
        yield from mined(policy(of_users, 1, [([0], [[0]]), ([1], [[0]])], lines=[(0, 1)]))
        yield from mined(policy(1, of_users, [([0], [[0]]), ([0], [[1]])]))


def atoms():
    """Each form of atom: true, false, unknown, of one pair only; values above 63; several forms together."""
    forms = [(SINGLE, SINGLE), (SET, SINGLE), (SET, SET), (SINGLE, SET)]
    sets = [0, 1, 2, 6, 7, 1 << 63, 2**64 - 1]
    singles = [0, 1, 2, 62, 63, 64, 127, 255, 256, 65535]
    for user_kind, resource_kind in forms:
        of_user = sets if user_kind == SET else singles
        of_resource = sets if resource_kind == SET else singles
        for value in of_user:
            for other in of_resource:
                # resource 1 never has it
                last = 1 << 40 if resource_kind == SET else 30000
                file = one_role([(user_kind, [value])], [(resource_kind, [other, last])], [0], [0])
                if value == of_user[-1] or other == of_resource[-1] or (value + other) % 3 == 0:
                    yield from mined(file)
        # each his own, merged by the atom; then one too many, one too few, one unknown
        own = of_user[:3] if resource_kind == user_kind else [elements(3), elements(4), elements(5)]
        theirs = own if resource_kind == user_kind else [3, 4, 5]
        for grants in [[(0, 0), (1, 1), (2, 2)], [(0, 0), (1, 1)], [(2, 2), (1, 1), (0, 0)], [(0, 0), (1, 1), (2, 2), (0, 1)]]:
            for hidden in [None, 0, 1, 2]:
                values = [None if who == hidden else value for who, value in enumerate(theirs)]
                if user_kind == SINGLE and resource_kind == SET:
                    file = pairs([(SINGLE, [3, 4, 5])], [(SET, [elements(3), elements(4), elements(5)])], *grants)
                else:
                    file = pairs([(user_kind, own)], [(resource_kind, values)], *grants)
                yield from mined(file)
    # an atom of one of two groups only
    yield from mined(pairs([(SINGLE, [5])], [(SINGLE, [5, 7])], (0, 0), (0, 1)))
    yield from mined(pairs([(SINGLE, [5, 5])], [(SINGLE, [5, 7])], (0, 0), (1, 1)))
    # the same number on both sides, in the low and in the high byte
    yield from mined(pairs([(SINGLE, [5, 1280])], [(SINGLE, [5, 1280])], (0, 0), (1, 1)))
    yield from mined(pairs([(SINGLE, [5, 1280])], [(SINGLE, [1280, 5])], (0, 0), (1, 1)))
    yield from mined(pairs([(SINGLE, [5, 1280])], [(SINGLE, [1280, 5])], (0, 1), (1, 0)))
    # all 36 atoms, and each left out in turn by one pair
    six = [(SINGLE, [1, 2])] * 6
    yield from mined(pairs(six, six, (0, 0), (1, 1)))
    for user_attribute in [0, 2, 5]:
        for resource_attribute in [0, 3, 5]:
            of_users = [(SINGLE, [1, 2 if a == user_attribute else 1]) for a in range(6)]
            of_resources = [(SINGLE, [1, 2 if a == resource_attribute else 1]) for a in range(6)]
            yield from mined(pairs(of_users, of_resources, (0, 0), (1, 1)))
            yield from mined(one_role(of_users, of_resources, [0], [0]))


def with_domain(attribute, domain):
    """The attribute with this domain, None for 02."""
    return attribute if domain is None else (*attribute, domain)


def domains():
    """Atoms over attributes of equal domains and of others: which are kept, which merges they make, what stands in their place."""
    for pair in EQUAL_DOMAINS + UNEQUAL_DOMAINS:
        yield from mined(with_domains(*pair), SHORT, EXACT, Beyond(2))
    # the three forms, each true of a pair or of three pairs; then the form that is none
    three = [elements(3), elements(4), elements(5)]
    for user_attribute, resource_attribute in [
        ((SINGLE, [3, 4, 5]), (SINGLE, [3, 4, 5])),
        ((SET, three), (SINGLE, [3, 4, 5])),
        ((SET, three), (SET, three)),
        ((SINGLE, [3, 4, 5]), (SET, three)),
    ]:
        for user_domain, resource_domain in [(None, None), (0, None), (9, 9), (9, None), (None, 9), (8, 9)]:
            users = [with_domain(user_attribute, user_domain)]
            resources = [with_domain(resource_attribute, resource_domain)]
            yield from mined(one_role(users, resources, [0], [0]))
            yield from mined(pairs(users, resources, (0, 0), (1, 1)))
            yield from mined(pairs(users, resources, (2, 2), (1, 1), (0, 0)))
            yield from mined(pairs(users, resources, (0, 0), (1, 1), (2, 2), (0, 1)))
    # region 7 and model 7: the region of users may be joined with that of resources, but not with their model
    region, model = (SINGLE, [7, 8, 9]), (SINGLE, [7, 8, 9])
    for of_users, of_regions, of_models in [(1, 1, 2), (1, 2, 1), (1, 1, 1), (1, 2, 3), (0, 0, 1), (0, 1, 0)]:
        users = [with_domain(region, of_users)]
        for resources in [
            [with_domain(region, of_regions), with_domain(model, of_models)],
            [with_domain(model, of_models), with_domain(region, of_regions)],
            [with_domain(model, of_models)],
        ]:
            yield from mined(pairs(users, resources, (0, 0), (1, 1)))
            yield from mined(pairs(users, resources, (0, 0), (1, 1), (2, 2)))
            yield from mined(one_role(users, resources, [0], [0]))
    # an atom is struck where another will do, and kept where that one has become none
    for of_users in [[1, 1], [1, 2], [2, 1], [2, 2], [3, None]]:
        for of_resources in [[1, 1], [1, 2], [2, 1], [2, 2], [None, 3]]:
            users = [with_domain((SINGLE, [5, 7]), domain) for domain in of_users]
            resources = [with_domain((SINGLE, [5, 7]), domain) for domain in of_resources]
            yield from mined(pairs(users, resources, (0, 0), (1, 1)))
            yield from mined(one_role(users, [(SINGLE, [5], domain or 0) for domain in of_resources], [0], [0]))
    # twelve attributes of several domains, single and of both kinds
    for kinds in [[SINGLE] * 6, [SINGLE, SET] * 3, [SET] * 6]:
        values = {SINGLE: [1, 2], SET: [elements(1), elements(2)]}
        for of_users, of_resources in [
            ([0] * 6, [0] * 6),
            ([0] * 6, [1] * 6),
            ([0, 1, 2, 3, 4, 5], [0, 1, 2, 3, 4, 5]),
            ([0, 1, 2, 3, 4, 5], [5, 4, 3, 2, 1, 0]),
            ([0, 1, 2, 3, 4, 5], [1, 2, 3, 4, 5, 6]),
            ([None, 0, 1, 1, 255, 254], [254, 255, 1, 2, None, 0]),
            ([1, 1, 1, 2, 2, 2], [2, 2, 2, 1, 1, 1]),
            ([7, None, 7, None, 7, None], [None, 7, None, 7, None, 7]),
            ([255] * 6, [0, 0, 0, 0, 0, 255]),
            ([255, 0, 0, 0, 0, 0], [255, 1, 1, 1, 1, 1]),
        ]:
            users = [with_domain((kind, values[kind]), domain) for kind, domain in zip(kinds, of_users)]
            resources = [with_domain((kind, values[kind]), domain) for kind, domain in zip(kinds, of_resources)]
            yield from mined(pairs(users, resources, (0, 0), (1, 1)))
            yield from mined(pairs(users, resources, (1, 0), (0, 1)))
            yield from mined(one_role(users, resources, [0], [0]))
    # a union that fits only by the atom, at each level
    for domain in [None, 1]:
        for of_users, of_resources in [([5, 7, None], [5, 7]), ([5, 7], [5, 7, None]), ([5, 7, None], [5, 7, None])]:
            users, resources = [with_domain((SINGLE, of_users), domain)], [(SINGLE, of_resources)]
            last = (len(of_users) - 1, len(of_resources) - 1)
            yield from mined(pairs(users, resources, (0, 0), (1, 1), last))
            yield from mined(pairs(users, resources, last, (1, 1), (0, 0)))


def unknown_values():
    """Unknown is not empty; an attribute that one of them does not know gives no conjunct."""
    for kind, values in [(SET, [0, None, 1]), (SET, [None, 0, 0]), (SINGLE, [0, None, 1]), (SINGLE, [None, 0, 0])]:
        for holders in [[0], [1], [2], [0, 1], [1, 2], [0, 2], [0, 1, 2]]:
            yield from mined(one_role([(kind, values)], 1, holders, [0]))
            yield from mined(one_role(1, [(kind, values)], [0], holders))
    # the empty set and the unknown one on both sides
    for of_user in [0, None]:
        for of_resource in [0, None]:
            file = one_role([(SET, [of_user, 0, None])], [(SET, [of_resource, 0, None])], [0], [0])
            yield from mined(file)
    # a second attribute that everybody knows
    for kind in [SINGLE, SET]:
        yield from mined(one_role([(kind, [1, None, 1]), (SINGLE, [4, 5, 6])], 1, [0, 1], [0]))
        yield from mined(one_role(1, [(kind, [1, None, 1]), (SINGLE, [4, 5, 6])], [0], [0, 1]))


def larger_sets():
    """User sets that strictly contain others go, resource sets stay; roles held likewise."""
    chains = [
        [elements(1), elements(1, 2), elements(1, 2, 3), 0],
        [elements(1, 2), elements(2, 3), elements(1, 2, 3), elements(1)],
        [elements(1), elements(1), elements(1, 2), elements(3)],
        [0, elements(1), elements(2), elements(1, 2)],
        [elements(63), elements(0, 63), 2**64 - 1, elements(0)],
    ]
    for values in chains:
        for holders in [[0, 1], [0, 1, 2], [1, 2], [0, 2], [0, 1, 2, 3]]:
            yield from mined(one_role([(SET, values)], 1, holders, [0]))
            yield from mined(one_role(1, [(SET, values)], [0], holders))
    # roles as the values: 0; 0 and 1; 0, 1 and 2; 1 alone
    held = [[0], [0, 1], [0, 1, 2], [1]]
    for granted in range(3):
        roles = [([user for user, of in enumerate(held) if role in of], [[0] if role == granted else []]) for role in range(3)]
        yield from mined(policy(4, 1, roles))
        yield from mined(policy(4, 2, roles))
        yield from mined(policy(5, 2, [*roles, ([3], [[1]])]))


def striking():
    """Which of several conditions that would do stays: users' first, by number across kinds, 255 last; then atoms."""
    two, sets = (SINGLE, [5, 7]), (SET, [elements(5), elements(7)])
    for attributes in [[two, two], [two, sets], [sets, two], [sets, sets], [two, sets, two], [sets, two, sets]]:
        yield from mined(one_role(attributes, 1, [0], [0]))
        yield from mined(one_role(1, attributes, [0], [0]))
        yield from mined(one_role(attributes, attributes, [0], [0]))
        yield from mined(one_role(attributes, 2, [0], [0]))
        yield from mined(one_role(2, attributes, [0], [0]))
        yield from mined(pairs(attributes, attributes, (0, 0), (1, 1)))
    # only the first two together, or the last two, or the outer ones do
    for values in [([1, 1, 2], [1, 2, 1], [9, 9, 9]), ([9, 9, 9], [1, 1, 2], [1, 2, 1]), ([1, 1, 2], [9, 9, 9], [1, 2, 1])]:
        attributes = [(SINGLE, list(of)) for of in values]
        yield from mined(one_role(attributes, 1, [0], [0]))
        yield from mined(one_role(1, attributes, [0], [0]))
        yield from mined(one_role(attributes, attributes, [0], [0]))
    # atoms: the later of several stay
    for count in [1, 2, 3, 6]:
        both = [(SINGLE, [5])] * count
        yield from mined(one_role(both, [(SINGLE, [5, 7])] * count, [0], [0]))
        yield from mined(pairs([(SINGLE, [5, 7])] * count, [(SINGLE, [5, 7])] * count, (0, 0), (1, 1)))
    # an atom does what a conjunct would
    yield from mined(one_role([(SINGLE, [5, 7])], [(SINGLE, [5])], [0], [0]))
    yield from mined(one_role([(SET, [elements(5), elements(7)])], [(SINGLE, [5])], [0], [0]))


def many_values():
    """Conjuncts of up to 64 values, of the roles that users hold and of resource numbers."""
    for count in [1, 2, 31, 32, 63, 64]:
        numbers = list(range(count))
        yield from mined(one_role(64, 64, numbers, [63]), SHORT, EXACT)
        yield from mined(one_role(64, 64, [0], numbers))
        yield from mined(one_role([(SINGLE, [63 - n for n in range(64)])], 1, numbers, [0]))
        yield from mined(one_role(1, [(SET, [n * n * 977 for n in range(64)])], [0], numbers))
    # each user of role 0 holds another role as well
    for count in [1, 2, 30, 31]:
        others = [([user], [[]]) for user in range(count)]
        yield from mined(policy(64, 1, [(list(range(count)), [[0]]), *others]))
        yield from mined(policy(64, 1, [*others, (list(range(count)), [[0]])]))
        yield from mined(policy(64, 1, [*[([user], [[0]]) for user in range(count)], (list(range(count)), [[]])]))


def classes():
    """Parts by operations: their order, and that of their lines 28."""
    # {0, 2} is 5 and {1} is 2; another role has all
    by_operation = [
        [[0], [1], [0]],
        [[0], [1], [1]],
        [[0], [0], [1]],
        [[0, 1], [1], [0, 1]],
        [[], [0], [1]],
        [[0], [], [0]],
        [[0], [0], [0]],
    ]
    for own in by_operation:
        yield from mined(policy(1, 2, [([0], own)], operations=3))
        yield from mined(policy(1, 2, [([0], own), ([0], [[0, 1]] * 3)], operations=3))
        yield from mined(policy(1, 2, [([0], [[0, 1]] * 3), ([0], own)], operations=3))
        yield from mined(policy(2, 2, [([0], own), ([1], own[::-1]), ([0, 1], own)], operations=3))
    # sixteen operations: all apart, all alike, two classes in turn, the high byte first
    apart = [[operation] for operation in range(16)]
    for own in [apart, [[0]] * 16, [[0], [1]] * 8, [[0]] + [[1]] * 8 + [[0]] * 7, apart[::-1]]:
        yield from mined(policy(1, 16, [([0], own)], operations=16))
        yield from mined(policy(1, 16, [([0], own), ([0], [list(range(16))] * 16)], operations=16))
        yield from mined(policy(2, 16, [([0], own), ([1], own)], operations=16))
        yield from mined(policy(2, 17, [([0], own), ([1], own)], operations=16))


def merging():
    """Which pair is merged first, and merges that make an earlier pair possible."""
    # 01's order of pairs: by the earlier group, then by the other
    yield from mined(pairs(3, 2, (0, 0), (0, 1), (1, 0), (2, 1)))
    yield from mined(pairs(3, 3, (0, 0), (0, 1), (1, 0), (1, 1), (2, 2)))
    yield from mined(pairs(3, 3, (0, 0), (1, 1), (1, 0), (0, 1), (2, 2)))
    # role 1 takes role 2 in, and only then may role 0 take them in
    yield from mined(policy(1, 2, [([0], [[0], []]), ([0], [[], [0, 1]]), ([0], [[1], []])], operations=2))
    yield from mined(policy(1, 3, [([0], [[0, 1, 2], []]), ([0], [[], [0]]), ([0], [[], [1]]), ([0], [[], [2]])], operations=2))
    yield from mined(policy(2, 2, [([0], [[0, 1], []]), ([1], [[0], []]), ([0], [[], [0]]), ([1], [[1], []])], operations=2))
    # grids of roles of one pair each, in several orders, with and without attributes
    for count in [2, 3, 4]:
        cells = [(user, resource) for user in range(count) for resource in range(count)]
        for order in [cells, cells[::-1], [(r, u) for u, r in cells], cells[::2] + cells[1::2]]:
            for size in [count, count + 1]:
                yield from mined(pairs(size, size, *order))
            yield from mined(pairs([(SINGLE, list(range(count)))], [(SINGLE, list(range(count)))], *order))
            if count < 4:
                yield from mined(pairs(count, count, *order[1:]))
                yield from mined(pairs(count, count, *order[:-1]))
    # groups that overlap, contain one another, or are equal
    for first, second in [([0, 1], [1, 2]), ([0, 1, 2], [1]), ([0, 1], [0, 1]), ([0], [1, 2])]:
        for own, other in [([0], [0]), ([0, 1], [1]), ([0], [1]), ([0, 1], [0, 1])]:
            for operations in [[[], other], [other]]:
                file = policy(4, 3, [(first, [own]), (second, operations)], operations=2)
                yield from mined(file)
                yield from mined(policy(4, 3, [(second, operations), (first, [own])], operations=2))


def seniority():
    """Holders through seniors: chains, two ways up, roles without permissions or users of their own."""
    own = [([0], [[0]]), ([1], [[1]]), ([2], [[2]])]
    for lines in [[], [(0, 1)], [(1, 0)], [(0, 1), (1, 2)], [(2, 1), (1, 0)], [(0, 2)], [(0, 1), (0, 2)], [(1, 0), (2, 0)]]:
        yield from mined(policy(3, 3, own, lines=lines))
        yield from mined(policy(3, 3, [([0], [[0]]), ([1], [[]]), ([2], [[2]])], lines=lines))
        yield from mined(policy(3, 3, [([0], [[0]]), ([], [[1]]), ([2], [[2]])], lines=lines))
        yield from mined(policy([(SINGLE, [1, 2, 3])], [(SINGLE, [1, 2, 3])], own, lines=lines))
    for file in [CHAIN_UP, CHAIN_DOWN]:
        yield from mined(file)
    # nobody holds the role
    yield from mined(policy(1, 1, [([], [[0]])]))
    yield from mined(policy(1, 1, [([], [[0]]), ([0], [[0]])]))
    # repeats change nothing
    for file in [INHERITS, CHAIN_UP]:
        yield from mined(joined(file[:-1], file[5:]))


# ---- cuts

# The middle role has the user of the first and the resource of the last: it merges with either.
BETWEEN = pairs(2, 2, (0, 0), (0, 1), (1, 1))


def subsets(numbers):
    """All of them, ascending."""
    return [subset for count in range(len(numbers) + 1) for subset in itertools.combinations(numbers, count)]


def stair_of(*roles):
    """A role for each list of steps, all of one user: a step is a resource under an operation, the one or the other that of the step before."""

    def permissions(steps):
        return [[step // 2 for step in steps if (step + 1) // 2 == operation] for operation in range(4)]

    return policy(1, 3, [([0], permissions(steps)) for steps in roles], operations=4)


def good_cuts():
    """Pairs that a cut keeps apart until no pair of a run is left, and runs with few parts or none."""
    for cuts in [[], [1], [2], [1, 2]]:
        yield from mined(BETWEEN, SHORT, EXACT, Beyond(3), cuts=cuts)
        yield from mined(BETWEEN, EXACT, words=ENOUGH - 1, cuts=cuts)
    yield from mined(EXAMPLE_A, SHORT, EXACT, cuts=[1])
    # a stair: each step merges with the one before it or with the one behind it, in all ways to cut it
    stair = [(step // 2, (step + 1) // 2) for step in range(6)]
    for cuts in subsets(range(1, 6)):
        yield from mined(pairs(3, 4, *stair), cuts=cuts)
        yield from mined(pairs(3, 4, *stair[::2], *stair[1::2]), cuts=cuts)
    for cuts in subsets(range(1, 4)):
        yield from mined(pairs([(SINGLE, [0, 1, 2])], [(SINGLE, [0, 1, 2])], *stair[3::-1]), cuts=cuts)
        # the role's number decides, not the part's: roles of several parts, and one of none
        yield from mined(stair_of([0, 2], [], [1, 3, 4], [5]), cuts=cuts)
        yield from mined(stair_of([1], [0, 3], [2, 5], [4]), cuts=cuts)
        # a group that a run leaves takes in others, and so makes an earlier pair possible
        roles = [([0], [[0, 1, 2], []]), ([0], [[], [0]]), ([0], [[], [1]]), ([0], [[], [2]])]
        yield from mined(policy(1, 3, roles, operations=2), cuts=cuts)
    # three regions, with a desk and a watch in each; one user has all the watches
    users, resources = [(SINGLE, [1, 1, 2, 2, 3, 3, None])], [(SINGLE, [1, 1, 2, 3])]
    roles = [([6], [[0]]), ([0, 1], [[1]]), ([6], [[2]]), ([2, 3], [[2]]), ([6], [[3]]), ([4, 5], [[3]])]
    for cuts in [[], [2], [4], [2, 4], [3], [1, 2, 3, 4, 5]]:
        yield from mined(policy(users, resources, roles), cuts=cuts)
    # as many roles as there may be, and as many cuts
    long_stair = pairs(16, 17, *[(step // 2, (step + 1) // 2) for step in range(32)])
    for cuts in [[31], [8, 16, 24], [5, 20], range(1, 32), range(1, 32, 2), range(2, 32, 2)]:
        yield from mined(long_stair, cuts=cuts)


def bad_cuts():
    """Cuts out of order or out of range, behind 8 and the file's refusals and before 9."""
    for cuts in [[0], [3], [4], [254], [255], [1, 1], [2, 1], [0, 1], [1, 3], [1, 2, 3], [1, 2, 2], [2, 1, 2], [1] * 255]:
        yield from mined(BETWEEN, SHORT, EXACT, cuts=cuts)
    for cuts in [[0], [2, 1]]:
        yield from mined(BETWEEN, 0, 24, words=ENOUGH - 1, cuts=cuts)
        for file in REFUSED:
            yield from mined(file, 24, cuts=cuts)
    # the roles that are declared count, whether or not they have a part
    for roles in [0, 1, 2, 3, 31, 32]:
        for cuts in [[1], [max(roles - 1, 0)], [roles], [roles + 1]]:
            yield from mined(joined(sizes(1, 1, 1, roles), END), EXACT, cuts=cuts)
    yield from mined(policy(8, 4, [([role % 8], [[role // 8]]) for role in range(32)]), cuts=range(1, 33))


# ---- files that the second miner makes

# Profiles of the second miner's role files, how many to take of each, and how long a file may be.
PROFILES = [
    ("tiny", 150, 160),
    ("edge", 12, 300),
    ("mid", 40, 400),
    ("attributes", 10, 1100),
    ("hierarchy", 24, 420),
    ("parts", 24, 700),
    ("duplicates", 24, 330),
    ("departments", 14, 800),
    ("projects", 14, 800),
    ("skills", 14, 800),
    ("positions", 14, 800),
    ("mixed", 8, 1200),
    ("layers", 20, 900),
    ("circles", 6, 150),
    ("full-structured", 1, 17000),
    ("full-layers", 2, 6000),
]

# Full-size files with hundreds of parts and a rule file longer than 65,536 bytes.
LARGEST = [("full-parts", 5)]


def generated(second_miner, path, wanted):
    """The second miner's files of these profiles and seeds, each whole and damaged."""
    commands = []
    for profile, seed in wanted:
        name = os.path.join(path, f"{profile}-{seed}")
        commands += [f"gen --seed {seed} --profile {profile} {name}", f"damage --seed {seed} {name} {name}-damaged"]
    told(second_miner, commands)
    found = []
    for profile, seed in wanted:
        for end in ["", "-damaged"]:
            with open(os.path.join(path, f"{profile}-{seed}{end}"), "rb") as file:
                found.append(file.read())
    return zip(found[0::2], found[1::2])


def made(second_miner):
    """Random role files with just enough output, too little and more, some of them cut, and some damaged."""
    below, cut_below = random_numbers(23), random_numbers(11)
    with tempfile.TemporaryDirectory() as path:
        for profile, count, longest in PROFILES:
            wanted = [(profile, seed) for seed in range(8 * count)]
            taken = 0
            for file, damaged in generated(second_miner, path, wanted):
                if taken == count or len(file) > longest:
                    continue
                taken += 1
                yield from mined(file, [EXACT, Beyond(1), Beyond(below(90))][taken % 3])
                if taken % 7 == 2 and len(file) <= 300:
                    yield from mined(file, cuts=[cut for cut in range(1, file[4]) if cut_below(3) == 0])
                if taken % 10 == 3:
                    yield from mined(file, SHORT)
                if taken % 12 == 5 and len(damaged) <= longest:
                    yield from mined(damaged, 30)
        for file, _ in generated(second_miner, path, LARGEST):
            yield from mined(file, EXACT)


GROUPS = [
    examples,
    refusals,
    sizes_at_limits,
    openings,
    levels,
    atoms,
    domains,
    unknown_values,
    larger_sets,
    striking,
    many_values,
    classes,
    merging,
    seniority,
    good_cuts,
    bad_cuts,
]
MADE = [made]


def long_files():
    """The files that the program builds, in its order, with what it lends and the seed of the memory."""
    start = joined(sizes(1, 1, 1, 1), assign(0, 0) * 21839, permit(0, 0, 0) * 3, END)
    assert len(start) == 65535
    for file in [bytes(65536), start + b"\0"]:
        yield file[:-1], b"", ENOUGH, 48, 1
        yield file, b"", ENOUGH, 48, 2
        yield file, b"", ENOUGH - 1, 48, 3


# ---- the two files


def memory(room, seed):
    """What the program fills the memory for output with."""
    return bytes((7 * (place % 251) + seed % 251) % 251 for place in range(room))


def checksum(held):
    total = 0
    for byte in held:
        total = (257 * total + byte + 1) % 4294967291
    return total


def shown(held):
    return f"memory {held.hex()}" if len(held) <= 48 else f"checksum {checksum(held)}"


def with_cuts(cuts):
    """The option of the second miner that gives it the cuts."""
    return f"--cuts {','.join(map(str, cuts))} " if cuts else ""


def rules_of(second_miner, files):
    """The rule file of each role file with these cuts, or none if it is refused."""
    with tempfile.TemporaryDirectory() as path:
        folder = Folder(path)
        names = [os.path.join(path, f"rules-{number}") for number in range(len(files))]
        commands = [
            f"mine --out-len 1000000 {with_cuts(cuts)}{folder.file(file)} {name}" for (file, cuts), name in zip(files, names)
        ]
        told(second_miner, commands)
        found = {}
        for file_and_cuts, name in zip(files, names):
            found[file_and_cuts] = None
            if os.path.exists(name):
                with open(name, "rb") as rules:
                    found[file_and_cuts] = rules.read()
    return found


def lent(all_cases, rules):
    """The cases with the bytes of output counted."""
    for file, cuts, words, beyond, room in all_cases:
        if beyond:
            room = max(0, len(rules[file, cuts] or b"") + room)
        assert room <= ROOM
        yield file, cuts, words, room


def corpus(all_cases):
    """The bytes of the corpus, and the place of each case."""
    whole = b""
    places = []
    for file, cuts, words, room in all_cases:
        places.append(len(whole))
        whole += len(file).to_bytes(2, "little") + words.to_bytes(2, "little") + room.to_bytes(3, "little")
        whole += bytes([len(cuts)]) + cuts + file
    assert len(whole) <= CORPUS, "the corpus is longer than the program reads"
    return whole, places


def answers(second_miner, rules, all_cases):
    """The second miner's answers, a line for each case."""
    with tempfile.TemporaryDirectory() as path:
        folder = Folder(path)
        commands = [
            f"mine --out-len {room} --scratch {words} {with_cuts(cuts)}{folder.file(file)} -"
            for file, cuts, words, room, _ in all_cases
        ]
        said = told(second_miner, commands)
    lines = []
    for answer, (file, cuts, _, room, seed) in zip(said, all_cases):
        held = memory(room, seed)
        if answer.startswith("parts "):
            written = rules[file, cuts]
            held = written + held[len(written) :]
            answer = f"length {len(written)} {answer}"
        else:
            assert answer.startswith("refused "), answer
        assert len(held) == room
        lines.append(f"{answer}, {shown(held)}\n")
    return "".join(lines)


def main():
    if len(sys.argv) != 2:
        sys.exit(__doc__)
    second_miner = sys.argv[1]
    crate = os.path.join(os.path.dirname(os.path.abspath(__file__)), "..", "crates", "test_mine")
    found = list(each_once(GROUPS + [functools.partial(group, second_miner) for group in MADE]))
    long_ones = list(long_files())
    files = {(file, cuts): None for file, cuts, *_ in found + long_ones}
    rules = rules_of(second_miner, list(files))
    all_cases = list(lent(found, rules))
    whole, places = corpus(all_cases)
    with open(os.path.join(crate, "stdin"), "wb") as out:
        out.write(whole)
    text = answers(second_miner, rules, [(*case, place) for case, place in zip(all_cases, places)] + long_ones)
    with open(os.path.join(crate, "stdout"), "w", encoding="ascii") as out:
        out.write(text)
    print(f"{len(all_cases)} cases, {len(whole)} bytes; {text.count(chr(10))} answers, {len(text)} bytes")


if __name__ == "__main__":
    main()
