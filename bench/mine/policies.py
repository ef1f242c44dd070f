"""Role files to measure mining with."""
import os
import sys

HERE = os.path.dirname(os.path.abspath(__file__))
sys.path.insert(0, os.path.join(HERE, ".."))
from measure import random_numbers

LONGEST = 65535
END = bytes([0x0F])


def sizes(users, resources, operations, roles):
    return bytes([0x01, users, resources, operations, roles])


def declare(side, kind):
    return bytes([0x02, side, kind])


def value(side, kind, attribute, who, number):
    return bytes([0x03 + kind, side, attribute, who]) + number.to_bytes(8 if kind else 2, "little")


def assign(role, user):
    return bytes([0x05, role, user])


def permit(role, resource, operation):
    return bytes([0x06, role, resource, operation])


def attributes(side, kinds, values):
    """Attributes of a side; values is a function of the attribute and who, and None is unknown."""
    file = b""
    for attribute, kind in enumerate(kinds):
        for who in range(64):
            number = values(attribute, who)
            if number is not None:
                file += value(side, kind, attribute, who, number)
    return file


def policy(sides, roles):
    """A role file of the largest sizes.

    A side is the kinds of its attributes and their values; a role is its users, and its
    resources by operation.
    """
    declared = b"".join(declare(side, kind) for side, (kinds, _) in enumerate(sides) for kind in kinds)
    given = b"".join(attributes(side, kinds, values) for side, (kinds, values) in enumerate(sides))
    assigned = b"".join(assign(role, user) for role, (users, _) in enumerate(roles) for user in users)
    permitted = b"".join(
        permit(role, resource, operation)
        for role, (_, by_operation) in enumerate(roles)
        for operation, resources in enumerate(by_operation)
        for resource in resources
    )
    file = sizes(64, 64, 16, len(roles)) + declared + given + assigned + permitted + END
    assert len(file) <= LONGEST, len(file)
    return file


def subset(below, count, chance, of=1):
    """Each number below count with so many chances in so many; never none."""
    return [number for number in range(count) if below(chance) < of] or [below(count)]


MIXED = [0, 1] * 3


def random_values(below, pool=8):
    """Values of attributes that are single and set in turn."""
    return lambda attribute, who: below(1 << pool) if MIXED[attribute] else below(pool)


def apart(roles, seed, resources_of=3):
    """Roles of sixteen parts each, with any users and any resources: none are merged."""
    below = random_numbers(seed)
    sides = [(MIXED, random_values(below)), (MIXED, random_values(below))]
    return policy(
        sides, [(subset(below, 64, 2), [subset(below, 64, resources_of) for _ in range(16)]) for _ in range(roles)]
    )


def shared(seed, of_each):
    """512 parts; so many roles at a time have the same users.

    Every role has the same resources under an operation, so that the parts of one operation are merged.
    """
    below = random_numbers(seed)
    departments = 32 // of_each
    users = [subset(below, 64, 4) for _ in range(departments)]
    resources = [subset(below, 64, 3) for _ in range(16)]
    sides = [(MIXED, random_values(below)), (MIXED, random_values(below))]
    return policy(sides, [(users[role % departments], resources) for role in range(32)])


def alike(seed):
    """512 parts that are not merged. Everybody has the same values, so each part has fifty conditions, and most are struck."""
    below = random_numbers(seed)
    same = ([0] * 6, lambda attribute, who: 5)
    return policy([same, same], [(subset(below, 64, 2), [subset(below, 64, 5, 2) for _ in range(16)]) for _ in range(32)])


def near_misses(of_each, known=True):
    """512 parts of one user each. Those of one operation have the same resources and may be joined but for their level.

    The users' six values are the bits of a number, and the first 32 users' numbers have an even
    count of ones: the values of any two of them let in others.
    """
    numbers = sorted(range(64), key=lambda number: (bin(number).count("1") % 2, number))
    of_users = ([0] * 6, lambda attribute, user: numbers[user] >> attribute & 1)
    of_resources = ([0] * 6, lambda attribute, resource: 1 if known else None)
    below = random_numbers(3)
    resources = [subset(below, 64, 5, 2) for _ in range(16)]
    return policy([of_users, of_resources], [([role // of_each], resources) for role in range(32)])


def many_values(seed, chance=8):
    """512 parts with nearly all users, each of whom holds other roles than the rest."""
    below = random_numbers(seed)
    of_users = (MIXED, lambda attribute, user: user * 997 % 65536)
    of_resources = (MIXED, lambda attribute, resource: resource * 991 % 65536)
    return policy(
        [of_users, of_resources],
        [([u for u in range(64) if below(chance)], [subset(below, 64, 5, 2) for _ in range(16)]) for _ in range(32)],
    )
