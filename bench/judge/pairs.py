"""Role files of the largest sizes with rule files of about 64 KB beside them, and a small pair."""
import lzma
import os

from measure import load, mined, random_numbers

HERE = os.path.dirname(os.path.abspath(__file__))

# ---- role files

START = bytes([0x01, 64, 64, 16, 32])
END_OF_ROLES = bytes([0x0F])


def assign(role, user):
    return bytes([0x05, role, user])


def permit(role, resource, operation):
    return bytes([0x06, role, resource, operation])


def subset(below, count, chance):
    """Each number below count with one chance in so many."""
    return [number for number in range(count) if below(chance) == 0]


def mask(numbers):
    return sum(1 << number for number in numbers)


def attributes(below):
    """Six attributes on each side, single and set in turn, with values of eight numbers.

    Returns the bytes, and the values by side, who and attribute.
    """
    values = [
        [[mask(subset(below, 8, 3)) if attribute % 2 else below(8) for attribute in range(6)] for _ in range(64)]
        for _ in range(2)
    ]
    file = b"".join(bytes([0x02, side, attribute % 2]) for side in range(2) for attribute in range(6))
    for side in range(2):
        for who in range(64):
            for attribute in range(6):
                value = values[side][who][attribute]
                file += bytes([0x03 + attribute % 2, side, attribute, who])
                file += value.to_bytes(8 if attribute % 2 else 2, "little")
    return file, values


def departments():
    """Roles 0 to 7 have the users and resources of a department, 8 to 15 those of a project, the others any users.

    The first two operations are for departments, the third for projects. The others stand in four
    classes with any resources.
    """
    below = random_numbers(64)
    file, (users, resources) = attributes(below)
    for role in range(32):
        if role < 8:
            members = [user for user in range(64) if users[user][0] == role]
            own = [(resource, o) for resource in range(64) if resources[resource][0] == role for o in [0, 1]]
        elif role < 16:
            members = [user for user in range(64) if users[user][1] >> (role - 8) & 1]
            own = [(resource, 2) for resource in range(64) if resources[resource][2] == role - 8]
        else:
            members = subset(below, 64, 12)
            own = []
        classes = [range(3, 6), range(6, 9), range(9, 12), range(12, 16)]
        any_of = [(resource, o) for of_class in classes for resource in subset(below, 64, 3) for o in of_class]
        file += b"".join(assign(role, user) for user in members)
        file += b"".join(permit(role, resource, o) for resource, o in own + any_of)
    file = START + file + END_OF_ROLES
    assert len(file) <= 65535
    return file


def for_everybody():
    """Everybody has each of the first eight roles; role k has every resource under operations 2k and 2k + 1."""
    file, _ = attributes(random_numbers(65))
    for role in range(8):
        file += b"".join(assign(role, user) for user in range(64))
        file += b"".join(permit(role, resource, o) for resource in range(64) for o in [2 * role, 2 * role + 1])
    return START + file + END_OF_ROLES


# ---- rule files

# The 20 of both role files: their sizes, and six attributes a side.
SHAPE = bytes([0x20]) + START[1:] + bytes([6, 6])
OPEN = bytes([0x21])
END_OF_RULES = bytes([0x2F])


def line(command, attribute, value):
    """Commands 22 to 25."""
    return bytes([command, attribute]) + value.to_bytes(8 if command % 2 else 2, "little")


def operations_part_and_level(role):
    """Without a 255 a rule is of level 0."""
    class_of = mask([2 * role, 2 * role + 1]).to_bytes(2, "little")
    return bytes([0x26]) + class_of + bytes([0x28, role]) + class_of + bytes([0x29, 0])


def many_rules():
    return SHAPE + b"".join(OPEN + operations_part_and_level(number % 8) for number in range(8191)) + END_OF_RULES


def many_values():
    """Everybody meets each rule: the values of eight numbers are among those listed."""
    rules = SHAPE
    for role in range(8):
        rules += OPEN
        for command, count in [(0x22, 400), (0x23, 256), (0x24, 400), (0x25, 256)]:
            attribute = command % 2 + 2 * (role % 3)
            rules += b"".join(line(command, attribute, value) for value in range(count))
        rules += operations_part_and_level(role)
    return rules + END_OF_RULES


# What the program load is told to make a role file whose rule file the program mine can hold, of 63,828 bytes.
WITH_RULES = "1 64 64 16 20"

# Example A of 01, and its rules.
SMALL_ROLES = bytes.fromhex(
    "01 02 02 01 02 02 00 00 02 01 00 03 00 00 00 05 00 03 00 00 01 07 00"
    "03 01 00 00 05 00 03 01 00 01 07 00 05 00 00 05 01 01 06 00 00 00 06 01 01 00 0F"
)
SMALL_RULES = bytes.fromhex("20 02 02 01 02 01 01 21 26 01 00 27 00 00 28 00 01 00 28 01 01 00 29 00 2F")


def given(role_file, rule_file):
    return len(role_file).to_bytes(2, "little") + role_file + rule_file


def mined_departments():
    """The role file of departments, and what it is mined to."""
    with lzma.open(os.path.join(HERE, "mined.xz")) as rules:
        return departments(), rules.read()


def files():
    """Each role file and the rule file beside it, with the pair's name."""
    made = load(WITH_RULES)
    yield f"load {WITH_RULES}, mined", made, mined(made)
    yield "mined rules", *mined_departments()
    everybody = for_everybody()
    yield "many rules", everybody, many_rules()
    yield "many values", everybody, many_values()
    yield "fifty bytes", SMALL_ROLES, SMALL_RULES


def pairs():
    """Each pair as it is given to a program, with its name."""
    for name, role_file, rule_file in files():
        yield name, given(role_file, rule_file)
