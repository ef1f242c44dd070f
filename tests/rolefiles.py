"""Role files for the test programs: their commands, legal files that several groups of
cases use, and what else the makers of cases have in common."""

# ---- commands of a role file

END = bytes([0x0F])
COMMANDS = [0x01, 0x02, 0x03, 0x04, 0x05, 0x06, 0x07, 0x08, 0x0F]
UNKNOWN = [byte for byte in range(256) if byte not in COMMANDS]
# A byte that is no command, and some: the first and the last, and those beside commands.
NO_COMMAND = bytes([0x09])
NO_COMMANDS = [0x00, 0x09, 0x0E, 0x10, 0xFF]


def sizes(users, resources, operations, roles):
    return bytes([0x01, users, resources, operations, roles])


def declare(side, kind, domain=None):
    """By 02, or by 08 where a domain is given."""
    return bytes([0x02, side, kind]) if domain is None else bytes([0x08, side, kind, domain])


def single(side, attribute, who, value):
    return bytes([0x03, side, attribute, who]) + value.to_bytes(2, "little")


def members(side, attribute, who, mask):
    return bytes([0x04, side, attribute, who]) + mask.to_bytes(8, "little")


def assign(role, user):
    return bytes([0x05, role, user])


def permit(role, resource, operation):
    return bytes([0x06, role, resource, operation])


def line(junior, senior):
    return bytes([0x07, junior, senior])


def joined(*commands):
    return b"".join(commands)


def opening(roles):
    """The 20 that opens a rule file beside this role file: its sizes, and how many attributes of each side 02 and 08 declare.

    Of a role file that is refused it is made as far as there is something to read; what is missing is 0.
    """
    counts = [0, 0]
    lengths = {0x02: 3, 0x08: 4}
    at = 5
    while at + 1 < len(roles) and roles[at] in lengths:
        counts[min(roles[at + 1], 1)] += 1
        at += lengths[roles[at]]
    return bytes([0x20, *(roles[1:5] + bytes(4))[:4], *counts])


# ---- legal files that several groups use

# Example A of 01.
EXAMPLE_A = bytes.fromhex(
    "01 02 02 01 02 02 00 00 02 01 00 03 00 00 00 05 00 03 00 00 01 07 00"
    "03 01 00 00 05 00 03 01 00 01 07 00 05 00 00 05 01 01 06 00 00 00 06 01 01 00 0F"
)


def with_domains(user_domain, resource_domain):
    """Example A with these domains of its two attributes, None for 02."""
    return joined(EXAMPLE_A[:5], declare(0, 0, user_domain), declare(1, 0, resource_domain), EXAMPLE_A[11:])


# Pairs of domains that are equal, 02 and 08 with 0 being the same, and pairs that are not.
EQUAL_DOMAINS = [(None, 0), (0, None), (0, 0), (1, 1), (7, 7), (255, 255)]
UNEQUAL_DOMAINS = [(None, 1), (1, None), (0, 1), (1, 0), (1, 2), (7, 5), (5, 7), (0, 255), (255, 254), (127, 255), (0, 128)]

NOBODY = joined(sizes(0, 0, 0, 0), END)

# No attributes, role 0 with user 0 and resource 0.
ONE_OF_TWO = joined(sizes(2, 2, 1, 1), assign(0, 0), permit(0, 0, 0), END)

# User 0 in role 0 without permissions, senior to role 1.
INHERITS = joined(sizes(1, 1, 1, 2), assign(0, 0), line(1, 0), permit(1, 0, 0), END)

# Resource 0 under operations 0 and 1, resource 1 under 1; then both under both.
TWO_PARTS = joined(sizes(1, 2, 2, 1), assign(0, 0), permit(0, 0, 0), permit(0, 0, 1), permit(0, 1, 1), END)
ONE_PART = joined(TWO_PARTS[:-1], permit(0, 1, 0), END)

# The set {1, 2} for user 0 and for resource 0.
SETS = joined(
    sizes(1, 1, 1, 1),
    declare(0, 1),
    declare(1, 1),
    members(0, 0, 0, 6),
    members(1, 0, 0, 6),
    assign(0, 0),
    permit(0, 0, 0),
    END,
)

# Two users, resources, operations and roles; a single and a set attribute on each side.
BOTH_KINDS = joined(sizes(2, 2, 2, 2), declare(0, 0), declare(0, 1), declare(1, 0), declare(1, 1))

# Every command of a role file once or more, with some of the largest values.
ALL_KINDS = joined(
    BOTH_KINDS,
    declare(0, 0, 1),
    declare(1, 1, 255),
    single(0, 0, 0, 65535),
    single(1, 0, 1, 256),
    members(0, 1, 1, 2**64 - 1),
    members(1, 1, 0, 0),
    assign(0, 1),
    permit(1, 0, 1),
    line(1, 0),
    END,
)

# All sizes at their limits, and the last of everything used.
FULL = joined(
    sizes(64, 64, 16, 32), assign(31, 63), permit(31, 63, 15), permit(30, 0, 0), line(30, 31), END
)

# Each role but the last has the next one as its senior; role 0 has the permission, role 31 the user.
CHAIN_UP = joined(
    sizes(3, 2, 2, 32),
    *[line(role, role + 1) for role in range(31)],
    assign(31, 0),
    assign(15, 1),
    permit(0, 0, 0),
    permit(20, 1, 1),
    END,
)

# The same the other way round, and told from the far end.
CHAIN_DOWN = joined(
    sizes(3, 2, 2, 32),
    *[line(role, role - 1) for role in range(31, 0, -1)],
    assign(0, 0),
    assign(15, 1),
    permit(31, 0, 0),
    permit(10, 1, 1),
    END,
)


# ---- making cases


def grid(users, resources, operations):
    """Every question within the sizes, and one number too many on each side."""
    return [
        (user, resource, operation)
        for user in range(users + 1)
        for resource in range(resources + 1)
        for operation in range(operations + 1)
    ]


def with_operand(command, place, value):
    """The command with the operand byte of this place changed; places are counted from 1."""
    return command[:place] + bytes([value]) + command[place + 1 :]


def random_numbers(seed):
    """Numbers below a limit, the same on every machine: a linear congruential generator."""
    state = seed

    def below(limit):
        nonlocal state
        state = (state * 6364136223846793005 + 1442695040888963407) % 2**64
        return (state >> 33) % limit

    return below


def each_once(groups):
    """All cases of all groups, each only once."""
    known = set()
    for group in groups:
        for case in group():
            if case not in known:
                known.add(case)
                yield case
