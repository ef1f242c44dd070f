#!/usr/bin/env python3
"""Tests samples/make.py: a source makes the role file that it says, or a message with its line and no file.

    tests/samples.py        print one line if all is well, and else what is not

What a role file says is read here by a decoder of its own (see decoded), not by make.py. The example in README.md is made
too, and the files of samples/ have to be those of their sources. All that is written stands in target/, and is removed.
"""
import contextlib
import importlib.util
import io
import os
import subprocess
import sys
import tempfile
import unittest.mock

sys.dont_write_bytecode = True

from rolefiles import EXAMPLE_A, random_numbers

ROOT = os.path.dirname(os.path.dirname(os.path.abspath(__file__)))
SAMPLES = os.path.join(ROOT, "samples")
MAKE = os.path.join(SAMPLES, "make.py")

# ---- sources with a fault

# What stands before the faults of the first table.
BEFORE = """\
users anna ben
resources east west
operations read reset
roles desk lead
user attribute region single
user attribute tariffs set
resource attribute region single
value north 1
domain places 7
"""

HELD = "a line of this kind reads: ROLE held by USER ..."
MAY = "a line of this kind reads: ROLE may OPERATION ... on RESOURCE ..."
ABOVE = "a line of this kind reads: ROLE above ROLE ..."
VERBS = "behind the role 'desk' stands held by, may or above"
USER_VALUE = "a line of this kind reads: USER ATTRIBUTE VALUE"
SINGLE = "'region' is single and takes one value"
SET = "'tariffs' is a set and takes { ELEMENT ... }"
USER_ATTRIBUTE = "a line of this kind reads: user attribute NAME single|set [domain DOMAIN]"
RESOURCE_ATTRIBUTE = "a line of this kind reads: resource attribute NAME single|set [domain DOMAIN]"
VALUE = "a line of this kind reads: value NAME NUMBER"
DOMAIN = "a line of this kind reads: domain NAME NUMBER"


def no_value(word):
    return f"{word!r} is beyond the limit: a value is a number from 0 to 65535"


def no_element(word):
    return f"{word!r} is beyond the limit: an element is a number from 0 to 63"


def no_domain(word):
    return f"{word!r} is beyond the limit: a domain is a number from 0 to 255"


def no_number(word, named="value"):
    return f"{word!r} is no number, and no {named} named above"


def none_of(kind, word):
    return f"{word!r} is none of the {kind} declared above"


def no_start(word):
    return f"{word!r} begins no statement, and is no user, resource or role declared above"


def no_name(word):
    return f"{word!r} is no name: names are made of letters, digits and . : / @ _ + -"


def own_senior(word):
    return f"a role would be its own senior: {word!r} is this role or above it"


def names(count):
    return " ".join(f"n{number}" for number in range(count))


# Lines, of which the last has the fault, with what is said of it.
FAULTS = [
    # assignments
    ("desk held anna ben", HELD),
    ("desk held by", HELD),
    ("desk held", HELD),
    ("desk held by carl", none_of("users", "carl")),
    ("desk held by anna carl", none_of("users", "carl")),
    ("desk held by east", none_of("users", "east")),
    ("desk held by lead", none_of("users", "lead")),
    ("desk held by by anna", none_of("users", "by")),
    ("desk held by anna, ben", none_of("users", "anna,")),
    ("desk", VERBS),
    ("desk has anna", VERBS),
    ("desk region 5", VERBS),
    # permissions
    ("desk may", MAY),
    ("desk may read", MAY),
    ("desk may read east", MAY),
    ("desk may on east", MAY),
    ("desk may read on", MAY),
    ("desk may read on east on west", MAY),
    ("desk may write on east", none_of("operations", "write")),
    ("desk may read on south", none_of("resources", "south")),
    ("desk may read on east anna", none_of("resources", "anna")),
    # seniority
    ("desk above", ABOVE),
    ("desk above chief", none_of("roles", "chief")),
    ("desk above anna", none_of("roles", "anna")),
    ("desk above desk", own_senior("desk")),
    ("desk above lead desk", own_senior("desk")),
    ("desk above lead\nlead above desk", own_senior("desk")),
    ("roles a b c\na above b\nb above c\nc above a", own_senior("a")),
    ("roles a b c d\na above b\nc above d\nb above c\nd above a", own_senior("a")),
    # values
    ("anna", USER_VALUE),
    ("anna region", USER_VALUE),
    ("anna tariffs", USER_VALUE),
    ("east region", "a line of this kind reads: RESOURCE ATTRIBUTE VALUE"),
    ("anna region 5 6", SINGLE),
    ("anna region { 5 }", SINGLE),
    ("anna region { }", SINGLE),
    ("anna region 65536", no_value("65536")),
    ("anna region 70000", no_value("70000")),
    ("anna region -1", no_value("-1")),
    ("anna region " + 5000 * "9", no_value(5000 * "9")),
    ("anna region south", no_number("south")),
    ("anna region 5.0", no_number("5.0")),
    ("anna region 0x10", no_number("0x10")),
    ("anna region 1_0", no_number("1_0")),
    ("anna region {", no_number("{")),
    ("anna region 5\nanna region 6", "'anna' already has a value of 'region'"),
    ("anna region 5\nanna region 5", "'anna' already has a value of 'region'"),
    ("east region 5\neast region 6", "'east' already has a value of 'region'"),
    ("anna tariffs { 1 }\nanna tariffs { }", "'anna' already has a value of 'tariffs'"),
    ("anna tariffs 1", SET),
    ("anna tariffs 1 2", SET),
    ("anna tariffs { 1", SET),
    ("anna tariffs {", SET),
    ("anna tariffs 1 }", SET),
    ("anna tariffs { 1 } 2", SET),
    ("anna tariffs { 1 } { 2 }", no_number("}")),
    ("anna tariffs { 1, 2 }", no_number("1,")),
    ("anna tariffs { home }", no_number("home")),
    ("anna tariffs { 64 }", no_element("64")),
    ("anna tariffs { 1 -1 }", no_element("-1")),
    ("value far 64\nanna tariffs { far }", no_element("far")),
    ("anna colour 5", "'colour' is no user attribute declared above"),
    ("east tariffs { 1 }", "'tariffs' is no resource attribute declared above"),
    # users, resources, operations and roles
    ("users", "a line of this kind reads: users NAME ..."),
    ("operations", "a line of this kind reads: operations NAME ..."),
    ("users anna", "'anna' is already one of the users"),
    ("users carl carl", "'carl' is already one of the users"),
    ("users carl\nusers dora carl", "'carl' is already one of the users"),
    ("resources north-1 north-1", "'north-1' is already one of the resources"),
    ("operations read", "'read' is already one of the operations"),
    ("roles desk", "'desk' is already one of the roles"),
    ("users east", "'east' is already one of the resources"),
    ("resources anna", "'anna' is already one of the users"),
    ("users desk", "'desk' is already one of the roles"),
    ("roles anna", "'anna' is already one of the users"),
    ("resources desk", "'desk' is already one of the roles"),
    ("roles east", "'east' is already one of the resources"),
    ("users " + names(63), "too many users: a role file has at most 64"),
    ("users " + names(300), "too many users: a role file has at most 64"),
    ("users " + names(62) + "\nusers carl", "too many users: a role file has at most 64"),
    ("resources " + names(63), "too many resources: a role file has at most 64"),
    ("operations " + names(15), "too many operations: a role file has at most 16"),
    ("roles " + names(31), "too many roles: a role file has at most 32"),
    # names
    ("users 5", "'5' is a number and no name"),
    ("users carl -1", "'-1' is a number and no name"),
    ("value 5 7", "'5' is a number and no name"),
    ("user attribute 5 single", "'5' is a number and no name"),
    ("users value", "'value' is a keyword and no name"),
    ("operations on", "'on' is a keyword and no name"),
    ("user attribute held single", "'held' is a keyword and no name"),
    ("value may 7", "'may' is a keyword and no name"),
    ("users carl,dora", no_name("carl,dora")),
    ('users "carl dora"', no_name('"carl')),
    ("users carl{1}", no_name("{")),
    ("users carl\u200b", no_name("carl\u200b")),
    ("resources north#1 north#2", "a comment begins with '#' behind a blank"),
    # attributes
    ("user", USER_ATTRIBUTE),
    ("user attribute", USER_ATTRIBUTE),
    ("user attribute age", USER_ATTRIBUTE),
    ("user attribute age number", USER_ATTRIBUTE),
    ("user attribute age single set", USER_ATTRIBUTE),
    ("user attributes age single", USER_ATTRIBUTE),
    ("user carl", USER_ATTRIBUTE),
    ("resource attribute", RESOURCE_ATTRIBUTE),
    ("user attribute region single", "'region' is already a user attribute"),
    ("user attribute region set", "'region' is already a user attribute"),
    ("resource attribute region single", "'region' is already a resource attribute"),
    (
        "".join(f"user attribute n{number} set\n" for number in range(4)) + "user attribute age single",
        "too many user attributes: a role file has at most 6 a side",
    ),
    (
        "".join(f"resource attribute n{number} set\n" for number in range(5)) + "resource attribute age single",
        "too many resource attributes: a role file has at most 6 a side",
    ),
    (
        "".join(f"user attribute n{number} set domain {number}\n" for number in range(4)) + "user attribute age single",
        "too many user attributes: a role file has at most 6 a side",
    ),
    (
        "".join(f"user attribute n{number} set\n" for number in range(4)) + "user attribute age single domain 5",
        "too many user attributes: a role file has at most 6 a side",
    ),
    # domains
    ("user attribute age single domain", USER_ATTRIBUTE),
    ("user attribute age single domain 5 6", USER_ATTRIBUTE),
    ("user attribute age single 5", USER_ATTRIBUTE),
    ("user attribute age single in 5", USER_ATTRIBUTE),
    ("user attribute age domain 5", USER_ATTRIBUTE),
    ("user attribute age domain 5 single", USER_ATTRIBUTE),
    ("user domain 5", USER_ATTRIBUTE),
    ("resource attribute age set domain", RESOURCE_ATTRIBUTE),
    ("user attribute domain single", "'domain' is a keyword and no name"),
    ("user attribute region single domain 5", "'region' is already a user attribute"),
    ("user attribute age single domain 256", no_domain("256")),
    ("user attribute age single domain -1", no_domain("-1")),
    ("resource attribute age set domain 65535", no_domain("65535")),
    ("user attribute age single domain " + 5000 * "9", no_domain(5000 * "9")),
    ("user attribute age single domain years", no_number("years", "domain")),
    ("user attribute age single domain 0x5", no_number("0x5", "domain")),
    # names of values are none of domains, and the other way round
    ("user attribute age single domain north", no_number("north", "domain")),
    ("anna region places", no_number("places")),
    ("anna tariffs { places }", no_number("places")),
    ("domain", DOMAIN),
    ("domain years", DOMAIN),
    ("domain years 2 3", DOMAIN),
    ("domain years two", DOMAIN),
    ("domain years places", DOMAIN),
    ("domain 5 7", "'5' is a number and no name"),
    ("domain set 7", "'set' is a keyword and no name"),
    ("domain a,b 7", no_name("a,b")),
    ("domain places 7", "'places' is already the name of a domain"),
    ("domain places 8", "'places' is already the name of a domain"),
    ("domain years 256", no_domain("256")),
    ("domain years -1", no_domain("-1")),
    ("users domain", "'domain' is a keyword and no name"),
    # names of values
    ("value", VALUE),
    ("value south", VALUE),
    ("value south 2 3", VALUE),
    ("value south two", VALUE),
    ("value south north", VALUE),
    ("value north 1", "'north' is already the name of a value"),
    ("value north 2", "'north' is already the name of a value"),
    ("value south 65536", no_value("65536")),
    ("value south -1", no_value("-1")),
    # what begins no statement
    ("carl region 5", no_start("carl")),
    ("chief held by anna", no_start("chief")),
    ("held by anna", no_start("held")),
    ("Users carl", no_start("Users")),
    ("read on east", no_start("read")),
    ("{ }", no_start("{")),
]

# Lines that use what is declared only behind them.
TOO_EARLY = [
    ("carl region 5", "users carl", no_start("carl")),
    ("desk held by carl", "users carl", none_of("users", "carl")),
    ("desk may read on south", "resources south", none_of("resources", "south")),
    ("desk may write on east", "operations write", none_of("operations", "write")),
    ("chief held by anna", "roles chief", no_start("chief")),
    ("desk above chief", "roles chief", none_of("roles", "chief")),
    ("anna age 5", "user attribute age single", "'age' is no user attribute declared above"),
    ("anna region south", "value south 2", no_number("south")),
    ("user attribute age single domain years", "domain years 2", no_number("years", "domain")),
]

# The longest role file, 65,535 bytes: six, and 21,843 assignments of three.
LONGEST = "users anna\nroles desk\n" + 21 * ("desk held by" + 1000 * " anna" + "\n") + "desk held by" + 843 * " anna" + "\n"
TOO_LONG = "too long: a role file has at most 65535 bytes, and this line goes beyond"

# Whole sources, with the line of the fault.
WHOLE = [
    (b"users anna\nusers \xff\n", 2, "this line is not in UTF-8"),
    (b"users anna\r\n# \r\nusers anna\r\n", 3, "'anna' is already one of the users"),
    (b"users anna\r# \rusers anna\r", 3, "'anna' is already one of the users"),
    (b"# a\x0cb\nusers anna\x0cben\nusers anna", 3, "'anna' is already one of the users"),
    (LONGEST.encode() + b"desk held by anna\n", 25, TOO_LONG),
    (LONGEST.encode() + b"user attribute age single\n", 25, TOO_LONG),
]

# Sources of rule files.
RULES = [
    (b"21\n26 01 0\n2F\n", 2, "'0' is no byte in hexadecimal: each has two digits"),
    (b"21 26 01 00 # operation 0\n\n210\n", 3, "'210' is no byte in hexadecimal: each has two digits"),
    (b"0x21\n", 1, "'0x21' is no byte in hexadecimal: each has two digits"),
    (b"21 2G\n", 1, "'2G' is no byte in hexadecimal: each has two digits"),
    (b"21\n2F# the end\n", 2, "a comment begins with '#' behind a blank"),
]

# ---- what a role file says

# An attribute is its kind, and its domain where it was declared by 08.
SINGLE_KIND, SET_KIND = (0, None), (1, None)


def decoded(file):
    """What the bytes of a legal role file say: sizes, attributes of each side, values, assignments, permissions, and pairs of a
    senior and a junior."""
    assert len(file) <= 65535 and file[0] == 0x01 and file[-1] == 0x0F
    sizes, place = tuple(file[1:5]), 5
    attributes, values, held, may, above = ([], []), {}, set(), set(), set()
    while place < len(file) - 1:
        command = file[place]
        operands = file[place + 1 : place + 1 + {2: 2, 3: 5, 4: 11, 5: 2, 6: 3, 7: 2, 8: 3}[command]]
        place += 1 + len(operands)
        if command in (2, 8):
            assert not (values or held or may or above), "an attribute out of place"
            attributes[operands[0]].append((operands[1], operands[2] if command == 8 else None))
        elif command in (3, 4):
            side, attribute, who = operands[:3]
            number = int.from_bytes(operands[3:], "little")
            assert attributes[side][attribute][0] == command - 3 and who < sizes[side] and (side, attribute, who) not in values
            values[side, attribute, who] = number if command == 3 else {n for n in range(64) if number >> n & 1}
        elif command == 5:
            held.add((operands[0], operands[1]))
        elif command == 6:
            may.add((operands[0], operands[1], operands[2]))
        else:
            above.add((operands[1], operands[0]))
    assert place == len(file) - 1, "cut off"
    return sizes, attributes, values, held, may, above


# Sources with what they say.
GOOD = [
    ("", ((0, 0, 0, 0), ([], []), {}, set(), set(), set())),
    ("# nothing but a comment", ((0, 0, 0, 0), ([], []), {}, set(), set(), set())),
    (
        BEFORE,
        ((2, 2, 2, 2), ([SINGLE_KIND, SET_KIND], [SINGLE_KIND]), {}, set(), set(), set()),
    ),
    (
        BEFORE + "anna region north\neast region 65535 # a comment\nben region 0\nanna tariffs { 0 63 }\nben tariffs {}\nwest region 007\n",
        (
            (2, 2, 2, 2),
            ([SINGLE_KIND, SET_KIND], [SINGLE_KIND]),
            {(0, 0, 0): 1, (1, 0, 0): 65535, (0, 0, 1): 0, (0, 1, 0): {0, 63}, (0, 1, 1): set(), (1, 0, 1): 7},
            set(),
            set(),
            set(),
        ),
    ),
    # repeats change nothing
    (
        BEFORE + "desk held by anna ben anna\nlead may read reset on west\nlead may reset read on west west\nlead above desk\nlead above desk\n",
        (
            (2, 2, 2, 2),
            ([SINGLE_KIND, SET_KIND], [SINGLE_KIND]),
            {},
            {(0, 0), (0, 1)},
            {(1, 1, 0), (1, 1, 1)},
            {(1, 0)},
        ),
    ),
    # what is declared behind other statements, and a name on both sides or for two things that are never taken for each other
    (
        "users anna\nroles desk\ndesk held by anna\nusers ben\nuser attribute desk set\nvalue anna 9\nben desk {anna}\n"
        "resource attribute desk single\noperations desk anna\nresources east\neast desk anna\ndesk may anna on east\n",
        (
            (2, 1, 2, 1),
            ([SET_KIND], [SINGLE_KIND]),
            {(0, 0, 1): {9}, (1, 0, 0): 9},
            {(0, 0)},
            {(0, 0, 1)},
            set(),
        ),
    ),
    # domains by number and by name, and none; a domain may have the name of a value, of an attribute or of somebody
    (
        "user attribute a single domain 0\nuser attribute b set domain 255\nuser attribute c single\ndomain a 7\n"
        "resource attribute a single domain a\nusers a\nvalue a 9\na a a\ndomain b 007\nresource attribute b set domain b\n"
        "resource attribute c set\nresource attribute d single domain 0\na b { a }\n",
        (
            (1, 0, 0, 0),
            ([(0, 0), (1, 255), (0, None)], [(0, 7), (1, 7), (1, None), (0, 0)]),
            {(0, 0, 0): 9, (0, 1, 0): {9}},
            set(),
            set(),
            set(),
        ),
    ),
    # six attributes of a side with and without domains
    (
        "".join(f"resource attribute n{number} set{' domain 1' if number % 3 else ''}\n" for number in range(6)),
        ((0, 0, 0, 0), ([], [SET_KIND, (1, 1), (1, 1)] * 2), {}, set(), set(), set()),
    ),
    # one role by two ways below another
    (
        "roles a b c d\na above b c\nb above d\nc above d\na above d\n",
        ((0, 0, 0, 4), ([], []), {}, set(), set(), {(0, 1), (0, 2), (1, 3), (2, 3), (0, 3)}),
    ),
    # every sign of a name, a mark in front of the text, and other ends of lines
    (
        "\ufeffusers müller 2nd-line x@y\r\nresources ge-0/0/1:2 10.0.0.0/8\rroles C_3+\nC_3+ held by x@y",
        ((3, 2, 0, 1), ([], []), {}, {(0, 2)}, set(), set()),
    ),
    (
        LONGEST,
        ((1, 0, 0, 1), ([], []), {}, {(0, 0)}, set(), set()),
    ),
]


# ---- any policy, told by a source


def any_policy(below):
    """A policy with sizes up to the limits, by random numbers."""
    small = below(2)
    sizes = tuple(below(limit + 1) if not small else below(4) for limit in (64, 64, 16, 32))
    attributes = tuple([(below(2), [None, below(256)][below(2)]) for _ in range(below(7))] for _ in range(2))
    values = {}
    for side in (0, 1):
        for attribute, (kind, _) in enumerate(attributes[side]):
            for who in range(sizes[side]):
                if below(2):
                    values[side, attribute, who] = {below(64) for _ in range(below(5))} if kind else below(65536)
    users, resources, operations, roles = sizes
    held = {(below(roles), below(users)) for _ in range(below(80))} if roles and users else set()
    may = {(below(roles), below(resources), below(operations)) for _ in range(below(200))} if roles and resources and operations else set()
    pairs = {(below(roles), below(roles)) for _ in range(below(40))} if roles else set()
    return sizes, attributes, values, held, may, {(senior, junior) for senior, junior in pairs if senior > junior}


def source_of(policy, below):
    """A source that says this policy: declarations a few a line, then the statements in any order."""
    sizes, attributes, values, held, may, above = policy
    lines = []
    for kind, letter, size in zip(("users", "resources", "operations", "roles"), "urok", sizes):
        for first in range(0, size, 9):
            lines.append(f"{kind} " + " ".join(f"{letter}{number}" for number in range(first, min(first + 9, size))))
    for side, declared in zip(("user", "resource"), attributes):
        for attribute, (kind, domain) in enumerate(declared):
            # a domain by its number, or by a name for it
            said_of = "" if domain is None else f" domain {domain}" if below(2) else f" domain d{side}{attribute}"
            lines += [f"domain d{side}{attribute} {domain}"] if " domain d" in said_of else []
            lines.append(f"{side} attribute a{attribute} {('single', 'set')[kind]}{said_of}")
    said = []
    for (side, attribute, who), value in values.items():
        value = value if isinstance(value, int) else "{ " + "".join(f"{element} " for element in value) + "}"
        said.append(f"{'ur'[side]}{who} a{attribute} {value}")
    for role in range(sizes[3]):
        said += grouped(f"k{role} held by", [f"u{user}" for holder, user in held if holder == role])
        said += grouped(f"k{role} above", [f"k{junior}" for senior, junior in above if senior == role])
        for resource in range(sizes[1]):
            granted = [f"o{operation}" for one, other, operation in may if (one, other) == (role, resource)]
            said += [f"k{role} may {' '.join(granted)} on r{resource}"] if granted else []
    while said:
        lines.append(said.pop(below(len(said))))
    return "\n".join(lines)


def grouped(start, names):
    return [f"{start} {' '.join(names)}"] if names else []


# ---- the tests

failures = []


def expect(what, got, wanted):
    if got != wanted:
        failures.append(f"{what}\n    got    {got!r:.2000}\n    wanted {wanted!r:.2000}")


def loaded():
    spec = importlib.util.spec_from_file_location("make", MAKE)
    module = importlib.util.module_from_spec(spec)
    spec.loader.exec_module(module)
    return module


make = loaded()


def run(*arguments):
    """The exit status of make.py, and what it prints on standard output and standard error."""
    out, error = io.StringIO(), io.StringIO()
    with contextlib.redirect_stdout(out), contextlib.redirect_stderr(error):
        status = make.main(list(arguments))
    return status, out.getvalue(), error.getvalue()


def run_program(*arguments, before=""):
    """The same of a process of its own, that a shell starts behind the commands before."""
    command = ["sh", "-c", before + 'exec "$@"', "sh", sys.executable, "-B", MAKE, *arguments]
    done = subprocess.run(command, capture_output=True, text=True)
    return done.returncode, done.stdout, done.stderr


class Folder:
    """A folder by the contents of its files."""

    def __init__(self, path):
        self.path = path

    def at(self, name):
        return os.path.join(self.path, name)

    def fill(self, files):
        for name in os.listdir(self.path):
            os.remove(self.at(name))
        for name, contents in files.items():
            with open(self.at(name), "wb") as file:
                file.write(contents)

    def files(self):
        return {name: contents(self.at(name)) for name in os.listdir(self.path)}


def contents(path):
    with open(path, "rb") as file:
        return file.read()


def test_fault(folder, source, line, message, names=("case.txt", "case.roles"), made_by=run):
    """The message comes, and no file is written, whether there was one or not."""
    for files in ({names[0]: source}, {names[0]: source, names[1]: b"former"}):
        folder.fill(files)
        told = made_by(*map(folder.at, names))
        expect(f"{source[-200:]!r}", told, (1, "", f"{folder.at(names[0])}:{line}: {message}\n"))
        expect(f"files behind {source[-200:]!r}", folder.files(), files)


def test_faults(folder):
    rows = [(text, "desk held by anna", message) for text, message in FAULTS] + TOO_EARLY
    for text, behind, message in rows:
        source = f"{BEFORE}{text}\n{behind}\n"
        test_fault(folder, source.encode(), (BEFORE + text).count("\n") + 1, message)
    for source, line, message in WHOLE:
        test_fault(folder, source, line, message)
    for source, line, message in RULES:
        test_fault(folder, source, line, message, ("case.hex", "case.rules"))
    source = (BEFORE + "desk held anna ben\n").encode()
    test_fault(folder, source, 10, HELD, made_by=run_program)
    return len(rows) + len(WHOLE) + len(RULES)


def test_good(folder, source, said):
    """The file is made, and says what the source says."""
    folder.fill({"case.txt": source.encode()})
    expect(f"{source!r:.200}", run(folder.at("case.txt"), folder.at("case.roles")), (0, "", ""))
    expect(f"files behind {source!r:.200}", sorted(folder.files()), ["case.roles", "case.txt"])
    if "case.roles" in folder.files():
        expect(f"what {source!r:.200} says", decoded(folder.files()["case.roles"]), said)


def test_sources(folder):
    below = random_numbers(1)
    policies = [any_policy(below) for _ in range(100)] + [full_policy()]
    rows = GOOD + [(source_of(policy, below), policy) for policy in policies]
    for source, said in rows:
        test_good(folder, source, said)
    folder.fill({"case.hex": b"21 2601 # two bytes\n\n  ff 2F"})
    expect("a source of rules", run(folder.at("case.hex"), folder.at("case.rules")), (0, "", ""))
    expect("rules", folder.files().get("case.rules"), bytes.fromhex("21 26 01 FF 2F"))
    return len(rows) + 1


def full_policy():
    """All sizes at their limits, and the last of everything."""
    attributes = ([SET_KIND, *4 * [SINGLE_KIND], (1, 255)], 6 * [(0, 255)])
    values = {(0, 5, 63): set(range(64)), (1, 5, 63): 65535}
    return (64, 64, 16, 32), attributes, values, {(31, 63)}, {(31, 63, 15)}, {(role + 1, role) for role in range(31)}


def test_files(folder):
    """What else can go wrong with files: each gets a message, and a former file stays."""
    good, missing, place = BEFORE.encode(), folder.at("missing.txt"), folder.at("case.roles")
    made = {"case.txt": good, "case.roles": bytes.fromhex("01 02 02 02 02 02 00 00 02 00 01 02 01 00 0F")}

    folder.fill({"case.roles": b"former"})
    expect("no source", run(missing, place), (1, "", f"{missing}: No such file or directory\n"))
    expect("files behind no source", folder.files(), {"case.roles": b"former"})

    folder.fill({"case.txt": good})
    expect("a program", run_program(folder.at("case.txt"), place), (0, "", ""))
    expect("files of a program", folder.files(), made)

    former = {"case.txt": good, "case.roles": b"former"}
    folder.fill(former)
    full = run_program(folder.at("case.txt"), place, before="ulimit -f 0; ")
    expect("no room", full, (1, "", f"{place}: File too large\n"))
    expect("files behind no room", folder.files(), former)

    os.chmod(place, 0o400)
    expect("read-only", run(folder.at("case.txt"), place), (1, "", f"{place}: is read-only\n"))
    expect("files behind read-only", folder.files(), former)
    os.chmod(place, 0o640)
    with unittest.mock.patch("os.access", lambda path, mode: False):
        expect("somebody else's", run(folder.at("case.txt"), place), (1, "", f"{place}: is read-only\n"))
    expect("files behind somebody else's", folder.files(), former)
    with open(place, "rb") as reader:
        expect("a mode", run(folder.at("case.txt"), place), (0, "", ""))
        expect("what a reader has of the former file", reader.read(), b"former")
    expect("the mode behind", os.stat(place).st_mode & 0o777, 0o640)
    expect("files behind a mode", folder.files(), made)

    folder.fill({"case.txt": good, "other": b"former"})
    os.symlink("other", place)
    expect("a link", run(folder.at("case.txt"), place), (0, "", ""))
    expect("the link behind", os.readlink(place), "other")
    expect("files behind a link", folder.files(), {**made, "other": made["case.roles"]})

    folder.fill({"case.txt": good})
    os.mkdir(place)
    expect("a folder", run(folder.at("case.txt"), place), (1, "", f"{place}: is no plain file\n"))
    expect("what is in the folder", (os.listdir(place), sorted(os.listdir(folder.path))), ([], ["case.roles", "case.txt"]))
    os.rmdir(place)
    os.mkdir(missing)
    expect("a folder as source", run(missing, place), (1, "", f"{missing}: Is a directory\n"))
    os.rmdir(missing)
    expect("files behind a folder as source", folder.files(), {"case.txt": good})
    nowhere = os.path.join(missing, "case.roles")
    expect("no folder", run(folder.at("case.txt"), nowhere), (1, "", f"{nowhere}: No such file or directory\n"))

    folder.fill({"case.txt": good, "case.hex": b"2F"})
    for use in (["case.txt"], ["case.txt", "case.txt"], ["case.txt", "case.rules"], ["case.hex", "case.roles"], ["case.txt", "a.roles", "b.roles"]):
        expect(f"use {use}", run(*map(folder.at, use)), (1, "", make.USAGE + "\n"))
    expect("files behind wrong uses", folder.files(), {"case.txt": good, "case.hex": b"2F"})
    expect("an unknown option", run("--all"), (1, "", make.USAGE + "\n"))
    expect("help", run("--help"), (0, make.__doc__.strip() + "\n", ""))


def test_folder(folder):
    """All sources of a folder: one with a fault, and none is written; and what is stale is said."""
    os.mkdir(folder.at("samples"))
    os.makedirs(folder.at("crates/mine/data"))
    samples, data = Folder(folder.at("samples")), Folder(folder.at("crates/mine/data"))
    former, make.FOLDER = make.FOLDER, samples.path
    sources = {"a.txt": b"users anna", "b.hex": b"2F", "c.txt": b"users 5"}
    samples.fill(sources)
    message = f"{samples.at('c.txt')}:1: '5' is a number and no name\n"
    expect("a folder with a fault", run(), (1, "", message))
    expect("check with a fault", run("--check"), (1, "", message))
    expect("files behind a folder with a fault", samples.files(), sources)

    sources["c.txt"] = b""
    samples.fill(sources)
    expect("nothing made", run("--check"), (1, "".join(f"samples/{name} is stale\n" for name in ("a.roles", "b.rules", "c.roles")), ""))
    expect("files behind check", samples.files(), sources)
    expect("a folder", run(), (0, "", ""))
    made = {"a.roles": bytes([1, 1, 0, 0, 0, 15]), "b.rules": b"\x2f", "c.roles": bytes([1, 0, 0, 0, 0, 15])}
    expect("files of a folder", samples.files(), {**sources, **made})
    data.fill({"a.roles": made["a.roles"], "other": b""})
    expect("nothing stale", run("--check"), (0, "", ""))
    data.fill({"a.roles": b""})
    expect("a stale copy", run("--check"), (1, "crates/mine/data/a.roles is stale\n", ""))
    make.FOLDER = former


def test_samples():
    """The files of samples/ are what make.py makes of their sources, example A is 01's, and every rule file says its role file's shape."""
    expect("samples", run("--check"), (0, "", ""))
    sources = [name for name in os.listdir(SAMPLES) if name.endswith((".txt", ".hex"))]
    for name in sources:
        stem, ending = os.path.splitext(os.path.join(SAMPLES, name))
        expect(f"samples/{name}", make.made(stem + ending), contents(stem + {".txt": ".roles", ".hex": ".rules"}[ending]))
    expect("samples/example-a.roles", contents(os.path.join(SAMPLES, "example-a.roles")), EXAMPLE_A)
    stems = {ending: [name[: -len(ending)] for name in os.listdir(SAMPLES) if name.endswith(ending)] for ending in (".roles", ".rules")}
    for stem in stems[".rules"]:
        # provider-wide.rules is one of provider.roles
        role_file = max((name for name in stems[".roles"] if stem.startswith(name)), key=len)
        sizes, attributes, *_ = decoded(contents(os.path.join(SAMPLES, f"{role_file}.roles")))
        shape = bytes([0x20, *sizes, *map(len, attributes)])
        expect(f"the 20 of samples/{stem}.rules", contents(os.path.join(SAMPLES, f"{stem}.rules"))[: len(shape)], shape)


def test_readme(folder):
    """The source in README.md is good, and with the fault that is named there it gets the message that stands there."""
    with open(os.path.join(ROOT, "README.md"), encoding="utf-8") as file:
        readme = file.read()
    source = "# desk.txt" + readme.split("    # desk.txt")[1].split("\n\n")[0].replace("\n    ", "\n")
    said = (
        (3, 2, 2, 3),
        ([SET_KIND], [SINGLE_KIND]),
        {(0, 0, 0): {1}, (0, 0, 1): {2}, (0, 0, 2): {1, 2}, (1, 0, 0): 1, (1, 0, 1): 2},
        {(0, 0), (1, 1), (2, 2)},
        {(0, 0, 0), (0, 0, 1), (1, 1, 0), (1, 1, 1)},
        {(2, 0), (2, 1)},
    )
    test_good(folder, source, said)
    folder.fill({"desk.txt": source.replace("west-desk held by ben", "west-desk held ben").encode()})
    message = run(folder.at("desk.txt"), folder.at("desk.roles"))[2].strip()
    expect("the message in README.md", f"`{os.path.relpath(message, folder.path)}` for `west-desk held ben`" in readme, True)


def main():
    target = os.path.join(ROOT, "target")
    os.makedirs(target, exist_ok=True)
    with tempfile.TemporaryDirectory(dir=target) as path, tempfile.TemporaryDirectory(dir=target) as other:
        folder = Folder(path)
        faults, sources = test_faults(folder), test_sources(folder)
        test_files(folder)
        test_readme(folder)
        test_folder(Folder(other))
    test_samples()
    for failure in failures:
        print(failure)
    if failures:
        return 1
    print(f"samples: {faults} faults of sources get their messages, {sources} sources make the files that they say")
    return 0


if __name__ == "__main__":
    sys.exit(main())
