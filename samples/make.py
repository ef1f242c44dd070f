#!/usr/bin/env python3
"""Makes role files and rule files from sources that people can read.

usage: make.py                        NAME.roles for every NAME.txt of this folder, and NAME.rules for every NAME.hex
       make.py --check                write nothing; say which of these, and of the copies that programs are run on, are stale
       make.py SOURCE.txt OUT.roles   one role file
       make.py SOURCE.hex OUT.rules   one rule file

A source makes exactly what it says; or there is a message, FILE:LINE: and what is wrong, no file, and the exit status 1.

In every source '#' begins a comment. A source of a rule file has its bytes in hexadecimal, the 20 that opens it among them. A
source of a role file has one statement a line. Users, resources, operations, roles and attributes are named, and numbered from
0 in the order in which they are named:

    users NAME ...            resources NAME ...        operations NAME ...       roles NAME ...
    user attribute NAME single|set [domain DOMAIN]      resource attribute NAME single|set [domain DOMAIN]
    domain NAME NUMBER        a name for a domain, a number from 0 to 255
    value NAME NUMBER         a name for a number, for use as a value or an element
    USER ATTRIBUTE VALUE      a value of a user or a resource; of a set attribute: { ELEMENT ... }
    ROLE held by USER ...     assignments
    ROLE may OPERATION ... on RESOURCE ...              permissions
    ROLE above ROLE ...       the first role is senior to the others

A name is declared above its use. It is made of letters, digits and . : / @ _ + - and is no number and none of the words in
small letters above. Statements begin with users, resources and roles, so none of these has the name of another.

Values of all attributes are numbers, and a rule may ask that a user's attribute equals a resource's, or contains it, but only if
both have the same domain. So attributes whose numbers have nothing to do with each other, as region 7 and model 7, get different
domains. An attribute with a domain is declared by command 08, one without by 02, which means domain 0.

The commands are written in the order of the statements, behind the sizes and the attributes.
"""

import collections
import os
import re
import shutil
import sys

FOLDER = os.path.dirname(os.path.abspath(__file__))
USAGE = __doc__.split("\n\n")[1]

# The limits of a role file.
MOST = {"users": 64, "resources": 64, "operations": 16, "roles": 32}
MOST_ATTRIBUTES = 6
LAST_VALUE = 65535
LAST_ELEMENT = 63
LAST_DOMAIN = 255
MOST_BYTES = 65535

SIDES = ["user", "resource"]
KINDS = ["single", "set"]
BEGINNERS = ["users", "resources", "roles"]
# What else may be named, with its last number.
NAMED = {"value": LAST_VALUE, "domain": LAST_DOMAIN}
KEYWORDS = {*MOST, *SIDES, *KINDS, *NAMED, "attribute", "held", "by", "may", "on", "above"}
NAME = re.compile(r"[\w.:/@+-]+")
NUMBER = re.compile(r"[+-]?\d+")
HEXADECIMAL = re.compile(r"([0-9A-Fa-f]{2})+")


class Fault(Exception):
    """What is wrong with a source or a file."""


def need(condition, message):
    if not condition:
        raise Fault(message)


def need_form(condition, form):
    need(condition, f"a line of this kind reads: {form}")


def need_name(name):
    need(NAME.fullmatch(name), f"{name!r} is no name: names are made of letters, digits and . : / @ _ + -")
    need(not NUMBER.fullmatch(name), f"{name!r} is a number and no name")
    need(name not in KEYWORDS, f"{name!r} is a keyword and no name")


class Roles:
    """The role file that the statements so far make. There is a function for each kind of statement; it returns its commands."""

    def __init__(self):
        self.numbers = {kind: {} for kind in MOST}
        self.attributes = {side: {} for side in SIDES}
        self.named = {what: {} for what in NAMED}
        self.given = set()
        self.below = collections.defaultdict(set)
        self.commands = b""

    def take(self, words):
        self.commands += self.statement(words[0], words[1:])
        need(len(self.made()) <= MOST_BYTES, f"too long: a role file has at most {MOST_BYTES} bytes, and this line goes beyond")

    def made(self):
        sizes = bytes([0x01] + [len(self.numbers[kind]) for kind in MOST])
        declared = [command for side in SIDES for _, _, command in self.attributes[side].values()]
        return sizes + b"".join(declared) + self.commands + bytes([0x0F])

    def statement(self, first, words):
        if first in MOST:
            return self.declare(first, words)
        if first in SIDES:
            return self.declare_attribute(first, words)
        if first in NAMED:
            return self.name_number(first, words)
        if first in self.numbers["roles"]:
            return self.say_of_role(first, words)
        for side in SIDES:
            if first in self.numbers[side + "s"]:
                return self.give(side, first, words)
        raise Fault(f"{first!r} begins no statement, and is no user, resource or role declared above")

    # ---- declarations: their commands stand before all others

    def declare(self, kind, names):
        need_form(names, f"{kind} NAME ...")
        for name in names:
            need_name(name)
            for other in BEGINNERS if kind in BEGINNERS else [kind]:
                need(name not in self.numbers[other], f"{name!r} is already one of the {other}")
            self.numbers[kind][name] = len(self.numbers[kind])
        need(len(self.numbers[kind]) <= MOST[kind], f"too many {kind}: a role file has at most {MOST[kind]}")
        return b""

    def declare_attribute(self, side, words):
        form = f"{side} attribute NAME single|set [domain DOMAIN]"
        need_form(len(words) in (3, 5) and words[0] == "attribute" and words[2] in KINDS and words[3:4] in ([], ["domain"]), form)
        declared, name, kind = self.attributes[side], words[1], KINDS.index(words[2])
        need_name(name)
        need(name not in declared, f"{name!r} is already a {side} attribute")
        domain = [self.number(word, "domain", "a domain", LAST_DOMAIN) for word in words[4:]]
        declared[name] = len(declared), kind, bytes([0x08 if domain else 0x02, SIDES.index(side), kind, *domain])
        need(len(declared) <= MOST_ATTRIBUTES, f"too many {side} attributes: a role file has at most {MOST_ATTRIBUTES} a side")
        return b""

    def name_number(self, what, words):
        need_form(len(words) == 2 and NUMBER.fullmatch(words[1]), f"{what} NAME NUMBER")
        name, number = words
        need_name(name)
        need(name not in self.named[what], f"{name!r} is already the name of a {what}")
        self.named[what][name] = self.number(number, what, f"a {what}", NAMED[what])
        return b""

    # ---- values

    def give(self, side, who, words):
        need_form(len(words) > 1, f"{side.upper()} ATTRIBUTE VALUE")
        name = words[0]
        need(name in self.attributes[side], f"{name!r} is no {side} attribute declared above")
        need((who, name) not in self.given, f"{who!r} already has a value of {name!r}")
        self.given.add((who, name))
        attribute, kind, _ = self.attributes[side][name]
        value = [self.single, self.set][kind](name, words[1:])
        return bytes([0x03 + kind, SIDES.index(side), attribute, self.numbers[side + "s"][who]]) + value

    def single(self, name, words):
        need(len(words) == 1, f"{name!r} is single and takes one value")
        return self.number(words[0], "value", "a value", LAST_VALUE).to_bytes(2, "little")

    def set(self, name, words):
        need(words[0] == "{" and words[-1] == "}", f"{name!r} is a set and takes {{ ELEMENT ... }}")
        elements = {self.number(word, "value", "an element", LAST_ELEMENT) for word in words[1:-1]}
        return sum(1 << element for element in elements).to_bytes(8, "little")

    def number(self, word, named, what, last):
        """What a word stands for: a number, or the name of a value or domain."""
        names = self.named[named]
        need(word in names or NUMBER.fullmatch(word), f"{word!r} is no number, and no {named} named above")
        # Python takes no number of thousands of digits; -1 is as far beyond the limit.
        number = names[word] if word in names else int(word) if len(word) < 100 else -1
        need(0 <= number <= last, f"{word!r} is beyond the limit: {what} is a number from 0 to {last}")
        return number

    # ---- roles

    def say_of_role(self, name, words):
        verbs = {"held": self.held, "may": self.may, "above": self.above}
        need(words and words[0] in verbs, f"behind the role {name!r} stands held by, may or above")
        return verbs[words[0]](self.numbers["roles"][name], words[1:])

    def held(self, role, words):
        need_form(len(words) > 1 and words[0] == "by", "ROLE held by USER ...")
        users = self.numbers_of("users", words[1:])
        return b"".join(bytes([0x05, role, user]) for user in users)

    def may(self, role, words):
        need_form(words.count("on") == 1 and words[0] != "on" and words[-1] != "on", "ROLE may OPERATION ... on RESOURCE ...")
        on = words.index("on")
        operations, resources = self.numbers_of("operations", words[:on]), self.numbers_of("resources", words[on + 1 :])
        return b"".join(bytes([0x06, role, resource, operation]) for resource in resources for operation in operations)

    def above(self, senior, words):
        need_form(words, "ROLE above ROLE ...")
        juniors = self.numbers_of("roles", words)
        for name, junior in zip(words, juniors):
            lower = {junior} | self.below[junior]
            need(senior not in lower, f"a role would be its own senior: {name!r} is this role or above it")
            for role in self.numbers["roles"].values():
                if role == senior or senior in self.below[role]:
                    self.below[role] |= lower
        return b"".join(bytes([0x07, junior, senior]) for junior in juniors)

    def numbers_of(self, kind, names):
        for name in names:
            need(name in self.numbers[kind], f"{name!r} is none of the {kind} declared above")
        return [self.numbers[kind][name] for name in names]


class Rules:
    """The rule file that the bytes so far are."""

    def __init__(self):
        self.bytes = b""

    def take(self, words):
        for word in words:
            need(HEXADECIMAL.fullmatch(word), f"{word!r} is no byte in hexadecimal: each has two digits")
        self.bytes += bytes.fromhex("".join(words))

    def made(self):
        return self.bytes


MAKERS = {".txt": Roles, ".hex": Rules}
MAKES = {".txt": ".roles", ".hex": ".rules"}


def ending(path):
    return os.path.splitext(path)[1]


def read(path):
    try:
        with open(path, "rb") as file:
            return file.read()
    except OSError as error:
        raise Fault(f"{path}: {error.strerror}") from None


def words_of(line):
    """The words of a line before its comment; braces are words of their own."""
    try:
        said, mark, _ = line.decode("utf-8-sig").partition("#")
    except UnicodeDecodeError:
        raise Fault("this line is not in UTF-8") from None
    need(not mark or not said or said[-1].isspace(), "a comment begins with '#' behind a blank")
    return said.replace("{", " { ").replace("}", " } ").split()


def made(path):
    """The bytes that a source makes."""
    maker = MAKERS[ending(path)]()
    for number, line in enumerate(re.split(b"\r\n|\r|\n", read(path)), 1):
        try:
            words = words_of(line)
            if words:
                maker.take(words)
        except Fault as fault:
            raise Fault(f"{path}:{number}: {fault}") from None
    return maker.made()


def write(path, contents):
    """Puts a whole file in its place at once, so that an error leaves a former one as it was. Links and modes stay."""
    target = os.path.realpath(path)
    former = os.path.exists(target)
    need(not former or os.path.isfile(target), f"{path}: is no plain file")
    need(not former or os.access(target, os.W_OK) and os.stat(target).st_mode & 0o200, f"{path}: is read-only")
    fresh = f"{target}.{os.getpid()}.new"
    try:
        with open(fresh, "xb") as file:
            file.write(contents)
        if former:
            shutil.copymode(target, fresh)
        os.replace(fresh, target)
    except OSError as error:
        raise Fault(f"{path}: {error.strerror}") from None
    finally:
        if os.path.exists(fresh):
            os.remove(fresh)


def outputs():
    """The sources of this folder with the files that they make."""
    for name in sorted(os.listdir(FOLDER)):
        source = os.path.join(FOLDER, name)
        if ending(name) in MAKES:
            yield source, os.path.splitext(source)[0] + MAKES[ending(name)]


def copies():
    """The samples that programs are run on, with the copies that stand beside those programs."""
    crates = os.path.join(os.path.dirname(FOLDER), "crates")
    for crate in sorted(os.listdir(crates)):
        data = os.path.join(crates, crate, "data")
        for name in sorted(os.listdir(data)) if os.path.isdir(data) else []:
            if os.path.exists(os.path.join(FOLDER, name)):
                yield os.path.join(FOLDER, name), os.path.join(data, name)


def check():
    """Whether all bytes are those of their sources."""
    pairs = [(output, made(source)) for source, output in outputs()]
    pairs += [(copy, read(sample)) for sample, copy in copies()]
    stale = [path for path, wanted in pairs if not os.path.exists(path) or read(path) != wanted]
    for path in stale:
        print(os.path.relpath(path, os.path.dirname(FOLDER)), "is stale")
    return not stale


def make(pairs):
    """Writes the files of all these sources, if all are good."""
    for path, contents in [(output, made(source)) for source, output in pairs]:
        write(path, contents)


def main(arguments):
    """The exit status."""
    try:
        if arguments == ["--check"]:
            return 0 if check() else 1
        if arguments == ["--help"]:
            print(__doc__.strip())
        elif not arguments:
            make(outputs())
        else:
            need(tuple(map(ending, arguments)) in MAKES.items(), USAGE)
            make([arguments])
        return 0
    except Fault as fault:
        print(fault, file=sys.stderr)
        return 1


if __name__ == "__main__":
    sys.exit(main(sys.argv[1:]))
