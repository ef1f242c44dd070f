"""Reads antt by text: the imports and items of a file of `specs/`, and which names a piece of text cites.

Names that a text binds itself (by a signature, a pattern, `λ`, `let`, `where`, a `module` line) are told from names
that it cites. No types are read: a field `.f` is not followed, since the type that has it stands in a signature that
is. What cannot be read is said and never passed over.
"""
import re
from collections import namedtuple

Token = namedtuple("Token", "text line start end")
Group = namedtuple("Group", "text line nodes")
Import = namedtuple("Import", "name path original line")

RESERVED = set(
    "data record deriving module where use mod pub package using open as unfoldable abbrev axiom unfold unfolding"
    " ruleset mutual infix infixl infixr elim let in do λ ∀ Type 𝕀 = : → × ↦ ← | [ ] ( ) { } . , ; @ ? _ ⊔".split()
)
NOT_READ = {"do", "open", "mutual", "deriving", "ruleset", "∀", "@", "axiom"}
MARKS = ("unfoldable", "abbrev", "pub", "axiom")
NUMERAL = re.compile(r"(0x[0-9A-Fa-f_]+|0b[01_]+|0o[0-7_]+|[0-9][0-9_]*)$")
COMMENT = re.compile(r'"(?:\\.|[^"\\])*"|\{-.*?-\}|(?<![^\s(){}.;,@])--[^\n]*', re.S)
TOKEN = re.compile(r'"(?:\\.|[^"\\])*"|«[^»]*»|[(){};,@.]|[^\s(){}.;,@"«»]+')
SIGNATURE = re.compile(r"\s*((?:(?:unfoldable|abbrev|pub|axiom)\s+)*)([^\s(){}.;,@\"«»]+)\s*(\{[^}:]*\})?\s*:(?=\s|$)")
USE = re.compile(r"\s*(pub\s+)?use\s+(.*)", re.S)
MODULE = re.compile(r"[^\s{}*]+\s*$")


class NotRead(Exception):
    """A form of text that is not read here."""


# ---- text


def without_comments(text):
    """The text with comments blanked, every offset kept."""

    def blank(found):
        part = found.group()
        return part if part.startswith('"') else re.sub(r"[^\n]", " ", part)

    return COMMENT.sub(blank, text)


def code_lines(text):
    """The numbered lines that are neither blank nor comments."""
    rows = enumerate(without_comments(text).split("\n"), 1)
    return [(number, row.rstrip()) for number, row in rows if row.strip()]


def first_comment(text, mark):
    """The comment at the head of a file, as one line."""
    rows = []
    for row in text.split("\n"):
        if not row.startswith(mark) or row[len(mark) :].strip() in ("", "Assumes nothing."):
            break
        rows.append(row[len(mark) :].strip())
    return " ".join(rows)


def indent(row):
    return len(row) - len(row.lstrip())


def declarations(rows):
    """Rows cut where one stands at the first one's column; what is indented deeper, or closes a bracket, goes on."""
    found = []
    for number, row in rows:
        if not found or (indent(row) <= indent(rows[0][1]) and row.lstrip()[0] not in ")}]"):
            found.append([])
        found[-1].append((number, row))
    return found


def joined(rows):
    return "\n".join(row for number, row in rows)


# ---- tokens and brackets


def tokens(rows):
    found = []
    for number, row in rows:
        for match in TOKEN.finditer(row):
            text = match.group()
            text = text[1:-1] if text.startswith("«") else text
            found.append(Token(text, number, match.start(), match.end()))
    return found


def touch(left, right):
    return left.line == right.line and left.end == right.start


def is_word(token):
    return token.text not in tuple("(){};,@.")


def without_fields(found):
    """Tokens with every field behind a bracket left out, and with paths made one token: `(a).f` is `(a)`, `a.b` one name."""
    kept = []
    i = 0
    while i < len(found):
        token = found[i]
        following = found[i + 1] if i + 1 < len(found) else None
        if token.text != "." or following is None or not touch(token, following) or not is_word(following):
            kept.append(token)
            i += 1
            continue
        if kept and is_word(kept[-1]) and touch(found[i - 1], token):
            last = kept.pop()
            kept.append(Token(last.text + "." + following.text, last.line, last.start, following.end))
        i += 2
    return kept


def tree(found):
    """Tokens with brackets made groups."""
    closing = {"(": ")", "{": "}", "[": "]"}
    stack = [Group("", 0, [])]
    for token in found:
        if token.text in closing:
            stack.append(Group(token.text, token.line, []))
        elif token.text in closing.values():
            if closing.get(stack[-1].text) != token.text:
                raise NotRead("brackets that do not match")
            group = stack.pop()
            stack[-1].nodes.append(group)
        else:
            stack[-1].nodes.append(token)
    if len(stack) != 1:
        raise NotRead("brackets that do not match")
    return stack[0].nodes


def nodes_of(rows):
    return tree(without_fields(tokens(rows)))


def is_token(node, text):
    return isinstance(node, Token) and node.text == text


def index(nodes, text, start=0):
    for i in range(start, len(nodes)):
        if is_token(nodes[i], text):
            return i
    return None


def split(nodes, separators):
    parts = [[]]
    for node in nodes:
        if isinstance(node, Token) and node.text in separators:
            parts.append([])
        else:
            parts[-1].append(node)
    return [part for part in parts if part]


def is_name(node):
    if not isinstance(node, Token) or node.text in RESERVED:
        return False
    return not NUMERAL.match(node.text) and not node.text.startswith('"')


def operator_parts(name):
    return [part for part in name.split("◌") if part] if "◌" in name else []


def binder(group):
    """Where the colon of `(x y : A)` stands; none in another group."""
    colon = index(group.nodes, ":")
    if colon is None or not all(is_name(node) or is_token(node, "_") for node in group.nodes[:colon]):
        return None
    return colon


def matching_in(nodes, start):
    depth = 0
    for i in range(start, len(nodes)):
        if is_token(nodes[i], "let") or is_token(nodes[i], "unfold"):
            depth += 1
        elif is_token(nodes[i], "in"):
            depth -= 1
            if depth == 0:
                return i
    raise NotRead("`let` without `in`")


# ---- items and imports of a file


class Item:
    """A definition, type or law: kind is abbrev, unfoldable, data, record or law."""

    def __init__(self, kind, name, line, heads):
        self.kind = kind
        self.name = name
        self.line = line
        self.heads = heads
        self.declarations = []
        self.constructors = []

    def rows(self):
        return [row for declaration in self.declarations for row in declaration]

    def names(self):
        """Its name and those of its constructors, with their lines."""
        return [(self.name, self.line)] + self.constructors


class File:
    """The imports and items of one antt file, and what of it was not read."""

    def __init__(self, text):
        self.comment = first_comment(text, "--")
        self.imports = []
        self.modules = {}
        self.items = []
        self.fixities = []
        self.not_read = []
        self.read(code_lines(text), ())

    def read(self, rows, heads):
        item = None
        for declaration in declarations(rows) if rows else []:
            item = self.declaration(declaration, heads, item)

    def declaration(self, rows, heads, item):
        """Reads one declaration; returns the item that clauses below it belong to."""
        line, first = rows[0]
        words = [word for word in first.split() if word not in MARKS] or [""]
        if words[0] in ("mod", "unfolding") or words[0].startswith("infix"):
            if words[0] == "unfolding" and item:
                item.declarations.append(rows)
            if words[0].startswith("infix"):
                self.fixities.append((line, words[-1]))
        elif words[0] == "use":
            self.use(USE.match(joined(rows)).group(2), line)
        elif words[0] == "module":
            self.module(rows, heads)
            return None
        elif words[0] in ("data", "record"):
            return self.add(words[0], words[1], rows, heads)
        elif words[0] in NOT_READ or "axiom" in first.split()[:1]:
            self.not_read.append((line, first.split()[0]))
        else:
            return self.clause_or_signature(rows, heads, item)
        return item

    def use(self, text, line):
        """`use PATH` brings a module, through whose name its items are written; `use PATH.{..}` brings these."""
        if MODULE.match(text):
            self.modules[text.split()[0].split(".")[-1]] = text.split()[0]
        else:
            self.imports += imports_in(text, line, self.not_read)

    def module(self, rows, heads):
        end = next((i for i, (number, row) in enumerate(rows) if row.split()[-1] == "where"), None)
        if end is None:
            self.not_read.append((rows[0][0], "module"))
        else:
            self.read(rows[end + 1 :], heads + (tuple(rows[: end + 1]),))

    def clause_or_signature(self, rows, heads, item):
        signature = SIGNATURE.match(joined(rows))
        if signature:
            marks = signature.group(1).split()
            kind = "abbrev" if "abbrev" in marks else "unfoldable" if "unfoldable" in marks else "law"
            return self.add(kind, signature.group(2), rows, heads)
        if item is None:
            self.not_read.append((rows[0][0], rows[0][1].split()[0]))
        else:
            item.declarations.append(rows)
        return item

    def add(self, kind, name, rows, heads):
        item = Item(kind, name, rows[0][0], heads)
        item.declarations.append(rows)
        if kind == "data":
            item.constructors = [named for part in body(rows) for named in names_declared(part)]
        self.items.append(item)
        return item


def body(rows):
    """The declarations under the `where` of a data type or record."""
    end = next((i for i, (number, row) in enumerate(rows) if row.split()[-1] == "where"), len(rows))
    return declarations(rows[end + 1 :]) if rows[end + 1 :] else []


def names_declared(rows):
    """The names in front of a constructor's colon, with their line."""
    words = joined(rows).split()
    return [(word, rows[0][0]) for word in words[: words.index(":")]] if ":" in words else []


def imports_in(text, line, not_read):
    """What `PATH.{a, b as c}` brings."""
    match = re.match(r"([^\s{}]+)\.\{([^{}]*)\}\s*$", text, re.S)
    if not match:
        not_read.append((line, "use " + text.split()[0]))
        return []
    found = []
    for entry in match.group(2).split(","):
        words = entry.split()
        if len(words) == 3 and words[1] == "as":
            found.append(Import(words[2], match.group(1), words[0], line))
        elif len(words) == 1 and "." not in words[0]:
            found.append(Import(words[0], match.group(1), words[0], line))
        elif words:
            not_read.append((line, entry.strip()))
    return found


# ---- what a text cites


class Scope:
    """The names that a file brings or declares: each with what it stands for."""

    def __init__(self):
        self.targets = {}
        self.constructors = set()
        self.modules = {}

    def add(self, name, target, constructor=False):
        for spelling in [name] + operator_parts(name):
            self.targets.setdefault(spelling, []).append(target)
            if constructor:
                self.constructors.add(spelling)

    def find(self, text):
        if text in self.targets:
            return self.targets[text]
        if "◌" in text and text.strip("◌") in self.targets:
            return self.targets[text.strip("◌")]
        return self.targets.get(text.split(".")[0], [])


class Citations:
    """Walks through a text: what it cites, with the line of the first mention; what it binds; what stands in the file's
    scope where a bound name of that spelling is meant; names not found."""

    def __init__(self, scope, whole_path=lambda text: None):
        self.scope = scope
        self.whole_path = whole_path
        self.cited = {}
        self.bound = []
        self.hiding = []
        self.unknown = []

    # names

    def cite(self, token):
        module, dot, name = token.text.rpartition(".")
        if module in self.scope.modules:
            targets = self.whole_path(self.scope.modules[module] + "." + name)
        else:
            targets = self.scope.find(token.text) or self.whole_path(token.text)
        for target in targets or []:
            self.cited.setdefault(target, token.line)
        if not targets:
            self.unknown.append((token.text, token.line))

    def name(self, token, bound):
        if token.text in NOT_READ:
            raise NotRead("`%s`" % token.text)
        if not is_name(token):
            return
        if {token.text, token.text.split(".")[0], token.text.strip("◌")} & bound:
            self.hiding += [(target, token.line) for target in self.scope.find(token.text)]
        else:
            self.cite(token)

    def bind(self, nodes, bound):
        for node in nodes:
            if is_name(node):
                self.bound.append((node.text, node.line))
                bound = bound | {node.text} | set(operator_parts(node.text))
        return bound

    # terms

    def term(self, nodes, bound):
        for part in split(nodes, (",", ";", "|")):
            self.part(part, bound)

    def part(self, nodes, bound):
        arrow = index(nodes, "↦")
        if arrow is not None:
            bound = self.pattern(nodes[:arrow], bound)
            nodes = nodes[arrow + 1 :]
        i = 0
        while i < len(nodes):
            i, bound = self.step(nodes, i, bound)
        return bound

    def step(self, nodes, i, bound):
        """Reads what begins at node i; returns where to go on and what is bound from there."""
        node = nodes[i]
        if isinstance(node, Group):
            return i + 1, self.group(node, i > 0 and is_token(nodes[i - 1], "record"), bound)
        if node.text == "λ":
            dot = index(nodes, ".", i)
            if dot is None:
                raise NotRead("`λ` without a dot")
            return dot + 1, self.binders(nodes[i + 1 : dot], bound)
        if node.text == "let":
            return self.let(nodes, i, bound)
        self.name(node, bound)
        return i + 1, bound

    def group(self, group, is_record, bound):
        colon = binder(group)
        equals = index(group.nodes, "=")
        if is_record:
            self.record(group, bound)
        elif colon is not None:
            self.term(group.nodes[colon + 1 :], bound)
            return self.bind(group.nodes[:colon], bound)
        elif group.text == "{" and equals is not None:
            self.term(group.nodes[equals + 1 :], bound)
        else:
            self.term(group.nodes, bound)
        return bound

    def record(self, group, bound):
        for part in split(group.nodes, (";",)):
            if len(part) < 2 or not (is_token(part[1], "=") or is_token(part[1], ":")):
                raise NotRead("a record's field")
            self.term(part[2:], bound)
            if part[1].text == ":":
                bound = self.bind(part[:1], bound)

    def let(self, nodes, i, bound):
        end = matching_in(nodes, i)
        equals = index(nodes, "=", i)
        if equals is None or equals > end:
            raise NotRead("`let` without `=`")
        colon = index(nodes[:equals], ":", i)
        left = nodes[i + 1 : equals if colon is None else colon]
        if colon is not None:
            self.term(nodes[colon + 1 : equals], bound)
        self.term(nodes[equals + 1 : end], bound)
        return end + 1, self.binders(left, bound)

    # patterns

    def binders(self, nodes, bound):
        """Behind `λ` and `let` a plain name is bound, whatever it is elsewhere."""
        for i, node in enumerate(nodes):
            bound = self.bind([node], bound) if isinstance(node, Token) else self.pattern([node], bound)
        return bound

    def pattern(self, nodes, bound):
        for node in nodes:
            if isinstance(node, Group):
                bound = self.group_pattern(node, bound)
            elif is_name(node) and ("." in node.text or node.text in self.scope.constructors):
                self.cite(node)
            else:
                bound = self.bind([node], bound)
        return bound

    def group_pattern(self, group, bound):
        colon = binder(group)
        if colon is not None:
            self.term(group.nodes[colon + 1 :], bound)
            return self.bind(group.nodes[:colon], bound)
        for part in split(group.nodes, (",", ";")):
            equals = index(part, "=")
            bound = self.pattern(part if equals is None else part[equals + 1 :], bound)
        return bound

    # declarations

    def heads(self, item):
        """The parameters of the `module` lines that an item stands under."""
        bound = frozenset()
        for head in item.heads:
            bound = self.telescope(nodes_of(head)[2:], bound)
        return bound

    def telescope(self, nodes, bound):
        """Binders one after the other; a group without a colon binds levels."""
        for node in nodes:
            if isinstance(node, Group) and binder(node) is None:
                bound = self.bind(node.nodes, bound)
            elif isinstance(node, Group):
                bound = self.group(node, False, bound)
        return bound

    def item(self, item):
        bound = self.heads(item)
        if item.kind in ("data", "record"):
            self.type(item, bound)
        else:
            self.function(item.declarations, bound)

    def type(self, item, bound):
        rows = item.declarations[0]
        head = nodes_of(rows[: next(i for i, (number, row) in enumerate(rows) if row.split()[-1] == "where") + 1])
        start = next(i for i, node in enumerate(head) if is_token(node, item.name))
        bound = bound | {item.name}
        colon = index(head, ":")
        inner = self.telescope(head[start + 1 : colon], bound)
        self.part(head[colon + 1 : -1], inner)
        for part in body(rows):
            inner = self.member(nodes_of(part), item.kind == "record", inner)

    def member(self, nodes, is_field, bound):
        """A constructor, or a field, which those below it may name."""
        colon = index(nodes, ":")
        if colon is None:
            raise NotRead("a member without a type")
        self.part(nodes[colon + 1 :], bound)
        return self.bind([node for node in nodes[:colon]], bound) if is_field else bound

    def function(self, parts, bound):
        """A signature and the clauses below it."""
        nodes = nodes_of(parts[0])
        colon = index(nodes, ":")
        start = next(i for i, node in enumerate(nodes) if is_name(node))
        name = nodes[start].text
        bound = bound | {name} | set(operator_parts(name))
        self.part(nodes[colon + 1 :], self.telescope(nodes[start + 1 : colon], bound))
        levels = self.telescope(nodes[start + 1 : colon], bound)
        for rows in parts[1:]:
            self.clause(rows, levels)

    def clause(self, rows, bound):
        nodes = nodes_of(rows)
        if is_token(nodes[0], "unfolding"):
            return
        where = index(nodes, "where")
        equals = index(nodes, "=")
        if equals is None or (where is not None and where < equals):
            raise NotRead("a clause without `=`")
        own = {node.text for node in nodes[:equals] if is_name(node) and node.text in bound}
        left = [node for node in nodes[:equals] if not (isinstance(node, Token) and node.text in own)]
        inner = self.pattern(left, bound)
        if where is None:
            self.part(nodes[equals + 1 :], inner)
        else:
            self.part(nodes[equals + 1 : where], self.helpers(rows, nodes[where], inner))

    def helpers(self, rows, where, bound):
        """The definitions under a clause's `where`; returns what is bound with their names."""
        below = [(number, row) for number, row in rows if number > where.line]
        parts = []
        for part in declarations(below) if below else []:
            signature = SIGNATURE.match(joined(part))
            if signature:
                bound = bound | {signature.group(2)} | set(operator_parts(signature.group(2)))
                parts.append([part])
            elif parts:
                parts[-1].append(part)
            else:
                raise NotRead("a `where` without a signature")
        for part in parts:
            self.function(part, bound)
        return bound
