"""Reads Rattle code by text: functions with their contracts, types, and what `use` and `ghost use` bring."""
import re

import antt

FUNCTION = re.compile(r'(?m)^[ \t]*(pub(?:\([^)]*\))?\s+)?(extern\s+"C"\s+)?fn\s+(\w+)')
RESULT = re.compile(r"\s*->(?:[^\[{;]|\[[^\]]*\])*?(?=\s*(?:\brequires\b|\bensures\b|\bghost\b|\{|;))")
CLAUSE = re.compile(r"\s*(?:requires|ensures|ghost)\b\*?\s*\w*:?\s*(?=\{)")
TYPE = re.compile(r"(?m)^[ \t]*(?:pub\s+)?(struct|enum|type|const|trait)\s+(?!fn\b)(\w+)")
MEMBER = re.compile(r"(?m)^[ \t]*ghost\s+(\w+)\s*[:=]\s*(?=\{)")
IMPL = re.compile(r"\bimpl\b(?:\s*<[^{}]*?>)?\s+((?:\w+::)*)(\w+)[^{}]*?\sfor\b")
GENERIC = re.compile(r"(?:const\s+)?(\b[A-Z]\w*)\s*(?=[:,>])")
USE = re.compile(r"(?m)^[ \t]*(?:pub\s+)?use\s+(\w+)::([^;]*);")
USED = re.compile(r"(\w+)(\s+as\s+\w+)?\s*(?=[,}]|$)")
GHOST_USE = re.compile(r"\bghost\s+use\s+([^;]*);")
STATEMENT = re.compile(r"\b(?:requires|ensures|invariant|measure)\b\*?\s*\w*\s*\{|\bghost\b(?!\s+use\b)")
BLANK = re.compile(r"""extern\s+"C"|//[^\n]*|/\*.*?\*/|b?"(?:\\.|[^"\\])*"|b?'(?:\\.|[^'\\])'""", re.S)
BRACKETS = {"(": ")", "{": "}", "[": "]"}


def without_comments(text):
    """The text with comments and quoted text blanked, every offset kept."""

    def blank(found):
        return found.group() if found.group().startswith("extern") else re.sub(r"[^\n]", " ", found.group())

    return BLANK.sub(blank, text)


def closing(text, start):
    """The offset behind the bracket that closes the one at start."""
    depth = 0
    for i in range(start, len(text)):
        depth += (text[i] == text[start]) - (text[i] == BRACKETS[text[start]])
        if depth == 0:
            return i + 1
    return len(text)


def generics_end(text, start):
    """The offset behind the parameters in angle brackets that stand at start, if any do."""
    depth = 0
    for i in range(start, len(text)):
        if text[i] == "<":
            depth += 1
        elif text[i] == ">" and text[i - 1] != "-":
            depth -= 1
        if depth == 0:
            return i + 1 if text[i] == ">" else start
    return start


def declaration_end(text, start):
    """The offset behind a type or a constant: behind its braces or its semicolon."""
    i = start
    while i < len(text):
        if text[i] in BRACKETS:
            end = closing(text, i)
            if text[i] == "{":
                return end
            i = end
        elif text[i] == ";":
            return i + 1
        else:
            i += 1
    return len(text)


class Piece:
    """A type, a constant or a function: where it stands, and the words and paths that may name types."""

    def __init__(self, kind, name, line, rows):
        self.kind = kind
        self.name = name
        self.line = line
        self.rows = rows
        text = antt.joined(rows)
        if kind == "enum":
            text = re.sub(r"(?m)^\s*\w+\s*(?=[({,])", "", text)
        self.words = set(re.findall(r"\w+", text))
        self.paths = set(re.findall(r"(\w+)::(\w+)", text))


class Function(Piece):
    """A function's signature, and the rows of each clause of its contract."""

    def __init__(self, match, line, rows, parameters, clauses):
        Piece.__init__(self, "contract", match.group(3), line, rows)
        self.public = bool(match.group(1))
        self.exported = bool(match.group(2))
        self.parameters = parameters
        self.clauses = clauses


class File:
    """The imports, types and functions of one file, and what of it was not read."""

    def __init__(self, text):
        self.comment = antt.first_comment(text, "//")
        self.text = without_comments(text)
        self.not_read = []
        self.read = []
        self.used = dict(used for match in USE.finditer(self.text) for used in self.names_used(match))
        self.imports = [brought for match in GHOST_USE.finditer(self.text) for brought in self.ghost_use(match)]
        self.types = [self.type(match) for match in TYPE.finditer(self.text)]
        self.members = [self.member(match) for match in MEMBER.finditer(self.text) if self.promised(match.start())]
        self.functions = [self.function(match) for match in FUNCTION.finditer(self.text)]
        self.other_clauses()

    def line(self, offset):
        return self.text.count("\n", 0, offset) + 1

    def rows(self, start, end):
        first = self.line(start)
        rows = enumerate(self.text[start:end].split("\n"), first)
        return [(number, row) for number, row in rows if row.strip()]

    def names_used(self, match):
        """The names that a `use` brings, each with the crate that it comes from."""
        found = []
        for name, other in USED.findall(match.group(2)):
            if other:
                self.not_read.append((self.line(match.start()), "use " + name + other))
            found.append((name, match.group(1)))
        return found

    def ghost_use(self, match):
        return antt.imports_in(match.group(1), self.line(match.start()), self.not_read)

    def type(self, match):
        end = declaration_end(self.text, match.end())
        return Piece(match.group(1), match.group(2), self.line(match.start(2)), self.rows(match.start(), end))

    def block_head(self, offset):
        """What stands in front of the innermost brace that is open at offset."""
        depth = 0
        for i in range(offset - 1, -1, -1):
            depth += (self.text[i] == "}") - (self.text[i] == "{")
            if depth < 0:
                return re.split(r"[;{}]", self.text[:i])[-1]
        return ""

    def promised(self, offset):
        """Whether a ghost member is counted with a promise: in a trait, and in an impl of one of this file's traits or of
        the standard library's. Anywhere else, as in a struct, it is not read."""
        head = self.block_head(offset)
        of_trait = IMPL.search(head)
        if not of_trait:
            return bool(re.search(r"\btrait\b", head))
        path, name = of_trait.groups()
        return (path.partition("::")[0] or self.used.get(name, "std")) == "std"

    def member(self, match):
        """A ghost member of a trait or an impl: its name, and the rows of its term."""
        end = closing(self.text, match.end())
        self.read.append((match.start(), end))
        return Piece("contract", match.group(1), self.line(match.start(1)), self.rows(match.end() + 1, end - 1))

    def function(self, match):
        start = match.end()
        opening = generics_end(self.text, start)
        generics = self.generics(start, opening)
        end = closing(self.text, opening)
        parameters = generics + self.parameters(opening, end)
        result = RESULT.match(self.text, end)
        end = result.end() if result else end
        return Function(match, self.line(match.start(3)), self.rows(start, end), parameters, self.clauses(end))

    def generics(self, start, end):
        """The parameters in angle brackets, and the ghost members that a trait's own clauses name, as tokens."""
        found = [(match.group(1), match.start()) for match in GENERIC.finditer(self.text, start, end)]
        found += [(member.name, start) for member in self.members]
        return [antt.Token(name, self.line(place), 0, 0) for name, place in found]

    def parameters(self, start, end):
        """The names in front of colons, and `self`, as tokens."""
        found = re.compile(r"\b(\w+)\s*:(?!:)|\b(self)\b").finditer(self.text, start, end)
        return [antt.Token(match.group(1) or "self", self.line(match.start()), 0, 0) for match in found]

    def clauses(self, end):
        found = []
        clause = CLAUSE.match(self.text, end)
        while clause:
            end = closing(self.text, clause.end())
            found.append(self.rows(clause.end() + 1, end - 1))
            self.read.append((clause.start(), end))
            clause = CLAUSE.match(self.text, end)
        return found

    def other_clauses(self):
        """A statement that stands in no contract of a function, such as one of a closure or a type, is not read."""
        for match in STATEMENT.finditer(self.text):
            if not any(start <= match.start() < end for start, end in self.read):
                self.not_read.append((self.line(match.start()), "a statement outside the contracts"))
