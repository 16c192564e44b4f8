"""Reads the definitions of a file in Antt: clauses, records and data types. Types of definitions are skipped.

Only the part of Antt is read in which `crates/*/specs` are written: clauses that match constructors, `if`, `let`, `elim`, `λ`, records,
projections and operators. `Unknown` is raised for anything else.
"""

from __future__ import annotations

import re
from typing import Dict, List, NamedTuple, Optional, Tuple, Union


class Unknown(Exception):
    """The text has a form that is not read here."""


class Name(NamedTuple):
    """A variable or a definition, maybe with the alias of its module before it."""

    text: str


class Number(NamedTuple):
    """A numeral."""

    value: int


class Text(NamedTuple):
    """A text in quotes."""

    value: str


class Apply(NamedTuple):
    """A function with its arguments."""

    function: "Term"
    arguments: Tuple["Term", ...]


class Infix(NamedTuple):
    """An operator between two terms."""

    operator: str
    left: "Term"
    right: "Term"


class If(NamedTuple):
    """The first term decides between the others."""

    test: "Term"
    then: "Term"
    other: "Term"


class Let(NamedTuple):
    """A name for a term in another one."""

    name: str
    value: "Term"
    body: "Term"


class Function(NamedTuple):
    """A function without a name."""

    parameters: Tuple[str, ...]
    body: "Term"


class Record(NamedTuple):
    """A record with these fields, or another record with some fields replaced."""

    given: Optional["Term"]
    fields: Tuple[Tuple[str, "Term"], ...]


class Project(NamedTuple):
    """A field of a record, or a part of a tuple by its number."""

    record: "Term"
    field: str


class Tuples(NamedTuple):
    """Several terms in parentheses."""

    parts: Tuple["Term", ...]


class Elim(NamedTuple):
    """Cases of a term."""

    value: "Term"
    cases: Tuple[Tuple["Term", "Term"], ...]


class ForAll(NamedTuple):
    """A statement about all values of a type."""

    names: Tuple[str, ...]
    kind: "Term"
    body: "Term"


Term = Union[Name, Number, Text, Apply, Infix, If, Let, Function, Record, Project, Tuples, Elim, ForAll]


class Clause(NamedTuple):
    """An equation of a definition: its patterns, and what the definition is for them."""

    patterns: Tuple[Term, ...]
    body: Term


class Definition(NamedTuple):
    """A definition by clauses. `text` is how it is written, with the comment before it."""

    name: str
    clauses: Tuple[Clause, ...]
    text: str


class RecordType(NamedTuple):
    """A type of records: its parameters, and its fields with their types."""

    name: str
    parameters: Tuple[str, ...]
    fields: Tuple[Tuple[str, Term], ...]
    text: str


class DataType(NamedTuple):
    """A type by its constructors, each with its number of arguments."""

    name: str
    constructors: Tuple[Tuple[str, int], ...]
    text: str


class Use(NamedTuple):
    """Names of another module, or the module itself under another name."""

    module: str
    names: Tuple[str, ...]
    alias: str


class Module(NamedTuple):
    """The declarations of a file."""

    uses: Tuple[Use, ...]
    definitions: Dict[str, Definition]
    records: Dict[str, RecordType]
    types: Dict[str, DataType]


# Operators, weakest first, and whether each is right-associative
LEVELS: Tuple[Tuple[Tuple[str, ...], bool], ...] = (
    (("→",), True),
    (("↔",), True),
    (("⊎",), True),
    (("×",), True),
    (("≡", "≢", "≤", "<"), True),
    (("||",), True),
    (("&&",), True),
    (("==",), True),
    (("∷", "++"), True),
    (("+", "-"), False),
    (("*", "/", "%"), False),
    (("^",), True),
)
TOKEN = re.compile(
    r"""(?P<skip>\s+|--[^\n]*)|(?P<text>"(?:[^"\\]|\\.)*")|(?P<number>0x[0-9a-fA-F]+|[0-9]+)|(?P<part>(?<=[)\]}])\.[\w']+(?:\.[\w']+)*)
    |(?P<sign>∥₁|\+\+|==|\|\||&&|[λ∷→↦≡≢≤<↔×⊎¬+\-*/%^(){}\[\],;=:.|∥])|(?P<name>«\w+»|[^\W\d][\w'-]*(?:\.[\w']+)*|[⊥⊤])""",
    re.VERBOSE,
)
ESCAPES = {"n": "\n", "t": "\t", "r": "\r", "0": "\0"}
END = ("end", "")


def unescaped(text: str) -> str:
    """A text without its quotes and escapes."""
    return re.sub(r"\\(.)", lambda found: ESCAPES.get(found[1], found[1]), text[1:-1])


def tokens_of(text: str) -> List[Tuple[str, str]]:
    """The tokens of a text, each with its kind."""
    tokens = []
    at = 0
    while at < len(text):
        found = TOKEN.match(text, at)
        if found is None:
            raise Unknown(f"token: {text[at:at + 40]!r}")
        at = found.end()
        kind = found.lastgroup or ""
        if kind != "skip":
            tokens.append((kind, found[0]))
    return tokens


class Parser:
    """Parses the tokens of a text."""

    def __init__(self, text: str) -> None:
        self.tokens = tokens_of(text)
        self.at = 0

    def peek(self, ahead: int = 0) -> Tuple[str, str]:
        """A token from here, without taking it."""
        return self.tokens[self.at + ahead] if self.at + ahead < len(self.tokens) else END

    def is_next(self, text: str) -> bool:
        """Whether the next token has this text. A text in quotes has none of these."""
        return self.peek()[1] == text and self.peek()[0] != "text"

    def take(self) -> str:
        """The next token."""
        token = self.peek()
        if token == END:
            raise Unknown("the text ends early")
        self.at += 1
        return token[1]

    def skip(self, text: str) -> bool:
        """Whether the next token is this one. If so it is taken."""
        is_there = self.is_next(text)
        self.at += is_there
        return is_there

    def expect(self, text: str) -> None:
        """Takes this token."""
        if not self.skip(text):
            raise Unknown(f"{text!r} expected before {[word for _, word in self.tokens[self.at:self.at + 8]]}")

    def term(self, level: int = 0) -> Term:
        """A term of operators of this level and stronger ones."""
        if level == len(LEVELS):
            return Apply(Name("not"), (self.application(),)) if self.skip("¬") else self.application()
        if level == 0 and self.is_binder():
            return self.for_all()
        operators, is_right = LEVELS[level]
        left = self.term(level + 1)
        while self.peek()[0] == "sign" and self.peek()[1] in operators:
            operator = self.take()
            right = self.term(level if is_right else level + 1)
            left = Infix(operator, left, right)
            if is_right:
                break
        return left

    def is_binder(self) -> bool:
        """Whether the next tokens are those of `(x : A) →`."""
        if self.peek()[1] not in ("(", "{"):
            return False
        ahead = 1
        while self.peek(ahead)[0] == "name" and "." not in self.peek(ahead)[1]:
            ahead += 1
        return ahead > 1 and self.peek(ahead)[1] == ":"

    def binder(self) -> Tuple[Tuple[str, ...], Term]:
        """The names and the type of `(x y : A)`."""
        self.take()
        names = []
        while not self.skip(":"):
            names.append(self.take())
        kind = self.term()
        self.take()
        return tuple(names), kind

    def for_all(self) -> Term:
        """A type or a statement about all values of a type."""
        names, kind = self.binder()
        if self.is_binder():
            return ForAll(names, kind, self.for_all())
        if not self.skip("→"):
            self.expect("×")
        return ForAll(names, kind, self.term())

    def application(self) -> Term:
        """A function with its arguments. A function without a name, `if` and `let` end the arguments."""
        function = self.operand()
        arguments: List[Term] = []
        while self.begins_operand():
            if self.is_next("{"):
                self.braces()
            else:
                arguments.append(self.operand())
        return Apply(function, tuple(arguments)) if arguments else function

    def braces(self) -> None:
        """Skips an argument in braces."""
        while self.take() != "}":
            pass

    def begins_operand(self) -> bool:
        """Whether an operand begins here."""
        kind, text = self.peek()
        if kind in ("name", "number", "text"):
            return text not in ("then", "else", "in", "where")
        return text in ("(", "[", "{", "λ", "∥")

    def operand(self) -> Term:
        """A term that can be an argument, with the projections after it."""
        term = self.simple()
        while self.peek()[0] == "part":
            for field in self.take()[1:].split("."):
                term = Project(term, field)
        return term

    def simple(self) -> Term:
        """A term that can be an argument."""
        kind, text = self.peek()
        if kind == "number":
            return Number(int(self.take(), 0))
        if kind == "text":
            return Text(unescaped(self.take()))
        if kind == "name":
            readers = {"if": self.if_term, "let": self.let_term, "record": self.record, "elim": self.elim}
            return readers[text]() if text in readers else Name(self.take().strip("«»"))
        if self.skip("("):
            parts = [self.term()]
            while self.skip(","):
                parts.append(self.term())
            self.expect(")")
            return parts[0] if len(parts) == 1 else Tuples(tuple(parts))
        if self.skip("["):
            self.expect("]")
            return Name("[]")
        if self.skip("λ"):
            return self.function()
        if self.skip("∥"):
            term = self.term()
            self.expect("∥₁")
            return term
        raise Unknown(f"term: {[word for _, word in self.tokens[self.at:self.at + 8]]}")

    def if_term(self) -> Term:
        """`if a then b else c`."""
        self.take()
        test = self.term()
        self.expect("then")
        then = self.term()
        self.expect("else")
        return If(test, then, self.term())

    def let_term(self) -> Term:
        """`let x = a in b`."""
        self.take()
        name = self.take()
        if self.skip(":"):
            self.term()
        self.expect("=")
        value = self.term()
        self.expect("in")
        return Let(name, value, self.term())

    def function(self) -> Term:
        """`λ x y. a`, after its first sign."""
        names: List[str] = []
        while not self.skip("."):
            names += self.binder()[0] if self.is_binder() else (self.take(),)
        return Function(tuple(names), self.term())

    def record(self) -> Term:
        """`record { f = a }`, or with a record before the brace."""
        self.take()
        given = None if self.is_next("{") else self.operand()
        self.expect("{")
        fields = []
        while not self.skip("}"):
            name = self.take().strip("«»")
            self.expect("=")
            fields.append((name, self.term()))
            self.skip(";")
        return Record(given, tuple(fields))

    def elim(self) -> Term:
        """`elim a [ p ↦ b | q ↦ c ]`."""
        self.take()
        value = self.operand()
        self.expect("[")
        cases = []
        while not self.skip("]"):
            pattern = self.term()
            self.expect("↦")
            cases.append((pattern, self.term()))
            self.skip("|")
        return Elim(value, tuple(cases))

    def end(self) -> None:
        """Nothing is left."""
        if self.peek() != END:
            raise Unknown(f"end expected before {[word for _, word in self.tokens[self.at:self.at + 8]]}")


def items_of(text: str) -> List[Tuple[str, str]]:
    """The items of a file, each with the comment before it. An item begins at the start of a line."""
    items: List[Tuple[str, str]] = []
    comment: List[str] = []
    for line in text.split("\n"):
        if not line.strip():
            comment = []
        elif line.startswith("--"):
            comment.append(line)
        elif line[0].isspace() or line[0] == "}":
            items[-1] = (items[-1][0], f"{items[-1][1]}\n{line}")
        else:
            items.append(("".join(one + "\n" for one in comment), line))
            comment = []
    return items


def use_of(text: str) -> Use:
    """The names that an item imports."""
    found = re.match(r"(?:pub )?use ([\w.]+?)(?:\.\{([^}]*)\})?(?: as (\w+))?\s*\Z", text)
    if found is None:
        raise Unknown(text)
    names = tuple(name.strip() for name in found[2].split(",")) if found[2] is not None else ()
    return Use(found[1], names, found[3] or ("" if names else found[1].rpartition(".")[2]))


def clause_of(name: str, text: str) -> Clause:
    """The clause of a definition with this name."""
    parser = Parser(text)
    if parser.take() != name:
        raise Unknown(f"clause of another definition than {name}: {text[:60]!r}")
    patterns: List[Term] = []
    while not parser.skip("="):
        if parser.is_next("{"):
            parser.braces()
        else:
            patterns.append(parser.operand())
    body = parser.term()
    parser.end()
    return Clause(tuple(patterns), body)


def fields_of(text: str) -> List[str]:
    """The lines of a declaration below its first, each with the lines that continue it."""
    fields: List[str] = []
    for line in text.split("\n")[1:]:
        is_new = line.startswith("  ") and not line[2:3].isspace()
        if line.strip().startswith("--"):
            continue
        if is_new:
            fields.append(line)
        elif fields:
            fields[-1] += "\n" + line
    return fields


def parameters_of(text: str) -> Tuple[str, ...]:
    """The explicit parameters of a record type, from its first line."""
    parser = Parser(text)
    names: List[str] = []
    while not parser.skip(":"):
        if not parser.is_binder():
            raise Unknown(f"parameters: {text[:80]!r}")
        is_explicit = parser.is_next("(")
        found, _ = parser.binder()
        names += found if is_explicit else ()
    return tuple(names)


def record_type_of(text: str, shown: str) -> RecordType:
    """A type of records."""
    head = text.split("\n")[0]
    name = re.sub(r"\A(?:pub )?record ", "", head).split()[0]
    fields = []
    for line in fields_of(text):
        found = re.match(r"\s*(?:pub )?([\w«»]+) :(.*)", line, re.DOTALL)
        if found is None:
            raise Unknown(line)
        parser = Parser(found[2])
        fields.append((found[1].strip("«»"), parser.term()))
    return RecordType(name, parameters_of(re.sub(rf"\A(?:pub )?record {re.escape(name)}", "", head)), tuple(fields), shown)


def data_type_of(text: str, shown: str) -> DataType:
    """A type by its constructors."""
    name = re.sub(r"\A(?:pub )?data ", "", text).split()[0]
    found = []
    for line in fields_of(text):
        constructor, _, kind = re.sub(r"--.*", "", line).partition(":")
        parser = Parser(kind)
        term, count = parser.term(), 0
        while isinstance(term, (ForAll, Infix)):
            count += len(term.names) if isinstance(term, ForAll) else 1
            term = term.body if isinstance(term, ForAll) else term.right
        found.append((constructor.strip(), count))
    return DataType(name, tuple(found), shown)


def module_of(text: str) -> Module:
    """The declarations of a file."""
    uses: List[Use] = []
    clauses: Dict[str, List[Clause]] = {}
    texts: Dict[str, str] = {}
    records: Dict[str, RecordType] = {}
    types: Dict[str, DataType] = {}
    for comment, item in items_of(text):
        words = item.split()
        if re.match(r"(?:pub )?use ", item):
            uses.append(use_of(item))
        elif re.match(r"(?:pub )?record ", item):
            record = record_type_of(item, comment + item)
            records[record.name] = record
        elif re.match(r"(?:pub )?data ", item):
            kind = data_type_of(item, comment + item)
            types[kind.name] = kind
        elif re.match(r"(?:abbrev|unfoldable|pub) ", item) and "pub mod" not in item:
            name = words[2] if words[1] == "pub" else words[1]
            clauses[name], texts[name] = [], comment + item
        elif words[0] in clauses:
            clauses[words[0]].append(clause_of(words[0], item))
            texts[words[0]] += "\n" + item
    definitions = {name: Definition(name, tuple(found), texts[name]) for name, found in clauses.items()}
    return Module(tuple(uses), definitions, records, types)
