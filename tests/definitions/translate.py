"""Definitions in Antt as functions of Python, each made from its own text when it is first called.

`Library.function("site_files.Pages.response_at")` is the function of that definition in `crates/site_files/specs/Pages.antt`. Each
clause becomes a test of its patterns with a `return`, so the text in Python has the same cases in the same order.
"""

from __future__ import annotations

import keyword
import re
from functools import lru_cache
from pathlib import Path
from typing import Any, Callable, Dict, List, NamedTuple, Optional, Sequence, Tuple

from definitions import library, sources
from definitions.antt import (
    Apply, Clause, Elim, ForAll, Function, If, Infix, Let, Module, Name, Number, Project, Record, Term, Text, Tuples, Unknown, module_of,
)
from definitions.values import Decided, Value

CRATES = sources.CRATES
OPERATORS = {
    "||": "({} or {})", "&&": "({} and {})", "==": "({} == {})", "∷": "({}, {})", "++": "do_append({}, {})", "+": "({} + {})", "-": "do_minus({}, {})",
    "*": "({} * {})", "/": "do_quotient({}, {})", "%": "do_remainder({}, {})", "^": "({} ** {})", "≡": "do_same({}, {})", "≢": "(not do_same({}, {}))", "≤": "({} <= {})",
    "<": "({} < {})", "×": "({} and {})", "⊎": "({} or {})", "→": "(not {} or {})", "↔": "({} == {})",
}
# Definitions of the repository that cite those of the URL Standard's parser
REPLACED = ("crawl_keys.CanonicalText.canonical", "crawl_keys.CanonicalText.resolve", "crawl_keys.HostKey.host_key")
MOST_KEPT = 1 << 15  # results that are kept of a definition
# Constructors of std
KNOWN = {"Some": 1, "None": 0, "Ok": 1, "Err": 1, "Less": 0, "Equal": 0, "Greater": 0}


# By a function and its arguments, by their ids, these arguments and the result
Results = Dict[Tuple[int, ...], Tuple[Tuple[Value, ...], Value]]


class Found(NamedTuple):
    """What a name means: a definition, a constructor, a function of a library, a constant, or a type of records."""

    kind: str
    module: str
    name: str
    size: Optional[int]  # the number of its arguments, if it has some


class Edit(NamedTuple):
    """A change of the text of a module."""

    module: str
    old: str
    new: str


def fixed(name: str) -> str:
    """A name of Antt as one of Python."""
    found = re.sub(r"[^\w]", "_", name)
    return found + "_" if keyword.iskeyword(found) else f"_{found}" if found[0].isdigit() else found


def path_of(module: str) -> Path:
    """The file of a module, such as `site_files.Pages`."""
    crate, *rest = module.split(".")
    return Path(CRATES, crate, "specs", *rest).with_suffix(".antt")


@lru_cache(maxsize=None)
def parsed(text: str) -> Module:
    """The declarations of a module with this text."""
    return module_of(text)


@lru_cache(maxsize=None)
def modules_of(crate: str) -> Tuple[str, ...]:
    """The modules of a crate."""
    folder = Path(CRATES, crate, "specs")
    return tuple(".".join([crate, *path.relative_to(folder).with_suffix("").parts]) for path in sorted(folder.rglob("*.antt")))


class Library:
    """All definitions. `kept` names those whose last results are kept: their arguments must be the same objects to find them.

    `edits` change the texts of modules. `counts` gets how often each definition was called.
    """

    def __init__(self, kept: Sequence[str] = (), edits: Sequence[Edit] = (), counts: Optional[Dict[str, int]] = None) -> None:
        self.edits, self.counts = edits, counts
        self.modules: Dict[str, Module] = {}
        self.texts: Dict[str, str] = {}  # the text in Python of each definition that was called
        self.globals: Dict[str, Any] = dict(library.HELPERS)
        self.names: Dict[str, str] = {}  # of each definition its name in Python
        self.kept = frozenset(kept)
        self.results: Results = {}
        self.constants: Dict[str, str] = {}
        self.globals["do_count"] = counts
        self.used: Dict[str, str] = {}  # the functions of libraries that were cited, by what they are in

    def module(self, name: str) -> Module:
        """The module with this name."""
        if name not in self.modules:
            text = path_of(name).read_text("utf-8")
            for edit in self.edits:
                if edit.module == name:
                    assert text.count(edit.old) == 1, edit
                    text = text.replace(edit.old, edit.new)
            self.modules[name] = parsed(text)
        return self.modules[name]

    def function(self, path: str) -> Any:
        """The function of a definition, such as `site_files.Pages.response_at`, or its value if it has no arguments.

        With a star in place of the module, `mercator_site.*.starts`, it is the only one of the crate with the name.
        """
        module, _, name = path.rpartition(".")
        if module.endswith(".*"):
            crate = module[:-2]
            found = [one for one in modules_of(crate) if name in self.module(one).definitions]
            assert len(found) == 1, f"{path}: in {found}"
            module = found[0]
        function = self.globals[self.name_of(module, name)]
        return function() if self.size_of(module, name) == 0 else function

    def has(self, path: str) -> bool:
        """Whether a crate has a definition, such as `mercator_site.*.documents_in`."""
        crate, _, name = path.partition(".*.")
        return any(name in self.module(one).definitions for one in modules_of(crate))

    def override(self, path: str, function: Callable[..., Value]) -> None:
        """Puts a function of Python in place of a definition."""
        module, _, name = path.rpartition(".")
        self.globals[self.name_of(module, name)] = function

    def size_of(self, module: str, name: str) -> int:
        """The number of arguments in the clauses of a definition."""
        return len(self.module(module).definitions[name].clauses[0].patterns)

    def name_of(self, module: str, name: str) -> str:
        """The name in Python of a definition. It is translated with all that it cites."""
        path = f"{module}.{name}"
        if path not in self.names:
            self.names[path] = fixed(f"{module}.{name}")
            Translation(self, module, name, self.module(module).definitions[name].clauses).add()
        return self.names[path]

    def constant(self, given: str) -> str:
        """The name of a text in quotes."""
        if given not in self.constants:
            name = f"text_{len(self.constants)}"
            self.constants[given] = name
            self.globals[name] = library.codes(given)
        return self.constants[given]

    def forget(self) -> None:
        """Forgets the results that are kept."""
        self.results.clear()

    # ---- names

    def find(self, module: str, name: str) -> Optional[Found]:
        """What a name means in a module."""
        front, _, last = name.rpartition(".")
        if front:
            use = next((use for use in self.module(module).uses if use.alias == front), None)
            if use is not None:
                return self.in_module(use.module, last)
            owner = self.find(module, front)
            return self.in_type(owner, last) if owner is not None and owner.kind == "type" else None
        own = self.in_file(module, name)
        if own is not None:
            return own
        use = next((use for use in self.module(module).uses if name in use.names), None)
        if use is not None:
            return self.in_module(use.module, name)
        return self.native("", name)

    def in_type(self, owner: Found, name: str) -> Optional[Found]:
        """A constructor after the name of its type."""
        return self.native("", name)

    def in_file(self, module: str, name: str) -> Optional[Found]:
        """What a module of the repository declares."""
        if f"{module}.{name}" in REPLACED:
            return self.native(module, name)
        read = self.module(module)
        if name in read.definitions:
            return Found("definition", module, name, self.size_of(module, name))
        for kind in read.types.values():
            sizes = dict(kind.constructors)
            if name in sizes:
                return Found("constructor", module, name, sizes[name])
        if name in read.records:
            return Found("record", module, name, len(read.records[name].parameters))
        return Found("type", module, name, 0) if name in read.types else None

    def in_module(self, path: str, name: str) -> Optional[Found]:
        """What a name means in another module, by its path."""
        parts = path.split(".")[1:]
        if len(parts) > 1 and parts[1] == "specs" and parts[0] not in ("std", "url", "json", "memchr", "percent_encoding"):
            crate, rest = parts[0], parts[2:]
            if rest[:1] == ["declared"]:
                return self.declared(crate, rest[1:], name)
            return self.in_file(".".join([crate, *rest]), name)
        return self.native(".".join(parts), name)

    def declared(self, crate: str, parts: List[str], name: str) -> Optional[Found]:
        """What is declared in the code: a constant, a variant of an enum, or a type."""
        if parts[-1] == "TheConstants":
            return Found("constant", f"{crate}.{'.'.join(parts[:-1])}", name, None)
        if parts[-1] == "TheVariants":
            sizes = sources.variants(crate, ".".join(parts[:-2]), parts[-2])
            return Found("constructor", "", name, sizes[name]) if name in sizes else None
        return Found("type", crate, name, 0)

    def native(self, path: str, name: str) -> Optional[Found]:
        """A function of a library."""
        if name in KNOWN:
            return Found("constructor", "", name, KNOWN[name])
        full = f"{path}.{name}"
        key = full if full in library.NATIVES else name
        if key in library.NATIVES:
            if path:
                self.used[key] = path
            return Found("native", path, key, library.NATIVES[key][1])
        return None

    def record_failures(self, path: str, arguments: Sequence[Value], witness: Dict[str, Any]) -> List[str]:
        """The fields of a statement in the form of a record that do not hold, by values for the fields that are not statements.

        A witness of a field that is a record again is a dictionary.
        """
        module, _, name = path.rpartition(".")
        record = self.module(module).records[name]
        known = dict(zip(record.parameters, arguments))
        failures = []
        for field, kind in record.fields:
            given = witness.get(field)
            if isinstance(given, Decided):
                failures += [] if given.holds else [field]
            elif isinstance(given, dict):
                found = self.statement(module, kind)
                inner = [self.evaluate(module, argument, known) for argument in found[1]]
                failures += [f"{field}.{one}" for one in self.record_failures(found[0], inner, given)]
                known[field] = library.Record(**{fixed(key): value for key, value in given.items()})
            elif field in witness:
                known[field] = given
            elif not self.evaluate(module, kind, known):
                failures.append(field)
        return failures

    def statement(self, module: str, kind: Term) -> Tuple[str, Tuple[Term, ...]]:
        """The record and the arguments of a statement."""
        function = kind.function if isinstance(kind, Apply) else kind
        found = self.find(module, function.text) if isinstance(function, Name) else None
        if found is None or found.kind != "record":
            raise Unknown(f"{module}: a witness for {kind}")
        return f"{found.module}.{found.name}", kind.arguments if isinstance(kind, Apply) else ()

    def evaluate(self, module: str, term: Term, known: Dict[str, Value]) -> Value:
        """The value of a term, with values for its names."""
        names = {name: fixed(name) for name in known}
        code = Translation(self, module, "", ()).term(term, names)
        return eval(code, self.globals, {names[name]: value for name, value in known.items()})  # pylint: disable=eval-used


class Translation:
    """The text in Python of one definition."""

    def __init__(self, given: Library, module: str, name: str, clauses: Sequence[Clause]) -> None:
        self.library, self.module, self.name, self.clauses = given, module, name, clauses
        self.count = 0

    def add(self) -> None:
        """Adds the function to those of the library."""
        name = self.library.names[f"{self.module}.{self.name}"]
        size = len(self.clauses[0].patterns)
        parameters = [self.parameter(number) for number in range(size)]
        lines = [f"def {name}({', '.join(parameters)}):"]
        if self.library.counts is not None:
            lines.append(f"    do_count[{self.module + '.' + self.name!r}] += 1")
        for clause in self.clauses:
            lines += self.clause(list(zip(clause.patterns, parameters)), {}, clause.body, 1)
        if not lines[-1].startswith("    return"):
            lines.append(f"    raise ValueError({self.module + '.' + self.name!r})")
        code = "\n".join(lines) + "\n"
        self.library.texts[f"{self.module}.{self.name}"] = code
        exec(compile(code, f"{self.module}.{self.name}", "exec"), self.library.globals)  # pylint: disable=exec-used
        if f"{self.module}.{self.name}" in self.library.kept or size == 0:
            self.library.globals[name] = keeping(self.library.globals[name], self.library.results)

    def parameter(self, number: int) -> str:
        """The name of a parameter: that in the clauses, if it is the same in all of them."""
        patterns = {clause.patterns[number] for clause in self.clauses}
        pattern = next(iter(patterns))
        is_variable = len(patterns) == 1 and isinstance(pattern, Name) and self.is_variable(pattern.text)
        return fixed(pattern.text) if is_variable and isinstance(pattern, Name) else f"given{number}"

    def is_variable(self, name: str) -> bool:
        """Whether a name in a pattern is a variable."""
        if name in ("_", "true", "false", "[]", "zero", "tt") or "." in name:
            return False
        return not (name[0].isupper() or self.constructor(name) is not None)

    def constructor(self, name: str) -> Optional[Found]:
        """The constructor with a name."""
        found = self.library.find(self.module, name)
        return found if found is not None and found.kind == "constructor" else None

    def new(self) -> str:
        """A new name."""
        self.count += 1
        return f"part{self.count}"

    # ---- patterns

    def clause(self, work: List[Tuple[Term, str]], names: Dict[str, str], body: Term, depth: int) -> List[str]:
        """The lines of a clause: tests of its patterns, and what it returns."""
        indent = "    " * depth
        if not work:
            return [f"{indent}return {self.term(body, names)}"]
        (pattern, subject), rest = work[0], work[1:]
        if isinstance(pattern, Name) and pattern.text in ("_", "tt"):
            return self.clause(rest, names, body, depth)
        if isinstance(pattern, Name) and self.is_variable(pattern.text):
            return self.clause(rest, {**names, pattern.text: subject}, body, depth)
        test, parts, setting = self.pattern(pattern, subject)
        lines = [f"{indent}if {test}:"]
        lines += [f"{indent}    {setting}"] if setting else []
        return lines + self.clause(parts + rest, names, body, depth + 1)

    def pattern(self, pattern: Term, subject: str) -> Tuple[str, List[Tuple[Term, str]], str]:
        """The test of a pattern, the patterns of the parts, and a line that sets these."""
        simple = {"true": f"{subject}", "false": f"not {subject}", "[]": f"not {subject}", "zero": f"{subject} == 0"}
        if isinstance(pattern, Name) and pattern.text in simple:
            return simple[pattern.text], [], ""
        if isinstance(pattern, Infix) and pattern.operator == "∷":
            first, rest = self.part(pattern.left), self.part(pattern.right)
            return subject, [(pattern.left, first), (pattern.right, rest)], f"{first}, {rest} = {subject}"
        if isinstance(pattern, Apply) and pattern.function == Name("suc"):
            one = self.part(pattern.arguments[0])
            return f"{subject} > 0", [(pattern.arguments[0], one)], f"{one} = {subject} - 1"
        function = pattern.function if isinstance(pattern, Apply) else pattern
        arguments = pattern.arguments if isinstance(pattern, Apply) else ()
        if not isinstance(function, Name):
            raise Unknown(f"{self.module}.{self.name}: pattern {pattern}")
        test = f"{subject}[0] == {function.text.rpartition('.')[2]!r}"
        parts = [self.part(argument) for argument in arguments]
        setting = f"{''.join(f'{part}, ' for part in parts)}= {subject}[1:]" if parts else ""
        return test, list(zip(arguments, parts)), setting

    def part(self, pattern: Term) -> str:
        """The name of a part: that of its variable, or a new one."""
        if isinstance(pattern, Name) and self.is_variable(pattern.text):
            return fixed(pattern.text)
        return self.new()

    # ---- terms

    def term(self, term: Term, names: Dict[str, str]) -> str:
        """A term in Python."""
        if isinstance(term, Number):
            return str(term.value)
        if isinstance(term, Text):
            return self.library.constant(term.value)
        if isinstance(term, Name):
            return self.named(term.text, names)
        if isinstance(term, Apply):
            return self.applied(term, names)
        if isinstance(term, Infix):
            return OPERATORS[term.operator].format(self.term(term.left, names), self.term(term.right, names))
        if isinstance(term, If):
            return f"({self.term(term.then, names)} if {self.term(term.test, names)} else {self.term(term.other, names)})"
        if isinstance(term, Let):
            inner = self.term(term.body, {**names, term.name: fixed(term.name)})
            return f"(lambda {fixed(term.name)}: {inner})({self.term(term.value, names)})"
        if isinstance(term, Function):
            return self.function(term, names)
        if isinstance(term, Tuples):
            return f"do_record({', '.join(f'_{number}={self.term(part, names)}' for number, part in enumerate(term.parts))})"
        if isinstance(term, Record):
            fields = ", ".join(f"{fixed(name)}={self.term(value, names)}" for name, value in term.fields)
            return f"do_record({fields})" if term.given is None else f"{self.term(term.given, names)}.replaced({fields})"
        if isinstance(term, Project):
            return f"{self.term(term.record, names)}.{fixed(term.field)}"
        if isinstance(term, Elim):
            return self.elim(term, names)
        assert isinstance(term, ForAll)
        return f"do_undecided({self.module + '.' + self.name!r})"

    def function(self, term: Function, names: Dict[str, str]) -> str:
        """A function without a name."""
        parameters = [self.new() if name == "_" else fixed(name) for name in term.parameters]
        return f"(lambda {', '.join(parameters)}: {self.term(term.body, {**names, **dict(zip(term.parameters, parameters))})})"

    def elim(self, term: Elim, names: Dict[str, str]) -> str:
        """The cases of a term. Their patterns have no arguments."""
        subject = self.new()
        code = f"do_undecided({self.name!r})"
        for pattern, body in reversed(term.cases):
            if not isinstance(pattern, Name):
                raise Unknown(f"{self.module}.{self.name}: case {pattern}")
            then = self.term(body, names)
            code = then if pattern.text == "_" else f"({then} if {self.pattern(pattern, subject)[0]} else {code})"
        return f"(lambda {subject}: {code})({self.term(term.value, names)})"

    def local(self, name: str, names: Dict[str, str]) -> Optional[str]:
        """A variable, or a projection of one."""
        first, *fields = name.split(".")
        return ".".join([names[first], *map(fixed, fields)]) if first in names else None

    def named(self, name: str, names: Dict[str, str]) -> str:
        """A name that is no function of arguments."""
        code = self.local(name, names)
        if code is not None:
            return code
        found, fields = self.meaning(name)
        return ".".join([self.value(found), *map(fixed, fields)])

    def meaning(self, name: str) -> Tuple[Found, List[str]]:
        """What a name means, and the fields after it."""
        parts = name.split(".")
        for end in range(len(parts), 0, -1):
            found = self.library.find(self.module, ".".join(parts[:end]))
            if found is not None:
                return found, parts[end:]
        raise Unknown(f"{self.module}.{self.name}: name {name}")

    def value(self, found: Found) -> str:
        """A definition as a value, a constructor as a function or a value."""
        if found.kind == "definition":
            name = self.library.name_of(found.module, found.name)
            return name if found.size else f"{name}()"
        if found.kind == "constructor":
            parameters = [f"one{number}" for number in range(found.size or 0)]
            return f"(lambda {', '.join(parameters)}: ({found.name!r}, {', '.join(parameters)},))" if parameters else f"({found.name!r},)"
        if found.kind == "native" and isinstance(library.NATIVES[found.name][0], (bool, int, tuple)):
            return repr(library.NATIVES[found.name][0])
        if found.kind == "native":
            name = fixed(f"std_{found.name}")
            self.library.globals[name] = library.NATIVES[found.name][0]
            return name
        if found.kind == "constant":
            name = fixed(f"{found.module}.{found.name}")
            crate, _, module = found.module.partition(".")
            self.library.globals[name] = sources.constant(crate, module, found.name)
            return name
        return f"do_undecided({found.module + '.' + found.name!r})"

    def applied(self, term: Apply, names: Dict[str, str]) -> str:
        """A function with its arguments, maybe with fewer or more than its clauses have."""
        if term.function == Name("codes") and isinstance(term.arguments[0], Text):
            return self.library.constant(term.arguments[0].value)
        arguments = [self.term(argument, names) for argument in term.arguments]
        name = term.function.text if isinstance(term.function, Name) else None
        if name is None or self.local(name, names) is not None:
            return f"{self.term(term.function, names)}({', '.join(arguments)})"
        found, fields = self.meaning(name)
        if fields or found.kind in ("record", "type"):
            return f"{self.named(name, names)}({', '.join(arguments)})" if fields else self.value(found)
        return self.call(found, arguments)

    def call(self, found: Found, arguments: List[str]) -> str:
        """The call of what a name means."""
        size = found.size or 0
        if found.kind == "constructor" and len(arguments) == size:
            return f"({found.name!r}, {', '.join(arguments)},)"
        function = self.value(found)
        if size == 0 or len(arguments) == size:
            return f"{function}({', '.join(arguments)})"
        if len(arguments) > size:
            return f"{function}({', '.join(arguments[:size])})({', '.join(arguments[size:])})"
        first = [self.new() for _ in arguments]
        rest = [self.new() for _ in range(size - len(arguments))]
        return f"(lambda {', '.join(first)}: lambda {', '.join(rest)}: {function}({', '.join(first + rest)}))({', '.join(arguments)})"


def keeping(function: Callable[..., Value], results: Results) -> Callable[..., Value]:
    """A function that keeps its results for the same objects."""
    def kept(*arguments: Value) -> Value:
        key = (id(function), *map(id, arguments))
        if key not in results:
            if len(results) >= MOST_KEPT:
                results.clear()
            result = function(*arguments)
            results[key] = (arguments, result)
        return results[key][1]

    return kept
