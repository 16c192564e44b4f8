"""The values of the definitions in Python.

A list is a pair of its first element and the rest, or () if it is empty; so a text is such a list of its bytes. A constructor is a
tuple of its name and its arguments, a record a `Record`, a number an int, and a Bool a bool.
"""

from __future__ import annotations

from typing import Any, Callable, Dict, Iterable, Iterator, List, NamedTuple, Optional

Value = Any
NIL: Value = ()
NONE: Value = ("None",)
UNIT: Value = ("tt",)


class Record:
    """A record with its fields as attributes. Parts of a tuple are `_0`, `_1`, .."""

    def __init__(self, **fields: Value) -> None:
        self.__dict__.update(fields)

    def replaced(self, **fields: Value) -> "Record":
        """The same record with some other fields."""
        return Record(**{**self.__dict__, **fields})

    def __repr__(self) -> str:
        return f"Record({', '.join(f'{name}={shown(value)}' for name, value in self.__dict__.items())})"


class Joined:
    """Two lists one after another, which are copied when an element is read: so a text can grow by a byte at a time."""

    __slots__ = ("one", "other", "cell")

    def __init__(self, one: Value, other: Value) -> None:
        self.one, self.other, self.cell = one, other, NIL

    def read(self) -> Value:
        """The pair of the first element and the rest."""
        if not self.cell:
            later = [self.other]
            first = self.one
            while isinstance(first, Joined) and not first.cell:
                later.append(first.other)
                first = first.one
            elements = list(items(first))
            for part in reversed(later[1:]):
                elements += items(part)
            cell = self.other
            for element in reversed(elements):
                cell = (element, cell)
            self.one, self.other, self.cell = NIL, NIL, cell
        return self.cell

    def __iter__(self) -> Iterator[Value]:
        return iter(self.read())

    def __getitem__(self, index: int) -> Value:
        return self.read()[index]


class Decided(NamedTuple):
    """Whether a statement holds that is about all values of a type, by a test of what it means."""

    holds: bool


class Undecided(Exception):
    """A statement about all values of a type, or one that needs a witness, was to be evaluated."""


def listed(items: Iterable[Value]) -> Value:
    """The list of some values."""
    found = NIL
    for item in reversed(list(items)):
        found = (item, found)
    return found


def items(values: Value) -> Iterator[Value]:
    """The elements of a list."""
    while values:
        first, values = values
        yield first


def text(given: bytes) -> Value:
    """The list of some bytes."""
    return listed(given)


def unlisted(values: Value) -> bytes:
    """The bytes of a text."""
    return bytes(items(values))


def some(value: Value) -> Value:
    """An Option with a value."""
    return ("Some", value)


def optional(value: Optional[Any], make: Callable[[Any], Value]) -> Value:
    """The Option of a value of Python."""
    return NONE if value is None else some(make(value))


def from_option(value: Value, make: Callable[[Value], Any]) -> Any:
    """The value of Python of an Option."""
    return None if value[0] == "None" else make(value[1])


def reference(value: Value) -> Record:
    """What refers to a value."""
    return Record(now=value, ref_ptr=0)


def vector(values: Iterable[Value]) -> Record:
    """A Vec with these elements."""
    return Record(items=listed(values))


def pair(first: Value, second: Value) -> Record:
    """A pair of values."""
    return Record(_0=first, _1=second)


def same(one: Value, other: Value) -> bool:
    """Whether two values are equal."""
    waiting = [(one, other)]
    while waiting:
        one, other = (part.read() if isinstance(part, Joined) else part for part in waiting.pop())
        if one is other:
            continue
        if isinstance(one, Record) and isinstance(other, Record):
            if one.__dict__.keys() != other.__dict__.keys():
                raise TypeError(f"records of two types: {sorted(one.__dict__)}, {sorted(other.__dict__)}")
            waiting += [(value, other.__dict__[name]) for name, value in one.__dict__.items()]
        elif isinstance(one, tuple) and isinstance(other, tuple):
            if len(one) != len(other):
                return False
            waiting += zip(one, other)
        elif one != other:
            return False
    return True


def shown(value: Value) -> str:
    """A value for people: a list of bytes as a text in quotes."""
    if isinstance(value, Record):
        return repr(value)
    value = value.read() if isinstance(value, Joined) else value
    if isinstance(value, tuple) and value and isinstance(value[0], str):
        return value[0] if len(value) == 1 else f"{value[0]}({', '.join(map(shown, value[1:]))})"
    if isinstance(value, tuple):
        found = list(items(value))
        are_bytes = bool(found) and all(isinstance(item, int) and not isinstance(item, bool) and item < 256 for item in found)
        return repr(bytes(found))[1:] if are_bytes else f"[{', '.join(map(shown, found))}]"
    return str(value)


def constructors(value: Value) -> List[str]:
    """The names of the constructors in a list of values without arguments."""
    return [item[0] for item in items(value)]


Memory = Dict[Any, Any]
