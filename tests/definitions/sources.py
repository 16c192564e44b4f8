"""What definitions cite of the code itself: constants, and the variants of enums, read from the `.rt` files of a crate."""

from __future__ import annotations

import re
from functools import lru_cache
from pathlib import Path
from typing import Dict, FrozenSet, List, Union

from checking.loading import ROOT
from definitions.values import Value, listed, reference, text

CRATES = ROOT / "crates"
ALPHANUMERIC = frozenset(b"0123456789ABCDEFGHIJKLMNOPQRSTUVWXYZabcdefghijklmnopqrstuvwxyz")
SETS: Dict[str, FrozenSet[int]] = {
    "NON_ALPHANUMERIC": frozenset(range(128)) - ALPHANUMERIC,
    "CONTROLS": frozenset([*range(32), 127]),
}
ESCAPES = {"n": "\n", "t": "\t", "r": "\r", "0": "\0"}


@lru_cache(maxsize=None)
def source_of(crate: str, module: str) -> str:
    """The source of a module, without its comments."""
    path = Path(CRATES, crate, "src", *module.split(".")).with_suffix(".rt")
    return re.sub(r"(?m)^\s*//.*$", "", path.read_text("utf-8"))


def literal(written: str) -> str:
    """The text of a literal in quotes. A backslash at the end of a line continues it."""
    joined = re.sub(r"\\\n\s*", "", written)
    return re.sub(r"\\(u\{([0-9a-fA-F_]+)\}|x([0-9a-fA-F]{2})|.)", character, joined, flags=re.DOTALL)


def character(found: "re.Match[str]") -> str:
    """The character of an escape."""
    if found[2] or found[3]:
        return chr(int(found[2] or found[3], 16))
    return ESCAPES.get(found[1], found[1])


def set_of(crate: str, module: str, written: str) -> FrozenSet[int]:
    """A set of ASCII bytes by its expression: a set, and what is added and removed."""
    first, *steps = re.split(r"\s*\.(?=add|remove)", written.strip())
    found = SETS[first] if first in SETS else constant(crate, module, first)
    assert isinstance(found, frozenset)
    for step in steps:
        parts = re.fullmatch(r"(add|remove)\(b'(\\?.)'\)\s*", step)
        assert parts is not None, step
        byte = frozenset(literal(parts[2]).encode())
        found = found | byte if parts[1] == "add" else found - byte
    return found


@lru_cache(maxsize=None)
def constant(crate: str, module: str, name: str) -> Union[FrozenSet[int], Value]:
    """A constant as a value: a text to which a reference points, a list of numbers, a number or a set of bytes."""
    found = re.search(rf"(?:const|static) {name}: ([^=]+?) =\s*(.*?);\n", source_of(crate, module), re.DOTALL)
    assert found is not None, f"{crate}: {name}"
    kind, written = found[1], found[2].strip()
    if kind == "AsciiSet":
        return set_of(crate, module, re.sub(r"\Aascii_set!\(|\)\Z", "", written))
    raw = re.match(r'r(#+)"(.*?)"\1', text_after(crate, module, name), re.DOTALL)
    if raw is not None:
        return reference(text(raw[2].encode()))
    if kind in ("&str", "&[u8]") and written.lstrip("b").startswith('"'):
        return reference(text(literal(written.lstrip("b")[1:-1]).encode()))
    if written.startswith("["):
        return listed(number(word) for word in written.strip("[]").replace("\n", " ").split(",") if word.strip())
    raise ValueError(f"{crate}: {name}: {kind}")


def text_after(crate: str, module: str, name: str) -> str:
    """What is after the sign of a constant, with what looks like a comment in it."""
    path = Path(CRATES, crate, "src", *module.split(".")).with_suffix(".rt")
    found = re.search(rf"(?:const|static) {name}: [^=]+? =\s*(.*)", path.read_text("utf-8"), re.DOTALL)
    return found[1] if found is not None else ""


def number(written: str) -> int:
    """A number, with an underscore or a suffix, or that of a character."""
    if written.strip().startswith("'"):
        return ord(literal(written.strip()[1:-1]))
    return int(re.sub(r"_|(?:u8|u16|u32|u64|usize)\Z", "", written.strip()), 0)


@lru_cache(maxsize=None)
def variants(crate: str, module: str, name: str) -> Dict[str, int]:
    """The variants of an enum, each with the number of its arguments."""
    found = re.search(rf"enum {name}(?:<[^>{{]*>)? \{{(.*?)\n\}}", source_of(crate, module), re.DOTALL)
    assert found is not None, f"{crate}: {name}"
    rows: List[str] = [row.strip() for row in re.sub(r"#\[[^\]]*\]", "", found[1]).split("\n")]
    sizes = {}
    for row in re.findall(r"(\w+)((?:\([^()]*(?:\([^()]*\)[^()]*)*\)|\s*\{[^}]*\})?),", " ".join(rows)):
        sizes[row[0]] = 0 if not row[1] else len([part for part in re.split(r",(?![^<(]*[>)])", row[1].strip("(){} ")) if part.strip()])
    return sizes
