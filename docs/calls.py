#!/usr/bin/env python3
"""Print the public calls of each crate, or of the crates named: `docs/calls.py [CRATE ..]`.

For each call the page has its signature, the first sentence of its comment, and its clauses. It
also says whether the call may wait (it has a bound `Wait` or `Threads`) and whether it may run out
of memory (`NoMemory` is one of its errors, or it returns an `AllocError`), and lists its errors in
the order in which they are checked. If an error is a struct, these are the errors of its error
field. The script reads `src/` as text.
"""

from __future__ import annotations

import re
import sys
from pathlib import Path
from typing import Iterator, NamedTuple

ROOT = Path(__file__).resolve().parent.parent
CALL = re.compile(r"( *)pub (?:const )?fn (\w+)(.*)")
OWNER = re.compile(r"^impl(?:<[^{]*?>)? (?:(?:[\w:]+(?:<[^{]*?>)? for )?)(\w+)", re.M)
ENUM = re.compile(r"pub enum (\w+Error|\w*Fault|NoMemory)\b[^{]*\{(.*?)^\}", re.M | re.S)
ERROR_FIELD = re.compile(r"pub struct (\w+)\b[^{;]*\{[^}]*?pub \w+: (\w+),", re.S)
CLAUSE = re.compile(r"^\s*(ensures|requires) ?(\w*) ?\{", re.M)


class Call(NamedTuple):
    name: str
    signature: str
    comment: str
    clauses: list[tuple[str, str, str]]


def errors_in(crates: list[Path]) -> dict[str, list[str]]:
    """The variants of each error, in order."""
    found: dict[str, list[str]] = {}
    for crate in crates:
        for path in sorted(crate.glob("src/**/*.rt")):
            for name, body in ENUM.findall(path.read_text("utf-8")):
                found[name] = re.findall(r"^    ([A-Z]\w*)", body, re.M)
    for crate in crates:
        for path in sorted(crate.glob("src/**/*.rt")):
            for name, error in ERROR_FIELD.findall(path.read_text("utf-8")):
                if error in found:
                    found[name] = found[error]
    return found


def exported(crate: Path) -> set[str]:
    """The names that the root file or one of its public modules exports."""
    root = (crate / "src/lib.rt").read_text("utf-8")
    modules = re.findall(r"^pub mod (\w+);", root, re.M)
    texts = [root, *((crate / f"src/{name}.rt").read_text("utf-8") for name in modules)]
    uses = re.findall(r"^pub use [^;]*;", "\n".join(texts), re.M)
    calls = re.findall(r"^pub fn (\w+)", "\n".join(texts[1:]), re.M)
    return set(re.findall(r"\w+", " ".join(uses))) | set(calls)


def doc_above(lines: list[str], start: int) -> str:
    """The doc comment above a line, as one text."""
    lines_above: list[str] = []
    for line in map(str.strip, reversed(lines[:start])):
        if not line.startswith(("///", "#[")):
            break
        lines_above += [line[3:].strip()] if line.startswith("///") else []
    return " ".join(reversed(lines_above))


def head_of(lines: list[str], start: int) -> list[str]:
    """The lines of a function from its name to its body."""
    rest = enumerate(lines[start:], start)
    end = next(k for k, line in rest if line.strip() in ("{", "{}") or line.endswith((" {", " {}")))
    last = lines[end].rstrip("{} ")
    return lines[start:end] + ([last] if last else [])


def clauses_of(text: str) -> Iterator[tuple[str, str, str]]:
    """The kind, label and text of each clause, up to its closing brace."""
    for match in CLAUSE.finditer(text):
        depth, end = 1, match.end()
        while depth and end < len(text):
            depth += {"{": 1, "}": -1}.get(text[end], 0)
            end += 1
        yield match[1], match[2], re.sub(r"\s+", " ", text[match.end():end - 1]).strip()


def calls_of(text: str) -> Iterator[Call]:
    lines = text.splitlines()
    for start, line in enumerate(lines):
        found = CALL.fullmatch(line)
        if found is None:
            continue
        owners = OWNER.findall("\n".join(lines[:start])) if found[1] else []
        head = head_of(lines, start)
        ends = (k for k, it in enumerate(head) if CLAUSE.match(it) or it.strip().startswith("//"))
        split = next(ends, len(head))
        signature = re.sub(r"\s+", " ", " ".join(head[:split])).partition(found[2])[2].strip()
        yield Call(
            f"{owners[-1]}::{found[2]}" if owners else found[2],
            re.sub(r",? \)", ")", signature.replace("( ", "(")),
            re.split(r"(?<=\.) ", doc_above(lines, start))[0],
            list(clauses_of("\n".join(head[split:]))),
        )


def lines_of(call: Call, errors: dict[str, list[str]]) -> Iterator[str]:
    error = re.search(r"Result<.*?,\s*(\w+)>", call.signature)
    variants = errors.get(error[1], []) if error else []
    waits = re.search(r"\b(Wait|Threads)\b", call.signature) is not None
    memory = "NoMemory" in variants or bool(error and error[1] in ("AllocError", "NoMemory"))
    yield f"### `{call.name}`\n"
    yield f"```rust\nfn {call.name.split('::')[-1]}{call.signature}\n```\n"
    comment = call.comment or "(no comment)"
    waiting = "May wait" if waits else "Does not wait"
    yield f"{comment} {waiting}; {'may' if memory else 'does not'} run out of memory.\n"
    if error:
        yield f"Errors: {', '.join(f'`{it}`' for it in variants) or f'`{error[1]}`'}.\n"
    for kind, label, clause in call.clauses:
        yield f"- {kind} {label or '(unnamed)'}: `{clause}`"
    yield ""


def main(names: list[str]) -> None:
    libraries = [path.parent.parent for path in sorted(ROOT.glob("crates/*/src/lib.rt"))]
    crates = [path for path in libraries if not path.name.endswith("_tests")]
    errors = errors_in(crates)
    print("# Public calls\n")
    for crate in crates:
        if names and crate.name not in names:
            continue
        print(f"## `{crate.name}`\n")
        names_out = exported(crate)
        for path in sorted(crate.glob("src/**/*.rt")):
            for call in calls_of(path.read_text("utf-8")):
                if call.name.split("::")[0] in names_out:
                    print("\n".join(lines_of(call, errors)))


if __name__ == "__main__":
    main(sys.argv[1:])
