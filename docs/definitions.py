#!/usr/bin/env python3
"""Print the definitions that contracts use, directly or through others, and what each says.

  docs/definitions.py            print a page: a reading list for each theorem of THEOREMS, and a
                                 table of each crate's definitions
  docs/definitions.py --check    check that each definition that a public contract uses is in a
                                 table, and that the calls of each theorem exist; the last line is
                                 `N passed, M failed`, and the exit status is 1 if one failed

A row of a table has the comment above the definition in `specs/`. A definition without a comment is
in the row of the one above it. The script reads `specs/` and `src/` as text: a definition uses the
names in its text that its file imports or defines.
"""

from __future__ import annotations

import re
import signal
import sys
from pathlib import Path
from typing import Iterable, Iterator, NamedTuple, Optional

ROOT = Path(__file__).resolve().parent.parent


class Calls(NamedTuple):
    """Public functions of a file of a crate's `src/`: those with these names, or all."""

    crate: str
    file: str
    names: tuple[str, ...] = ()


THEOREMS = (
    ("The frontier as a machine", (Calls("crawl_core", "runs.rt", ("run",)), Calls("crawl_core", "laws.rt"))),
    ("The gate", (
        Calls("crawl_gate", "gate.rt"), Calls("crawl_gate", "gate/load.rt"), Calls("crawl_gate", "gate/enter.rt"),
        Calls("crawl_gate", "gate/leave.rt"), Calls("crawl_gate", "gate/close.rt"), Calls("crawl_gate", "laws.rt"),
    )),
    ("The frontier for threads", (
        Calls("crawl_frontier", "new_frontier.rt"), Calls("crawl_frontier", "frontier.rt"),
        Calls("crawl_frontier", "seeder.rt"), Calls("crawl_frontier", "sender.rt"),
        Calls("crawl_frontier", "worker.rt"), Calls("crawl_frontier", "busy_worker.rt"),
        Calls("crawl_frontier", "finish.rt"), Calls("crawl_frontier", "account.rt"),
        Calls("crawl_queues", "laws.rt"),
    )),
    ("Threads and machine", (Calls("crawl_tie", "laws.rt"),)),
    ("The certificate", (
        Calls("crawl_certificate", "certificate.rt", ("certify",)), Calls("crawl_certificate", "laws.rt"),
    )),
    ("A crawl, from bytes to the report", (
        Calls("crawl_run", "whole_crawl.rt", ("crawl", "crawl_with")), Calls("crawl_run", "laws.rt"),
        Calls("mercator", "commands.rt", ("run_plan",)), Calls("mercator", "laws.rt"),
    )),
    ("A check, from files to the report", (
        Calls("mercator_site", "check.rt", ("report_of_files",)),
        Calls("mercator_site", "folder.rt", ("report_of_folder",)),
        Calls("mercator", "commands.rt", ("run_plan",)),
    )),
    ("A replay, from bytes to bytes", (
        Calls("crawl_replay", "replay.rt", ("replay_text",)), Calls("crawl_replay", "laws.rt"),
    )),
    ("A session, from requests to answers", (
        Calls("crawl_session", "serving.rt", ("serve",)), Calls("crawl_session", "session.rt", ("answer",)),
        Calls("crawl_session", "laws.rt"),
    )),
    ("An HTML document", (
        Calls("html_links", "document.rt", ("tags",)), Calls("html_links", "reader.rt", ("read_page",)), Calls("html_links", "placed.rt", ("read_places",)),
        Calls("html_links", "style.rt", ("read_style",)), Calls("document_links", "document.rt", ("read_document",)),
        Calls("document_links", "document_start.rt", ("is_document",)), Calls("document_links", "laws.rt"),
    )),
    ("The program", (
        Calls("mercator", "commands.rt", ("run_words", "run_plan")),
        Calls("mercator", "commands/plan_parser.rt", ("plan",)),
    )),
)

# Names of the toolchain that mean what they mean in every text of mathematics.
PLAIN = frozenset(
    "◌≡◌ ◌≢◌ ◌+◌ ◌-◌ ◌*◌ ◌/◌ ◌%◌ ◌^◌ ◌<◌ ◌≤◌ ◌⊎◌ ◌↔◌ ◌∷◌ ◌++◌ ◌&&◌ ◌||◌ ◌==◌ ◌∧◌ [] ℕ zero suc Bool"
    " true false not List Option Some None Result Ok Err Type if◌then◌else◌ length map Unit tt".split()
)
DEFINITION = re.compile(r"(?:(abbrev|unfoldable)(?: pub)?|pub (record|data)|(record|data)) ([^\s:(]+)")
ROW = re.compile(r"(?:(?:abbrev|unfoldable) pub|pub (?:record|data)|unfoldable|abbrev) ([^\s:(]+)")
WORD = re.compile(
    r"(?<![\w.'-])([A-Za-z_ℕ][\w'ℕ-]*(?:\.[A-Za-z_][\w'-]*)?)|([^\w\s(){},;.λ→×\"'\[\]]+)|(\[\])"
)
PUBLIC = re.compile(r"^\s*pub (?:const )?fn (\w+)", re.M)
HEAD_END = re.compile(r"\n\s*\{\}?\s*\n|\n\s*\{\n")


class Definition(NamedTuple):
    path: str
    name: str
    text: str

    def lines(self) -> int:
        """How many lines it has, without comments."""
        kept = (line.strip() for line in self.text.splitlines())
        return sum(1 for line in kept if line and not line.startswith("--"))


class Name(NamedTuple):
    """A name of the toolchain's crates, and its module."""

    module: str
    name: str


class Imports(NamedTuple):
    """What a file imports: names, and whole modules by the last name in their path."""

    names: dict[str, Name]
    modules: dict[str, str]


class Reached(NamedTuple):
    ours: set[Definition]
    others: set[Name]

    def add(self, more: Reached) -> None:
        self.ours.update(more.ours)
        self.others.update(more.others)


class SpecFile(NamedTuple):
    imports: Imports
    own: dict[str, Definition]


def read(path: str) -> str:
    return (ROOT / path).read_text("utf-8")


def imports_of(text: str, is_ghost: bool) -> Imports:
    lead = "ghost use " if is_ghost else "use "
    found = Imports({}, {})
    pattern = r"^\s*" + lead + r"([\w.«»]+?)(?:\.\{([^}]*)\})?(?: as (\S+?))?;?\s*$"
    for module, items, alias in re.findall(pattern, text, re.M):
        if not items:
            found.modules[alias or module.split(".")[-1]] = module
        for item in items.split(","):
            own, _, other = item.strip().partition(" as ")
            if own:
                found.names[(other or own).strip()] = Name(module, own.strip())
    return found


def words(text: str) -> set[str]:
    """The identifiers of a text, also qualified ones, without the fields after a dot."""
    text = re.sub(r"(--|//).*", "", text)
    found: set[str] = set()
    for match in WORD.finditer(text):
        found.add(match[0])
        if "." in match[0]:
            found.add(match[0].split(".")[0])
    return found


def definitions_in(path: str, text: str) -> dict[str, Definition]:
    """The definitions of a file of `specs/`."""
    found: dict[str, list[str]] = {}
    name = None
    for line in text.splitlines():
        match = DEFINITION.match(line)
        if match:
            name = match[4]
            found[name] = []
        elif re.match(r"(--|use )", line):
            name = None
        if name:
            found[name].append(line)
    return {name: Definition(path, name, "\n".join(lines)) for name, lines in found.items()}


class Crates:
    """The definitions of all crates, by their files."""

    def __init__(self) -> None:
        self.files: dict[str, SpecFile] = {}
        for file in sorted(ROOT.glob("crates/*/specs/**/*.antt")):
            if file.name != "Lib.antt":
                path = file.relative_to(ROOT).as_posix()
                text = read(path)
                self.files[path] = SpecFile(imports_of(text, False), definitions_in(path, text))

    def home(self, module: str) -> Optional[str]:
        """The file in `specs/` of a module, if the module is one of ours."""
        match = re.match(r"Rattle\.(\w+)\.specs\.(?!declared)([\w.]+)$", module)
        if not match:
            return None
        path = f"crates/{match[1]}/specs/{match[2].replace('.', '/')}.antt"
        return path if path in self.files else None

    def reached(self, text: str, imports: Imports, own: dict[str, Definition]) -> Reached:
        """What a text uses: definitions of ours, and names of the toolchain."""
        found = Reached(set(), set())
        used = words(text)
        for word in used:
            plain, _, rest = word.partition(".")
            if plain in own:
                found.ours.add(own[plain])
            name = imports.names.get(word, imports.names.get(plain))
            if name:
                self.resolve(name, found)
            if rest and plain in imports.modules:
                self.resolve(Name(imports.modules[plain], rest), found)
        for name_here, name in imports.names.items():
            if name_here.startswith("◌") and name_here.strip("◌") in used:
                self.resolve(name, found)
        return found

    def resolve(self, name: Name, found: Reached) -> None:
        path, own = self.home(name.module), name.name
        if path is None and re.match(r"Rattle\.\w+\.specs\.", name.module):
            # The constructors of a record or of data are in a module with its name.
            above, _, last = name.module.rpartition(".")
            path = self.home(above)
            own = own if path is None else last
        if path is not None:
            definition = self.files[path].own.get(own)
            if definition is not None:
                found.ours.add(definition)
        elif ".declared." not in name.module and own not in PLAIN:
            found.others.add(name)

    def closure(self, found: Reached) -> Reached:
        """Everything that these use, directly or through others."""
        rest, all_of = list(found.ours), Reached(set(), set(found.others))
        while rest:
            definition = rest.pop()
            if definition in all_of.ours:
                continue
            all_of.ours.add(definition)
            file = self.files[definition.path]
            others = {name: other for name, other in file.own.items() if name != definition.name}
            more = self.reached(definition.text, file.imports, others)
            all_of.others.update(more.others)
            rest += more.ours - all_of.ours
        return all_of


def clauses_of(text: str, names: tuple[str, ...] = ()) -> str:
    """The clauses of the public functions of a file with these names, or of all of them."""
    heads = []
    for match in PUBLIC.finditer(text):
        if not names or match[1] in names:
            head = text[match.start():]
            end = HEAD_END.search(head + "\n{\n")
            heads.append(head[:end.start()] if end else head)
    return "\n".join(re.sub(r"///.*", "", head) for head in heads)


def missing_calls() -> Iterator[str]:
    """The calls of theorems that do not exist."""
    for title, theorem in THEOREMS:
        for crate, file, names in theorem:
            path = f"crates/{crate}/src/{file}"
            public = PUBLIC.findall(read(path)) if (ROOT / path).is_file() else []
            if not public or not set(names) <= set(public):
                yield f"{title}: no such call in {path}: {', '.join(names) or 'any'}"


def contract(crates: Crates, calls: Calls) -> Reached:
    text = read(f"crates/{calls.crate}/src/{calls.file}")
    return crates.reached(clauses_of(text, calls.names), imports_of(text, True), {})


def reading_list(crates: Crates, title: str, theorem: Iterable[Calls]) -> Iterator[str]:
    found = Reached(set(), set())
    named = []
    for calls in theorem:
        found.add(contract(crates, calls))
        named += [f"`{name}`" for name in calls.names or (f"{calls.crate}/{calls.file}",)]
    found = crates.closure(found)
    yield f"### {title}\n\nThe contracts of {', '.join(named)}.\n"
    yield "| File | Lines | Definitions |\n|---|---|---|"
    for path in sorted({definition.path for definition in found.ours}):
        here = [definition for definition in crates.files[path].own.values() if definition in found.ours]
        lines = sum(definition.lines() for definition in here)
        yield f"| `{path.replace('crates/', '')}` | {lines} | {', '.join(f'`{it.name}`' for it in here)} |"
    lines = sum(definition.lines() for definition in found.ours)
    yield f"| **in all** | **{lines}** | {len(found.ours)} definitions |\n"
    others = sorted({it.name for it in found.others if not it.name.startswith("◌")}, key=str.lower)
    yield f"From the toolchain: {', '.join(f'`{name}`' for name in others)}.\n"


def comment_above(lines: list[str], start: int) -> str:
    """The comment directly above a line, as one sentence."""
    found: list[str] = []
    for line in reversed(lines[:start]):
        match = re.match(r"-- ?(.*)", line)
        if not match or re.match(r"(----|##)", match[1]):
            break
        found.append(match[1].strip())
    return " ".join(reversed(found))


def table_of(path: str) -> Iterator[str]:
    """A table of a file's definitions, each with its comment."""
    lines = read(path).splitlines()
    count = next((number for number, line in enumerate(lines) if not line.startswith("--")), len(lines))
    head = " ".join(line.lstrip("- ").strip() for line in lines[:count])
    yield f"**`{'/'.join(path.split('/')[2:])}`**: {head}\n"
    rows: list[tuple[list[str], str]] = []
    for number, line in enumerate(lines):
        match = ROW.match(line)
        if match:
            comment = comment_above(lines, number)
            if comment or not rows:
                rows.append(([match[1]], comment))
            else:
                rows[-1][0].append(match[1])
    if rows:
        yield "| Definition | In plain words |\n|---|---|"
        for names, comment in rows:
            comment = comment.replace("|", "\\|")
            yield f"| {', '.join(f'`{name}`' for name in names)} | {comment} |"
        yield ""


def reached_by_contracts(crates: Crates) -> set[Definition]:
    """Every definition that a public contract or a ghost member uses."""
    found = Reached(set(), set())
    for file in sorted(ROOT.glob("crates/*/src/**/*.rt")):
        if "tests" not in str(file.relative_to(ROOT)):
            text = file.read_text("utf-8")
            ghosts = re.findall(r"^\s*ghost (?!use)\w+[ :=].*$", text, re.M)
            clauses = "\n".join([clauses_of(text), *ghosts])
            found.ours.update(crates.reached(clauses, imports_of(text, True), {}).ours)
    return crates.closure(found).ours


def page_of(crates: Crates) -> str:
    """The whole page."""
    lists = [line for title, theorem in THEOREMS for line in reading_list(crates, title, theorem)]
    parts = ["# Definitions", "## Reading lists", "\n".join(lists)]
    for crate in sorted({path.split("/")[1] for path in crates.files}):
        files = sorted(path for path in crates.files if path.split("/")[1] == crate)
        parts += [f"## `{crate}`", "\n".join(line for path in files for line in table_of(path))]
    return "\n\n".join(part.strip() for part in parts) + "\n"


def without_row(crates: Crates, reached: set[Definition]) -> list[str]:
    """What public contracts use and the page's tables do not have."""
    rows: set[str] = set()
    for line in page_of(crates).splitlines():
        if line.startswith("| `"):
            rows.update(re.findall(r"`([^`]+)`", line.split(" | ")[0]))
    return sorted(f"no row for {it.path}: {it.name}" for it in reached if it.name not in rows)


def check() -> int:
    """Print what is missing and the counts, and return the exit status."""
    missing = list(missing_calls())
    all_calls = sum(len(theorem) for _, theorem in THEOREMS)
    if not missing:
        crates = Crates()
        reached = reached_by_contracts(crates)
        missing = without_row(crates, reached) if reached else ["no contract uses a definition"]
        all_calls += len(reached)
    print(*missing, sep="\n", end="\n" if missing else "")
    print(f"{all_calls - len(missing)} passed, {len(missing)} failed")
    return 1 if missing else 0


def main() -> int:
    if sys.argv[1:] == ["--check"]:
        return check()
    missing = list(missing_calls())
    if missing:
        print(*missing, sep="\n", file=sys.stderr)
        return 1
    signal.signal(signal.SIGPIPE, signal.SIG_DFL)  # the reader may end first, such as `head`
    print(page_of(Crates()), end="")
    return 0


if __name__ == "__main__":
    sys.exit(main())
