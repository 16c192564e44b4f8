#!/usr/bin/env python3
"""Check the repository's documents, and the English of its pages, messages and comments.

  docs/check.py                     check everything, and exit with status 1 if a check fails
  docs/check.py --words [FILE ..]   list each phrase to avoid in these files, or in all
  docs/check.py --counts [REVISION] count these phrases, now and in a revision
  docs/check.py --ceilings          print the table CEILINGS with the counts as they are now

Each document is checked for:

- links: every link leads to a file of the repository, and to a heading of it if it has a fragment.
- names: a path in backticks exists in the document's folder, its crate, `crates/`, `docs/`,
  `tests/` or the root, unless a build makes it; a name in backticks occurs in a file that is no
  document.
- quotations: code after a line that begins with "From `PATH`" is in that file, piece by piece. The
  README of each library quotes a caller, so that its example is proved.
- dates: only the figures and the change log say when something was so.
- size: README is at most README_BYTES long, an entry of DECISIONS at most ENTRY_WORDS.

Groups of files (see GROUPS) are searched for phrases that a reader has to translate (see PHRASES).
In documents they are also searched for table cells of more than CELL_WORDS words, and sentences of
more than SENTENCE_WORDS; code in backticks counts as one word. Phrases in quotation marks do not
count. In Rattle sources comments are searched, and functions without one are counted, but for tests.
Each name in a source or a definition is searched too, once for each file, as the words that it is
made of: `tell_fault` is `tell fault`.
The table CEILINGS has the most that a group may have of each. These numbers may be lowered, but not
raised.

The last line is `N passed, M failed`. The commands that the pages show are run by `tests/cases.py`.
"""

from __future__ import annotations

import argparse
import ast
import io
import re
import subprocess
import sys
import tarfile
from pathlib import Path
from typing import Callable, Iterable, Iterator, NamedTuple, Optional

HERE = Path(__file__).resolve().parent.parent
README_BYTES = 8_200
ENTRY_WORDS = 100
CELL_WORDS = 25
SENTENCE_WORDS = 35

DATED = ("bench/FIGURES.md", "CHANGELOG.md")
DATE = re.compile(
    r"\b(today|tonight|yesterday|until then|this morning|20\d\d-\d\d-\d\d"
    r"|(?:November|December) 20\d\d)\b",
    re.I,
)
QUOTED = re.compile(r"^From `([^`]+)`[^\n]*\n\n```rust\n(.*?)^```$", re.M | re.S)
ENTRY = re.compile(r"^- .*\n(?:(?!- |#).+\n?)*", re.M)
LINK = re.compile(r"\]\(([^)#\s]*)(?:#([^)\s]*))?\)")
HEADING = re.compile(r"^#+ (.*)$", re.M)
TICKED = re.compile(r"`([^`]+)`")
QUOTATION = re.compile(r'"[^"]*"')
PATH = re.compile(r"(?:[\w.-]+/)+[\w.-]*")
NAME = re.compile(r"(?:[A-Za-z_]\w*(?:::|\.))*([A-Za-z_]\w{4,})(?:\(.*\)|!)?")
WORD = re.compile(r"[A-Za-z_]\w*")
# A placeholder for any name, and documents of the toolchain that pages name.
PLACEHOLDERS = {"NAME_tests"}
TOOLCHAIN = ("docs/NOT_COVERED.md", "docs/REFUSED.md")
# Pages that also name what was rejected or is gone.
WITH_REJECTED_NAMES = ("CHANGELOG.md", "docs/DECISIONS.md", "docs/PROOFS.md")


# ---------------------------------------------------------------- the files

class Files:
    """The tracked text files of a work tree or a revision, by name."""

    def __init__(self, texts: dict[str, str]) -> None:
        self.texts = texts

    @classmethod
    def of_work_tree(cls, root: Path) -> Files:
        listed = git(root, "ls-files", "-z").decode().split("\0")
        paths = [(name, root / name) for name in listed if name]
        return cls({name: path.read_text("utf-8", "replace")
                    for name, path in paths if path.is_file()})

    @classmethod
    def of_revision(cls, root: Path, revision: str) -> Files:
        texts = {}
        with tarfile.open(fileobj=io.BytesIO(git(root, "archive", revision))) as archive:
            for member in archive:
                file = archive.extractfile(member) if member.isfile() else None
                if file is not None:
                    texts[member.name] = file.read().decode("utf-8", "replace")
        return cls(texts)

    def documents(self) -> list[str]:
        return [name for name in self.texts if name.endswith(".md")]


def git(root: Path, *arguments: str) -> bytes:
    return subprocess.run(["git", *arguments], cwd=root, check=True, capture_output=True).stdout


# ---------------------------------------------------------------- texts of a file

class Unit(NamedTuple):
    """A paragraph, an item of a list, a cell of a table, or a string of a program."""

    line: int
    text: str
    is_cell: bool = False
    is_title: bool = False
    is_of_names: bool = False


ITEM = re.compile(r"\s*(?:[-*#>]+|\d+\.)\s+")
# The code before a comment, and its text: `//`, `///` and `//!` in sources, `--` in definitions.
COMMENT = re.compile(r"\s*(.*?)\s*(?<![^\s])(?://[/!]?|--)(?:\s+(.*))?$")
TESTS = re.compile(r"/tests\b|_tests/|crates/library_calls/")
FUNCTION = re.compile(r"\s*(?:pub(?:\([^)]*\))? )?(?:const |ghost |unsafe )*fn (\w+)")
IMPORT = re.compile(r"\s*(?:pub |ghost )?use\b")
NAME_IN_CODE = re.compile(r"[A-Za-z_]\w*")
WORD_OF_NAME = re.compile(r"[A-Z]?[a-z0-9]+|[A-Z]+(?![a-z])")
PLACEHOLDER = re.compile(r"\{[\w:?.#<>]*\}")
SCRIPT_OF_PAGE = "'use strict'"
ROFF_TEXT = re.compile(r"\.(?:B|I|BR|RB|BI|IB|IR|RI|SM|SB) (.*)")
RATTLE_TOKEN = re.compile(
    r"//[^\n]*|/\*.*?\*/|'(?:\\.[^']*|[^'\\])'"
    r"|r\"([^\"]*)\"|r(#+)\"(.*?)\"\2|\"((?:\\.|[^\"\\])*)\"",
    re.S,
)
RATTLE_ESCAPES = {"n": "\n", "t": " ", "r": "", '"': '"', "\\": "\\", "0": ""}


def prose(text: str) -> Iterator[tuple[int, str]]:
    """The lines of a document outside fenced blocks, with their numbers."""
    is_fenced = False
    for number, line in enumerate(text.splitlines(), 1):
        if line.lstrip().startswith("```"):
            is_fenced = not is_fenced
        elif not is_fenced:
            yield number, line


def units_of_markdown(text: str) -> Iterator[Unit]:
    """Paragraphs, items and cells. Code in backticks becomes one word, and links their texts."""
    pieces: list[str] = []
    first = above = 0
    for number, line in prose(text + "\n\n"):
        item = ITEM.match(line)
        is_row = line[:1] == "|"
        if pieces and (not line.strip() or item or is_row or number > above + 1):
            yield Unit(first, " ".join(pieces))
            pieces = []
        above = number
        line = TICKED.sub("code", line).replace("**", "")
        line = re.sub(r"!?\[([^\]]*)\]\([^)]*\)", r"\1", line)
        if is_row:
            yield from (Unit(number, cell.strip(), True) for cell in line.split("|"))
        elif line.startswith("#"):
            yield Unit(number, line.strip("# "), is_title=True)
        elif line.strip():
            first = first if pieces else number
            pieces.append(line[item.end() if item else 0:].strip())


def units_of_manual_page(text: str) -> Iterator[Unit]:
    pieces: list[str] = []
    first = 1
    for number, line in enumerate((text + "\n.PP\n").splitlines(), 1):
        macro = ROFF_TEXT.match(line)
        if line.startswith(".") and not macro:
            if pieces:
                yield Unit(first, " ".join(pieces))
            pieces = []
            continue
        content = macro[1].replace('"', "") if macro else line
        first = first if pieces else number
        pieces.append(re.sub(r"\\f.", "", content).replace("\\-", "-").replace("\\|", ""))


def units_of_rattle(text: str) -> Iterator[Unit]:
    """The string literals of a Rattle file, but for the script of a page, cut at empty lines."""
    for token in RATTLE_TOKEN.finditer(text):
        content = next((it for it in (token[1], token[3], token[4]) if it is not None), "")
        if SCRIPT_OF_PAGE in content:
            continue
        if token[4] is not None:
            content = re.sub(r"\\\n\s*", "", content)
            content = re.sub(r"\\(.)", lambda it: RATTLE_ESCAPES.get(it[1], " "), content)
        content = PLACEHOLDER.sub("X", content)
        line = text.count("\n", 0, token.start()) + 1
        yield from (Unit(line, paragraph) for paragraph in content.split("\n\n") if paragraph.strip())


def units_of_comments(text: str) -> Iterator[Unit]:
    """The comments of a Rattle source, definition or proof, without the code in them."""
    pieces: list[str] = []
    first = 0
    is_fenced = False
    for number, line in enumerate((text + "\n\n").splitlines(), 1):
        comment = COMMENT.match(line)
        content = (comment[2] or "") if comment else ""
        if pieces and (not content or comment and comment[1]):
            yield Unit(first, " ".join(pieces))
            pieces = []
        is_fenced = comment is not None and is_fenced != content.startswith("```")
        if content and not is_fenced and not content.startswith("```"):
            first = first if pieces else number
            pieces.append(TICKED.sub("code", content))


def units_of_names(text: str) -> Iterator[Unit]:
    """The names in the code of a Rattle source or definition, each once, with spaces between their
    words: `CannotTell` is `Cannot Tell`. Comments, strings and imports have none."""
    code = RATTLE_TOKEN.sub(lambda it: "\n" * it[0].count("\n"), text)
    known = {"where"}  # a keyword
    for number, line in enumerate(code.splitlines(), 1):
        content = line.partition(" -- ")[0]
        names = [] if IMPORT.match(content) or content.startswith("--") else NAME_IN_CODE.findall(content)
        added = [name for name in dict.fromkeys(names) if name not in known]
        known.update(added)
        if added:
            words = "; ".join(" ".join(WORD_OF_NAME.findall(name)) for name in added)
            yield Unit(number, words, is_of_names=True)


def functions_without_comment(text: str) -> Iterator[tuple[int, str]]:
    """The functions that no comment is written above, with their lines, but for a trait's methods
    in an implementation: the trait has the comment."""
    has_comment = is_of_trait = False
    for number, line in enumerate(text.splitlines(), 1):
        if re.match(r"\S", line):
            is_of_trait = re.match(r"(?:unsafe )?impl\b.* for ", line) is not None
        function = FUNCTION.match(line)
        if function is not None and not has_comment and not is_of_trait:
            yield number, function[1]
        has_comment = line.lstrip().startswith("//") or has_comment and line.lstrip().startswith("#[")


def units_of_python(text: str) -> Iterator[Unit]:
    """The docstring and strings of a program, without the docstrings inside it."""
    tree = ast.parse(text)
    inner = inner_docstrings(tree)
    yield from units_of_strings(it for it in ast.walk(tree) if it not in inner)


def units_of_library(text: str) -> Iterator[Unit]:
    """All docstrings and strings of a module that others import."""
    yield from units_of_strings(ast.walk(ast.parse(text)))


def inner_docstrings(tree: ast.AST) -> set[ast.AST]:
    found: set[ast.AST] = set()
    for node in ast.walk(tree):
        if isinstance(node, (ast.FunctionDef, ast.AsyncFunctionDef, ast.ClassDef)):
            first = node.body[0]
            if isinstance(first, ast.Expr):
                found.add(first.value)
    return found


def units_of_strings(nodes: Iterable[ast.AST]) -> Iterator[Unit]:
    for node in nodes:
        if isinstance(node, ast.Constant) and isinstance(node.value, str):
            for paragraph in node.value.split("\n\n"):
                yield Unit(node.lineno, re.sub(r"``?[^`\n]+``?", "code", paragraph))


def units_of_shell(text: str) -> Iterator[Unit]:
    """The comment at the top of a script, and the texts that it prints."""
    is_top = True
    for number, line in enumerate(text.splitlines(), 1):
        is_top = is_top and line.startswith("#")
        if is_top:
            yield Unit(number, line)
        elif re.match(r".*\b(?:echo|printf|fail|die) ", line):
            for content in re.findall(r"\"[^\"]*\"|'[^']*'", line):
                yield Unit(number, re.sub(r"\$\w+", "X", content.strip("\"'")))


READERS: tuple[tuple[str, Callable[[str], Iterator[Unit]]], ...] = (
    (r".*\.md", units_of_markdown),
    (r".*\.1", units_of_manual_page),
    (r".*\.rt", units_of_rattle),
    (r"clients/.*\.py", units_of_library),
    (r".*\.py", units_of_python),
    (r".*\.sh", units_of_shell),
)


def units_of(name: str, text: str) -> list[Unit]:
    reader = next((it for pattern, it in READERS if re.fullmatch(pattern, name)), None)
    return sorted(reader(text)) if reader is not None else []


# ---------------------------------------------------------------- phrases

class Phrase(NamedTuple):
    """A phrase to avoid: of which rule it is, and what to write."""

    rule: str
    name: str
    pattern: re.Pattern[str]
    instead: str


def phrase(rule: str, name: str, pattern: str, instead: str) -> Phrase:
    return Phrase(rule, name, re.compile(pattern, re.I), instead)


VERBS, CONDITIONS, TERMS, GRAMMAR = "verbs", "conditions", "terms", "grammar"
# Before these words "where" is about a place: "the file where", "resumes where", "see where".
BEFORE_PLACES = (
    "place places page pages file files folder folders directory line lines column section table"
    " machine host location locations position point site row part"
    " begin begins start starts stop stops stopped end ends resume resumes resumed continue"
    " continues stay stays tell tells write writes say says know knows known see find finds"
    " show shows print prints list lists report reports remember remembers learn learns decide"
    " decides matter matters also is are was were to from of about on or and"
)
WHERE = (
    r"(?<![\w-])" + "".join(rf"(?<!\b{it} )" for it in BEFORE_PLACES.split()) + r"where\b(?!-)"
    r"(?! code(?: is| are| and|[;,.]))(?! (?:to|is|are|do|does|can)\b)(?![^.?!]*\?)"
)
PHRASES = (
    phrase(VERBS, "tell", r"\b(?:tells?|told|telling)\b", "report, print, list, show"),
    phrase(VERBS, "stand", r"(?<!-)\b(?:stands?|stood|standing)\b(?!-)", "be, appear; match"),
    phrase(VERBS, "want", r"(?<!you )(?<!who )\b(?:wants?|wanted)\b", "need, require"),
    phrase(VERBS, "answer (of a function)", r"\banswer(?:s|ed|ing)?\b", "return"),
    phrase(VERBS, "asked", r"\basked\b", "target; requested; called"),
    phrase(VERBS, "go on", r"\b(?:go|goes|going|went|gone) on\b", "resume, continue"),
    phrase(VERBS, "mend", r"\bmend(?:s|ed|ing)?\b", "fix"),
    phrase(CONDITIONS, "where (condition)", WHERE, "if, when"),
    phrase(CONDITIONS, "behind", r"\bbehind\b", "after, following"),
    phrase(CONDITIONS, "beside", r"\bbesides?\b", "next to, in addition to, except"),
    phrase(CONDITIONS, "at once", r"\bat once\b", "immediately; at the same time"),
    phrase(TERMS, "growth", r"\bgrowths?\b", "allocation"),
    phrase(TERMS, "wrong body", r"\bwrong bod(?:y|ies)\b", "mutant"),
    phrase(TERMS, "not taken", r"\bnot taken\b", "rejected"),
    phrase(TERMS, "drawn", r"\b(?:drawn|draws)\b", "random, generated"),
    phrase(TERMS, "reckon", r"\breckon\w*", "compute, estimate; an independent model"),
    phrase(TERMS, "of processor, of clock", r"\bof (?:a )?(?:processors?|clock)\b",
           "CPU minutes, elapsed minutes"),
    phrase(TERMS, "fault", r"\bfault(?:s|y)?\b", "error"),
    phrase(TERMS, "words (arguments)", r"(?<!plain )(?<!other )\bwords\b", "arguments"),
    phrase(TERMS, "in hand", r"\bin hand\b", "in progress"),
    phrase(TERMS, "strangers", r"\bstrangers?\b|\bwhoever\b", "an attacker, untrusted input"),
    phrase(TERMS, "kit", r"\bkits?\b", "the Rattle toolchain"),
    phrase(TERMS, "plain texts", r"\bplain (?:texts?|urls?)\b", "common URL forms"),
    phrase(TERMS, "worked row", r"\bworked rows?\b", "test vector, named case"),
    phrase(TERMS, "subqueue", r"\bsubqueues?\b", "queue"),
    phrase(GRAMMAR, "one a line", r"\ba line each\b|\b(?:(?:an?|one) \w+|one|each) an? (?:line"
           r"|request|row|page|step|file|host|function|link|record|copy)\b", "one .. per line"),
    phrase(GRAMMAR, "alone (only)", r"\balone\b", "only"),
    phrase(GRAMMAR, "so many, as many", r"\b(?:so|as) many\b", "N, the given number of"),
    phrase(GRAMMAR, "the same of", r"\bthe same of\b", "likewise for"),
)
CELLS = f"cells over {CELL_WORDS} words"
SENTENCES = f"sentences over {SENTENCE_WORDS} words"
NO_COMMENT = "functions without a comment"
ALL_NAMES = (*(it.name for it in PHRASES), CELLS, SENTENCES, NO_COMMENT)

# An answer is right in what speaks of requests to `mercator serve` or to a server.
OF_SESSIONS = re.compile(r"docs/(?:SESSION|SCALE|FORMATS)\.md|clients/.*|crates/crawl_session/.*")
SESSION = re.compile(
    r"\b(?:request|session|client|server|protocol|serve|co-process|http|redis|identity|sync)", re.I)
# The word of the gate is one of the machine's; these crates have names for it, and for those that senders remember.
OF_GATES = re.compile(r"crates/(?:crawl_(?:core|frontier|gate|queues|run|session|tie)|link_offers)/.*")
GATE = re.compile(
    r"\b(?:gate|atomic|closed|open|met|load|seat|sender|exchange|in (?:the )?words)", re.I)
SENTENCE_END = re.compile(r"(?<![.]\.)[.?!][)\"'*]*\s")


class Group(NamedTuple):
    name: str
    files: re.Pattern[str]
    # Phrases that this group may have.
    without: frozenset[str] = frozenset()
    # Reads the texts of a file that this group is about, if not all texts of its kind.
    reader: Optional[Callable[[str], Iterator[Unit]]] = None

    def units_of(self, name: str, text: str) -> list[Unit]:
        return sorted(self.reader(text)) if self.reader is not None else units_of(name, text)


GROUPS = (
    Group("pages", re.compile(
        r"(?:README|CHANGELOG|CONTRIBUTING|SECURITY)\.md|docs/mercator\.1|examples/README\.md"
        r"|docs/(?:GUIDE|MANUAL|SESSION|FORMATS|SCALE|GLOSSARY)\.md|clients/python/README\.md")),
    Group("help", re.compile(
        r"crates/mercator/src/commands/.*\.rt"
        r"|crates/(?:check_report|mercator_cli|mercator_site|saved_site|session_log|site_files)/src/.*\.rt"
        r"|(?:examples|clients|tools)/.*\.(?:py|sh)|(?:try|install)\.sh")),
    Group("others", re.compile(r".*\.md"), frozenset({"subqueue"})),
    Group("comments", re.compile(r".*\.(?:rt|antt)"), frozenset({"subqueue"}), units_of_comments),
    Group("names", re.compile(r"crates/\w+/(?:src/.*\.rt|specs/.*\.antt)"), frozenset({"subqueue"}), units_of_names),
)
ANY_FILE = Group("any", re.compile(r".*"))


class Found(NamedTuple):
    """A phrase at a line of a file, with what is around it."""

    file: str
    line: int
    name: str
    context: str


def groups_of(name: str) -> list[Group]:
    """The first group of this file that is about all its texts, and each that has a reader."""
    found = [group for group in GROUPS if group.files.fullmatch(name)]
    whole = [group for group in found if group.reader is None]
    return whole[:1] + [group for group in found if group.reader is not None]


def is_meant(it: Phrase, file: str, unit: Unit) -> bool:
    """Whether the phrase is right in this unit, in another sense than the one to avoid."""
    if it.name.startswith("answer"):
        return OF_SESSIONS.fullmatch(file) is not None or SESSION.search(unit.text) is not None
    if it.name.startswith("words"):
        is_of_gate = unit.is_of_names and OF_GATES.fullmatch(file) is not None
        return is_of_gate or GATE.search(unit.text) is not None
    if it.name.startswith("where"):
        return unit.is_title or unit.is_cell and len(unit.text.split()) < 4
    return False


def phrases_in(group: Group, file: str, text: str) -> Iterator[Found]:
    for unit in group.units_of(file, text):
        content = re.sub(r"\s+", " ", unit.text)
        is_quoting = file.endswith(".md") or group.reader is not None
        searched = QUOTATION.sub('""', content) if is_quoting else content
        for it in PHRASES:
            if it.name in group.without:
                continue
            for match in it.pattern.finditer(searched):
                if not is_meant(it, file, unit):
                    around = searched[max(0, match.start() - 40):match.end() + 40]
                    yield Found(file, unit.line, it.name, around.strip())
        if file.endswith((".md", ".1")):
            yield from too_long(file, unit, content)
    if group.reader is units_of_comments and file.endswith(".rt") and not TESTS.search(file):
        for line, function in functions_without_comment(text):
            yield Found(file, line, NO_COMMENT, function)


def too_long(file: str, unit: Unit, content: str) -> Iterator[Found]:
    if unit.is_cell:
        count = len(content.split())
        if count > CELL_WORDS:
            yield Found(file, unit.line, CELLS, f"{count} words: {content[:60]} ..")
        return
    for sentence in SENTENCE_END.split(content):
        count = len(sentence.split())
        if count > SENTENCE_WORDS:
            yield Found(file, unit.line, SENTENCES, f"{count} words: {sentence[:60]} ..")


Counts = dict[str, list[int]]


def counts_of(files: Files) -> Counts:
    """How often each group of files has each phrase."""
    counts: Counts = {name: [0] * len(GROUPS) for name in ALL_NAMES}
    for name, text in files.texts.items():
        for group in groups_of(name):
            for found in phrases_in(group, name, text):
                counts[found.name][GROUPS.index(group)] += 1
    return counts


# The most that each group of files may have of each phrase. Run `docs/check.py --ceilings` to print
# this table with the counts as they are now.
CEILINGS: Counts = {
    "tell": [0, 0, 0, 0, 5],
    "stand": [0, 0, 0, 0, 0],
    "want": [0, 0, 0, 0, 0],
    "answer (of a function)": [2, 0, 2, 1, 3],
    "asked": [0, 0, 0, 0, 0],
    "go on": [0, 0, 0, 0, 2],
    "mend": [0, 0, 0, 0, 0],
    "where (condition)": [1, 0, 0, 0, 2],
    "behind": [0, 0, 0, 0, 0],
    "beside": [0, 0, 0, 0, 9],
    "at once": [0, 0, 0, 0, 0],
    "growth": [0, 0, 0, 0, 0],
    "wrong body": [0, 0, 0, 0, 0],
    "not taken": [0, 0, 0, 0, 0],
    "drawn": [0, 0, 0, 0, 0],
    "reckon": [0, 0, 0, 0, 0],
    "of processor, of clock": [0, 0, 0, 0, 0],
    "fault": [0, 0, 1, 0, 3],
    "words (arguments)": [0, 1, 0, 0, 4],
    "in hand": [0, 0, 0, 0, 0],
    "strangers": [0, 0, 0, 0, 0],
    "kit": [0, 0, 0, 0, 0],
    "plain texts": [0, 0, 0, 0, 0],
    "worked row": [0, 0, 0, 0, 0],
    "subqueue": [0, 1, 0, 0, 0],
    "one a line": [0, 0, 0, 0, 0],
    "alone (only)": [0, 0, 0, 0, 1],
    "so many, as many": [0, 0, 0, 0, 0],
    "the same of": [0, 0, 0, 0, 0],
    "cells over 25 words": [0, 0, 0, 0, 0],
    "sentences over 35 words": [0, 0, 0, 0, 0],
    "functions without a comment": [0, 0, 0, 0, 0],
}


# ---------------------------------------------------------------- checks of a document

class Result(NamedTuple):
    """What a check of one document found."""

    check: str
    errors: list[str]


class Checker:
    """Checks documents against the files of a work tree."""

    def __init__(self, root: Path, files: Files) -> None:
        self.root = root
        self.files = files
        crates = sorted(path for path in (root / "crates").iterdir() if path.is_dir())
        self.folders = [root, root / "crates", *crates, root / "docs", root / "tests"]
        self.tops = {"crates", "docs", "tests", "tools", "bench", "examples", "clients", "src",
                     "specs", "proofs", *(crate.name for crate in crates)}
        self.names = set(PLACEHOLDERS)
        for name, text in files.texts.items():
            self.names.update(WORD.findall(name))
            if not name.endswith(".md"):
                self.names.update(WORD.findall(text))

    def results(self) -> Iterator[Result]:
        for name in self.files.documents():
            text = self.files.texts[name]
            yield Result(f"{name}: links", list(self.links(name, text)))
            yield Result(f"{name}: names", list(self.wrong_names(name, text)))
            yield Result(f"{name}: quotations", list(self.quotations(name, text)))
            if self.is_library(name) and not QUOTED.search(text):
                yield Result(f"{name}: quotations", ["1: no code of a caller"])
            if name not in DATED:
                yield Result(f"{name}: dates", list(dates(text)))
            if name == "README.md":
                yield Result(f"{name}: size", list(size(text)))
            if name == "docs/DECISIONS.md":
                yield Result(f"{name}: entries", list(entries(text)))

    def links(self, name: str, text: str) -> Iterator[str]:
        document = self.root / name
        for number, line in prose(text):
            for link, fragment in LINK.findall(TICKED.sub("", line)):
                target = document.parent / link if link else document
                if "://" in link or link.startswith("mailto:"):
                    continue
                if not target.exists():
                    yield f"{number}: link to {link}, which does not exist"
                elif fragment and fragment not in headings_of(target):
                    yield f"{number}: link to #{fragment}, not a heading of {target.name}"

    def wrong_names(self, name: str, text: str) -> Iterator[str]:
        for number, line in prose(text):
            for ticked in TICKED.findall(line):
                if PATH.fullmatch(ticked) and self.is_ours(ticked):
                    if not self.exists((self.root / name).parent, ticked):
                        yield f"{number}: `{ticked}` does not exist"
                called = NAME.fullmatch(ticked.strip())
                if called and name not in WITH_REJECTED_NAMES and called[1] not in self.names:
                    yield f"{number}: `{ticked}` is not a name in any file"

    def is_ours(self, path: str) -> bool:
        return path.split("/")[0] in self.tops and "NAME" not in path and path not in TOOLCHAIN

    def exists(self, folder: Path, path: str) -> bool:
        path = re.sub(r"(?<=/)out/.*", "", path)
        return any((place / path).exists() for place in (folder, *self.folders))

    def is_library(self, name: str) -> bool:
        """Whether the document is the README of a library: of a crate without `main` and tests."""
        folder = (self.root / name).parent
        is_crate = folder.parent == self.root / "crates" and name.endswith("/README.md")
        return is_crate and not name.endswith("_tests/README.md") and (folder / "src/lib.rt").exists()

    def quotations(self, name: str, text: str) -> Iterator[str]:
        for quoted in QUOTED.finditer(text):
            path, code = quoted.groups()
            number = text.count("\n", 0, quoted.start()) + 1
            places = (self.root / path, (self.root / name).parent / path)
            file = next((it for it in places if it.is_file()), None)
            if file is None:
                yield f"{number}: code of {path}, which does not exist"
                continue
            source = file.read_text("utf-8")
            for piece in code.rstrip("\n").split("\n\n"):
                if piece not in source:
                    yield f"{number}: code that is not in {path}: {piece.splitlines()[0]}"


def headings_of(document: Path) -> set[str]:
    """The fragments of a document's headings."""
    titles = HEADING.findall(document.read_text("utf-8"))
    return {re.sub(r"[^\w -]", "", title.lower()).strip().replace(" ", "-") for title in titles}


def dates(text: str) -> Iterator[str]:
    for number, line in prose(text):
        found = DATE.search(line)
        if found:
            yield f"{number}: says when: {found[0]}"


def size(text: str) -> Iterator[str]:
    count = len(text.encode())
    if count > README_BYTES:
        yield f"{count} bytes, more than {README_BYTES}"


def entries(text: str) -> Iterator[str]:
    for entry in ENTRY.finditer(text):
        count = len(TICKED.sub("code", entry[0]).split()) - 1
        if count > ENTRY_WORDS:
            number = text.count("\n", 0, entry.start()) + 1
            yield f"{number}: an entry of {count} words, more than {ENTRY_WORDS}"


def results_of_counts(counts: Counts) -> Iterator[Result]:
    for name in ALL_NAMES:
        for group, count, most in zip(GROUPS, counts[name], CEILINGS.get(name, [0] * len(GROUPS))):
            if name not in group.without:
                errors = [f"{count}, more than {most}"] if count > most else []
                yield Result(f"{group.name}: {name}", errors)


# ---------------------------------------------------------------- the command line

def check(root: Path) -> int:
    files = Files.of_work_tree(root)
    passed = failed = 0
    for result in (*Checker(root, files).results(), *results_of_counts(counts_of(files))):
        for error in result.errors:
            print(f"{result.check}: {error}")
        passed += not result.errors
        failed += bool(result.errors)
    print(f"{passed} passed, {failed} failed")
    return 1 if failed else 0


def print_words(root: Path, paths: Iterable[str]) -> None:
    """List the phrases in these files, or in all that are counted."""
    texts = Files.of_work_tree(root).texts
    for path in paths:
        if not Path(path).is_file():
            sys.exit(f"docs/check.py: no file {path}")
    chosen = {path: Path(path).read_text("utf-8", "replace") for path in paths}
    known = {it.name: it.instead for it in PHRASES}
    count = 0
    for name, text in (chosen or texts).items():
        inside = name_in_repository(Path(name)) if chosen else name
        groups = groups_of(inside) or ([ANY_FILE] if chosen else [])
        for found in (it for group in groups for it in phrases_in(group, inside, text)):
            count += 1
            advice = f" ({known[found.name]})" if found.name in known else ""
            print(f"{name}:{found.line}: {found.name}{advice}: {found.context}")
    print(f"{count} found")


def name_in_repository(path: Path) -> str:
    """The name of a file in the repository that it is in."""
    place = path.resolve()
    top = next((it for it in place.parents if (it / ".git").exists()), place.parent)
    return place.relative_to(top).as_posix()


def print_counts(root: Path, revision: Optional[str]) -> None:
    now = counts_of(Files.of_work_tree(root))
    then = counts_of(Files.of_revision(root, revision)) if revision else None
    heads = [f"{group.name:>16}" for group in GROUPS]
    print(f"{'':32}{''.join(heads)}" + (f"   ({revision} -> work tree)" if revision else ""))
    rules = {it.name: it.rule for it in PHRASES}
    for rule in (VERBS, CONDITIONS, TERMS, GRAMMAR, None):
        names = [name for name in ALL_NAMES if rules.get(name) == rule]
        for name in names:
            print(f"{name:32}{row_of(now[name], then[name] if then else None)}")
        if rule:
            before = sums_of(then, names) if then else None
            print(f"{'all ' + rule:32}{row_of(sums_of(now, names), before)}\n")


def sums_of(counts: Counts, names: list[str]) -> list[int]:
    return [sum(column) for column in zip(*(counts[name] for name in names))]


def row_of(now: list[int], then: Optional[list[int]]) -> str:
    cells = [f"{a} -> {b}" for a, b in zip(then, now)] if then else [str(it) for it in now]
    return "".join(f"{cell:>16}" for cell in cells)


def print_ceilings(root: Path) -> None:
    print("CEILINGS: Counts = {")
    for name, row in counts_of(Files.of_work_tree(root)).items():
        print(f'    "{name}": {row},')
    print("}")


def main() -> int:
    about, _, more = (__doc__ or "").partition("\n\n")
    parser = argparse.ArgumentParser(
        description=about, epilog=more, formatter_class=argparse.RawDescriptionHelpFormatter)
    tasks = parser.add_mutually_exclusive_group()
    tasks.add_argument("--words", nargs="*", metavar="FILE", help="list each phrase to avoid")
    tasks.add_argument("--counts", nargs="?", const="", metavar="REVISION",
                       help="print how often each group of files has each phrase")
    tasks.add_argument("--ceilings", action="store_true",
                       help="print the table CEILINGS with the counts as they are now")
    parser.add_argument("--root", type=Path, default=HERE, metavar="FOLDER",
                        help="the repository to check (default: the one with this script)")
    options = parser.parse_args()
    root = options.root.resolve()
    if options.words is not None:
        print_words(root, options.words)
    elif options.counts is not None:
        print_counts(root, options.counts or None)
    elif options.ceilings:
        print_ceilings(root)
    else:
        return check(root)
    return 0


if __name__ == "__main__":
    sys.exit(main())
