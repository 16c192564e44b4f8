#!/usr/bin/env python3
"""Check that scripts, and the commands in documents, name only what exists. This takes seconds and needs no program.

- Syntax: bash reads each shell script, and Python each Python file.
- Paths: a path of a script or document in a script leads to a file. A file that begins with `#!` is executable.
- Commands: a script that a command of a shell script or document runs accepts its arguments. A Python script reads them with its
  own parser, which ends the script before it does anything else; so each option exists, and each test that `--part` names. The
  text of any other script has each option and each plain name among its arguments.
- Texts: a test, mistake, package or crate that another file names by its text is in the file that defines it (see TEXTS), and each part of
  quick.sh has a command.
- Crates: crates.txt has a line for each folder of `crates/`, and names no library that `rt ci` refuses, nor one that is neither in
  `crates/` nor in the toolchain. The toolchain's libraries are compared only if the command `rt` is found. A crate has only the files
  and folders of IN_CRATE.
- Changes: each text to replace in a mutant or planted bug occurs exactly once in its file, and tests/planted.txt lists exactly the
  bugs in tests/planted, and only mutants that exist.

Usage: scripts.py

The last line is `N passed, M failed`, and the exit status is 1 if anything failed.
"""

from __future__ import annotations

import ast
import json
import os
import re
import shlex
import shutil
import subprocess
import sys
from concurrent.futures import ThreadPoolExecutor
from fnmatch import fnmatchcase
from pathlib import Path
from typing import Dict, Iterator, List, NamedTuple, Optional, Set, Tuple

import planted
from mutants import applied, changes_of

ROOT = Path(__file__).resolve().parent.parent
SECONDS = 300  # the time limit for reading the arguments of all commands of a script, which takes seconds on a quiet machine

# A path of a script or document below these folders, or of a script in the top folder.
PATH = re.compile(
    r"(?<![\w/.~$}*-])(?:\./)?((?:tests|docs|tools|clients|examples|bench|completions)/[\w./-]*\w\.(?:py|sh|mjs|go|md|txt|1)\b"
    r"|(?:try|install)\.sh\b)(?![\w./*-])"
)
# Documents of the toolchain that pages name.
TOOLCHAIN = {"docs/NOT_COVERED.md", "docs/REFUSED.md"}
# The folders of scripts whose paths are checked. Python files with random folders of documents have paths of these, too.
SCRIPTS = re.compile(r"(?:[^/]+\.sh|(?:tests|tools|docs|bench|clients|examples)/.*\.(?:sh|py|mjs))")
PROGRAM = re.compile(r".*\.(?:py|sh)")
# What the folder of a crate has in git.
IN_CRATE = {"README.md", "src", "specs", "proofs", "mutants", "must-fail", "data", "args", "stdin", "stdout"}
# An argument: quoted, computed, or up to a space or a sign that ends the command.
ARGUMENTS = re.compile(r"(?:[ \t]+(?:\"[^\"]*\"|'[^']*'|\$\(\(.*?\)\)|\$\([^()]*\)|[^\s;|&<>()\"'`])+)*")
COMPUTED = re.compile(r"\$\(\(.*?\)\)|\$\([^()]*\)")
ASSIGNED = re.compile(r"^(\w+)=([\w./-]+)$", re.M)
PARTS = re.compile(r"^parts=\((.*)\)$", re.M)
BLOCK = re.compile(r"^```(?:sh|console)[^\n]*\n(.*?)^```$", re.M | re.S)
TICKED = re.compile(r"`([^`\n]+)`")
# A placeholder for any value, as in `--drawn N [FILE ..]`.
PLACEHOLDER = re.compile(r"[A-Z]+(?:=.*)?|.*[\[\]].*|.*\.\.")
PLAIN_NAME = re.compile(r"-{0,2}[a-z]\w*(?:-\w+)*")

# Reads lists of arguments with the parser of a Python script, prints the error of each or null, and ends the script before it does
# anything else.
READ_ONLY = """
import argparse, contextlib, io, json, os, runpy, sys
parse = argparse.ArgumentParser.parse_args
def error_of(parser, arguments):
    printed = io.StringIO()
    try:
        with contextlib.redirect_stderr(printed):
            parse(parser, arguments)
    except SystemExit as ended:
        return printed.getvalue().strip().rpartition("\\n")[2] if ended.code else None
def read_only(parser, *values, **named):
    print(json.dumps([error_of(parser, it) for it in lists]), flush=True)
    os._exit(0)
lists = json.load(sys.stdin)
argparse.ArgumentParser.parse_args = read_only
sys.argv = [sys.argv[1]]
sys.path[0] = os.path.dirname(sys.argv[0])
runpy.run_path(sys.argv[0], run_name="__main__")
"""


class Text(NamedTuple):
    """Names that the first group of a pattern finds in files, and a pattern of each in the files that define it."""

    files: str
    names: str
    definers: str
    definition: str


MISTAKES = "clients/conformance/crawlers/crawl_mistakes.py"
TEXTS = (
    Text("tests/clients.sh", r"\bnotices ([a-z]\w*)", MISTAKES, r"[\"']{}[\"']"),
    Text("clients/conformance/traps/*.txt", r"(?m)^mistakes (.*)$", MISTAKES, r"[\"']{}[\"']"),
    Text("tests/quick.sh", r"\btests::\w+::(\w+)", "crates/crawl_text_tests/src/tests/*.rt", r"\bfn {}\b"),
    Text("tests/all.sh", r"--package (\S+)", "tests/real_sites.txt", r"(?m)^{} "),
    Text("tests/quick.sh", r"(?m)^parts=\(.*? ((?:\w+_tests )+)", "crates.txt", r"(?m)^{}\b"),
)


class Command(NamedTuple):
    """A command, with its file and line, its script, and the script's arguments."""

    file: str
    line: int
    script: str
    arguments: Tuple[str, ...]

    def shown(self) -> str:
        return f"{self.file}:{self.line}: {shlex.join([self.script, *self.arguments])}"

    def given(self) -> List[str]:
        """Return the arguments that are no placeholders."""
        return [word for word in self.arguments if not PLACEHOLDER.fullmatch(word)]

    def is_whole(self) -> bool:
        """Return whether this is the whole command: a document may show only a part."""
        return len(self.given()) == len(self.arguments) and (bool(self.arguments) or not self.file.endswith(".md"))


class Results:
    """Counts what was checked, and prints what failed."""

    def __init__(self) -> None:
        self.passed = self.failed = 0

    def add(self, name: str, error: Optional[str]) -> None:
        if error is None:
            self.passed += 1
        else:
            self.failed += 1
            print(f"{name}: {error}", flush=True)


def tracked() -> List[str]:
    """Return the names of the files that git has, or that are new."""
    listed = subprocess.run(
        ["git", "ls-files", "-z", "-co", "--exclude-standard"], cwd=ROOT, check=True, stdout=subprocess.PIPE).stdout
    names = sorted(filter(None, listed.decode("utf-8", "surrogateescape").split("\0")))
    return [name for name in names if (ROOT / name).is_file()]


def text_of(name: str) -> str:
    return (ROOT / name).read_text("utf-8", "replace")


# ---------------------------------------------------------------- syntax

def syntax_error(name: str) -> Optional[str]:
    """Return why bash or Python cannot read a script, or None."""
    if name.endswith(".py"):
        try:
            ast.parse(text_of(name))
        except SyntaxError as error:
            return str(error)
        return None
    done = subprocess.run(["bash", "-n", ROOT / name], stdout=subprocess.PIPE, stderr=subprocess.STDOUT, encoding="utf-8", errors="replace")
    return done.stdout.strip() or f"status {done.returncode}" if done.returncode else None


def check_syntax(names: List[str], results: Results) -> None:
    scripts = [it for it in names if PROGRAM.fullmatch(it)]
    with ThreadPoolExecutor(os.cpu_count()) as pool:
        for name, error in zip(scripts, pool.map(syntax_error, scripts)):
            results.add(f"{name}: syntax", error)


# ---------------------------------------------------------------- paths

def check_paths(names: List[str], results: Results) -> None:
    for name in (it for it in names if SCRIPTS.fullmatch(it)):
        text = text_of(name)
        for path in sorted({it[1] for it in PATH.finditer(text)} - TOOLCHAIN):
            exists = (ROOT / path).exists() or "/out/" in path
            results.add(f"{name}: {path}", None if exists else "does not exist")
    for name in names:
        with open(ROOT / name, "rb") as file:
            is_script = file.read(3) == b"#!/"
        if is_script:
            results.add(name, None if os.access(ROOT / name, os.X_OK) else "begins with #! and is not executable")


# ---------------------------------------------------------------- commands

def commands_of_shell(name: str, text: str) -> Iterator[Command]:
    """Yield the commands of a shell script that run a script of the repository."""
    known: Dict[str, str] = dict(ASSIGNED.findall(text))
    for number, line in lines_of(text):
        for variable, value in known.items():
            line = re.sub(rf"\${variable}\b|\${{{variable}}}", value, line)
        yield from commands_in(name, number, line)


def lines_of(text: str, first: int = 1) -> Iterator[Tuple[int, str]]:
    """Yield the lines with their numbers. A line that ends with a backslash is joined with the next."""
    pieces: List[str] = []
    for number, line in enumerate(text.splitlines(), first):
        pieces.append(line[:-1] if line.endswith("\\") else line)
        if not line.endswith("\\"):
            yield number - len(pieces) + 1, "".join(pieces)
            pieces = []


def commands_of_document(name: str, text: str) -> Iterator[Command]:
    """Yield the commands of a document: those in its blocks, and those in backticks, which name scripts from its folder, too."""
    for block in BLOCK.finditer(text):
        first = text.count("\n", 0, block.start(1)) + 1
        for number, line in lines_of(block[1], first):
            yield from commands_in(name, number, line)
    folder = os.path.dirname(name)
    for number, line in enumerate(BLOCK.sub(lambda it: "\n" * it[0].count("\n"), text).splitlines(), 1):
        for ticked in TICKED.findall(line):
            script, _, rest = ticked.partition(" ")
            inside = f"{folder}/{script}"
            is_local = "/" not in script and PROGRAM.fullmatch(script) and (ROOT / inside).is_file()
            yield from commands_in(name, number, f"{inside} {rest}" if is_local else ticked)


def commands_in(name: str, number: int, line: str) -> Iterator[Command]:
    """Yield the commands of a line, without those in comments and texts that are printed."""
    line = re.sub(r"(?:^|\s)#\s.*", "", line)
    line = re.sub(r"\d?>&?\d?", ">", line) if "$((" not in line else line
    for path in PATH.finditer(line):
        before = line[:path.start()]
        if PROGRAM.fullmatch(path[1]) and before.count('"') % 2 == 0 and before.count("'") % 2 == 0:
            given = ARGUMENTS.match(line, path.end())
            arguments = shlex.split(COMPUTED.sub("$value", given[0])) if given else []
            yield Command(name, number, path[1], tuple(arguments))


def commands_of(names: List[str]) -> List[Command]:
    found: List[Command] = []
    for name in names:
        if name.endswith(".sh"):
            found += commands_of_shell(name, text_of(name))
        elif name.endswith(".md"):
            found += commands_of_document(name, text_of(name))
    for bug in planted.bugs_in(text_of("tests/planted.txt")):
        found += commands_in(f"tests/planted.txt: {bug.name}", 1, bug.command)
    return found


def errors_of(script: str, commands: List[Command]) -> List[Optional[str]]:
    """Return why each of these commands of one script cannot run, or None."""
    path = ROOT / script
    if not path.is_file():
        return [f"{script} does not exist"] * len(commands)
    if not script.endswith(".py"):
        return [unknown_word(path, command.given()) for command in commands]
    if "parse_args(" not in path.read_text("utf-8"):
        return [None] * len(commands)
    lists = [["1" if "$" in word else word for word in command.given()] for command in commands if command.is_whole()]
    errors = errors_of_arguments(path, lists) if lists else []
    if errors is None:
        return [unknown_word(path, command.given()) for command in commands]
    rest = iter(errors)
    return [next(rest) if command.is_whole() else None for command in commands]


def errors_of_arguments(script: Path, lists: List[List[str]]) -> Optional[List[Optional[str]]]:
    """Return why a Python script does not accept each list of arguments, or None. Without a library that it needs, return None."""
    # A script that looks for the program finds a file.
    environment = {**os.environ, "PROGRAM": sys.executable, "MERCATOR": sys.executable, "CALLS": sys.executable}
    try:
        done = subprocess.run(
            [sys.executable, "-c", READ_ONLY, str(script)], cwd=ROOT, env=environment, input=json.dumps(lists),
            stdout=subprocess.PIPE, stderr=subprocess.PIPE, encoding="utf-8", errors="replace", timeout=SECONDS)
    except subprocess.TimeoutExpired:
        return [f"its arguments were not read within {SECONDS} s"] * len(lists)
    if "ModuleNotFoundError: " in done.stderr:
        return None
    if done.returncode or not done.stdout:
        return [done.stderr.strip().rpartition("\n")[2] or "its arguments were not read"] * len(lists)
    errors: List[Optional[str]] = json.loads(done.stdout)
    return errors


def unknown_word(script: Path, arguments: List[str]) -> Optional[str]:
    """Return which options and plain names are not in a script, nor in one that it passes all its arguments to, or None."""
    text = script.read_text("utf-8")
    if '"$@"' in text:
        called = {it[1] for it in PATH.finditer(text)}
        text += "\n".join((ROOT / it).read_text("utf-8") for it in called if (ROOT / it).is_file())
    parts = PARTS.search(text)
    words = [word.partition("=")[0] for word in arguments if PLAIN_NAME.fullmatch(word)]
    lacking = [word for word in words if not has_word(parts[1] if parts and word[0] != "-" else text, word)]
    return f"{', '.join(lacking)}: not in {script.name}" if lacking else None


def has_word(text: str, word: str) -> bool:
    return re.search(rf"(?<![\w-]){re.escape(word)}(?![\w-])", text) is not None


def check_commands(names: List[str], results: Results) -> None:
    scripts: Dict[str, Dict[Tuple[str, ...], Command]] = {}
    for command in commands_of(names):
        scripts.setdefault(command.script, {}).setdefault(command.arguments, command)
    with ThreadPoolExecutor(os.cpu_count()) as pool:
        errors = pool.map(lambda it: errors_of(it[0], list(it[1].values())), scripts.items())
        for commands, found in zip(scripts.values(), errors):
            for command, error in zip(commands.values(), found):
                results.add(command.shown(), error)


# ---------------------------------------------------------------- texts

def check_texts(results: Results) -> None:
    for text in TEXTS:
        defined = "\n".join(it.read_text("utf-8") for it in sorted(ROOT.glob(text.definers)))
        names = {name for file in ROOT.glob(text.files)
                 for found in re.findall(text.names, file.read_text("utf-8")) for name in found.split()}
        if not names:
            results.add(text.files, f"{text.names} finds nothing")
        for name in sorted(names):
            is_defined = re.search(text.definition.format(re.escape(name)), defined) is not None
            results.add(f"{text.files}: {name}", None if is_defined else f"not in {text.definers}")


def check_parts(results: Results) -> None:
    """Check that each part of tests/quick.sh has a command."""
    text = text_of("tests/quick.sh")
    listed = PARTS.search(text)
    patterns = [it for labels in re.findall(r"(?m)^    ([\w*| ]+)\) words=", text) for it in labels.split(" | ")]
    for part in listed[1].split() if listed else [""]:
        has_command = any(fnmatchcase(part, pattern) for pattern in patterns)
        results.add(f"tests/quick.sh: {part}", None if has_command else "a part without a command")


# ---------------------------------------------------------------- crates

def check_crates(names: List[str], results: Results) -> None:
    for folder in sorted({"/".join(name.split("/")[:3]) for name in names if name.startswith("crates/")}):
        results.add(folder, None if folder.split("/")[2] in IN_CRATE else "a crate has no such file or folder")
    lines = [line.partition("#")[0] for line in text_of("crates.txt").splitlines()]
    listed: Dict[str, List[str]] = {}
    for head, _, after in (line.partition(":") for line in lines if line.strip()):
        listed[head.split()[0]] = after.split()
    folders = {it.name for it in (ROOT / "crates").iterdir() if (it / "src").is_dir()}
    for name in sorted(folders | set(listed)):
        error = None if name in folders and name in listed else "crates.txt and the folders of crates differ"
        results.add(f"crates/{name}", error)
    known = {*folders, *libraries_of_toolchain()}
    handles = text_of("HANDLES")
    refused = {"libc", "os"} if "Net" not in handles and "Processes" not in handles else set()
    for name, libraries in listed.items():
        lacking = [it for it in libraries if len(known) > len(folders) and it not in known]
        beyond = [it for it in libraries if it in refused]
        error = f"{', '.join(lacking)}: no such library" if lacking else None
        results.add(f"crates.txt: {name}", f"{', '.join(beyond)}: `rt ci` refuses it with these HANDLES" if beyond else error)


def libraries_of_toolchain() -> Set[str]:
    command = shutil.which("rt")
    folder = Path(command).resolve().parent.parent / "rlibs" if command else None
    return {it.name.partition(".")[0] for it in folder.iterdir()} if folder and folder.is_dir() else set()


# ---------------------------------------------------------------- changes

def check_changes(results: Results) -> None:
    bugs = planted.bugs_in(text_of("tests/planted.txt"))
    with_command = {bug.name for bug in bugs if bug.command}
    mutants = {f"{it.parts[-3]}/{it.stem}": it for it in ROOT.glob("crates/*/mutants/*.edit")}
    must_fail = {f"{it.parts[-3]}/{it.stem}": it for it in ROOT.glob("crates/*/must-fail/*.edit")}
    others = {f"{it.parts[-2]}/{it.stem}": it for it in ROOT.glob("tests/planted/*/*.edit")}
    for bug in bugs:
        exists = bug.name in (others if bug.command else mutants)
        results.add(f"tests/planted.txt: {bug.name}", None if exists else "no such edit")
    for name in sorted(set(others) - with_command):
        results.add(f"tests/planted/{name}.edit", "not in tests/planted.txt, or without a command")
    for edits in (mutants, must_fail, others):
        for name, edit in sorted(edits.items()):
            results.add(edit.relative_to(ROOT).as_posix(), error_of_edit(edit, ROOT / "crates" / name.partition("/")[0]))


def error_of_edit(edit: Path, folder: Path) -> Optional[str]:
    changes = changes_of(edit)
    if not changes:
        return "changes nothing"
    lacking = [it.file for it in changes if not (folder / it.file).is_file()]
    if lacking:
        return f"{lacking[0]} does not exist"
    texts = {it.file: (folder / it.file).read_text("utf-8") for it in changes}
    return None if applied(changes, texts) else "a text to replace does not occur exactly once"


def main() -> int:
    if len(sys.argv) > 1:
        print("usage: scripts.py", file=sys.stderr)
        return 3
    results = Results()
    names = tracked()
    check_syntax(names, results)
    check_paths(names, results)
    check_commands(names, results)
    check_texts(results)
    check_parts(results)
    check_crates(names, results)
    check_changes(results)
    print(f"{results.passed} passed, {results.failed} failed")
    return 1 if results.failed else 0


if __name__ == "__main__":
    sys.exit(main())
