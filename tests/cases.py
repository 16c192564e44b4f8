#!/usr/bin/env python3
"""Run the commands that documents show, and compare what they print.

A document is Markdown with prose, inputs and commands:

    ```text page.web
    savedweb 1
    page http://a.test/
    ```

    ```console
    # One sentence: what the case shows.
    $ mercator crawl page.web http://a.test/
    ok 0 0 http://a.test/
    total 1 ok 1 missing 0

    # Bytes that a text block cannot contain come from `printf`.
    $ printf 'savedweb 1\\r' | mercator crawl - http://a.test/
    ! mercator: saved web: bad header
    [status 1]
    ```

- A block whose tag has a second word is an input: a file of that name.
- A block with the tag `console` has commands. Each begins with `$ `, and
  its further lines with `> `. Bash runs the commands of a document in
  order, with pipefail, in a new folder that has the inputs and the
  repository's `crates`, `examples` and `tools`. A command that takes longer
  than a minute, or than --seconds, is ended.
- Below a command is its answer: its standard output, its standard error with
  `! ` before each line, and `[status N]` if N is not 0. `[as FILE]` means the
  bytes of that file, and `[no line end]` follows an output whose last line
  does not end in LF. If a line of output begins like one of these marks, it
  has a `\\` before it.
- A line that begins with `# ` is a sentence. It belongs to no answer, and
  neither do the empty lines above it. If the sentence ends with `(slow)`,
  --quick leaves out the commands below it, up to the next sentence.

Usage: cases.py [--quick] [--seconds N] [FILE[:LINE]]..

Without FILE it runs tests/cases/*.txt, README.md, and in docs MANUAL.md,
FORMATS.md, GUIDE.md and SESSION.md. `mercator` is the built program, or the file that
the environment variable PROGRAM names. With LINE, only the command on that
line of FILE is compared; those before it run, too, since it may need them. It
prints a diff for each answer that differs, with the sentence above it and a
command that compares only this one, and on the last line `N passed, M failed`. The exit status is 1 if
anything failed or nothing ran.
"""

from __future__ import annotations

import argparse
import difflib
import os
import re
import shlex
import subprocess
import sys
import tempfile
from concurrent.futures import ThreadPoolExecutor
from pathlib import Path
from typing import Iterator, NamedTuple, Optional

ROOT = Path(__file__).resolve().parent.parent
BUILT = ROOT / "crates/mercator_cli/out/mercator_cli"
DOCUMENTS = ("README.md", "docs/MANUAL.md", "docs/FORMATS.md", "docs/GUIDE.md",
             "docs/SESSION.md")
LINKED = ("crates", "examples", "tools")
SECONDS = 60
BLOCK = re.compile(r"^```(\S+)(?: (\S+))?\n(.*?)^```$", re.M | re.S)
CASE = re.compile(r"""
    ^\$\ (?P<command>.*\n(?:>\ .*\n)*)
    (?P<answer>(?:(?!\$\ |\#\ ).*\n)*?)
    \n*(?=^\$\ |^\#\ |\Z)
""", re.M | re.X)
SENTENCE = re.compile(r"^# .*$", re.M)
SENTENCES = re.compile(r"(?:(?:# .*)?\n)*")
SLOW = "(slow)"
AS = re.compile(r"^\[as (\S+)\]\n", re.M)


class Case(NamedTuple):
    """A command with its location, its answer, and the sentence above it."""

    path: Path
    line: int
    sentence: str
    command: str
    answer: str
    slow: bool
    compared: bool = True


class Document(NamedTuple):
    """The inputs of a document by their names, and its commands."""

    inputs: dict[str, str]
    cases: list[Case]


def read(path: Path) -> Document:
    """Read the inputs and commands of a document."""
    text = path.read_text("utf-8")
    document = Document({}, [])
    for block in BLOCK.finditer(text):
        tag, name, body = block.groups()
        above = text.count("\n", 0, block.start(3))
        if name in document.inputs:
            sys.exit(f"{path}:{above}: a second input {name}")
        if name:
            document.inputs[name] = body
        elif tag == "console":
            if not SENTENCES.fullmatch(CASE.sub("", body)):
                sys.exit(f"{path}:{above}: an answer without a command")
            document.cases.extend(cases_of(path, above, body))
    return document


def cases_of(path: Path, above: int, body: str) -> Iterator[Case]:
    """Read the cases of a block that has ABOVE lines above it."""
    for case in CASE.finditer(body):
        line = above + 1 + body.count("\n", 0, case.start())
        command = re.sub("^> ", "", case["command"], flags=re.M)
        sentence = ["", *SENTENCE.findall(body, 0, case.start())][-1]
        slow = sentence.endswith(SLOW)
        yield Case(path, line, sentence, command, case["answer"], slow)


def only_line(document: Document, path: Path, line: int) -> Document:
    """Leave out the cases after the one on this line; compare only that."""
    cases = [it._replace(compared=it.line == line) for it in document.cases
             if it.line <= line]
    if not any(it.compared for it in cases):
        sys.exit(f"{path}:{line}: no command begins on this line")
    return document._replace(cases=cases)


def read_at(name: str) -> Document:
    """Read the document FILE, or what FILE:LINE needs of it."""
    path, _, line = name.rpartition(":")
    if not line.isdigit() or Path(name).is_file():
        return read(Path(name))
    return only_line(read(Path(path)), Path(path), int(line))


def shown(output: bytes, mark: str = "") -> str:
    """Return an output as an answer has it, with the mark before each line."""
    text = output.decode("utf-8", "backslashreplace").replace("\r", "\\r")
    if not mark:
        text = re.sub(r"^(?=[!\[\\]|[$#>] )", r"\\", text, flags=re.M)
    *lines, last = text.split("\n")
    lines += [last, "[no line end]"] if last else []
    return "".join((mark + line if line else mark.strip()) + "\n"
                   for line in lines)


def run(document: Document, commands: str, seconds: int) -> list[str]:
    """Run the cases. Return a diff for each, empty if its answer is right."""
    path = f"{commands}:{os.environ['PATH']}"
    environment = {"LC_ALL": "C", "PATH": path}
    shell = ["timeout", "-k1", str(seconds), "bash", "-o", "pipefail", "-c"]
    differences = []
    with tempfile.TemporaryDirectory() as folder:
        for name, text in document.inputs.items():
            Path(folder, name).write_text(text, "utf-8")
        for name in LINKED:
            Path(folder, name).symlink_to(ROOT / name)
        for case in document.cases:
            done = subprocess.run(
                [*shell, case.command], cwd=folder, env=environment,
                stdin=subprocess.DEVNULL, capture_output=True, check=False,
            )
            answer = shown(done.stdout) + shown(done.stderr, "! ")
            if done.returncode:
                answer += f"[status {done.returncode}]\n"
            expected = AS.sub(lambda it: lines_of(folder, it), case.answer)
            if case.compared:
                text = difference(case, expected, answer)
                differences.append(text and f"{text}\n{again(case, seconds)}")
    return differences


def lines_of(folder: str, mark: re.Match[str]) -> str:
    """Return the lines of FILE for `[as FILE]`, or the mark without FILE."""
    path = Path(folder, mark[1])
    return shown(path.read_bytes()) if path.is_file() else mark[0]


def difference(case: Case, expected: str, answer: str) -> str:
    """Return a diff from the expected answer to the answer, or nothing."""
    if expected == answer:
        return ""
    lines = difflib.unified_diff(
        expected.splitlines(), answer.splitlines(),
        f"{case.path}:{case.line}", "printed", lineterm="", n=9,
    )
    above = [case.sentence] if case.sentence else []
    return "\n".join([*above, "$ " + case.command, *lines])


def again(case: Case, seconds: int) -> str:
    """Return the command that compares only this case."""
    words = [sys.argv[0], f"{case.path}:{case.line}"]
    if seconds != SECONDS:
        words[1:1] = ["--seconds", str(seconds)]
    named: Optional[str] = os.environ.get("PROGRAM")
    program = f"PROGRAM={shlex.quote(named)} " if named else ""
    return f"to run only this: {program}{shlex.join(words)}"


def main() -> None:
    parser = argparse.ArgumentParser(
        description="Run the commands that documents show.",
        epilog="The first lines of cases.py describe a document.",
    )
    parser.add_argument("--quick", action="store_true",
                        help="leave out the commands that are marked as slow")
    parser.add_argument("--seconds", metavar="N", type=int, default=SECONDS,
                        help="time limit of a command [default: %(default)s]")
    parser.add_argument("files", metavar="FILE[:LINE]", nargs="*",
                        help="document to run, or the line of a command in"
                        " it [default: all]")
    arguments = parser.parse_args()
    program = Path(os.environ.get("PROGRAM", BUILT)).resolve()
    if not program.is_file():
        sys.exit(f"cases.py: there is no {program}: set PROGRAM to the path"
                 " of a program, such as tools/unproved.sh prints")
    every = [*sorted(ROOT.glob("tests/cases/*.txt")),
             *(ROOT / name for name in DOCUMENTS)]
    documents = [read_at(name) for name in arguments.files or map(str, every)]
    if arguments.quick:
        slow = sum(case.slow for it in documents for case in it.cases)
        print(f"left out: {slow} slow commands")
        documents = [
            Document(it.inputs, [case for case in it.cases if not case.slow])
            for it in documents
        ]
    with tempfile.TemporaryDirectory() as commands:
        Path(commands, "mercator").symlink_to(program)
        with ThreadPoolExecutor(os.cpu_count()) as pool:
            done = pool.map(
                lambda it: run(it, commands, arguments.seconds), documents)
            differences = [text for texts in done for text in texts]
    failed = [text for text in differences if text]
    print(*failed, sep="\n\n", end="\n\n" if failed else "")
    print(f"{len(differences) - len(failed)} passed, {len(failed)} failed")
    sys.exit(1 if failed or not differences else 0)


if __name__ == "__main__":
    main()
