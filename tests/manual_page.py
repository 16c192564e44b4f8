#!/usr/bin/env python3
"""Compares the manual page, the manual and the completions with `mercator --help`.

Usage: manual_page.py [--only NAME] [PROGRAM]

PROGRAM is the program to ask for its help. Without it, the program is the one that the environment
variable MERCATOR names, or else the built one. With --only, only the comparison with this name is
made.

- The help lists the commands in one order; the page `docs/mercator.1` and `docs/MANUAL.md` have the
  same order.
- For each command, help, page and manual have the same one-line description, and the same options in
  the same order, each with the same value, default and sentence, word for word. The page has the same
  other arguments.
- bash and zsh complete the commands, the options of each, and files where a value is a file. zsh runs
  in a terminal, if it is installed.
- The version of CHANGELOG.md is that of the program, of the page, of the package that the manual names, and of the clients.

It prints each difference, with a command that makes only this comparison, and at the end `N passed,
M failed`. The exit status is 1 if anything differs.
"""

from __future__ import annotations

import argparse
import fcntl
import os
import pty
import re
import select
import shlex
import shutil
import struct
import subprocess
import sys
import tempfile
import termios
import time
from pathlib import Path
from typing import Callable, Dict, List, NamedTuple, Optional, Set, Tuple

ROOT = Path(__file__).resolve().parent.parent
BUILT = ROOT / "crates/mercator_cli/out/mercator_cli"
PAGE = ROOT / "docs/mercator.1"
MANUAL = ROOT / "docs/MANUAL.md"
SECONDS = float(os.environ.get("SECONDS", "30"))

# The values that are names of files.
FILES = ("FILE", "LIST", "NEW")
HELP_COMMAND = re.compile(r"^  (\w+) +(.*)$", re.M)
HELP_LINE = re.compile(r" +(?:-\w, | {4})--([a-z-]+)(?: <([A-Z/=]+)>)? {2,}(.*)")
HELP_OPTION = re.compile(r" +(?:-\w, )?--")
HELP_DEFAULT = re.compile(r"^(.*?) \[default: (.*)\]$")
MACRO_PART = re.compile(r'(?:"[^"]*"|[^\s"])+')
PAGE_OPTION = re.compile(r"--([a-z-]+)(?: ([A-Z/=]+))?$")
PAGE_DEFAULT = re.compile(r"(?<= )The default is (.*?)\.(?= |$)")
MANUAL_HEADING = re.compile(r"^### `mercator ([a-z]+)\b(.*)`$", re.M)
MANUAL_OPTION = re.compile(r"--([a-z-]+)(?: ([A-Z/=]+))?$")
FILE = "some_file"

# What a shell offers if the last of these words is being typed.
Offered = Callable[[Tuple[str, ...]], Set[str]]


class Option(NamedTuple):
    name: str
    value: Optional[str]
    default: Optional[str]
    sentence: str


class Described(NamedTuple):
    """What a text says of a command: its description, its options except --help, its other arguments."""

    about: str
    options: List[Option]
    arguments: Set[str]


NOTHING = Described("", [], set())


# ---------------------------------------------------------------- the program's help


def help_of(program: str, *arguments: str) -> str:
    done = subprocess.run(
        [program, *arguments, "--help"], capture_output=True, check=True, text=True, timeout=SECONDS
    )
    return done.stdout


def sections_of(text: str) -> Dict[str, str]:
    """The lines below each title, by title."""
    return dict(re.findall(r"^(.*):\n((?: .*\n)+)", text, re.M))


def commands_of(program: str) -> Dict[str, str]:
    """The description of each command in the list of commands, in the order of that list."""
    return dict(HELP_COMMAND.findall(sections_of(help_of(program))["Commands"]))


def option_lines(text: str) -> List[str]:
    """The lines of the sections of options."""
    sections = [lines for lines in sections_of(text).values() if HELP_OPTION.match(lines)]
    return [line for lines in sections for line in lines.splitlines()]


def described_by_help(text: str) -> Described:
    options = []
    for line in option_lines(text):
        found = HELP_LINE.fullmatch(line)
        if not found:
            raise ValueError(f"the help has the line {line!r}")
        name, value, sentence = found.groups()
        default = HELP_DEFAULT.match(sentence)
        if default:
            sentence = default[1]
        if name != "help":
            options.append(Option(name, value, default[2] if default else None, sentence))
    usage = next(line for line in text.splitlines() if line.startswith("Usage: "))
    arguments = set(re.findall(r"[<[]([A-Z]+)[]>]", usage)) - {"OPTIONS", "COMMAND"}
    return Described(text.splitlines()[0], options, arguments)


def sentence_in(text: str, sentence: str) -> str:
    """The sentence, if the text begins with it and a full stop; else the text, so that the two differ."""
    return sentence if re.match(re.escape(sentence) + r"\.(?: |$)", text) else text


# ---------------------------------------------------------------- the page


def plain(source: str) -> str:
    """The text of lines of the page, without macros and fonts."""
    lines = []
    for line in source.splitlines():
        macro = re.match(r"\.([BI]|[BIR]{2}) (.*)", line)
        if macro:
            parts = [part.replace('"', "") for part in MACRO_PART.findall(macro[2])]
            lines.append((" " if len(macro[1]) == 1 else "").join(parts))
        elif not line.startswith("."):
            lines.append(line)
    text = " ".join(lines)
    for escape, character in ((r"\\f.", ""), (r"\\\(aq", "'"), (r"\\[|&]", ""), (r"\\-", "-"), (r"\\e", r"\\")):
        text = re.sub(escape, character, text)
    return text


def described_by_page(helps: Dict[str, Described]) -> Dict[str, Described]:
    """What the page says of each command, in the page's order."""
    text = PAGE.read_text()
    arguments = synopsis_of(text[text.index(".SH SYNOPSIS"):text.index(".SH DESCRIPTION")])
    sections = text[text.index(".SH COMMANDS"):text.index(".SH OPTIONS")].split("\n.SS ")[1:]
    described = {}
    for section in sections:
        command, _, rest = section.partition("\n")
        expected = helps.get(command, NOTHING)
        sentences = {option.name: option.sentence for option in expected.options}
        head, *paragraphs = re.split(r"^\.TP\n", rest, flags=re.M)
        options = []
        for paragraph in paragraphs:
            tag, _, body = paragraph.partition("\n")
            found = PAGE_OPTION.match(plain(tag.replace("\\-", "-")))
            if found:
                body_text = plain(body)
                default = PAGE_DEFAULT.search(body_text)
                sentence = sentence_in(body_text, sentences.get(found[1], ""))
                options.append(Option(found[1], found[2], default[1] if default else None, sentence))
        about = sentence_in(plain(head), expected.about)
        described[command] = Described(about, options, arguments.get(command, set()))
    return described


def synopsis_of(text: str) -> Dict[str, Set[str]]:
    arguments = {}
    for entry in text.split(".B mercator ")[1:]:
        command, _, rest = entry.partition("\n")
        arguments[command] = set(re.findall(r"\b[A-Z]{2,}\b", rest)) - {"OPTION", "COMMAND", "RI"}
    return arguments


def version_in(file: str, before: str) -> str:
    """The version that follows this text at the start of a line of the file."""
    found = re.search(rf"^{before}([0-9.]+)", (ROOT / file).read_text(), re.M)
    return found[1] if found else ""


# ---------------------------------------------------------------- the manual


def described_by_manual(helps: Dict[str, Described]) -> Dict[str, Described]:
    """What the manual says of each command: its first paragraph, and the rows of its table."""
    text = MANUAL.read_text()
    described = {}
    for heading in MANUAL_HEADING.finditer(text):
        rest = text[heading.end():]
        section = re.split(r"^#", rest, maxsplit=1, flags=re.M)[0]
        expected = helps.get(heading[1], NOTHING)
        about = sentence_in(without_marks(section.strip()), expected.about)
        rows = [cells_of(line) for line in section.splitlines() if line.startswith("|")]
        options = [option for row in rows[2:] if (option := option_of(rows[0], row, expected))]
        arguments = set(re.findall(r"\b[A-Z]+\b", heading[2])) - {"OPTIONS"}
        described[heading[1]] = Described(about, options, arguments)
    return described


def without_marks(text: str) -> str:
    """A text without the marks of code and of emphasis. A star in the middle of a word is no mark."""
    return re.sub(r"(?<![\w/])\*+(?!\.)|\*+(?![\w.])", "", text.replace("`", ""))


def cells_of(row: str) -> List[str]:
    return [without_marks(cell).strip() for cell in row.strip().strip("|").split("|")]


def option_of(titles: List[str], cells: List[str], expected: Described) -> Optional[Option]:
    """The option of a row, whose cells have these titles."""
    row = dict(zip(titles, cells))
    found = MANUAL_OPTION.match(row.get("Option", ""))
    if not found:
        return None
    cell = row.get("What it does", "")
    for option in expected.options:
        if option.name == found[1]:
            cell = sentence_in(cell, option.sentence)
    return Option(found[1], found[2], row.get("Default") or None, cell)


# ---------------------------------------------------------------- bash and zsh


def offered_by_bash(words: Tuple[str, ...], folder: Path) -> Set[str]:
    """What bash offers while the last word is being typed."""
    script = (
        'source "$1"; shift; COMP_WORDS=(mercator "$@"); COMP_CWORD=$#; _mercator;'
        ' printf "%s\\n" "${COMPREPLY[@]}"'
    )
    done = subprocess.run(
        ["bash", "-c", script, "bash", str(ROOT / "completions/mercator.bash"), *words],
        cwd=folder, capture_output=True, check=True, text=True, timeout=SECONDS,
    )
    return set(done.stdout.split())


class Zsh:
    """zsh in a terminal. Its tab key lists what it offers."""

    SETTINGS = (
        f"fpath=({ROOT}/completions $fpath)", "autoload -Uz compinit", "compinit -D -u",
        "LISTMAX=0", "unsetopt prompt_sp zle_bracketed_paste", "bindkey '^I' list-choices",
        "over() zle -M is-over", "zle -N over", "bindkey '^X' over", "print 'is-re''ady'",
    )

    def __init__(self, folder: Path) -> None:
        self.terminal, inside = pty.openpty()
        fcntl.ioctl(inside, termios.TIOCSWINSZ, struct.pack("HHHH", 200, 200, 0, 0))
        self.process = subprocess.Popen(
            ["zsh", "-f", "-i"], stdin=inside, stdout=inside, stderr=inside, cwd=folder,
            env={**os.environ, "TERM": "vt100"}, start_new_session=True,
        )
        os.close(inside)
        self.ask("\n".join(self.SETTINGS) + "\n", "is-ready")

    def ask(self, text: str, until: str) -> str:
        """Types the text, and reads until the terminal shows `until`."""
        os.write(self.terminal, text.encode())
        shown, end = "", time.monotonic() + SECONDS
        while until not in shown:
            if not select.select([self.terminal], [], [], end - time.monotonic())[0]:
                raise TimeoutError(f"zsh shows no {until!r} after {text!r}")
            shown += os.read(self.terminal, 65536).decode("utf-8", "replace")
        return shown

    def offered(self, words: Tuple[str, ...]) -> Set[str]:
        """What zsh lists below the line. Control-U then deletes the line."""
        shown = self.ask(f"mercator {' '.join(words)}\t\x18", "is-over")
        os.write(self.terminal, b"\x15")
        listed = re.sub(r"\x1b\[[0-9;?]*[A-Za-z]|\0", "", shown)
        return set(re.findall(rf"^(--[a-z-]+|{FILE}|[a-z]+(?= +--))", listed, re.M))

    def end(self) -> None:
        self.process.kill()
        self.process.wait()
        os.close(self.terminal)


# ---------------------------------------------------------------- comparing


class Trial:
    """Counts comparisons, and prints those that fail. With `only`, it ignores all but the one with this name."""

    def __init__(self, program: str, only: Optional[str]) -> None:
        self.passed = self.failed = 0
        self.program, self.only = program, only

    def equal(self, what: str, found: object, expected: object) -> None:
        if self.only not in (None, what):
            return
        self.passed += found == expected
        if found != expected:
            self.failed += 1
            print(f"{what}: FAILED")
            if isinstance(found, set) and isinstance(expected, set):
                print(f"    missing: {sorted(map(str, expected - found))}")
                print(f"    unknown: {sorted(map(str, found - expected))}")
            else:
                print(f"    found:    {found}\n    expected: {expected}")
            words = [sys.argv[0], "--only", what, self.program]
            print(f"    to run only this: {shlex.join(words)}")


def compare_text(
    trial: Trial, text: str, found: Dict[str, Described], helps: Dict[str, Described]
) -> None:
    """Compares what a text says of each command with the help."""
    for command, expected in helps.items():
        ours = found.get(command, NOTHING)
        trial.equal(f"{text}: description of {command}", ours.about, expected.about)
        names = [option.name for option in expected.options]
        trial.equal(f"{text}: options of {command}", [option.name for option in ours.options], names)
        by_name = {option.name: option for option in ours.options}
        for option in expected.options:
            trial.equal(f"{text}: {command} --{option.name}", by_name.get(option.name), option)
        trial.equal(f"{text}: arguments of {command}", ours.arguments, expected.arguments)


def compare_page(trial: Trial, about: str, helps: Dict[str, Described]) -> None:
    found = described_by_page(helps)
    trial.equal("the page: commands", list(found), [*helps, "help"])
    compare_text(trial, "the page", found, helps)
    name = plain(PAGE.read_text().partition(".SH NAME\n")[2].partition("\n")[0]).partition(" - ")[2]
    trial.equal("the page: the line NAME", name[:1].upper() + name[1:], about)
    version = version_in("CHANGELOG.md", "## ")
    trial.equal("the page: version", version_in("docs/mercator.1", '.TH .* "mercator '), version)
    if shutil.which("groff"):
        command = ["groff", "-man", "-ww", "-z", str(PAGE)]
        warned = subprocess.run(command, capture_output=True, text=True, timeout=SECONDS)
        trial.equal("the page: warnings of groff", warned.stdout + warned.stderr, "")


def compare_manual(trial: Trial, helps: Dict[str, Described]) -> None:
    found = described_by_manual(helps)
    trial.equal("the manual: commands", list(found), list(helps))
    compare_text(trial, "the manual", found, helps)


def compare_shell(trial: Trial, helps: Dict[str, Described], shell: str, offered: Offered) -> None:
    commands = offered(("",)) - {"--help", "--version"}
    trial.equal(f"{shell}: commands", commands, {*helps, "help"})
    for command, expected in helps.items():
        options = {f"--{option.name}" for option in expected.options} | {"--help"}
        trial.equal(f"{shell}: options of {command}", offered((command, "--")), options)
        for option in expected.options:
            if option.value:
                files = {FILE} if option.value in FILES else set()
                found = offered((command, f"--{option.name}", FILE[:1])) & {FILE}
                trial.equal(f"{shell}: files for {command} --{option.name}", found, files)
        if "FILE" in expected.arguments:
            trial.equal(f"{shell}: files for {command}", offered((command, FILE[:1])), {FILE})


def compare_shells(trial: Trial, helps: Dict[str, Described], folder: Path) -> None:
    (folder / FILE).touch()
    compare_shell(trial, helps, "bash", lambda words: offered_by_bash(words, folder))
    if shutil.which("zsh"):
        zsh = Zsh(folder)
        compare_shell(trial, helps, "zsh", zsh.offered)
        zsh.end()
    else:
        print("zsh is not installed, so its completions are not tested")


def compare_versions(trial: Trial, program: str) -> None:
    version = version_in("CHANGELOG.md", "## ")
    shown = subprocess.run([program, "--version"], capture_output=True, text=True, timeout=SECONDS)
    trial.equal("the program's version", shown.stdout.split()[:2], ["mercator", version])
    clients = version_in("clients/python/make_wheel.py", 'NAME, VERSION = "mercator_clients", "')
    trial.equal("the version of the Python clients", clients, version)
    trial.equal("the version of the Node client", version_in("clients/node/package.json", '  "version": "'), f"{version}.0")
    trial.equal("the version of the Go client", version_in("clients/go/README.md", "go mod edit -require=mercator.example/frontier@v"), f"{version}.0")
    packages = set(re.findall(r"mercator_([0-9.]+)_amd64\.deb", MANUAL.read_text()))
    trial.equal("the manual: version of the package", packages, {version})


def main() -> None:
    parser = argparse.ArgumentParser(description=__doc__, formatter_class=argparse.RawDescriptionHelpFormatter)
    parser.add_argument("--only", metavar="NAME", help="make only the comparison with this name, which a failure prints")
    parser.add_argument("program", metavar="PROGRAM", nargs="?", help="program to ask for its help")
    arguments = parser.parse_args()
    named = arguments.program or os.environ.get("MERCATOR") or str(BUILT)
    found = shutil.which(named)
    if found is None:
        sys.exit(f"manual_page.py: there is no program {named}")
    program = str(Path(found).resolve())
    listed = {name: about for name, about in commands_of(program).items() if name != "help"}
    helps = {command: described_by_help(help_of(program, command)) for command in listed}
    trial = Trial(program, arguments.only)
    trial.equal("descriptions in the list of commands", {name: one.about for name, one in helps.items()}, listed)
    compare_page(trial, help_of(program).splitlines()[0], helps)
    compare_manual(trial, helps)
    compare_versions(trial, program)
    with tempfile.TemporaryDirectory() as folder, tempfile.TemporaryDirectory() as programs:
        # The completions run the program by its name.
        Path(programs, "mercator").symlink_to(program)
        os.environ["PATH"] = f"{programs}:{os.environ['PATH']}"
        compare_shells(trial, helps, Path(folder))
    print(f"{trial.passed} passed, {trial.failed} failed")
    sys.exit(1 if trial.failed or not trial.passed else 0)


if __name__ == "__main__":
    main()
