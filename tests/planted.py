#!/usr/bin/env python3
"""Try the bugs of tests/planted.txt, which were planted by hand in the crates of a check.

Usage: planted.py [--mutants] [CRATE/NAME ..]

Without --mutants it tries the bugs with a command: with each, the command must fail. It works on a temporary clone of the
last commit, and builds a program without proofs for each bug (tools/unproved.sh), which takes minutes. First each command must
pass without a bug. With --mutants it tries the other bugs, which the prover must refuse, by tests/mutants.sh. CRATE/NAME is one
bug [default: all].

It prints a line for each bug; the last line is `N passed, M failed`. The exit status is 1 if any failed. Requires the Rattle
toolchain.
"""

from __future__ import annotations

import argparse
import os
import re
import shlex
import subprocess
import sys
import tempfile
from pathlib import Path
from typing import Dict, List, NamedTuple, Optional, Sequence

from mutants import applied, changes_of

TESTS = Path(__file__).resolve().parent
COUNTS = re.compile(r"(\d+) passed, (\d+) failed")


class Bug(NamedTuple):
    """A planted bug, and the command that fails with it; the command of a mutant is empty."""

    name: str
    command: str


def bugs_in(text: str) -> List[Bug]:
    """Return the bugs of a list. A comment begins with `#`."""
    lines = [line for line in (line.partition("#")[0].strip() for line in text.split("\n")) if line]
    return [Bug(name, command.strip()) for name, _, command in (line.partition(":") for line in lines)]


def run(command: Sequence[str], folder: Path, program: str = "") -> subprocess.CompletedProcess[str]:
    """Run a command with this program to test, and return its status and its output."""
    return subprocess.run(
        command,
        cwd=folder,
        env={**os.environ, "PROGRAM": program},
        stdin=subprocess.DEVNULL,
        stdout=subprocess.PIPE,
        stderr=subprocess.PIPE,
        encoding="utf-8",
        errors="replace",
    )


def program_of(clone: Path) -> Optional[str]:
    """Build the program of the clone without its proofs, and return its path, or None if it is not built."""
    built = run(["tools/unproved.sh"], clone)
    if built.returncode:
        print(built.stderr[-2000:], flush=True)
        return None
    return built.stdout.strip()


def failures(command: str, clone: Path, program: str) -> int:
    """Return how many tests of a command fail with this program, or -1 if the command did not end as a test does."""
    ended = run(shlex.split(command), clone, program)
    last = ended.stdout.strip().rpartition("\n")[2]
    found = COUNTS.fullmatch(last)
    if not found or (ended.returncode == 0) != (found[2] == "0"):
        return -1
    return int(found[2])


def tried(bug: Bug, clone: Path) -> str:
    """Return what the command says of the program with this bug."""
    crate, _, name = bug.name.partition("/")
    folder = clone / "crates" / crate
    changes = changes_of(TESTS / "planted" / crate / f"{name}.edit")
    texts: Dict[str, str] = {change.file: (folder / change.file).read_text("utf-8") for change in changes}
    after = applied(changes, texts)
    if not after:
        return "NOT TRIED: an old text does not occur exactly once"
    write(folder, after)
    program = program_of(clone)
    write(folder, texts)
    if not program:
        return "NOT TRIED: the program was not built"
    failed = failures(bug.command, clone, program)
    return f"seen by {failed} tests" if failed > 0 else "NOT SEEN" if failed == 0 else "NOT TRIED: the command did not end"


def write(folder: Path, texts: Dict[str, str]) -> None:
    for file, text in texts.items():
        (folder / file).write_text(text, "utf-8")


def try_commands(bugs: Sequence[Bug], clone: Path) -> bool:
    """Return whether each command passes without a bug."""
    program = program_of(clone)
    passed = program is not None
    for command in sorted({bug.command for bug in bugs}):
        if program and failures(command, clone, program) != 0:
            print(f"{command}: fails without a bug", flush=True)
            passed = False
    return passed


def try_bugs(bugs: Sequence[Bug]) -> int:
    """Try the bugs, print a line for each, and return how many are seen."""
    seen = 0
    with tempfile.TemporaryDirectory() as scratch:
        clone = Path(scratch) / "clone"
        subprocess.run(["git", "clone", "-q", str(TESTS.parent), str(clone)], check=True)
        if not try_commands(bugs, clone):
            return 0
        for bug in bugs:
            answer = tried(bug, clone)
            print(f"{bug.name}: {answer}", flush=True)
            seen += answer.startswith("seen")
    return seen


def main() -> int:
    parser = argparse.ArgumentParser(description="Try the bugs of tests/planted.txt.")
    parser.add_argument("--mutants", action="store_true", help="try the bugs that the prover refuses")
    parser.add_argument("names", metavar="CRATE/NAME", nargs="*", help="the bugs to try (default: all)")
    arguments = parser.parse_args()
    listed = bugs_in((TESTS / "planted.txt").read_text("utf-8"))
    unknown = set(arguments.names) - {bug.name for bug in listed}
    if unknown:
        parser.error(f"not in planted.txt: {', '.join(sorted(unknown))}")
    chosen = [bug for bug in listed if bug.name in (arguments.names or [bug.name])]
    bugs = [bug for bug in chosen if not bug.command] if arguments.mutants else [bug for bug in chosen if bug.command]
    if arguments.mutants and bugs:
        return subprocess.run([TESTS / "mutants.sh", *(bug.name for bug in bugs)]).returncode
    seen = try_bugs(bugs) if bugs else 0
    print(f"{seen} passed, {len(bugs) - seen} failed")
    return 0 if bugs and seen == len(bugs) else 1


if __name__ == "__main__":
    sys.exit(main())
