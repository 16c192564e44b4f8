"""Run programs with failing memory allocations, for tests/refused-growths.sh, which describes the tests.

Usage: refused_growths.py PROGRAM SCRATCH commands|tests
SCRATCH is a folder with refuse.so, which is built from tests/refused_growths.c, and the inputs pages.web, requests, log,
known and list.
"""

from __future__ import annotations

import os
import re
import subprocess
import sys
from concurrent.futures import ThreadPoolExecutor
from itertools import islice
from pathlib import Path
from typing import Iterable, Iterator, NamedTuple, Optional, Sequence

ROOT = Path(__file__).resolve().parent.parent
DATA = str(ROOT / "examples")
SECONDS = float(os.environ.get("SECONDS", "60"))  # the time limit of a run
AT_ONCE = len(os.sched_getaffinity(0))
RING = f"{DATA}/ring.web"
SITE = f"{DATA}/site.web"

# An error, after the note about a line of the site list.
ERROR = re.compile(
    rb"(mercator: [^\n]*: line skipped, an earlier line has the same URL\n)?"
    rb"mercator: (out of memory|cannot read [^\n]*|cannot write|bad suffix|(seed \d+|URL): [a-z A-Z]+"
    rb"|(saved web|script|seeds|index): (line \d+: )?[a-zA-Z -]+8?|incomplete(: [a-z0-9 ]+)?|BASE: [a-zA-Z ]+)\n"
)


class Command(NamedTuple):
    """The arguments of the program, and the file on its standard input."""

    words: Sequence[str]
    given: Optional[str] = None

    def name(self, scratch: str) -> str:
        return " ".join(word.replace(f"{DATA}/", "").replace(f"{scratch}/", "") for word in self.words)


class Ended(NamedTuple):
    """The result of a run, and whether it reached the failing allocation."""

    status: int
    out: bytes
    errors: bytes
    met: bool


def commands_with(scratch: str) -> tuple[Command, ...]:
    """Return commands that succeed, and then one for each kind of error."""
    return (
        Command(["crawl", "--workers", "1", RING, "http://a.test/"]),
        Command(["crawl", "--workers", "2", RING, "http://a.test/"]),
        Command(["crawl", "--workers", "4", RING, "http://a.test/"]),
        Command(["crawl", "--workers", "2", "-", "http://a.test/"], RING),
        Command(["crawl", "--workers", "3", "--queues", RING, "http://a.test/"]),
        Command(["crawl", "--workers", "2", "--within", "a.test", RING, "http://a.test/"]),
        Command(["crawl", "--workers", "2", "--sources", SITE, "http://site.test/"]),
        Command(["crawl", "--workers", "1", "--seeds", f"{DATA}/moved.seeds", f"{DATA}/moved.web"]),
        Command(["crawl", "--workers", "1", "--seeds", "-", f"{DATA}/moved.web"], f"{DATA}/moved.seeds"),
        Command(["replay", f"{DATA}/two_urls.script"]),
        Command(["replay", "-"], f"{DATA}/two_urls.script"),
        Command(["key", "http://A.test:80/x/../y#f", "--workers", "2"]),
        Command(["check", f"{DATA}/site"]),
        Command([
            "check", "--workers", "2", "--ignore", f"{scratch}/known", "--unreached", "--external", f"{DATA}/site",
        ]),
        Command(["check", "--json", "--seed", "news/", f"{DATA}/site", "http://site.test/"]),
        Command(["check", "--html", f"{DATA}/site"]),
        Command(["check", "--index", f"{scratch}/list", f"{DATA}/site", "http://site.test/"]),
        Command(["check", "--annotations", "--no-anchors", "--exact", f"{DATA}/site"]),
        Command(["site", f"{DATA}/site", "http://site.test/"]),
        Command(["serve", "--workers", "1"], f"{scratch}/requests"),
        Command(["serve", "--workers", "1", "--within", "a.test", "--part", "0/2"], f"{scratch}/requests"),
        Command(["serve", "--log", f"{scratch}/log", "--list", "pending"]),
        Command(["serve", "--log", f"{scratch}/log", "--list", "stats", "--json"]),
        Command(["--help"]),
        Command(["crawl", "--help"]),
        Command(["help", "replay"]),
        Command(["crawl", "--within", "*", RING, "http://a.test/"]),
        Command(["crawl", "no/such.web", "http://a.test/"]),
        Command(["check", "no/such/folder"]),
        Command(["site", f"{DATA}/site", "ftp://site.test/"]),
        Command(["crawl", "--seeds", "no/such.seeds", RING]),
        Command(["crawl", f"{DATA}/two_urls.script", "http://a.test/"]),
        Command(["crawl", "--seeds", RING, RING]),
        Command(["crawl", "--seeds", "/dev/null", RING]),
        Command(["crawl", RING, "mailto:x"]),
        Command(["crawl", "--max-pending", "1", RING, "http://a.test/"]),
        Command(["replay", RING]),
        Command(["key", "x"]),
        Command(["crawl", "--workers", "513", RING, "http://a.test/"]),
        Command(["crawl", "--seeds", "-", "-"]),
        Command(["play"]),
        Command([]),
    )


class Growths:
    """Runs of programs with a failing allocation."""

    def __init__(self, program: str, scratch: str) -> None:
        self.program, self.scratch = program, scratch

    def run(self, command: Command, growth: int, mark: str, program: Optional[str] = None) -> Ended:
        """Run a program whose allocation with this number fails and makes the file `mark`; none fails if it is 0."""
        env = {"LD_PRELOAD": f"{self.scratch}/refuse.so", "REFUSE": str(growth), "REFUSED": mark}
        with open(command.given or os.devnull, "rb") as stdin:
            done = subprocess.run(
                [program or self.program, *command.words], stdin=stdin, capture_output=True, env=env,
                timeout=SECONDS, check=False,
            )
        met = os.path.exists(mark)
        if met:
            os.remove(mark)
        return Ended(done.returncode, done.stdout, done.stderr, met)

    def wrong(self, command: Command, growth: int, whole: Ended) -> tuple[Optional[str], bool]:
        """Return what is wrong with a run, or None, and whether it reached the failing allocation."""
        try:
            ended = self.run(command, growth, f"{self.scratch}/met.{os.getpid()}.{growth}.{id(command)}")
        except subprocess.TimeoutExpired:
            return f"it did not end within {SECONDS} s", True
        result = f"status {ended.status}: {ended.out[:200]!r} {ended.errors[:200]!r}"
        if ended[:3] == whole[:3]:
            return None, ended.met
        if not ended.met:
            return f"another result, although no allocation failed: {result}", ended.met
        # A session may have answered its first lines.
        is_begun = list(command.words[:1]) == ["serve"] and whole.out.startswith(ended.out) and ended.out.endswith(b"\n")
        # A command line is not wrong because memory ran out.
        is_error = ended.status in (1, 2) or ended.status == whole.status == 3
        if is_error and (not ended.out or is_begun) and is_message(ended.status, ended.errors):
            return None, ended.met
        return result, ended.met

    def all_of(self, command: Command, numbers: Iterable[int], pool: ThreadPoolExecutor) -> tuple[int, int]:
        """Return the number of the last allocation that the command made, and how many runs failed."""
        whole = self.run(command, 0, f"{self.scratch}/none")
        failed = last = 0
        rest = iter(numbers)
        while batch := list(islice(rest, 4 * AT_ONCE)):
            found = list(pool.map(lambda number: self.wrong(command, number, whole), batch))
            for number, (text, met) in zip(batch, found):
                last = max(last, number) if met else last
                if text:
                    failed += 1
                    print(f"{command.name(self.scratch)}: allocation {number}: {text}")
            if not all(met for _, met in found):
                break
        return last, failed

    def commands(self) -> int:
        failed = 0
        with open(f"{self.scratch}/pages.web", encoding="utf-8") as web:
            next(web)
            first_page = next(web).split(" ", 1)[1].strip()
        with ThreadPoolExecutor(AT_ONCE) as pool:
            for command in commands_with(self.scratch):
                last, wrongs = self.all_of(command, range(1, 1_000_000), pool)
                failed += wrongs
                print(f"{last:6} allocations: mercator {command.name(self.scratch)}", flush=True)
            pages = Command(["crawl", "--workers", "2", f"{self.scratch}/pages.web", first_page])
            last, wrongs = self.all_of(pages, (1_000, 3_000, 10_000, 10_001, 10_002, 10_003), pool)
            failed += wrongs
            print(f"a crawl of 2,000 pages: some allocations up to {last} failed")
            if last < 10_000:
                failed += 1
                print("it makes fewer than 10,000 allocations")
        return failed

    def test_fails(self, program: str, name: str) -> tuple[Optional[str], int]:
        """Return what is wrong with a test, or None, and how many allocations failed.

        A test that returns an error ends with status 101, and one that an assertion stops prints this and aborts.
        """
        refused = 0
        for growth in apart():
            mark = f"{self.scratch}/met.{os.path.basename(program)}.{name}"
            try:
                ended = self.run(Command([name]), growth, mark, program)
            except subprocess.TimeoutExpired:
                return f"allocation {growth}: it did not end within {SECONDS} s", refused
            if not ended.met:
                break
            refused += 1
            stopped = ended.status == -6 and ended.out.startswith(b"\ntest stopped at src/tests")
            if ended.status not in (0, 101) and not stopped:
                return f"allocation {growth}: status {ended.status}: {ended.out[-200:]!r} {ended.errors[:400]!r}", refused
        return None, refused

    def tests(self) -> int:
        failed = 0
        built = sorted(str(path) for path in ROOT.glob("crates/*/out/*_tests"))
        for crate in sorted(ROOT.glob("crates/*_tests")):
            if not any(program.startswith(f"{crate}/") for program in built):
                failed += 1
                print(f"{crate.name}: no tests are built: run `rt test` in this crate")
        for program in built:
            listed = subprocess.run([program, "--list"], capture_output=True, text=True, check=True).stdout
            names = [line.removesuffix(": test") for line in listed.splitlines() if line.endswith(": test")]
            with ThreadPoolExecutor(AT_ONCE) as pool:
                found = list(pool.map(lambda name: self.test_fails(program, name), names))
            for name, (text, _) in zip(names, found):
                if text:
                    failed += 1
                    print(f"{name}: {text}")
            refused = sum(count for _, count in found)
            failed += refused == 0  # each program has tests that allocate memory
            print(f"{refused:6} failed allocations: {len(names)} tests of {os.path.basename(program)}", flush=True)
        return failed

    def calls(self) -> int:
        """Return how many runs of the calls of a frontier fail: each must end by itself with status 0 or 1."""
        folder, refused, failed = ROOT / "crates/library_calls", 0, 0
        for growth in apart():
            command = Command(["calls"], str(folder / "stdin"))
            ended = self.run(command, growth, f"{self.scratch}/met.calls", str(folder / "out/library_calls"))
            if not ended.met:
                break
            refused += 1
            if ended.status not in (0, 1) or ended.errors:
                failed += 1
                print(f"calls of a frontier: allocation {growth}: status {ended.status}: {ended.errors[:400]!r}")
        print(f"{refused:6} failed allocations: calls of a frontier", flush=True)
        return failed + (refused == 0)


def is_message(status: int, errors: bytes) -> bool:
    """Return whether standard error is an error message, a text of `clap` or its beginning, or empty."""
    if not errors or (status in (1, 2) and ERROR.fullmatch(errors)):
        return True
    return status == 3 and errors.startswith((b"error: ", b"A link checker for folders of HTML pages"))


def apart() -> Iterator[int]:
    """Yield numbers of allocations in longer and longer steps."""
    number = 1
    while number < 10_000_000:
        yield number
        number = max(number + 1, number * 5 // 4)


def main() -> None:
    program, scratch, what = sys.argv[1:]
    growths = Growths(program, scratch)
    failed = growths.tests() + growths.calls() if what == "tests" else growths.commands()
    print(f"{failed} runs failed" if failed else "all runs ended as expected")
    sys.exit(1 if failed else 0)


if __name__ == "__main__":
    main()
