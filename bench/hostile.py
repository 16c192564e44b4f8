#!/usr/bin/env python3
"""Measure `mercator site` and `mercator check` on documents and folders that an attacker might make to be slow.

Both commands run on one processor. Times are CPU times, in user and in system mode, because elapsed times also depend on what else
the machine does. The least of RUNS runs counts (environment variable, default: 3), or that of one run that takes more than 5 seconds.
Memory is the greatest peak of the runs, measured by GNU time. If this process measured it, it would be at least the memory of Python,
which Linux counts as the program's until the program has started: the memory of a small input could not be seen, and the memory per
byte would seem to grow. The time and the memory for a folder with one empty file are subtracted. A run is killed after 60 seconds, and
it may reserve MEMORY GiB (environment variable, default: 12; 0 for no limit, as a program with the address sanitizer needs it).

The last line of a pattern is its verdict, and the exit status is 1 if one has failed.

A document repeats a pattern up to a size, and is in a folder with a page that links to it. The time of the whole program is an
upper bound of the time of the tokenizer. A pattern fails if `site` takes more than 0.06 microseconds per byte, or if the time
per byte of either command is more than twice as long at the largest size as at the smallest one.

A folder has many files, links or spellings of one kind (hostile_folders.py). Its size is that of its files, also through
symbolic links to them, and of all paths. It is compared with an ordinary folder of the same size, which has pages with links to the
next page and to missing ones. A pattern fails if at any size

- `site` takes more than 3 times as long as on an ordinary folder of the same size whose saved web is as large. Both sizes count,
  because a link needs fewer bytes than its page in the saved web: if 100 KB of links with different queries make 270 KB of pages,
  an ordinary folder with as many pages is the measure, and not one page of 100 KB. So the ordinary folder has as many files as the
  pattern and, if that is not enough, empty images in place of some of its text.
- or `check` takes more than 5 times as long as on an ordinary folder of the same size with the same number of files, whose report is
  several times as large as the folder
- or the time, the memory or the output per byte is more than twice as much as at the smallest size at which it can be measured.

If a pattern prints more than its ordinary folder, as with a base of 4 KB for each link, times are divided by the bytes that are
read and printed. Times of a few milliseconds vary, so a time also has to be NOISE above its limit.
"""

from __future__ import annotations

import argparse
import os
import pathlib
import resource
import subprocess
import sys
import tempfile
from typing import Iterable, NamedTuple

import hostile_folders

TOP = pathlib.Path(__file__).resolve().parents[1]
RUNS = int(os.environ.get("RUNS", "3"))
MEMORY = int(os.environ.get("MEMORY", "12"))
LONG, LIMIT = 5.0, 60  # the seconds of a run that is not repeated, and of one that is killed
# The arguments of each command, before the folder
COMMANDS = {"site": ["site"], "check": ["check", "--json", "--unreached", "--external"]}
URL = "http://a.test/"
MOST, GROWTH = 0.06, 2.0
TIMES = {"site": 3.0, "check": 5.0}  # the most times as long as on an ordinary folder of the same size
NOISE = 4.0  # milliseconds, MiB of memory and KiB of output that count as nothing
NUMBER = b"0000000"  # replaced by the number of the repetition

# name: the beginning of the document, the repeated pattern, the end of the document
PATTERNS: dict[str, tuple[bytes, bytes, bytes]] = {
    "less_than": (b"", b"<", b""),
    "one_name": (b"", b"<a", b""),
    "tags": (b"", b"<a>", b""),
    "spaced_tags": (b"", b"<a ", b""),
    "slashes": (b"<a", b"/", b">"),
    "spaces": (b"<a", b" ", b">"),
    "attributes": (b"<a", b" x", b">"),
    "equal_names": (b"<a", b" id=x", b">"),
    "distinct_names": (b"<a", b" x0000000", b">"),
    "unclosed_quotes": (b"", b'<a b="', b""),
    "unclosed_values": (b"", b"<a href=", b""),
    "empty_values": (b"", b"<a href>", b""),
    "comments": (b"", b"<!--", b""),
    "comments_inside": (b"", b"<!--<!", b""),
    "comment_ends": (b"<!--", b"--!", b""),
    "dashes": (b"<!--", b"-", b""),
    "short_comments": (b"", b"<!-->", b""),
    "declarations": (b"", b"<!", b""),
    "questions": (b"", b"<?>", b""),
    "end_openings": (b"", b"</", b""),
    "end_tags": (b"", b"</a>", b""),
    "end_attributes": (b"</a", b" x", b">"),
    "titles": (b"", b"<title></title>", b""),
    "title_ends": (b"<title>", b"</titl", b""),
    "script_ends": (b"<script>", b"</scrip", b""),
    "scripts_inside": (b"<script>", b"<!--<script>", b""),
    "escaped_script": (b"<script><!--", b"a", b""),
    "script_names": (b"<script><!--", b"<script </script ", b""),
    "templates": (b"", b"<template>", b""),
    "closed_templates": (b"", b"<template></template>", b""),
    "ampersands": (b'<a href="', b"&", b'">'),
    "numbers": (b'<a href="', b"&#1", b'">'),
    "short_references": (b'<a href="', b"&eW", b'">'),
    "long_references": (b'<a href="', b"&CounterClockwiseContourIntegral;", b'">'),
    "nuls": (b'<a href="', b"\0", b'">'),
    "references_in_rel": (b'<link href=x rel="', b"&eW", b'">'),
    "words_in_rel": (b'<link href=x rel="', b"preconnect ", b'">'),
    "srcset": (b'<img srcset="', b"a, ", b'">'),
    "parentheses": (b'<img srcset="a ', b"(", b'">'),
    "refresh": (b"", b"<meta http-equiv=refresh content=0;x>", b""),
    "style": (b"", b"<p style=url(x)>", b""),
    "links": (b"", b"<a href=x>", b""),
    "distinct_links": (b"", b"<a href=0000000>", b""),
    "queries": (b"", b"<a href=?x>", b""),
    "escapes": (b"", b"<a href=%61>", b""),
    "schemes": (b"", b"<a href=a:b>", b""),
    "base": (b"<base href=b/>", b"<a href=x>", b""),
    "fragments": (b"", b"<a href=#0000000>", b""),
    "equal_ids": (b"", b"<p id=x>", b""),
    "long_ids": (b"", b"<p id=" + b"a" * 90 + b"0000000>", b""),
    "long_link": (b"<a href=", b"a", b">"),
    "tabs": (b'<a href="', b"a\t", b'">'),
    "line_feeds": (b"", b"\n<a href=x>", b""),
    "no_utf_8": (b"", b"\xff", b""),
    "utf_16": (b"\xff\xfe", "<a href=x>".encode("utf-16-le"), b""),
    "surrogates": (b"\xff\xfe", b"\x00\xd8", b""),
    "windows_query": (b'<meta charset=windows-1252><a href="?', b"\x9f", b'">'),
}


class Run(NamedTuple):
    """The CPU time in seconds, the peak memory in MiB and the bytes of the output of a run. It has failed if it was killed."""

    seconds: float
    memory: float
    output: int
    failed: bool = False

    def __sub__(self, other: "Run") -> "Run":
        """Return what this run needs more than another."""
        return Run(max(self.seconds - other.seconds, 1e-6), max(self.memory - other.memory, 0.0), self.output, self.failed)


def document(name: str, size: int) -> bytes:
    """Return the document of a pattern, with about `size` bytes."""
    before, repeated, after = PATTERNS[name]
    count = (size - len(before) - len(after)) // len(repeated)
    if NUMBER not in repeated:
        return before + repeated * count + after
    return before + b"".join(repeated.replace(NUMBER, b"%07d" % number) for number in range(count)) + after


class Input(NamedTuple):
    """A pattern of a size; for the ordinary folder, also of numbers of pages and images."""

    name: str
    size: int
    files: int = 1
    images: int = 0


def write_input(given: Input, folder: str) -> Input:
    """Write the folder of a pattern, and return its real size and number of files."""
    name, size, files, images = given
    if name in PATTERNS:
        pathlib.Path(folder, "index.html").write_bytes(b"<a href=page.html>")
        return Input(name, pathlib.Path(folder, "page.html").write_bytes(document(name, size)), 2)
    if name == "ordinary":
        return Input(name, *hostile_folders.write(hostile_folders.ordinary(files, size, images), folder))
    pattern = hostile_folders.PATTERNS[name]
    return Input(name, *hostile_folders.write(pattern(hostile_folders.count_for(pattern, size)), folder))


def made(given: Input, folder: str) -> Input:
    """Write the folder of a pattern, and return its real size and number of files.

    A process of its own writes it, because the memory of this process would count as that of the program.
    """
    counts = ["--size", str(given.size), "--files", str(given.files), "--images", str(given.images)]
    words = [sys.executable, __file__, "--write", folder, *counts, given.name]
    size, files = map(int, subprocess.run(words, stdout=subprocess.PIPE, check=True).stdout.split())
    return Input(given.name, size, files)


def limit() -> None:
    """Limit the CPU time of this process to LIMIT seconds, and the memory that it reserves to MEMORY GiB."""
    resource.setrlimit(resource.RLIMIT_CPU, (LIMIT, LIMIT))
    if MEMORY:
        resource.setrlimit(resource.RLIMIT_AS, (MEMORY << 30, MEMORY << 30))


def run_once(words: list[str], is_counted: bool) -> Run:
    """Run a command, and count the bytes of its output or drop it. Exit status 4 of a check means broken links."""
    out = subprocess.PIPE if is_counted else subprocess.DEVNULL
    with tempfile.NamedTemporaryFile() as report:
        process = subprocess.Popen(
            ["time", "-f", "%M", "-o", report.name, *words],
            stdin=subprocess.DEVNULL, stdout=out, stderr=subprocess.DEVNULL, preexec_fn=limit,
        )
        size = 0
        while process.stdout and (some := process.stdout.read(1 << 16)):
            size += len(some)
        if process.stdout:
            process.stdout.close()
        _, status, usage = os.wait4(process.pid, 0)
        memory = int(report.read().split()[-1]) / 1024
    process.returncode = os.WEXITSTATUS(status)
    if process.returncode not in (0, 4):
        print(f"{' '.join(words)} ended with status {process.returncode}", file=sys.stderr)
    return Run(usage.ru_utime + usage.ru_stime, memory, size, process.returncode not in (0, 4))


def measured(program: str, command: str, folder: str) -> Run:
    """Return the least time and the greatest memory of the runs of a command, and the size of its output."""
    words = [program, *COMMANDS[command], folder, URL]
    first = run_once(words, True)
    runs = [first]
    while len(runs) <= RUNS and not first.failed and first.seconds < LONG:
        runs.append(run_once(words, False))
    failed = any(run.failed for run in runs)
    return Run(min(run.seconds for run in runs), max(run.memory for run in runs), first.output, failed)


class Row(NamedTuple):
    """What a command needed for an input."""

    command: str
    input: Input
    run: Run

    def per_byte(self) -> float:
        """Return the microseconds per byte of the input."""
        return self.run.seconds / self.input.size * 1e6

    def ordinary(self) -> Input:
        """Return the ordinary folder with which the row is compared."""
        _, size, files, _ = self.input
        if self.command == "check":
            return Input("ordinary", size, files)
        return Input("ordinary", size, *hostile_folders.ordinary_like(files, size, self.run.output))

    def limit(self, plain: "Row") -> float:
        """Return the seconds of the row that its ordinary folder would take; more if the row prints more."""
        more = (self.input.size + self.run.output) / (plain.input.size + plain.run.output)
        return max(plain.run.seconds, 1e-6) * max(more, 1)


class Measurement:
    """Measures the program on patterns, and prints rows and verdicts."""

    def __init__(self, program: str) -> None:
        self.program = program
        self.failed: list[str] = []
        with tempfile.TemporaryDirectory() as folder:
            pathlib.Path(folder, "index.html").write_bytes(b"")
            self.start = {command: measured(program, command, folder) for command in COMMANDS}
        for command, run in self.start.items():
            print(f"one empty file: `{command}` takes {run.seconds * 1e3:.1f} ms and {run.memory:.1f} MiB")

    def rows(self, given: Input, commands: Iterable[str] = tuple(COMMANDS)) -> list[Row]:
        """Measure commands on an input."""
        with tempfile.TemporaryDirectory() as folder:
            real = made(given, folder)
            return [Row(command, real, measured(self.program, command, folder) - self.start[command]) for command in commands]

    def verdict(self, name: str, faults: list[str], fine: str) -> None:
        """Print the verdict on a pattern."""
        if faults:
            self.failed.append(name)
        print(f"{name}: {'FAILED, ' + '; '.join(faults) if faults else 'passed, ' + fine}", flush=True)

    def document(self, name: str, sizes: list[int]) -> None:
        """Print the row and the verdict of a pattern of documents."""
        rows = [row for size in sizes for row in self.rows(Input(name, size))]
        by_command = {command: [row for row in rows if row.command == command] for command in COMMANDS}
        shown = "".join(f"{row.per_byte():10.4f}" for found in by_command.values() for row in found)
        print(f"{name:18}{shown}{max(row.run.memory for row in rows):10.1f}")
        faults = [f"`{row.command}` was killed or failed" for row in rows if row.run.failed]
        slowest = max(row.per_byte() for row in by_command["site"])
        if slowest > MOST:
            faults.append(f"`site` takes {slowest:.4f} microseconds per byte, at most {MOST}")
        grown = {command: found[-1].per_byte() / found[0].per_byte() for command, found in by_command.items()}
        faults += [f"`{command}` takes {times:.2f} times as long per byte" for command, times in grown.items() if times > GROWTH]
        self.verdict(name, faults, f"`site` {slowest:.4f} microseconds per byte, growth {grown['site']:.2f} and {grown['check']:.2f}")

    def folder(self, name: str, sizes: list[int]) -> None:
        """Print the rows and the verdict of a pattern of folders."""
        faults: list[str] = []
        worst = dict.fromkeys(COMMANDS, 0.0)
        growth = {command: Growth() for command in COMMANDS}
        for size in sizes:
            rows = self.rows(Input(name, size))
            for row in rows:
                (plain,) = self.rows(row.ordinary(), [row.command])
                usual = row.limit(plain)
                times = row.run.seconds / usual
                print(
                    f"{name:20}{row.command:6}{row.input.size / 1024:9.1f} KiB{row.run.seconds * 1e3:11.1f} ms{row.per_byte():9.4f} us"
                    f"{times:8.2f} times {usual * 1e3:.1f} ms{row.run.memory:9.1f} MiB{row.run.output / 1024:10.1f} KiB printed,"
                    f" ordinary {plain.run.output / 1024:.1f} KiB of {plain.input.files} files"
                )
                worst[row.command] = max(worst[row.command], times)
                if row.run.failed:
                    faults.append(f"`{row.command}` was killed after {LIMIT} s, or failed, at {row.input.size} bytes")
                elif (row.run.seconds - TIMES[row.command] * usual) * 1e3 > NOISE:
                    limit = f"at most {TIMES[row.command]:g}"
                    faults.append(f"`{row.command}` takes {times:.1f} times as long as on an ordinary folder of {row.input.size} bytes, {limit}")
                faults += growth[row.command].faults(row)
            if any(row.run.failed for row in rows):
                break
        shown = " and ".join(one.shown() for one in growth.values())
        fine = f"`site` {worst['site']:.2f} and `check` {worst['check']:.2f} times an ordinary folder, growth {shown}"
        self.verdict(name, faults, fine)


class Growth:
    """Compares what a command needs per byte with what it needed at the smallest size at which that is more than NOISE."""

    def __init__(self) -> None:
        self.first: dict[str, float] = {}
        self.last: dict[str, float] = {}

    def faults(self, row: Row) -> list[str]:
        """Return what grows faster than the size of the input."""
        values = {"time": row.run.seconds * 1e3, "memory": row.run.memory, "output": row.run.output / 1024}
        found = []
        for what, value in values.items():
            if value > NOISE:
                self.last[what] = value / row.input.size
                grown = self.last[what] / self.first.setdefault(what, self.last[what])
                if grown > GROWTH:
                    found.append(f"`{row.command}` at {row.input.size} bytes: {what} per byte grows {grown:.1f} times")
        return found

    def shown(self) -> str:
        """Return how much the time per byte grew."""
        return f"{self.last['time'] / self.first['time']:.2f}" if "time" in self.first else "-"


def sizes_of(text: str) -> list[int]:
    """Return the sizes in bytes of a list of sizes in MiB."""
    return [int(float(size) * 2**20) for size in text.split(",")]


def options_of(parser: argparse.ArgumentParser) -> argparse.Namespace:
    """Return the options of the command line."""
    option = parser.add_argument
    option("--sizes", default="8,32", metavar="MIB,..", help="sizes of the documents in MiB (default: 8,32)")
    option("--folder-sizes", default="0.125,0.5", metavar="MIB,..", help="sizes of the folders in MiB (default: 0.125,0.5)")
    option("--steps", type=int, metavar="COUNT",
           help="measure folders of COUNT sizes, each twice the one before, up to the last of --folder-sizes")
    option("--program", default=str(TOP / "crates/mercator_cli/out/mercator_cli"), metavar="FILE",
           help="path of the program (default: the built one)")
    option("--documents", action="store_true", help="measure all patterns of documents")
    option("--folders", action="store_true", help="measure all patterns of folders")
    option("--write", metavar="FOLDER", help="write the input of NAME to the existing FOLDER, print its size and number of files, and exit")
    option("--size", type=int, default=2**20, metavar="BYTES", help="size of what --write writes (default: 1048576)")
    option("--files", type=int, default=1, metavar="COUNT", help="number of files of the ordinary folder that --write writes (default: 1)")
    option("--images", type=int, default=0, metavar="COUNT", help="number of images of that folder (default: 0)")
    option("names", nargs="*", metavar="NAME", help="pattern to measure (default: all)")
    return parser.parse_args()


def main() -> int:
    """Measure the patterns."""
    parser = argparse.ArgumentParser(description=__doc__, formatter_class=argparse.RawDescriptionHelpFormatter)
    options = options_of(parser)
    known = [*PATTERNS, *hostile_folders.PATTERNS, "ordinary"]
    unknown = [name for name in options.names if name not in known]
    if unknown:
        parser.error(f"no such pattern: {unknown[0]}; the patterns are {', '.join(known)}")
    if options.write:
        real = write_input(Input(options.names[0], options.size, options.files, options.images), options.write)
        print(real.size, real.files)
        return 0
    is_all = not (options.names or options.documents or options.folders)
    names = options.names + [name for name in PATTERNS if is_all or options.documents]
    names += [name for name in hostile_folders.PATTERNS if is_all or options.folders]
    sizes = sizes_of(options.folder_sizes)
    if options.steps:
        sizes = [sizes[-1] >> step for step in reversed(range(options.steps))]
    os.sched_setaffinity(0, {min(os.sched_getaffinity(0))})
    measurement = Measurement(options.program)
    documents = [name for name in names if name in PATTERNS]
    if documents:
        heads = "".join(f"{command + f' {size / 2**20:g}':>10}" for command in COMMANDS for size in sizes_of(options.sizes))
        print(f"{'us per byte, MiB':18}{heads}{'memory':>10}")
    for name in documents:
        measurement.document(name, sizes_of(options.sizes))
    for name in names:
        if name not in PATTERNS:
            measurement.folder(name, sizes)
    print(f"{len(names) - len(measurement.failed)} passed, {len(measurement.failed)} failed: {', '.join(measurement.failed) or 'none'}")
    return 1 if measurement.failed else 0


if __name__ == "__main__":
    sys.exit(main())
