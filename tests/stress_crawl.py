#!/usr/bin/env python3
"""Crawl random saved webs by the built program with different numbers of workers, many times, and compare each report.

Usage: stress_crawl.py [PROGRAM [WEBS [TIMES]]]
PROGRAM is the path of the program [default: that in the environment variable PROGRAM, or else the built one], WEBS the
number of saved webs [default: 50], TIMES the number of runs with each number of workers [default: 20].

Each saved web is crawled with 1, 2, 3, 8, 64 and 512 workers. The expected report is that of a search by this script
through the graph of the pages, in the format of docs/FORMATS.md. The random choices have a fixed seed. The script stops
with status 1 at the first run that fails. It then prints the first line that differs, and a command that makes the same
crawl of the saved web, which is kept.
"""
from __future__ import annotations

import itertools
import random
import shlex
import subprocess
import sys
import tempfile
import time
from typing import Iterator

from checking.loading import program as built_program

WORKERS = (1, 2, 3, 8, 64, 512)
SEED = 20_261_122
TIME_LIMIT = 60  # seconds per run

# The kinds of pages of a random graph.
FOUND, MOVED, MISSING = range(3)


class Web:
    """A random graph of pages, the seeds of the crawl, and the graph as a saved web."""

    def __init__(self, rng: random.Random) -> None:
        hosts = rng.choice((1, 2, 5, 40, 300))
        count = rng.choice((1, 3, 20, 200, 1_500))
        self.urls = [f"http://h{rng.randrange(hosts)}.test/{page}" for page in range(count)]
        self.kinds = rng.choices((FOUND, MOVED, MISSING), (8, 1, 1), k=count)
        self.links = [self.random_links(rng, page) for page in range(count)]
        # the numbers of links that are not http or https URLs: they are counted and skipped
        self.skipped = [rng.choice((0, 0, 0, 1, 3)) if kind == FOUND else 0 for kind in self.kinds]
        self.seeds = [rng.randrange(count) for _ in range(rng.choice((1, 2, 7)))]
        self.bytes = "".join(self.lines(rng)).encode()

    def random_links(self, rng: random.Random, page: int) -> list[int]:
        """Return the pages that a page links to: near ones, which make chains, far ones, itself, and repetitions."""
        if self.kinds[page] == MISSING:
            return []
        if self.kinds[page] == MOVED:
            return [rng.randrange(len(self.urls))]
        near = [(page + rng.randrange(1, 4)) % len(self.urls) for _ in range(rng.choice((0, 1, 2)))]
        far = [rng.randrange(len(self.urls)) for _ in range(rng.choice((0, 0, 1, 3)))]
        links = near + far + ([page] if rng.random() < 0.1 else [])
        return links + links[:1] if rng.random() < 0.2 else links

    def spelled(self, rng: random.Random, page: int, target: int) -> str:
        """Return a link: a canonical URL, one that is not canonical, or one with only host and path, or only a path."""
        scheme, rest = self.urls[target].split("//")
        host, path = rest.split("/")
        spellings = [self.urls[target], f"HTTP://{host.upper()}:80/x/../{path}#part", f"//{host}/./{path}"]
        if self.urls[page].split("/")[2] == host:
            spellings.append(f"/{path}")
        return rng.choice(spellings)

    def lines(self, rng: random.Random) -> Iterator[str]:
        yield "savedweb 2\n"
        order = [page for page, kind in enumerate(self.kinds) if kind != MISSING]
        rng.shuffle(order)
        for page in order:
            yield f"page {self.urls[page]}\n"
            word = "moved" if self.kinds[page] == MOVED else "link"
            for target in self.links[page]:
                yield f"{word} {self.spelled(rng, page, target)}\n"
            for number in range(self.skipped[page]):
                yield f"link {('mailto:x@a.test', 'ftp://a.test/', 'http://[')[number % 3]}\n"

    def report(self) -> bytes:
        """Search the graph from the seeds, and return the report."""
        reached, waiting = set(self.seeds), list(self.seeds)
        while waiting:
            for target in self.links[waiting.pop()]:
                if target not in reached:
                    reached.add(target)
                    waiting.append(target)
        kinds = [self.kinds[page] for page in reached]
        lines = [self.line(page) for page in sorted(reached, key=lambda page: self.urls[page])]
        moved = f" moved {kinds.count(MOVED)}" if MOVED in kinds else ""
        total = f"total {len(reached)} ok {kinds.count(FOUND)} missing {kinds.count(MISSING)}{moved}\n"
        return ("".join(lines) + total).encode()

    def line(self, page: int) -> str:
        url = self.urls[page]
        if self.kinds[page] == FOUND:
            return f"ok {len(self.links[page]) + self.skipped[page]} {self.skipped[page]} {url}\n"
        return f"{'moved' if self.kinds[page] == MOVED else 'missing'} {url}\n"

    def command(self, program: str, workers: int) -> list[str]:
        """The command that crawls the web from standard input."""
        return [program, "crawl", "--workers", str(workers), "-"] + [self.urls[page] for page in self.seeds]

    def crawled(self, program: str, workers: int) -> tuple[int, bytes]:
        """Crawl by the program, and return the status and the output."""
        command = self.command(program, workers)
        done = subprocess.run(command, input=self.bytes, stdout=subprocess.PIPE, timeout=TIME_LIMIT, check=False)
        return done.returncode, done.stdout


def first_difference(actual: bytes, expected: bytes) -> str:
    """The first line in which two reports differ."""
    lines = itertools.zip_longest(actual.split(b"\n"), expected.split(b"\n"))
    for number, (one, other) in enumerate(lines, 1):
        if one != other:
            return f"line {number} of the report is {one!r}, expected {other!r}"
    return "the reports are the same"


def kept(web: bytes) -> str:
    """Write a saved web to a file that stays, and return its path."""
    with tempfile.NamedTemporaryFile(prefix="stress-", suffix=".web", delete=False) as file:
        file.write(web)
        return file.name


def main() -> None:
    arguments = sys.argv[1:]
    if arguments[:1] in (["-h"], ["--help"]):
        print(__doc__)
        return
    program = arguments[0] if arguments else built_program()
    webs, times = map(int, arguments[1:] + ["50", "20"][len(arguments[1:]) :])
    rng = random.Random(SEED)
    start, pages = time.monotonic(), 0
    for number in range(webs):
        web = Web(rng)
        report = web.report()
        pages += len(web.urls)
        for workers in WORKERS:
            for turn in range(times):
                status, out = web.crawled(program, workers)
                if status != 0 or out != report:
                    print(f"web {number}, {workers} workers, run {turn}: status {status}, expected 0; {first_difference(out, report)}")
                    sys.exit(f"the same crawl: {shlex.join(web.command(program, workers))} < {kept(web.bytes)}")
    runs = webs * len(WORKERS) * times
    print(f"{runs} runs on {webs} saved webs of {pages} pages: all have the expected report, in {time.monotonic() - start:.0f} s")


if __name__ == "__main__":
    main()
