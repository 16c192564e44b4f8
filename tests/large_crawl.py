#!/usr/bin/env python3
"""Crawl a large saved web from a file of seeds by the built program, and compare the report.

Usage: large_crawl.py [PROGRAM [WORKERS..]]
PROGRAM is the path of the program [default: that in the environment variable PROGRAM, or else the built one], WORKERS
the numbers of workers [default: 1 4].

The saved web has 1,100,000 pages that can be reached from the seeds, 20,000 that cannot, and links to missing pages. The
file of seeds has more than 2^20 bytes and the report tens of megabytes, so tables, lists and texts are larger than in any
other test. The expected report is that of a search by this script through the graph of the pages, in the format of
docs/FORMATS.md. The random choices have a fixed seed. The script stops with status 1 at the first run that fails, and
prints the first line that differs.
"""
import os
import random
import subprocess
import sys
import tempfile
import time
from typing import Iterator, Optional, Tuple

from checking.loading import program as built_program
from stress_crawl import first_difference

PAGES = 1_100_000
BESIDE = 20_000  # additional pages that no page links to
HOSTS = 997
SEEDS = 60_000
STEP = 6_007
SEED = 20_261_125
TIME_LIMIT = 600  # seconds per run


def url(page: int) -> str:
    return f"http://host{page % HOSTS}.test/{page}"


def gone(page: int) -> Optional[str]:
    """Return the missing URL that every fiftieth page links to; two such pages have the same one."""
    return f"http://host{page // 100 % HOSTS}.test/gone/{page // 100}" if page % 50 == 0 else None


class Web:
    """Pages that each link to the page STEP after them, and to a random page."""

    def __init__(self) -> None:
        rng = random.Random(SEED)
        self.far = [rng.randrange(PAGES) for _ in range(PAGES + BESIDE)]
        self.seeds = [rng.randrange(PAGES) for _ in range(SEEDS)]

    def links(self, page: int) -> Tuple[int, int]:
        return (page + STEP) % PAGES, self.far[page]

    def lines(self) -> Iterator[str]:
        yield "savedweb 1\n"
        for page in range(PAGES + BESIDE):
            near, far = self.links(page)
            yield f"page {url(page)}\nlink {url(near)}\nlink //host{far % HOSTS}.test/x/../{far}#part\n"
            if gone(page):
                yield f"link {gone(page)}\n"

    def reached(self) -> bytearray:
        """Search the graph from the seeds, and return for each page whether it is found."""
        found = bytearray(PAGES + BESIDE)
        waiting = list(self.seeds)
        for page in waiting:
            found[page] = 1
        while waiting:
            for link in self.links(waiting.pop()):
                if not found[link]:
                    found[link] = 1
                    waiting.append(link)
        return found

    def report(self) -> bytes:
        pages = [page for page, is_found in enumerate(self.reached()) if is_found]
        lines = [(url(page), f"ok {3 if gone(page) else 2} 0 ") for page in pages]
        missing = {text for text in map(gone, pages) if text}
        lines += [(text, "missing ") for text in missing]
        lines.sort()
        total = f"total {len(lines)} ok {len(pages)} missing {len(missing)}\n"
        return "".join([*(f"{front}{text}\n" for text, front in lines), total]).encode()


def made(folder: str) -> Tuple[str, str, bytes]:
    """Write the saved web and the seeds, and return their paths and the expected report."""
    web = Web()
    names = os.path.join(folder, "large.web"), os.path.join(folder, "large.seeds")
    with open(names[0], "w", encoding="ascii") as file:
        file.writelines(web.lines())
    with open(names[1], "w", encoding="ascii") as file:
        file.writelines(f"{url(page)}\n" for page in web.seeds)
    return (*names, web.report())


def main() -> None:
    arguments = sys.argv[1:]
    if arguments[:1] in (["-h"], ["--help"]):
        print(__doc__)
        return
    program = arguments[0] if arguments else built_program()
    with tempfile.TemporaryDirectory() as folder:
        web, seeds, report = made(folder)
        sizes = f"{os.path.getsize(web)} bytes, seeds of {os.path.getsize(seeds)} bytes, a report of {len(report)} bytes"
        for workers in arguments[1:] or ("1", "4"):
            start = time.monotonic()
            command = [program, "crawl", "--workers", workers, "--max-pending", str(2**40), "--seeds", seeds, web]
            done = subprocess.run(command, stdin=subprocess.DEVNULL, capture_output=True, timeout=TIME_LIMIT, check=False)
            if (done.returncode, done.stdout, done.stderr) != (0, report, b""):
                errors = done.stderr[:400].decode("utf-8", "replace")
                print(f"{workers} workers: status {done.returncode}, expected 0; {first_difference(done.stdout, report)}")
                sys.exit(f"standard error: {errors}")
            print(f"{workers} workers: {time.monotonic() - start:.1f} s", flush=True)
    print(f"a saved web of {sizes}: all runs have the expected report")


if __name__ == "__main__":
    main()
