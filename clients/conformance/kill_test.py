#!/usr/bin/env python3
"""Kills a crawler again and again, and checks that it resumes without losing or repeating URLs.

Usage: kill_test.py [--kills N] [--pages N] [--seed N] COMMAND [WORD..]

COMMAND is a crawler as conformance.py runs it, here over the real program, which MERCATOR in the
environment names. It crawls generated webs on 127.0.0.1 and the following addresses, with a log.
It is killed (`kill -9`) after a random number of pages; each fourth time the program is killed
instead, and the crawler has to end by itself. After each third kill the log is compacted. In the
end:

- the URLs that were requested are those that a search of this script finds;
- within one run no URL is requested twice, unless it was refused with status 503;
- after a kill at most one URL per worker is requested again that was not refused.
"""

from __future__ import annotations

import argparse
import os
import shutil
import signal
import subprocess
import sys
import tempfile
import time
from collections import Counter
from pathlib import Path
from random import Random
from typing import Dict, List, Optional, Set

from conformance import HOSTS, SECONDS, Page, Web

WORKERS = 3


class Violation(Exception):
    """What the crawler did wrong."""


class Site:
    """A generated web, and the URLs of a crawl from its first page."""

    def __init__(self, draw: Random, count: int, port: int) -> None:
        self.draw, self.port = draw, port
        self.pages: Dict[str, Page] = {}
        targets: List[List[int]] = []
        for number in range(count):
            kinds = ["page"] * 6 + ["refuse", "redirect", "drop", "missing"] if number else ["page"]
            kind = draw.choice(kinds)
            mine = [draw.randrange(count) for _ in range(draw.randrange(1, 6))]
            delay = 0.005 + draw.random() / 100
            lines = [self.spelled(number, target) for target in mine]
            page = Page(lines, None, False, delay, draw.randrange(1, 4) * (kind == "refuse"))
            if kind == "redirect":
                mine = mine[:1]
                page = Page([], self.url(mine[0]))
            if kind == "drop":
                page = Page([], None, True)
            targets.append(mine if kind in ("page", "refuse", "redirect") else [])
            if kind != "missing":
                self.pages[self.url(number)] = page
        reached = [0]
        for number in reached:
            reached += sorted(set(targets[number]) - set(reached))
        self.reached: Set[str] = set(map(self.url, reached))

    def url(self, number: int) -> str:
        return f"http://127.0.0.{number % HOSTS + 1}:{self.port}/d/{number}"

    def spelled(self, page: int, number: int) -> str:
        host, path = self.url(number)[7:].split("/", 1)
        texts = [self.url(number), f"HTTP://{host}/x/../{path}#part", f"//{host}/./{path}"]
        if page % HOSTS == number % HOSTS:
            texts += [f"/{path}", f"../{path}#f", f"{number}", f" ./{number}\\n"]
        return self.draw.choice(texts)


class Killer:
    """Runs and kills the crawler."""

    def __init__(self, words: argparse.Namespace, program: str, folder: Path) -> None:
        self.words, self.program, self.folder = words, program, folder
        self.draw = Random(words.seed)
        self.web = Web()
        self.kills = self.again = self.urls = self.refused = self.compactions = 0

    def run(self) -> str:
        while self.kills < self.words.kills:
            self.log = self.folder / f"crawl-{self.urls}.log"
            self.site = Site(self.draw, self.words.pages, self.web.port)
            self.crawl_site()
        return (
            f"{self.kills} kills, {self.urls} URLs, {self.again} of them requested again, "
            f"{self.refused} requests refused, {self.compactions} compactions"
        )

    def crawl_site(self) -> None:
        """Crawls a web until a run ends by itself."""
        seen: Set[str] = set()
        before = self.kills
        while True:
            self.web.serve(self.site.pages)
            status = self.crawl()
            self.web.settle()
            # A request that was refused does not count: its URL is put back, and given out again.
            counts = Counter(url for _, url, is_refused in self.web.requests if not is_refused)
            twice = [url for url, count in counts.items() if count > 1]
            repeated = set(counts) & seen
            if twice:
                raise Violation(f"{twice[0]} was requested twice in one run")
            if len(repeated) > (WORKERS if self.kills > before else 0):
                raise Violation(f"{len(repeated)} URLs were requested again after a kill")
            self.again += len(repeated)
            self.refused += len(self.web.requests) - sum(counts.values())
            seen |= set(counts)
            if status is not None:
                break
            self.kills += 1
            if self.kills % 3 == 0:
                self.compact()
        if status != 0:
            stderr = (self.folder / "stderr").read_text("utf-8", "replace").strip()
            raise Violation(f"status {status}: {stderr[-500:]}")
        lost, more = sorted(self.site.reached - seen), sorted(seen - self.site.reached)
        if lost:
            raise Violation(f"{len(lost)} URLs were never requested, such as {lost[0]}")
        if more:
            raise Violation(f"{len(more)} URLs should not be requested, such as {more[0]}")
        self.urls += len(seen)

    def compact(self) -> None:
        """Compacts the log, once the program of the crawler has ended."""
        new = self.folder / "compacted.log"
        words = [
            self.program, "serve", f"--workers={WORKERS}", f"--log={self.log}", f"--compact={new}",
            f"--wait={SECONDS:.0f}",
        ]
        ended = subprocess.run(words, stderr=subprocess.PIPE, text=True, check=False)
        if ended.returncode != 0:
            raise Violation(f"the log cannot be compacted: {ended.stderr.strip()}")
        new.replace(self.log)
        self.compactions += 1

    def crawl(self) -> Optional[int]:
        """One run: its exit status, or None if something was killed."""
        words = [*self.words.command, str(WORKERS), str(self.log), self.site.url(0)]
        with open(self.folder / "stderr", "wb") as errors:
            process = subprocess.Popen(
                words, stdin=subprocess.DEVNULL, stdout=subprocess.DEVNULL, stderr=errors,
                start_new_session=True, env={**os.environ, "MERCATOR": self.program},
            )
        try:
            if self.kills == self.words.kills:
                return self.ended(process)
            goal = self.draw.randrange(1, 15)
            end = time.monotonic() + 5 * SECONDS
            while process.poll() is None and len(self.web.requests) < goal:
                time.sleep(0.001)
                if time.monotonic() > end:
                    raise Violation(f"{len(self.web.requests)} requests in {5 * SECONDS:g} seconds")
            time.sleep(self.draw.random() / 100)
            if process.poll() is not None:
                return process.returncode
            if self.kills % 4 == 3 and self.kill_program(process.pid):
                if self.ended(process) == 0:
                    raise Violation("the program was killed, and the crawler ended with status 0")
            return None
        finally:
            if process.poll() is None:
                os.killpg(process.pid, signal.SIGKILL)
                process.wait()

    def ended(self, process: subprocess.Popen[bytes]) -> int:
        try:
            return process.wait(5 * SECONDS)
        except subprocess.TimeoutExpired:
            raise Violation(f"the crawler runs on for {5 * SECONDS:g} seconds") from None

    def kill_program(self, crawler: int) -> bool:
        """Kills the program that the crawler started."""
        parents = {}
        for folder in Path("/proc").glob("[0-9]*"):
            try:
                parent = int((folder / "stat").read_text().rpartition(")")[2].split()[1])
                parents[int(folder.name)] = (parent, os.readlink(folder / "exe"))
            except OSError:
                continue  # it has ended, or belongs to somebody else
        for pid, (parent, exe) in parents.items():
            while exe == self.program and parent in parents and parent != crawler:
                parent = parents[parent][0]
            if exe == self.program and parent == crawler:
                os.kill(pid, signal.SIGKILL)
                return True
        return False


def main() -> int:
    parser = argparse.ArgumentParser(
        description=__doc__, formatter_class=argparse.RawDescriptionHelpFormatter
    )
    option = parser.add_argument
    option("--kills", type=int, default=25, metavar="N", help="how many kills; 25")
    option("--pages", type=int, default=100, metavar="N", help="size of a generated web; 100")
    option("--seed", type=int, default=1, metavar="N", help="generate other webs and kills")
    option("command", nargs=argparse.REMAINDER, metavar="COMMAND")
    words = parser.parse_args()
    program = shutil.which(os.environ.get("MERCATOR") or "mercator")
    if program is None or not words.command:
        parser.error("MERCATOR does not name a program" if words.command else "COMMAND is missing")
    with tempfile.TemporaryDirectory(prefix="kill-test-") as folder:
        try:
            print(f"passed: {Killer(words, os.path.realpath(program), Path(folder)).run()}")
        except Violation as violation:
            print(f"FAILED: {violation}")
            return 1
    return 0


if __name__ == "__main__":
    sys.exit(main())
