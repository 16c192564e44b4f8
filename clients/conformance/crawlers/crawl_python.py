#!/usr/bin/env python3
"""A crawler over the Python client, for the suite: crawl_python.py WORKERS LOG SEED..

Its fetchers are those of `examples/crawl_http.py`, which keep links that are refused, and put back
URLs whose pages are refused.
"""

from __future__ import annotations

import http.client
import os
import sys
from pathlib import Path
from typing import List, Optional, Tuple
from urllib.parse import urlsplit

TOP = Path(__file__).resolve().parents[3]
sys.path[:0] = [str(TOP / "clients/python"), str(TOP / "examples")]
from fetchers import Crawl, Visit
from mercator_frontier import Frontier, FrontierError, Stats


def get(url: str) -> Tuple[int, Optional[str], List[str]]:
    """The status, the target of a redirect, and the lines of a page."""
    host = urlsplit(url).netloc
    connection = http.client.HTTPConnection(host, timeout=10)
    try:
        connection.request("GET", url[len(f"http://{host}"):])
        reply = connection.getresponse()
        if reply.status == 302:
            return reply.status, reply.getheader("Location"), []
        lines = reply.read().decode().split("\n")[:-1] if reply.status == 200 else []
        return reply.status, None, lines
    except (OSError, http.client.HTTPException):
        return 0, None, []
    finally:
        connection.close()


class PrintingFrontier(Frontier):
    """A frontier that prints the numbers of URLs when they are requested. `Crawl` requests some."""

    def stats(self, queue: Optional[int] = None) -> Stats:
        numbers = super().stats(queue)
        name = "all" if queue is None else queue
        # One call per line, since other threads print too.
        sys.stdout.write(f"stats {name} {' '.join(map(str, numbers))}\n")
        return numbers


def fetch(url: str) -> Visit:
    status, target, lines = get(url)
    base, texts = url, [] if target is None else [target]
    for line in lines:
        if line.startswith("base "):
            base = line[5:]
        else:
            texts.append(line.replace("\\n", "\n"))
    return Visit(str(status), base, texts)


def main() -> int:
    workers, log, seeds = int(sys.argv[1]), sys.argv[2], sys.argv[3:]
    try:
        with PrintingFrontier(workers, log=None if log == "-" else log) as frontier:
            def visit(queue: int, url: str) -> Visit:
                if "STATS" in os.environ:
                    frontier.stats(queue)
                    frontier.stats()
                return fetch(url)

            Crawl(frontier, visit, retries=10, pause=0.01).run(seeds)
    except FrontierError as error:
        print(f"crawl_python: {error}", file=sys.stderr)
        return 1
    return 0


if __name__ == "__main__":
    sys.exit(main())
