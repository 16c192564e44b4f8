#!/usr/bin/env python3
"""Test `later` and `stats` in the Python client, and how `examples/crawl_http.py` retries and waits.

The program is the one that MERCATOR names, or else the built one. The pages are served on 127.0.0.1
and the following addresses. The last line is `N passed, M failed`; the exit status is 1 if a test failed.
"""

from __future__ import annotations

import http.server
import os
import socket
import subprocess
import sys
import tempfile
import threading
import time
from contextlib import contextmanager
from pathlib import Path
from typing import Callable, Dict, Iterator, List, NamedTuple, Optional, Tuple

from serving import ROOT
from serving.trial import SECONDS, expect, expect_error, program_of, run_all

CRAWLER = ROOT / "examples/crawl_http.py"
sys.path.insert(0, str(CRAWLER.parent))
from mercator_frontier import Accepted, Frontier, NoSuchQueue, NothingTaken, Pending, Stats


# ---------------------------------------------------------------- the client

URLS = [f"http://{host}.test/{number}" for number, host in enumerate("abcd")]


def order() -> None:
    """A URL that is put back is taken after those that wait, and before what is offered later."""
    with Frontier(1, max_pending=4) as frontier:
        expect_error(NothingTaken, lambda: frontier.later(0))
        for queue in (-1, 1):
            expect_error(NoSuchQueue, lambda: frontier.later(queue))
        frontier.offer_all(URLS[:3])
        for index in (0, 1, 2, 0):  # the frontier is full
            expect(frontier.take(0) == URLS[index], f"not {URLS[index]}")
            expect(frontier.later(0) == 4, "the count changes")
        expect_error(NothingTaken, lambda: frontier.later(0))
        expect(frontier.take(0) == URLS[1] and frontier.done(0) == 3, "done")
        expect(frontier.offer(URLS[3]) == Accepted(0, 3), "the offer after them")
        expect([taken(frontier) for _ in range(3)] == [URLS[2], URLS[0], URLS[3]], "the order")
        expect(frontier.try_take(0) == Pending(1), "the seeds")


def taken(frontier: Frontier) -> Optional[str]:
    url = frontier.take(0)
    frontier.done(0)
    return url


def resumed() -> None:
    """What was put back before a restart is in its place, and what is in progress can be put back."""
    with tempfile.TemporaryDirectory() as folder:
        log = Path(folder, "crawl.log")
        with Frontier(1, log=log) as frontier:
            frontier.offer_all(URLS[:3])
            frontier.take(0)
            frontier.later(0)
            frontier.take(0)
        with Frontier(1, log=log) as frontier:
            frontier.later(0)  # URLS[1], which was in progress
            expect([taken(frontier) for _ in range(3)] == [URLS[2], URLS[0], URLS[1]], "the order")


def numbers() -> None:
    """The numbers of URLs, in each state."""
    with Frontier(2) as frontier:
        offers = frontier.offer_all(["http://a.test/1", "http://a.test/2", "http://a.test/3", "http://b.test/"])
        queue, other = (offer.queue for offer in (offers[0], offers[3]) if isinstance(offer, Accepted))
        expect(queue != other, "the queues")
        frontier.take(queue)
        frontier.later(queue)
        frontier.take(queue)
        frontier.done(queue)
        frontier.take(other)
        frontier.offer_all(["http://a.test/1", "http://a.test/3#x", "http://b.test/"])
        expect(frontier.stats(queue) == Stats(3, 1, 0, 2, 1, 2), f"{frontier.stats(queue)}")
        expect(frontier.stats(other) == Stats(1, 0, 1, 0, 0, 1), f"{frontier.stats(other)}")
        expect(frontier.stats() == Stats(4, 1, 1, 2, 1, 3), f"{frontier.stats()}")
        expect_error(NoSuchQueue, lambda: frontier.stats(2))


def a_crawl_of_retries() -> None:
    """Each fetcher puts each of its URLs back a few times, and no URL is lost."""
    hosts = [f"http://h{number}.test/" for number in range(40)]
    fetched: Dict[str, int] = {}
    with Frontier(8) as frontier:
        frontier.offer_all(hosts)
        frontier.end_seeds()

        def work(queue: int) -> None:
            while (url := frontier.take(queue)) is not None:
                fetched[url] = fetched.get(url, 0) + 1
                if fetched[url] <= len(url) % 4:
                    frontier.later(queue)
                    continue
                frontier.links(url, ["/a", "/b", "/a/b"])
                frontier.done(queue)

        fetchers = [threading.Thread(target=work, args=(queue,), daemon=True) for queue in range(8)]
        for fetcher in fetchers:
            fetcher.start()
        for fetcher in fetchers:
            fetcher.join(SECONDS)
            expect(not fetcher.is_alive(), "a fetcher waits forever")
    expected = {host + path for host in hosts for path in ("", "a", "b", "a/b")}
    expect(fetched == {url: 1 + len(url) % 4 for url in expected}, "other URLs")


# ---------------------------------------------------------------- the crawler

class Request(NamedTuple):
    at: float
    host: int
    path: str


class Host(http.server.ThreadingHTTPServer):
    """A host of a web."""

    daemon_threads = True
    request_queue_size = 128
    web: Web
    number: int


class Handler(http.server.BaseHTTPRequestHandler):
    def do_GET(self) -> None:
        assert isinstance(self.server, Host)
        web, key = self.server.web, (self.server.number, self.path)
        with web.lock:
            web.requests.append(Request(time.monotonic(), *key))
            count = web.count(*key)
        statuses = web.statuses.get(key, [404 if self.path == "/robots.txt" else 200])
        self.send_response(statuses[min(count, len(statuses)) - 1])
        self.send_header("Content-Type", "text/html")
        self.end_headers()
        links = "".join(f"<a href='{link}'>" for link in web.links.get(key, []))
        self.wfile.write(links.encode())

    def log_message(self, format: str, *words: object) -> None:
        return


class Web:
    """Hosts on 127.0.0.1 and the following addresses. `statuses` has those of each request for a URL."""

    def __init__(self) -> None:
        self.links: Dict[Tuple[int, str], List[str]] = {}
        self.statuses: Dict[Tuple[int, str], List[int]] = {}
        self.requests: List[Request] = []
        self.lock = threading.Lock()
        self.port = 0

    @contextmanager
    def served(self, hosts: int, first: int = 1) -> Iterator[None]:
        servers = []
        for number in range(first, first + hosts):
            server = Host((f"127.0.0.{number}", self.port), Handler)
            server.web, server.number = self, number
            self.port = server.server_port
            threading.Thread(target=server.serve_forever, args=(0.05,), daemon=True).start()
            servers.append(server)
        try:
            yield
        finally:
            for server in servers:
                server.shutdown()
                server.server_close()

    def url(self, host: int, path: str = "/") -> str:
        return f"http://127.0.0.{host}:{self.port}{path}"

    def count(self, host: int, path: str) -> int:
        return len(self.times(host, path))

    def times(self, host: int, path: Optional[str] = None) -> List[float]:
        """When a host, or one of its URLs, was requested."""
        return [one.at for one in self.requests
                if one.host == host and path in (None, one.path)]

    def crawl(self, *words: object) -> Dict[str, str]:
        """Run the crawler, and return the status of each URL that it prints."""
        command = [sys.executable, str(CRAWLER), *map(str, words)]
        ended = subprocess.run(command, capture_output=True, text=True, timeout=SECONDS, check=False)
        expect(ended.returncode == 0 and not ended.stderr, f"{ended.returncode}: {ended.stderr}")
        lines = [line.split(" ") for line in ended.stdout.splitlines()]
        statuses = {line[2]: line[0] for line in lines}
        expect(len(statuses) == len(lines), f"a URL is printed twice: {ended.stdout}")
        return statuses


def gaps(times: List[float]) -> List[float]:
    return [later - earlier for earlier, later in zip(times, times[1:])]


def pages_that_fail() -> None:
    """A page is tried again after growing pauses, while other pages of the queue are fetched."""
    web = Web()
    with web.served(2):
        web.links[1, "/"] = ["/busy", "/broken", "/missing", web.url(2), *(f"/{n}" for n in range(9))]
        web.statuses = {(1, "/busy"): [503, 429, 200], (1, "/broken"): [500], (1, "/missing"): [404]}
        web.links[1, "/busy"] = ["/found"]
        found = web.crawl("--workers", 1, "--delay", 0, "--pause", 0.5, web.url(1))
        statuses = {web.url(1, path): "200" for path in ("/", "/busy", "/found", *(f"/{n}" for n in range(9)))}
        statuses.update({web.url(2): "200", web.url(1, "/broken"): "500", web.url(1, "/missing"): "404"})
        expect(found == statuses, f"{found}")
        for path in ("/busy", "/broken"):
            first, second = gaps(web.times(1, path))
            expect(first >= 0.5 and second >= 1, f"{path}: {first}, {second}")
        for key in ((1, "/missing"), (1, "/8"), (2, "/")):
            expect(web.count(*key) == 1, f"{key} is requested again")
            expect(web.times(*key)[0] < web.times(1, "/busy")[2], f"{key} has waited")
        web.requests.clear()
        found = web.crawl("--workers", 1, "--delay", 0, "--retries", 0, web.url(1, "/broken"))
        expect(list(found.values()) == ["500"] and web.count(1, "/broken") == 1, "--retries 0")


def hosts_that_fail() -> None:
    """A robots.txt, and a host without a response, are tried again while other hosts are visited."""
    web = Web()
    with web.served(2):
        web.statuses = {(1, "/robots.txt"): [503, 503, 404]}
        web.links[2, "/"] = [f"/{number}" for number in range(20)]
        words = ("--workers", 1, "--delay", 0.01, "--pause", 0.5)
        seeds = [web.url(1), web.url(1, "/b"), web.url(3), web.url(2)]
        third = web.served(1, first=3)
        late = threading.Timer(0.7, third.__enter__)
        late.start()
        found = web.crawl(*words, *seeds)
        late.join()
        third.__exit__(None, None, None)
        expect(set(found.values()) == {"200"} and len(found) == 24, f"{found}")
        first, second = gaps(web.times(1, "/robots.txt"))
        expect(first >= 0.5 and second >= 1, f"robots.txt: {first}, {second}")
        expect(max(web.times(2)) < web.times(1)[2], "a host has waited for another")
        with socket.create_server(("127.0.0.4", 0)) as closed:
            port = closed.getsockname()[1]
        dead = [f"http://127.0.0.4:{port}/{path}" for path in "ab"]
        begun = time.monotonic()
        found = web.crawl("--workers", 1, "--pause", 0.2, *dead)
        expect(found == dict.fromkeys(dead, "failed"), f"{found}")
        expect(time.monotonic() - begun >= 0.6, "the pauses")


def many_hosts() -> None:
    """One queue visits ten hosts in about the time that one host takes, and each with its delay."""
    web = Web()
    hosts, pages, delay = 10, 5, 0.3
    with web.served(hosts):
        web.links[1, "/"] = [web.url(host, f"/{n}") for host in range(1, hosts + 1) for n in range(pages)]
        web.links[3, "/0"] = [web.url(11, f"/{n}") for n in range(pages)]
        with web.served(1, first=11):
            found = web.crawl("--workers", 1, "--delay", delay, web.url(1))
        expect(len(found) == 1 + (hosts + 1) * pages and set(found.values()) == {"200"}, f"{found}")
        for host in range(1, hosts + 2):
            expect(min(gaps(web.times(host))) >= delay - 0.01, f"host {host} was not given its delay")
        times = [one.at for one in web.requests]
        # Host by host they would take 17 seconds.
        expect(max(times) - min(times) < 8, f"{max(times) - min(times)} s")


def one_host() -> None:
    """In a queue with one host, no URL is put back twice: there is none to visit instead."""
    web = Web()
    with web.served(1), tempfile.TemporaryDirectory() as folder:
        log = Path(folder, "crawl.log")
        web.links[1, "/"] = [f"/{number}" for number in range(30)]
        found = web.crawl("--workers", 1, "--delay", 0.02, "--log", log, web.url(1))
        expect(len(found) == 31, f"{found}")
        count = log.read_text().count("\nlater ")
        expect(0 < count <= 30, f"{count} URLs were put back")


def killed() -> None:
    """A crawl with pages that fail is killed, and resumes. Each page is printed once with status 200."""
    web = Web()
    with web.served(3), tempfile.TemporaryDirectory() as folder:
        paths = [f"/{number}" for number in range(12)]
        web.links[1, "/"] = [web.url(host, path) for host in (1, 2, 3) for path in paths]
        web.statuses = {(host, path): [503, 503, 503, 200] for host in (2, 3) for path in paths[:4]}
        command = [sys.executable, str(CRAWLER), "--delay", "0.05", "--pause", "0.1", "--retries", "9",
                   "--log", str(Path(folder, "crawl.log")), web.url(1)]
        output, kills = "", 0
        while True:
            process = subprocess.Popen(command, stdout=subprocess.PIPE, text=True)
            try:
                process.wait(0.5 if kills < 6 else SECONDS)
            except subprocess.TimeoutExpired:
                process.kill()
                kills += 1
            assert process.stdout
            output += process.stdout.read().rpartition("\n")[0] + "\n"
            if process.wait() >= 0:
                break
        lines = [line.split(" ") for line in output.splitlines() if line]
        expected = {web.url(1), *(web.url(host, path) for host in (1, 2, 3) for path in paths)}
        expect(process.returncode == 0 and {line[2] for line in lines} == expected, "other URLs")
        expect({line[0] for line in lines} == {"200"}, f"{output}")
        expect(len(lines) <= len(expected) + 4 * kills, f"{len(lines)} lines, {kills} kills")


TESTS: Tuple[Callable[[], None], ...] = (
    order, resumed, numbers, a_crawl_of_retries, pages_that_fail, hosts_that_fail, many_hosts, one_host, killed,
)


if __name__ == "__main__":
    os.environ["MERCATOR"] = program_of(None)
    sys.exit(run_all((test.__name__, test) for test in TESTS))
