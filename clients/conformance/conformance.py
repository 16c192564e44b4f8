#!/usr/bin/env python3
"""Checks a client of `mercator serve` against the mistakes that clients make.

Usage: conformance.py [--trap NAME].. COMMAND [WORD..]
       conformance.py --list
       conformance.py --self-test

COMMAND is a small crawler that uses the client; README.md says what it has to do. For each trap, a
file in traps/, it is started with MERCATOR naming a fake program, which plays the trap and judges
the requests. The pages are served on 127.0.0.1 and the following addresses. --self-test runs a
crawler of this suite with one mistake at a time, and checks that the traps notice it.

SECONDS in the environment is the time limit of a crawl; 60 by default. The last line is `N passed,
M failed`, and the exit status is 1 if a trap fails.
"""

from __future__ import annotations

import argparse
import fcntl
import http.client
import http.server
import json
import os
import re
import signal
import subprocess
import sys
import tempfile
import threading
import time
from collections import Counter
from contextlib import suppress
from pathlib import Path
from typing import Any, Dict, Iterator, List, NamedTuple, Optional, Sequence, Set, Tuple
from urllib.parse import quote, urljoin, urlsplit

HERE = Path(__file__).resolve().parent
HOSTS = 4
SECONDS = float(os.environ.get("SECONDS", "60"))
# How many times `next` may be sent in vain for a queue when nothing has changed.
POLLS = 20
MARKER = "/marker"


# ---------------------------------------------------------------- URLs, as far as traps have them

class NotUrl(Exception):
    """The answer to an offer whose text is no URL."""


def canonical(text: str, base: Optional[str] = None) -> str:
    text = re.sub("[\t\n\r]", "", text.strip("".join(map(chr, range(33))))).replace(" ", "%20")
    try:
        url = urljoin(canonical(base), text) if base is not None else text
        parts = urlsplit(url)
        host = parts.hostname
    except ValueError:
        raise NotUrl("not a URL") from None
    if not parts.scheme:
        raise NotUrl("not a URL")
    if parts.scheme not in ("http", "https"):
        raise NotUrl("not http or https")
    if not host:
        raise NotUrl("not a URL")
    port = f":{parts.port}" if parts.port else ""
    query = f"?{parts.query}" if parts.query else ""
    url = f"{parts.scheme}://{host}{port}{without_dots(parts.path or '/')}{query}"
    return quote(url, "".join(map(chr, range(33, 127))))


def without_dots(path: str) -> str:
    kept: List[str] = []
    pieces = path.split("/")[1:]
    for number, piece in enumerate(pieces):
        if piece == "..":
            del kept[-1:]
        if piece not in (".", ".."):
            kept.append(piece)
        elif number == len(pieces) - 1:
            kept.append("")
    return "/" + "/".join(kept)


# ---------------------------------------------------------------- traps

class Page(NamedTuple):
    """What a URL leads to: a page with lines, a redirect, or a connection that is dropped."""

    lines: List[str]
    redirect: Optional[str] = None
    is_dropped: bool = False
    delay: float = 0.0
    refusals: int = 0  # the number of requests that are answered with status 503 first


class Request(NamedTuple):
    """A request for a page."""

    at: float
    url: str
    is_refused: bool  # by status 503


class Given(NamedTuple):
    """A URL that was given out, and from when to when it was in progress."""

    url: str
    start: float
    end: float = float("inf")
    is_put_back: bool = False

    def is_of(self, request: Request) -> bool:
        return self.url == request.url and self.start <= request.at <= self.end


class Event(NamedTuple):
    """What the fake program does at the N-th request, or answer, that begins with WORD."""

    number: int
    word: str
    action: str  # exit, kill, half, answer, kill_crawler
    text: str


class Trap:
    """A file of traps/: a web, how the fake program behaves, and what is expected."""

    def __init__(self, name: str, text: str, port: int) -> None:
        self.name = name
        self.title = text.split("\n", 1)[0].lstrip("# ")
        self.workers, self.max_pending, self.chop, self.pipe, self.stderr = 2, 2**20, 0, 0, 0
        self.hold = self.locked = 0.0
        self.has_stats = False
        self.says = ""
        self.limit = SECONDS
        self.expected = "closed"
        self.mistakes: List[str] = []
        self.events: List[Event] = []
        self.seeds: List[str] = []
        self.log: Optional[List[str]] = None
        self.pages: Dict[str, Page] = {}
        into: List[str] = []
        for line in text.replace("HOST", "http://127.0.0.").replace("PORT", str(port)).split("\n"):
            if line.startswith("  "):
                match = re.fullmatch(r"repeat (\d+) (.*)", line[2:])
                into += [match[2] % i for i in range(int(match[1]))] if match else [line[2:]]
            elif line.strip() and not line.startswith("#"):
                into = self.read(*line.split(" ", 1))

    def read(self, word: str, rest: str = "") -> List[str]:
        """Reads a line of the file; returns the list that the indented lines after it belong to."""
        words = rest.split(" ")
        if word in ("workers", "max_pending", "chop", "pipe", "stderr"):
            setattr(self, word, int(rest))
        elif word in ("hold", "locked", "limit"):
            setattr(self, word, float(rest))
        elif word in ("page", "drop", "redirect", "refuse"):
            target = words[1] if word == "redirect" else None
            delay = float(words[1]) if word == "page" and len(words) > 1 else 0.0
            refusals = int(words[1]) if word == "refuse" else 0
            page = self.pages[words[0]] = Page([], target, word == "drop", delay, refusals)
            return page.lines
        elif word == "log":
            self.log = []
            return self.log
        elif word == "at":
            self.events.append(Event(int(words[0]), words[1], words[2], " ".join(words[3:])))
        elif word in ("seeds", "mistakes"):
            setattr(self, word, words)
        elif word == "says":
            self.says = rest
        elif word == "stats":
            self.has_stats = True
        elif word == "expect" and rest in ("closed", "failure", "killed"):
            self.expected = rest
        else:
            sys.exit(f"{self.name}: unknown line: {word} {rest}")
        return []

    def targets(self, url: str) -> Iterator[str]:
        """The URLs that have to be offered before a page is done."""
        page = self.pages.get(url, Page([]))
        base = url
        for text in [page.redirect] if page.redirect is not None else page.lines:
            if text.startswith("base "):
                base = text[5:]
                continue
            text = text.replace("\\n", "\n")
            with suppress(NotUrl):
                if len(f"link {base} {text}") <= 4096:
                    yield canonical(text, base)

    def reached(self) -> Set[str]:
        """The URLs of the whole crawl, by a search of its own."""
        found = [canonical(seed) for seed in self.seeds]
        for url in found:
            found += sorted(set(self.targets(url)) - set(found))
        return set(found)


def trap_names() -> List[str]:
    return sorted(path.stem for path in (HERE / "traps").glob("*.txt"))


def read_trap(name: str, port: int) -> Trap:
    return Trap(name, (HERE / "traps" / f"{name}.txt").read_text("utf-8"), port)


# ---------------------------------------------------------------- the web

class Web:
    """Servers on HOSTS addresses and one port. They serve what `pages` has at the time."""

    def __init__(self) -> None:
        self.pages: Dict[str, Page] = {}
        self.refusals: Dict[str, int] = {}  # how many requests of each URL are still refused
        self.requests: List[Request] = []
        self.lock, self.open = threading.Lock(), 0
        web = self

        class Handler(http.server.BaseHTTPRequestHandler):
            def do_GET(self) -> None:
                url = f"http://{self.connection.getsockname()[0]}:{web.port}{self.path}"
                is_refused = self.path != MARKER and web.request(url)
                page = web.pages.get(url)
                if page is None or is_refused:
                    self.send_error(503 if is_refused else 404)
                    return
                time.sleep(page.delay)
                if page.is_dropped:
                    self.close_connection = True
                    return
                body = "".join(f"{line}\n" for line in page.lines).encode()
                self.send_response(200 if page.redirect is None else 302)
                self.send_header("Content-Type", "text/plain; charset=utf-8")
                self.send_header("Content-Length", str(len(body)))
                if page.redirect is not None:
                    self.send_header("Location", page.redirect)
                self.end_headers()
                self.wfile.write(body)

            def log_message(self, format: str, *words: object) -> None:
                return

        class Server(http.server.ThreadingHTTPServer):
            daemon_threads = True
            request_queue_size = 128

            def process_request(self, request: Any, client_address: Any) -> None:
                with web.lock:
                    web.open += 1
                super().process_request(request, client_address)

            def process_request_thread(self, request: Any, client_address: Any) -> None:
                super().process_request_thread(request, client_address)
                with web.lock:
                    web.open -= 1

            def handle_error(self, request: object, client_address: object) -> None:
                return  # a crawler was killed

        self.port = 0
        self.servers = []
        for host in range(1, HOSTS + 1):
            server = Server((f"127.0.0.{host}", self.port), Handler)
            self.port = server.server_port
            self.servers.append(server)
            threading.Thread(target=server.serve_forever, args=(0.05,), daemon=True).start()

    def serve(self, pages: Dict[str, Page]) -> None:
        """Serves these pages. If they are served already, only the list of requests is cleared."""
        if pages is not self.pages:
            self.refusals = {url: page.refusals for url, page in pages.items()}
        self.pages, self.requests = pages, []

    def request(self, url: str) -> bool:
        """Notes a request, and returns whether it is refused."""
        with self.lock:
            is_refused = self.refusals.get(url, 0) > 0
            if is_refused:
                self.refusals[url] -= 1
            self.requests.append(Request(time.monotonic(), url, is_refused))
        return is_refused

    def settle(self) -> None:
        """Waits until the requests of a crawler that has ended are in `requests`."""
        for server in self.servers:
            # Connections are accepted in their order.
            connection = http.client.HTTPConnection(str(server.server_address[0]), self.port)
            connection.request("GET", MARKER)
            connection.getresponse()
            connection.close()
        while self.open:
            time.sleep(0.001)


# ---------------------------------------------------------------- a crawl, and its judgement

class Run:
    """A crawl over the fake program."""

    def __init__(self, web: Web, trap: Trap, command: Sequence[str]) -> None:
        self.web, self.trap, self.command = web, trap, command
        self.violations: List[str] = []

    def run(self) -> List[str]:
        """What the crawler did wrong."""
        trap = self.trap
        self.web.serve(trap.pages)
        with tempfile.TemporaryDirectory(prefix="conformance-") as name:
            folder = Path(name)
            program = folder / "mercator"
            fake = f"'{sys.executable}' -S '{HERE}/fake_mercator.py' '{folder}'"
            program.write_text(f'#!/bin/sh\nexec {fake} "$@"\n')
            program.chmod(0o755)
            (folder / "trap").write_text(f"{trap.name} {self.web.port}")
            (folder / "facts").touch()
            log = "-"
            if trap.log is not None:
                log = str(folder / "crawl.log")
                head = f"workers {trap.workers} max {trap.max_pending}"
                Path(log).write_text("".join(f"{line}\n" for line in [head, *trap.log]))
            status, stderr = self.crawl(program, log)
            facts = [json.loads(line) for line in (folder / "facts").read_text().splitlines()]
            lines = (folder / "printed").read_text("utf-8", "replace").splitlines()
        self.judge(status, stderr, facts)
        if trap.has_stats:
            printed = [line for line in lines if line.startswith("stats ")]
            self.judge_stats(printed, [str(fact["stats"]) for fact in facts if "stats" in fact])
        return self.violations

    def crawl(self, program: Path, log: str) -> Tuple[Optional[int], str]:
        """The exit status, if it ends in time, and what it prints on standard error."""
        lock = None
        if self.trap.locked:
            lock = os.open(log, os.O_RDONLY)
            fcntl.flock(lock, fcntl.LOCK_EX)
            timer = threading.Timer(self.trap.locked, os.close, (lock,))
            timer.daemon = True
            timer.start()
        words = [*self.command, str(self.trap.workers), log, *self.trap.seeds]
        environment = {**os.environ, "MERCATOR": str(program), "PYTHONUNBUFFERED": "1"}
        environment.update({"STATS": "1"} if self.trap.has_stats else {})
        with open(program.parent / "printed", "wb") as output, tempfile.TemporaryFile() as errors:
            process = subprocess.Popen(
                words, env=environment, stdin=subprocess.DEVNULL, stdout=output, stderr=errors,
                start_new_session=True,
            )
            status: Optional[int] = None
            with suppress(subprocess.TimeoutExpired):
                status = process.wait(self.trap.limit)
                self.end_programs(program.parent)  # which may be in the group of the crawler
            with suppress(ProcessLookupError):
                os.killpg(process.pid, signal.SIGKILL)
            process.wait()
            self.web.settle()
            self.end_programs(program.parent)
            errors.seek(0)
            return status, errors.read().decode("utf-8", "replace").strip()

    def end_programs(self, folder: Path) -> None:
        """Each fake program has to end, since its input has ended."""
        for fact in (folder / "facts").read_text().splitlines():
            pid = json.loads(fact).get("pid")
            if pid is None:
                continue
            end = time.monotonic() + 5
            while is_running(pid) and time.monotonic() < end:
                time.sleep(0.01)
            if is_running(pid):
                self.violations.append("the program's input is still open after the crawler's end")
                os.kill(pid, signal.SIGKILL)

    def judge(self, status: Optional[int], stderr: str, facts: List[Dict[str, object]]) -> None:
        trap = self.trap
        if trap.expected == "killed" and not any("killed" in fact for fact in facts):
            trap.expected = "closed"  # it never sent what it would have been killed for
        self.violations += [str(fact["violation"]) for fact in facts if "violation" in fact]
        if status is None:
            self.violations.append(f"the crawler runs on for {trap.limit:g} seconds")
        elif trap.expected == "failure":
            if status == 0:
                self.violations.append("the crawler ended with status 0, as if the crawl were over")
            if not stderr:
                self.violations.append("the crawler did not say on standard error what failed")
            elif trap.says not in stderr:
                self.violations.append(f"the crawler did not repeat the message `{trap.says}`")
        elif trap.expected == "killed":
            if status not in (-signal.SIGKILL, 128 + signal.SIGKILL):
                self.violations.append(f"the crawler was not killed, but ended with status {status}")
        elif status != 0:
            last = stderr.splitlines()[-1] if stderr else ""
            self.violations.append(f"the crawler ended with status {status}: {last[:200]}")
        self.judge_fetches(facts)

    def judge_fetches(self, facts: List[Dict[str, object]]) -> None:
        """Each URL is fetched once each time that it is given out, and at no other time.

        It need not be fetched if it is put back.
        """
        given: List[Given] = []
        for fact in facts:
            at = float(str(fact["at"]))
            if "taken" in fact:
                given.append(Given(str(fact["taken"]), at))
            url = fact.get("done", fact.get("put_back"))
            last = [i for i, one in enumerate(given) if one.url == url][-1:]
            for i in last:
                given[i] = given[i]._replace(end=at, is_put_back="put_back" in fact)
        left = list(given)
        for request in self.web.requests:
            mine = [one for one in given if one.is_of(request)]
            if not mine:
                self.violations.append(f"{request.url} was requested while it was not given out")
            elif mine[0] in left:
                left.remove(mine[0])
            else:
                self.violations.append(f"{request.url} was requested twice")
        if self.trap.expected == "closed":
            unfetched = [one.url for one in left if not one.is_put_back]
            self.violations += [f"{url} was given out, but not requested" for url in unfetched]
            fetched = {url for _, url, is_refused in self.web.requests if not is_refused}
            done = {str(fact["was_done"]) for fact in facts if "was_done" in fact}
            for url in sorted(self.trap.reached() - fetched - done):
                is_requested = any(request.url == url for request in self.web.requests)
                how = "was not requested again after status 503" if is_requested else "was never requested"
                self.violations.append(f"{url} {how}")

    def judge_stats(self, printed: List[str], answered: List[str]) -> None:
        """It prints the numbers of each answer, and asks for those of each queue that it visits."""
        for line in Counter(printed) - Counter(answered):
            self.violations.append(f"the crawler printed `{line}`, which was not answered")
        for line in Counter(answered) - Counter(printed):
            self.violations.append(f"the crawler did not print `{line}`")
        hosts = {url.split("/")[2] for url in self.trap.reached()}
        for name in ["all", *map(str, range(min(len(hosts), self.trap.workers)))]:
            if not any(line.startswith(f"stats {name} ") for line in answered):
                self.violations.append(f"`stats` was never requested for {name}")


def is_running(pid: int) -> bool:
    try:
        state = Path(f"/proc/{pid}/stat").read_text().rpartition(")")[2].split()[0]
    except OSError:
        return False
    return state != "Z"


# ---------------------------------------------------------------- what is run

def check(web: Web, names: Sequence[str], command: Sequence[str]) -> int:
    """Runs the command over each trap, and returns how many fail."""
    failed = 0
    for name in names:
        begun = time.monotonic()
        violations = Run(web, read_trap(name, web.port), command).run()
        took = time.monotonic() - begun
        print(f"{name}: {'FAILED' if violations else 'passed'}, {took:.1f} s", flush=True)
        for violation in list(dict.fromkeys(violations))[:5]:
            print(f"  {violation}", flush=True)
        failed += bool(violations)
    print(f"{len(names) - failed} passed, {failed} failed")
    return failed


def self_test(web: Web, names: Sequence[str]) -> int:
    """Runs the suite's own crawler, right and with each mistake; how many results are wrong."""
    passed = failed = 0
    for name in names:
        for mistake in ["none", *read_trap(name, web.port).mistakes]:
            trap = read_trap(name, web.port)
            crawler = HERE / "crawlers/crawl_mistakes.py"
            # A mistake that hangs is noticed in a few seconds.
            trap.limit = trap.limit if mistake == "none" else min(trap.limit, 5.0)
            violations = Run(web, trap, [sys.executable, "-S", str(crawler), mistake]).run()
            if bool(violations) == (mistake != "none"):
                passed += 1
                print(f"{name}, {mistake}: {violations[0] if violations else 'passed'}", flush=True)
            else:
                failed += 1
                print(f"{name}, {mistake}: FAILED: {violations[:3] or 'not noticed'}", flush=True)
    print(f"{passed} passed, {failed} failed")
    return failed


def main() -> int:
    parser = argparse.ArgumentParser(
        description=__doc__, formatter_class=argparse.RawDescriptionHelpFormatter
    )
    option = parser.add_argument
    option("--trap", action="append", choices=trap_names(), metavar="NAME", help="only this trap")
    option("--list", action="store_true", help="list the traps")
    option("--self-test", action="store_true", help="check that the traps notice mistakes")
    option("command", nargs=argparse.REMAINDER, metavar="COMMAND")
    words = parser.parse_args()
    names = words.trap or trap_names()
    if words.list:
        for name in names:
            print(f"{name}: {read_trap(name, 0).title}")
        return 0
    if not words.self_test and not words.command:
        parser.error("COMMAND is missing")
    web = Web()
    failed = self_test(web, names) if words.self_test else check(web, names, words.command)
    return 1 if failed else 0


if __name__ == "__main__":
    sys.exit(main())
