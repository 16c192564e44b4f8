#!/usr/bin/python3
"""A frontier in Python that answers like `mercator serve`, to test clients without the program.

Usage: fake.py serve [--workers N] [--max-pending M] [--within SUFFIX] [--part I/K]
                     [--log FILE [--sync] [--wait SECONDS]]

It uses the model of URLs in drawn.py. It has no `--compact`, no `--list` and no request `seen`, and the first line of its log is not
that of the program.
"""

from __future__ import annotations

import argparse
import fcntl
import os
import re
import sys
import time
from collections import deque
from functools import lru_cache
from pathlib import Path
from typing import Deque, Iterable, List, NamedTuple, NoReturn, Optional, Set, Tuple

sys.path.insert(0, str(Path(__file__).resolve().parent.parent))

LINE_LIMIT = 4096
READ_SIZE = 65_536
# A URL that is canonical: no escapes, no dot segments, no port, labels that begin with a letter.
PLAIN = re.compile(
    r"http://([a-z][a-z0-9-]*(?:\.[a-z][a-z0-9-]*)*)(?:/[A-Za-z0-9_~-][\w~.-]*)*/?", re.A
)
LOCAL = re.compile(r"[A-Za-z0-9_~-][\w~.-]*(?:/[A-Za-z0-9_~-][\w~.-]*)*", re.A)


class Settings(NamedTuple):
    """The settings in the first line of a log."""

    workers: int
    most: int
    suffix: Optional[str]
    part: int
    parts: int

    def __str__(self) -> str:
        within = "" if self.suffix is None else f" within {self.suffix}"
        return f"workers {self.workers} max {self.most}{within} part {self.part}/{self.parts}"


class Frontier:
    """The frontier of one part, made of sets and lists."""

    def __init__(self, settings: Settings, is_part: bool) -> None:
        self.settings, self.is_part = settings, is_part
        self.first = settings.part * settings.workers
        self.waiting: List[Deque[str]] = [deque() for _ in range(settings.workers)]
        self.put_back: List[Set[str]] = [set() for _ in range(settings.workers)]
        self.in_hand: List[Optional[str]] = [None] * settings.workers
        self.numbers = [0] * settings.workers
        self.again = [0] * settings.workers  # offers that were answered `seen`
        self.seen: Set[str] = set()
        self.count = 1
        self.has_seeds = True
        self.is_closed = False
        self.identity = "none"

    def answer(self, line: bytes) -> str:
        if len(line) > LINE_LIMIT:
            return "line too long"
        try:
            text = line.decode()
        except UnicodeDecodeError:
            return "not UTF-8"
        word, space, rest = text.partition(" ")
        if word == "offer" and space:
            return self.offer(rest)
        if word == "link" and " " in rest:
            base, _, rest = rest.partition(" ")
            return self.offer(rest, base)
        if text == "stats":
            return self.stats(range(self.settings.workers))
        if word in ("next", "done", "again", "later", "stats") and re.fullmatch("[0-9]{1,20}", rest):
            return self.of_queue(word, int(rest)) if int(rest) < 2**32 else "bad line"
        if text == "endseeds":
            if not self.has_seeds:
                return "refused nothing"
            self.has_seeds = False
            return self.lower()
        if text == "sync" and self.is_part:
            return "synced"
        if text == "identity" and self.is_part:
            return f"identity {self.identity}"
        return "bad line"

    def of_queue(self, word: str, queue: int) -> str:
        own = queue - self.first
        if not 0 <= own < self.settings.workers:
            return "refused nosuch"
        if word == "stats":
            return self.stats((own,))
        url = self.in_hand[own]
        if word == "again":
            return "refused nothing" if url is None else f"taken {url}"
        if word in ("done", "later"):
            if url is None:
                return "refused nothing"
            self.in_hand[own] = None
            if word == "done":
                return self.lower()
            self.waiting[own].append(url)
            self.put_back[own].add(url)
            return f"count {self.count}"
        if url is not None:
            return "refused busy"
        if self.waiting[own]:
            url = self.in_hand[own] = self.waiting[own].popleft()
            self.put_back[own].discard(url)
            return f"taken {url}"
        self.is_closed = self.count == 0
        return "closed" if self.is_closed else f"pending {self.count}"

    def stats(self, queues: Iterable[int]) -> str:
        accepted = busy = waiting = put_back = seen = 0
        for own in queues:
            accepted += self.numbers[own]
            busy += self.in_hand[own] is not None
            waiting += len(self.waiting[own])
            put_back += len(self.put_back[own])
            seen += self.again[own]
        done = accepted - busy - waiting
        return f"stats accepted {accepted} done {done} in-progress {busy} waiting {waiting} put-back {put_back} seen {seen}"

    def lower(self) -> str:
        self.count -= 1
        return f"count {self.count}"

    def offer(self, text: str, base: Optional[str] = None) -> str:
        settings = self.settings
        url, host = read_url(text, base)
        if not host:
            return url
        if settings.suffix is not None and not f".{host}".endswith(f".{settings.suffix}"):
            return "filtered"
        queue = queue_of(host, settings.workers * settings.parts)
        own = queue - self.first
        if not 0 <= own < settings.workers:
            return f"elsewhere {queue // settings.workers} {url}"
        if self.is_closed:
            return "refused closed"
        if self.count >= settings.most:
            return "refused full"
        if url in self.seen:
            self.again[own] += 1
            return "seen"
        self.seen.add(url)
        self.waiting[own].append(url)
        self.count += 1
        self.numbers[own] += 1
        return f"accepted {queue} {self.numbers[own] - 1}"


def read_url(text: str, base: Optional[str]) -> Tuple[str, str]:
    """Return the canonical URL of a text and its host, or an answer and no host."""
    plain = PLAIN.fullmatch(text)
    if plain and (base is None or PLAIN.fullmatch(base)):
        return (text if text.count("/") > 2 else text + "/"), plain[1]
    if base is not None and LOCAL.fullmatch(text):
        plain = PLAIN.fullmatch(base)
        if plain and base.count("/") > 2:
            return base[:base.rindex("/") + 1] + text, plain[1]
    import drawn  # only if needed, since it takes a while
    try:
        url = drawn.url_of(text) if base is None else drawn.url_of(text, drawn.url_of(base))
    except drawn.NotUrl:
        return "not a URL", ""
    except drawn.NotHttp:
        return "not http or https", ""
    return str(url), url.host


@lru_cache(maxsize=100_000)
def queue_of(host: str, queues: int) -> int:
    number = 0
    for byte in host.encode():
        number = (31 * number + byte) % 2**32
    return number % queues


class Log:
    """The file to which each request is appended before it is answered."""

    def __init__(self, name: str, settings: Settings, is_synced: bool, wait: int) -> None:
        self.name, self.is_synced = name, is_synced
        end = time.monotonic() + wait
        while not self.open():
            if time.monotonic() >= end:
                fail(f"log {name}: in use by another program", 5)
            os.close(self.file)
            time.sleep(0.02)
        with open(name, "rb") as file:
            text = file.read()
        whole = text.rfind(b"\n") + 1
        if whole < len(text):
            os.ftruncate(self.file, whole)
            self.length = whole
            print(f"mercator: log {name}: incomplete last line removed", file=sys.stderr)
        self.head, *self.lines = text[:whole].split(b"\n")[:-1] or [b""]
        named, _, identity = self.head.decode().rpartition(" identity ")
        if not self.head:
            identity = os.urandom(8).hex()
            self.append(f"mercator log 1 {settings} identity {identity}\n".encode())
        elif named != f"mercator log 1 {settings}":
            fail(f"log {name}: made with other options")
        self.identity = identity

    def open(self) -> bool:
        """Open and lock the file, and return whether no other program uses it or has replaced it."""
        try:
            self.file = os.open(self.name, os.O_RDWR | os.O_CREAT | os.O_APPEND, 0o666)
        except OSError:
            fail(f"cannot open {self.name}")
        try:
            fcntl.flock(self.file, fcntl.LOCK_EX | fcntl.LOCK_NB)
        except BlockingIOError:
            return False
        self.length = os.fstat(self.file).st_size
        return self.is_unchanged()

    def is_unchanged(self) -> bool:
        """Return whether the name leads to the file, and the file has the length that it should have."""
        try:
            found = os.stat(self.name)
        except OSError:
            return False
        return os.path.samestat(found, os.fstat(self.file)) and found.st_size == self.length

    def append(self, data: bytes) -> None:
        """Append all of the data, or nothing."""
        if not self.is_unchanged():
            fail(f"log {self.name}: changed by another program")
        before = self.length
        self.length += len(data)
        try:
            if os.write(self.file, data) < len(data):
                os.ftruncate(self.file, before)
                fail("cannot write the log")
            if self.is_synced:
                os.fsync(self.file)
        except OSError:
            fail("cannot write the log")


def fail(why: str, status: int = 1) -> NoReturn:
    print(f"mercator: {why}", file=sys.stderr)
    sys.exit(status)


def serve(frontier: Frontier, log: Optional[Log]) -> None:
    """Answer all whole lines of a read with one write, after they are in the log."""
    held = b""
    while True:
        try:
            some = os.read(0, READ_SIZE)
        except OSError:
            fail("cannot read -")
        if not some and not held:
            return
        *lines, held = (held + some).split(b"\n") if some else [held, b""]
        held = held[:LINE_LIMIT + 2]
        lines = [line[:LINE_LIMIT + 2] for line in lines]
        if not lines:
            continue
        if log:
            log.append(b"".join(line + b"\n" for line in lines))
            if b"sync" in lines:
                os.fsync(log.file)
        answers = "".join(f"{frontier.answer(cut(line))}\n" for line in lines).encode()
        while answers:
            try:
                answers = answers[os.write(1, answers):]
            except OSError:
                fail("cannot write")


def cut(line: bytes) -> bytes:
    return line[:-1] if line.endswith(b"\r") else line


class CommandLine(argparse.ArgumentParser):
    """A parser that exits with the program's status on a bad command line."""

    def error(self, message: str) -> NoReturn:
        self.exit(3, f"error: {message}\n")


def main() -> None:
    parser = CommandLine(
        description=__doc__, formatter_class=argparse.RawDescriptionHelpFormatter
    )
    serving = parser.add_subparsers(required=True).add_parser("serve")
    serving.add_argument("--workers", type=int, default=4)
    serving.add_argument("--max-pending", type=int, default=2**20)
    serving.add_argument("--within", type=str.lower)
    serving.add_argument("--part")
    serving.add_argument("--log")
    serving.add_argument("--sync", action="store_true")
    serving.add_argument("--wait", type=int, default=0)
    options = parser.parse_args()
    found = re.fullmatch("([0-9]+)/([0-9]+)", "0/1" if options.part is None else options.part)
    part, parts = map(int, found.groups()) if found else (0, 0)
    if options.within == "" or not (
        1 <= options.workers <= 512 and 0 <= part < parts and options.workers * parts <= 2**20
    ):
        wrong = f"--workers {options.workers} --part {options.part} --within {options.within}"
        print(f"mercator: bad number: {wrong}", file=sys.stderr)
        sys.exit(3)
    settings = Settings(options.workers, options.max_pending, options.within, part, parts)
    frontier = Frontier(settings, options.part is not None)
    log = None
    if options.log is not None:
        log = Log(options.log, settings, options.sync, options.wait)
        for line in log.lines:
            frontier.answer(cut(line))
        frontier.identity = log.identity
        log.lines.clear()
    serve(frontier, log)


if __name__ == "__main__":
    main()
