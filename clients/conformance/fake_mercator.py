#!/usr/bin/env python3
"""A fake `mercator` that plays a trap, and judges the requests: `fake_mercator.py FOLDER serve ..`.

conformance.py starts it through the environment variable MERCATOR. It answers as `mercator serve`
does, as far as traps need it: URLs are those of traps, and host 127.0.0.K belongs to queue K - 1
modulo the number of workers. In FOLDER, `trap` names the trap, and `facts` gets what happens: which
URL was given out, and done or put back, at which time, and what the client does wrong.
"""

from __future__ import annotations

import argparse
import fcntl
import json
import os
import re
import select
import signal
import socket
import sys
import time
from collections import Counter, deque
from pathlib import Path
from typing import Deque, Dict, Iterable, List, NoReturn, Optional, Set

from conformance import POLLS, NotUrl, Trap, canonical, read_trap

F_SETPIPE_SZ = 1031
READ_SIZE = 65_536


class Frontier:
    """The frontier, and what it has seen of its client."""

    def __init__(self, trap: Trap, facts: Path) -> None:
        self.trap, self.facts = trap, facts
        self.waiting: List[Deque[str]] = [deque() for _ in range(trap.workers)]
        self.put_back: List[Set[str]] = [set() for _ in range(trap.workers)]
        self.numbers = [0] * trap.workers
        self.seen_counts = [0] * trap.workers  # offers that were answered `seen`
        self.in_progress: Dict[int, str] = {}
        self.seen: Set[str] = set()
        self.offered: Set[str] = set()
        self.count = 1
        self.has_seeds, self.is_closed, self.is_replaying = True, False, False
        # The queues whose URL was in progress at the end of the log, until the client asks for it.
        self.resumed: Set[int] = set()
        # How many times `next` was sent in vain for each queue since something changed for it.
        self.polls = [0] * trap.workers

    def note(self, **fact: object) -> None:
        with open(self.facts, "a", encoding="utf-8") as file:
            file.write(json.dumps({"at": time.monotonic(), **fact}) + "\n")

    def violation(self, text: str) -> None:
        if not self.is_replaying:
            self.note(violation=text)

    def answer(self, line: bytes) -> str:
        if len(line) > 4096:
            return "line too long"
        try:
            text = line.decode()
        except UnicodeDecodeError:
            self.violation(f"the request {line!r} is not UTF-8")
            return "not UTF-8"
        word, space, rest = text.partition(" ")
        if word == "offer" and space:
            return self.offer(rest, None)
        if word == "link" and " " in rest:
            base, _, rest = rest.partition(" ")
            return self.offer(rest, base)
        if text == "endseeds":
            return self.end_seeds()
        if text == "stats":
            return self.stats("all", range(self.trap.workers))
        of_queue = {
            "next": self.next, "done": self.done, "later": self.later, "again": self.again,
            "stats": self.stats_of_queue,
        }
        if word in of_queue and re.fullmatch("[0-9]{1,20}", rest):
            queue = int(rest)
            if queue < self.trap.workers:
                return of_queue[word](queue)
            answer = "refused nosuch"
        else:
            answer = "bad line"
        self.violation(f"the request `{text[:100]}` is answered `{answer}`")
        return answer

    def offer(self, text: str, base: Optional[str]) -> str:
        try:
            url = canonical(text, base)
        except NotUrl as error:
            return str(error)
        self.offered.add(url)
        if self.is_closed:
            return "refused closed"
        if url in self.seen:
            self.seen_counts[self.queue_of(url)] += 1
            return "seen"
        if self.count >= self.trap.max_pending:
            return "refused full"
        queue = self.queue_of(url)
        self.seen.add(url)
        self.waiting[queue].append(url)
        self.count += 1
        self.numbers[queue] += 1
        self.polls[queue] = 0
        return f"accepted {queue} {self.numbers[queue] - 1}"

    def queue_of(self, url: str) -> int:
        host = url.split("/")[2].split(":")[0]
        return (int(host.rpartition(".")[2]) - 1) % self.trap.workers

    def end_seeds(self) -> str:
        if not self.has_seeds:
            return "refused nothing"
        self.has_seeds = False
        return self.lower()

    def lower(self) -> str:
        self.count -= 1
        if self.count == 0:
            self.polls = [0] * self.trap.workers
        return f"count {self.count}"

    def next(self, queue: int) -> str:
        if queue in self.in_progress:
            self.violation(f"`next {queue}` was sent before `done {queue}`")
            return "refused busy"
        if self.waiting[queue]:
            url = self.in_progress[queue] = self.waiting[queue].popleft()
            self.put_back[queue].discard(url)
            if not self.is_replaying:
                self.note(taken=url)
            self.polls[queue] = 0
            return f"taken {url}"
        if self.count == 0:
            self.is_closed = True
            return "closed"
        self.polls[queue] += 1
        if self.polls[queue] == POLLS:
            self.violation(f"`next {queue}` was sent {POLLS} times although nothing had changed")
        return f"pending {self.count}"

    def done(self, queue: int) -> str:
        if queue not in self.in_progress:
            self.violation(f"`done {queue}` was sent, but no URL is in progress")
            return "refused nothing"
        url = self.in_progress.pop(queue)
        self.resumed.discard(queue)
        if self.is_replaying:
            self.note(was_done=url)
        else:
            self.note(done=url)
            for target in sorted(set(self.trap.targets(url)) - self.offered):
                self.violation(f"{url} was done before {target} was offered")
        return self.lower()

    def later(self, queue: int) -> str:
        if queue not in self.in_progress:
            self.violation(f"`later {queue}` was sent, but no URL is in progress")
            return "refused nothing"
        url = self.in_progress.pop(queue)
        self.resumed.discard(queue)
        self.waiting[queue].append(url)
        self.put_back[queue].add(url)
        if not self.is_replaying:
            self.note(put_back=url)
        return f"count {self.count}"

    def again(self, queue: int) -> str:
        url = self.in_progress.get(queue)
        if url is None:
            return "refused nothing"
        if queue in self.resumed:
            self.resumed.remove(queue)
            self.note(taken=url)
        return f"taken {url}"

    def stats_of_queue(self, queue: int) -> str:
        return self.stats(str(queue), (queue,))

    def stats(self, name: str, queues: Iterable[int]) -> str:
        accepted = sum(self.numbers[queue] for queue in queues)
        busy = sum(queue in self.in_progress for queue in queues)
        waiting = sum(len(self.waiting[queue]) for queue in queues)
        put_back = sum(len(self.put_back[queue]) for queue in queues)
        seen = sum(self.seen_counts[queue] for queue in queues)
        done = accepted - busy - waiting
        if not self.is_replaying:
            self.note(stats=f"stats {name} {accepted} {done} {busy} {waiting} {put_back} {seen}")
        # A later version of the program may add numbers at the end.
        added = " new 7" if name == "all" else ""
        return (f"stats accepted {accepted} done {done} in-progress {busy} waiting {waiting}"
                f" put-back {put_back} seen {seen}{added}")

    def judge_offers(self) -> None:
        """Judges the offers of a crawler that was killed."""
        known = set(map(canonical, self.trap.seeds)).union(*map(self.trap.targets, self.trap.pages))
        for url in sorted(self.offered - known):
            self.violation(f"a request was cut off, so that {url[:100]} was offered")

    def replay(self, lines: List[bytes]) -> None:
        self.is_replaying = True
        for line in lines:
            self.answer(line)
        self.is_replaying = False
        self.resumed = set(self.in_progress)


class Log:
    """The log, which one program at a time may use."""

    def __init__(self, name: str, trap: Trap, wait: int) -> None:
        self.file = os.open(name, os.O_RDWR | os.O_CREAT | os.O_APPEND, 0o666)
        end = time.monotonic() + wait
        while not self.lock():
            if time.monotonic() >= end:
                fail(f"log {name}: in use by another program", 5)
            time.sleep(0.02)
        head = f"workers {trap.workers} max {trap.max_pending}".encode()
        first, *self.lines = Path(name).read_bytes().split(b"\n")[:-1] or [b""]
        if not first:
            os.write(self.file, head + b"\n")
        elif first != head:
            fail(f"log {name}: made with other options")

    def lock(self) -> bool:
        try:
            fcntl.flock(self.file, fcntl.LOCK_EX | fcntl.LOCK_NB)
            return True
        except BlockingIOError:
            return False

    def append(self, lines: List[bytes]) -> None:
        os.write(self.file, b"".join(line + b"\n" for line in lines))


def fail(why: str, status: int = 1) -> NoReturn:
    print(f"mercator: {why}", file=sys.stderr)
    sys.exit(status)


class Session:
    """Reads requests and writes answers, as the trap has it."""

    def __init__(self, trap: Trap, frontier: Frontier, log: Optional[Log]) -> None:
        self.trap, self.frontier, self.log = trap, frontier, log
        self.words: Counter[str] = Counter()
        self.events = {(event.number, event.word): event for event in trap.events}
        # Answers that are not written yet, and the queues whose answer `pending` is held back.
        self.out: List[bytes] = []
        self.held: Dict[int, int] = {}
        self.is_orphan = False  # whether the crawler was killed

    def run(self) -> None:
        rest = b""
        while True:
            some = os.read(0, READ_SIZE)
            *lines, rest = (rest + some).split(b"\n")
            lines = [line[:-1] if line.endswith(b"\r") else line for line in lines]
            if not some and rest:
                lines.append(rest)
            if self.log and lines:
                self.log.append(lines)
            for line in lines:
                self.answer(line)
            if not some:
                if self.is_orphan:
                    self.frontier.judge_offers()
                return self.write()
            self.write(min(self.held.values(), default=len(self.out)))
            # If nothing else comes, the client waits for the answers that are held back.
            if self.held and not select.select([0], [], [], self.trap.hold)[0]:
                self.held.clear()
                self.write()

    def answer(self, line: bytes) -> None:
        request = line.split(b" ", 1)[0].decode("utf-8", "replace")
        answer = self.frontier.answer(line)
        for word in (request, answer.split(" ", 1)[0]):
            self.words[word] += 1
            event = self.events.get((self.words[word], word))
            if event and event.action == "answer":
                answer = event.text
            elif event and event.action == "kill_crawler":
                self.kill_crawler()
            elif event:
                self.end(event.action, event.text, answer)
        if self.trap.hold:
            self.hold(line, answer)
        self.out.append(answer.encode() + b"\n")

    def hold(self, line: bytes, answer: str) -> None:
        """Holds `pending` back until the answer that ends the wait can be written with it."""
        if answer.startswith("pending "):
            self.held[int(line.split()[1])] = len(self.out)
        if answer.startswith("accepted "):
            self.held.pop(int(answer.split()[1]), None)
        if answer == "count 0":
            self.held.clear()

    def kill_crawler(self) -> None:
        """Kills the crawler once it can write no more. What it has written is read as usual."""
        time.sleep(1)
        self.frontier.note(killed=os.getppid())
        os.kill(os.getppid(), signal.SIGKILL)
        self.is_orphan = True

    def end(self, action: str, text: str, answer: str) -> NoReturn:
        if action == "half":
            self.out.append(answer.encode()[:-1])
        self.write()
        if action == "kill":
            os.kill(os.getpid(), signal.SIGKILL)
        fail(text or "cannot write")

    def write(self, count: Optional[int] = None) -> None:
        """Writes the first answers, or all."""
        some, self.out = self.out[:count], self.out[count:] if count is not None else []
        self.held = {queue: at - len(some) for queue, at in self.held.items()}
        answers = b"".join(some)
        size = self.trap.chop or len(answers)
        while answers:
            try:
                answers = answers[os.write(1, answers[:size]):]
            except BrokenPipeError:
                if self.is_orphan:
                    return
                sys.exit(1)
            if self.trap.chop:
                time.sleep(0.0002)


def make_small(size: int) -> None:
    """Makes the pipes of this process small, which some clients make as pairs of sockets."""
    for pipe in (0, 1):
        try:
            fcntl.fcntl(pipe, F_SETPIPE_SZ, size)
        except OSError:
            with socket.socket(fileno=os.dup(pipe)) as end:
                end.setsockopt(socket.SOL_SOCKET, socket.SO_SNDBUF, size)


def main() -> None:
    folder = Path(sys.argv[1])
    parser = argparse.ArgumentParser(prog="mercator")
    serve = parser.add_subparsers(required=True).add_parser("serve")
    serve.add_argument("--workers", type=int, default=4)
    serve.add_argument("--max-pending", type=int)
    serve.add_argument("--within")
    serve.add_argument("--log")
    serve.add_argument("--sync", action="store_true")
    serve.add_argument("--wait", type=int, default=0)
    name, port = (folder / "trap").read_text().split(" ")
    trap = read_trap(name, int(port))
    frontier = Frontier(trap, folder / "facts")
    frontier.note(pid=os.getpid())
    try:
        words = parser.parse_args(sys.argv[2:])
    except SystemExit:
        sys.exit(3)
    if words.workers != trap.workers:
        frontier.violation(f"--workers is {words.workers}, and not {trap.workers}")
    if (words.log is not None) != (trap.log is not None):
        frontier.violation(f"--log is {words.log}")
    for event in trap.events:
        if event.word == "start":
            print(f"error: {event.text}", file=sys.stderr)
            sys.exit(3)
    if trap.pipe:
        make_small(trap.pipe)
    sys.stderr.write("warning\n" * (trap.stderr // 8))
    sys.stderr.flush()
    log = None
    if words.log is not None:
        log = Log(words.log, trap, words.wait)
        frontier.replay(log.lines)
    Session(trap, frontier, log).run()


if __name__ == "__main__":
    main()
