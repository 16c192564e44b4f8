#!/usr/bin/env python3
"""A crawler that speaks the protocol itself, with one mistake: for the self-test of the suite.

Usage: crawl_mistakes.py MISTAKE WORKERS LOG SEED..

With the mistake `none` it does what README.md says. The other mistakes are the branches below.
"""

from __future__ import annotations

import asyncio
import http.client
import os
import sys
from collections import deque
from typing import Deque, Dict, List, Optional, Set, Tuple
from urllib.parse import urljoin, urlsplit

MISTAKE, WORKERS, LOG, SEEDS = sys.argv[1], int(sys.argv[2]), sys.argv[3], sys.argv[4:]
TOO_LONG = b"offer ".ljust(4097, b"x")


class Failure(Exception):
    """The frontier has ended, or gives an unknown answer."""


class Client:
    """The program, and who waits for which answer."""

    def __init__(self, process: asyncio.subprocess.Process) -> None:
        self.process = process
        self.unsent = b""
        assert process.stdin
        # Each drain waits until a request is written, since the transport would join others to it.
        process.stdin.transport.set_write_buffer_limits(0)
        self.owed: Deque[Tuple[str, asyncio.Future[str]]] = deque()
        self.waiting: Dict[int, asyncio.Future[None]] = {}
        self.kept: List[str] = []
        self.known: Set[str] = set()
        self.end: Optional[str] = None
        self.reader = asyncio.ensure_future(self.read())

    async def read(self) -> None:
        assert self.process.stdout
        rest = b""
        while some := await self.process.stdout.read(65_536):
            if MISTAKE == "read_is_line":
                self.handle(some.split(b"\n")[0].decode())
                continue
            *lines, rest = (rest + some).split(b"\n")
            for line in lines:
                self.handle(line.decode())
        if MISTAKE == "half_line" and rest and self.owed:
            self.handle(rest.decode())
            await asyncio.sleep(0.5)
        if MISTAKE == "quiet_end":
            os._exit(0)
        errors = await self.process.stderr.read() if self.process.stderr else b""
        status = await self.process.wait()
        self.end = f"the program ended with status {status}: {errors.decode()[-500:]}"
        if MISTAKE == "vague_end":
            self.end = "the program ended"
        for _, answer in self.owed:
            answer.set_exception(Failure(self.end))
        for waiter in self.waiting.values():
            waiter.set_exception(Failure(self.end))

    def handle(self, line: str) -> None:
        request, answer = self.owed.popleft()
        word, _, rest = line.partition(" ")
        if word == "accepted":
            self.wake(int(rest.split()[0]))
        if line == "count 0" and MISTAKE != "deaf_to_end":
            for queue in range(WORKERS):
                self.wake(queue)
        if request.startswith("next ") and word == "pending" and MISTAKE != "late_waiter":
            self.waiting[int(request[5:])] = asyncio.get_running_loop().create_future()
        if line == "refused full" and MISTAKE != "lose_full":
            self.kept.append(request)
        answer.set_result(line)

    def wake(self, queue: int) -> None:
        waiter = self.waiting.get(queue)
        if waiter and not waiter.done():
            waiter.set_result(None)

    def ask(self, request: str) -> asyncio.Future[str]:
        if self.end is not None:
            raise Failure(self.end)
        assert self.process.stdin
        answer: asyncio.Future[str] = asyncio.get_running_loop().create_future()
        self.owed.append((request, answer))
        line = request.encode()
        # The beginning of a longer request could be another one.
        self.unsent += (line if len(line) <= 4096 or MISTAKE == "cut_off" else TOO_LONG) + b"\n"
        if MISTAKE != "cut_off" or not request.startswith("link ") or len(self.unsent) > 500_000:
            self.process.stdin.write(self.unsent)
            self.unsent = b""
        return answer

    async def take(self, queue: int) -> Optional[str]:
        while True:
            answer = await self.ask(f"next {queue}")
            if answer.startswith("taken "):
                return answer[6:]
            if answer == "closed":
                return None
            if MISTAKE == "poll":
                await asyncio.sleep(0.01)
                continue
            if not answer.startswith("pending ") and MISTAKE != "guess":
                raise Failure(f"unknown answer: {answer}")
            if queue not in self.waiting:
                self.waiting[queue] = asyncio.get_running_loop().create_future()
            await self.waiting[queue]
            self.waiting.pop(queue, None)

    async def done(self, queue: int) -> None:
        """Offers what was refused before any other request. The seeds end when nothing is left."""
        answer = self.ask(f"done {queue}")
        kept, self.kept = self.kept, []
        offers = [self.ask(request) for request in kept]
        count = await answer
        await asyncio.gather(*offers)
        if count == "count 1" and not self.kept and not any(map(accepted, offers)):
            await self.ask("endseeds")

    async def print_stats(self, queue: int) -> None:
        for name, of_queue in ((str(queue), f" {queue}"), ("all", "")):
            answer = await self.ask(f"stats{'' if MISTAKE == 'stats_of_all' else of_queue}")
            numbers = answer.split(" ")[2::2]
            numbers = numbers if MISTAKE == "added_stats" else numbers[:6]
            print("stats", name, *sorted(numbers) if MISTAKE == "wrong_stats" else numbers)

    async def later(self, queue: int) -> None:
        await self.ask(f"later {queue}")
        if MISTAKE == "later_and_done":
            await self.done(queue)
        if MISTAKE == "room_after_later":
            await asyncio.gather(*map(self.ask, self.kept))
            self.kept.clear()


def accepted(offer: asyncio.Future[str]) -> bool:
    return offer.result().startswith("accepted")


def fetch(url: str) -> Tuple[int, List[str]]:
    """The status, and the lines of a page or the target of a redirect."""
    parts = urlsplit(url)
    connection = http.client.HTTPConnection(parts.netloc, timeout=10)
    try:
        connection.request("GET", url[len(f"http://{parts.netloc}"):])
        reply = connection.getresponse()
        if reply.status in (301, 302):
            return reply.status, [reply.getheader("Location") or ""]
        return reply.status, reply.read().decode().split("\n")[:-1] if reply.status == 200 else []
    except (OSError, http.client.HTTPException):
        if MISTAKE == "stop_on_drop":
            raise
        if MISTAKE == "retry":
            return fetch_again(url)
        return 0, []
    finally:
        connection.close()


def fetch_again(url: str) -> Tuple[int, List[str]]:
    try:
        http.client.HTTPConnection(urlsplit(url).netloc).request("GET", urlsplit(url).path)
    except OSError:
        pass
    return 0, []


async def visit(client: Client, queue: int, url: str) -> None:
    """Fetches a page and offers its links. Then its URL is done, or put back."""
    if MISTAKE == "skip_known" and url in client.known:
        return await client.done(queue)
    client.known.add(url)
    if "STATS" in os.environ and MISTAKE != "no_stats":
        await client.print_stats(queue)
    status, lines = await asyncio.to_thread(fetch, url)
    while status == 503 and MISTAKE == "retry_after_503":
        status, lines = await asyncio.to_thread(fetch, url)
    if status == 503 and MISTAKE == "offer_after_503":
        await client.ask(f"offer {url}")
    elif status == 503 and MISTAKE != "done_after_503":
        return await client.later(queue)
    if MISTAKE == "done_first":
        await client.done(queue)
    await links(client, url, status, lines)
    if MISTAKE != "done_first":
        await client.done(queue)


async def links(client: Client, url: str, status: int, lines: List[str]) -> None:
    if status in (301, 302) and MISTAKE == "no_redirect":
        return
    if status in (301, 302) and MISTAKE == "follow":
        url = urljoin(url, lines[0])
        status, lines = await asyncio.to_thread(fetch, url)
    base = url
    answers = []
    for line in lines:
        if line.startswith("base ") and status == 200:
            base = line[5:] if MISTAKE == "raw_base" else line[5:].replace(" ", "%20")
            continue
        text = line.replace("\\n", "\n" if MISTAKE == "raw_lf" else "")
        answers.append(client.ask(f"link {base} {text}"))
        assert client.process.stdin
        if MISTAKE == "send_all":
            os.set_blocking(client.process.stdin.get_extra_info("pipe").fileno(), True)
        else:
            await client.process.stdin.drain()
    if MISTAKE != "done_first":
        await asyncio.gather(*answers)
        return
    await asyncio.sleep(0)


async def work(client: Client, queue: int) -> None:
    url: Optional[str] = None
    if LOG != "-" and MISTAKE != "no_again":
        answer = await client.ask(f"again {queue}")
        url = answer[6:] if answer.startswith("taken ") else None
        if url is not None and MISTAKE == "again_is_done":
            await client.ask(f"done {queue}")
            url = None
    if url is None:
        url = await client.take(queue)
    while url is not None:
        await visit(client, queue, url)
        url = await client.take(queue)


async def opened() -> Client:
    """The client, once the log is not in use."""
    words = [os.environ["MERCATOR"], "serve", f"--workers={WORKERS}"]
    words += [] if LOG == "-" else [f"--log={LOG}"]
    for attempt in range(10**6 if MISTAKE == "patient" else 50):
        process = await asyncio.create_subprocess_exec(
            *words, stdin=asyncio.subprocess.PIPE, stdout=asyncio.subprocess.PIPE,
            stderr=asyncio.subprocess.PIPE if LOG != "-" or MISTAKE == "unread_stderr" else None,
        )
        client = Client(process)
        if LOG == "-":
            return client
        try:
            await client.ask("again 0")
            return client
        except Failure as failure:
            if ": in use" not in str(failure) or MISTAKE == "impatient":
                raise
        await asyncio.sleep(0.1)
    raise Failure("the log is in use")


async def crawl() -> None:
    client = await opened()
    for seed in SEEDS:
        answer = await client.ask(f"offer {seed}")
        if MISTAKE == "seeds_must_be_new" and not answer.startswith("accepted "):
            raise Failure(f"{seed}: {answer}")
    if LOG != "-" or MISTAKE in ("late_waiter", "deaf_to_end"):
        await client.ask("endseeds")
    await asyncio.gather(*(work(client, queue) for queue in range(WORKERS)))
    assert client.process.stdin
    client.process.stdin.close()
    await client.process.wait()


if __name__ == "__main__":
    try:
        asyncio.run(crawl())
    except (Failure, OSError, http.client.HTTPException) as error:
        sys.exit(f"crawl_mistakes: {error!r}")
