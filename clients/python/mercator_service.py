#!/usr/bin/env python3
"""One frontier for crawlers in several processes: `mercator serve` on a socket.

Start the service, and then crawlers that connect to it::

    mercator_service.py --listen unix:crawl.sock --metrics 127.0.0.1:9464 --log crawl.log

A crawler sends requests and reads answers as `docs/SESSION.md` describes. The differences:

- A client, which is one connection, owns each queue for which it has sent `next`, until its
  connection ends. For the others, `next` of this queue is answered `refused nosuch`, and `done`,
  `later` and `again` are answered `refused nothing`.
- When a connection ends, the URLs that it had in progress are put back by `later`, and other
  clients may send `next` for its queues. A last line without an LF is not a request.
- `next` is not answered `pending` while the client sends no other request: the service waits until
  there is a URL, or the crawl is over. So let each fetcher have a connection of its own: then it
  needs no wake-ups. On a connection with several queues, send `next` again a second after
  `pending`, since a URL may have been accepted from another client.
- `endseeds` ends the seeds of all clients. If several clients have seeds, it must be sent after
  all of them were offered.
- In a crawl that resumes, nothing is in progress: what was is put back when the service starts.

`Fetcher` is a client in Python, for one thread::

    with Fetcher("unix:crawl.sock") as frontier:
        while (url := frontier.take(queue)) is not None:
            frontier.links(url, texts_of(fetch(url)))
            frontier.done(queue)

The metrics are at /metrics, in the text format of Prometheus. Those from `stats` are of the whole
crawl, and the others are since the service has started. Each request for them adds a line `stats`
to the log, which a compaction removes.

The service adds no promise to those of the frontier. It is tested, and not proved. It trusts its
clients: each process that can connect can take and finish URLs. Only its own user can connect to a
Unix socket. If the machine of a client disappears, its queues are free again after two minutes. If
that client still runs, it may fetch from a host at the same time as the next owner of the queue.

The module needs Linux, Python 3.9 or later, `mercator_frontier`, and no other package.

Exit status: 0 after SIGTERM or Ctrl-C, 1 error, 2 bad command line.
"""

from __future__ import annotations

import argparse
import asyncio
import os
import re
import select
import signal
import socket
import sys
from collections import Counter, deque
from contextlib import suppress
from typing import (
    Any, Awaitable, Callable, Deque, Dict, List, NamedTuple, Optional, Set, Tuple, Union,
)

from mercator_frontier import Channel, Frontier, FrontierEnded, FrontierError, whole_pieces

__all__ = ["Fetcher"]

READ_SIZE = 65_536
LONGEST = 4_098  # a longer line gets the same answer
SECONDS_TO_END = 10
OF_QUEUE = re.compile(rb"(next|done|later|again) ([0-9]{1,20})\r?")
STATS = re.compile(
    rb"stats accepted (\d+) done (\d+) in-progress (\d+) waiting (\d+) put-back (\d+) seen (\d+)(?: .*)?"
)
# Seconds without a sign of life, seconds between two questions, and how many may be unanswered.
KEEP_ALIVE = ((socket.TCP_KEEPIDLE, 60), (socket.TCP_KEEPINTVL, 15), (socket.TCP_KEEPCNT, 4))

Address = Union[str, Tuple[str, int]]  # the path of a Unix socket, or a host and a port
Handler = Callable[[asyncio.StreamReader, asyncio.StreamWriter], Awaitable[None]]


def address_of(text: str) -> Address:
    """Return the address that a command line names."""
    if text.startswith("unix:") and len(text) > len("unix:"):
        return text[len("unix:"):]
    host, _, port = text.rpartition(":")
    if host and port.isdigit() and int(port) < 65_536:
        return host.strip("[]"), int(port)
    raise argparse.ArgumentTypeError(f"must be unix:PATH or HOST:PORT: {text}")


class Ended(Exception):
    """The program has ended."""


class Client(NamedTuple):
    """A connection."""

    reader: asyncio.StreamReader
    writer: asyncio.StreamWriter


class Service:
    """The program, what it owes to whom, and which client owns which queue."""

    def __init__(self, workers: int) -> None:
        self.workers = workers
        self.unsent: Deque[bytes] = deque()
        self.owed: Deque[Tuple[List[bytes], asyncio.Future[List[bytes]]]] = deque()
        self.owners: Dict[int, Client] = {}
        self.clients: Dict[Client, asyncio.Task[None]] = {}
        # By queue, what a `next` that was answered `pending` waits for.
        self.waiting: Dict[int, asyncio.Future[None]] = {}
        self.counts: Counter[str] = Counter()  # answers, since the start
        self.is_closed = self.has_ended = False

    async def start(self, command: List[str]) -> None:
        """Start the program."""
        requests, self.requests = os.pipe()
        os.set_blocking(self.requests, False)
        self.process = await asyncio.create_subprocess_exec(
            *command, stdin=requests, stdout=asyncio.subprocess.PIPE,
            start_new_session=True, limit=READ_SIZE,
        )
        os.close(requests)
        self.reading = asyncio.ensure_future(self.read_answers())

    async def resume(self) -> None:
        """Put back what was in progress at the end of the log."""
        queues = range(self.workers)
        answers = await self.ask([b"again %d" % queue for queue in queues])
        busy = [queue for queue, answer in zip(queues, answers) if answer.startswith(b"taken ")]
        if busy:
            await self.ask([b"later %d" % queue for queue in busy])

    async def end(self) -> int:
        """End the connections and then the program, and return its exit status."""
        tasks = list(self.clients.values())
        for client in list(self.clients):
            client.writer.transport.abort()
        if tasks:
            await asyncio.wait(tasks, timeout=SECONDS_TO_END)
        if self.owed:
            await asyncio.wait([self.owed[-1][1]], timeout=SECONDS_TO_END)
        asyncio.get_running_loop().remove_writer(self.requests)
        os.close(self.requests)
        try:
            return await asyncio.wait_for(self.process.wait(), SECONDS_TO_END)
        except asyncio.TimeoutError:
            self.process.kill()
            return await self.process.wait()

    # ---- the program

    def ask(self, requests: List[bytes]) -> asyncio.Future[List[bytes]]:
        """Send requests to the program. The result has an answer to each."""
        answers: asyncio.Future[List[bytes]] = asyncio.get_running_loop().create_future()
        if self.has_ended:
            answers.set_exception(Ended())
        elif not requests:
            answers.set_result([])
        else:
            self.owed.append((requests, answers))
            self.unsent += whole_pieces(b"\n".join(requests) + b"\n")
            self.write()
        return answers

    def write(self) -> None:
        """Write requests until the pipe is full, and again when it is not."""
        loop = asyncio.get_running_loop()
        loop.remove_writer(self.requests)
        try:
            while self.unsent:
                os.write(self.requests, self.unsent[0])
                self.unsent.popleft()
        except BlockingIOError:
            loop.add_writer(self.requests, self.write)
        except BrokenPipeError:
            pass  # `read_answers` sees the end of the program

    async def read_answers(self) -> None:
        """Read answers until the program has ended."""
        assert self.process.stdout
        answers: List[bytes] = []
        rest = b""
        while some := await self.process.stdout.read(READ_SIZE):
            *lines, rest = (rest + some).split(b"\n")
            answers += lines
            while self.owed and len(self.owed[0][0]) <= len(answers):
                requests, result = self.owed.popleft()
                mine, answers = answers[:len(requests)], answers[len(requests):]
                for request, answer in zip(requests, mine):
                    self.note(request, answer)
                if not result.done():
                    result.set_result(mine)
        self.has_ended = True
        for _, result in self.owed:
            if not result.done():
                result.set_exception(Ended())
        self.wake(*self.waiting)

    def note(self, request: bytes, answer: bytes) -> None:
        """Count an answer, and wake those for whom it ends a wait, before the next is handled."""
        match = OF_QUEUE.fullmatch(request)
        word, _, rest = answer.partition(b" ")
        if word == b"accepted":
            self.wake(int(rest.split()[0]))
        elif word == b"pending" and match:
            self.waiting[int(match[2])] = asyncio.get_running_loop().create_future()
        elif word == b"closed" or answer == b"count 0":
            self.is_closed = self.is_closed or word == b"closed"
            self.wake(*self.waiting)
        if match and word in (b"taken", b"count"):
            self.counts[match[1].decode()] += 1
        elif request.startswith((b"offer ", b"link ")) and word != b"accepted":
            self.counts["refused " + answer.decode("utf-8", "replace")] += 1

    def wake(self, *queues: int) -> None:
        for queue in queues:
            wait = self.waiting.get(queue)
            if wait and not wait.done():
                wait.set_result(None)

    # ---- the clients

    async def serve(self, reader: asyncio.StreamReader, writer: asyncio.StreamWriter) -> None:
        """Serve a client until its connection ends."""
        client, task = Client(reader, writer), asyncio.current_task()
        assert task
        self.clients[client] = task
        try:
            keep_alive(writer.get_extra_info("socket"))
            await self.converse(client)
        except (Ended, OSError):
            pass  # the program or the connection has ended
        finally:
            del self.clients[client]
            self.release(client)
            writer.close()

    async def converse(self, client: Client) -> None:
        """Answer requests, one read at a time, so that a client that does not read stops itself."""
        rest = b""
        reading = asyncio.ensure_future(client.reader.read(READ_SIZE))
        while some := await reading:
            reading = asyncio.ensure_future(client.reader.read(READ_SIZE))
            *lines, rest = (rest + some).split(b"\n")
            rest = rest[:LONGEST]
            lines = [line[:LONGEST] for line in lines]
            answers = await self.answers(client, lines)
            # The last `next` waits as long as the client sends nothing else.
            while answers and answers[-1].startswith(b"pending ") and not reading.done():
                await send(client.writer, answers[:-1])
                match = OF_QUEUE.fullmatch(lines[-1])
                assert match
                wait = self.waiting[int(match[2])]
                waits: Set[asyncio.Future[Any]] = {wait, reading}
                await asyncio.wait(waits, return_when=asyncio.FIRST_COMPLETED)
                answers = await self.answers(client, lines[-1:]) if wait.done() else answers[-1:]
            await send(client.writer, answers)

    async def answers(self, client: Client, lines: List[bytes]) -> List[bytes]:
        """Return the answers to the requests of a client."""
        mine = [self.refusal_of(client, line) for line in lines]
        others = await self.ask([line for line, one in zip(lines, mine) if one is None])
        rest = iter(others)
        return [next(rest) if one is None else one for one in mine]

    def refusal_of(self, client: Client, line: bytes) -> Optional[bytes]:
        """Return the answer to a request for a queue that is not the client's; None for others.

        A `next` makes a free queue the client's.
        """
        match = OF_QUEUE.fullmatch(line)
        queue = int(match[2]) if match else self.workers
        if not match or queue >= self.workers:
            return None
        if match[1] != b"next":
            return None if self.owners.get(queue) is client else b"refused nothing"
        return None if self.owners.setdefault(queue, client) is client else b"refused nosuch"

    def release(self, client: Client) -> None:
        """Free the queues of a client, and put back what it had in progress."""
        queues = [queue for queue, owner in self.owners.items() if owner is client]
        for queue in queues:
            del self.owners[queue]
        # An error is that the program has ended, which `run` reports.
        self.ask([b"later %d" % queue for queue in queues]).add_done_callback(
            lambda answers: answers.cancelled() or answers.exception()
        )

    # ---- the metrics

    async def serve_metrics(
        self, reader: asyncio.StreamReader, writer: asyncio.StreamWriter
    ) -> None:
        """Answer one HTTP request."""
        with suppress(Ended, OSError, EOFError, asyncio.LimitOverrunError, asyncio.TimeoutError):
            head = await asyncio.wait_for(reader.readuntil(b"\r\n\r\n"), SECONDS_TO_END)
            words = head.split(b"\r\n")[0].split(b" ")
            is_found = words[0] in (b"GET", b"HEAD") and words[1:2] == [b"/metrics"]
            body = (await self.metrics()).encode() if is_found else b"see /metrics\n"
            status = "200 OK" if is_found else "404 Not Found"
            writer.write(
                f"HTTP/1.1 {status}\r\nContent-Type: text/plain; version=0.0.4; charset=utf-8\r\n"
                f"Content-Length: {len(body)}\r\nConnection: close\r\n\r\n".encode()
            )
            writer.write(b"" if words[0] == b"HEAD" else body)
            await writer.drain()
        writer.close()

    async def metrics(self) -> str:
        """Return the text of /metrics. A program without `stats` has fewer lines."""
        figures = [
            ("taken_total", self.counts["next"], "URLs that were given out since the start"),
            ("put_back_total", self.counts["later"], "URLs that were put back since the start"),
            ("clients", len(self.clients), "Connections"),
            ("owned_queues", len(self.owners), "Queues that have an owner"),
            ("queues", self.workers, "Queues"),
            ("closed", int(self.is_closed), "1 if the crawl is over"),
        ]
        stats = STATS.fullmatch((await self.ask([b"stats"]))[0])
        if stats:
            accepted, done, in_progress, waiting, put_back, seen = map(int, stats.groups())
            figures += [
                ("accepted_total", accepted, "URLs that were accepted"),
                ("done_total", done, "URLs that are done"),
                ("in_progress", in_progress, "URLs that are in progress"),
                ("waiting", waiting, "URLs that wait, with those that were put back"),
                ("waiting_put_back", put_back, "URLs that wait and were put back"),
                ("seen_total", seen, "Offers that were answered `seen`"),
            ]
        lines = ["# HELP mercator_refused_total Offers that were refused since the start.",
                 "# TYPE mercator_refused_total counter"]
        for key, count in sorted(self.counts.items()):
            if key.startswith("refused "):
                lines.append(f'mercator_refused_total{{reason="{key[len("refused "):]}"}} {count}')
        for name, value, text in figures:
            kind = "counter" if name.endswith("_total") else "gauge"
            lines += [f"# HELP mercator_{name} {text}.", f"# TYPE mercator_{name} {kind}",
                      f"mercator_{name} {value}"]
        return "\n".join(lines) + "\n"


async def send(writer: asyncio.StreamWriter, answers: List[bytes]) -> None:
    if answers:
        writer.write(b"\n".join(answers) + b"\n")
        await writer.drain()


def keep_alive(connection: socket.socket) -> None:
    """Have the kernel end a connection whose other end has disappeared."""
    if connection.family != socket.AF_UNIX:
        connection.setsockopt(socket.SOL_SOCKET, socket.SO_KEEPALIVE, 1)
        for option, value in KEEP_ALIVE:
            connection.setsockopt(socket.IPPROTO_TCP, option, value)


# ---- a client


class Fetcher(Frontier):
    """A client of the service, for one thread. It has the methods of `Frontier`.

    A queue that another client owns is reported like one that does not exist.
    """

    def __init__(self, address: str) -> None:
        """Connect to a service: its address is `unix:PATH` or `HOST:PORT`."""
        self._use(_Connection(address_of(address)), 512)


class _Connection(Channel):
    """A connection to the service in place of a process."""

    def __init__(self, address: Address) -> None:
        try:
            if isinstance(address, str):
                self._socket = socket.socket(socket.AF_UNIX)
                self._socket.connect(address)
            else:
                self._socket = socket.create_connection(address)
        except OSError as error:
            raise FrontierError(f"cannot connect to the service: {error}") from error
        self._answers = self._socket.fileno()
        self._received: List[bytes] = []
        self._owed = 0
        self._end: Optional[FrontierEnded] = None

    def leave(self) -> None:
        self._ended("a frontier cannot be used in a forked process")

    def _send(self, piece: bytes) -> None:
        while piece:
            try:
                piece = piece[self._socket.send(piece, socket.MSG_DONTWAIT):]
            except BlockingIOError:
                poll = select.poll()
                poll.register(self._socket, select.POLLIN | select.POLLOUT)
                if poll.poll()[0][1] & ~select.POLLOUT:
                    self._receive()

    def _kill(self) -> None:
        pass  # `_ended` closes the connection

    def _ended(self, why: str = "") -> FrontierEnded:
        self._end = FrontierEnded(why or "the service has ended the connection")
        self._socket.close()
        return self._end


# ---- the command line


async def listen(address: Address, handler: Handler) -> asyncio.AbstractServer:
    """Listen on an address. A Unix socket is created for its user only."""
    if not isinstance(address, str):
        return await asyncio.start_server(handler, *address)
    try:
        with socket.socket(socket.AF_UNIX) as other:
            other.connect(address)
    except OSError:
        pass  # no program listens, so the file may be replaced if it is a socket
    else:
        raise FileExistsError(f"another program listens on {address}")
    before = os.umask(0o177)
    try:
        return await asyncio.start_unix_server(handler, address)
    finally:
        os.umask(before)


def name_of(address: Address, server: asyncio.AbstractServer) -> str:
    if isinstance(address, str):
        return f"unix:{address}"
    assert isinstance(server, asyncio.base_events.Server)
    host, port = server.sockets[0].getsockname()[:2]
    return f"[{host}]:{port}" if ":" in host else f"{host}:{port}"


async def run(options: argparse.Namespace) -> int:
    command = [options.program or os.environ.get("MERCATOR") or "mercator", "serve"]
    command += [f"--workers={options.workers}", f"--log={options.log}", "--wait=10"]
    command += [] if options.max_pending is None else [f"--max-pending={options.max_pending}"]
    command += [] if options.within is None else [f"--within={options.within}"]
    command += ["--sync"] if options.sync else []
    stop = asyncio.Event()
    for number in (signal.SIGINT, signal.SIGTERM):
        asyncio.get_running_loop().add_signal_handler(number, stop.set)
    service = Service(options.workers)
    servers: Dict[Address, asyncio.AbstractServer] = {}
    await service.start(command)
    try:
        await service.resume()
        for address in options.listen:
            servers[address] = await listen(address, service.serve)
            print(f"listening on {name_of(address, servers[address])}", flush=True)
        for address in options.metrics:
            servers[address] = await listen(address, service.serve_metrics)
            print(f"metrics on {name_of(address, servers[address])}", flush=True)
        stopping = asyncio.ensure_future(stop.wait())
        await asyncio.wait({stopping, service.reading}, return_when=asyncio.FIRST_COMPLETED)
    except Ended:
        pass
    finally:
        for address, server in servers.items():
            server.close()
            if isinstance(address, str):
                with suppress(FileNotFoundError):
                    os.unlink(address)
        had_ended = service.has_ended
        status = await service.end()
    if had_ended or status:
        print(f"mercator_service: the program ended with status {status}", file=sys.stderr)
        return 1
    return 0


def main() -> int:
    parser = argparse.ArgumentParser(
        description=__doc__, formatter_class=argparse.RawDescriptionHelpFormatter
    )
    option = parser.add_argument
    option("--listen", required=True, action="append", type=address_of, metavar="ADDRESS",
           help="unix:PATH or HOST:PORT to serve clients on; repeatable")
    option("--metrics", default=[], action="append", type=address_of, metavar="ADDRESS",
           help="unix:PATH or HOST:PORT to serve /metrics on; repeatable")
    option("--log", required=True, metavar="FILE",
           help="log file; run again with it to resume")
    option("--workers", type=int, default=4, metavar="N",
           help="number of queues, 1 to 512 (default: 4)")
    option("--max-pending", type=int, metavar="M",
           help="most URLs waiting or in progress at a time (default: 1048576)")
    option("--within", metavar="SUFFIX",
           help="accept only hosts equal to SUFFIX or subdomains of it")
    option("--sync", action="store_true",
           help="sync the log to disk before each answer")
    option("--program", metavar="FILE",
           help="path of mercator (default: $MERCATOR if it is set, else `mercator`)")
    options = parser.parse_args()
    try:
        return asyncio.run(run(options))
    except (OSError, FrontierError) as error:
        print(f"mercator_service: {error}", file=sys.stderr)
        return 1


if __name__ == "__main__":
    sys.exit(main())
