"""Share one crawl between several machines: K frontiers that exchange URLs over Redis.

Each of the K *parts* is a process that runs `mercator serve --part I/K` and this client, on the
same machine as the others or on another one::

    crawl = Crawl(parts=2, workers=16)       # the same for all parts
    start = lambda: Part(crawl, 0, "part0.log", seeds=["http://example.org/"])
    run(start, fetch)                        # fetch(queue, url) returns a base URL and link texts

Each part has N queues, and all URLs of a host are in one queue of one part. So each URL is fetched
by one part, and no two fetchers visit a host at the same time, whatever their parts. If a page has
a link that belongs to another part, the client sends the URL to that part through Redis.

Failures
--------
- If a part is killed, start it again with the same arguments. It resumes from its log, and first
  fetches the URLs that were in progress.
- If a part loses the connection to Redis, `run` closes it and starts it again from its log.
- If Redis loses the keys of the crawl, every part has to start again: each then sends the URLs that
  it had found for other parts once more, from its log. Redis loses them by FLUSHALL or FLUSHDB, or
  by a restart without its data. Any restart counts, since the last entries may be lost. `run`
  notices this, logs a warning, and starts a part again that is running. A part that had finished
  has to be started by hand. Until all have started again, the other parts wait, so none takes an
  unfinished crawl for complete. They log a warning with the parts for which they wait.
- If somebody deletes a single stream of the crawl, this is not noticed, and its URLs are lost.
- A killed process loses nothing. A crash of the machine loses what was not yet on its disk, so by
  default (`sync`) the log is synced to disk before an entry is removed from Redis.
- A crawl cannot resume if one of its logs is lost, or with other numbers of parts or queues.

Redis must have `maxmemory-policy noeviction`, because an evicted stream looks like an empty one,
and should have `appendonly yes`.

Protocol
--------
Redis holds a stream for each part, with the URLs that other parts found for it.

- A page becomes done only after its links to other parts are in the streams of these parts.
- An entry is removed from its stream only after its URLs are in the part's log and the same holds
  for every entry before it. The last entry stays until every URL that the part accepted is done.
- So the crawl is complete if, at one moment, all parts are ready and all streams are empty.

There is no state but the streams, the logs and the keys below. Each command to Redis states
something that stays true, so it does no harm if it arrives late, twice or never.

The keys of the crawl NAME, which are all on one node of a Redis cluster:

    {NAME}:to:I       the stream of part I. An entry has the field `u`, with one line per URL. The
                      line is the URL; or the base, a space and the text of a link, if part I had no
                      room for the URL or if the URL is too long for a request
    {NAME}:epoch      a random text, set by the first part that finds none. If it is another one,
                      Redis has lost all keys in between
    {NAME}:ready:RUN:EPOCH
                      the parts that have sent their seeds, and the URLs for other parts in their
                      logs, to the Redis with the run_id RUN in this epoch
    {NAME}:complete   set when the crawl is complete; never deleted
    {NAME}:shape      the numbers of parts and queues, and the suffix
    {NAME}:logs       the identity of each part's log

The frontier is proved, this protocol is not: `tests/cluster_model.py` tries all its interleavings
on small webs, and `tests/cluster.sh` runs it with failures. The module needs Linux, Python 3.9 or
later, and the package `redis` (Debian: python3-redis).
"""

from __future__ import annotations

import contextlib
import logging
import math
import os
import secrets
import threading
import time
from collections import deque
from dataclasses import dataclass
from itertools import islice
from queue import Empty, SimpleQueue
from typing import (
    Any, Callable, Deque, Dict, Iterable, Iterator, List, NamedTuple, Optional, Set, Tuple, TypeVar,
    Union,
)

import redis
from mercator_frontier import (
    Channel, FrontierError, NothingTaken, UnknownAnswer, link_word, request_lines,
)

__all__ = [
    "ClusterError", "Counts", "Crawl", "Cut", "Fetched", "KeysLost", "OtherCrawl", "Part", "Taken",
    "UnsafeRedis", "run",
]

logger = logging.getLogger(__name__)

# The maximum number of URLs in an entry. With one URL per entry, the cost would be three times as
# high for the clients, and eight times as high for Redis.
_ENTRY = 500

# The number of entries that are read at a time. None are read while _WAITING of their URLs, or
# more, are still to be offered.
_READ = 100
_WAITING = 50_000

# The client remembers at least the last _RECENT URLs that it sent, and at most twice as many, so as
# not to send them again.
_RECENT = 100_000

# The number of requests of a log that are run at a time, to find the URLs for other parts.
_SLICE = 1_000

# The maximum length of a request in bytes, and of a URL in an `offer` request.
_LONGEST = 4_096
_LONGEST_URL = _LONGEST - len("offer ")

# The seconds that an idle part waits for an entry before it looks again.
_IDLE = 1.0

# The seconds between two rounds if no fetch ends in between.
_BUSY = 0.05

# The seconds that Redis may take for a reply. After that, the connection counts as lost.
_PATIENCE = 60.0

# The seconds between two attempts to connect to Redis, or to send to a Redis without free memory;
# and the seconds after which a part stops trying to connect.
_PAUSE = 0.2
_GONE = 600.0

# The seconds that a part with nothing to do waits for others before it logs which.
_SILENT = 10.0

# The default of `max_pending`, which is that of the program.
_MOST = 1_048_576

# The answers to an offer that need no action.
_NO_MATTER = frozenset((
    b"seen", b"filtered", b"not a URL", b"not http or https", b"line too long", b"not UTF-8",
))

Thing = TypeVar("Thing")
PathText = Union[str, "os.PathLike[str]"]
Fetch = Callable[[int, str], Tuple[str, List[str]]]


class ClusterError(FrontierError):
    """The base class of the exceptions of this module."""


class Cut(ClusterError):
    """Raised when the connection to Redis is lost. Start the part again from its log."""


class KeysLost(Cut):
    """Raised when Redis has lost the keys of the crawl. Start the part again from its log."""


class OtherCrawl(ClusterError):
    """Raised when Redis has a crawl of the same name with other numbers, suffix or logs."""


class UnsafeRedis(ClusterError):
    """Raised when Redis may evict a stream, which would then look empty."""


class Crawl(NamedTuple):
    """The settings that all parts of a crawl have in common."""

    parts: int  # K, the number of frontiers that share the crawl
    workers: int = 16  # N, the number of queues of each part, at most 512; all parts together have at most 2^20
    within: Optional[str] = None  # accept only hosts equal to this suffix or subdomains of it
    name: str = "crawl"  # the prefix of the keys of this crawl in Redis
    redis: str = "redis://127.0.0.1:6379/0"  # URL of Redis: redis://, rediss:// or unix://

    def shape(self) -> bytes:
        """Return the settings that Redis keeps, so that no part joins with others."""
        return f"parts {self.parts} workers {self.workers} within {self.within or '-'}".encode()


class Taken(NamedTuple):
    """A URL to fetch, and its queue."""

    queue: int
    url: str


class Fetched(NamedTuple):
    """A URL that was fetched or could not be fetched, with its links."""

    queue: int  # the queue that the URL was taken from
    base: str  # the URL that the links are resolved against
    texts: List[str]  # the texts of the links; empty if the URL could not be fetched


@dataclass
class Counts:
    """What a part did since it was started."""

    pages: int = 0  # URLs that are done
    sent: int = 0  # URLs sent to other parts
    entries: int = 0  # entries in which they were sent


# ---- the frontier


class _ServedPart:
    """The frontier of a part: `mercator serve --part`, over pipes."""

    def __init__(
        self, crawl: Crawl, part: int, log: PathText, max_pending: Optional[int],
        program: Optional[PathText],
    ) -> None:
        """Start the program from its log, once no other program uses the log."""
        self._log = log
        self._command = [os.fspath(program or os.environ.get("MERCATOR") or "mercator"), "serve"]
        # Each option and its value are one argument, since a value may look like an option.
        self._command += [f"--part={part}/{crawl.parts}", f"--workers={crawl.workers}"]
        self._command += [] if crawl.within is None else [f"--within={crawl.within}"]
        self._command += [] if max_pending is None else [f"--max-pending={max_pending}"]
        self._channel = Channel([*self._command, f"--log={os.fsdecode(log)}", "--wait=10"])

    def ask(self, requests: bytes, count: int) -> List[bytes]:
        """Send `count` request lines and return their answers. Each line is in the log before."""
        return self._channel.exchange(requests, count)

    def identity(self) -> bytes:
        """Return the identity of the log, which no other log has."""
        word, _, identity = self.ask(b"identity\n", 1)[0].partition(b" ")
        if word != b"identity":
            raise UnknownAnswer("the program does not know the request `identity`")
        return identity

    def requests_of_log(self) -> Iterator[bytes]:
        """Yield all requests of the log, as lines. Checksum lines begin with `#`."""
        with open(self._log, "rb") as log:
            log.readline()
            yield from (line for line in log if not line.startswith(b"#"))

    @contextlib.contextmanager
    def without_log(self) -> Iterator[Channel]:
        """Start an empty frontier with the options of this one, and without a log."""
        channel = Channel(self._command)
        try:
            yield channel
        finally:
            channel.close()

    def close(self) -> None:
        self._channel.close()


class _Owner:
    """A page or an entry that has to wait until some URLs are sent."""

    __slots__ = ("owes",)

    def __init__(self) -> None:
        self.owes = 0  # the number of URLs that are still to be sent


class _Page(_Owner):
    """A URL in progress."""

    __slots__ = ("is_fetched",)

    def __init__(self) -> None:
        super().__init__()
        self.is_fetched = False  # whether it was fetched and its links were offered


class _Entry(_Owner):
    """An entry of the part's own stream."""

    __slots__ = ("number", "text")

    def __init__(self, number: bytes, text: bytes) -> None:
        super().__init__()
        self.number, self.text = number, text  # `text` has the lines that are still to be offered

    def size(self) -> int:
        """Return the number of lines that are still to be offered."""
        return self.text.count(b"\n") + 1 if self.text else 0


class _Offers(NamedTuple):
    """Offer requests for one owner, one per line."""

    owner: _Owner
    requests: bytes
    size: int  # the number of lines

    def lines(self) -> List[bytes]:
        """Return the requests as lines of an entry: without `offer` or `link`."""
        return [line.partition(b" ")[2] for line in self.requests.split(b"\n")[:-1]]


# ---- streams


class _Broker:
    """The crawl's data in Redis, over one connection."""

    def __init__(self, crawl: Crawl, part: int) -> None:
        self._redis = _connected(crawl.redis)
        self._part = part
        self._name = f"{{{crawl.name}}}:"
        self.streams = [f"{self._name}to:{to}" for to in range(crawl.parts)]
        self.mine = self.streams[part]
        self.missing: List[int] = []  # the parts that were not ready at the last `is_complete`
        self._complete, self._epoch = self._name + "complete", self._name + "epoch"
        _, self._its_epoch = self._at_once(
            ("SETNX", self._epoch, secrets.token_hex(16)), ("GET", self._epoch)
        )
        # A Redis has a new run_id after each restart. Without the epoch, a part could become ready
        # although FLUSHALL had deleted what it sent before.
        run_id = self._redis.info("server")["run_id"]
        self._ready = f"{self._name}ready:{run_id}:{self._its_epoch.decode()}"

    def pipeline(self) -> Any:
        """Return a pipeline: its commands are sent together, and executed one by one."""
        return self._redis.pipeline(transaction=False)

    def ask_epoch(self, pipe: Any) -> None:
        """Add a command to the pipeline whose reply `check_epoch` takes."""
        pipe.execute_command("GET", self._epoch)

    def check_epoch(self, reply: Optional[bytes]) -> None:
        """Raise `KeysLost` if Redis has lost the keys of the crawl since the part was started."""
        if reply != self._its_epoch:
            raise KeysLost(
                f"Redis has lost the keys of this crawl, for example by FLUSHALL: part {self._part}"
                " starts again from its log. Start any part again that has ended"
            )

    def join(self, crawl: Crawl, log: bytes) -> bool:
        """Return whether the part is ready.

        Raise `OtherCrawl` if Redis knows this crawl with other settings, or this part with another
        log.
        """
        part, shape, logs = self._part, self._name + "shape", self._name + "logs"
        _, its_shape, _, its_log, is_ready = self._at_once(
            ("SETNX", shape, crawl.shape()), ("GET", shape),
            ("HSETNX", logs, part, log), ("HGET", logs, part), ("SISMEMBER", self._ready, part),
        )
        if its_shape != crawl.shape():
            raise OtherCrawl(
                f"crawl {crawl.name} in Redis has {its_shape.decode()}, but this part has"
                f" {crawl.shape().decode()}: give all parts the same arguments, or use another name"
            )
        if its_log != log:
            raise OtherCrawl(
                f"part {part} of crawl {crawl.name} has another log:"
                " use that log, or another name for a new crawl"
            )
        return bool(is_ready)

    def make_ready(self) -> None:
        """Record that the part is ready; its stream is not empty until it has read this entry."""
        self._at_once(("XADD", self.mine, "*", "u", b""), ("SADD", self._ready, self._part))

    def is_complete(self, removed: List[bytes]) -> bool:
        """Remove these entries from the own stream, and return whether the crawl is complete.

        Both happen in one transaction. If the crawl is complete, this is recorded for all parts.
        Raise `KeysLost` if Redis has lost the keys of the crawl.
        """
        replies = self._at_once(
            *([("XDEL", self.mine, *removed)] if removed else []),
            *(("XLEN", stream) for stream in self.streams),
            ("SMEMBERS", self._ready), ("EXISTS", self._complete), ("GET", self._epoch),
        )
        *lengths, ready, is_recorded, epoch = replies[1:] if removed else replies
        self.check_epoch(epoch)
        self.missing = sorted(set(range(len(lengths))) - set(map(int, ready)))
        is_seen = not self.missing and not any(lengths)
        if is_seen and not is_recorded:
            self.record_complete()
        return bool(is_seen or is_recorded)

    def record_complete(self) -> None:
        """Record that the crawl is complete, and wake each part with an empty entry."""
        wake = (("XADD", stream, "*", "u", b"") for stream in self.streams)
        self._at_once(("SET", self._complete, "1"), *wake)

    def _at_once(self, *commands: Tuple[Any, ...]) -> List[Any]:
        """Execute the commands in one transaction. Try again while Redis is out of memory."""
        while True:
            pipe = self._redis.pipeline(transaction=True)
            for command in commands:
                pipe.execute_command(*command)
            try:
                return list(pipe.execute())
            except redis.ResponseError as error:
                if not _is_out_of_memory(error):
                    raise
            time.sleep(_PAUSE)


class _Outbox:
    """Lines that are to be sent to other parts, each with the owners that wait for it."""

    def __init__(self, mine: int) -> None:
        self._mine = mine
        self._lines: Dict[int, Dict[bytes, List[_Owner]]] = {}  # by part
        self._sendings: List[Tuple[int, Dict[bytes, List[_Owner]]]] = []  # sent, without a reply
        # URLs that were sent recently: a link that many pages have is sent once.
        self._young: Set[bytes] = set()
        self._old: Set[bytes] = set()

    def __bool__(self) -> bool:
        return bool(self._lines)

    def put(self, to: int, line: bytes, owner: _Owner) -> None:
        """Add a line for the part `to`, unless it was sent recently."""
        if line not in self._young and line not in self._old:
            owner.owes += 1
            self._lines.setdefault(to, {}).setdefault(line, []).append(owner)

    def send(self, pipe: Any, streams: List[str]) -> None:
        """Add XADD commands for all lines to the pipeline."""
        for to, lines in self._lines.items():
            for some in _slices(lines.items(), _ENTRY):
                self._sendings.append((to, dict(some)))
                text = b"\n".join(line for line, _ in some)
                pipe.execute_command("XADD", streams[to], "*", "u", text)
        self._lines = {}

    def receive(self, replies: List[Any], counts: Counts) -> None:
        """Read the replies to `send`. Lines that Redis had no memory for are to be sent again."""
        for (to, lines), reply in zip(self._sendings, replies):
            if _is_out_of_memory(reply):
                self._lines.setdefault(to, {}).update(lines)
                continue
            counts.entries += 1
            counts.sent += len(lines)
            for owners in lines.values():
                for owner in owners:
                    owner.owes -= 1
            if to != self._mine:
                self._remember(lines)
        self._sendings = []
        if self._lines:
            time.sleep(_PAUSE)

    def _remember(self, lines: Iterable[bytes]) -> None:
        if len(self._young) >= _RECENT:
            self._old, self._young = self._young, set()
        self._young.update(lines)


class _Inbox:
    """The entries of the part's own stream that were read and not yet removed."""

    def __init__(self) -> None:
        self.waiting = 0  # the number of lines that are still to be offered
        self._cursor: Union[str, bytes] = "0-0"
        self._entries: Deque[_Entry] = deque()
        self._kept: Optional[bytes] = None  # the last finished entry
        self._removable: List[bytes] = []  # the finished entries before it

    def __bool__(self) -> bool:
        return bool(self._entries)

    def ask(self, pipe: Any, stream: str, seconds: float) -> bool:
        """Add commands that remove finished entries and, if there is room, read new ones.

        Return whether new entries are read.
        """
        if self._removable:
            pipe.execute_command("XDEL", stream, *self._removable)
            self._removable = []
        has_room = self.waiting < _WAITING
        if has_room:
            block = int(seconds * 1000) or None
            pipe.xread({stream: self._cursor}, count=_READ, block=block)
        return has_room

    def read(self, streams: Any) -> None:
        """Add the entries of a reply to XREAD."""
        for _, entries in streams or ():
            for number, fields in entries:
                self._cursor = number
                entry = _Entry(number, fields[b"u"])
                self._entries.append(entry)
                self.waiting += entry.size()

    def first(self, room: Optional[int]) -> List[_Entry]:
        """Return the first entries with lines to offer, until they have at least `room` lines.

        If `room` is None, return all of them.
        """
        some: List[_Entry] = []
        room = self.waiting if room is None else room
        for entry in self._entries:
            if room <= 0:
                break
            if entry.text:
                some.append(entry)
                room -= entry.size()
        return some

    def leave(self, entry: _Entry, lines: List[bytes]) -> None:
        """Record that an entry was offered, except for these lines."""
        self.waiting -= entry.size() - len(lines)
        entry.text = b"\n".join(lines)

    def retire(self) -> None:
        """Finish entries, in their order, whose URLs were all offered, or sent to other parts."""
        while self._entries and not self._entries[0].text and not self._entries[0].owes:
            if self._kept is not None:
                self._removable.append(self._kept)
            self._kept = self._entries.popleft().number

    def empty(self) -> List[bytes]:
        """Return all finished entries for removal, also the last one.

        It is for a part that has nothing left to do.
        """
        removable = self._removable + ([] if self._kept is None else [self._kept])
        self._removable, self._kept = [], None
        return removable


# ---- a part


class Part:
    """One part of a crawl. Only one thread may use it.

    Crawlers whose `fetch` blocks need only `run`. Others call `round` in a loop::

        fetched = []
        while (taken := part.round(fetched)) is not None:
            fetched = [Fetched(queue, *fetch(url)) for queue, url in taken]

    A part is usable as long as its connection to Redis. After an exception, close it and create a
    new one, which resumes from the log.
    """

    def __init__(
        self,
        crawl: Crawl,
        part: int,
        log: PathText,
        seeds: Iterable[str] = (),
        *,
        max_pending: Optional[int] = None,
        sync: bool = True,
        program: Optional[PathText] = None,
    ) -> None:
        """Connect to Redis, start the frontier from its log, and send the seeds.

        crawl        settings that all parts have in common
        part         number of this part, from 0
        log          log file of this part's frontier; if it exists, the part resumes from it
        seeds        URLs to start from, of any parts. Give the same ones each time, since Redis may
                     lose them. Seeds that no part accepts are logged as warnings by `logging`
        max_pending  most URLs of this part that are waiting or in progress at a time, 2 to
                     1099511627776 (by default 1048576)
        sync         sync the log to disk before an entry is removed from Redis
        program      path of the program; by default the value of the environment variable MERCATOR,
                     or else `mercator`

        Raise `Cut` if there is no connection to Redis, `UnsafeRedis` if Redis may evict streams,
        `OtherCrawl` if Redis has this crawl with other settings or another log, `ProgramMissing` if
        the program cannot be started, and `LogInUse` if another program uses the log.
        """
        if max_pending is not None and max_pending < 2:
            raise ValueError("max_pending must be at least 2: the seeds count as one URL")
        self.counts = Counts()
        self._part, self._sync = part, b"sync\n" if sync else b""
        self._queues = range(part * crawl.workers, (part + 1) * crawl.workers)
        self._inbox, self._outbox = _Inbox(), _Outbox(part)
        self._pages: Dict[int, _Page] = {}  # by queue
        self._again: List[Taken] = []
        self._some: Set[int] = set(self._queues)  # queues with no page in progress and maybe a URL
        self._most = _MOST if max_pending is None else max_pending
        self._room: Optional[int] = None  # for how many URLs there is room, once one was refused
        self._is_closed = False
        self._silent_since: Optional[float] = None  # when the part began to wait for others
        with _cuts_are_raised():
            self._broker = _Broker(crawl, part)
        self._frontier = _ServedPart(crawl, part, log, max_pending, program)
        try:
            with _cuts_are_raised():
                self._begin(crawl, seeds)
        except BaseException:
            self.close()
            raise

    # ---- the methods that a crawler calls

    @property
    def workers(self) -> int:
        """The number of queues of this part, and so of fetches at a time."""
        return len(self._queues)

    @property
    def in_hand(self) -> int:
        """The number of URLs that were taken and are not done."""
        return len(self._pages)

    def round(self, fetched: Iterable[Fetched] = ()) -> Optional[List[Taken]]:
        """Report fetched pages, and return URLs to fetch next, or None if the crawl is complete.

        The list may be empty. A call is usually one round trip to Redis. If this part has no URL in
        progress and nothing else to do, the call waits for new URLs, at most a second.

        Raise `Cut` if the connection to Redis is lost, `KeysLost` if Redis has lost the keys of the
        crawl, `NothingTaken` if a page's queue has no URL in progress, and `FrontierEnded` if the
        program has ended.
        """
        with _cuts_are_raised():
            taken, self._again = self._again, []
            self._offer_all(fetched)
            self._exchange()
            taken += self._take()
            if not self._is_quiet():
                self._silent_since = None
            elif self._broker.is_complete(self._inbox.empty()):
                self._end()
                return None
            else:
                self._report_missing()
            return taken

    def close(self) -> None:
        """End the frontier. A new part with the same log resumes from it."""
        self._frontier.close()

    def __enter__(self) -> Part:
        return self

    def __exit__(self, *_: object) -> None:
        self.close()

    # ---- the start

    def _begin(self, crawl: Crawl, seeds: Iterable[str]) -> None:
        is_ready = self._broker.join(crawl, self._frontier.identity())
        self._take_again()
        answer = self._next_of_first()
        if answer.startswith(b"taken "):
            self._again.append(self._taken(self._queues[0], answer))
        self._is_closed = answer == b"closed"
        if self._is_closed:
            self._broker.record_complete()  # the log has `endseeds`
        elif not is_ready:
            self._announce(seeds)

    def _take_again(self) -> None:
        """Take the URLs again that were in progress when the log ended."""
        requests = b"".join(b"again %d\n" % queue for queue in self._queues)
        for queue, answer in zip(self._queues, self._frontier.ask(requests, len(self._queues))):
            if answer.startswith(b"taken "):
                self._again.append(self._taken(queue, answer))

    def _announce(self, seeds: Iterable[str]) -> None:
        """Send the seeds, and URLs in the log that only Redis had; then the part is ready.

        These are the URLs for other parts, and those that the frontier had no room for, which were
        in the part's own stream.
        """
        nobody = _Owner()
        with self._frontier.without_log() as frontier:
            for requests in _slices(self._frontier.requests_of_log(), _SLICE):
                offers = _Offers(nobody, b"".join(requests), len(requests))
                lines = offers.lines()
                answers = frontier.exchange(offers.requests, offers.size)
                for index, answer in enumerate(answers):
                    if answer.startswith(b"elsewhere "):
                        self._put(answer, offers, index)
                    elif answer == b"refused full":
                        self._outbox.put(self._part, lines[index], nobody)
                self._send_all()
            for some in _slices(seeds, _SLICE):
                self._put_seeds(some, frontier)
                self._send_all()
        self._broker.make_ready()

    def _put_seeds(self, seeds: List[str], frontier: Channel) -> None:
        """Put the seeds into the outbox, and log a warning for each that no part accepts."""
        nobody = _Owner()
        lines = list(map(_line_of_seed, seeds))
        requests = b"".join([b"offer " + line + b"\n" for line in lines])
        for seed, line, answer in zip(seeds, lines, frontier.exchange(requests, len(lines))):
            if answer in _NO_MATTER and answer != b"seen":
                logger.warning("seed %s: %s", seed, answer.decode())
            else:
                self._outbox.put(self._part, line, nobody)

    def _send_all(self) -> None:
        while self._outbox:
            pipe = self._broker.pipeline()
            self._outbox.send(pipe, self._broker.streams)
            self._outbox.receive(_replies_to(pipe), self.counts)

    # ---- the steps of a round

    def _offer_all(self, fetched: Iterable[Fetched]) -> None:
        """Offer the links of pages, and the lines of entries as far as there is room."""
        links = [offers for page in fetched for offers in self._links_of(page)]
        entries = self._inbox.first(self._room)
        came = [_Offers(entry, _offers_of(entry.text), entry.size()) for entry in entries]
        refused = self._offer(links + came, self._sync if came else b"")
        for offers, lines in zip(links, refused):
            # Links that the part's frontier has no room for go to the part's own stream.
            for line in lines:
                self._outbox.put(self._part, line, offers.owner)
        for entry, lines in zip(entries, refused[len(links):]):
            self._inbox.leave(entry, lines)
        self._inbox.retire()

    def _links_of(self, page: Fetched) -> List[_Offers]:
        owner = self._pages.get(page.queue)
        if owner is None:
            raise NothingTaken(f"queue {page.queue} has no URL in progress")
        owner.is_fetched = True
        word = link_word(page.base)
        # With a base of this length, each link would be answered "line too long".
        if not page.texts or len(word) > _LONGEST:
            return []
        return [_Offers(owner, request_lines(word, page.texts), len(page.texts))]

    def _offer(self, todo: List[_Offers], sync: bytes) -> List[List[bytes]]:
        """Send the offers and handle the answers; return the lines that were refused, by owner."""
        if not todo:
            return []
        size = sum(offers.size for offers in todo)
        requests = b"".join(offers.requests for offers in todo) + sync
        answers = self._frontier.ask(requests, size + bool(sync))
        if sync and answers.pop() != b"synced":
            raise UnknownAnswer("the program does not know the request `sync`")
        begin, refused = 0, []
        for offers in todo:
            end = begin + offers.size
            refused.append(self._sort(offers, answers[begin:end]))
            begin = end
        return refused

    def _sort(self, offers: _Offers, answers: List[bytes]) -> List[bytes]:
        """Handle the answers to one owner's offers; return the lines that there was no room for."""
        refused: List[int] = []
        for index, answer in enumerate(answers):
            if answer == b"seen":
                continue
            if answer.startswith(b"accepted "):
                queue = int(answer[9:answer.index(b" ", 9)])
                if queue not in self._pages:
                    self._some.add(queue)
            elif answer.startswith(b"elsewhere "):
                self._put(answer, offers, index)
            elif answer == b"refused full":
                refused.append(index)
            elif answer not in _NO_MATTER and not (answer == b"refused closed" and self._is_closed):
                text = answer.decode("utf-8", "replace")
                raise UnknownAnswer(f"unknown answer from the program: {text}")
        if not refused:
            return []
        self._room = 0
        lines = offers.lines()
        return [lines[index] for index in refused]

    def _put(self, answer: bytes, offers: _Offers, index: int) -> None:
        """Put a URL of another part into the outbox."""
        _, to, url = answer.split(b" ", 2)
        line = url if len(url) <= _LONGEST_URL else offers.lines()[index]
        self._outbox.put(int(to), line, offers.owner)

    def _exchange(self) -> None:
        """Send URLs (XADD), remove entries (XDEL) and read new ones (XREAD) in one round trip."""
        is_idle = not (self._pages or self._some or self._inbox or self._outbox)
        pipe = self._broker.pipeline()
        self._outbox.send(pipe, self._broker.streams)
        is_read = self._inbox.ask(pipe, self._broker.mine, _IDLE if is_idle else 0)
        self._broker.ask_epoch(pipe)
        replies = _replies_to(pipe)
        self._broker.check_epoch(replies.pop())
        self._outbox.receive(replies, self.counts)
        if is_read:
            self._inbox.read(replies[-1])
        self._inbox.retire()

    def _take(self) -> List[Taken]:
        """Finish the pages whose links were sent; take URLs from all queues that may have one."""
        over = [queue for queue, page in self._pages.items() if page.is_fetched and not page.owes]
        for queue in over:
            del self._pages[queue]
        self._some.update(over)
        queues = list(self._some)
        if not queues:
            return []
        requests = b"".join([b"done %d\n" % queue for queue in over])
        requests += b"".join([b"next %d\n" % queue for queue in queues])
        answers = self._frontier.ask(requests, len(over) + len(queues))
        self._count_done(answers[:len(over)])
        self._some = set()
        return [
            self._taken(queue, answer) for queue, answer in zip(queues, answers[len(over):])
            if answer.startswith(b"taken ")
        ]

    def _count_done(self, answers: List[bytes]) -> None:
        self.counts.pages += len(answers)
        for answer in answers:
            if not answer.startswith(b"count "):
                raise UnknownAnswer(f"unknown answer to `done` from the program: {answer.decode()}")
        if answers and self._room is not None:
            self._room = max(1, self._most - int(answers[-1][6:]))

    def _taken(self, queue: int, answer: bytes) -> Taken:
        self._pages[queue] = _Page()
        self._some.discard(queue)
        return Taken(queue, answer[6:].decode())

    def _next_of_first(self) -> bytes:
        return self._frontier.ask(b"next %d\n" % self._queues[0], 1)[0]

    # ---- the end

    def _is_quiet(self) -> bool:
        """Return whether nothing is in progress, waiting or to be sent: only the seeds are left."""
        if self._pages or self._some or self._inbox or self._outbox:
            return False
        return self._next_of_first() in (b"pending 1", b"closed")

    def _report_missing(self) -> None:
        """Log a warning, once, if this part has waited some time for parts that are not ready."""
        now = time.monotonic()
        if not self._broker.missing:
            self._silent_since = None
        elif self._silent_since is None:
            self._silent_since = now
        elif now - self._silent_since >= _SILENT:
            self._silent_since = math.inf  # not again before this part has work
            logger.warning(
                "part %d has nothing to do, and waits for these parts: %s. Start each that is not"
                " running", self._part, ", ".join(map(str, self._broker.missing)),
            )

    def _end(self) -> None:
        """End the seeds, since the crawl is complete for all parts; this closes the frontier."""
        requests = b"endseeds\n" + b"".join(b"next %d\n" % queue for queue in self._queues)
        _, *answers = self._frontier.ask(requests, 1 + len(self._queues))
        if set(answers) != {b"closed"}:
            raise UnknownAnswer(f"the crawl is complete, but a queue is not closed: {answers[:3]}")
        self._is_closed = True


# ---- running a part until the crawl is complete


def run(start: Callable[[], Part], fetch: Fetch) -> None:
    """Run a part until the crawl is complete, and fetch in up to one thread per queue.

    start  a function that creates the part; it is called again after each loss of the connection to
           Redis, or of the keys in Redis
    fetch  a function of a queue and a URL that fetches the URL; it returns the URL that its links
           are resolved against, and a list of the links' texts

    For example::

        def fetch(queue, url):
            return url, texts_of(urlopen(url))

        run(lambda: Part(crawl, 0, "part0.log", seeds=seeds), fetch)

    If Redis does not answer, try to connect for ten minutes, and then raise `Cut`. Any other
    exception ends the run and is raised. Each loss, and a Redis that does not answer, is logged as
    a warning by `logging`, which by default prints it on standard error.
    """
    while True:
        with _started(start) as part:
            try:
                _crawl(part, fetch)
                return
            except KeysLost as lost:
                logger.warning("%s", lost)
            except Cut as cut:
                logger.warning("the connection to Redis was lost, the part starts again: %s", cut)
        time.sleep(_PAUSE)


def _started(start: Callable[[], Part]) -> Part:
    """Return the part, once Redis answers."""
    begun = time.monotonic()
    is_reported = False
    while True:
        try:
            return start()
        except Cut as cut:
            if time.monotonic() - begun > _GONE:
                raise
            if not is_reported:
                logger.warning("Redis does not answer, trying for %.0f s: %s", _GONE, cut)
            is_reported = True
        time.sleep(_PAUSE)


def _crawl(part: Part, fetch: Fetch) -> None:
    fetchers = _Fetchers(fetch, part.workers)
    try:
        fetched: List[Fetched] = []
        while (some := part.round(fetched)) is not None:
            for taken in some:
                fetchers.start(taken)
            fetched = list(fetchers.ended(_BUSY)) if part.in_hand else []
    except Exception:
        # No fetch may outlive its part, since the next part fetches from the same hosts.
        fetchers.end()
        raise
    fetchers.end()


class _Fetchers:
    """Threads that fetch, each one URL at a time. They are daemons, so Ctrl-C need not wait."""

    def __init__(self, fetch: Fetch, most: int) -> None:
        self._fetch, self._most = fetch, most
        self._threads: List[threading.Thread] = []
        self._begun: SimpleQueue[Optional[Taken]] = SimpleQueue()
        self._ended: SimpleQueue[Union[Fetched, BaseException]] = SimpleQueue()

    def start(self, taken: Taken) -> None:
        self._begun.put(taken)
        if len(self._threads) < self._most:
            self._threads.append(threading.Thread(target=self._work, daemon=True))
            self._threads[-1].start()

    def _work(self) -> None:
        while (taken := self._begun.get()) is not None:
            try:
                base, texts = self._fetch(taken.queue, taken.url)
                self._ended.put(Fetched(taken.queue, base, texts))
            except BaseException as error:
                self._ended.put(error)

    def ended(self, seconds: float) -> Iterator[Fetched]:
        """Yield the fetches that have ended; wait for the first of them at most `seconds`."""
        try:
            page = self._ended.get(timeout=seconds)
            while True:
                if isinstance(page, BaseException):
                    raise page
                yield page
                page = self._ended.get_nowait()
        except Empty:
            return

    def end(self) -> None:
        """Wait for the fetches in progress; those that have not begun are dropped."""
        with contextlib.suppress(Empty):
            while True:
                self._begun.get_nowait()
        for _ in self._threads:
            self._begun.put(None)
        for thread in self._threads:
            thread.join()


# ---- Redis


def _connected(url: str) -> Any:
    """Return a client with a single connection.

    It never reconnects: after a reconnection, Redis might have restarted with less data.
    """
    made: List[bool] = []

    def connect(connection: Any) -> None:
        if made:
            raise redis.ConnectionError("the connection to Redis was lost")
        made.append(True)
        connection.on_connect()

    options: Any = {"redis_connect_func": connect, "socket_timeout": _PATIENCE}
    if not url.startswith("unix:"):
        options["socket_keepalive"] = True
    server: Any = redis.Redis.from_url(url, **options)
    policy = server.info("memory").get("maxmemory_policy", "noeviction")
    if policy.startswith("allkeys"):
        raise UnsafeRedis(
            f"Redis has maxmemory-policy {policy}, which may evict streams: set it to noeviction"
        )
    return server


@contextlib.contextmanager
def _cuts_are_raised() -> Iterator[None]:
    """Raise `Cut` in place of the exceptions for a lost connection."""
    try:
        yield
    except redis.AuthenticationError:  # Redis answers, but needs another password
        raise
    except (redis.ConnectionError, redis.TimeoutError) as error:
        raise Cut(str(error)) from error


def _replies_to(pipe: Any) -> List[Any]:
    """Execute a pipeline and return its replies.

    A reply is an exception if Redis was out of memory; any other error is raised.
    """
    replies: List[Any] = pipe.execute(raise_on_error=False)
    for reply in replies:
        if isinstance(reply, Exception) and not _is_out_of_memory(reply):
            raise reply
    return replies


def _is_out_of_memory(reply: Any) -> bool:
    return isinstance(reply, redis.ResponseError) and "used memory >" in str(reply)


# ---- lines


def _slices(things: Iterable[Thing], size: int) -> Iterator[List[Thing]]:
    rest = iter(things)
    while some := list(islice(rest, size)):
        yield some


def _line_of_seed(seed: str) -> bytes:
    """Return a seed as a line of an entry. Its spaces are escaped like those of a base."""
    return link_word(seed)[5:-1].encode("utf-8", "surrogatepass")[:5_000]


def _offers_of(text: bytes) -> bytes:
    """Return the requests for an entry's lines.

    A line with a space is a link, since a canonical URL has none.
    """
    if b" " not in text:
        return b"offer " + text.replace(b"\n", b"\noffer ") + b"\n"
    lines = text.split(b"\n")
    return b"".join((b"link " if b" " in line else b"offer ") + line + b"\n" for line in lines)
