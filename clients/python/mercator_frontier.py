"""A URL frontier for crawlers in Python: a client of `mercator serve`.

The frontier decides which URL to fetch next, and the crawler fetches it. A crawl has N fetchers and
N queues, numbered from 0. Fetcher Q takes a URL from queue Q, fetches it, offers the links of the
page, and reports that the URL is done::

    with Frontier(workers=4, log="crawl.log") as frontier:
        frontier.offer("http://example.org/")
        frontier.end_seeds()
        ...                                    # in one thread per queue:
        while (url := frontier.take(queue)) is not None:
            frontier.links(url, texts_of(fetch(url)))
            frontier.done(queue)

- Each URL is given out once, however it is spelled, and once more each time it is put back.
- All URLs of a host are in one queue, so no two fetchers visit a host at the same time.
- A URL is *unfinished* from the moment it is accepted until its `done`. When no URL is unfinished
  and the seeds have ended, `take` returns None, and from then on always does.
- `take` does not return None while a URL is unfinished, so a fetcher that gives up must close the
  frontier. Otherwise the other fetchers wait forever.
- `later` puts a URL back to the end of its queue, to fetch it again after the others of the queue.
- With `log`, an interrupted crawl resumes when it is started again with the same arguments.

In asyncio, call `take` in a thread pool with one thread per queue: a call blocks while it waits,
and the default pool may have fewer threads than there are queues. The other calls are short::

    with ThreadPoolExecutor(4) as threads, Frontier(workers=4) as frontier:
        ...                                    # in one task per queue:
        while (url := await loop.run_in_executor(threads, frontier.take, queue)) is not None:

A frontier may be used from any thread, but not from a forked process. The frontier itself is
proved. This client is not, nor is what a fetcher does with a URL.

The module needs Linux, Python 3.9 or later, and no other package. `docs/SESSION.md` describes the
protocol.
"""

from __future__ import annotations

import enum
import itertools
import os
import re
import select
import subprocess
import tempfile
import threading
import weakref
from functools import partial
from types import TracebackType
from typing import (
    Any, Dict, Iterable, Iterator, List, NamedTuple, NoReturn, Optional, Sequence, Tuple, Type,
    Union,
)

__all__ = [
    "Accepted", "Channel", "Closed", "Frontier", "FrontierEnded", "FrontierError", "LogInUse",
    "NoSuchQueue", "NothingTaken", "Offer", "Pending", "ProgramMissing", "QueueBusy", "Refusal",
    "Stats", "UnknownAnswer", "link_word", "request_lines", "whole_pieces",
]

# Requests are sent in pieces of at most this many bytes. A piece is sent while the answers to the
# previous one are still outstanding, so at most twice as many bytes are unanswered.
_PIECE = 16_384

# A pipe takes at most this many bytes (PIPE_BUF) as a whole. It is also the size of the longest
# request.
_WHOLE = 4_096

# Sent in place of the beginning of a longer request. As a request, it is refused.
_TOO_LONG = b"offer ".ljust(_WHOLE, b"x")

# The number of URLs that are offered before another thread may use the frontier.
_SLICE = 4_096

# Texts and bases are cut to this many characters. The answer is the same: a line of more than 4,096
# bytes is answered "line too long".
_LONGEST = 5_000

_READ_SIZE = 65_536

# The seconds that the program may take to exit after its input has ended, or after its crawler was
# killed.
_SECONDS_TO_END = 10
# The exit status of the program if another program uses the log.
_LOG_IN_USE = 5

# The characters that the URL Standard removes from both ends of a text, and those that it removes
# within a text; a space is escaped.
_TRIMMED = "".join(map(chr, range(33)))
_IN_BASE = {ord("\t"): None, ord("\n"): None, ord("\r"): None, ord(" "): "%20"}


class FrontierError(Exception):
    """The base class of the exceptions of this module."""


class ProgramMissing(FrontierError):
    """Raised when the program `mercator` cannot be started."""


class FrontierEnded(FrontierError):
    """Raised when the program has ended, or the frontier was closed."""

    def __init__(self, why: str, status: Optional[int] = None, stderr: str = "") -> None:
        """Create the exception with its message `why`.

        `status` is the exit status of the program, or minus the number of the signal that killed
        it; None if neither is known. `stderr` is what the program wrote on standard error.
        """
        super().__init__(why)
        self.status = status
        self.stderr = stderr


class LogInUse(FrontierEnded):
    """Raised when the program has ended because another program uses the log."""


class QueueBusy(FrontierError):
    """Raised by `take` and `try_take` when the last URL of the queue is still in progress."""


class NothingTaken(FrontierError):
    """Raised by `done` and `later` when the queue has no URL in progress."""


class NoSuchQueue(FrontierError):
    """Raised for a queue that does not exist. Queues are numbered from 0, one per worker."""


class UnknownAnswer(FrontierError):
    """Raised when this client does not know the program's answer."""


class Accepted(NamedTuple):
    """The result of an offer that was accepted. It is true, while a `Refusal` is false."""

    queue: int  # the queue that the URL was added to
    number: int  # the number of URLs that this queue had accepted before


class Refusal(enum.Enum):
    """The reason why an offered URL was not accepted. Every member is false.

    CLOSED and FULL are also the results for a URL that was accepted before.
    """

    SEEN = "seen"  # the URL was accepted before, in this spelling or another
    FILTERED = "filtered"  # its host is outside `within`
    NOT_URL = "not a URL"
    NOT_HTTP = "not http or https"
    TOO_LONG = "line too long"  # the request has more than 4,096 bytes
    NOT_TEXT = "not UTF-8"  # the text has a lone surrogate
    CLOSED = "refused closed"  # the crawl is over
    FULL = "refused full"  # `max_pending` URLs are unfinished; nothing changed: offer it later

    def __bool__(self) -> bool:
        return False


Offer = Union[Accepted, Refusal]
_REFUSALS = {refusal.value.encode(): refusal for refusal in Refusal}
_ACCEPTED = re.compile(rb"accepted [0-9]+ [0-9]+")
_ERRORS: Dict[bytes, Tuple[Type[FrontierError], str]] = {
    b"refused busy": (QueueBusy, "the last URL taken from this queue is still in progress"),
    b"refused nothing": (NothingTaken, "this queue has no URL in progress"),
    b"refused nosuch": (NoSuchQueue, "there is no such queue"),
}


class Pending(NamedTuple):
    """The result of `try_take` when the queue is empty but the crawl is not over. It is false."""

    left: int  # the number of unfinished URLs; the seeds count as one until they end

    def __bool__(self) -> bool:
        return False


class Stats(NamedTuple):
    """The numbers of URLs of a queue, or of all queues.

    Each accepted URL is done, in progress or waiting.
    """

    accepted: int
    done: int
    in_progress: int
    waiting: int
    put_back: int  # those of the waiting ones that were put back by `later`
    seen: int  # how many offers were answered `seen`


class Closed(enum.Enum):
    """The result of `try_take` when the crawl is over: every accepted URL is done. It is false."""

    CLOSED = "closed"

    def __bool__(self) -> bool:
        return False


class Frontier:
    """A URL frontier that runs in a process of its own, with one queue per fetcher.

    Use it as a context manager, which ends the program after the block. With one queue, a crawl
    needs no threads::

        web = {"http://a.test/": ["/b"], "http://a.test/b": []}
        with Frontier(workers=1) as frontier:
            frontier.offer("http://a.test/")
            frontier.end_seeds()
            while (url := frontier.take(0)) is not None:
                frontier.links(url, web.get(url, []))
                frontier.done(0)

    A call that sends a request raises `FrontierEnded` if the program has ended or the frontier was
    closed.
    """

    def __init__(
        self,
        workers: int = 4,
        *,
        max_pending: Optional[int] = None,
        within: Optional[str] = None,
        log: Union[str, os.PathLike[str], None] = None,
        sync: bool = False,
        program: Union[str, os.PathLike[str], None] = None,
    ) -> None:
        """Start `mercator serve`.

        workers      number of fetchers, and so of queues: 1 to 512
        max_pending  most URLs waiting or in progress at a time, 1 to 1099511627776 (by default
                     1048576)
        within       accept only hosts equal to this suffix or subdomains of it
        log          append each request to this file before it is answered; if the file exists,
                     resume from it, with the same options as before
        sync         sync the log to disk before each answer, so that it also survives a crash of
                     the machine
        program      path of the program; by default the value of the environment variable MERCATOR,
                     or else `mercator`

        Raise `ProgramMissing` if the program cannot be started, and `LogInUse` if another program
        still uses the log after ten seconds.
        """
        command = [os.fspath(program or os.environ.get("MERCATOR") or "mercator"), "serve"]
        # Each option and its value are one argument, since a value may look like an option.
        command += [f"--workers={workers}"]
        command += [] if max_pending is None else [f"--max-pending={max_pending}"]
        command += [] if within is None else [f"--within={within}"]
        # The program of a crawler that was killed may use the log a moment longer.
        command += [] if log is None else [f"--log={os.fsdecode(log)}", f"--wait={_SECONDS_TO_END}"]
        command += ["--sync"] if sync else []
        self._use(Channel(command), workers)
        if log is not None:
            try:
                self._cut_off.update(self._ask_again())
            except BaseException:
                self.close()
                raise

    def _use(self, channel: Channel, workers: int) -> None:
        self.workers = workers
        # One lock for the whole process. Each queue has a condition that uses this lock, and `take`
        # waits on it. The lock is reentrant, since a signal handler may close the frontier while
        # its thread holds it.
        self._lock = threading.RLock()
        self._asking: Optional[int] = None  # the thread that waits for answers
        self._changed = [threading.Condition(self._lock) for _ in range(workers)]
        self._waiting = 0
        self._channel = channel
        self._cut_off: Dict[int, str] = {}

    # ---- the methods that a crawler calls

    def offer(self, url: str) -> Offer:
        """Offer a URL, and return whether it was accepted."""
        return self._offer_slice("offer ", [url])[0]

    def offer_all(self, urls: Iterable[str]) -> List[Offer]:
        """Offer URLs in their order, and return a list with the result of each."""
        return self._offer_each("offer ", urls)

    def link(self, base: str, text: str) -> Offer:
        """Offer the URL that the link `text` resolves to against the URL `base`.

        `text` is the value of the attribute as it is in the page, with its character references
        decoded. `base` is the URL of the page, or of its `<base>`.
        """
        return self._offer_slice(link_word(base), [text])[0]

    def links(self, base: str, texts: Iterable[str]) -> List[Offer]:
        """Offer all links of a page in their order, and return a list with the result of each.

        This is faster than a call of `link` for each of them.
        """
        return self._offer_each(link_word(base), texts)

    def end_seeds(self) -> Optional[int]:
        """Declare that no more seeds will come, so that the crawl can end.

        Return the number of unfinished URLs, or None if the seeds had ended before, as in a crawl
        that was resumed.
        """
        with self._lock:
            answer = self._ask(b"endseeds\n")
            return None if answer == b"refused nothing" else self._count_in(answer)

    def take(self, queue: int) -> Optional[str]:
        """Return the URL that has waited longest in the queue, or None if the crawl is over.

        Wait until there is a URL or the crawl is over. In a resumed crawl, the first call for a
        queue returns the URL that was in progress when the crawl was interrupted, if there was one.

        Raise `QueueBusy` if the last URL of the queue is still in progress, and `NoSuchQueue` if
        there is no such queue.
        """
        with self._lock:
            while True:
                answer = self._next(queue)
                if isinstance(answer, str):
                    return answer
                if isinstance(answer, Closed):
                    return None
                self._waiting += 1
                try:
                    self._changed[queue].wait()
                finally:
                    self._waiting -= 1

    def try_take(self, queue: int) -> Union[str, Pending, Closed]:
        """Return the next URL like `take`, but never wait.

        If the queue is empty, return `Pending`, or `Closed.CLOSED` if the crawl is over. Both are
        false. Raise the same exceptions as `take`.
        """
        with self._lock:
            return self._next(queue)

    def done(self, queue: int) -> int:
        """Report that the URL that was last taken from the queue is done.

        Call it after the links of the page were offered, and also if the URL could not be fetched.

        Return the number of unfinished URLs. Raise `NothingTaken` if the queue has no URL in
        progress, and `NoSuchQueue` if there is no such queue.
        """
        return self._release(b"done %d\n", queue)

    def later(self, queue: int) -> int:
        """Put the URL that was last taken from the queue back to the end of the queue.

        It is taken again after all URLs that wait in the queue now, and before those that are
        accepted later. Call it to try a fetch again, or to visit other hosts of the queue until
        this URL's host may be visited. The frontier does not wait: if the queue has no other URL,
        `take` returns this one immediately.

        Return the number of unfinished URLs, which does not change. Raise the same exceptions as
        `done`.
        """
        return self._release(b"later %d\n", queue)

    def again(self, queue: int) -> Optional[str]:
        """Return the URL in progress of the queue, or None if there is none.

        Use it to fetch the URL of a fetcher that died.
        """
        with self._lock:
            self._check(queue)
            return _in_progress(self._ask(b"again %d\n" % queue))

    def stats(self, queue: Optional[int] = None) -> Stats:
        """Return the numbers of URLs of a queue, or of all queues. Nothing changes.

        Raise `NoSuchQueue` if there is no such queue.
        """
        with self._lock:
            if queue is not None:
                self._check(queue)
            answer = self._ask(b"stats\n" if queue is None else b"stats %d\n" % queue)
            if not answer.startswith(b"stats "):
                _refuse(answer)
            # A later version of the program may add numbers at the end.
            return Stats(*map(int, answer.split(b" ")[2:13:2]))

    def close(self) -> None:
        """End the program. Without a log, the state of the crawl is lost.

        Calls that are waiting, and all later calls, raise `FrontierEnded`.
        """
        # This thread is in a call, so this is a signal handler: the exception ends that call.
        if self._asking == threading.get_ident():
            raise FrontierEnded("the frontier was closed during a call")
        with self._lock:
            self._cut_off.clear()
            try:
                self._channel.close()
            finally:
                self._wake(range(self.workers))

    def __enter__(self) -> Frontier:
        return self

    def __exit__(
        self,
        kind: Optional[Type[BaseException]],
        error: Optional[BaseException],
        trace: Optional[TracebackType],
    ) -> None:
        self.close()

    def _release(self, request: bytes, queue: int) -> int:
        with self._lock:
            self._check(queue)
            count = self._count_in(self._ask(request % queue))
            self._cut_off.pop(queue, None)
            return count

    # ---- called with the lock held

    def _offer_each(self, word: str, texts: Iterable[str]) -> List[Offer]:
        rest = iter(texts)
        offers: List[Offer] = []
        while True:
            some = list(itertools.islice(rest, _SLICE))
            if not some:
                return offers
            offers += self._offer_slice(word, some)

    def _offer_slice(self, word: str, texts: List[str]) -> List[Offer]:
        requests = request_lines(word, texts)
        with self._lock:
            offers = _offers_in(self._ask_all(requests, len(texts)))
            if self._waiting:
                self._wake({offer.queue for offer in offers if isinstance(offer, Accepted)})
        return offers

    def _next(self, queue: int) -> Union[str, Pending, Closed]:
        self._check(queue)
        if queue in self._cut_off:
            return self._cut_off.pop(queue)
        answer = self._ask(b"next %d\n" % queue)
        word, _, rest = answer.partition(b" ")
        if word == b"taken":
            return rest.decode()
        if word == b"pending":
            return Pending(int(rest))
        if answer == b"closed":
            self._wake(range(self.workers))
            return Closed.CLOSED
        _refuse(answer)

    def _ask_again(self) -> Dict[int, str]:
        """Return the URL of each queue that was in progress when the log ended."""
        requests = b"".join(b"again %d\n" % queue for queue in range(self.workers))
        urls = map(_in_progress, self._ask_all(requests, self.workers))
        return {queue: url for queue, url in enumerate(urls) if url is not None}

    def _count_in(self, answer: bytes) -> int:
        word, _, rest = answer.partition(b" ")
        if word != b"count":
            _refuse(answer)
        if rest == b"0":
            self._wake(range(self.workers))  # the next fetcher that asks closes the frontier
        return int(rest)

    def _check(self, queue: int) -> None:
        if not 0 <= queue < self.workers:
            raise NoSuchQueue(f"there is no queue {queue}: queues are 0 to {self.workers - 1}")

    def _ask(self, request: bytes) -> bytes:
        return self._ask_all(request, 1)[0]

    def _ask_all(self, requests: bytes, count: int) -> List[bytes]:
        self._asking = threading.get_ident()
        try:
            return self._channel.exchange(requests, count)
        except BaseException:
            self._wake(range(self.workers))  # so that the threads that wait fail too
            raise
        finally:
            self._asking = None

    def _wake(self, queues: Iterable[int]) -> None:
        if self._waiting:
            for queue in queues:
                self._changed[queue].notify_all()


class Channel:
    """A process of the program, with its requests and answers as lines.

    Only one thread may use it at a time.
    """

    def __init__(self, command: Sequence[str]) -> None:
        """Start the program with this command line.

        Raise `ProgramMissing` if it cannot be started.
        """
        self._program = command[0]
        # Standard error goes to a file, since a pipe that nobody reads could fill up.
        self._stderr = tempfile.TemporaryFile()
        try:
            # In a session of its own, so that Ctrl-C reaches only the crawler, which ends it.
            self._process = subprocess.Popen(
                command, bufsize=0, stdin=subprocess.PIPE, stdout=subprocess.PIPE,
                stderr=self._stderr, start_new_session=True,
            )
        except OSError as error:
            self._stderr.close()
            raise ProgramMissing(
                f"cannot start {self._program}: {error.strerror}"
                " (the environment variable MERCATOR can name the program)"
            ) from error
        assert self._process.stdin and self._process.stdout
        self._requests = self._process.stdin.fileno()
        self._answers = self._process.stdout.fileno()
        # A pipe may be as small as a page. When it is full, answers are read before more is sent.
        os.set_blocking(self._requests, False)
        self._received: List[bytes] = []
        self._owed = 0  # the number of answers that are still to be read
        self._end: Optional[FrontierEnded] = None
        _channels.add(self)

    def exchange(self, requests: bytes, count: int) -> List[bytes]:
        """Send `count` request lines, and return their answers without line ends.

        Raise `FrontierEnded` if the program has ended, `LogInUse` if it has because another program
        uses the log, and `UnknownAnswer` if it did not send one line for each request. If an
        exception interrupts the call, the program is ended.
        """
        if self._end:
            raise type(self._end)(str(self._end), self._end.status, self._end.stderr)
        self._received.clear()
        try:
            self._send_all(requests)
        except OSError as error:
            raise self._ended() from error
        except BaseException:
            # The answers to these requests would be read as answers to later ones.
            if not self._end:
                self._kill()
                self._ended("an interrupted call ended the frontier")
            raise
        answers = b"".join(self._received).split(b"\n")
        if answers.pop() or len(answers) != count:
            self._ended("the program did not send one answer per request")
            raise UnknownAnswer(f"the program sent {len(answers)} answers to {count} requests")
        return answers

    def close(self) -> None:
        """End the process, if it has not ended."""
        if not self._end:
            self._ended("the frontier was closed")

    def leave(self) -> None:
        """Give up the program in a forked process: it belongs to the process that started it."""
        if not self._end:
            self._end = FrontierEnded("a frontier cannot be used in a forked process")
            for pipe in (self._process.stdin, self._process.stdout, self._stderr):
                assert pipe
                pipe.close()

    def _send_all(self, requests: bytes) -> None:
        """Send the requests in pieces.

        Before a piece is sent, all answers are read except those to the previous piece.
        """
        begin = before = 0
        while begin < len(requests):
            end = requests.rfind(b"\n", begin, begin + _PIECE) + 1
            end = end or requests.index(b"\n", begin) + 1
            self._receive_until(before)
            before = requests.count(b"\n", begin, end)
            self._owed += before
            self._send(requests[begin:end])
            begin = end
        self._receive_until(0)

    def _send(self, piece: bytes) -> None:
        for some in whole_pieces(piece):
            while True:
                try:
                    os.write(self._requests, some)
                    break
                except BlockingIOError:
                    self._wait()

    def _wait(self) -> None:
        """Wait until more can be sent or answers arrive, and read these."""
        poll = select.poll()
        poll.register(self._requests, select.POLLOUT)
        poll.register(self._answers, select.POLLIN)
        if any(pipe == self._answers for pipe, _ in poll.poll()):
            self._receive()

    def _receive_until(self, owed: int) -> None:
        while self._owed > owed:
            self._receive()

    def _receive(self) -> None:
        answers = os.read(self._answers, _READ_SIZE)
        if not answers:
            raise self._ended()
        self._received.append(answers)
        self._owed -= answers.count(b"\n")

    def _kill(self) -> None:
        self._process.kill()

    def _ended(self, why: str = "") -> FrontierEnded:
        """Wait until the process has ended, and return the exception that says how."""
        assert self._process.stdin and self._process.stdout
        # Set first: even if this is interrupted, later calls must not use the closed descriptors,
        # which may belong to other files by then.
        self._end = FrontierEnded(why or f"{self._program} has ended")
        self._process.stdin.close()
        self._process.stdout.close()
        try:
            status = self._process.wait(_SECONDS_TO_END)
        except subprocess.TimeoutExpired:
            self._process.kill()
            status = self._process.wait()
        self._stderr.seek(0)
        errors = self._stderr.read().decode("utf-8", "replace").strip()
        self._stderr.close()
        how = f"by signal {-status}" if status < 0 else f"with status {status}"
        why = why or f"{self._program} ended {how}"
        kind = LogInUse if status == _LOG_IN_USE else FrontierEnded
        self._end = kind(f"{why}: {errors}" if errors else why, status, errors)
        return self._end


_channels: weakref.WeakSet[Channel] = weakref.WeakSet()


def _leave_all() -> None:
    for channel in list(_channels):
        channel.leave()


# The program ends when its input does, so a forked process must not keep the pipe open.
os.register_at_fork(after_in_child=_leave_all)


# ---- requests and answers as bytes


def request_lines(word: str, texts: List[str]) -> bytes:
    """Return one request line for each text: `word` and the text."""
    lines = f"{word}{(chr(10) + word).join(texts)}\n"
    is_long = len(lines) > _LONGEST and max(map(len, texts)) > _LONGEST
    if is_long or lines.count("\n") != len(texts):
        # A line cannot contain an LF, which the URL Standard removes anyway.
        texts = [text.replace("\n", "")[:_LONGEST] for text in texts]
        lines = "".join(f"{word}{text}\n" for text in texts)
    return lines.encode("utf-8", "surrogatepass")


def link_word(base: str) -> str:
    """Return the beginning of a `link` request, up to the text of the link.

    In a request, the base ends at the first space, so the spaces of the base are escaped.
    """
    return f"link {base.strip(_TRIMMED).translate(_IN_BASE)[:_LONGEST]} "


def whole_pieces(requests: bytes) -> Iterator[bytes]:
    """Yield request lines in pieces that a pipe takes as a whole or not at all.

    So if the process that writes them is killed, no request is cut off.
    """
    begin = 0
    while begin < len(requests):
        end = requests.rfind(b"\n", begin, begin + _WHOLE) + 1 or begin + _WHOLE
        if requests[end - 1:end] == b"\n" or requests.startswith((b"\n", b"\r\n"), end):
            yield requests[begin:end]
        else:
            yield _TOO_LONG
            end = requests.index(b"\n", end) - 2  # two bytes, since a CR would be ignored
        begin = end


def _offers_in(answers: List[bytes]) -> List[Offer]:
    refusals = list(map(_REFUSALS.get, answers))
    others = [answer for answer, refusal in zip(answers, refusals) if refusal is None]
    accepted = _accepted_in(others)
    if len(others) == len(answers):
        return list(accepted)
    return [next(accepted) if refusal is None else refusal for refusal in refusals]


def _accepted_in(answers: List[bytes]) -> Iterator[Accepted]:
    """Return the results of `accepted` answers. All together take half the time of one by one."""
    if not answers:
        return iter(())
    words = b" ".join(answers).split(b" ")
    if len(words) != 3 * len(answers) or set(words[::3]) != {b"accepted"}:
        _refuse(next(answer for answer in answers if not _ACCEPTED.fullmatch(answer)))
    # Equal to `Accepted(queue, number)` for each pair, but without a Python call for each.
    made: Any = partial(tuple.__new__, Accepted)
    return map(made, zip(map(int, words[1::3]), map(int, words[2::3])))


def _in_progress(answer: bytes) -> Optional[str]:
    """Return the URL in an answer to `again`, or None if there is none."""
    word, _, rest = answer.partition(b" ")
    if word == b"taken":
        return rest.decode()
    if answer == b"refused nothing":
        return None
    _refuse(answer)


def _refuse(answer: bytes) -> NoReturn:
    unknown = f"unknown answer from the program: {answer.decode('utf-8', 'replace')}"
    kind, text = _ERRORS.get(answer, (UnknownAnswer, unknown))
    raise kind(text)
