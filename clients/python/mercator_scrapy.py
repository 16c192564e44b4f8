"""A scheduler for Scrapy that uses the URL frontier `mercator serve`.

Enable it in the settings of a project::

    SCHEDULER = "mercator_scrapy.MercatorScheduler"

If the module was not installed by pip, add the folder of this file to PYTHONPATH.

Each URL is fetched once, however it is spelled, and each host has one request in progress at a
time. The program `mercator` decides both, by the canonical form of the URL Standard. This module,
the client `mercator_frontier` and what a spider does with a response are not proved.

====================  ==========================================================================
Setting               Meaning
====================  ==========================================================================
MERCATOR_PROGRAM      Path of the program (default: the value of the environment variable
                      MERCATOR, or else `mercator`).
MERCATOR_WORKERS      Number of queues, 1 to 512 (default: 64). Each host has one queue, hosts may
                      share a queue, and a queue has one request in progress at a time.
MERCATOR_MAX_PENDING  Most URLs waiting or in progress in the frontier, 2 to 1099511627776
                      (default: 1048576). Further requests wait in this scheduler.
MERCATOR_WITHIN       Accept only hosts equal to this suffix or subdomains of it (default: all).
====================  ==========================================================================

What happens to a request:

- A GET of an http or https URL without a body goes to the frontier. It is dropped if its URL was
  seen before, and then counted under `dupefilter/filtered`; or if its host is outside
  MERCATOR_WITHIN, and then counted under `mercator/filtered`. Otherwise it is sent with the
  canonical URL, which the callback finds in `response.url`.
- A request with `dont_filter` goes to the frontier too, so that later links to its URL are
  recognized. If the URL was seen before or filtered, the request is sent all the same, as it is
  spelled, from a plain queue of this scheduler.
- A retry is sent without a new offer, before the next URL of its queue.
- Every other request, and one with a URL that the frontier rejects, goes to the plain queue. It is
  filtered by Scrapy's own `DUPEFILTER_CLASS`, and its host has one request in progress at a time as
  well.

If several queues have a request, the one with the highest priority is sent first. Within a queue,
requests are sent in the order in which they were offered. Requests that bypass the scheduler are
not delayed: robots.txt, media pipelines and `engine.download`.

With the setting JOBDIR, a crawl that was stopped or killed resumes when it is started again with
the same JOBDIR and settings::

    scrapy crawl site -s JOBDIR=crawls/site

- Each URL is fetched once in all runs together, except those that were in progress. A URL is in
  progress until its callback has ended and its items have passed the pipelines. So the next request
  of a queue waits for both, which it does not without JOBDIR.
- Requests are stored by pickle, with their callbacks by name. A request that cannot be stored is
  reported once. In the next run, its URL is requested with the default callback, `parse`.
- In the next run, a start request for a page is filtered even if it has `dont_filter`. If it has to
  be sent in every run, for cookies for example, set `mercator_each_run` in its `meta` to True.
- After a crawl is complete, another run sends nothing. Remove JOBDIR to crawl again.
- JOBDIR has the log of the frontier, `mercator.log`, and the stored requests,
  `mercator.requests`. A kill of the process loses neither. A crash of the machine may, since they
  are not synced to disk. Do not use a JOBDIR that you do not trust: a pickle can run any code.

The module needs Python 3.9 or later, and is tested with Scrapy 2.8.
"""

from __future__ import annotations

import contextlib
import logging
import os
import pickle
import re
import shutil
import socket
import struct
from collections import deque
from functools import lru_cache
from heapq import heappop, heappush
from pathlib import Path
from typing import Any, BinaryIO, Deque, Dict, Iterable, Iterator, List, Optional, Set, Tuple
from urllib.parse import unquote

from scrapy.core.scheduler import BaseScheduler
from scrapy.crawler import Crawler
from scrapy.http import Request
from scrapy.spiders import Spider
from scrapy.utils.httpobj import urlparse_cached
from scrapy.utils.job import job_dir
from scrapy.utils.misc import load_object
from scrapy.utils.request import request_from_dict
from twisted.internet.defer import Deferred

from mercator_frontier import Accepted, Closed, Frontier, FrontierError, Refusal

__all__ = ["MercatorScheduler"]

logger = logging.getLogger(__name__)

# Several times Scrapy's 16 concurrent requests, so that hosts seldom share a queue.
DEFAULT_WORKERS = 64

# Matches a host that the URL Standard reads as an IPv4 address: its last label is a number.
_NUMBER_LAST = re.compile(r"(^|\.)([0-9]+|0x[0-9a-f]*)$")

# The queue number of requests that are not in the frontier.
_PLAIN = -1

# The files in JOBDIR: the log of the frontier, a copy of it while a crawl is resumed, and the
# requests.
_LOG = "mercator.log"
_COPY = "mercator.log.copy"
_REQUESTS = "mercator.requests"

# The length of a record of stored requests, before the record.
_LENGTH = struct.Struct("<I")

# A request that may be sent: its negated priority; a number that grows with each entry, so that two
# requests are never compared; its queue; and the request itself.
_Entry = Tuple[int, int, int, Request]


class _Queue:
    """The scheduler's data of a queue of the frontier."""

    __slots__ = ("waiting", "taken", "retries", "out")

    def __init__(self) -> None:
        # The requests for the URLs that wait in the frontier. The frontier gives out the URLs of a
        # queue in the order in which it accepted them. So a URL that is taken belongs to the first
        # of these requests, and the canonical URLs need not be kept.
        self.waiting: Deque[Request] = deque()
        # The request for the URL in progress.
        self.taken: Optional[Request] = None
        # Retries of the URL in progress.
        self.retries: Deque[Request] = deque()
        # The last request for the URL in progress: `taken`, or a retry.
        self.out: Optional[Request] = None

    def unfinished(self) -> int:
        """Return the number of unfinished URLs of this queue."""
        return len(self.waiting) + (self.taken is not None)


class _Store:
    """The unfinished requests of a crawl, in a file, for another run.

    A record of the file is the pickle of a pair: the number of a request, and the request as a
    dictionary, or None if the request is finished. Each record is in the file before the method
    that adds it returns.
    """

    def __init__(self, file: Path, spider: Spider, is_new: bool) -> None:
        """Open the file. Unless `is_new`, `unfinished` has the requests of the run before."""
        records = {} if is_new else _records_in(file)
        self.unfinished = [request_from_dict(record, spider=spider) for record in records.values()]
        self._spider = spider
        self._numbers: Dict[Request, int] = {}
        self._next = 0  # the number of the next request
        self._is_reported = False
        # The new file has only the records that are still needed.
        part = file.with_suffix(".part")
        self._file: BinaryIO = part.open("wb")
        self._end = self._before_last = 0  # positions in the file
        for request in self.unfinished:
            self.add(request)
        os.replace(part, file)

    def add(self, request: Request) -> None:
        """Store a request. If that is not possible, log a warning, once."""
        try:
            record = pickle.dumps((self._next, request.to_dict(spider=self._spider)), protocol=4)
        except (ValueError, TypeError, AttributeError, RecursionError, pickle.PicklingError) as why:
            if not self._is_reported:
                logger.warning(
                    "%s cannot be stored for another run, and there may be more such requests: %s",
                    request, why,
                )
            self._is_reported = True
            return
        self._numbers[request] = self._next
        self._next += 1
        self._append(record)

    def remove_last(self, request: Request) -> None:
        """Remove this request from the file. No other request was stored after it."""
        if self._numbers.pop(request, None) is not None:
            self._file.truncate(self._before_last)
            self._end = self._file.seek(self._before_last)

    def replace(self, request: Request, other: Request) -> None:
        """Let `finish` take the other request for this one. The file does not change."""
        number = self._numbers.pop(request, None)
        if number is not None:
            self._numbers[other] = number

    def finish(self, request: Request) -> None:
        """Record that a request is finished."""
        number = self._numbers.pop(request, None)
        if number is not None:
            self._append(pickle.dumps((number, None), protocol=4))

    def close(self) -> None:
        self._file.close()

    def _append(self, record: bytes) -> None:
        self._file.write(_LENGTH.pack(len(record)) + record)
        self._file.flush()
        self._before_last, self._end = self._end, self._end + _LENGTH.size + len(record)


def _records_in(file: Path) -> Dict[int, Dict[str, Any]]:
    """Return the unfinished requests in the file of a store, by their numbers.

    A kill can cut off the last record, which is ignored then.
    """
    records: Dict[int, Dict[str, Any]] = {}
    data = file.read_bytes() if file.exists() else b""
    begin = 0
    while len(data) - begin >= _LENGTH.size:
        begin += _LENGTH.size
        end = begin + _LENGTH.unpack_from(data, begin - _LENGTH.size)[0]
        if end > len(data):
            break
        number, request = pickle.loads(data[begin:end])
        if request is None:
            records.pop(number, None)
        else:
            records[number] = request
        begin = end
    return records


class MercatorScheduler(BaseScheduler):
    """A Scrapy scheduler that is a client of `mercator serve`.

    Scrapy creates it if the setting SCHEDULER names it; a spider need not change::

        class Site(scrapy.Spider):
            name = "site"
            start_urls = ["http://example.org/"]
            custom_settings = {
                "SCHEDULER": "mercator_scrapy.MercatorScheduler",
                "MERCATOR_WITHIN": "example.org",
            }
    """

    def __init__(
        self,
        crawler: Crawler,
        dupefilter: Any,
        *,
        program: Optional[str] = None,
        workers: int = DEFAULT_WORKERS,
        max_pending: Optional[int] = None,
        within: Optional[str] = None,
    ) -> None:
        """Create a scheduler; the frontier is started by `open`.

        crawler      the crawler
        dupefilter   filter for the requests that do not go to the frontier
        program      setting MERCATOR_PROGRAM
        workers      setting MERCATOR_WORKERS
        max_pending  setting MERCATOR_MAX_PENDING; raise `ValueError` if it is less than 2
        within       setting MERCATOR_WITHIN
        """
        if max_pending is not None and max_pending < 2:
            raise ValueError("MERCATOR_MAX_PENDING must be at least 2: the seeds count as one URL")
        self.crawler = crawler
        self.stats = crawler.stats
        self.df = dupefilter
        self._program = program
        self._workers = workers
        self._max_pending = max_pending
        self._within = within
        self._frontier: Optional[Frontier] = None
        self._store: Optional[_Store] = None
        self._is_lost = False
        self._queues: List[_Queue] = []
        # The requests that the frontier had no room for.
        self._overflow: Deque[Request] = deque()
        # A heap of the requests that may be sent: all plain ones, and the first of each free queue.
        self._ready: List[_Entry] = []
        # For each busy host, a heap of the entries that wait until it is free.
        self._blocked: Dict[str, List[_Entry]] = {}
        self._busy: Set[str] = set()
        # The requests in progress with their queues, and the queues of the frontier's URLs.
        self._out: Dict[Request, int] = {}
        self._queue_by_url: Dict[str, int] = {}
        self._length = 0
        self._entries = 0

    @classmethod
    def from_crawler(cls, crawler: Crawler) -> MercatorScheduler:
        """Create a scheduler from the settings of a crawler."""
        settings = crawler.settings
        max_pending = settings.get("MERCATOR_MAX_PENDING")
        return cls(
            crawler,
            _dupefilter_of(crawler),
            program=settings.get("MERCATOR_PROGRAM"),
            workers=settings.getint("MERCATOR_WORKERS", DEFAULT_WORKERS),
            max_pending=None if max_pending is None else int(max_pending),
            within=settings.get("MERCATOR_WITHIN"),
        )

    # ---- the methods that Scrapy's engine calls

    def open(self, spider: Spider) -> Optional[Deferred[Any]]:
        """Start the frontier. With JOBDIR, resume the crawl of the run before.

        Raise `ProgramMissing` if the program cannot be started, and `LogInUse` if another crawl
        uses JOBDIR.
        """
        self.spider = spider
        self._queues = [_Queue() for _ in range(self._workers)]
        folder = job_dir(self.crawler.settings)
        if folder is None:
            self._frontier = self._started()
        else:
            self._open_folder(Path(folder), spider)
        opened: Optional[Deferred[Any]] = self.df.open()
        return opened

    def close(self, reason: str) -> Optional[Deferred[Any]]:
        """End the frontier, and record two statistics.

        `mercator/pending` is the number of unfinished URLs. `mercator/closed` is whether the
        frontier closed, which it does if the spider has finished and no URL is unfinished.
        """
        if self._frontier is not None:
            try:
                self._finish_fetches(self._frontier)
                pending = sum(queue.unfinished() for queue in self._queues)
                self.stats.set_value("mercator/pending", pending)
                # A crawl that was stopped has seeds left, even if no URL is unfinished.
                is_over = reason == "finished" and not pending and not self._length
                if is_over:
                    self._frontier.end_seeds()
                is_closed = is_over and self._frontier.try_take(0) is Closed.CLOSED
                self.stats.set_value("mercator/closed", is_closed)
            except (FrontierError, OSError) as error:
                logger.error("The frontier ended before the spider: %s", error)
            self._frontier.close()
            self._frontier = None
        if self._store is not None:
            with contextlib.suppress(OSError):  # it was reported when it happened first
                self._store.close()
        closed: Optional[Deferred[Any]] = self.df.close(reason)
        return closed

    def has_pending_requests(self) -> bool:
        """Return whether requests are waiting, or the frontier has failed.

        After a failure the spider is not idle: it is about to be closed.
        """
        return self._is_lost or (self._frontier is not None and self._length > 0)

    def __len__(self) -> int:
        """Return the number of waiting requests."""
        return self._length

    def enqueue_request(self, request: Request) -> bool:
        """Store a request and return True, or return False if its URL was seen or is filtered."""
        if self._frontier is None:
            return False
        try:
            return self._receive(self._frontier, request)
        except (FrontierError, OSError) as error:
            self._give_up(self._frontier, error)
            return False

    def next_request(self) -> Optional[Request]:
        """Return the next request whose queue and host are free, or None if there is none now."""
        if self._frontier is None:
            return None
        try:
            self._finish_fetches(self._frontier)
            return self._send()
        except (FrontierError, OSError) as error:
            self._give_up(self._frontier, error)
            return None

    # ---- the start

    def _started(self, log: Optional[Path] = None) -> Frontier:
        return Frontier(
            self._workers, max_pending=self._max_pending, within=self._within, log=log,
            program=self._program,
        )

    def _open_folder(self, folder: Path, spider: Spider) -> None:
        """Start the frontier from its log, and resume the crawl if there is one."""
        log = folder / _LOG
        is_new = not log.exists() or log.stat().st_size == 0
        self._frontier = self._started(log)  # from now on, no other crawl can use the folder
        self._store = _Store(folder / _REQUESTS, spider, is_new)
        if is_new:
            return
        slot = self.crawler.engine.slot
        slot.start_requests = map(_in_another_run, slot.start_requests)
        urls, is_complete = self._unfinished(log, folder / _COPY)
        if is_complete:
            logger.warning("The crawl in %s is complete. Remove the folder to crawl again.", folder)
        self._resume(self._frontier, self._store, urls)

    def _unfinished(self, log: Path, copy: Path) -> Tuple[List[List[str]], bool]:
        """Return the unfinished URLs of each queue in their order, and whether none can follow.

        A frontier only gives out its next URL. So a second frontier, with a copy of the log, gives
        out all of them.
        """
        try:
            shutil.copyfile(log, copy)
            with self._started(copy) as frontier:
                urls = [list(_drained(frontier, queue)) for queue in range(self._workers)]
                return urls, frontier.try_take(0) is Closed.CLOSED
        finally:
            copy.unlink(missing_ok=True)

    def _resume(self, frontier: Frontier, store: _Store, urls: List[List[str]]) -> None:
        """Continue with the requests of the run before, whose unfinished URLs are `urls`."""
        requests = dict.fromkeys(store.unfinished)  # in their order
        by_url = _by_canonical_url(requests, self._program)
        missing = 0
        for queue, its_urls in zip(self._queues, urls):
            for url in its_urls:
                request = by_url.get(url)
                if request is None:
                    missing += 1
                    request = Request(url)
                    store.add(request)
                requests.pop(request, None)
                queue.waiting.append(request)
                self._count_in("mercator")
        if missing:
            logger.warning("%d URLs have no stored request: the default callback is used", missing)
        for number in range(self._workers):
            self._take(frontier, number)
        # The others were plain, or had not reached the frontier, or are finished.
        for request in requests:
            if not _is_page(request):
                self._store_plain(request)
            elif not self._offer(frontier, request, is_new=False):
                store.finish(request)

    # ---- incoming requests

    def _receive(self, frontier: Frontier, request: Request) -> bool:
        is_page = _is_page(request)
        queue = self._queue_of_retry(request) if is_page else None
        if queue is not None:
            # The queue is ready as soon as the previous attempt has ended.
            self._queues[queue].retries.append(request)
            self._count_in("mercator")
            return True
        # A request is stored before anything else knows it, so that no kill can lose it.
        if self._store is not None:
            self._store.add(request)
        is_kept = self._offer(frontier, request) if is_page else self._store_unknown(request)
        if not is_kept and self._store is not None:
            self._store.remove_last(request)
        return is_kept

    def _queue_of_retry(self, request: Request) -> Optional[int]:
        """Return the queue in which this request retries the URL in progress, or None."""
        queue = self._queue_by_url.get(request.url) if request.dont_filter else None
        if queue is None:
            return None
        out = self._queues[queue].out
        tries = 0 if out is None else out.meta.get("retry_times", 0)
        # Other requests for the URL wait for their turn. Otherwise a spider that requests a URL
        # again and again would block all others of the queue.
        return queue if request.meta.get("retry_times", 0) > tries else None

    def _offer(self, frontier: Frontier, request: Request, is_new: bool = True) -> bool:
        """Offer the URL of a request, and store the request according to the result.

        Scrapy's own filter is used only for a request that is new in this run.
        """
        offer = frontier.offer(request.url)
        if isinstance(offer, Accepted):
            self._queues[offer.queue].waiting.append(request)
            self._count_in("mercator")
            self._take(frontier, offer.queue)
        elif offer is Refusal.FULL:
            self._overflow.append(request)
            self._length += 1
        elif request.dont_filter and offer is not Refusal.CLOSED:
            self._store_plain(request)
        elif offer in (Refusal.SEEN, Refusal.CLOSED):
            self.df.log(request, self.spider)
            return False
        elif offer is Refusal.FILTERED:
            self.stats.inc_value("mercator/filtered")
            return False
        else:
            # The frontier rejects the URL. If the downloader does too, it calls the errback.
            return self._store_unknown(request, is_new)
        return True

    def _store_unknown(self, request: Request, is_new: bool = True) -> bool:
        """Store a request outside the frontier, unless Scrapy's own filter has seen it."""
        if is_new and not request.dont_filter and self.df.request_seen(request):
            self.df.log(request, self.spider)
            return False
        if self._store is not None and getattr(self.df, "file", None):
            self.df.file.flush()  # Scrapy's filter buffers its file in JOBDIR
        self._store_plain(request)
        return True

    def _store_plain(self, request: Request) -> None:
        self._line_up(_PLAIN, request)
        self._count_in("memory")

    def _line_up(self, queue: int, request: Request) -> None:
        self._entries += 1
        heappush(self._ready, (-request.priority, self._entries, queue, request))

    def _count_in(self, place: str) -> None:
        self._length += 1
        self.stats.inc_value(f"scheduler/enqueued/{place}")
        self.stats.inc_value("scheduler/enqueued")

    # ---- outgoing requests

    def _send(self) -> Optional[Request]:
        """Return the first request whose host is free."""
        while self._ready:
            entry = heappop(self._ready)
            _, _, queue, request = entry
            host = _host_of(request)
            if host in self._busy:
                heappush(self._blocked.setdefault(host, []), entry)
                continue
            if host:
                self._busy.add(host)
            self._out[request] = queue
            self._length -= 1
            place = "memory" if queue == _PLAIN else "mercator"
            self.stats.inc_value(f"scheduler/dequeued/{place}")
            self.stats.inc_value("scheduler/dequeued")
            return request
        return None

    def _take(self, frontier: Frontier, number: int) -> None:
        """If a queue of the frontier is free, take its next URL, and line up the request for it."""
        queue = self._queues[number]
        if queue.taken is not None or not queue.waiting:
            return
        url = frontier.try_take(number)
        request = queue.waiting.popleft()
        if not isinstance(url, str):
            raise FrontierError(f"queue {number} of the frontier has no URL for {request}")
        taken = _with_url(request, url)
        if self._store is not None:
            self._store.replace(request, taken)
        queue.taken = queue.out = taken
        self._queue_by_url[taken.url] = number
        self._line_up(number, taken)

    # ---- finished requests

    def _finish_fetches(self, frontier: Frontier) -> None:
        """Finish the requests that the downloader no longer has; with JOBDIR, the engine.

        No signal reports the end of every fetch. `request_left_downloader` is not sent if a
        downloader middleware answers or drops the request (a cache, robots.txt),
        `response_received` is not sent for a failure, a retry or a redirect, and `spider_idle` is
        not sent while other requests are waiting. But the downloader has a set of active requests,
        by which the engine itself decides whether a spider is idle. A request is in this set from
        the moment that the engine takes it until its last middleware has returned, whatever the
        result. After that, the engine calls `next_request`. If a middleware returned a retry, the
        engine has stored it by then.

        So a URL is done before its callback runs, and before its links are offered. That is safe,
        because the frontier closes only after the seeds have ended, and those end in `close`, when
        Scrapy has found the spider idle. Waiting for the callback would keep each host idle while
        its pages are parsed.

        With JOBDIR, a kill between the two would lose the links. So a URL is done when the engine
        has no work for it: its callback has ended, and its requests and items were handled.
        """
        engine = self.crawler.engine
        active = engine.downloader.active if self._store is None else engine.slot.inprogress
        over = [request for request in self._out if request not in active]
        for request in over:
            number = self._out.pop(request)
            self._free(_host_of(request))
            if number != _PLAIN:
                self._finish(frontier, number)
            elif self._store is not None:
                self._store.finish(request)
        if over:
            self._offer_overflow(frontier)

    def _finish(self, frontier: Frontier, number: int) -> None:
        """Finish a request for the URL in progress of a queue: retry it, or report it as done."""
        queue = self._queues[number]
        if queue.retries:
            queue.out = queue.retries.popleft()
            self._line_up(number, queue.out)
            return
        taken = queue.taken
        assert taken is not None
        frontier.done(number)
        if self._store is not None:
            self._store.finish(taken)
        del self._queue_by_url[taken.url]
        queue.taken = queue.out = None
        self._take(frontier, number)

    def _free(self, host: str) -> None:
        """Mark a host as free, and make one of the entries that wait for it ready.

        The next one follows when that request has ended, so that a host with many requests does
        not move all of them each time.
        """
        self._busy.discard(host)
        blocked = self._blocked.get(host)
        if blocked:
            heappush(self._ready, heappop(blocked))
            if not blocked:
                del self._blocked[host]

    def _offer_overflow(self, frontier: Frontier) -> None:
        """Offer the requests again that the frontier had no room for, until it is full again."""
        for _ in range(len(self._overflow)):
            request = self._overflow.popleft()
            self._length -= 1
            is_kept = self._offer(frontier, request)
            if self._overflow and self._overflow[-1] is request:
                self._overflow.rotate(1)  # keep it first
                return
            if not is_kept and self._store is not None:
                self._store.finish(request)

    def _give_up(self, frontier: Frontier, error: Exception) -> None:
        """Close the spider, since without the frontier no duplicate can be recognized."""
        logger.critical("The frontier ended, so the spider is closed: %s", error)
        self._frontier = None
        self._is_lost = True
        frontier.close()
        # Not during this call, after which the engine still uses the spider.
        from twisted.internet import reactor
        reactor.callLater(0, self._close_spider)  # type: ignore[attr-defined]

    def _close_spider(self) -> None:
        if self.crawler.engine.slot is not None:
            self.crawler.engine.close_spider(self.spider, "mercator_ended")


def _is_page(request: Request) -> bool:
    """Return whether a request is for the frontier: a GET of an http or https URL, and no body."""
    scheme, _, _ = str(request.url).partition(":")
    is_web = scheme.lower() in ("http", "https")
    return is_web and request.method == "GET" and not request.body


def _with_url(request: Request, url: str) -> Request:
    """Return the request with the URL that the frontier gave out for it.

    Only this URL counts as seen, and a server may have another page, or none, for another spelling.
    """
    if request.url == url:
        return request
    request = request.replace(url=url)
    request._url = url  # Request may have escaped more than the URL Standard does
    return request


def _in_another_run(request: Request) -> Request:
    """Return a start request of a crawl that is resumed: it is filtered if it is for a page."""
    if not _is_page(request) or request.meta.get("mercator_each_run"):
        return request
    return request.replace(dont_filter=False)


def _drained(frontier: Frontier, queue: int) -> Iterator[str]:
    """Take all URLs of a queue."""
    while isinstance(url := frontier.try_take(queue), str):
        yield url
        frontier.done(queue)


def _by_canonical_url(requests: Iterable[Request], program: Optional[str]) -> Dict[str, Request]:
    """Return the first request for each page, by its canonical URL.

    The canonical URL is what a frontier gives out for the URL.
    """
    by_url = {}
    with Frontier(1, program=program) as frontier:
        for request in filter(_is_page, requests):
            if frontier.offer(request.url):
                by_url.update((url, request) for url in _drained(frontier, 0))
    return by_url


def _host_of(request: Request) -> str:
    """Return the host of a request, or an empty string if it has none."""
    try:
        return _known_as(urlparse_cached(request).hostname or "")
    except ValueError:
        return ""


@lru_cache(maxsize=4_096)
def _known_as(host: str) -> str:
    """Return a host in the form of the URL Standard, as far as the standard library can.

    The frontier assigns queues by its own canonical hosts. This form only decides whether a plain
    request has the same host as another request.
    """
    host = unquote(host)
    try:
        host = host.encode("idna").decode("ascii").lower()
        # `127.1`, `0x7f000001` and `2130706433` are one address.
        return socket.inet_ntoa(socket.inet_aton(host)) if _NUMBER_LAST.search(host) else host
    except (OSError, UnicodeError):
        return host


def _dupefilter_of(crawler: Crawler) -> Any:
    kind = load_object(crawler.settings["DUPEFILTER_CLASS"])
    if hasattr(kind, "from_crawler"):
        return kind.from_crawler(crawler)
    if hasattr(kind, "from_settings"):
        return kind.from_settings(crawler.settings)
    return kind()
