"""A scheduler that takes URLs from the queues of a frontier, and threads that fetch them.

- Only the scheduler uses the frontier. It knows when each site may be visited, and which sites have
  URLs in a queue. If the next URL of a queue has to wait, and another one need not or is new, it is
  put back to the end of the queue. Otherwise the queue waits, which needs no thread.
- If a page fails for a reason that may pass, its URL is put back too, and is tried again after a
  pause. The pause doubles each time. The frontier does not count the tries, so they are counted
  here, and anew after a restart.
- Links that are refused because too many URLs are unfinished are kept, and are offered again when a
  URL is done.
"""

from __future__ import annotations

import math
import sys
import threading
import time
from collections import Counter, deque
from contextlib import suppress
from heapq import heappop, heappush
from pathlib import Path
from queue import Empty, SimpleQueue
from typing import Callable, Deque, Dict, List, NamedTuple, Tuple, Union

sys.path.insert(0, str(Path(__file__).resolve().parent.parent / "clients" / "python"))
from mercator_frontier import Accepted, Closed, Frontier, Pending, Refusal

# The statuses of pages that are tried again. `failed` means that there was no response.
TEMPORARY = {"failed", "408", "429", "500", "502", "503", "504"}


class Visit(NamedTuple):
    """The result of fetching a URL."""

    status: str
    base: str  # the URL that the links are resolved against
    texts: List[str]  # the links as they are written in the page


# The result or the exception of a fetch; None if the URL has to wait.
Outcome = Union[Visit, Exception, None]


class Queue:
    """What the scheduler knows about a queue of the frontier."""

    def __init__(self, number: int) -> None:
        self.number = number
        self.url = ""  # the URL in progress, if there is one
        self.is_fetching = False
        self.until = 0.0  # the end of its wait, if it waits for a time
        # What each URL in the queue waits for, by `Crawl.key_of`; "" if the URL is new. An entry of
        # `count` is never 0.
        self.keys: Deque[str] = deque()
        self.count: Counter[str] = Counter()

    def push(self, key: str = "") -> None:
        """Note that a URL was added to the queue."""
        self.keys.append(key)
        self.count[key] += 1

    def pop(self, url: str) -> None:
        """Note that a URL was taken from the queue."""
        self.url = url
        key = self.keys.popleft()
        self.count[key] -= 1
        if not self.count[key]:
            del self.count[key]


class Crawl:
    """A crawl that fetches from all queues of a frontier, one URL of a queue at a time.

    The crawl can end when the seeds have ended, so these end only after all accepted URLs are done
    and no refused link is kept. This requires a `max_pending` of at least 2.
    """

    def __init__(
        self,
        frontier: Frontier,
        fetch: Callable[[int, str], Visit],
        pages: int = 0,
        *,
        ready_at: Callable[[int, str], float] = lambda queue, url: 0.0,
        retries: int = 0,
        pause: float = 1.0,
    ) -> None:
        """Create a crawl. The first two functions are called in threads.

        fetch     fetches a URL of a queue
        ready_at  returns when a URL of a queue may be fetched, by time.monotonic()
        pages     stop after this number of URLs, unless it is 0
        retries   how often a URL is tried again if its status is in TEMPORARY
        pause     seconds before the first of these tries
        """
        self.frontier, self.fetch, self.ready_at = frontier, fetch, ready_at
        self.left, self.retries, self.pause = pages or math.inf, retries, pause
        self.queues = [Queue(number) for number in range(frontier.workers)]
        self.is_over = False
        self.kept: Deque[Tuple[str, str]] = deque()  # the base and the text of each link
        self.tries: Dict[str, int] = {}  # how many tries of a URL have failed
        self.due: Dict[str, float] = {}  # when a site may be visited, or such a URL tried again
        self.waits: List[Tuple[float, int]] = []  # a heap of the queues that wait for a time
        self.threads = self.fetching = 0
        self.jobs: SimpleQueue[Queue] = SimpleQueue()
        self.results: SimpleQueue[Tuple[Queue, Outcome, float]] = SimpleQueue()

    def run(self, seeds: List[str]) -> bool:
        """Crawl until no URL is left, or the crawl is stopped. Return whether no URL is left."""
        with suppress(KeyboardInterrupt):
            self.start(seeds)
            while not self.is_over and self.left:
                self.step()
        if self.kept:
            print(f"crawl_http: {len(self.kept)} links lost, the frontier is full", file=sys.stderr)
        return self.is_over

    def start(self, seeds: List[str]) -> None:
        """Offer the seeds, and take the first URL of each queue."""
        for seed, offer in zip(seeds, self.frontier.offer_all(seeds)):
            if offer is Refusal.FULL:
                self.kept.append((seed, ""))
            # A resumed crawl has seen its seeds before, or is over.
            elif isinstance(offer, Refusal) and offer not in (Refusal.SEEN, Refusal.CLOSED):
                print(f"crawl_http: seed {seed}: {offer.value}", file=sys.stderr)
        for queue in self.queues:
            stats = self.frontier.stats(queue.number)
            for _ in range(stats.in_progress + stats.waiting):
                queue.push()
            self.advance(queue)

    def step(self) -> None:
        """Go on with the first queue that has waited long enough, and with the next result."""
        seconds = self.waits[0][0] - time.monotonic() if self.waits else None
        if seconds is not None and seconds <= 0:
            until, number = heappop(self.waits)
            if self.queues[number].until == until:
                self.advance(self.queues[number])
            seconds = 0.0
        with suppress(Empty):
            self.handle(*self.results.get(timeout=seconds))

    def advance(self, queue: Queue) -> None:
        """Fetch the next URL of a queue, put it back, or wait."""
        queue.until = 0.0
        if not queue.url and not self.take(queue):
            return
        now = time.monotonic()
        if self.time_of(self.key_of(queue.url)) <= now:
            queue.is_fetching = True
            self.fetching += 1
            if self.fetching > self.threads:
                self.threads += 1
                threading.Thread(target=self.work, daemon=True).start()
            return self.jobs.put(queue)
        if any(self.time_of(key) <= now for key in queue.count):
            self.put_back(queue)
            queue.until = now
        else:
            queue.until = min(map(self.time_of, [self.key_of(queue.url), *queue.count]))
        heappush(self.waits, (queue.until, queue.number))

    def take(self, queue: Queue) -> bool:
        """Take the next URL of a queue, if there is one."""
        url = self.frontier.try_take(queue.number)
        # The seeds count as one unfinished URL.
        if url == Pending(1) and not self.kept and self.frontier.end_seeds() is not None:
            url = self.frontier.try_take(queue.number)
        if isinstance(url, str):
            queue.pop(url)
        self.is_over = url is Closed.CLOSED
        return isinstance(url, str)

    def put_back(self, queue: Queue) -> None:
        self.frontier.later(queue.number)
        queue.push(self.key_of(queue.url))
        queue.url = ""

    def key_of(self, url: str) -> str:
        """Return what a URL waits for: its site, or itself if a try of it has failed."""
        return url if url in self.tries else site_of(url)

    def time_of(self, key: str) -> float:
        """Return when the wait is over, by time.monotonic()."""
        return max(self.due.get(key, 0.0), self.due.get(site_of(key), 0.0))

    def work(self) -> None:
        """Fetch one URL after another, in a thread."""
        while True:
            queue = self.jobs.get()
            outcome: Outcome = None
            next_at = 0.0
            try:
                if self.ready_at(queue.number, queue.url) <= time.monotonic():
                    outcome = self.fetch(queue.number, queue.url)
                next_at = self.ready_at(queue.number, queue.url)
            except Exception as error:
                outcome = error
            self.results.put((queue, outcome, next_at))

    def handle(self, queue: Queue, outcome: Outcome, next_at: float) -> None:
        """Finish a URL, or put it back. `next_at` is when its site may be visited again."""
        if isinstance(outcome, Exception):
            raise outcome
        queue.is_fetching = False
        self.fetching -= 1
        self.due[site_of(queue.url)] = next_at
        if outcome is not None:
            tries = self.tries.pop(queue.url, 0)
            if outcome.status not in TEMPORARY or tries == self.retries:
                return self.finish(queue, outcome)
            self.tries[queue.url] = tries + 1
            self.due[queue.url] = time.monotonic() + self.pause * 2 ** tries
            self.put_back(queue)
        self.advance(queue)

    def finish(self, queue: Queue, visit: Visit) -> None:
        """Offer the links of a page, print a line, and finish the URL."""
        offers = self.frontier.links(visit.base, visit.texts)
        print(visit.status, sum(map(bool, offers)), queue.url, flush=True)
        refused = [text for text, offer in zip(visit.texts, offers) if offer is Refusal.FULL]
        self.kept += [(visit.base, text) for text in refused]
        self.frontier.done(queue.number)
        while self.kept and (offer := self.frontier.link(*self.kept[0])) is not Refusal.FULL:
            offers.append(offer)
            self.kept.popleft()
        self.due.pop(queue.url, None)
        queue.url = ""
        self.left -= 1
        accepted = [self.queues[offer.queue] for offer in offers if isinstance(offer, Accepted)]
        for other in accepted:
            other.push()
        for other in {queue, *accepted}:
            if not other.is_fetching:
                self.advance(other)


def site_of(url: str) -> str:
    """Return the scheme, the host and the port of a URL."""
    return "/".join(url.split("/", 3)[:3])
