"""Tests of crawls of generated sites by the Python client, in threads and in asyncio."""

from __future__ import annotations

import asyncio
import os
import signal
import threading
from collections import Counter
from concurrent.futures import ThreadPoolExecutor
from random import Random
from typing import List, Optional, Set
from urllib.parse import urljoin

import drawn
from mercator_frontier import Frontier, FrontierEnded
from serving.clients import pid_of
from serving.trial import SECONDS, Differs, Trial, expect


class Web:
    """Pages on random hosts, with links in many spellings, and the URLs that a search finds."""

    def __init__(self, draw: Random) -> None:
        hosts = draw.randrange(1, 30)
        urls = [f"http://h{draw.randrange(hosts)}.test/d/{number}" for number in range(draw.randrange(20, 400))]
        self.links = {url: [self.spelled(draw, url, draw.choice(urls)) for _ in range(draw.randrange(6))] for url in urls}
        self.seeds = urls[:2]
        self.reached: Set[str] = set(self.seeds)
        rest = list(self.seeds)
        while rest:
            url = rest.pop()
            for text in self.links[url]:
                link = drawn.url_or_none(text, drawn.url_of(url))
                if link and str(link) in self.links and str(link) not in self.reached:
                    self.reached.add(str(link))
                    rest.append(str(link))

    @staticmethod
    def spelled(draw: Random, page: str, url: str) -> str:
        host, path = url[7:].split("/", 1)
        texts = [url, f"HTTP://{host.upper()}:80/x/../{path}#part", f"//{host}/./{path}", "mailto:x", "http://o.other/", "//["]
        return draw.choice([*texts, f"/{path}", f"../{path}#f"] if page[7:].split("/")[0] == host else texts)


class Crawl:
    """A crawl in threads, which may be killed and resume."""

    def __init__(self, web: Web, trial: Trial) -> None:
        self.web, self.trial = web, trial
        self.lock = threading.Lock()
        self.fetched: Counter[str] = Counter()
        self.hosts: Counter[str] = Counter()
        self.in_hands: Counter[str] = Counter()
        self.wrong: List[str] = []
        self.closed = 0  # the number of fetchers that saw the end of the crawl
        self.ended = threading.Event()

    def work(self, frontier: Frontier, queue: int) -> None:
        try:
            while True:
                url = frontier.take(queue)
                if url is None:
                    break
                self.fetch(frontier, queue, url)
        except FrontierEnded:
            return
        except BaseException as error:
            self.wrong.append(repr(error))
        else:
            with self.lock:
                self.closed += 1

    def fetch(self, frontier: Frontier, queue: int, url: str) -> None:
        host = url.split("/")[2]
        with self.lock:
            self.fetched[url] += 1
            self.in_hands[url] += 1
            self.hosts[host] += 1
            if self.hosts[host] > 1:
                self.wrong.append(f"two fetchers at {host}")
        texts = self.web.links.get(url, [])
        with self.lock:
            self.hosts[host] -= 1
        if self.trial.has_link:
            frontier.links(url, texts)
        else:
            frontier.offer_all(urljoin(url, text) if text != "//[" else text for text in texts)
        frontier.done(queue)
        with self.lock:
            self.in_hands[url] -= 1

    def kill(self, pid: int, after: int, seconds: float) -> None:
        """Kill the program a number of seconds after a number of fetches."""
        after += sum(self.fetched.values())
        while sum(self.fetched.values()) < after and not self.ended.wait(0.0005):
            pass
        if not self.ended.wait(seconds):
            os.kill(pid, signal.SIGKILL)

    def run(self, workers: int, log: Optional[str] = None, after: int = 0, seconds: float = 0.0) -> bool:
        """Crawl, and kill the program after a number of fetches unless it is 0. Return whether the crawl was completed."""
        self.closed = 0
        self.ended.clear()
        with Frontier(workers, within="test", log=log, program=self.trial.program) as frontier:
            fetchers = [threading.Thread(target=self.work, args=(frontier, queue), daemon=True) for queue in range(workers)]
            killer = threading.Thread(target=self.kill, args=(pid_of(frontier), after, seconds), daemon=True)
            for thread in [killer, *fetchers] if after else fetchers:
                thread.start()
            try:
                frontier.offer_all(self.web.seeds)
                frontier.end_seeds()
            except FrontierEnded:
                expect(after > 0, "the program ended by itself")
            for fetcher in fetchers:
                fetcher.join(SECONDS)
                expect(not fetcher.is_alive(), "a fetcher waits forever")
            self.ended.set()
            if after:
                killer.join()
        expect(not self.wrong, f"{self.wrong[:3]}")
        return self.closed == workers


def crawls(trial: Trial) -> None:
    """Each URL is fetched once, each host by one fetcher at a time, and each fetcher sees the end of the crawl."""
    for number in range(10):
        draw = trial.draw(f"crawl {number}")
        for workers in (1, 2, 7, 64):
            crawl = Crawl(Web(draw), trial)
            expect(crawl.run(workers), "a fetcher did not see the end of the crawl")
            expect(crawl.fetched == Counter(crawl.web.reached), f"crawl {number} of {workers}: other URLs")


def asyncio_crawls(trial: Trial) -> None:
    """A crawl with one task per queue, and more queues than asyncio has threads. If a task fails, the crawl ends."""
    trial.require_link()
    web = Web(trial.draw("asyncio"))
    fetched = asyncio.run(crawl_by_tasks(web, trial.program, 64))
    expect(sorted(fetched) == sorted(web.reached), "other URLs")
    try:
        asyncio.run(crawl_by_tasks(web, trial.program, 64, gives_up=True))
    except ZeroDivisionError:
        return
    raise Differs("a task that fails does not end the crawl")


async def crawl_by_tasks(web: Web, program: str, workers: int, gives_up: bool = False) -> List[str]:
    """Crawl with one task per queue, and return the fetched URLs."""
    fetched: List[str] = []
    loop = asyncio.get_running_loop()

    async def work(queue: int) -> None:
        while (url := await loop.run_in_executor(threads, frontier.take, queue)) is not None:
            fetched.append(url)
            await asyncio.sleep(0.001 / (not gives_up))
            frontier.links(url, web.links[url])
            frontier.done(queue)

    with ThreadPoolExecutor(workers) as threads, Frontier(workers, within="test", program=program) as frontier:
        frontier.offer_all(web.seeds)
        frontier.end_seeds()
        await asyncio.wait_for(asyncio.gather(*map(work, range(workers))), SECONDS)
    return fetched


def killed_crawls(trial: Trial) -> None:
    """A crawl is killed again and again, and resumes from its log.

    Each URL is fetched; only those that were in progress at a kill may be fetched more than once.
    """
    trial.require_log()
    kills = again = number = 0
    while kills < trial.options.kills and number < 1000:
        number += 1
        draw = trial.draw(f"killed {number}")
        crawl = Crawl(Web(draw), trial)
        log = str(trial.folder / f"killed-{number}.log")
        is_torn = number % 4 == 3  # simulate a crash of the machine: the end of the log is lost
        may: Counter[str] = Counter(crawl.web.reached)
        workers = draw.choice((1, 2, 7, 16))
        while not crawl.run(workers, log, draw.randrange(1, 60), draw.random() / 200):
            kills += 1
            may += crawl.in_hands
            crawl.in_hands.clear()
            crawl.hosts.clear()
            if is_torn:
                tear(log, draw.randrange(200))
        again += sum(crawl.fetched.values()) - len(crawl.fetched)
        expect(set(crawl.fetched) == crawl.web.reached, f"killed {number}: {len(crawl.fetched)} of {len(crawl.web.reached)} URLs")
        expect(is_torn or not crawl.fetched - may, f"killed {number}: twice: {crawl.fetched - may}")
    print(f"  {kills} kills; {again} URLs were fetched again")


def tear(log: str, lost: int) -> None:
    """Cut bytes off a log, but not off its first line, which was synced before any answer."""
    with open(log, "rb") as file:
        least = len(file.readline())
    os.truncate(log, max(least, os.path.getsize(log) - lost))
