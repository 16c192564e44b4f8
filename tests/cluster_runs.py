#!/usr/bin/python3
"""Test crawls that K parts share over Redis, with failures, and compare the URLs that they fetch.

The sites are generated, and most tests read them without HTTP. The URLs to fetch are those that
`mercator crawl` reports, or those of a search by this script if the program has no `crawl`. The
program needs `serve --part` and `--log`; `tests/serving/fake.py`, a frontier in Python, has them.

Each part is a process of this script with its frontier. Redis listens on a free port of the
loopback, uses a folder of its own, and is ended afterwards. The environment variable SECONDS is the
time limit of a crawl (default: 120). The test `speed` prints figures.

The last line is `N passed, M failed`; the exit status is 1 if a test failed or none ran.
"""

from __future__ import annotations

import argparse
import itertools
import json
import logging
import os
import random
import select
import shutil
import signal
import socket
import subprocess
import sys
import tempfile
import time
import traceback
import tracemalloc
from collections import Counter, defaultdict
from pathlib import Path
from typing import Any, Callable, Dict, Iterable, List, NamedTuple, Optional, Set, Tuple, Type
from unittest import mock

ROOT = Path(__file__).resolve().parent.parent
sys.path[:0] = [str(ROOT / "tests"), str(ROOT / "clients/python")]
import mercator_cluster  # noqa: E402
import redis  # noqa: E402
from mercator_cluster import (  # noqa: E402
    Crawl, Cut, Fetched, OtherCrawl, Part, Taken, UnsafeRedis, run,
)
from mercator_frontier import FrontierEnded  # noqa: E402
from serving.crawlers import Folder, found_by_search  # noqa: E402
from serving.trial import SECONDS, Differs, expect  # noqa: E402

END = " ."  # of a record of a URL that is about to be fetched
LONG = "\u00fc" * 1500
BUILT = ROOT / "crates/mercator_cli/out/mercator_cli"
# The exit statuses of the process of a part.
COMPLETE, FRONTIER_DIED, FAULT = 0, 3, 1


# ---------------------------------------------------------------- webs


class Web(NamedTuple):
    """Pages with the texts of their links. A URL without a page is fetched too."""

    pages: Dict[str, List[str]]
    seeds: List[str]

    def saved(self) -> bytes:
        lines = ["savedweb 2"]
        for url, texts in sorted(self.pages.items()):
            lines += [f"page {url}", *(f"link {text}" for text in texts)]
        return ("\n".join(lines) + "\n").encode()


def random_web(draw: random.Random, hosts: int, pages: int) -> Web:
    """Return a random site: links in several spellings, missing pages, hosts of all parts."""
    urls = [f"http://h{draw.randrange(hosts)}.test/d/{number}" for number in range(pages)]
    links: Dict[str, List[str]] = {url: [] for url in urls}
    for number, url in enumerate(urls):
        # Page n is linked from page (n - 1) // 2, so all pages can be reached from the first.
        linked = [urls[child] for child in (2 * number + 1, 2 * number + 2) if child < pages]
        linked += [draw.choice(urls) for _ in range(draw.randrange(4))]
        links[url] = [spelled(draw, url, link) for link in linked]
    return Web(links, draw.sample(urls[:2], 2))


def spelled(draw: random.Random, page: str, url: str) -> str:
    host, path = url[7:].split("/", 1)
    texts = [url, url, f"HTTP://{host.upper()}:80/x/../{path}#part", f"//{host}/./\r{path}"]
    if draw.randrange(8) == 0:
        # The canonical form of the last one has three times as many bytes, too many for a request.
        texts = [f"http://{host}/gone/{draw.randrange(9)}", "mailto:x", "http://o.other/", "x y",
                 f"http://{host}/{LONG}"]
    elif page[7:].split("/")[0] == host:
        texts += [f"/{path}", f"../{path}#f", path[2:]]
    return draw.choice(texts)


def plain_web(pages: int, hosts: int, links: int, seed: int = 1) -> Web:
    """Return a site of many pages with links to random pages, for the test `speed`."""
    draw = random.Random(seed)
    urls = [f"http://host{draw.randrange(hosts)}.test/pages/{page}.html" for page in range(pages)]
    web: Dict[str, List[str]] = {}
    for number, url in enumerate(urls):
        linked = [urls[child] for child in (2 * number + 1, 2 * number + 2) if child < pages]
        web[url] = linked + [urls[draw.randrange(pages)] for _ in range(links - len(linked))]
    return Web(web, urls[:1])


def expected_of(web: Web, program: str, folder: Path) -> Dict[str, bool]:
    """Return each URL that has to be fetched, and whether it is a page, by `mercator crawl`."""
    file = folder / "web"
    file.write_bytes(web.saved())
    words = [program, "crawl", "--within", "test", str(file), *web.seeds]
    done = subprocess.run(words, capture_output=True, timeout=SECONDS, check=False)
    if done.returncode == 0:
        lines = [line.split(" ") for line in done.stdout.decode().splitlines()[:-1]]
        return {line[-1]: line[0] == "ok" for line in lines}
    return searched(web)


def searched(web: Web) -> Dict[str, bool]:
    """Return the same as `expected_of`, by a search of this script."""
    import drawn
    found: Dict[str, bool] = {}
    rest = list(web.seeds)
    while rest:
        url = rest.pop()
        if url not in found:
            found[url] = url in web.pages
            base = drawn.url_of(url)
            links = [drawn.url_or_none(text, base) for text in web.pages.get(url, ())]
            rest += [str(link) for link in links if link and f".{link.host}".endswith(".test")]
    return found


# ---------------------------------------------------------------- Redis


class Server:
    """A Redis on a free port of the loopback, in a folder of its own."""

    def __init__(self, folder: Path) -> None:
        self.folder = folder / "redis"
        self.folder.mkdir()
        with socket.socket() as free:
            free.bind(("127.0.0.1", 0))
            self.port = free.getsockname()[1]
        self.url = f"redis://127.0.0.1:{self.port}/0"
        self.start()

    def start(self) -> None:
        self.process = subprocess.Popen(
            ["redis-server", "--port", str(self.port), "--bind", "127.0.0.1", "--save", "",
             "--dir", str(self.folder), "--appendonly", "yes", "--appendfsync", "everysec",
             "--unixsocket", str(self.folder / "socket"), "--maxmemory-policy", "noeviction"],
            stdout=subprocess.DEVNULL,
        )
        end = time.monotonic() + SECONDS
        self.client = redis.Redis(port=self.port)
        while True:
            try:
                self.run_id: str = self.client.info("server")["run_id"]
                # This fails while Redis still loads its files.
                self.client.ping()
                return
            except redis.RedisError:
                is_alive = self.process.poll() is None
                expect(time.monotonic() < end and is_alive, "Redis does not start")
                time.sleep(0.02)

    def lose(self, everything: bool) -> None:
        """Kill it, and start it again with its files or, if `everything` is lost, without."""
        self.process.kill()
        self.process.wait()
        if everything:
            shutil.rmtree(self.folder / "appendonlydir", ignore_errors=True)
        self.start()

    def empty(self) -> None:
        self.client.flushall()

    def processor(self) -> float:
        used = self.client.info("cpu")
        return float(used["used_cpu_user"] + used["used_cpu_sys"])

    def end(self) -> None:
        self.process.terminate()
        self.process.wait()


# ---------------------------------------------------------------- one part, in a process of its own


class Faults(NamedTuple):
    """The failures in a crawl."""

    kills: int = 0  # kills of parts: of the client, its frontier, or both
    losses: int = 0  # kills of Redis; every second time it keeps its files
    flushes: int = 0  # how many times Redis is emptied while it runs
    is_twice: bool = False  # every entry is sent twice
    late: float = 0.0  # the share of the sent URLs that are delayed by up to 50 ms


class Shared(NamedTuple):
    """The settings of all processes of a crawl."""

    crawl: Crawl
    web: Web
    faults: Faults
    program: str
    folder: Path
    max_pending: Optional[int] = None
    is_synced: bool = False
    has_threads: bool = False


class Held(NamedTuple):
    """A line that is delayed, and its time."""

    due: float
    to: int
    line: bytes
    owners: List[Any]


class FaultyOutbox(mercator_cluster._Outbox):
    """An outbox that sends entries twice and lines late."""

    def __init__(self, mine: int, faults: Faults) -> None:
        super().__init__(mine)
        self.faults = faults
        self.held: List[Held] = []

    def __bool__(self) -> bool:
        return bool(self.held) or super().__bool__()

    def send(self, pipe: Any, streams: List[str]) -> None:
        self.release()
        self.hold()
        lines = self._lines
        super().send(pipe, streams)
        if self.faults.is_twice:
            sendings = self._sendings.copy()
            self._lines = lines
            super().send(pipe, streams)
            self._sendings = sendings

    def release(self) -> None:
        now = time.monotonic()
        for held in self.held:
            if held.due <= now:
                lines = self._lines.setdefault(held.to, {})
                lines.setdefault(held.line, []).extend(held.owners)
        self.held = [held for held in self.held if held.due > now]

    def hold(self) -> None:
        for to, lines in self._lines.items():
            for line in [line for line in lines if random.random() < self.faults.late]:
                due = time.monotonic() + random.random() / 20
                self.held.append(Held(due, to, line, lines.pop(line)))
        self._lines = {to: lines for to, lines in self._lines.items() if lines}


def started(shared: Shared, part: int) -> Part:
    made = Part(
        shared.crawl, part, shared.folder / f"log.{part}", shared.web.seeds if part == 0 else (),
        max_pending=shared.max_pending, sync=shared.is_synced, program=shared.program,
    )
    made._outbox = FaultyOutbox(part, shared.faults)  # the outbox of a ready part is empty
    process = made._frontier._channel._process
    (shared.folder / f"frontier.{part}").write_text(str(process.pid))
    (shared.folder / f"redis.{part}").write_text(made._broker._ready.partition(":ready:")[2])
    return made


def records(taken: Iterable[Tuple[int, str]]) -> str:
    """Lines of URLs that are about to be fetched. One that is cut off, since its process was killed, has no end, and its URL was not fetched."""
    return "".join([f"\n{queue} {url}{END}" for queue, url in taken])


def work(shared: Shared, part: int) -> None:
    """Run a part until the crawl is complete. Each URL is recorded before it is fetched."""
    pages = shared.web.pages
    file = os.open(shared.folder / f"fetched.{part}", os.O_WRONLY | os.O_CREAT | os.O_APPEND)

    def fetch(queue: int, url: str) -> Tuple[str, List[str]]:
        os.write(file, records([(queue, url)]).encode())
        return url, pages.get(url, [])

    if shared.has_threads:
        run(lambda: started(shared, part), fetch)
        return
    begun, counts = time.monotonic(), Counter[str]()
    while True:
        try:
            with started(shared, part) as made:
                fetched: List[Fetched] = []
                while True:
                    taken = made.round(fetched)
                    if taken is None:
                        break
                    os.write(file, records(taken).encode())
                    fetched = [Fetched(queue, url, pages.get(url, [])) for queue, url in taken]
                counts.update(vars(made.counts))
            break
        except Cut:
            time.sleep(0.02)
    times = os.times()
    figures = {
        **counts, "seconds": time.monotonic() - begun, "client": times.user + times.system,
        "frontier": times.children_user + times.children_system,
    }
    (shared.folder / f"figures.{part}").write_text(json.dumps(figures))


def forked(shared: Shared, part: int) -> int:
    """Run a part in a process of its own, and return its number."""
    process = os.fork()
    if process:
        return process
    status = FAULT
    try:
        random.seed()
        work(shared, part)
        status = COMPLETE
    except FrontierEnded:
        status = FRONTIER_DIED
    except BaseException:
        traceback.print_exc()
    finally:
        os._exit(status)


# ---------------------------------------------------------------- a crawl


class Stopped(NamedTuple):
    parts: int = 0  # how many times a part was stopped, by a kill or by the loss of Redis
    redis: int = 0  # how many times Redis was killed


class Crawling:
    """The processes of a crawl's parts, which are killed at random moments like Redis."""

    def __init__(self, shared: Shared, server: Server, draw: random.Random) -> None:
        self.shared, self.server, self.draw = shared, server, draw
        self.parts = {part: forked(shared, part) for part in range(shared.crawl.parts)}
        self.stopped = self.losses = 0

    def run(self, expected: Iterable[str]) -> Stopped:
        """Run all parts until the crawl is complete, with failures at random moments."""
        faults, folder = self.shared.faults, self.shared.folder
        whole = sum(len(url) + 3 for url in expected)
        what = ["part"] * faults.kills + ["redis"] * faults.losses + ["keys"] * faults.flushes
        moments = sorted((self.draw.random() * whole, word) for word in what)
        end = time.monotonic() + SECONDS
        try:
            while self.parts:
                expect(time.monotonic() < end, f"the crawl did not end within {SECONDS} s")
                self.reap()
                if moments and self.parts and so_far(folder) >= moments[0][0]:
                    time.sleep(self.draw.random() / 100)
                    self.strike(moments.pop(0)[1])
                else:
                    time.sleep(0.001 if moments else 0.005)
        finally:
            for process in self.parts.values():  # some are left only if something failed
                os.kill(process, signal.SIGKILL)
                os.waitpid(process, 0)
        return Stopped(self.stopped, self.losses)

    def reap(self) -> None:
        """Start ended processes again, unless their part finished with the current Redis."""
        for part, process in list(self.parts.items()):
            ended, status = os.waitpid(process, os.WNOHANG)
            if not ended:
                continue
            del self.parts[part]
            if os.WIFSIGNALED(status) or os.WEXITSTATUS(status) == FRONTIER_DIED:
                self.stopped += 1
                self.parts[part] = forked(self.shared, part)
                continue
            expect(status == 0, f"part {part} ended with {status}")
            if (self.shared.folder / f"redis.{part}").read_text() != self.data():
                # Redis was killed or emptied after the part had finished, so it lacks its data.
                self.parts[part] = forked(self.shared, part)

    def data(self) -> str:
        """Return the name of the data that Redis has: of its process, and of its keys."""
        epoch = self.server.client.get(f"{{{self.shared.crawl.name}}}:epoch") or b""
        return f"{self.server.run_id}:{epoch.decode()}"

    def strike(self, word: str) -> None:
        """Kill a part or Redis, or empty Redis."""
        if word == "part":
            kill(self.shared.folder, *self.draw.choice(list(self.parts.items())), self.draw)
            return
        if word == "keys":
            self.server.empty()
        else:
            self.server.lose(everything=self.losses % 2 == 0)
        self.losses += 1
        self.stopped += len(self.parts)
        # A part that had finished has to send its data to the new Redis.
        for part in set(range(self.shared.crawl.parts)) - set(self.parts):
            self.parts[part] = forked(self.shared, part)


def is_complete(shared: Shared, server: Server) -> bool:
    """Return whether Redis has recorded that the crawl is complete."""
    return bool(server.client.exists(f"{{{shared.crawl.name}}}:complete"))


def so_far(folder: Path) -> int:
    """Return the progress of a crawl: the number of bytes that were recorded."""
    return sum(file.stat().st_size for file in folder.glob("fetched.*"))


def kill(folder: Path, part: int, process: int, draw: random.Random) -> None:
    """Kill a part's client, its frontier or both: children and grandchildren of this script."""
    what = draw.choice(("client", "frontier", "both"))
    try:
        if what != "client":
            os.kill(int((folder / f"frontier.{part}").read_text()), signal.SIGKILL)
        if what != "frontier":
            os.kill(process, signal.SIGKILL)
    except (OSError, ValueError):
        pass  # it has not started yet, or has ended


def fetched_by(shared: Shared) -> Tuple[Counter[str], Dict[str, Set[Tuple[int, int]]]]:
    """Return how often each URL was fetched, and the parts and queues of each host."""
    count: Counter[str] = Counter()
    hosts: Dict[str, Set[Tuple[int, int]]] = defaultdict(set)
    for part in range(shared.crawl.parts):
        lines = (shared.folder / f"fetched.{part}").read_text().splitlines()
        for queue, url, _ in (line.split(" ") for line in lines if line.endswith(END)):
            count[url] += 1
            hosts[url.split("/")[2]].add((part, int(queue)))
    return count, hosts


def check(shared: Shared, server: Server, expected: Dict[str, bool], stopped: Stopped) -> int:
    """Compare the fetched URLs with the expected ones, and return how many were fetched again."""
    count, hosts = fetched_by(shared)
    missing, more = set(expected) - set(count), set(count) - set(expected)
    some = sorted(url[:80] for url in missing)[:3]
    expect(not missing, f"{len(missing)} of {len(expected)} URLs were not fetched: {some}")
    expect(not more, f"{len(more)} URLs should not be fetched: {sorted(more)[:3]}")
    pages = {url for url in count if url in shared.web.pages}
    other = pages ^ {url for url, is_page in expected.items() if is_page}
    expect(not other, f"pages that only one of the two found: {sorted(other)[:3]}")
    again = sum(count.values()) - len(count)
    most = stopped.parts * shared.crawl.workers
    expect(again <= most, f"{again} URLs were fetched again, but at most {most} were in progress")
    several = [host for host, queues in hosts.items() if len(queues) > 1]
    expect(not several, f"hosts in several queues: {several[:3]}")
    wrong = [(part, queue) for queues in hosts.values() for part, queue in queues
             if queue // shared.crawl.workers != part]
    expect(not wrong, f"queues of other parts: {wrong[:3]}")
    expect(is_complete(shared, server), "`complete` is not set")
    return again


class Trial:
    """What all tests share: options, the program, a temporary folder, and Redis."""

    def __init__(self, options: argparse.Namespace, program: str, folder: Path) -> None:
        self.options, self.program, self.folder = options, program, folder
        self.webs: int = options.webs
        self.server = Server(folder)
        self.number = 0
        self.again = self.stopped = self.lost = self.crawls = self.pages = 0

    def draw(self, name: str) -> random.Random:
        """Return a generator of random numbers, which depends on this name and the seed."""
        return random.Random(f"{name} of seed {self.options.seed}")

    def one(
        self, draw: random.Random, web: Web, parts: int, workers: int, faults: Faults = Faults(),
        expected: Optional[Dict[str, bool]] = None, **options: Any,
    ) -> Shared:
        """Run a crawl and compare the URLs."""
        shared = self.new(web, parts, workers, faults, **options)
        if expected is None:
            expected = expected_of(web, self.program, shared.folder)
        self.compare(shared, expected, Crawling(shared, self.server, draw).run(expected))
        return shared

    def new(self, web: Web, parts: int, workers: int, faults: Faults, **options: Any) -> Shared:
        """Prepare a crawl in a folder of its own, with an empty Redis."""
        self.number += 1
        folder = self.folder / f"crawl-{self.number}"
        folder.mkdir()
        self.server.empty()
        crawl = Crawl(parts, workers, "test", f"crawl {self.number}", self.server.url)
        return Shared(crawl, web, faults, self.program, folder, **options)

    def compare(self, shared: Shared, expected: Dict[str, bool], stopped: Stopped) -> None:
        """Compare the URLs, and add to the totals."""
        self.again += check(shared, self.server, expected, stopped)
        self.stopped += stopped.parts
        self.lost += stopped.redis
        self.crawls += 1
        self.pages += len(expected)
        if not self.options.keep:
            for log in shared.folder.glob("log.*"):
                log.unlink()

    def print_totals(self) -> None:
        print(
            f"  {self.crawls} crawls, {self.pages} URLs; parts were stopped {self.stopped} times,"
            f" Redis {self.lost} times; {self.again} URLs were fetched again", flush=True
        )
        self.again = self.stopped = self.lost = self.crawls = self.pages = 0


# ---------------------------------------------------------------- the tests


def random_crawl(
    trial: Trial, name: str, number: int, parts: int, faults: Faults = Faults(), **options: Any
) -> None:
    draw = trial.draw(f"{name} {number} {parts}")
    web = random_web(draw, draw.choice((3, 20, 60)), draw.randrange(20, 800))
    trial.one(draw, web, parts, draw.choice((1, 3, 16)), faults, **options)


def plain(trial: Trial) -> None:
    """1, 2, 4 and 8 parts, some with threads, fetch the URLs of one frontier, each once."""
    for parts in (1, 2, 4, 8):
        for number in range(trial.webs):
            random_crawl(
                trial, "plain", number, parts, has_threads=number % 5 == 4,
                is_synced=number % 2 == 0,
            )


def killed(trial: Trial) -> None:
    """Parts (client, frontier or both) are killed at random moments and started again."""
    for parts in (1, 2, 4, 8):
        for number in range(max(1, trial.webs // 2)):
            random_crawl(trial, "killed", number, parts, Faults(kills=8))


def twice_and_late(trial: Trial) -> None:
    """Every entry arrives twice, and 1 or 10% of the URLs late; sometimes parts are killed too."""
    for number in range(trial.webs):
        faults = Faults(is_twice=True, late=(0.01, 0.1)[number % 2], kills=3 * (number % 3 == 0))
        random_crawl(trial, "twice", number, (2, 4)[number % 2], faults)


def lost_redis(trial: Trial) -> None:
    """Redis is killed and started again, with or without its files; sometimes parts are too."""
    for number in range(trial.webs):
        faults = Faults(losses=4, kills=2 * (number % 2))
        random_crawl(trial, "lost", number, (2, 4)[number % 2], faults, has_threads=number % 4 == 3)


def emptied_redis(trial: Trial) -> None:
    """Redis loses all keys while it runs; sometimes it is killed too, or the parts are."""
    for number in range(trial.webs):
        faults = Faults(flushes=3, losses=number % 3 == 1, kills=2 * (number % 3 == 2))
        parts = (1, 2, 4)[number // 2 % 3]
        random_crawl(trial, "emptied", number, parts, faults, has_threads=number % 4 == 3)


def reported_loss(trial: Trial) -> None:
    """`run` reports that Redis has lost the keys, and completes the crawl."""
    shared = trial.new(random_web(trial.draw("reported"), 1, 9), 1, 1, Faults())
    fetches: List[str] = []

    def fetch(queue: int, url: str) -> Tuple[str, List[str]]:
        fetches.append(url)
        if len(fetches) == 3:
            trial.server.empty()
        return url, shared.web.pages.get(url, [])

    with mock.patch.object(mercator_cluster.logger, "warning") as warning:
        run(lambda: started(shared, 0), fetch)
    expect(is_complete(shared, trial.server), "`complete` is not set")
    expect(set(fetches) == set(expected_of(shared.web, trial.program, shared.folder)), "other URLs")
    texts = [str(call.args[0]) % call.args[1:] for call in warning.call_args_list]
    is_right = len(texts) == 1 and "Redis has lost the keys of this crawl" in texts[0]
    expect(is_right, f"the warnings: {texts}")


def emptied_before_ready(trial: Trial) -> None:
    """Redis is emptied after a part has sent its seeds, and before the part is ready."""
    shared = trial.new(random_web(trial.draw("before ready"), 3, 20), 1, 2, Faults())
    expected = expected_of(shared.web, trial.program, shared.folder)
    make_ready, losses = mercator_cluster._Broker.make_ready, iter([True])

    def make_ready_without_keys(broker: Any) -> None:
        if next(losses, False):
            trial.server.empty()
        make_ready(broker)

    with mock.patch.object(mercator_cluster._Broker, "make_ready", make_ready_without_keys):
        work(shared, 0)
    trial.compare(shared, expected, Stopped())


def reported_wait(trial: Trial) -> None:
    """A part that waits for a part that does not run reports it once."""
    web = Web({}, [])
    shared = trial.new(web, 3, 1, Faults())
    with mock.patch.object(mercator_cluster, "_SILENT", 0.1), \
            mock.patch.object(mercator_cluster, "_IDLE", 0.01), \
            mock.patch.object(mercator_cluster.logger, "warning") as warning:
        part = ByHand(shared, 1)
        try:
            begun = time.monotonic()
            while time.monotonic() - begun < 1:
                expect(not part.is_over(), "the crawl is complete without two parts")
        finally:
            part.made.close()
    texts = [str(call.args[0]) % call.args[1:] for call in warning.call_args_list]
    is_right = len(texts) == 1 and "waits for these parts: 0, 2." in texts[0]
    expect(is_right, f"the warnings: {texts}")


class ByHand:
    """One of two parts in this process, which run round by round, independently of time."""

    def __init__(self, shared: Shared, part: int) -> None:
        self.shared, self.part = shared, part
        self.start()

    def start(self) -> None:
        """Start the part from its log."""
        self.fetched: List[Fetched] = []
        self.made = started(self.shared, self.part)

    def is_over(self) -> bool:
        """Run one round, and return whether the crawl is complete for this part."""
        taken = self.made.round(self.fetched)
        with open(self.shared.folder / f"fetched.{self.part}", "a") as file:
            file.write(records(taken or ()))
        pages = self.shared.web.pages
        self.fetched = [Fetched(queue, url, pages.get(url, [])) for queue, url in taken or ()]
        return taken is None

    def sees_end(self) -> bool:
        """Return whether the crawl is complete for this part within a few rounds."""
        return any(self.is_over() for _ in range(5))

    def start_again(self) -> None:
        self.made.close()
        self.start()


def lost_at_the_end(trial: Trial) -> None:
    """Redis is lost after a part has seen the end of the crawl, and before it finishes.

    No protocol can keep the last message of a part from being lost. So the other part waits until
    each part was started again, as the documentation of the client says.
    """
    with mock.patch.object(mercator_cluster, "_IDLE", 0.01):  # a part need not wait for the other
        for number in range(max(4, trial.webs // 5)):
            draw = trial.draw(f"lost at the end {number}")
            # With one host, which is of part 0, part 1 sends nothing, and all streams look empty.
            hosts, workers = ((1, 1), (20, 3))[number % 2]
            web = random_web(draw, hosts, draw.randrange(2, 60))
            shared = trial.new(web, 2, workers, Faults())
            expected = expected_of(web, trial.program, shared.folder)
            parts = [ByHand(shared, part) for part in range(2)]
            try:
                lose_at_the_end(shared, trial.server, parts)
            finally:
                for by_hand in parts:
                    by_hand.made.close()
            trial.compare(shared, expected, Stopped(redis=2))


def lose_at_the_end(shared: Shared, server: Server, parts: List[ByHand]) -> None:
    end = Part._end

    def end_without_redis(part: Part) -> None:
        expect(is_complete(shared, server), "a part finishes before it records the end")
        server.lose(everything=True)
        end(part)

    with mock.patch.object(Part, "_end", end_without_redis):
        ended = next(part for part in itertools.cycle(parts) if part.is_over())
    other = parts[1 - ended.part]
    try:
        other.made.round()
    except Cut:
        other.start_again()
    else:
        raise Differs("a part continues without its Redis")
    expect(not other.sees_end(), "a part sees an end that no part recorded in this Redis")
    ended.start_again()
    expect(ended.sees_end(), "a part that had finished does not finish again")
    expect(is_complete(shared, server), "a part that had finished does not record the end again")
    expect(other.sees_end(), "a part does not see that the other one had finished")
    server.lose(everything=True)
    for part in parts:
        part.start_again()
        expect(part.sees_end(), f"part {part.part} does not finish again")


def full(trial: Trial) -> None:
    """Frontiers with little room: URLs without room wait in the part's own stream.

    Sometimes Redis loses the stream: killed, or emptied.
    """
    for number in range(trial.webs):
        some = 2 * (number % 2)
        faults = (Faults(kills=some), Faults(losses=some), Faults(flushes=some))[number // 2 % 3]
        parts = (1, 2, 4)[number % 3]
        random_crawl(trial, "full", number, parts, faults, max_pending=(2, 9, 40)[number % 3])


def one_host(trial: Trial) -> None:
    """One host: one part has all the work."""
    for number in range(max(1, trial.webs // 5)):
        draw = trial.draw(f"one host {number}")
        trial.one(draw, random_web(draw, 1, 200), 4, 3, Faults(kills=2))


def many_queues(trial: Trial) -> None:
    """512 queues in all, and 2,048."""
    for parts, workers in ((2, 256), (8, 64), (4, 512)):
        draw = trial.draw(f"queues {parts}")
        trial.one(draw, random_web(draw, 700, 2000), parts, workers, has_threads=parts == 8)


def refused(trial: Trial) -> None:
    """Another number of parts, another log, or a Redis that evicts: an exception."""
    draw = trial.draw("refused")
    web = random_web(draw, 5, 30)
    shared = trial.one(draw, web, 2, 3)
    log = shared.folder / "other.log"
    for crawl_of_all, part, kind in (
        (shared.crawl._replace(parts=3), 0, OtherCrawl), (shared.crawl, 0, OtherCrawl),
        (shared.crawl._replace(workers=4), 1, OtherCrawl),
    ):
        expect_refusal(kind, lambda: Part(crawl_of_all, part, log, program=shared.program))
        log.unlink()
    trial.server.client.config_set("maxmemory-policy", "allkeys-lru")
    try:
        expect_refusal(UnsafeRedis, lambda: Part(shared.crawl, 0, log, program=shared.program))
    finally:
        trial.server.client.config_set("maxmemory-policy", "noeviction")


def expect_refusal(kind: Type[Exception], start: Callable[[], Part]) -> None:
    try:
        start().close()
    except kind:
        return
    raise Differs(f"{kind.__name__} expected")


def full_redis(trial: Trial) -> None:
    """A Redis without free memory refuses entries: the pages wait until it has memory again."""
    draw = trial.draw("full redis")
    client = trial.server.client
    web = random_web(draw, 40, 1500)
    process = os.fork()
    if process == 0:
        try:
            for _ in range(6):
                time.sleep(0.4)
                client.config_set("maxmemory", 1)
                time.sleep(0.4)
                client.config_set("maxmemory", 0)
        finally:
            os._exit(0)
    try:
        trial.one(draw, web, 4, 16, Faults(late=0.3))
    finally:
        os.waitpid(process, 0)
        client.config_set("maxmemory", 0)


def http(trial: Trial) -> None:
    """`examples/crawl_cluster.py` over HTTP: the example site as four hosts, by two parts."""
    expected, lines = set(), []
    folder = trial.folder / "http"
    folder.mkdir()
    trial.server.empty()
    site = shutil.copytree(ROOT / "examples/site", folder / "site")
    index = site / "index.html"
    # Only the loopback is used.
    index.write_text(index.read_text().replace("http://cogs.test/", "/"))
    hosts = [Folder(site, f"127.0.0.{host}") for host in (1, 2, 3, 4)]
    try:
        seeds = [host.url for host in hosts]
        for url in seeds:
            expected |= set(found_by_search(url).items())
        words = ["--delay", "0", "--workers", "3", "--redis", trial.server.url]
        words += ["--program", trial.program]
        processes = [
            subprocess.Popen(
                [sys.executable, str(ROOT / "examples/crawl_cluster.py"), "--part", f"{part}/2",
                 "--log", str(folder / f"log.{part}"), *words, *seeds],
                stdout=subprocess.PIPE,
            )
            for part in range(2)
        ]
        for process in processes:
            output, _ = process.communicate(timeout=SECONDS)
            expect(process.returncode == 0, f"status {process.returncode}")
            lines += [line.split(" ") for line in output.decode().splitlines()]
    finally:
        for host in hosts:
            host.__exit__()
    ours = [(url, status) for status, _, url in lines]
    expect(len(ours) == len(set(ours)), "a URL was fetched twice")
    expect(set(ours) == expected, f"other URLs: {sorted(set(ours) ^ expected)[:5]}")
    print(f"  {len(ours)} URLs over HTTP")


def crawler(trial: Trial, *words: str, **options: Any) -> subprocess.Popen[str]:
    """`examples/crawl_cluster.py` as the only part of a crawl."""
    command = [sys.executable, str(ROOT / "examples/crawl_cluster.py"), "--part", "0/1"]
    command += ["--program", trial.program, "--redis", trial.server.url, *words]
    pipe = subprocess.PIPE
    return subprocess.Popen(command, stdout=pipe, stderr=pipe, text=True, **options)


def words_like_options(trial: Trial) -> None:
    """The name of a log and a suffix may look like options."""
    folder = trial.folder / "words"
    folder.mkdir()
    words = ["--name", "words", "--log=--x", "--within=-a.test", "http://a.test/"]
    process = crawler(trial, *words, cwd=folder)
    output, errors = process.communicate(timeout=SECONDS)
    expect(process.returncode == 0 and not output, f"status {process.returncode}: {errors}")
    expect((folder / "--x").exists(), "no log")


def refused_arguments(trial: Trial) -> None:
    """Arguments that `examples/crawl_cluster.py` cannot use, its help, and a closed output."""
    part = "must be I/K with I from 0 to K - 1, such as 0/2"
    most = "must be a number of at least 2"
    for number, (option, value, why) in enumerate((
        ("--redis", "127.0.0.1:6379", "must begin with redis://, rediss:// or unix://"),
        ("--max-pending", "1", most), ("--max-pending", "many", most),
        ("--part", "2/2", part), ("--part", "-1/2", part), ("--part", "1", part),
    )):
        log = trial.folder / f"arguments-{number}"
        process = crawler(trial, "--log", str(log), f"{option}={value}", "http://a.test/")
        _, errors = process.communicate(timeout=SECONDS)
        last = errors.splitlines()[-1]
        is_right = last == f"crawl_cluster.py: error: argument {option}: {why}: {value}"
        expect(process.returncode == 2 and is_right, f"status {process.returncode}: {errors}")
    output, errors = crawler(trial, "--help").communicate(timeout=SECONDS)
    expect(output.lower().count("usage:") == 1 and not errors, f"--help: {output}{errors}")
    log = trial.folder / "closed"
    process = crawler(trial, "--name", "closed", "--log", str(log), "http://127.0.0.1:0/")
    assert process.stdout and process.stderr
    process.stdout.close()
    errors = process.stderr.read()
    is_right = errors == "crawl_cluster: [Errno 32] Broken pipe\n"
    expect(process.wait(SECONDS) == 1 and is_right, f"status {process.returncode}: {errors}")


def reported_seeds(trial: Trial) -> None:
    """`examples/crawl_cluster.py` reports seeds that no part accepts, like `crawl_http.py`."""
    seeds = ["notaurl", "ftp://a.test/", "", "http://a.test/", "http://127.0.0.1:0/" + "x" * 5_000]
    whys = ["not a URL", "not http or https", "not a URL", "filtered", "line too long"]
    expected = [f"crawl_cluster: seed {seed}: {why}" for seed, why in zip(seeds, whys)]
    words = ["--name", "seeds", "--log", str(trial.folder / "seeds"), "--within", "127.0.0.1"]
    process = crawler(trial, *words, *seeds, "http://127.0.0.1:0/", "HTTP://127.1:0")
    output, errors = process.communicate(timeout=SECONDS)
    expect(process.returncode == 0, f"status {process.returncode}: {errors}")
    expect(errors.splitlines() == expected, f"standard error: {errors}")
    expect(output == "failed 0 http://127.0.0.1:0/\n", f"fetched: {output}")


def absent_redis(trial: Trial) -> None:
    """If Redis does not answer, the part reports it once, and continues when Redis answers."""
    trial.server.process.kill()
    trial.server.process.wait()
    words = ["--name", "absent", "--log", str(trial.folder / "absent"), "http://127.0.0.1:0/"]
    process = crawler(trial, *words)
    try:
        assert process.stderr
        expect(any(select.select([process.stderr], [], [], SECONDS)), "nothing is reported")
        line = process.stderr.readline()
        is_right = line.startswith("crawl_cluster: Redis does not answer, trying for 600 s: ")
        expect(is_right and "refused" in line, f"standard error: {line}")
        time.sleep(3 * mercator_cluster._PAUSE)
        trial.server.start()
        output, errors = process.communicate(timeout=SECONDS)
        expect(process.returncode == 0 and not errors, f"status {process.returncode}: {errors}")
        expect(output == "failed 0 http://127.0.0.1:0/\n", f"fetched: {output}")
    finally:
        process.kill()
        if trial.server.process.poll() is not None:
            trial.server.start()


def locked_redis(trial: Trial) -> None:
    """If Redis needs another password, the part fails immediately."""
    words = ["--name", "locked", "--log", str(trial.folder / "locked"), "http://127.0.0.1:0/"]
    trial.server.client.config_set("requirepass", "right")
    try:
        for word, why in ("", "Authentication required"), (":wrong@", "WRONGPASS"):
            url = trial.server.url.replace("//", f"//{word}")
            process = crawler(trial, "--redis", url, *words)
            output, errors = process.communicate(timeout=SECONDS)
            expect(process.returncode == 1 and not output, f"status {process.returncode}: {errors}")
            expect(errors.startswith("crawl_cluster: ") and why in errors, f"error: {errors}")
            expect(errors.count("\n") == 1, f"error: {errors}")
    finally:
        redis.Redis(port=trial.server.port, password="right").config_set("requirepass", "")


def long_base(trial: Trial) -> None:
    """A page with a base of a megabyte: its links are too long, and need little memory."""
    shared = trial.new(Web({}, ["http://a.test/"]), 1, 1, Faults())
    with started(shared, 0) as made:
        taken: List[Taken] = []
        while not taken:
            taken = made.round() or []
        tracemalloc.start()
        made.round([Fetched(0, "http://a.test/" + "x" * 10**6, ["y"] * 200)])
        most = tracemalloc.get_traced_memory()[1]
        tracemalloc.stop()
        expect(made.counts.pages == 1 and most < 2 * 10**7, f"the links need {most} bytes")


def unix_socket(trial: Trial) -> None:
    """A Redis whose URL is that of its Unix socket."""
    draw = trial.draw("socket")
    web = random_web(draw, 20, 100)
    shared = trial.new(web, 2, 3, Faults())
    expected = expected_of(web, trial.program, shared.folder)
    crawl = shared.crawl._replace(redis=f"unix://{trial.server.folder}/socket")
    shared = shared._replace(crawl=crawl)
    trial.compare(shared, expected, Crawling(shared, trial.server, draw).run(expected))


def interrupted(trial: Trial) -> None:
    """Ctrl-C ends `examples/crawl_cluster.py` immediately, however long its fetches wait."""
    log = trial.folder / "interrupted"
    words = ["--name", "interrupted", "--log", str(log), "--delay", "3600"]
    with Folder(ROOT / "examples/site") as site:
        # This script may be a background job of a shell, which ignores the signal.
        process = crawler(
            trial, *words, site.url, preexec_fn=lambda: signal.signal(signal.SIGINT, signal.SIG_DFL)
        )
        try:
            end = time.monotonic() + SECONDS
            while not log.exists() or "\nnext " not in log.read_text():
                expect(time.monotonic() < end and process.poll() is None, "the crawl does not begin")
                time.sleep(0.05)
            time.sleep(1)  # it has requested robots.txt, and waits
            process.send_signal(signal.SIGINT)
            _, errors = process.communicate(timeout=20)
            expect(process.returncode == 2 and not errors, f"status {process.returncode}: {errors}")
        finally:
            process.kill()


def gone_redis(trial: Trial) -> None:
    """`run` survives the loss of a connection, but not a Redis that does not answer for long."""
    web = random_web(trial.draw("gone redis"), 1, 2)
    shared = trial.new(web, 1, 1, Faults())
    losses = iter([True])

    def fetch(queue: int, url: str) -> Tuple[str, List[str]]:
        if next(losses, False):
            time.sleep(0.5)
            trial.server.lose(everything=False)
        return url, web.pages.get(url, [])

    with mock.patch.object(mercator_cluster, "_GONE", 0.3):
        run(lambda: started(shared, 0), fetch)
        expect(is_complete(shared, trial.server), "`complete` is not set")
        other = shared._replace(crawl=shared.crawl._replace(redis="redis://127.0.0.1:1/0"))
        with mock.patch.object(mercator_cluster.logger, "warning") as warning:
            try:
                run(lambda: started(other, 0), fetch)
            except Cut:
                expect(warning.call_count == 1, f"{warning.call_count} warnings")
                return
    raise Differs("a part tries forever to connect to Redis")


def speed(trial: Trial) -> None:
    """The speed of a crawl of 100,000 pages on 1,000 hosts, each with 5 links to random pages."""
    pages = trial.options.pages
    web = plain_web(pages, 1000, 5)
    expected = dict.fromkeys(web.pages, True)
    for parts, is_synced in ((1, False), (2, False), (4, False), (4, True)):
        before, begun = trial.server.processor(), time.monotonic()
        shared = trial.one(trial.draw("speed"), web, parts, 128, expected=expected, is_synced=is_synced)
        total: Counter[str] = Counter()
        seconds = 0.0
        for part in range(parts):
            figures = json.loads((shared.folder / f"figures.{part}").read_text())
            seconds = max(seconds, figures.pop("seconds"))
            total.update(figures)
        used = trial.server.processor() - before
        print(
            f"  {parts} parts{', sync' * is_synced}: {seconds:.2f} s,"
            f" {time.monotonic() - begun:.1f} s in all; {pages / seconds:,.0f} pages/s;"
            f" URLs through Redis: {total['sent'] / pages:.2f} per page,"
            f" {total['sent'] / seconds:,.0f}/s,"
            f" {total['sent'] / max(1, total['entries']):.0f} per entry;"
            f" CPU time per page, us: clients {total['client'] / pages * 1e6:.0f},"
            f" frontiers {total['frontier'] / pages * 1e6:.0f}, Redis {used / pages * 1e6:.1f};"
            f" load {os.getloadavg()[0]:.1f}", flush=True
        )


PARTS: Tuple[Callable[[Trial], None], ...] = (
    plain, killed, twice_and_late, lost_redis, emptied_redis, reported_loss, emptied_before_ready,
    reported_wait, lost_at_the_end, full, one_host, many_queues,
    refused, full_redis, http, words_like_options, refused_arguments, reported_seeds, absent_redis,
    locked_redis, long_base, unix_socket, interrupted, gone_redis, speed,
)


def program_of(given: Optional[str]) -> str:
    path = given or os.environ.get("MERCATOR") or str(BUILT)
    found = shutil.which(path)
    if found is None:
        sys.exit(f"cluster_runs.py: {path} is not a program: build it, or give --program")
    return str(Path(found).resolve())


def main() -> None:
    parser = argparse.ArgumentParser(
        description=__doc__, formatter_class=argparse.RawDescriptionHelpFormatter
    )
    option = parser.add_argument
    names = [part.__name__ for part in PARTS]
    option("--program", metavar="FILE",
           help="path of the program (default: $MERCATOR if it is set, else the built program)")
    option("--part", action="append", choices=names, metavar="NAME",
           help=f"run only this test; repeatable. The tests are {', '.join(names)}")
    option("--webs", type=int, default=50, metavar="N",
           help="number of generated sites of a test (default: 50)")
    option("--pages", type=int, default=100_000, metavar="N",
           help="number of pages of the test speed (default: 100000)")
    option("--seed", default="1",
           help="seed of the random sites and moments (default: 1)")
    option("--keep", action="store_true", help="keep the temporary folder")
    options = parser.parse_args()
    program = program_of(options.program)
    folder = Path(tempfile.mkdtemp(prefix="cluster-"))
    mercator_cluster.logger.addHandler(logging.NullHandler())  # not a warning for each loss
    passed = failed = 0
    trial = Trial(options, program, folder)
    try:
        for part in PARTS:
            if options.part and part.__name__ not in options.part:
                continue
            begun = time.monotonic()
            try:
                part(trial)
            except Exception as error:
                failed += 1
                print(f"{part.__name__}: FAILED: {error}", flush=True)
                if not isinstance(error, Differs):
                    traceback.print_exc(file=sys.stdout)
            else:
                passed += 1
                print(f"{part.__name__}: passed, {time.monotonic() - begun:.0f} s", flush=True)
            trial.print_totals()
    finally:
        trial.server.end()
        if not options.keep:
            shutil.rmtree(folder, ignore_errors=True)
    print(f"{passed} passed, {failed} failed")
    sys.exit(1 if failed or not passed else 0)


if __name__ == "__main__":
    main()
