#!/usr/bin/python3
"""Test crawls by Scrapy with the scheduler `clients/python/mercator_scrapy.py`.

The sites are the example site and generated ones, which have links in several spellings, redirects,
pages that fail at first or always, and requests that a middleware answers or drops. A server of
this script, on seven addresses of the loopback, counts the requests. Each site is crawled with
Scrapy's own scheduler and with this one; both must request the same URLs. With this one,

- each URL is requested once, except for retries, as a search by this script finds it;
- it is requested in its canonical form;
- no host has two requests in progress at the same time;
- the spider ends by itself, and the frontier has closed.

Crawls with JOBDIR are stopped or killed, and started again: all runs together must request each URL
once, except those that were in progress at a kill, and run its callback.

The script needs Scrapy; Debian's package `python3-scrapy` is for /usr/bin/python3. The last line is
`N passed, M failed`; the exit status is 1 if any failed.
"""

from __future__ import annotations

import argparse
import html
import json
import os
import re
import shutil
import signal
import socket
import subprocess
import sys
import tempfile
import threading
import time
from collections import Counter, deque
from http.server import BaseHTTPRequestHandler, ThreadingHTTPServer
from pathlib import Path
from random import Random
from typing import Any, Dict, Iterable, List, NamedTuple, Optional, Tuple
from urllib.parse import unquote, urljoin, urlsplit

import scrapy
from scrapy import signals
from scrapy.crawler import CrawlerProcess
from scrapy.exceptions import CloseSpider, DontCloseSpider, IgnoreRequest
from scrapy.http import HtmlResponse
from scrapy.resolver import CachingThreadedResolver
from scrapy.utils.response import get_base_url
from twisted.internet.defer import succeed

ROOT = Path(__file__).resolve().parent.parent
CLIENTS = str(ROOT / "clients" / "python")
SITE = ROOT / "examples" / "site"
BUILT = str(ROOT / "crates/mercator_cli/out/mercator_cli")
OWN = "scrapy.core.scheduler.Scheduler"
MERCATOR = "mercator_scrapy.MercatorScheduler"
HOSTS = 7
RETRIES = 2
WORK = 0.003  # seconds that the server takes for a response, so that a second request would be seen
LONGEST = 240  # time limit of a crawl, in seconds
SHOWN = 600  # most characters of a failure message

Target = Tuple[str, str]  # a request: the address of the server and the path
Fields = Dict[str, Any]  # the plan of a crawl, or its outcome


def name_of(number: int) -> str:
    return f"h{number}.test"


def address_of(number: int) -> str:
    return f"127.0.1.{number + 1}"


# ---------------------------------------------------------------- the sites


class Page(NamedTuple):
    """The response for a path: a status, or `flaky` for 503 and then 200; a body or a target."""

    kind: str
    body: str = ""
    links: Tuple[Target, ...] = ()


class Site:
    """Pages by host and path, and the requests that a crawl has to make."""

    def __init__(self, seed: Target) -> None:
        self.seed = seed
        self.pages: Dict[Target, Page] = {}

    def answer(self, target: Target) -> Page:
        return self.pages.get(target, Page("404"))

    def expected(self) -> Dict[Target, int]:
        """Search the site, and return how many times each URL has to be requested."""
        found, todo = {self.seed}, deque([self.seed])
        while todo:
            for link in self.answer(todo.popleft()).links:
                if link not in found:
                    found.add(link)
                    todo.append(link)
        tries = {"500": RETRIES + 1, "flaky": 2, "dropped": 0, "made": 0}
        return {target: tries.get(self.answer(target).kind, 1) for target in found}


def spelled(rand: Random, port: int, target: Target) -> str:
    """Return a random spelling of a URL. By the URL Standard, all of them are the same URL."""
    host, path = target
    number = int(host.rsplit(".", 1)[1]) - 1
    if number == HOSTS - 1:  # this host has no name, only its address
        host = rand.choice((host, f"127.0.{256 + number + 1}", f"0x7f0001{number + 1:02x}"))
    else:
        host = rand.choice((name_of(number), name_of(number).upper()))
    scheme = rand.choice(("http", "http", "HTTP"))
    zeros = rand.choice(("", "", "0"))
    path = rand.choice((path, path, "/." + path, "/x/.." + path, "/%2e" + path, "/y/%2E%2e" + path))
    fragment = rand.choice(("", "", "#part", "#"))
    return f"{scheme}://{host}:{zeros}{port}{path}{fragment}"


def page_of(links: Iterable[str]) -> str:
    return "".join(f'<p><a href="{html.escape(link)}">x</a>' for link in links)


def random_site(rand: Random, port: int, pages: int) -> Site:
    """Return a random site on all hosts."""
    kinds = ["200"] * 14 + ["302", "301", "flaky", "500", "404", "dropped", "made", "raises"]
    paths = []
    for number in range(pages):
        paths.append((address_of(rand.randrange(HOSTS)), f"/{rand.choice('pqr')}/{number}"))
    site = Site(paths[0])
    for number, target in enumerate(paths):
        kind = "200" if number == 0 else rand.choice(kinds)
        links: List[Target] = []
        body = ""
        if kind in ("301", "302"):
            links = [rand.choice(paths)]
            body = spelled(rand, port, links[0])
        elif kind in ("200", "flaky", "made", "raises"):
            links = [rand.choice(paths) for _ in range(rand.randrange(9))]
            links += paths[number + 1:number + 2]
            body = page_of(spelled(rand, port, link) for link in links)
        if kind == "raises":
            links = []  # its callback fails before it reads the links
        # Scrapy's own scheduler drops a redirect to a URL that was seen before, like this one.
        site.pages[target] = Page(kind, body, tuple(links))
    return site


def numbered_site(rand: Random, port: int, pages: int) -> Site:
    """Return a random site whose paths end with the number of the page, without redirects."""
    paths = [(address_of(rand.randrange(HOSTS)), f"/{rand.choice('pqr')}/{number}")
             for number in range(pages)]
    site = Site(paths[0])
    for number, target in enumerate(paths):
        kind = "200" if number == 0 else rand.choice(["200"] * 8 + ["flaky", "404"])
        # Page n is linked from page n // 3, which is a page with links.
        links = [link for link in paths[3 * number:3 * number + 3] if link != target]
        links += [rand.choice(paths) for _ in range(rand.randrange(5))]
        if kind == "404" and 3 * number < pages:
            kind = "200"
        if kind == "404":
            links = []
        body = page_of(spelled(rand, port, link) for link in links)
        site.pages[target] = Page(kind, body, tuple(links))
        site.pages[form_of(number)] = Page("200")
    return site


def form_of(number: int) -> Target:
    return address_of(number % 3), f"/form/{number}"


def forms_of(site: Site) -> Dict[Target, int]:
    """Return the forms that the spider posts in a numbered site, each once."""
    found = site.expected()
    links = {link for target in found for link in site.answer(target).links}
    numbers = {int(path.rsplit("/", 1)[1]) for _, path in links}
    return {form_of(number): 1 for number in numbers if number % 5 == 0}


class FolderSite(Site):
    """The files of a folder, at the root of a host."""

    def __init__(self, folder: Path, host: str) -> None:
        super().__init__((host, "/"))
        self.folder = folder

    def answer(self, target: Target) -> Page:
        path = unquote(urlsplit(target[1]).path)
        file = self.folder / path.lstrip("/")
        if file.is_dir() and not path.endswith("/"):
            return Page("301", target[1] + "/")
        if file.is_dir():
            file = file / "index.html"
        if not file.is_file():
            return Page("404")
        return Page("200" if file.suffix == ".html" else "file", file.read_text(encoding="utf-8"))


# ---------------------------------------------------------------- the server


def without_dots(target: str) -> str:
    """Return the path of a request without dot segments, by the rules of the URL Standard."""
    path, mark, query = target.partition("?")
    kept: List[str] = []
    segments = path.split("/")[1:]
    for number, segment in enumerate(segments):
        plain = re.sub("%2e", ".", segment, flags=re.IGNORECASE)
        if plain == "..":
            del kept[-1:]
        elif plain != ".":
            kept.append(segment)
            continue
        if number == len(segments) - 1:
            kept.append("")
    return "/" + "/".join(kept) + mark + query


def canonical(target: Target, url: str) -> str:
    """Return the URL of a request, with its port, as the URL Standard spells it."""
    number = int(target[0].rsplit(".", 1)[1]) - 1
    host = target[0] if number == HOSTS - 1 else name_of(number)
    names = {host, target[0]}  # the example site has the address of a host that has a name
    host = next((name for name in names if url.startswith(f"http://{name}:")), host)
    return f"http://{host}:{url.split(':')[2].partition('/')[0]}{target[1]}"


class Count:
    """Counts the requests to the servers."""

    def __init__(self, site: Site) -> None:
        self.site = site
        self.lock = threading.Lock()
        self.requested: Counter[Target] = Counter()
        self.posted: Counter[Target] = Counter()
        self.active: Counter[str] = Counter()
        self.most = 0  # the greatest number of requests in progress at one host
        self.order: List[Target] = []
        self.odd: List[str] = []  # URLs of GET requests that are not canonical

    def begins(self, method: str, target: Target, url: str) -> int:
        with self.lock:
            counts = self.requested if method == "GET" else self.posted
            if method == "GET" and url != canonical(target, url):
                self.odd.append(url)
            counts[target] += 1
            self.order.append(target)
            self.active[target[0]] += 1
            self.most = max(self.most, self.active[target[0]])
            return counts[target]

    def ends(self, target: Target) -> None:
        with self.lock:
            self.active[target[0]] -= 1


class Handler(BaseHTTPRequestHandler):
    protocol_version = "HTTP/1.1"

    def do_GET(self) -> None:
        self.serve("GET")

    def do_POST(self) -> None:
        self.rfile.read(int(self.headers.get("Content-Length", 0)))
        self.serve("POST")

    def serve(self, method: str) -> None:
        count: Count = self.server.count  # type: ignore[attr-defined]
        target = (str(self.server.server_address[0]), without_dots(self.path))  # type: ignore[index]
        tries = count.begins(method, target, f"http://{self.headers['Host']}{self.path}")
        time.sleep(WORK)
        page = count.site.answer(target)
        status, headers = 200, {"Content-Type": "text/html; charset=utf-8"}
        if page.kind in ("301", "302"):
            status, headers["Location"] = int(page.kind), page.body
        elif page.kind == "404" or page.kind == "500":
            status = int(page.kind)
        elif page.kind == "flaky" and tries == 1:
            status = 503
        elif page.kind == "file":
            headers["Content-Type"] = "application/octet-stream"
        body = page.body.encode() if status == 200 else b""
        # The client has no response yet, so a request that arrives from here on does not count as
        # one at the same time.
        count.ends(target)
        self.send_response(status)
        for name, value in headers.items():
            self.send_header(name, value)
        self.send_header("Content-Length", str(len(body)))
        self.end_headers()
        self.wfile.write(body)

    def log_message(self, *args: Any) -> None:
        pass


class Server(ThreadingHTTPServer):
    daemon_threads = True
    request_queue_size = 128

    def handle_error(self, *args: Any) -> None:
        """Ignore connections that a crawl leaves open when it ends."""


def free_port() -> int:
    """Return a port that is free on all addresses."""
    for _ in range(100):
        with socket.socket() as first:
            first.bind((address_of(0), 0))
            port = int(first.getsockname()[1])
        try:
            for number in range(HOSTS):
                with socket.socket() as other:
                    other.bind((address_of(number), port))
            return port
        except OSError:
            continue
    raise OSError("no port is free on all addresses")


class Servers:
    """One server per address, all on the same port."""

    def __init__(self) -> None:
        self.port = free_port()
        self.servers = [Server((address_of(number), self.port), Handler) for number in range(HOSTS)]
        for server in self.servers:
            threading.Thread(target=server.serve_forever, args=(0.05,), daemon=True).start()

    def counts(self, site: Site) -> Count:
        count = Count(site)
        for server in self.servers:
            server.count = count  # type: ignore[attr-defined]
        return count


# ---------------------------------------------------------------- a crawl, in its own process


class Resolver(CachingThreadedResolver):
    """Resolves the names of the sites to the addresses of the servers."""

    def getHostByName(self, name: str, timeout: Any = None) -> Any:
        number = re.fullmatch(r"h(\d+)\.test", name)
        if number:
            return succeed(address_of(int(number[1])))
        try:
            return succeed(socket.inet_ntoa(socket.inet_aton(name)))
        except OSError:
            return succeed("127.0.1.200")  # nothing listens there


class Answers:
    """A downloader middleware that answers and drops requests before they reach the downloader."""

    def process_request(self, request: Any, spider: Any) -> Any:
        answer = spider.answers.get(without_dots(urlsplit(request.url).path))
        if answer == "dropped":
            raise IgnoreRequest("dropped")
        if answer is not None:
            return HtmlResponse(request.url, body=answer, encoding="utf-8", request=request)
        return None


class Spider(scrapy.Spider):
    """A spider that follows all links."""

    name = "site"

    def __init__(self, plan: Dict[str, Any], **rest: Any) -> None:
        super().__init__(**rest)
        self.plan = plan
        self.answers = plan.get("answers", {})
        self.raising = set(plan.get("raising", ()))
        self.parsed: List[str] = []
        self.failed: List[str] = []
        self.is_stopped = False

    def start_requests(self) -> Iterable[scrapy.Request]:
        for seed in self.plan["seeds"]:
            yield scrapy.Request(seed, self.parse, errback=self.fail, dont_filter=True)
        for kind, url, extra in self.plan.get("extra", ()):
            if kind == "post":
                yield scrapy.Request(url, self.parse, method="POST", body=extra, errback=self.fail)
            elif kind == "again":
                yield scrapy.Request(url, self.parse, dont_filter=True, errback=self.fail)
            elif kind == "each run":
                meta = {"mercator_each_run": True}
                yield scrapy.Request(url, self.parse, dont_filter=True, meta=meta)
            else:
                yield scrapy.Request(url, self.parse, errback=self.fail)

    def record(self, callback: str, response: Any, number: int = -1) -> None:
        """Record that a callback ran, in the file of the settings, if there is one."""
        if "record" in self.plan:
            path = without_dots(urlsplit(response.url).path)
            with open(self.plan["record"], "a", encoding="utf-8") as file:
                file.write(f"{callback} {response.request.method} {number} {path}\n")

    def parse_odd(self, response: Any, number: int) -> Iterable[scrapy.Request]:
        """The callback of pages with an odd number, in sites with two callbacks."""
        self.record("odd", response, number)
        yield from self.followed(response)

    def parse_form(self, response: Any) -> None:
        self.record("form", response)

    def parse(self, response: Any, **rest: Any) -> Iterable[scrapy.Request]:
        self.record("even", response)
        yield from self.stored(response)
        yield from self.followed(response)

    def stored(self, response: Any) -> Iterable[scrapy.Request]:
        """Request the URLs of the settings, and stop the spider, in the callback of the seed."""
        if self.is_stopped or "stored" not in self.plan:
            return
        self.is_stopped = True
        for kind, url in self.plan["stored"]:
            if kind == "post":
                yield scrapy.Request(url, self.parse_form, method="POST", body="a", priority=-1)
            elif kind == "odd":
                yield scrapy.Request(url, self.parse_odd, cb_kwargs={"number": 7})
            elif kind == "again":
                yield scrapy.Request(url, self.parse, dont_filter=True)
            else:
                yield scrapy.Request(url, callback=lambda response: None)
        raise CloseSpider("stopped")

    def followed(self, response: Any) -> Iterable[scrapy.Request]:
        """Request the links of a page."""
        self.parsed.append(response.url)
        if len(self.parsed) == self.plan.get("kill_after"):
            children = Path(f"/proc/self/task/{os.getpid()}/children").read_text(encoding="ascii")
            os.kill(int(children.split()[0]), signal.SIGKILL)
        if without_dots(urlsplit(response.url).path) in self.raising:
            raise RuntimeError("a callback gives up")
        if not isinstance(response, HtmlResponse):
            return
        links = response.xpath(
            "//a/@href | //area/@href | //link/@href | //img/@src | //script/@src | //iframe/@src"
        ).getall()
        base = get_base_url(response)
        for link in links:
            try:
                url = urljoin(base, link)
            except ValueError:
                continue
            if self.plan.get("has_two_callbacks"):
                yield from self.two_kinds(url)
                continue
            priority = int(url.rsplit("/", 1)[1]) if self.plan.get("by_number") else 0
            yield scrapy.Request(url, self.parse, errback=self.fail, priority=priority)

    def two_kinds(self, url: str) -> Iterable[scrapy.Request]:
        """Request a page with the callback of its number, and post a form for every fifth."""
        number = int(urlsplit(url).path.rsplit("/", 1)[1])
        if number % 2:
            yield scrapy.Request(url, self.parse_odd, errback=self.fail,
                                 cb_kwargs={"number": number})
        else:
            yield scrapy.Request(url, self.parse, errback=self.fail)
        if number % 5 == 0:
            form = f"http://{name_of(number % 3)}:{urlsplit(url).port}/form/{number}"
            yield scrapy.Request(form, self.parse_form, method="POST", body="a")

    def idle(self) -> None:
        """Add another request, like a spider that gets its requests from outside."""
        if self.plan.get("when_idle"):
            self.crawler.engine.crawl(scrapy.Request(self.plan["when_idle"].pop(), self.parse))
            raise DontCloseSpider

    def fail(self, failure: Any) -> None:
        self.failed.append(failure.request.url)


def crawl(plan: Dict[str, Any]) -> None:
    """Run a crawl with these settings, and write its results to the file that they name."""
    sys.path.insert(0, CLIENTS)
    settings = {
        "DNS_RESOLVER": "__main__.Resolver",
        "DOWNLOADER_MIDDLEWARES": {"__main__.Answers": 50},
        "LOG_FILE": plan["log"],
        "LOG_LEVEL": "DEBUG",
        "REQUEST_FINGERPRINTER_IMPLEMENTATION": "2.7",
        "RETRY_TIMES": RETRIES,
        "TELNETCONSOLE_ENABLED": False,
        **plan["settings"],
    }
    process = CrawlerProcess(settings, install_root_handler=True)
    crawler = process.create_crawler(Spider)
    outcome: Dict[str, Any] = {"dropped": 0}

    def drop(request: Any, spider: Any) -> None:
        outcome["dropped"] += 1

    def idle(spider: Any) -> None:
        spider.idle()

    crawler.signals.connect(drop, signal=signals.request_dropped)
    crawler.signals.connect(idle, signal=signals.spider_idle)
    process.crawl(crawler, plan=plan)
    process.start()
    outcome["parsed"], outcome["failed"] = crawler.spider.parsed, crawler.spider.failed
    stats = crawler.stats.get_stats()
    outcome["stats"] = {name: stats[name] for name in stats if isinstance(stats[name], (int, str))}
    Path(plan["outcome"]).write_text(json.dumps(outcome), encoding="utf-8")


# ---------------------------------------------------------------- the tests


class Tests:
    def __init__(self, program: str, kept: Path) -> None:
        self.program = program
        self.kept = kept
        self.servers = Servers()
        self.passed = self.failed = self.crawls = 0

    def check(self, what: str, is_so: bool, shown: Any = "") -> None:
        if is_so:
            self.passed += 1
        else:
            self.failed += 1
            print(f"FAILED {what}: {str(shown)[:SHOWN]}", flush=True)

    def url(self, target: Target) -> str:
        number = int(target[0].rsplit(".", 1)[1]) - 1
        host = target[0] if number == HOSTS - 1 else name_of(number)
        return f"http://{host}:{self.servers.port}{target[1]}"

    def crawl(self, site: Site, scheduler: str, plan: Fields) -> Tuple[Count, Fields]:
        """Crawl a site in a process of its own, and check that it ends by itself."""
        count = self.servers.counts(site)
        return count, self.run(site, scheduler, plan)

    def run(self, site: Site, scheduler: str, plan: Fields) -> Fields:
        """Run a crawl and check that it ends by itself; return its results."""
        process, files = self.start(site, scheduler, plan)
        none = {"stats": {}, "parsed": [], "failed": [], "dropped": 0}
        try:
            _, errors = process.communicate(timeout=LONGEST)
        except subprocess.TimeoutExpired:
            process.kill()
            process.communicate()
            self.check(f"crawl {self.crawls} ends by itself", False, f"see {files['log']}")
            return none
        self.check(f"crawl {self.crawls} ends well", process.returncode == 0, errors[-2000:])
        if process.returncode != 0:
            return none
        outcome: Fields = json.loads(Path(files["outcome"]).read_text(encoding="utf-8"))
        return outcome

    def start(
        self, site: Site, scheduler: str, plan: Fields
    ) -> Tuple[subprocess.Popen[str], Dict[str, str]]:
        """Start a crawl, and return its process and its files."""
        self.crawls += 1
        settings = {"SCHEDULER": scheduler, "MERCATOR_PROGRAM": self.program}
        settings.update(plan.get("settings", {}))
        name = str(self.kept / str(self.crawls))
        files = {kind: f"{name}.{kind}" for kind in ("log", "outcome", "plan")}
        plan = {"seeds": [self.url(site.seed)], **plan, **files, "settings": settings}
        Path(files["plan"]).write_text(json.dumps(plan), encoding="utf-8")
        process = subprocess.Popen(
            [sys.executable, __file__, "--crawl", files["plan"]],
            stdout=subprocess.DEVNULL, stderr=subprocess.PIPE, text=True,
            # A shell starts its background jobs with this signal ignored.
            preexec_fn=lambda: signal.signal(signal.SIGINT, signal.SIG_DFL),
        )
        return process, files

    def check_mercator(
        self, what: str, count: Count, outcome: Fields, expected: Optional[Dict[Target, int]]
    ) -> None:
        """Check what holds for every complete crawl with this scheduler."""
        stats = outcome["stats"]
        if expected is not None:
            differ = {
                target: (count.requested[target], expected.get(target, 0))
                for target in {*expected, *count.requested}
                if count.requested[target] != expected.get(target, 0)
            }
            self.check(f"{what}: each URL once, but for retries", not differ, differ)
        self.check(f"{what}: canonical URLs", not count.odd, count.odd)
        self.check(f"{what}: one request of a host at a time", count.most == 1, count.most)
        self.check(f"{what}: finished", stats.get("finish_reason") == "finished", stats)
        self.check(f"{what}: the frontier closed", stats.get("mercator/closed") is True, stats)
        self.check(f"{what}: nothing is left", stats.get("mercator/pending") == 0, stats)
        inwards, outwards = stats.get("scheduler/enqueued"), stats.get("scheduler/dequeued")
        self.check(f"{what}: all that came in went out", inwards == outwards, (inwards, outwards))
        parts = sum(stats.get(f"scheduler/enqueued/{place}", 0) for place in ("mercator", "memory"))
        self.check(f"{what}: the parts of enqueued", parts == inwards, (parts, inwards))
        dropped = stats.get("dupefilter/filtered", 0) + stats.get("mercator/filtered", 0)
        counts = (dropped, outcome["dropped"])
        self.check(f"{what}: what is dropped is counted", counts[0] == counts[1], counts)

    # ---- each test

    def shipped_site(self) -> None:
        site = FolderSite(SITE, address_of(0))
        own, _ = self.crawl(site, OWN, {})
        count, outcome = self.crawl(site, MERCATOR, {})
        self.check_mercator("shipped site", count, outcome, None)
        self.check("shipped site: pages", len(count.requested) > 15, len(count.requested))
        twice = [target for target, times in count.requested.items() if times > 1]
        self.check("shipped site: each URL once", not twice, twice)
        differ = {*own.requested} ^ {*count.requested}
        self.check("shipped site: the URLs of Scrapy's scheduler", not differ, differ)
        failed, seen = outcome["failed"], outcome["stats"].get("dupefilter/filtered", 0)
        self.check("shipped site: no such host", "http://cogs.test/wheels" in failed, failed)
        self.check("shipped site: seen URLs", seen > 5, seen)

    def random_sites(self) -> None:
        for number, (pages, workers) in enumerate(((40, 1), (150, 4), (250, 64))):
            rand = Random(number)
            site = random_site(rand, self.servers.port, pages)
            plan = {"settings": {"MERCATOR_WORKERS": workers}, **self.answers(site)}
            what = f"random site {number}"
            own, _ = self.crawl(site, OWN, plan)
            count, outcome = self.crawl(site, MERCATOR, plan)
            expected = {one: times for one, times in site.expected().items() if times}
            self.check_mercator(what, count, outcome, expected)
            differ = {*own.requested} ^ {*count.requested}
            self.check(f"{what}: the URLs of Scrapy's scheduler", not differ, differ)
            if pages > 100:
                # Show that the server detects simultaneous requests and repeated spellings.
                self.check(f"{what}: Scrapy has two requests of a host", own.most > 1, own.most)
                totals = (sum(own.requested.values()), sum(expected.values()))
                self.check(f"{what}: Scrapy repeats spellings", totals[0] > totals[1], totals)

    @staticmethod
    def answers(site: Site) -> Dict[str, Any]:
        """Return the settings of the middleware and the spider for a random site."""
        answers = {}
        for (_, path), page in site.pages.items():
            if page.kind in ("dropped", "made"):
                answers[path] = page.body if page.kind == "made" else page.kind
        raising = [path for (_, path), page in site.pages.items() if page.kind == "raises"]
        return {"answers": answers, "raising": raising}

    def odd_requests(self) -> None:
        """Requests that do not go to the frontier, together with some that do."""
        host, other, numeric = address_of(0), address_of(1), address_of(HOSTS - 1)
        site = Site((host, "/"))
        links = tuple((host, f"/p/{number}") for number in range(20))
        site.pages[site.seed] = Page("200", page_of(path for _, path in links), links)
        for target in links + ((other, "/form"), (host, "/form"), (host, "/" + "x" * 5000)):
            site.pages[target] = Page("200")
        again = (host, "/again")
        site.pages[again] = Page("200", page_of([again[1]]), (again,))
        site.pages[(other, "/failing")] = Page("500")
        form, failing = self.url((host, "/form")), self.url((other, "/failing"))
        extra = [["post", form, body] for body in ("a", "b", "a")]  # one of them is a duplicate
        extra += [["post", self.url((other, "/form")), "a"], ["post", failing, ""]]
        for number, alias in enumerate((numeric, "127.0.263", "0x7f000107", "2130706695")):
            target = (numeric, f"/n/{number}")
            links += (target,)
            site.pages[target] = Page("200")
            extra += [["get", self.url(target), ""]]
            extra += [["post", f"http://{alias}:{self.servers.port}/form/{number}", "a"]]
        extra += [["again", self.url(again), ""]] * 3
        extra += [["get", self.url((host, "/" + "x" * 5000)), ""]] * 2
        extra += [["get", "data:text/html,text", ""]] * 2
        failing_urls = ["http://1.2.3.4.5:1/", "http://nowhere.test:1/", "ftp://nowhere.test/file"]
        extra += [["get", url, ""] for url in failing_urls]
        count, outcome = self.crawl(site, MERCATOR, {"extra": extra})
        expected = {site.seed: 1, (host, "/" + "x" * 5000): 1, **{target: 1 for target in links}}
        expected[again] = 3  # three with dont_filter; the page's link to itself was seen
        self.check_mercator("odd requests", count, outcome, expected)
        posted = {(host, "/form"): 2, (other, "/form"): 1, (other, "/failing"): RETRIES + 1}
        posted.update({(numeric, f"/form/{number}"): 1 for number in range(4)})
        self.check("odd requests: posts", dict(count.posted) == posted, count.posted)
        data = outcome["parsed"].count("data:text/html,text")
        self.check("odd requests: data", data == 1, data)
        missing = set(failing_urls) - set(outcome["failed"])
        self.check("odd requests: errbacks", not missing, missing)

    def small_frontier(self) -> None:
        """More URLs than the frontier has room for: the others wait in the scheduler."""
        rand = Random(99)
        site = random_site(rand, self.servers.port, 120)
        expected = {one: times for one, times in site.expected().items() if times}
        for most in (2, 8):
            settings = {"MERCATOR_WORKERS": 4, "MERCATOR_MAX_PENDING": most}
            count, outcome = self.crawl(site, MERCATOR, {"settings": settings, **self.answers(site)})
            # If two requests for a URL wait outside, the scheduler itself drops one later.
            outcome["dropped"] = outcome["stats"].get("dupefilter/filtered", 0)
            self.check_mercator(f"{most} pending", count, outcome, expected)

    def within(self) -> None:
        site = Site((address_of(0), "/"))
        links = tuple((address_of(number), f"/p/{number}") for number in range(HOSTS - 1))
        site.pages[site.seed] = Page("200", page_of(map(self.url, links)), links)
        for link in links:
            site.pages[link] = Page("200")
        count, outcome = self.crawl(site, MERCATOR, {"settings": {"MERCATOR_WITHIN": "h0.test"}})
        self.check_mercator("within", count, outcome, {site.seed: 1, links[0]: 1})
        filtered = outcome["stats"].get("mercator/filtered")
        self.check("within: kept out", filtered == HOSTS - 2, filtered)

    def priorities(self) -> None:
        """If several hosts have requests, the one with the highest priority is sent first."""
        site = Site((address_of(0), "/"))
        links = tuple((address_of(number), f"/{number}") for number in (4, 2, 5, 1, 3))
        site.pages[site.seed] = Page("200", page_of(map(self.url, links)), links)
        for link in links:
            site.pages[link] = Page("200")
        settings = {"CONCURRENT_REQUESTS": 1, "MERCATOR_WORKERS": 512}
        count, outcome = self.crawl(site, MERCATOR, {"by_number": True, "settings": settings})
        self.check_mercator("priorities", count, outcome, {target: 1 for target in site.pages})
        # The engine may take a request as soon as the first of these was stored.
        first, *rest = count.order[1:] or links
        order = sorted({*links} - {first}, reverse=True)
        self.check("priorities: the highest first", rest == order, count.order)

    def idle_spider(self) -> None:
        """A spider that adds requests when it is idle, two of them for URLs that were seen."""
        site = random_site(Random(5), self.servers.port, 30)
        more = [(address_of(number), f"/more/{number}") for number in range(3)]
        urls = [self.url(target) for target in [*more, more[0], site.seed]]
        count, outcome = self.crawl(site, MERCATOR, {"when_idle": urls, **self.answers(site)})
        expected = {one: times for one, times in site.expected().items() if times}
        self.check_mercator("idle spider", count, outcome, {**expected, **{target: 1 for target in more}})

    def closed_spider(self) -> None:
        """A spider that is closed before the crawl is complete."""
        site = random_site(Random(1), self.servers.port, 150)
        settings = {"CLOSESPIDER_PAGECOUNT": 10}
        count, outcome = self.crawl(site, MERCATOR, {"settings": settings, **self.answers(site)})
        stats = outcome["stats"]
        reason = stats.get("finish_reason")
        self.check("closed spider: why", reason == "closespider_pagecount", reason)
        self.check("closed spider: more was left", stats.get("mercator/pending", 0) > 0, stats)
        self.check("closed spider: not closed", stats.get("mercator/closed") is False, stats)
        self.check("closed spider: one request of a host at a time", count.most == 1, count.most)

    def lost_frontier(self) -> None:
        """The program is killed: the spider is closed with a reason of its own."""
        site = random_site(Random(1), self.servers.port, 150)
        count, outcome = self.crawl(site, MERCATOR, {"kill_after": 10, **self.answers(site)})
        stats = outcome["stats"]
        reason = stats.get("finish_reason")
        self.check("lost frontier: the reason", reason == "mercator_ended", stats)
        self.check("lost frontier: not closed", "mercator/closed" not in stats, stats)

    def missing_program(self) -> None:
        site = Site((address_of(0), "/"))
        settings = {"MERCATOR_PROGRAM": "/no/such/program"}
        count, _ = self.crawl(site, MERCATOR, {"settings": settings})
        self.check("missing program: no requests", not count.requested, count.requested)

    def refused_settings(self) -> None:
        """The program rejects its arguments: the spider is closed, and the log has one error."""
        site = Site((address_of(0), "/"))
        count, outcome = self.crawl(site, MERCATOR, {"settings": {"MERCATOR_WORKERS": 513}})
        reason = outcome["stats"].get("finish_reason")
        is_right = reason == "mercator_ended" and not count.requested
        self.check("refused settings: the reason", is_right, reason)
        log = (self.kept / f"{self.crawls}.log").read_text(encoding="utf-8")
        errors = re.findall(r"^.*(?:CRITICAL:|Error\b).*", log, re.M)
        self.check("refused settings: why", len(errors) == 1 and "513" in errors[0], errors)

    # ---- crawls that resume

    def stopped_crawl(self) -> None:
        """A crawl that Ctrl-C stops several times: nothing is requested twice."""
        self.resumed_crawl("stopped", signal.SIGINT, [15, 40, 70], Random(11))

    def killed_crawl(self) -> None:
        """A crawl that is killed several times: only what was in progress is requested again."""
        draw = Random(12)
        for number in range(2):
            at = sorted(draw.sample(range(1, 110), 4))
            self.resumed_crawl(f"killed {number}", signal.SIGKILL, at, draw, (64, 4)[number])

    def resumed_crawl(
        self, what: str, how: signal.Signals, at: List[int], draw: Random, workers: int = 64,
        most: int = 1_000,
    ) -> None:
        """Stop a crawl when the servers have had these numbers of requests, and complete it."""
        site = numbered_site(draw, self.servers.port, 120)
        folder = self.kept / what.replace(" ", "-")
        record = self.kept / f"{folder.name}.record"
        record.touch()
        settings = {"JOBDIR": str(folder), "MERCATOR_WORKERS": workers,
                    "MERCATOR_MAX_PENDING": most}
        plan = {"settings": settings, "has_two_callbacks": True, "record": str(record)}
        count = self.servers.counts(site)
        kills = sum(self.stop_at(site, plan, count, number, how) for number in at)
        self.check(f"{what}: it was stopped", kills >= len(at) - 1, kills)
        outcome = self.run(site, MERCATOR, plan)
        stats = outcome["stats"]
        self.check(f"{what}: finished", stats.get("finish_reason") == "finished", stats)
        self.check(f"{what}: the frontier closed", stats.get("mercator/closed") is True, stats)
        self.check(f"{what}: canonical URLs", not count.odd, count.odd)
        in_progress = 0 if how == signal.SIGINT else kills * HOSTS
        self.check_counts(f"{what}: pages", count.requested, site.expected(), in_progress)
        self.check_counts(f"{what}: forms", count.posted, forms_of(site), in_progress)
        self.check_callbacks(what, site, record, in_progress)
        before = sum(count.requested.values()) + sum(count.posted.values())
        self.run(site, MERCATOR, plan)
        after = sum(count.requested.values()) + sum(count.posted.values())
        self.check(f"{what}: nothing after the end", before == after, (before, after))

    def stop_at(
        self, site: Site, plan: Fields, count: Count, number: int, how: signal.Signals
    ) -> bool:
        """Run a crawl until the servers have had this number of requests, and send the signal.

        Return whether the crawl had not ended by then.
        """
        process, _ = self.start(site, MERCATOR, plan)
        end = time.monotonic() + LONGEST
        while len(count.order) < number and process.poll() is None and time.monotonic() < end:
            time.sleep(0.002)
        is_running = process.poll() is None
        if is_running:
            process.send_signal(how)
        process.communicate(timeout=LONGEST)
        return is_running

    def check_counts(
        self, what: str, counts: Counter[Target], expected: Dict[Target, int], more: int
    ) -> None:
        """Check that each URL was requested as often as expected, but for `more` requests."""
        missing = {target for target, times in expected.items() if counts[target] < times}
        self.check(f"{what}: none is missing", not missing, missing)
        others = {*counts} - {target for target, times in expected.items() if times}
        self.check(f"{what}: no others", not others, others)
        again = {target: counts[target] - expected[target] for target in expected}
        total = sum(times for times in again.values() if times > 0)
        self.check(f"{what}: at most {more} again", total <= more, again)

    def check_callbacks(self, what: str, site: Site, record: Path, more: int) -> None:
        """Check that the right callback ran for each page and form, with its argument."""
        lines = Counter(record.read_text(encoding="utf-8").splitlines())
        expected = [f"form POST -1 {path}" for _, path in forms_of(site)]
        for (host, path), _ in site.expected().items():
            if site.answer((host, path)).kind != "404":
                number = int(path.rsplit("/", 1)[1])
                is_odd = number % 2 == 1
                expected.append(f"odd GET {number} {path}" if is_odd else f"even GET -1 {path}")
        missing, others = {*expected} - {*lines}, {*lines} - {*expected}
        self.check(f"{what}: the callbacks", not missing and not others, (missing, others))
        again = sum(lines.values()) - len(lines)
        self.check(f"{what}: at most {more} callbacks again", again <= more, lines.most_common(3))

    def small_resumed_crawl(self) -> None:
        """A frontier with little room: the requests that wait outside are stored too."""
        self.resumed_crawl("small", signal.SIGKILL, [5, 30, 60], Random(13), 4, 9)

    def stored_requests(self) -> None:
        """What a stopped spider has not sent is sent in the next run, with its callback."""
        seed, (form, odd, again, unstored, each) = (address_of(0), "/"), [
            (address_of(1), path) for path in ("/form", "/odd/7", "/again", "/lambda", "/each")
        ]
        site = Site(seed)
        for target in (seed, form, odd, again, unstored, each):
            site.pages[target] = Page("200", page_of([]))
        record, folder = self.kept / "stored.record", self.kept / "stored"
        kinds = (("post", form), ("odd", odd), ("again", again), ("again", again),
                 ("lambda", unstored))
        plan = {
            "settings": {"JOBDIR": str(folder), "CONCURRENT_REQUESTS": 1}, "record": str(record),
            "stored": [[kind, self.url(one)] for kind, one in kinds],
            "extra": [["each run", self.url(each), ""]],
        }
        count = self.servers.counts(site)
        stats = self.run(site, MERCATOR, plan)["stats"]
        self.check("stored: stopped", stats.get("finish_reason") == "stopped", stats)
        self.check("stored: not closed", stats.get("mercator/closed") is False, stats)
        log = (self.kept / f"{self.crawls}.log").read_text(encoding="utf-8")
        warnings = log.count("cannot be stored for another run")
        self.check("stored: the function without a name", warnings == 1, warnings)
        with open(folder / "mercator.requests", "ab") as file:
            file.write(b"\xff\x00\x00\x00torn")  # the beginning of a record
        first = count.requested.copy()
        del plan["stored"]
        stats = self.run(site, MERCATOR, plan)["stats"]
        self.check("stored: finished", stats.get("finish_reason") == "finished", stats)
        self.check("stored: the frontier closed", stats.get("mercator/closed") is True, stats)
        self.check("stored: the seed", count.requested[seed] == 1, count.requested)
        others = [count.requested[odd], count.requested[unstored], count.requested[again], count.posted[form]]
        self.check("stored: the others", others == [1, 1, 2, 1], others)
        runs = count.requested[each] - first[each]
        self.check("stored: sent in each run", runs == 1, count.requested)
        lines = record.read_text(encoding="utf-8").splitlines()
        for line in ("form POST -1 /form", "odd GET 7 /odd/7", "even GET -1 /lambda"):
            self.check(f"stored: {line}", lines.count(line) == 1, lines)

    def used_folder(self) -> None:
        """Other settings with the JOBDIR of a crawl are refused: nothing is requested."""
        site = Site((address_of(0), "/"))
        site.pages[site.seed] = Page("200", page_of([]))
        settings = {"JOBDIR": str(self.kept / "used"), "MERCATOR_WORKERS": 3}
        self.crawl(site, MERCATOR, {"settings": settings})
        settings["MERCATOR_WORKERS"] = 4
        count = self.servers.counts(site)
        process, files = self.start(site, MERCATOR, {"settings": settings})
        process.communicate(timeout=LONGEST)
        log = Path(files["log"]).read_text(encoding="utf-8")
        is_right = not count.order and "made with --workers 3" in log
        self.check("used folder: refused", is_right, log[-SHOWN:])


def main() -> int:
    parser = argparse.ArgumentParser(
        description=__doc__, formatter_class=argparse.RawDescriptionHelpFormatter
    )
    parser.add_argument("--program", metavar="FILE",
                        help="path of mercator (default: $MERCATOR, else the built one)")
    parser.add_argument("--keep", action="store_true", help="keep the logs of the crawls")
    parser.add_argument("--test", action="append", metavar="NAME",
                        help="run only the test with this name; repeatable")
    parser.add_argument("--crawl", help=argparse.SUPPRESS)
    options = parser.parse_args()
    if options.crawl:
        crawl(json.loads(Path(options.crawl).read_text(encoding="utf-8")))
        return 0
    program = shutil.which(options.program or os.environ.get("MERCATOR") or BUILT)
    if program is None:
        parser.error("no program: build it, or give --program or MERCATOR")
    kept = Path(tempfile.mkdtemp(prefix="scrapy_site."))
    tests = Tests(str(Path(program).resolve()), kept)
    for test in (tests.shipped_site, tests.random_sites, tests.odd_requests, tests.small_frontier,
                 tests.within, tests.priorities, tests.idle_spider, tests.closed_spider,
                 tests.lost_frontier, tests.missing_program, tests.refused_settings,
                 tests.stopped_crawl, tests.killed_crawl, tests.small_resumed_crawl,
                 tests.stored_requests, tests.used_folder):
        if not options.test or test.__name__ in options.test:
            test()
    if options.keep or tests.failed:
        print(f"logs of the crawls: {kept}")
    else:
        shutil.rmtree(kept)
    print(f"{tests.passed} passed, {tests.failed} failed")
    return 1 if tests.failed else 0


if __name__ == "__main__":
    sys.exit(main())
