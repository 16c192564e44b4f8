#!/usr/bin/env python3
"""Crawl sites over HTTP, with `mercator serve` as the URL frontier.

N fetchers run in threads, and no two of them visit a host at the same time. For each URL, the
crawler prints a line with the status, the number of new links, and the URL. The status is `robots`
if robots.txt forbids the URL, `no-robots` if robots.txt cannot be read, and `failed` if the host
does not respond or the response cannot be read.

- The crawler obeys robots.txt. Between two requests to a host it waits --delay seconds, or the
  Crawl-delay of robots.txt if that is longer. Meanwhile it fetches from other hosts, so the URLs of
  a host are not always fetched in the order in which they were found.
- If there is no response, or its status is 408, 429, 500, 502, 503 or 504, the URL is tried again
  after --pause seconds, at most --retries times. The pause doubles each time, and other URLs are
  fetched meanwhile. A robots.txt is tried again in the same way. A restart counts the tries anew.
- It skips a host if its robots.txt cannot be read, or asks for a delay of more than a day.
- It reads at most --largest bytes of a page, for at most 30 seconds, and cuts a request off after
  60 seconds. If a page takes too much CPU time (more than 1 second plus 5 per million bytes),
  its links are lost. An error in a page is printed, and the crawl continues.
- It does not follow a redirect, but offers its target to the frontier.
- With --log, the crawl can be ended by Ctrl-C, `kill -9` or a crash: run the same command again to
  resume it.

Exit status: 0 no URL is left, 1 error, 2 bad command line, Ctrl-C, or --pages URLs were fetched.
"""

from __future__ import annotations

import argparse
import http.client
import io
import logging
import re
import socket
import sys
import time
from contextlib import closing, suppress
from pathlib import Path
from typing import Any, Dict, NamedTuple, Optional, Tuple, cast
from urllib.parse import SplitResult, urljoin, urlsplit
from urllib.robotparser import RobotFileParser

from fetchers import Crawl, Visit
from page_links import links_of

sys.path.insert(0, str(Path(__file__).resolve().parent.parent / "clients" / "python"))
from mercator_frontier import Frontier, FrontierError

SECONDS = 30
DAY = 86_400
HOPS = 5  # redirects of a robots.txt
PORTS = {"http": 80, "https": 443}
REDIRECTS = (301, 302, 303, 307, 308)
PAGES = ("text/html", "application/xhtml+xml")
CHARSET = re.compile(r"""charset\s*=\s*["']?([^\s"';]+)""", re.I)


class Reply(NamedTuple):
    """The response to a request."""

    status: str  # the HTTP status, or `failed` if there was no response
    leads_to: Optional[str] = None  # the target of a redirect
    kind: str = ""  # the media type
    charset: Optional[str] = None
    body: bytes = b""


def connected(parts: SplitResult) -> http.client.HTTPConnection:
    """Return a connection to the host of a URL; it is not opened yet."""
    if parts.scheme not in PORTS:
        raise ValueError(f"neither http nor https: {parts.scheme}")
    # Without a port, `http.client` would take the end of an IPv6 address for one.
    port = PORTS[parts.scheme] if parts.port is None else parts.port
    if parts.scheme == "https":
        return http.client.HTTPSConnection(parts.hostname or "", port, timeout=SECONDS)
    return http.client.HTTPConnection(parts.hostname or "", port, timeout=SECONDS)


def fetch(url: str, agent: str, largest: int, is_robots: bool = False) -> Reply:
    """Fetch a URL, and at most `largest` bytes of its page."""
    try:
        parts = urlsplit(url)
        with closing(connected(parts)) as connection:
            target = parts.path + ("?" + parts.query if parts.query else "")
            connection.request("GET", target, headers={"User-Agent": agent})
            answer = http.client.HTTPResponse(cast(socket.socket, Receiver(connection.sock)))
            answer.begin()
            return reply_of(answer, largest, is_robots)
    except (OSError, http.client.HTTPException):
        return Reply("failed")


class Receiver(io.RawIOBase):
    """What a host sends in twice SECONDS.

    A host that sends one byte at a time would never exceed the time limit of the socket.
    """

    def __init__(self, end: socket.socket) -> None:
        self.end, self.until = end, time.monotonic() + 2 * SECONDS

    def readable(self) -> bool:
        return True

    def readinto(self, buffer: Any) -> int:
        left = self.until - time.monotonic()
        if left <= 0:
            raise TimeoutError
        self.end.settimeout(min(SECONDS, left))
        return self.end.recv_into(buffer)

    def makefile(self, mode: str) -> io.BufferedReader:
        """Return the reader that an HTTPResponse takes from a socket."""
        return io.BufferedReader(self)


def reply_of(answer: http.client.HTTPResponse, largest: int, is_robots: bool) -> Reply:
    """Read a response."""
    if answer.status in REDIRECTS:
        return Reply(str(answer.status), location_of(answer))
    kind = answer.headers.get_content_type()
    # A robots.txt is obeyed whatever its media type.
    if answer.status != 200 or not (is_robots or kind in PAGES):
        return Reply(str(answer.status))
    # Python's own reader of charsets fails on some headers, and takes hours for others.
    found = CHARSET.search(answer.headers["Content-Type"] or "")
    return Reply("200", None, kind, found[1] if found else None, body_of(answer, largest))


def location_of(answer: http.client.HTTPResponse) -> Optional[str]:
    """Return the target of a redirect. Hosts send UTF-8, but Python decodes it as Latin-1."""
    text = answer.getheader("Location")
    try:
        return text and text.encode("latin-1").decode()
    except UnicodeError:
        return text


def body_of(answer: http.client.HTTPResponse, largest: int) -> bytes:
    """Return at most `largest` bytes of a page, received in at most SECONDS."""
    body = bytearray()
    end = time.monotonic() + SECONDS
    while len(body) < largest and time.monotonic() < end:
        some = answer.read1(min(65_536, largest - len(body)))
        if not some:
            break
        body += some
    return bytes(body)


class Site:
    """The robots.txt and the delay of a scheme, host and port."""

    def __init__(
        self, site: str, requested_at: Dict[Optional[str], float], agent: str, delay: float
    ) -> None:
        """Fetch robots.txt.

        `requested_at` has the time of the last request to each host, on any port.
        """
        self.host, self.requested_at = urlsplit(site).hostname, requested_at
        self.agent, self.delay = agent, delay
        self.robots = RobotFileParser()
        self.robots_url = site + "/robots.txt"
        # The status of all URLs if none may be fetched. A robots.txt that cannot be read might
        # forbid everything.
        self.refusal: Optional[str] = None
        # How often robots.txt was requested without success, and when last. 0 if trying again is no
        # use.
        self.failures, self.failed_at = 0, 0.0
        self.read_robots()

    def read_robots(self) -> None:
        """Read robots.txt."""
        failures, self.failures = self.failures, 0
        self.refusal = "no-robots"
        try:
            body, refusal = self.fetch_robots(self.robots_url)
            if refusal is not None:
                self.refusal = refusal
                self.failures, self.failed_at = failures + 1, time.monotonic()
                return
            self.robots.parse(body.decode("utf-8", "replace").splitlines())
            crawl_delay = int(self.robots.crawl_delay(self.agent) or 0)
            self.delay = max(self.delay, crawl_delay)
            self.refusal = "robots" if crawl_delay > DAY else None
        except Exception as error:
            report(self.robots_url, error)

    def ready_at(self, url: str, retries: int, pause: float) -> float:
        """Return when a URL may be fetched. If robots.txt could not be read, try again first."""
        while 0 < self.failures <= retries:
            again: float = self.failed_at + pause * 2 ** (self.failures - 1)
            if again > time.monotonic():
                return again
            self.read_robots()
        if self.host not in self.requested_at or self.refusal_of(url):
            return 0.0
        return self.requested_at[self.host] + self.delay

    def fetch_robots(self, url: str) -> Tuple[bytes, Optional[str]]:
        """Return robots.txt, or if it cannot be read, the status of all URLs."""
        for hop in range(1 + HOPS):
            reply = self.fetch(url, 500_000, is_robots=True)
            if reply.status == "failed" and hop == 0:
                return b"", "failed"
            if reply.status == "failed" or reply.status.startswith("5"):
                break
            if reply.leads_to is None:
                return reply.body, None
            url = urljoin(url, reply.leads_to)
        return b"", "no-robots"

    def refusal_of(self, url: str) -> Optional[str]:
        """Return the status of a URL that must not be fetched, or None."""
        with suppress(ValueError):  # urllib cannot read the URL
            if self.refusal or self.robots.can_fetch(self.agent, url):
                return self.refusal
        return "robots"

    def fetch(self, url: str, largest: int, is_robots: bool = False) -> Reply:
        """Fetch a URL after the delay since the last request to the host."""
        if self.host in self.requested_at:
            time.sleep(max(0.0, self.requested_at[self.host] + self.delay - time.monotonic()))
        try:
            return fetch(url, self.agent, largest, is_robots)
        finally:
            self.requested_at[self.host] = time.monotonic()


class Known:
    """The sites that a fetcher has visited, and when it requested from each host last."""

    def __init__(self) -> None:
        self.sites: Dict[str, Site] = {}
        self.requested_at: Dict[Optional[str], float] = {}

    def site_of(self, url: str, options: argparse.Namespace) -> Site:
        """Return the site of a URL. If it is new, its robots.txt is requested."""
        name = "{0.scheme}://{0.netloc}".format(urlsplit(url))
        if name not in self.sites:
            self.sites[name] = Site(name, self.requested_at, options.agent, options.delay)
        return self.sites[name]

    def ready_at(self, url: str, options: argparse.Namespace) -> float:
        """Return when a URL may be fetched, by time.monotonic(); 0 if that needs no request."""
        try:
            return self.site_of(url, options).ready_at(url, options.retries, options.pause)
        except Exception:
            return 0.0  # `visited` raises it again, and reports it


def visited(url: str, known: Known, options: argparse.Namespace) -> Visit:
    """Fetch a URL, if robots.txt allows it.

    What a host sends can raise any exception in Python's library. It must not end the crawl.
    """
    try:
        return visited_or_raised(url, known, options)
    except Exception as error:
        report(url, error)
        return Visit("failed", url, [])


def report(url: str, error: object) -> None:
    """Print a line on an error. Its text may be that of a host, so it is escaped and cut off."""
    text = f"{type(error).__name__}: {error}" if isinstance(error, Exception) else str(error)
    logging.warning("%s: %s", url, text.encode("unicode_escape").decode()[:200])


def visited_or_raised(url: str, known: Known, options: argparse.Namespace) -> Visit:
    """Fetch a URL like `visited`, but let exceptions pass."""
    site = known.site_of(url, options)
    refusal = site.refusal_of(url)
    reply = Reply(refusal) if refusal else site.fetch(url, options.largest)
    if reply.kind not in PAGES:
        return Visit(reply.status, url, [] if reply.leads_to is None else [reply.leads_to])
    links = links_of(url, reply.body, reply.charset)
    if links.error:
        report(url, links.error)
    return Visit(reply.status, links.base, links.texts)


def options_of_command_line() -> argparse.Namespace:
    parser = argparse.ArgumentParser(
        description=__doc__, formatter_class=argparse.RawDescriptionHelpFormatter
    )
    option = parser.add_argument
    option("--workers", type=int, default=4, metavar="N", help="number of fetchers (default: 4)")
    option("--log", metavar="FILE", help="log file; run again with it to resume")
    option("--pages", type=int, default=0, metavar="N", help="stop after N URLs")
    option("--retries", type=int, default=2, metavar="N",
           help="most times that a URL is tried again (default: 2)")
    option("--pause", type=float, default=5, metavar="S",
           help="seconds before a URL is tried again, doubled each time (default: 5)")
    add_options_to(parser)
    return parser.parse_args()


def add_options_to(parser: argparse.ArgumentParser) -> None:
    """Add the options that `crawl_cluster.py` has too."""
    option = parser.add_argument
    option("--within", metavar="SUFFIX",
           help="crawl only hosts equal to SUFFIX or subdomains of it")
    option("--delay", type=float, default=1, metavar="S",
           help="seconds between two requests to a host (default: 1)")
    option("--largest", type=int, default=5_000_000, metavar="BYTES",
           help="most bytes to read of a page (default: 5000000)")
    option("--agent", default="crawl_http", metavar="NAME",
           help="User-Agent to send; choose a name of your own (default: crawl_http)")
    option("--program", metavar="FILE",
           help="path of mercator (default: $MERCATOR if it is set, else `mercator`)")
    option("seed", nargs="+", metavar="SEED", help="URL to start from")


def main() -> int:
    options = options_of_command_line()
    logging.basicConfig(format="crawl_http: %(message)s")
    settings = {"within": options.within, "log": options.log, "program": options.program}
    try:
        with Frontier(options.workers, **settings) as frontier:
            known = [Known() for _ in range(options.workers)]
            crawl = Crawl(
                frontier, lambda queue, url: visited(url, known[queue], options), options.pages,
                ready_at=lambda queue, url: known[queue].ready_at(url, options),
                retries=options.retries, pause=options.pause,
            )
            return 0 if crawl.run(options.seed) else 2
    except FrontierError as error:
        print(f"crawl_http: {error}", file=sys.stderr)
        return 1


if __name__ == "__main__":
    sys.exit(main())
