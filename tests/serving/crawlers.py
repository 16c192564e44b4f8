"""Tests of the crawlers in `examples/`, over HTTP on this machine."""

from __future__ import annotations

import http.client
import http.server
import importlib
import io
import logging
import re
import shutil
import socket
import subprocess
import sys
import threading
import time
from contextlib import redirect_stdout, suppress
from functools import partial
from pathlib import Path
from typing import Dict, List, Optional, Tuple
from unittest import mock
from urllib.parse import urlsplit

import drawn
from serving import ROOT
from serving.trial import SECONDS, Differs, Skipped, Trial, expect

CRAWLER = ROOT / "examples/crawl_http.py"
LONG = 5 * SECONDS  # time limit for Python's documentation, which takes some minutes on a busy machine


class Folder:
    """A process of `python3 -m http.server` that serves a folder."""

    def __init__(self, folder: Path, address: str = "127.0.0.1") -> None:
        words = [sys.executable, "-u", "-m", "http.server", "0", "--bind", address, "--directory", str(folder)]
        self.process = subprocess.Popen(words, stdout=subprocess.PIPE, stderr=subprocess.DEVNULL)
        assert self.process.stdout
        port = re.findall(rb"port (\d+)", self.process.stdout.readline())[0].decode()
        self.url = f"http://{address}:{port}/"

    def __enter__(self) -> Folder:
        return self

    def __exit__(self, *_: object) -> None:
        self.process.kill()
        self.process.wait()


def found_by_search(start: str) -> Dict[str, str]:
    """Search the server with code of this test, and return each URL with its status."""
    found: Dict[str, str] = {}
    rest = [start]
    while rest:
        url = rest.pop()
        if url in found or not url.startswith(start):
            continue
        connection = http.client.HTTPConnection(urlsplit(url).netloc)
        connection.request("GET", url[len(start) - 1:])
        answer = connection.getresponse()
        found[url] = str(answer.status)
        page = answer.read().decode("utf-8", "replace") if answer.headers.get_content_type() == "text/html" else ""
        texts = re.findall(r"<(?:a|area|link)\s[^>]*?href=[\"']([^\"']*)|<(?:img|script|iframe)\s[^>]*?src=[\"']([^\"']*)", page)
        base = re.findall(r"<base\s+href=[\"']([^\"']*)", page)
        links = [one or other for one, other in texts if answer.status == 200]
        links += [text for text in [answer.getheader("Location")] if text]
        page_url = drawn.url_of(base[0], drawn.url_of(url)) if base else drawn.url_of(url)
        rest += [str(link) for link in (drawn.url_or_none(unescaped(text), page_url) for text in links) if link]
        connection.close()
    return found


def unescaped(text: str) -> str:
    return text.replace("&amp;", "&")


def crawler_words(trial: Trial, *words: str) -> List[str]:
    return [sys.executable, str(CRAWLER), "--program", trial.program, *words]


def run_crawler(words: List[str], seconds: float = SECONDS) -> subprocess.CompletedProcess[bytes]:
    try:
        return subprocess.run(words, capture_output=True, timeout=seconds, check=False)
    except subprocess.TimeoutExpired as late:
        raise Differs(f"the crawler did not end within {seconds} s: {late.stderr!r}") from None


def found_by_crawler(output: bytes) -> List[Tuple[str, str]]:
    """Return the URL and the status in each whole line of the output."""
    lines = [line.split(" ") for line in output.decode().split("\n")[:-1]]
    return [(url, status) for status, _, url in lines]


def crawler(trial: Trial) -> None:
    """The example site: the crawler finds the same URLs and statuses as a search by this test."""
    trial.require_link()
    with Folder(ROOT / "examples/site") as folder:
        expected = found_by_search(folder.url)
        words = crawler_words(trial, "--delay", "0", "--within", "127.0.0.1", folder.url)
        done = run_crawler(words)
        found = found_by_crawler(done.stdout)
        expect(done.returncode == 0 and not done.stderr, f"status {done.returncode}: {done.stderr.decode()}")
        expect(len(found) == len(expected) and dict(found) == expected, f"other URLs: {set(found) ^ set(expected.items())}")
        print(f"  {len(found)} URLs")
    full_frontier(trial)


class Tree(http.server.BaseHTTPRequestHandler):
    """A page with seven links, which have seven links each. Three hosts have it."""

    port = 0

    @classmethod
    def links(cls, path: str) -> List[str]:
        if len(path) > 2:
            return []
        return [f"http://127.0.0.{number % 3 + 1}:{cls.port}{path}{number}" for number in range(7)]

    def do_GET(self) -> None:
        self.send_response(404 if self.path == "/robots.txt" else 200)
        self.send_header("Content-Type", "text/html")
        self.end_headers()
        self.wfile.write("".join(f"<a href={link}>" for link in self.links(self.path)).encode())

    def log_message(self, format: str, *words: object) -> None:
        return


def full_frontier(trial: Trial) -> None:
    """Seeds and links that are refused because too many URLs are unfinished are offered again."""
    sys.path.insert(0, str(CRAWLER.parent))
    crawl_http = importlib.import_module(CRAWLER.stem)
    servers: List[http.server.ThreadingHTTPServer] = []
    for host in (1, 2, 3):
        servers.append(http.server.ThreadingHTTPServer((f"127.0.0.{host}", Tree.port), Tree))
        Tree.port = servers[0].server_port
        threading.Thread(target=servers[-1].serve_forever, daemon=True).start()
    seeds = [f"http://127.0.0.{host}:{Tree.port}/" for host in (1, 2, 3)]
    first = Tree.links("/")
    expected = {*seeds, *first, *(link for url in first for link in Tree.links(urlsplit(url).path))}
    for most in (2, 3, 20):
        log = trial.folder / f"full-{most}.log"
        argv = [str(CRAWLER), "--program", trial.program, "--delay", "0", "--log", str(log), *seeds]
        frontier = partial(crawl_http.Frontier, max_pending=most)
        for left in (expected, set()):  # in the second crawl, all of them are done
            patches = mock.patch.object(crawl_http, "Frontier", frontier), mock.patch.object(sys, "argv", argv)
            with patches[0], patches[1], redirect_stdout(io.StringIO()) as output:
                expect(crawl_http.main() == 0, "the status")
            found = [url for url, _ in found_by_crawler(output.getvalue().encode())]
            expect(sorted(found) == sorted(left), f"--max-pending {most}: {len(found)} of {len(left)} URLs")
    for server in servers:
        server.shutdown()


def crawler_help(trial: Trial) -> None:
    """The help of the crawler has one usage, its time limits as numbers, and no unknown name."""
    done = run_crawler(crawler_words(trial, "--help"))
    text = done.stdout.decode()
    expect(done.returncode == 0 and text.lower().count("usage:") == 1, f"status {done.returncode}: {text}")
    sys.path.insert(0, str(CRAWLER.parent))
    limit = importlib.import_module(CRAWLER.stem).SECONDS
    for seconds in (limit, 2 * limit):
        expect(f"{seconds} seconds" in " ".join(text.split()), f"no time limit of {seconds} seconds: {text}")
    values = set(re.findall(r"--\w+ ([A-Z]+)", text)) | {"SEED"}
    others = set(re.findall(r"\b[A-Z]{2,}\b", text)) - values - {"CPU", "HTTP", "URL", "MERCATOR"}
    expect(not others, f"names that are no value of an option: {others}")


def found_by_bash(trial: Trial, url: str) -> Dict[str, str]:
    """Run the crawler in bash, and return each URL with its status."""
    words = ["env", f"MERCATOR={trial.program}", "DELAY=0", str(ROOT / "examples/crawl_http.sh"), "127.0.0.1", url]
    done = run_crawler(words)
    found = dict(line.split(" ")[::-1] for line in done.stdout.decode().split("\n")[:-1])
    expect(done.returncode == 0 and not done.stderr, f"status {done.returncode}: {done.stderr.decode()}")
    expect(len(found) == done.stdout.count(b"\n"), "a URL is printed twice")
    return found


def bash_crawler(trial: Trial) -> None:
    """The crawler in bash, which ignores `<base>`: each URL once, with those that the search finds.

    It reads the links of a page that is not UTF-8, and URLs with brackets. A suffix may look like an
    option.
    """
    trial.require_link()
    if not shutil.which("curl"):
        raise Skipped("curl is not installed")
    with Folder(ROOT / "examples/site") as folder:
        expected = found_by_search(folder.url)
        found = found_by_bash(trial, folder.url)
        other = {url for url in set(found) & set(expected) if found[url] != expected[url]}
        expect(not other and len(set(expected) - set(found)) <= 2, f"other URLs: {other or set(found) ^ set(expected)}")
    odd = trial.folder / "odd"
    odd.mkdir()
    (odd / "index.html").write_bytes(b'caf\xe9 <a href="a[1-2].html">\n')
    (odd / "a[1-2].html").write_bytes(b"")
    with Folder(odd) as folder:
        found = found_by_bash(trial, folder.url)
        expect(found == {folder.url: "200", f"{folder.url}a[1-2].html": "200"}, f"{found}")
    words = ["env", f"MERCATOR={trial.program}", str(ROOT / "examples/crawl_http.sh"), "-a.test", "http://b.test/"]
    done = run_crawler(words)
    expect(done.stderr == b"crawl_http.sh: seed http://b.test/: filtered\n" and done.returncode == 0, f"{done.stderr!r}")


def killed_crawler(trial: Trial) -> None:
    """The crawler is killed again and again, and resumes from its log."""
    trial.require_log()
    trial.require_link()
    draw = trial.draw("crawler")
    with Folder(ROOT / "examples/site") as folder:
        expected = found_by_search(folder.url)
        log = trial.folder / "crawler.log"
        found: List[Tuple[str, str]] = []
        status: Optional[int] = None
        kills = 0
        while status is None:
            words = crawler_words(trial, "--delay", "0.02", "--within", "127.0.0.1", "--log", str(log), folder.url)
            process = subprocess.Popen(words, stdout=subprocess.PIPE)
            assert process.stdout
            try:
                status = process.wait(0.3 + draw.random() if kills < 10 else SECONDS)
            except subprocess.TimeoutExpired:
                process.kill()
                process.wait()
                kills += 1
            found += found_by_crawler(process.stdout.read())
        expect(status == 0, f"status {status}")
        expect(set(found) == set(expected.items()), f"other URLs: {set(found) ^ set(expected.items())}")
        # The host has one fetcher, which has one URL in progress.
        expect(len(found) <= len(expected) + kills, f"{len(found)} lines for {len(expected)} URLs and {kills} kills")
        print(f"  {kills} kills; {len(found) - len(expected)} lines were written again")


class Polite(http.server.BaseHTTPRequestHandler):
    """A host with robots.txt, redirects, an endless page, and a page that links to all of them."""

    requests: List[Tuple[float, str, str]] = []
    pages = {
        "/robots.txt": "User-agent: *\nDisallow: /private\n",
        "/": "<a href=/private/x>x</a><A HREF='moved'>m</A><a href=endless>e</a><base href=/d/><a href=y&amp;z>y</a>",
    }
    moved = {"/d/moved": "../to?q#f", "/to?q": "to/\u00fc".encode().decode("latin-1"), "/to/%C3%BC": "\u00e9"}

    def do_GET(self) -> None:
        Polite.requests.append((time.monotonic(), self.path, self.headers["User-Agent"]))
        page = Polite.pages.get(self.path)
        if self.path in Polite.moved:
            self.send_response(301)
            self.send_header("Location", Polite.moved[self.path])
            self.end_headers()
        elif self.path == "/d/endless":
            self.send_response(200)
            self.send_header("Content-Type", "text/html")
            self.end_headers()
            try:
                while True:
                    self.wfile.write(b"<a href=/n>n</a>".ljust(10_000))
            except OSError:
                return
        else:
            self.send_response(200 if page else 404)
            self.send_header("Content-Type", "text/plain" if self.path == "/robots.txt" else "text/html")
            self.end_headers()
            self.wfile.write((page or "").encode())

    def log_message(self, format: str, *words: object) -> None:
        return


def polite_crawler(trial: Trial) -> None:
    """robots.txt, the delay, redirects, and an endless page."""
    trial.require_link()
    Polite.requests.clear()
    server = http.server.ThreadingHTTPServer(("127.0.0.1", 0), Polite)
    threading.Thread(target=server.serve_forever, daemon=True).start()
    site = f"http://127.0.0.1:{server.server_port}"
    words = crawler_words(trial, "--delay", "0.2", "--largest", "100000", "--agent", "bell", "--within", "127.0.0.1", f"{site}/")
    done = run_crawler(words)
    server.shutdown()
    expected = {"/": "200", "/private/x": "robots", "/d/endless": "200", "/d/y&z": "404", "/n": "404"}
    expected.update({"/d/moved": "301", "/to?q": "301", "/to/%C3%BC": "301", "/to/%C3%A9": "404"})
    found = {url[len(site):]: status for url, status in found_by_crawler(done.stdout)}
    expect(found == expected and done.returncode == 0, f"{found}, status {done.returncode}: {done.stderr.decode()}")
    paths = [path for _, path, _ in Polite.requests]
    expect(paths[0] == "/robots.txt" and sorted(paths[1:]) == sorted(set(expected) - {"/private/x"}), f"requests: {paths}")
    expect({agent for _, _, agent in Polite.requests} == {"bell"}, "the agent")
    times = [when for when, _, _ in Polite.requests]
    expect(all(later - earlier >= 0.19 for earlier, later in zip(times, times[1:])), f"the delay: {times}")


def polite_to_ports(trial: Trial) -> None:
    """The delay holds for a host, not for each of its ports."""
    trial.require_link()
    Polite.requests.clear()
    servers = [http.server.ThreadingHTTPServer(("127.0.0.1", 0), Polite) for _ in range(3)]
    for server in servers:
        threading.Thread(target=server.serve_forever, daemon=True).start()
    seeds = [f"http://127.0.0.1:{server.server_port}/none" for server in servers]
    done = run_crawler(crawler_words(trial, "--delay", "0.2", *seeds))
    for server in servers:
        server.shutdown()
    expect(dict(found_by_crawler(done.stdout)) == dict.fromkeys(seeds, "404"), f"{done.stdout!r}")
    times = [when for when, _, _ in Polite.requests]
    expect(all(later - earlier >= 0.19 for earlier, later in zip(times, times[1:])), f"the delay: {times}")


class HostileHost(http.server.ThreadingHTTPServer):
    """A host with a rule in its robots.txt, and a page with a character reference that Python cannot decode."""

    def __init__(self, rule: str, charset: str = "utf-8", kind: str = "text/plain") -> None:
        super().__init__(("127.0.0.1", 0), HostileAnswer)
        self.url, self.charset, self.kind = f"http://127.0.0.1:{self.server_port}/", charset, kind
        page = f'<a href=/x><a href=/y><a href="&#{"9" * 5_000};">'
        self.pages = {"/robots.txt": f"User-agent: *\n{rule}\n", "/": page}
        threading.Thread(target=self.serve_forever, daemon=True).start()


class HostileAnswer(http.server.BaseHTTPRequestHandler):
    def do_GET(self) -> None:
        assert isinstance(self.server, HostileHost)
        self.send_response(200)
        kind = "text/html" if self.path == "/" else self.server.kind
        self.send_header("Content-Type", f"{kind}; charset={self.server.charset}")
        self.end_headers()
        self.wfile.write(self.server.pages.get(self.path, "").encode())

    def log_message(self, format: str, *words: object) -> None:
        return


def hostile_hosts(trial: Trial) -> None:
    """Nothing in a robots.txt, a header, a page or a URL ends the crawl, holds it up, or hides the links before it.

    An unknown charset, and one that is not for text, do not hide any link.
    """
    trial.require_link()
    rules = dict.fromkeys(("Disallow: //[", "Crawl-delay: \u00b2", "Request-rate: 1/\u00b2"), "no-robots")
    rules["Crawl-delay: " + "9" * 400] = "robots"
    # Only old versions of Python read a number of 5,000 digits.
    rules["Crawl-delay: " + "9" * 5_000] = "no-robots" if hasattr(sys, "set_int_max_str_digits") else "robots"
    shut = {HostileHost(rule): status for rule, status in rules.items()}
    read = [HostileHost("Disallow: /y", charset) for charset in ("utf-8", "bogus", "base64", "idna", "x\0y")]
    read += [HostileHost("Disallow: /y", kind=kind) for kind in ("application/octet-stream", "text/robots")]
    expected = {host.url: status for host, status in shut.items()}
    expected.update({host.url + path: "robots" if path == "y" else "200" for host in read for path in ("", "x", "y")})
    hosts = [*shut, *read]
    done = run_crawler(crawler_words(trial, "--delay", "0", "--within", "127.0.0.1", *(host.url for host in hosts)))
    for host in hosts:
        host.shutdown()
    found = dict(found_by_crawler(done.stdout))
    expect(found == expected and done.returncode == 0, f"{found}, status {done.returncode}: {done.stderr.decode()}")
    sys.path.insert(0, str(CRAWLER.parent))
    connected = importlib.import_module(CRAWLER.stem).connected
    ends = {"http://[::ab]/": ("::ab", 80), "https://[::1]/": ("::1", 443), "http://a.test:0/": ("a.test", 0)}
    for url, end in ends.items():
        one = connected(urlsplit(url))
        expect((one.host, one.port) == end, f"{url}: {one.host}, {one.port}")
    hostile_pages(trial)
    odd_errors()
    moved_robots()
    failing_hosts(trial)


class HostilePages(http.server.BaseHTTPRequestHandler):
    """A host whose first page links to pages that Python reads slowly or not at all."""

    # What follows the media type, and the page. Each page links to a page with its name and a 1.
    pages = {
        "/tags": ("", "<a href=/tags1>" + "<a " * 20_000),
        "/quotes": ("", "<a href=/quotes1>" + '<a b="' * 10_000),
        "/comments": ("", "<a href=/comments1>" + "<!--" * 50_000),
        "/punycode": ("; charset=punycode", "<a href=/punycode1>-" + "a" * 400_000),
        "/section": ("", "<a href=/section1><![foo<a href=/behind>"),
        "/field": ('; x="' + "\r\n ".join(80 * [";" * 60_000]), "<a href=/field1>"),
        "/parameters": ("; charset*=a; charset*0=b", "<a href=/parameters1>"),
        "/surrogate": ("; charset=unicode_escape", '<a href="/\\ud800"><a href=/surrogate1>'),
        "/base": ("", '<base href="http://["><a href=/base1>'),
    }
    slow = {"/tags", "/quotes", "/comments", "/punycode"}

    def do_GET(self) -> None:
        first = "".join(f"<a href={path}>" for path in self.pages)
        suffix, page = self.pages.get(self.path, ("", first if self.path == "/" else ""))
        self.send_response(200)
        self.send_header("Content-Type", f"text/html{suffix}")
        self.end_headers()
        with suppress(OSError):
            self.wfile.write(page.encode())

    def log_message(self, format: str, *words: object) -> None:
        return


def hostile_pages(trial: Trial) -> None:
    """The links of each page are found, unless Python is slow for it; then one line reports the page."""
    server = http.server.ThreadingHTTPServer(("127.0.0.1", 0), HostilePages)
    threading.Thread(target=server.serve_forever, daemon=True).start()
    site = f"http://127.0.0.1:{server.server_port}"
    done = run_crawler(crawler_words(trial, "--delay", "0", f"{site}/"))
    server.shutdown()
    found = {url[len(site):]: status for url, status in found_by_crawler(done.stdout)}
    lines = done.stderr.decode().splitlines()
    expect(done.returncode == 0 and set(found.values()) == {"200"}, f"status {done.returncode}, {found}: {lines}")
    for path in HostilePages.pages:
        reports = [line for line in lines if line.startswith(f"crawl_http: {site}{path}: links ")]
        is_slow = path in HostilePages.slow and len(reports) == 1
        expect(f"{path}1" in found or is_slow, f"{path}: its links are lost: {reports}")
        expect(len(reports) <= (path in HostilePages.slow or path == "/section"), f"{path}: {reports}")
        lines = [line for line in lines if line not in reports]
    expect(not lines, f"{lines}")


def odd_errors() -> None:
    """Any exception fails only its URL, and is one line without control characters."""
    crawl_http = importlib.import_module(CRAWLER.stem)
    options = mock.Mock(agent="bell", delay=0, largest=1000)
    for error in (NotImplementedError("a\nb"), TypeError("\x1b[31m"), AssertionError("\u202e"), RecursionError("a" * 5_000)):
        known = crawl_http.Known()
        with mock.patch.object(crawl_http, "fetch", side_effect=error), mock.patch.object(logging, "warning") as warning:
            visits = [crawl_http.visited(f"http://a.test/{path}", known, options) for path in "xy"]
        expect([visit.status for visit in visits] == ["no-robots"] * 2, f"{visits}")
        check_line(warning, f"http://a.test/robots.txt: {type(error).__name__}: ")
        known.sites["http://a.test"].refusal_of = lambda url: None
        with mock.patch.object(crawl_http, "fetch", side_effect=error), mock.patch.object(logging, "warning") as warning:
            visit = crawl_http.visited("http://a.test/x", known, options)
        expect(visit == ("failed", "http://a.test/x", []), f"{visit}")
        check_line(warning, f"http://a.test/x: {type(error).__name__}: ")


def check_line(warning: mock.Mock, start: str) -> None:
    """Expect one printable line that was logged."""
    expect(warning.call_count == 1, f"{warning.mock_calls}")
    form, *words = warning.call_args.args
    line = form % tuple(words)
    expect(line.startswith(start) and len(line) < 300 and line.isascii() and line.isprintable(), f"{line!r}")


def moved_robots() -> None:
    """A redirect of robots.txt is resolved against its own URL, and is not followed to another scheme."""
    crawl_http = importlib.import_module(CRAWLER.stem)
    urls = []

    def fetch(url: str, *_: object, **__: object) -> object:
        urls.append(url)
        moves = {"http://a.test/robots.txt": "http://b.test/x/y", "http://b.test/x/y": "z"}
        return crawl_http.Reply("301", moves[url]) if url in moves else crawl_http.Reply("200", body=b"User-agent: *\nDisallow: /")

    with mock.patch.object(crawl_http, "fetch", fetch):
        site = crawl_http.Site("http://a.test", {}, "bell", 0)
    expect(urls == ["http://a.test/robots.txt", "http://b.test/x/y", "http://b.test/x/z"], f"{urls}")
    expect(site.refusal_of("http://a.test/") == "robots", "the rule is not obeyed")
    with suppress(ValueError):
        crawl_http.connected(urlsplit("ftp://127.0.0.1:80/"))
        raise Differs("ftp: is fetched by HTTP")


class FailingHost(http.server.BaseHTTPRequestHandler):
    """A host whose robots.txt cannot be read, or only the third time, or leads elsewhere."""

    requests: List[str] = []

    def do_GET(self) -> None:
        host = self.connection.getsockname()[0][-1]
        FailingHost.requests.append(host + self.path)
        times = FailingHost.requests.count(host + self.path)
        is_robots = self.path == "/robots.txt"
        status = {"1": 503 if times < 3 else 404, "2": 500, "4": 301, "5": 301, "6": 301}.get(host, 200)
        self.send_response(status if is_robots else 200)
        targets = {"4": "/shut", "5": "ftp://127.0.0.1:80/robots.txt", "6": "/robots.txt"}
        self.send_header("Location", targets.get(host, ""))
        self.end_headers()
        texts = {"/robots.txt": b"User-agent: *\nCrawl-delay: 86401", "/shut": b"User-agent: *\nDisallow: /"}
        self.wfile.write(texts.get(self.path, b""))

    def log_message(self, format: str, *words: object) -> None:
        return


def failing_hosts(trial: Trial) -> None:
    """A host that does not respond is not reported like one that forbids its URLs.

    A robots.txt that cannot be read is requested three times.
    """
    FailingHost.requests.clear()
    servers: List[http.server.ThreadingHTTPServer] = []
    for host in range(1, 7):
        port = servers[0].server_port if servers else 0
        servers.append(http.server.ThreadingHTTPServer((f"127.0.0.{host}", port), FailingHost))
        threading.Thread(target=servers[-1].serve_forever, daemon=True).start()
    statuses = ["200", "no-robots", "robots", "robots", "no-robots", "no-robots"]
    expected = {f"http://127.0.0.{host}:{port}/": status for host, status in enumerate(statuses, 1)}
    expected.update({"http://127.0.0.9:1/": "failed", "http://127.0.0.9:1/b": "failed"})
    done = run_crawler(crawler_words(trial, "--delay", "0", *expected))
    for server in servers:
        server.shutdown()
    found = dict(found_by_crawler(done.stdout))
    expect(found == expected and done.returncode == 0, f"{found}, status {done.returncode}: {done.stderr.decode()}")
    attempts = [FailingHost.requests.count(path) for path in ("1/robots.txt", "2/robots.txt", "2/")]
    expect(attempts == [3, 3, 0], f"attempts: {attempts}")
    sys.path.insert(0, str(CRAWLER.parent))
    crawl_http = importlib.import_module(CRAWLER.stem)
    unknown = socket.gaierror(socket.EAI_NONAME, "Name or service not known")
    with mock.patch.object(socket, "getaddrinfo", side_effect=unknown):
        reply = crawl_http.fetch("http://nowhere.test/", "bell", 1000)
    expect(reply.status == "failed", f"a name that is unknown: {reply}")


def dribbling_hosts(trial: Trial) -> None:
    """A connection is closed if the host sends its headers or a chunk size one byte at a time."""
    sys.path.insert(0, str(CRAWLER.parent))
    crawl_http = importlib.import_module(CRAWLER.stem)
    heads = (b"HTTP/1.1 200 OK\r\nX: ", b"HTTP/1.1 200 OK\r\nContent-Type: text/html\r\nTransfer-Encoding: chunked\r\n\r\n")
    for head in heads:
        with socket.create_server(("127.0.0.1", 0)) as server, mock.patch.object(crawl_http, "SECONDS", 0.5):
            threading.Thread(target=dribble, args=(server, head), daemon=True).start()
            begun = time.monotonic()
            reply = crawl_http.fetch(f"http://127.0.0.1:{server.getsockname()[1]}/", "bell", 1000)
            took = time.monotonic() - begun
        expect(not reply.body and took < 5, f"{reply} after {took} s")


def dribble(server: socket.socket, head: bytes) -> None:
    with server.accept()[0] as client, suppress(OSError):
        client.sendall(head)
        for _ in range(100):
            time.sleep(0.1)
            client.sendall(b"0")


def saved_documentation(trial: Trial) -> None:
    """Python's documentation: the crawler finds over HTTP the same URLs as `mercator crawl` in the folder."""
    trial.require_link()
    if subprocess.run([trial.program, "crawl", "--help"], capture_output=True, check=False).returncode:
        raise Skipped("the program has no `crawl`")
    installed = sorted(Path("/usr/share/doc").glob("python3*/html/library/index.html"))
    if not installed:
        raise Skipped("Debian's python3-doc is not installed")
    site = installed[0].parent.parent.resolve()
    with Folder(site) as folder:
        expected = found_in_saved_web(trial, site, folder.url)
        words = ("--delay", "0", "--largest", "100000000", "--within", "127.0.0.1", folder.url)
        done = run_crawler(crawler_words(trial, *words), LONG)
        found = found_by_crawler(done.stdout)
        expect(done.returncode == 0 and not done.stderr, f"status {done.returncode}: {done.stderr.decode()}")
        statuses = dict(found)
        expect(len(found) == len(statuses), "a URL is printed twice")
        # In the saved web, the page of `/x/index.html` or `/x/?y` has a link to `/x/`, which nothing else may link to.
        own = {url.partition("?")[0].removesuffix("index.html") for url in statuses}
        other = sorted(set(statuses) - set(expected)) + sorted(set(expected) - set(statuses) - own)
        expect(not other, f"{len(other)} other URLs: {other[:5]}")
        status = {"ok": "200", "missing": "404", "moved": "301"}
        other = [url for url in sorted(statuses) if statuses[url] != status[expected[url]]]
        expect(not other, f"{len(other)} other statuses: {other[:5]}")
        print(f"  {len(found)} URLs of {site}")


def found_in_saved_web(trial: Trial, site: Path, url: str) -> Dict[str, str]:
    """Return each URL that `mercator crawl` reports for the saved web of a folder, with the first word of its line."""
    web = trial.folder / "folder.web"
    with open(web, "wb") as file:
        subprocess.run(
            # The server follows symbolic links, too, and the crawlers read no styles.
            [sys.executable, str(ROOT / "tests/checking/converter.py"), "--follow", "--no-styles", str(site), url],
            stdout=file, stderr=subprocess.DEVNULL, timeout=LONG, check=True,
        )
    words = [trial.program, "crawl", "--within", "127.0.0.1", str(web), url]
    report = subprocess.run(words, capture_output=True, timeout=SECONDS, check=True).stdout.decode()
    lines = [line.split(" ") for line in report.splitlines()[:-1]]
    return {line[-1]: line[0] for line in lines}
