#!/usr/bin/env python3
"""Run the built program on random inputs, and compare the output with an independent model.

These are the kinds of inputs:

- web: valid saved webs, each crawled with two or more numbers of workers
- web pieces, changed web: pieces of lines; valid saved webs with one byte, line or number changed
- folder: pages whose URLs differ in one component, with many links that several of them have
- large web: thousands of pages, some with URLs that have the same hash, or with one page twice
- narrow crawl: one worker, with little room for pending URLs
- seeds: files of seeds: valid ones, pieces, and changed ones
- crawl with errors: the suffix, the saved web, the file of seeds and the seeds, each valid or not
- key: URLs for the command `key`
- script: valid scripts, most of them long enough for every reply
- script pieces, changed script: like those of saved webs
- command line: arguments in random order, of which only the form of the output is known

The model reads URLs by the URL Standard, as far as this needs no tables; other texts are replaced
by new random ones. With a COUNT of at least 10,000, each error, reply and line of a report must
occur at least 5 times in its kind; otherwise the test fails.

The inputs depend only on the seed, and those of the kind "command line" also on the options in the
program's help. The first differences are printed, each with a command that shows it, its input in a
file that is kept, a diff, and a command that compares only this input. The environment variable
PROGRAM is the path of the program [default: the built one]. The last line is `N passed, M failed`;
the exit status is 1 if any failed.
"""

from __future__ import annotations

import argparse
import difflib
import os
import re
import shlex
import subprocess
import sys
import tempfile
from collections import Counter, deque
from collections.abc import Callable, Iterator
from concurrent.futures import ProcessPoolExecutor
from functools import lru_cache
from ipaddress import AddressValueError, IPv6Address
from pathlib import Path
from random import Random
from typing import NamedTuple, Optional
from urllib.parse import unquote_to_bytes

from manual_page import described_by_help, help_of

ROOT = Path(__file__).resolve().parent.parent
BUILT = ROOT / "crates/mercator_cli/out/mercator_cli"
PROGRAM = str(Path(os.environ.get("PROGRAM", BUILT)).resolve())
SECONDS = 60  # the time limit of a run
LINE_LIMIT = 4096
COUNT = 10_000
LEAST = 5
LIST = "seeds.list"  # the file of seeds of a case
TOLD = 20  # the number of differences that are printed


# ---------------------------------------------------------------- URLs


class NotPlain(Exception):
    """Raised for a URL that this model does not support."""


class NotUrl(Exception):
    """Raised for a text that is not a URL."""


class NotHttp(Exception):
    """Raised for a URL that is neither http nor https."""


class Url(NamedTuple):
    scheme: str
    user: str  # with its `@`, or empty
    host: str
    port: str  # with its `:`, or empty
    path: tuple[str, ...]
    query: str  # with its `?`, or empty

    def __str__(self) -> str:
        path = "/".join(self.path)
        return f"{self.scheme}://{self.user}{self.host}{self.port}/{path}{self.query}"


PORTS = {"http": 80, "https": 443}
SPECIAL = ("ftp", "ws", "wss", "file")
SCHEME = re.compile(r"([A-Za-z][A-Za-z0-9+.-]*):(.*)", re.S)
OTHER = re.compile(r"[^/\\].*|//[a-z.]+(/[a-z]*)?|", re.S)
PLACE = re.compile(r"(\[[^\]]*\]|[^:]*)(?::([0-9]*))?", re.S)
NO_HOST = re.compile(r"[\0-\x20#%/:<>?@\[\\\]^|\x7f]")
TRIMMED = "".join(map(chr, range(33)))
SHOWN = frozenset(map(chr, range(33, 127)))
IN_USER = "\"#<>?^`{}/:;=@[\\]|"
IN_PATH = "\"#<>?`{}"
IN_QUERY = "\"#<>'"


def url_of(text: str, base: Optional[Url] = None) -> Url:
    """Return the URL of a text, resolved against the base if there is one."""
    text = re.sub("[\t\n\r]", "", text.strip(TRIMMED)).partition("#")[0]
    scheme = SCHEME.fullmatch(text)
    if scheme:
        name, text = scheme[1].lower(), scheme[2]
        if name not in PORTS:
            raise other_scheme(name, text)
        if not base or base.scheme != name:
            return url_at(name, text.lstrip("/\\"))
    if not base:
        raise NotUrl
    if re.match(r"[/\\]{2}", text):
        return url_at(base.scheme, text.lstrip("/\\"))
    path, mark, query = text.partition("?")
    query = encoded(mark + query, IN_QUERY)
    if not path:
        return base._replace(query=query) if mark else base
    segments = re.split(r"[/\\]", path)
    segments = segments[1:] if path[0] in "/\\" else [*base.path[:-1], *segments]
    return base._replace(path=walked(segments), query=query)


def other_scheme(name: str, text: str) -> Exception:
    if not OTHER.fullmatch(text) or (name in SPECIAL and not text.startswith("//")):
        return NotPlain()
    return NotHttp()


def url_at(scheme: str, text: str) -> Url:
    """Return the URL of the text after the slashes."""
    front, mark, query = text.partition("?")
    authority, *path = re.split(r"[/\\]", front)
    user, _, place = authority.rpartition("@")
    parts = PLACE.fullmatch(place)
    if not parts or not parts[1]:
        raise NotUrl
    host = host_of(parts[1])
    port = int(parts[2] or PORTS[scheme])
    if port > 65535:
        raise NotUrl
    return Url(
        scheme, user_of(user), host, "" if port == PORTS[scheme] else f":{port}",
        walked(path or [""]), encoded(mark + query, IN_QUERY),
    )


def user_of(text: str) -> str:
    name, _, word = text.partition(":")
    name, word = encoded(name, IN_USER), encoded(word, IN_USER)
    return f"{name}:{word}@" if word else f"{name}@" if name else ""


@lru_cache(maxsize=1000)
def host_of(text: str) -> str:
    if text.startswith("["):
        return f"[{address_of(text[1:-1])}]"
    text = unquote_to_bytes(text).decode("utf-8", "replace")
    if any(label.startswith("xn--") for label in text.lower().split(".")):
        raise NotPlain
    if text.isascii() and (not text or NO_HOST.search(text)):
        raise NotUrl
    host = text.lower() if text.isascii() else ".".join(map(label_of, text.split(".")))
    labels = (host[:-1] if host.endswith(".") else host).split(".")
    return dotted(labels) if re.fullmatch("[0-9]+|0x[0-9a-f]*", labels[-1]) else host


def label_of(text: str) -> str:
    """Return a label in ASCII. Only letters that IDNA does not change are supported."""
    if not re.fullmatch("[a-z0-9éü日本]*", text):
        raise NotPlain
    return text if text.isascii() else f"xn--{text.encode('punycode').decode()}"


def dotted(numbers: list[str]) -> str:
    """Return the IPv4 address of one to four numbers; the last one gives all remaining bytes."""
    if len(numbers) > 4:
        raise NotUrl
    *first, last = map(number_of, numbers)
    if any(number > 255 for number in first) or last >= 256 ** (4 - len(first)):
        raise NotUrl
    value = sum(number << 8 * (3 - place) for place, number in enumerate(first)) + last
    return ".".join(map(str, value.to_bytes(4, "big")))


def number_of(text: str) -> int:
    """Return a number of an IPv4 address, which may be octal or hexadecimal."""
    for pattern, base in (("0x([0-9a-f]*)", 16), ("0([0-7]+)", 8), ("(0|[1-9][0-9]*)", 10)):
        digits = re.fullmatch(pattern, text)
        if digits:
            return int(digits[1] or "0", base)
    raise NotUrl


def address_of(text: str) -> str:
    if re.search("[.%]|ffff", text, re.I) or text.count(":") > 7:
        raise NotPlain
    if not re.fullmatch("[0-9a-fA-F:]*", text):
        raise NotUrl
    try:
        return IPv6Address(text).compressed
    except AddressValueError:
        raise NotUrl from None


def encoded(text: str, more: str) -> str:
    """Percent-encode spaces, control and non-ASCII characters, and those in `more`."""
    if text.isalnum() and text.isascii():
        return text
    return "".join(
        letter if letter in SHOWN and letter not in more
        else "".join(f"%{byte:02X}" for byte in letter.encode())
        for letter in text
    )


def walked(segments: list[str]) -> tuple[str, ...]:
    """Return the encoded segments of a path without dot segments."""
    path: list[str] = []
    dots = ""
    for segment in segments:
        if "^" in segment:
            raise NotPlain
        dots = segment.lower().replace("%2e", ".")
        if dots == "..":
            del path[-1:]
        elif dots != ".":
            path.append(encoded(segment, IN_PATH))
    return (*path, "") if dots in (".", "..") else tuple(path)


def url_or_none(text: str, base: Optional[Url] = None) -> Optional[Url]:
    try:
        return url_of(text, base)
    except (NotUrl, NotHttp):
        return None


def queue_of(url: Url, workers: int) -> int:
    number = 0
    for byte in url.host.encode():
        number = (31 * number + byte) % 2**32
    return number % workers


# ---------------------------------------------------------------- reading inputs


class InputError(Exception):
    """Raised for an invalid input, with the message that the program has to print."""

    status = 1


class Incomplete(InputError):
    """Raised for an incomplete crawl, with the message that the program has to print."""

    status = 2


def lines_of(data: bytes, what: str) -> Iterator[tuple[str, str]]:
    """Yield each line with its position in messages; raise if it is too long or not UTF-8."""
    *whole, last = data.split(b"\n")
    lines = [line[:-1] if line.endswith(b"\r") else line for line in whole]
    for number, line in enumerate([*lines, last] if last else lines, 1):
        place = f"{what}: line {number}"
        if len(line) > LINE_LIMIT:
            raise InputError(f"{place}: line too long")
        try:
            text = line.decode()
        except UnicodeDecodeError:
            raise InputError(f"{place}: not UTF-8") from None
        yield place, text


class Page:
    """A page with its links (None for a skipped one), or a redirect with its target."""

    def __init__(self) -> None:
        self.links: list[Optional[Url]] = []
        self.moved = False

    def leads_to(self) -> list[Url]:
        return [link for link in self.links if link]


Web = dict[Url, Page]


@lru_cache(maxsize=1)
def read_web(data: bytes) -> Web:
    lines = lines_of(data, "saved web")
    header = next(lines, ("", ""))[1]
    if header not in ("savedweb 1", "savedweb 2"):
        raise InputError("saved web: bad header")
    words = ("page", "link", "moved") if header == "savedweb 2" else ("page", "link")
    web: Web = {}
    url = None
    for place, line in lines:
        word, space, text = line.partition(" ")
        if not line:
            continue
        if word not in words or not space:
            raise InputError(f"{place}: bad line")
        if word == "page":
            url = url_or_none(text)
            if url is None:
                raise InputError(f"{place}: bad page URL")
            if url in web:
                raise InputError(f"{place}: page twice")
            web[url] = Page()
        elif url is None:
            raise InputError(f"{place}: link before page")
        elif web[url].moved or (word == "moved" and web[url].links):
            raise InputError(f"{place}: mixed page")
        else:
            web[url].moved = word == "moved"
            web[url].links.append(url_or_none(text, url))
    return web


def seed_of(text: str, place: str) -> Url:
    try:
        return url_of(text)
    except NotUrl:
        raise InputError(f"{place}: not a URL") from None
    except NotHttp:
        raise InputError(f"{place}: not http or https") from None


def read_seeds(data: bytes) -> list[Url]:
    return [seed_of(line, place) for place, line in lines_of(data, "seeds") if line]


class Script(NamedTuple):
    workers: int
    most: int
    events: list[tuple[str, int, Optional[Url]]]  # a word, its number, and the URL of an admission


HEADER = re.compile("workers ([0-9]{1,20}) max ([0-9]{1,20})")
EVENT = re.compile("(look|enter|back|take|done) ([0-9]{1,20})|(endseeds|close)")
ADMISSION = re.compile("admit ([0-9]{1,20}) (.*)", re.S)


def read_script(data: bytes) -> Script:
    lines = lines_of(data, "script")
    header = HEADER.fullmatch(next(lines, ("", ""))[1])
    numbers = (int(header[1]), int(header[2])) if header else (0, 0)
    if not (1 <= numbers[0] <= 512 and 1 <= numbers[1] <= 2**40):
        raise InputError("script: bad header")
    events: list[tuple[str, int, Optional[Url]]] = []
    for place, line in lines:
        event, admission = EVENT.fullmatch(line), ADMISSION.fullmatch(line)
        if event and int(event[2] or 0) < 2 ** (32 if event[1] in ("take", "done") else 64):
            events.append((event[1] or event[3], int(event[2] or 0), None))
        elif admission and int(admission[1]) < 2**64:
            url = url_or_none(admission[2])
            if url is None:
                raise InputError(f"{place}: bad URL")
            events.append(("admit", int(admission[1]), url))
        elif line:
            raise InputError(f"{place}: bad line")
    return Script(*numbers, events)


# ---------------------------------------------------------------- the expected output


class Crawl(NamedTuple):
    """The inputs and options of a crawl."""

    web: bytes
    seeds: list[str]
    listed: Optional[bytes] = None
    suffix: Optional[str] = None
    queues: bool = False
    sources: bool = False
    most: Optional[int] = None

    def words(self, workers: int) -> list[str]:
        words = ["crawl", "--workers", str(workers)]
        words += ["--queues"] * self.queues + ["--sources"] * self.sources
        words += [] if self.suffix is None else ["--within", self.suffix]
        words += [] if self.listed is None else ["--seeds", LIST]
        words += [] if self.most is None else ["--max-pending", str(self.most)]
        return [*words, "--", "-", *self.seeds]

    def allows(self, url: Url) -> bool:
        return self.suffix is None or f".{url.host}".endswith(f".{self.suffix}")


def crawl_of(crawl: Crawl, workers: int) -> list[str]:
    """Return the report of a crawl; raise if an input is invalid, the first one that is."""
    if crawl.suffix is not None and not re.fullmatch("[a-z0-9.-]+", crawl.suffix):
        raise InputError("bad suffix")
    web = read_web(crawl.web)
    seeds = read_seeds(crawl.listed or b"")
    seeds += [seed_of(text, f"seed {number}") for number, text in enumerate(crawl.seeds, 1)]
    if not seeds:
        raise InputError("seeds: no seed in the list or on the command line")
    found = search(web, crawl, seeds)
    links = [link for url in found if url in web for link in web[url].leads_to()]
    for urls, what in ((seeds, "seed"), (links, "link")):
        if any(crawl.allows(url) and url not in found for url in urls):
            raise Incomplete(f"incomplete: {what} missing")
    return report_of(web, crawl, sorted(found, key=str), workers)


def search(web: Web, crawl: Crawl, seeds: list[Url]) -> set[Url]:
    """Return the URLs that are found: the seeds, and then the links of one page after the other.

    URLs are dropped if there is no room. The seeding phase, and each page in progress, counts as a
    pending URL.
    """
    waiting: deque[Url] = deque()
    found: set[Url] = set()
    offered = seeds
    while True:
        for url in offered:
            room = crawl.most is None or len(waiting) + 1 < crawl.most
            if crawl.allows(url) and url not in found and room:
                found.add(url)
                waiting.append(url)
        if not waiting:
            return found
        page = web.get(waiting.popleft())
        offered = page.leads_to() if page else []


def report_of(web: Web, crawl: Crawl, found: list[Url], workers: int) -> list[str]:
    """Return the report of the URLs in their order, with the lines of --queues and --sources."""
    lines = [line_of(url, web.get(url)) for url in found]
    count = Counter(line.split(" ")[0] for line in lines)
    moved = f" moved {count['moved']}" if count["moved"] else ""
    lines.append(f"total {len(found)} ok {count['ok']} missing {count['missing']}{moved}")
    if crawl.queues:
        had = Counter(queue_of(url, workers) for url in found)
        lines += [f"queue {queue} {had[queue]}" for queue in range(workers)]
    if crawl.sources:
        lines += sources_of(web, found)
    return lines


def sources_of(web: Web, found: list[Url]) -> Iterator[str]:
    named: dict[Url, list[Url]] = {url: [] for url in found if url not in web}
    for url in found:
        for link in set(web[url].leads_to()) if url in web else ():
            if link in named:
                named[link].append(url)
    for missing, pages in named.items():
        yield f"from {len(pages)} {pages[0] if pages else '-'} {missing}"


def line_of(url: Url, page: Optional[Page]) -> str:
    if page is None:
        return f"missing {url}"
    if page.moved:
        return f"moved {url}"
    return f"ok {len(page.links)} {page.links.count(None)} {url}"


class Machine:
    """The steps of a frontier, with lists."""

    def __init__(self, script: Script) -> None:
        self.most = script.most
        self.opening = 1
        self.pending = 0  # the number of accepted URLs that are not done
        self.closed = False
        self.holders: set[int] = set()
        self.words: dict[int, tuple[int, bool]] = {}
        self.accepted: list[list[tuple[int, Url]]] = [[] for _ in range(script.workers)]
        self.taken = [0] * script.workers
        self.busy: set[int] = set()

    def count(self) -> int:
        return self.opening + len(self.holders) + self.pending

    def reply(self, word: str, number: int, url: Optional[Url]) -> str:
        if word in ("take", "done") and number >= len(self.accepted):
            return "refused nosuch"
        if word == "take":
            return self.take(number)
        if word == "close":
            self.closed = self.closed or self.count() == 0
            return "closed" if self.closed else f"pending {self.count()}"
        if word == "look":
            self.words[number] = (self.count(), self.closed)
            return f"word {self.count()} {'closed' if self.closed else 'open'}"
        if word == "enter":
            return self.enter(number)
        if url:
            return self.admit(number, url)
        return self.give_back(word, number)

    def enter(self, sender: int) -> str:
        if sender in self.holders:
            return "refused busy"
        if sender not in self.words:
            return "refused nothing"
        if self.words[sender] != (self.count(), self.closed):
            return "lost"
        if self.closed:
            return "refused closed"
        if self.count() == self.most:
            return "refused full"
        del self.words[sender]
        self.holders.add(sender)
        return f"entered {self.count()}"

    def admit(self, sender: int, url: Url) -> str:
        queue = queue_of(url, len(self.accepted))
        if sender not in self.holders:
            return "refused nothing"
        if url in [accepted for _, accepted in self.accepted[queue]]:
            return "seen"
        number = [earlier for earlier, _ in self.accepted[queue]].count(sender)
        self.holders.remove(sender)
        self.accepted[queue].append((sender, url))
        self.pending += 1
        return f"accepted {queue} {number}"

    def take(self, queue: int) -> str:
        if queue in self.busy:
            return "refused busy"
        if self.taken[queue] == len(self.accepted[queue]):
            return "empty"
        self.busy.add(queue)
        self.taken[queue] += 1
        return f"taken {self.accepted[queue][self.taken[queue] - 1][1]}"

    def give_back(self, word: str, number: int) -> str:
        if word == "back" and number in self.holders:
            self.holders.remove(number)
        elif word == "endseeds" and self.opening:
            self.opening = 0
        elif word == "done" and number in self.busy:
            self.busy.remove(number)
            self.pending -= 1
        else:
            return "refused nothing"
        return f"count {self.count()}"


def key_of(text: str, workers: int) -> list[str]:
    try:
        url = url_of(text)
    except NotUrl:
        raise InputError("URL: not a URL") from None
    except NotHttp:
        raise InputError("URL: not http or https") from None
    return [f"{url} {url.host} {queue_of(url, workers)}"]


# ---------------------------------------------------------------- random inputs


ANY = -1  # the status of a case of which only the form of the output is known


class Case(NamedTuple):
    """A command with its inputs, the expected output, and the features of its input to count."""

    words: list[str]
    data: bytes
    listed: Optional[bytes]
    expected: list[str]
    status: int
    has: list[str]


def case(
    words: list[str], data: bytes, answer: Callable[[], list[str]], listed: Optional[bytes] = None
) -> Case:
    try:
        return Case(words, data, listed, answer(), 0, ["sound"])
    except InputError as error:
        return Case(words, data, listed, [f"mercator: {error}"], error.status, [])


def crawl_case(crawl: Crawl, workers: int) -> Case:
    words = crawl.words(workers)
    return case(words, crawl.web, lambda: crawl_of(crawl, workers), crawl.listed)


def script_case(data: bytes) -> Case:
    events: list[str] = []

    def answer() -> list[str]:
        script = read_script(data)
        events.extend(f"event {event[0]}" for event in script.events)
        machine = Machine(script)
        return [machine.reply(*event) for event in script.events]

    made = case(["replay", "-"], data, answer)
    return made._replace(has=[*made.has, *events])


HOSTS = (
    "a.test", "b.test", "c.test", "d.test", "x.a.test", "xa.test", "a.test.", "é.test", "[::1]"
)
PATHS = (
    "", "x", "d/", "d/e", "d/f", "d/g/h", "9", "10", "B", "b", "d//e", "d/e?q", "d/e?q=/x", "é"
)
NEAR = ("x", "e", "../d/e", "..", ".", "./f", "g/h", "?q", "?", "#f", "", " ", "../../x", "e?z#k")
SKIPPED = ("mailto:x", "ftp://a.test/", "x:y", "http://a.test:65536/", "http://[", "http://a b/")
NO_SEEDS = ("", "/x", "x", "http://08/", "http://256.1.1.1/", "http://@/", *SKIPPED)
SUFFIXES = ("a.test", "test", "est", "x.a.test", "b.test", "a.test.")
BAD_SUFFIXES = ("", "A.test", "a test", "a_b", "é.test")
ODD = (
    "http:", "https:", "HTTP:", "a:", "//", "/", "\\", "a.test", "b.test", "é", "日本", "..", ".",
    "%2e", "%2E.", "?", "#", "@", ":", ":80", ":81", ":", "x", "y", " ", "\t", "[", "]", "[::1]",
    "[1:0:0:2::]", "0x7f", "1", "256", "08", "%41", "%", "'", "\"", "<", "{", "|", "~", "\x7f",
    "u:p@",
)
GOOD = (
    "http://a.test/", "HTTP://A.test:80/x/../y#f", "https://b.test", "http://c.test/x y?q",
    " http://d.test/  ", "http://é.test/€", "http://[::1]:8080/", "http://1.2/", "http://017.0x1/",
    "https:\\\\e.test\\x", "http://u:p@f.test/",
)
ONE_HASH = "http://a.test/000000000000010355el8CGH)V"  # the same hash with any eight bytes after it


class Target(NamedTuple):
    """A URL that has several spellings; without a port it has the default one."""

    scheme: str
    user: str
    host: str
    port: str
    path: str


def random_targets(draw: Random, most: int) -> list[Target]:
    hosts = draw.sample(HOSTS, draw.randrange(1, 4))
    return [
        Target(
            draw.choice(("http",) * 9 + ("https",)), draw.choice(("",) * 18 + ("u@", "u:p@")),
            draw.choice(hosts), draw.choice(("",) * 9 + (":81",)), draw.choice(PATHS),
        )
        for _ in range(draw.randrange(1, most + 1))
    ]


def spelled(draw: Random, target: Target) -> str:
    scheme = draw.choice((target.scheme, target.scheme, target.scheme.upper()))
    upper = target.host.upper() if target.host.isascii() else target.host
    host = draw.choice((target.host, target.host, upper))
    number = PORTS[target.scheme]
    port = target.port or draw.choice(("", "", "", ":", f":{number}", f":00{number}"))
    dots = draw.choice(("", "", "", "y/../", "./", "d/g/../../", "../", "%2e/"))
    end = draw.choice(("", "", "", "#f", "#"))
    return f"{scheme}://{target.user}{host}{port}/{dots}{target.path}{end}"


def random_link(draw: Random, targets: list[Target]) -> str:
    target = draw.choice(targets)
    return draw.choice((
        spelled(draw, target), spelled(draw, target), spelled(draw, target), f"//{target.host}",
        f"//{target.host}/./{target.path}", f"/{target.path}", f"/y/../{target.path}#f",
        draw.choice(NEAR), draw.choice(NEAR), draw.choice(SKIPPED),
    ))


def odd_text(draw: Random) -> str:
    """Return pieces of URLs in random order."""
    front = draw.choice(("", "", "http://", "http://a.test/", "http://a.test?", "https:", "//"))
    return front + "".join(draw.choices(ODD, k=draw.randrange(1, 6)))


def random_web(draw: Random) -> tuple[bytes, list[str]]:
    """Return a valid saved web, and seeds."""
    version = draw.choice((1, 2))
    lines = [f"savedweb {version}"]
    targets = random_targets(draw, 20)
    for target in dict.fromkeys(targets[draw.randrange(1 + len(targets) // 2):]):
        lines.append(f"page {spelled(draw, target)}")
        if version == 2 and draw.randrange(4) == 0:
            lines.append(f"moved {random_link(draw, targets)}")
        else:
            lines += [f"link {random_link(draw, targets)}" for _ in range(draw.randrange(7))]
    if draw.randrange(20) == 0:
        lines += ["page http://long.test/", "link " + "a" * draw.randrange(4089, 4092)]
    seeds = [spelled(draw, target) for target in draw.sample(targets, min(len(targets), 2))]
    return joined(draw, lines), seeds


def joined(draw: Random, lines: list[str]) -> bytes:
    """Join lines with random line ends and empty lines; the last line may have no line end."""
    ends = ("\n", "\n", "\n", "\r\n", "\n\n", "\n\r\n")
    text = "".join(line + draw.choice(ends) for line in lines)
    return (text.rstrip("\r\n") if draw.randrange(4) == 0 else text).encode()


NUMBERS = [str(number).encode() for number in (
    0, 1, 512, 513, 2**32 - 1, 2**32, 2**40, 2**40 + 1, 2**64 - 1, 2**64, 10**20 - 1, 10**20
)] + [b"+1", b"", b"0" * 20 + b"1"]
LONG = (
    b"close".ljust(4097) + b"\n", b"link ".ljust(4097, b"a") + b"\r\n", b"\xff" * 4097,
    b"workers 1 max 1".ljust(4098), b"admit 1 mailto:".ljust(4096, b"a") + b"\n",
    b"admit 7 http://a.test/".ljust(4096, b"a") + b"\r\n", b"link ".ljust(4095, b"\xff") + b"\n",
)


def changed(draw: Random, data: bytes) -> bytes:
    """Return the data with a byte, line or number removed, doubled, replaced, inserted or moved."""
    kind = draw.randrange(8)
    digits = list(re.finditer(rb"\d+", data))
    if kind == 7 and digits:
        found = draw.choice(digits)
        return data[:found.start()] + draw.choice(NUMBERS) + data[found.end():]
    if kind < 5:
        place = draw.randrange(len(data))
        old = data[place:place + 1]
        new = bytes([draw.choice(draw.choice((data, b"\n\r #/.:0aA", bytes(range(256)))))])
        return data[:place] + (b"", old + old, new, new + old, new)[kind] + data[place + 1:]
    lines = re.findall(rb"[^\n]*\n|[^\n]+", data)
    one, other = draw.randrange(len(lines)), draw.randrange(len(lines))
    if draw.randrange(10) == 0:
        lines.insert(other, draw.choice(LONG))
    elif kind == 5:
        lines[one], lines[other] = lines[other], lines[one]
    else:
        lines.insert(other, lines[one])
    return b"".join(lines)


def of_all_pages(draw: Random, data: bytes) -> Case:
    """Return a crawl that begins at all pages, so that each of them is in the report."""
    try:
        seeds = list(map(str, read_web(data)))
    except InputError:
        seeds = []
    draw.shuffle(seeds)
    crawl = Crawl(data, seeds[:100] or ["http://a.test/"], sources=True)
    return crawl_case(crawl, draw.choice((1, 1, 2, 3, 4)))


def webs(draw: Random) -> list[Case]:
    data, seeds = random_web(draw)
    listed = "\n".join(random_good_seeds(draw)).encode() if draw.randrange(4) == 0 else None
    suffix = draw.choice(SUFFIXES) if draw.randrange(4) == 0 else None
    room = draw.choice((None, 4096, 2**40))
    crawl = Crawl(data, seeds, listed, suffix, draw.random() < 0.5, draw.random() < 0.5, room)
    numbers = [1, draw.choice((2, 3, 8))]
    numbers += [draw.choice((64, 512))] if draw.randrange(20) == 0 else []
    return [crawl_case(crawl, workers) for workers in numbers]


def changed_webs(draw: Random) -> list[Case]:
    return [of_all_pages(draw, changed(draw, random_web(draw)[0]))]


WEB_PIECES = (
    b"page http://a.test/\n", b"page http://a.test/\n", b"page HTTP://A.test:80/x/..#f\n",
    b"page http://b.test/x/y\r\n", b"page http://b.test/x/y\r\n", b"page https://c.test\n",
    b"page https://c.test\n", b"page  http://d.test/ \n", b"page http://[\n",
    b"page ftp://a.test/\n", *[b"link ../x\n"] * 4, b"link http://\xc3\xa9.test/\xc3\xa9\r\n",
    b"link \n", b"link mailto:x\n", *[b"moved ?x\n"] * 3, b"moved \n", b"moved http://[\r\n",
    b"\n", b"\n", b"\n", b"\r\n", b"\r", b" ", b"page ", b"link ", b"moved ", b"page", b"Link x\n",
    b"links\n", b"moved\n", b"savedweb 2\n", b"link \xff\n", b"\xc3", b"\xe2\x82\xac",
    b"link \xed\xa0\x80\n", b"http://a.test/", b"\t", *[b"link #\xc3\xa9\n"] * 7,
    *[b"page http://e.test/\r\nmoved ?x\n"] * 3,
)
WEB_HEADERS = (
    *[b"savedweb 1\n"] * 3, *[b"savedweb 2\n"] * 3, b"savedweb 1\r\n", b"savedweb 2\r\n", None
)


def pieces(draw: Random, data: bytes, choices: tuple[bytes, ...]) -> bytes:
    """Append up to nine pieces to the data, sometimes another byte or a long line."""
    for _ in range(draw.randrange(draw.choice((4, 10)))):
        data += draw.choice(choices)
        if draw.randrange(20) == 0:
            data += bytes([draw.randrange(256)])
        if draw.randrange(50) == 0:
            data += b"a" * draw.randrange(4087, 4095)
    return data


def web_pieces(draw: Random) -> list[Case]:
    header = draw.choice(WEB_HEADERS) or draw.choice(WEB_PIECES)
    return [of_all_pages(draw, pieces(draw, header, WEB_PIECES))]


FOLDER_PAGES = (
    "http://a.test/d/1", "http://a.test/d/2", "http://a.test/d/", "http://a.test/d/1?q=/e/",
    "http://a.test/d/e/1", "http://a.test/d", "http://a.test", "https://a.test/d/1",
    "http://b.test/d/1", "http://a.test:81/d/1", "http://u@a.test/d/1", "http://u:p@a.test/d/2",
)
FOLDER_LINKS = (
    "", "?q", "#f", ".", "..", "x", "/x", "//h.test/x", "http:x", "https:x", "a:b", "x?y:z", "/y:z",
    " ?q", " x", "\t#f", "\\\\h.test", "../1?q", "//[",
)


def plain_on_all(text: str) -> bool:
    try:
        return all(url_or_none(text, url_of(page)) or True for page in FOLDER_PAGES[6:9])
    except NotPlain:
        return False


def folders(draw: Random) -> list[Case]:
    """Return a crawl of pages with few or many common links, some of which have the same hash."""
    texts = [*FOLDER_LINKS, *filter(plain_on_all, (odd_text(draw) for _ in range(30)))]
    if draw.randrange(8) == 0:
        texts += [f"x{number}{end}" for number in range(200) for end in ("", "#f")]
        texts += [f"{ONE_HASH}{number:08}" for number in range(200)]
    lines = ["savedweb 1"]
    for page in draw.sample(FOLDER_PAGES, draw.randrange(2, 13)):
        most = draw.choice((12, 12, len(texts)))
        lines += [f"page {page}", *(f"link {text}" for text in draw.choices(texts, k=most))]
    return [of_all_pages(draw, "\n".join(lines).encode())]


# this many links have more bytes than one thread reads
LONG_PAGE = 12_000
LONG_LINKS = ("/x/", "x/", "http://b.test/", "mailto:")


def large_webs(draw: Random) -> list[Case]:
    """Return crawls of a ring of pages, each with two links `gone` and a missing URL of its own.

    Some URLs have the same hash, and one page may be long. The last crawl has one page twice.
    """
    urls = [f"http://a.test/{number}" for number in range(draw.choice((50, 700, 3000)))]
    urls += [f"{ONE_HASH}{number:08}" for number in range(draw.choice((0, 200)))]
    draw.shuffle(urls)
    lines = ["savedweb 1"]
    long = draw.choice((None, draw.randrange(len(urls))))
    for place, url in enumerate(urls):
        after = urls[(place + 1) % len(urls)]
        lines += [f"page {url}", f"link {after}", "link gone", f"link m{place}", "link gone"]
        if place == long:
            lines += [f"link {draw.choice(LONG_LINKS)}{number:015}" for number in range(LONG_PAGE)]
    crawl = Crawl("\n".join(lines).encode(), urls[:1], queues=True, sources=True)
    twice = crawl._replace(web=b"%b\npage %b#f" % (crawl.web, draw.choice(urls).encode()))
    return [crawl_case(crawl, 1), crawl_case(crawl, draw.choice((2, 4))), crawl_case(twice, 1)]


def narrow_crawls(draw: Random) -> list[Case]:
    data, seeds = random_web(draw)
    suffix = draw.choice(SUFFIXES) if draw.randrange(8) == 0 else None
    crawl = Crawl(data, seeds, suffix=suffix, most=draw.choice((1, 2, 2, 3, 3, 4, 5, 7)))
    return [crawl_case(crawl, 1)]


def random_good_seeds(draw: Random) -> list[str]:
    return [spelled(draw, target) for target in random_targets(draw, 6)]


SEED_PIECES = tuple(f"{text}{end}".encode() for text in GOOD for end in ("\n", "\r\n")) + (
    b"\n", b"\r\n", b"\r", b" ", b"x\n", b"mailto:x\n", b"ftp://a.test/\n", b"http://[\n", b" \n",
    b"\xff\n", b"\xc3", b"http://a.test:99999/\n", b"http://a.test/\xff\n", b"a" * 4097, b"/x\n",
)


def seeds_files(draw: Random) -> list[Case]:
    good = joined(draw, random_good_seeds(draw))
    listed = changed(draw, good) if draw.random() < 0.5 else pieces(draw, b"", SEED_PIECES)
    web = b"savedweb 1\npage http://a.test/\nlink x\n"
    seeds: tuple[list[str], ...] = ([], [], ["http://z.test/"])
    crawl = Crawl(web, draw.choice(seeds), listed, sources=True)
    return [crawl_case(crawl, draw.choice((1, 2, 4)))]


def crawls_with_errors(draw: Random) -> list[Case]:
    """Return a crawl whose inputs are each valid or not; the first invalid one decides."""
    data, seeds = random_web(draw)
    web = changed(draw, data) if draw.randrange(4) == 0 else data
    listed = joined(draw, random_good_seeds(draw)) if draw.random() < 0.5 else None
    if listed and draw.random() < 0.5:
        listed += draw.choice((b"\nx\n", b"\nmailto:x\n", b"\n\xff\n", b"\n" + b"a" * 4097))
    for _ in range(draw.choice((0, 0, 1, 2))):
        seeds.insert(draw.randrange(len(seeds) + 1), draw.choice(NO_SEEDS))
    suffix = draw.choice((None,) * 6 + SUFFIXES + BAD_SUFFIXES[:2] + (draw.choice(BAD_SUFFIXES),))
    crawl = Crawl(web, seeds, listed, suffix, draw.random() < 0.5, draw.random() < 0.5)
    return [crawl_case(crawl, draw.choice((1, 2, 4)))]


def keys(draw: Random) -> list[Case]:
    good = draw.choice((*GOOD, *random_good_seeds(draw)))
    text = draw.choice((good, odd_text(draw), odd_text(draw), draw.choice(NO_SEEDS)))
    workers = draw.choice((1, 2, 3, 4, 64, 511, 512))
    words = ["key", "--workers", str(workers), "--", text]
    return [case(words, b"", lambda: key_of(text, workers))]


OFFER = "look {s}\nenter {s}\nadmit {s} {url}"
EVENTS = (
    OFFER, OFFER, "look {s}\nenter {s}", "look {s}", "enter {s}", "admit {s} {url}", "back {s}",
    "take {q}\ndone {q}", "take {q}", "done {q}", "close", "endseeds",
)


def random_script(draw: Random, longest: int) -> bytes:
    """Return a valid script."""
    workers = draw.choice((1, 1, 2, 2, 3, 7, 512))
    most = draw.choice((1, 2, 3, 4, 9, 2**40))
    senders = draw.choice(((0, 1, 2), (0, 1, 2), (0, 7, 2**64 - 1)))
    queues = (0, 0, 0, 1, workers - 1, workers, 2**32 - 1)
    urls = [*GOOD, *random_good_seeds(draw)] if draw.random() < 0.5 else random_good_seeds(draw)
    lines = [f"workers {random_number(draw, workers)} max {random_number(draw, most)}"]
    events = EVENTS if draw.random() < 0.5 else EVENTS[:-1]
    for _ in range(draw.randrange(longest)):
        sender = random_number(draw, draw.choice(senders))
        queue = random_number(draw, draw.choice(queues))
        text = draw.choice(events).format(s=sender, q=queue, url=draw.choice(urls))
        lines += text.split("\n")
    return joined(draw, lines)


def random_number(draw: Random, value: int) -> str:
    """Return a number, sometimes with leading zeros, of up to twenty digits."""
    return f"{value:0{draw.randrange(1, 21) if draw.randrange(10) == 0 else 1}}"


def scripts(draw: Random) -> list[Case]:
    return [script_case(random_script(draw, draw.choice((60, 60, 60, 600))))]


def changed_scripts(draw: Random) -> list[Case]:
    return [script_case(changed(draw, random_script(draw, 8)))]


BAD_URLS = (
    b"mailto:x", b"ftp://a.test/", b"/x", b"", b"http://[", b"http://a.test:99999/",
    b"http://\xe2\x82", b"http://\xed\xa0\x80.test/", b"\r",
)
GAPS = (b" ",) * 147 + (b"", b"  ", b"\t")
ENDS = (b"\n",) * 40 + (b"\r\n",) * 10 + (b"\n\r\n",) * 6 + (b"", b"\r", b" \n", b"\r\r\n")
COUNTS = (b"1", b"2", b"7", b"00000000000000000100", b"0512", b"512")
MOSTS = (b"1", b"9", b"0004294967296", b"00000001099511627776", b"999999999999", b"1099511627776")
WORDS = (b"look", b"enter", b"back", b"take", b"done") * 11 + (
    b"Look", b"looks", b"close", b"endseeds", b""
)


def script_piece(draw: Random) -> bytes:
    """Return a line, or a piece of a line, with a random line end."""
    kind = draw.randrange(64)
    number = draw.choice(NUMBERS) if draw.randrange(16) == 0 else b"%d" % draw.randrange(9)
    if draw.randrange(16) == 0:
        number = number.rjust(draw.randrange(18, 22), b"0")
    if kind == 0:
        line = draw.choice((draw.choice(LONG), bytes([draw.randrange(256)])))
    elif kind < 3:
        line = draw.choice((b"workers 1 max 1", *WORDS[-5:]))
    elif kind < 18:
        line = draw.choice((b"endseeds", b"close", b"endseeds", b"close", b""))
    elif kind < 32:
        url = draw.choice(BAD_URLS) if draw.randrange(10) == 0 else draw.choice(GOOD).encode()
        line = draw.choice(GAPS).join((b"admit", number + draw.choice(GAPS) + url))
    else:
        line = draw.choice(WORDS) + draw.choice(GAPS) + number
    return line + draw.choice(ENDS)


def script_pieces(draw: Random) -> list[Case]:
    numbers = [draw.choice(COUNTS), draw.choice(MOSTS)]
    if draw.randrange(10) == 0:
        numbers[draw.randrange(2)] = draw.choice(NUMBERS)
    gaps = [draw.choice(GAPS) for _ in range(3)]
    header = b"workers%b%b%bmax%b%b" % (gaps[0], numbers[0], gaps[1], gaps[2], numbers[1])
    header = header + draw.choice(ENDS) if draw.randrange(30) else b""
    body = b"".join(script_piece(draw) for _ in range(draw.randrange(10)))
    return [script_case(header + body)]


# For each command the values of each operand
COMMANDS: dict[str, tuple[str, ...]] = {
    "crawl": (f"- - {LIST} none", "http://a.test/ http://b.test/ mailto:x x"),
    "check": (f". . . none {LIST}", "http://a.test/ http://b.test/x/ ftp://x"),
    "site": (". . none", "http://a.test/ http://b.test/x x"),
    "replay": (f"- - {LIST} none",),
    "key": ("http://a.test/ http://é.test x",),
    "serve": (),
}
# The values of each option that has one
VALUES = {
    "workers": "2", "max-pending": "9", "within": "a.test", "seeds": LIST, "ignore": LIST, "index": LIST,
    "config": f"/dev/null {LIST} none", "seed": "./ ..", "index-file": "index.html x", "fallback": "html", "log": "log .", "compact": "new",
    "format": "text json html github junit sarif pdf", "source-url": "http://b.test/", "host": "nginx github netlify plain apache",
    "part": "0/2 2/2", "wait": "1", "list": "pending in-progress done stats all", "map": "../x=. ..=none x",
}
ARGUMENTS = (
    *COMMANDS, "help", "play", "-", "--", "", "=", "-x", "-h", "--help", "--version", "--workers",
    "--workers=0", "--workers=+3", "--workers=513", "--seeds", "--json", "--within=",
    "--max-pending=18446744073709551616", "http://c.test/", "é", "\x1b[31m", "\u202e", "%s{}",
    "a" * 5000,
)
MESSAGE = re.compile(r"mercator: [^\n]+\n")


@lru_cache(maxsize=None)
def options_of(command: str) -> list[str]:
    """The options in the help of a command, once with each value."""
    words = []
    for option in described_by_help(help_of(PROGRAM, command)).options:
        values = VALUES[option.name].split() if option.value else []
        words += [f"--{option.name}={value}" for value in values] or [f"--{option.name}"]
    return words


def command_lines(draw: Random) -> list[Case]:
    command = draw.choice([*COMMANDS])
    options = options_of(command)
    words = draw.sample(options, min(len(options), draw.randrange(4)))
    words += ["--dry-run"] if "--fix" in words and "--dry-run" not in words else []  # no file is written
    words += [draw.choice(values.split()) for values in COMMANDS[command]]
    draw.shuffle(words)
    words.insert(0, command)
    if draw.randrange(3) == 0:
        place = draw.randrange(len(words) + 1)
        words[place:place + draw.randrange(2)] = draw.choices(ARGUMENTS, k=draw.randrange(3))
    data = random_script(draw, 8) if command == "replay" else random_web(draw)[0]
    return [Case(words, data, draw.choice((b"http://a.test/\n", data)), [], ANY, [])]


def misshapen(status: int, output: bytes, errors: bytes) -> str:
    """Return what is wrong with the form of an output, or nothing."""
    text = errors.decode("utf-8", "backslashreplace")
    lines = text.splitlines(keepends=True)
    if not 0 <= status <= 4:
        return f"status {status}: {text}"
    if any(not one.isprintable() for one in text.replace("\n", "")):
        return f"a control character in {text!r}"
    if status in (1, 2) and not (lines and MESSAGE.fullmatch(lines[-1])):
        return f"status {status} without a message: {text!r}"
    if status == 3 and (output or not lines or not lines[-1].endswith("\n")):
        return f"status 3: {output!r}, {text!r}"
    return ""


# ---------------------------------------------------------------- the kinds of inputs


class Kind(NamedTuple):
    draw: Callable[[Random], list[Case]]
    share: int  # how many of a thousand inputs
    ought: list[str]  # what must occur: output lines without numbers and URLs, features of inputs


def error_lines(what: str, *texts: str) -> list[str]:
    return [f"mercator: {what}{text}" for text in texts]


WEB_ERRORS = error_lines(
    "saved web: ", "bad header", "line: bad line", "line: link before page", "line: mixed page",
    "line: bad page URL", "line: page twice", "line: line too long", "line: not UTF-8",
)
SCRIPT_ERRORS = error_lines(
    "script: ", "bad header", "line: bad line", "line: bad URL", "line: line too long",
    "line: not UTF-8",
)
SEEDS_ERRORS = error_lines(
    "seeds: line: ", "line too long", "not UTF-8", "not a URL", "not http or https"
)
SEED_ERRORS = error_lines("seed: ", "not a URL", "not http or https")
LINES = ["ok", "missing", "total ok missing", "from", "from -"]
MOVED = ["moved", "total ok missing moved"]
REPLIES = [
    "word open", "word closed", "entered", "lost", "accepted", "seen", "count", "taken", "empty",
    "closed", "pending", "refused closed", "refused full", "refused nothing", "refused busy",
    "refused nosuch",
]
ALL_EVENTS = [f"event {word}" for word in (
    "look", "enter", "admit", "back", "endseeds", "take", "done", "close"
)]
KINDS = {
    "large web": Kind(large_webs, 1, [*LINES[:4], "queue", WEB_ERRORS[5]]),
    "folder": Kind(folders, 20, LINES[:4]),
    "web": Kind(webs, 80, [*LINES, *MOVED, "queue"]),
    "web pieces": Kind(web_pieces, 170, [*LINES[:4], *MOVED, *WEB_ERRORS]),
    "changed web": Kind(changed_webs, 150, [*LINES[:4], *MOVED, *WEB_ERRORS]),
    "narrow crawl": Kind(
        narrow_crawls, 60, ["ok", *error_lines("incomplete: ", "seed missing", "link missing")]
    ),
    "seeds": Kind(seeds_files, 100, [*LINES, *SEEDS_ERRORS]),
    "crawl with errors": Kind(
        crawls_with_errors, 60, ["ok", "mercator: bad suffix", *SEEDS_ERRORS, *SEED_ERRORS]
    ),
    "key": Kind(keys, 79, ["sound", *error_lines("URL: ", "not a URL", "not http or https")]),
    "script": Kind(scripts, 50, REPLIES + ALL_EVENTS),
    "script pieces": Kind(script_pieces, 120, ["sound", *ALL_EVENTS, *SCRIPT_ERRORS]),
    "changed script": Kind(changed_scripts, 110, ["sound", *ALL_EVENTS, *SCRIPT_ERRORS]),
    "command line": Kind(command_lines, 40, []),
}


# ---------------------------------------------------------------- comparing


def difference(made: Case) -> str:
    """Return the difference to the expected output (status 0) or standard error, or nothing."""
    if made.listed is not None:
        Path(LIST).write_bytes(made.listed)
    try:
        done = subprocess.run(
            [PROGRAM, *made.words], input=made.data, capture_output=True, timeout=SECONDS,
            check=False,
        )
    except subprocess.TimeoutExpired:
        return f"it did not end within {SECONDS} s"
    output, other = done.stdout, done.stderr
    if made.status == ANY:
        return misshapen(done.returncode, output, other)
    if made.status:
        output, other = other, output
    expected = "".join(f"{line}\n" for line in made.expected)
    if (output, other, done.returncode) == (expected.encode(), b"", made.status):
        return ""
    lines = output.decode("utf-8", "backslashreplace").replace("\r", "\\r").split("\n")
    differing = difflib.unified_diff(expected.split("\n"), lines, "expected", "printed", lineterm="")
    stream = "standard output" if made.status else "standard error"
    return "\n".join([
        f"status {done.returncode}, expected {made.status}; {len(other)} bytes on {stream}",
        *list(differing)[:40],
    ])


def kept(made: Case, name: str, folder: str) -> str:
    """Keep the input in a file, and return the command that shows the difference."""
    file = f"{name.replace(' ', '-')}.input"
    Path(folder, file).write_bytes(made.data)
    words = made.words
    if made.listed is not None:
        listed = file.replace(".input", ".list")
        Path(folder, listed).write_bytes(made.listed)
        words = [listed if word == LIST else word for word in words]
    return f"cd {folder} && {shlex.join([PROGRAM, *words])} < {file}"


def run(kind: str, number: int, seed: str, folder: str) -> tuple[Counter[str], list[str]]:
    """Make random cases and compare them; return what occurred, and the differences."""
    name = f"{kind} {number}"
    draw = Random(f"{name} of seed {seed}")
    cases: list[Case] = []
    while not cases:
        try:
            cases = KINDS[kind].draw(draw)
        except NotPlain:
            continue
    came: Counter[str] = Counter()
    differing = []
    for made in cases:
        came.update({re.sub(r" (\d+|https?://\S*)", "", line) for line in made.expected})
        came.update(set(made.has))
        found = difference(made)
        if found:
            differing.append(
                f"{name}:\n{kept(made, name, folder)}\n{found}\n{again(kind, number, seed)}\n"
            )
    return came, differing


def again(kind: str, number: int, seed: str) -> str:
    """Return the command that compares only this input."""
    words = [sys.argv[0], "--seed", seed, "--kind", kind, "--number", str(number)]
    return f"to run only this: PROGRAM={shlex.quote(PROGRAM)} {shlex.join(words)}"


def scratch(folder: str) -> None:
    """Give a process of the pool a working folder of its own."""
    os.chdir(tempfile.mkdtemp(dir=folder))


class Totals:
    def __init__(self) -> None:
        self.passed = self.failed = 0

    def fail(self, text: str) -> None:
        self.failed += 1
        if self.failed <= TOLD:
            print(text)


def compare_all(options: argparse.Namespace, folder: str, work: str) -> Totals:
    totals = Totals()
    with ProcessPoolExecutor(len(os.sched_getaffinity(0)), None, scratch, (work,)) as pool:
        for name, kind in KINDS.items():
            if options.kind and name not in options.kind:
                continue
            numbers = range(max(1, options.count * kind.share // 1000))
            if options.number is not None:
                numbers = range(options.number, options.number + 1)
            count = len(numbers)
            came: Counter[str] = Counter()
            rest = ([name] * count, numbers, [options.seed] * count, [folder] * count)
            for some, differing in pool.map(run, *rest, chunksize=max(1, min(20, count // 16))):
                came += some
                totals.passed += not differing
                for text in differing[:1]:
                    totals.fail(text)
            for line in kind.ought if options.counts else []:
                print(f"{name}: {came[line]} times: {line}")
            has_all = options.count >= COUNT and options.number is None
            for line in kind.ought if has_all else []:
                if came[line] < LEAST:
                    totals.fail(f"{name}: {came[line]} times, at least {LEAST} expected: {line}")
    return totals


def main() -> None:
    parser = argparse.ArgumentParser(
        description=__doc__, formatter_class=argparse.RawDescriptionHelpFormatter
    )
    option = parser.add_argument
    option("--count", type=int, default=COUNT, metavar="COUNT",
           help="approximate number of inputs (default: 10000)")
    option("--seed", default="1", help="seed of the random inputs (default: 1)")
    option("--kind", action="append", choices=KINDS, metavar="KIND",
           help="use only this kind of inputs; repeatable")
    option("--number", type=int, metavar="N",
           help="use only the input with this number of each kind")
    option("--counts", action="store_true",
           help="print how often each error, reply and line occurred")
    options = parser.parse_args()
    if not os.path.isfile(PROGRAM):
        sys.exit(f"drawn.py: no program {PROGRAM}: run `rt run -- --help` in crates/mercator_cli")
    folder = tempfile.mkdtemp(prefix="drawn-")
    with tempfile.TemporaryDirectory() as work:
        totals = compare_all(options, folder, work)
    if not os.listdir(folder):
        os.rmdir(folder)
    print(f"{totals.passed} passed, {totals.failed} failed")
    sys.exit(1 if totals.failed or not totals.passed else 0)


if __name__ == "__main__":
    main()
