"""Site lists, which `check --index` and `site --index` read: what they mean, and random lists of random folders."""

from __future__ import annotations

import os
from pathlib import Path
from random import Random
from typing import Dict, Iterator, List, NamedTuple, Optional, Tuple

import drawn
from checking import feeds
from checking.documents import TOOL, Document, document_of, form_of
from checking.model import FILE_LIMIT, INDEX_FILES, Alias, Found, Model, Moved, Response, Row, Settings, Site, is_short, last_of, url_of

# The forms of files by their media types
FORMS = {
    "text/html": "html", "application/xhtml+xml": "xml", "image/svg+xml": "xml", "text/css": "css", "text/xml": "feed", "application/xml": "feed",
    "application/rss+xml": "feed", "application/atom+xml": "feed",
}
LINE_LIMIT = 4096  # the most bytes in a line
OTHER_TYPES = ("text/plain", "image/png", "application/octet-stream", "/")


class Line(NamedTuple):
    """A URL with its type and its file, or the target of its redirect."""

    url: str
    kind: str
    name: str

    def media_type(self) -> str:
        """The media type in lower case, without its parameters."""
        return self.kind.partition(";")[0].lower()

    def form(self) -> Optional[str]:
        """The form of the file, `` if its first bytes decide, and None if it has no links."""
        return "" if self.kind == "-" else FORMS.get(self.media_type())

    def is_page(self) -> bool:
        """Whether the type is that of an HTML document."""
        return self.form() in ("html", "xml") and self.media_type() != "image/svg+xml"

    def text(self) -> str:
        """The line in the list."""
        return f"{self.url} {self.kind} {self.name}"


class BadList(Exception):
    """Raised if bytes are not a site list. Its text is the error that the program prints."""


def read_list(data: bytes) -> List[Line]:
    """The lines of a site list that are not empty."""
    texts = data.split(b"\n")
    ended, last = [text[:-1] if text.endswith(b"\r") else text for text in texts[:-1]], texts[-1]
    found = []
    for number, text in enumerate(ended + [last] * bool(last), 1):
        try:
            found += [line_in(text)] if text else []
        except BadList as error:
            raise BadList(f"index: line {number}: {error}") from None
    return found


def line_in(data: bytes) -> Line:
    """The fields of a line."""
    if len(data) > LINE_LIMIT:
        raise BadList("line too long")
    try:
        fields = data.decode("utf-8").split(" ", 2)
    except UnicodeError:
        raise BadList("not UTF-8") from None
    if len(fields) < 3 or not fields[2] or fields[1] not in ("redirect", "-") and "/" not in fields[1]:
        raise BadList("bad line")
    line = Line(*fields)
    try:
        drawn.url_of(line.url)
    except drawn.NotUrl:
        raise BadList("not a URL") from None
    except drawn.NotHttp:
        raise BadList("not http or https") from None
    if line.kind != "redirect" and {"", ".", ".."} & set(line.name.split("/")):
        raise BadList("bad file name")
    return line


class ListedSite(Site):
    """The pages of a list below a top. A listed URL is a page of its own, also if another one has the same file."""

    def __init__(self, folder: str, settings: Settings, lines: List[Line]) -> None:
        # The names of the folder do not matter, so they are not read
        self.folder = os.fsencode(folder)
        self.base = drawn.url_of(settings.base)
        self.settings = settings
        self.documents: Dict[bytes, Optional[Document]] = {}
        self.lines: Dict[str, Line] = {}  # by URL, the first line that has it
        for line in lines:
            url = str(drawn.url_of(line.url))
            if url.startswith(str(self.base)):
                self.lines.setdefault(url, line)

    def file_of(self, name: bytes) -> str:
        """The file at a URL."""
        return self.lines[name.decode()].name

    def pages(self) -> List[Tuple[str, bytes]]:
        """The URLs of files in order. Each names its own file."""
        return sorted((url, url.encode()) for url, line in self.lines.items() if line.kind != "redirect")

    def urls(self) -> Iterator[str]:
        """The listed URLs, also those of redirects."""
        return iter(self.lines)

    def own_starts(self) -> List[str]:
        """The URLs of the documents by their types, and of sitemaps and feeds. An SVG file is a picture, at which no check starts."""
        return [url for url, line in self.lines.items() if line.is_page() or self.is_feed(url.encode()) and feeds.is_start(last_of(url))]

    def own_pages(self) -> List[Tuple[str, bytes]]:
        """The URLs of files. Each names its own file."""
        return self.pages()

    def sitemaps(self) -> List[str]:
        """The URLs of the sitemaps that are known by their names."""
        return [url for url in self.lines if self.is_feed(url.encode()) and feeds.is_sitemap(last_of(url))]

    def is_feed(self, name: bytes) -> bool:
        """Whether the type of the file at a URL is that of sitemaps and feeds."""
        return self.lines[name.decode()].form() == "feed"

    def is_document(self, name: bytes) -> bool:
        """Whether the file at a URL is an HTML document: by its type, or by its first bytes if that is not known."""
        line = self.lines[name.decode()]
        return line.is_page() or line.form() == "" and self.document(name) is not None

    def hint(self, url: str) -> Optional[str]:
        """No rule finds a page that is not listed."""
        return None

    def response(self, url: str) -> Response:
        """What the list has for a URL."""
        line = self.lines.get(url)
        if line is None or not is_short("page", url):
            return None
        if line.kind != "redirect":
            return Found(url.encode())
        target = url_of(line.name, drawn.url_of(url))
        assert target is not None, f"{line.name} is not http or https"
        return Moved(target)

    def read(self, name: bytes) -> Optional[Document]:
        """Reads the links of the file at a URL."""
        line = self.lines[name.decode()]
        form, styles = line.form(), self.settings.styles
        path = os.path.join(self.folder, os.fsencode(line.name))
        if form is None or form == "css" and not styles or not os.path.isfile(path) or os.path.getsize(path) > FILE_LIMIT:
            return None
        body = Path(os.fsdecode(path)).read_bytes()
        return document_of(body, form or "html", styles) if form or TOOL.is_document(None, body) else None


# ---- random lists


class Listed(NamedTuple):
    """A random list of a random folder, and the settings of its check."""

    text: bytes
    settings: Settings


# Lines that are not those of a list, or only almost
ODD_LINES = (
    b"http://docs.test/x text/html", b"http://docs.test/x  a.html", b"http://docs.test/x html a.html", b"x text/html a.html",
    b"http://docs.test/x text/html ", b"ftp://docs.test/ text/html a.html", b"http://docs.test/x text/html ../a.html", b" ",
    b"http://docs.test/x text/html /a.html", b"http://docs.test/x text/html a//b", b"http://docs.test/x text/html a/./b",
    b"http://docs.test/x text/html a/", b"http://docs.test/x redirect ../..//", b"http://docs.test/\xff text/html a.html",
    b"http://docs.test/" + b"x" * 4073 + b" - none", b"http://docs.test/" + b"x" * 4072 + b" - none", b"\r", b"http:// text/html a.html",
    b"http://docs.test/x REDIRECT a.html", b"http://docs.test/x - a.html ", b"http://docs.test:99999/ - a.html",
)


def with_odd_lines(draw: Random, data: bytes) -> bytes:
    """A list with some odd lines between its own, which may be cut off."""
    lines = data.splitlines(keepends=True)
    for line in draw.choices(ODD_LINES, k=draw.choice((1, 1, 2))):
        lines.insert(draw.randrange(len(lines) + 1), line + b"\n")
    whole = b"".join(lines)
    return whole if draw.random() < 0.7 else whole[:draw.randrange(len(whole))]


def draw_list(draw: Random, folder: str, settings: Settings) -> Listed:
    """A list of pages of a folder, with some of them left out, changed or listed again."""
    if settings.is_rooted():
        settings = settings._replace(base="http://docs.test/", front="")
    model = Model(folder, settings._replace(seeds=()))
    lines = [line for line in changed_lines(draw, model) if is_line(line)]
    draw.shuffle(lines)
    site = ListedSite(folder, settings, lines)
    if not site.lines:
        lines.append(Line(str(site.base), "-", "none"))
        site = ListedSite(folder, settings, lines)
    seeds = [seed for seed in settings.seeds if site.response(str(drawn.url_of(seed, site.base)))]
    settings = settings._replace(exact=False, fallback=False, follow=False, queries=False, indices=INDEX_FILES, host="", seeds=tuple(seeds))
    text = text_of(draw, lines)
    return Listed(with_odd_lines(draw, text) if draw.random() < 0.2 else text, settings)


def expected_rows(folder: str, listed: Listed) -> List[Row]:
    """The rows of the check of a list, or its error."""
    try:
        site = ListedSite(folder, listed.settings, read_list(listed.text))
    except BadList as error:
        return [{"kind": "error", "message": f"mercator: {error}"}]
    if not site.lines:
        return [{"kind": "error", "message": "mercator: index: no URL below BASE"}]
    return Model(folder, listed.settings, site).rows()


def is_line(line: Line) -> bool:
    """Whether a line is within the limit, and its file can be listed."""
    text = line.text()
    if not text.isprintable() or len(text.encode("utf-8", "replace")) > LINE_LIMIT:
        return False
    return line.kind == "redirect" or not {"", ".", ".."} & set(line.name.split("/"))


def text_of(draw: Random, lines: List[Line]) -> bytes:
    """A list with these lines, and with empty ones. Lines end in LF, or in CR and LF."""
    end = draw.choice(("\n", "\n", "\r\n"))
    texts = (line.text() + end + end * (draw.random() < 0.05) for line in lines)
    return "".join(texts).encode()


def changed_lines(draw: Random, model: Model) -> Iterator[Line]:
    """The lines for the pages of a folder, some of them changed, and lines of other hosts."""
    pages = {url: Found(name) for url, name in model.site.pages()}
    for url, response in {**pages, **model.responses}.items():
        line = line_of(draw, model.site, url, response)
        if line is None or draw.random() < 0.1:
            continue
        yield line._replace(url=respelled(draw, url))
        if draw.random() < 0.05:
            yield Line(respelled(draw, url), draw.choice(("text/html", "text/plain")), draw.choice((line.name, "gone.html")))
        if draw.random() < 0.05:
            yield line._replace(url=url.replace("http://", "https://"))


def line_of(draw: Random, site: Site, url: str, response: Response) -> Optional[Line]:
    """A line for a page of a folder, or sometimes for one that is missing."""
    if isinstance(response, Moved):
        return Line(url, "redirect", draw.choice((response.url, response.url.partition(":")[2], response.url + "#x")))
    if isinstance(response, (Found, Alias)):
        name = os.fsdecode(response.name)
        return Line(url, random_type(draw, name), name)
    if draw.random() < 0.2:
        return Line(url, "redirect", draw.choice(("./", "?", "#x", "gone.html", str(site.base), "//other.test/")))
    return None


def random_type(draw: Random, name: str) -> str:
    """The type with which a server sends a file, or now and then another one. Only a style sheet gets that of style sheets."""
    form = form_of(os.fsencode(name), True)
    usual = draw.choice([kind for kind in FORMS if FORMS[kind] == form] or OTHER_TYPES)
    others = [kind for kind in FORMS if FORMS[kind] != "css"] + ["Text/HTML;charset=UTF-8", "IMAGE/svg+xml;", "text/html;", "-"]
    return draw.choice([*others, "text/CSS;x"] if form == "css" else others) if draw.random() < 0.3 else usual


def respelled(draw: Random, url: str) -> str:
    """A URL in another spelling, or not."""
    return draw.choice((url, url, url, url.replace("http://docs.test/", "HTTP://Docs.Test:80/"), url + "#part"))
