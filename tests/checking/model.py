"""The broken links of a folder, by a model of a plain static server and a search from the top and from all documents.

drawn.py parses the URLs. It raises NotPlain if a URL needs tables that it does not have.
"""

from __future__ import annotations

import errno
import os
import re
import stat
from collections import Counter
from functools import lru_cache
from typing import AbstractSet, Any, Dict, Iterable, Iterator, List, NamedTuple, Optional, Set, Tuple, Union
from urllib.parse import quote, unquote_to_bytes

import drawn
from checking import feeds
from checking.documents import TOOL, Document, document_of, form_of, is_page, known_schemes, with_query_in
from checking.questions import question

Row = Dict[str, Any]
FRAGMENT = "\"<>`"  # percent-encoded in a fragment, in addition to controls, spaces and everything beyond ASCII
MOST_FILES = 10  # the number of files in the list of files with the most broken links
ERROR_PAGE = "404.html"  # the last name of the URL of a page that no sitemap has to list
LEADS_OUT = "a symbolic link out of the folder: --follow"  # the hint of a symbolic link that is not followed
LEADS_NOWHERE = "a symbolic link to nothing"
NO_INDEX_FILE = "the folder has no index file"
ROOT_PATH = re.compile("/(?!/)")  # the start of a link that is a path from the root
SLASHES = range(3, 9)  # the slashes in a URL of a host and at most five folders
LINE_LIMIT = 4096  # the most bytes in a line of a saved web
FILE_LIMIT = 1 << 30  # the most bytes of a file that is read


class Found(NamedTuple):
    """A file at its own URL."""

    name: bytes  # the file's path in the folder


class Alias(NamedTuple):
    """A file at another URL than its own."""

    name: bytes
    own: str


class Moved(NamedTuple):
    """A redirect."""

    url: str


Response = Union[Found, Alias, Moved, None]


class Place(NamedTuple):
    """The location of a link."""

    file: str
    line: int
    column: int


class Base(NamedTuple):
    """What the links of a page are resolved against."""

    url: drawn.Url
    is_given: bool  # by a `base` element
    front: str  # goes before a link without a scheme: the scheme of a `base` element, if that is neither http nor https


class Link(NamedTuple):
    """A link of a page: its target, its location and its text."""

    url: str
    fragment: Optional[str]
    place: Place
    written: str  # as the file has it, without white space around it


class Invalid(NamedTuple):
    """An invalid link of a page."""

    text: str  # as the report has it
    reason: str
    place: Place
    written: str


Located = Dict[Place, str]  # the locations of the links to a target, each with the text of its first link

INDEX_FILES = ("index.html", "index.htm", "index.xhtml")
# The beginnings of the names of files that a server may use as index files
INDEX_NAMES = ("index.", "default.", "home.")
# The rules of hosts: the settings of each
HOSTS: Dict[str, Dict[str, Any]] = {
    "nginx": {"indices": ("index.html",)},
    "github": {"indices": ("index.html",), "fallback": True},
    "netlify": {"indices": ("index.html",), "fallback": True},
    "plain": {"indices": ("index.html",), "exact": True},
}

SCHEMES = frozenset(known_schemes())


class Map(NamedTuple):
    """Another folder, in which the links are looked up that lead to the URLs below a prefix."""

    prefix: str  # a link on the top
    folder: str


# The top of a folder whose URL is not known: a host of its own, and more folders than a link leads up
NOWHERE = "http://folder.invalid/" + 32 * "-/"


class Settings(NamedTuple):
    """The settings of a check."""

    base: str  # NOWHERE if no BASE is given
    front: str = ""  # the prefix that is removed from URLs in the report
    ignores: Tuple[str, ...] = ()
    anchors: bool = True
    unreached: bool = False
    sitemap: bool = False  # whether the documents are listed that no sitemap lists
    exact: bool = False
    external: bool = False
    follow: bool = False
    queries: bool = False
    seeds: Tuple[str, ...] = ()  # links on the top at which the search starts
    reachable: bool = False  # whether only what the search reaches is checked
    invalid: bool = True  # whether links are reported that are no URL, lack their slashes, have an unknown scheme or name a local file
    styles: bool = True  # whether the links of style sheets, and of styles in documents, are read
    workers: int = 1  # which makes no difference
    indices: Tuple[str, ...] = INDEX_FILES  # the names of index files; in each folder the first one counts
    fallback: bool = False  # a file is also found without its suffix .html
    host: str = ""  # the host whose rules the last two settings and `exact` are, if the option names one. Then suffixes say what is a document
    maps: Tuple[Map, ...] = ()

    def is_rooted(self) -> bool:
        """Whether no BASE is given. Then a path that begins with a slash is a path in the folder."""
        return self.base == NOWHERE


class Flag(NamedTuple):
    """An option without a value. It turns a setting from its default to the other value."""

    setting: str
    option: str
    share: float  # of random folders, how many have it

    def value(self, is_given: bool) -> bool:
        """The value of its setting."""
        return bool(Settings._field_defaults[self.setting]) != is_given


FLAGS = (
    Flag("anchors", "--no-anchors", 0.2),
    Flag("unreached", "--unreached", 0.5),
    Flag("sitemap", "--sitemap", 0.3),
    Flag("exact", "--exact", 0.2),
    Flag("external", "--external", 0.5),
    Flag("follow", "--follow", 0.3),
    Flag("queries", "--queries", 0.15),
    Flag("reachable", "--reachable", 0.3),
    Flag("invalid", "--no-invalid", 0.2),
    Flag("styles", "--no-styles", 0.15),
)


def url_of(text: str, base: drawn.Url) -> Optional[str]:
    """The URL of a link without its fragment, or None if it is not http or https."""
    text, mark, _ = TOOL.cleaned(text).partition("#")
    if not text:
        return str(base)
    if mark:
        # Spaces before a fragment are not at the end of the text, so they are not removed
        text = re.sub(r"[\0-\x20]+\Z", lambda run: quote(run[0]), text)
    # The result is the same for all pages of a folder
    return resolved(text, base if text[0] == "?" else base._replace(path=(*base.path[:-1], ""), query=""))


def begins_path(text: str) -> bool:
    """Whether a text without what a URL parser drops begins with exactly one slash, or a backslash, which is one."""
    return text[:1] in ("/", "\\") and text[1:2] not in ("/", "\\")


def shown_seed(seed: str, settings: "Settings") -> str:
    """A seed in the message that it has no page. Without BASE, a dot is before one that begins with a slash."""
    return "." + seed if settings.is_rooted() and begins_path(seed) else seed


def in_folder(text: str, top: drawn.Url) -> Optional[str]:
    """The URL of a path that begins with a slash, as a path below the top. `..` does not lead above the top."""
    url = url_of(text, top._replace(path=("",)))
    return None if url is None else str(top) + url[len(str(top._replace(path=("",)))):]


def path_below(text: str, top: drawn.Url) -> str:
    """A path that begins with a slash, below the path of the top, without each `..` that leads above the top. Its escapes stay as they are."""
    path, mark, query = text.partition("?")
    depth, kept = 0, "/" + "/".join(top.path)
    for segment in re.findall(r"[^/\\]*[/\\]|[^/\\]+", path[1:]):
        dots = re.sub("%2e", ".", segment.rstrip("/\\"), flags=re.IGNORECASE)
        kept += segment if dots != ".." or depth else ""
        depth = max(depth - 1, 0) if dots == ".." else depth + (dots != ".")
    return kept + mark + query


@lru_cache(maxsize=1 << 18)
def resolved(text: str, base: drawn.Url) -> Optional[str]:
    """The URL of a text without a fragment."""
    if not TOOL.is_web(TOOL.scheme_of(text)):
        return None
    path, mark, query = text.partition("?")
    # The current URL Standard escapes this character, and drawn.py rejects it
    url = drawn.url_or_none(path.replace("^", "%5E") + mark + query, base)
    return None if url is None else str(url)


def origin_of(url: drawn.Url) -> str:
    """The scheme, host and port of a URL, and the slash after them."""
    return str(url._replace(path=("",), query=""))


def cut_front(text: str, front: str) -> str:
    """A text without its front, if it has that."""
    return text[len(front):] if text.startswith(front) else text


def often(links: List[str], count: int) -> List[str]:
    """The folders with this number of slashes in which at least half and at least two of the links are."""
    folders = [found[0] for found in (re.match(f"(?:[^/]*/){{{count}}}", link) for link in links) if found]
    return [folder for folder, times in Counter(folders).items() if 2 * times >= max(len(links), 4)]


def paths_below(folder: str, links: List[str]) -> int:
    """The number of links that are in a folder or to it."""
    return sum(link.startswith(folder) for link in links)


def is_short(word: str, text: str) -> bool:
    """Whether a line of a saved web with this word and text is within the limit."""
    return len(f"{word} {text}".encode("utf-8", "replace")) <= LINE_LIMIT


def written(text: str) -> Optional[str]:
    """
    The text of a link in a line of a saved web: the whole, or without its fragment. If it is too long, that of another scheme is cut,
    unless the scheme is too long itself.
    """
    fitting = [one for one in (text, text.partition("#")[0]) if is_short("link", one)]
    if fitting or TOOL.is_web(TOOL.scheme_of(text)):
        return fitting[0] if fitting else None
    start = text.encode("utf-8", "replace")[:LINE_LIMIT - len("link ")].decode("utf-8", "ignore")
    return start if TOOL.scheme_of(start) else None


def lacks_slashes(text: str) -> bool:
    """Whether a text begins with `http:` or `https:` without two slashes after it."""
    return re.match(r"https?:(?![/\\]{2})", text, re.IGNORECASE) is not None


def invalid_reason(text: str) -> Optional[str]:
    """Why a link without an http or https URL is invalid, or None if its scheme is a known one."""
    scheme = TOOL.scheme_of(text)
    if TOOL.is_web(scheme):
        return "not_url"
    if scheme == "file" or len(scheme) == 1:
        return "local_file"
    return None if scheme in SCHEMES else "unknown_scheme"


def fragment_of(text: str) -> Optional[str]:
    """The text after the `#` of a link, or None if it has none."""
    _, mark, fragment = TOOL.cleaned(text).partition("#")
    return fragment if mark else None


def has_id(text: str, ids: AbstractSet[str]) -> bool:
    """Whether a document with these ids has the anchor that the text after a `#` names."""
    fragment = drawn.encoded(text, FRAGMENT).partition(":~:")[0]
    read = unquote_to_bytes(fragment).decode("utf-8", "replace")
    return not fragment or fragment in ids or read in ids or read.lower() == "top" or read.startswith(("/", "!"))


def last_of(url: str) -> str:
    """The last segment of a URL's path."""
    return re.split("[?]", url)[0].rpartition("/")[2]


def name_of(url: str) -> str:
    """The name of the file or folder at the end of a URL's path, after which there may be a slash."""
    return re.split("[?]", url)[0].removesuffix("/").rpartition("/")[2]


def path_of(url: str) -> str:
    """A URL without its query."""
    return url.partition("?")[0]


def in_lower_case(text: str) -> bytes:
    """A text with its ASCII letters in lower case. No other letter is changed."""
    return text.encode("utf-8", "surrogateescape").lower()


def in_bytes(row: Tuple[Tuple[str, str], object]) -> Tuple[bytes, bytes]:
    """A sort key: the bytes of a pair of texts, such as a page's URL and a fragment."""
    return row[0][0].encode("utf-8", "replace"), row[0][1].encode("utf-8", "replace")


def in_order(places: Located) -> Iterator[Row]:
    """The members of the rows of locations, by file, line and column."""
    for place in sorted(places, key=lambda place: (place.file.encode(), place.line, place.column)):
        yield {**place._asdict(), "written": places[place]}


def fits(pattern: str, text: str) -> bool:
    """Whether a pattern matches a whole text. Each `*` matches any text."""
    return re.fullmatch(".*".join(map(re.escape, pattern.split("*"))), text, re.DOTALL) is not None


def matches(entry: str, target: str) -> bool:
    """Whether an entry of the ignore list, without its file, names a target: it begins with the entry, or the entry is a pattern for it."""
    return fits(entry, target) if "*" in entry else target.startswith(entry)


def matches_in(entry: str, file: str, target: str) -> bool:
    """Whether an entry of the form `FILE: TARGET` matches the links of a file to a target."""
    name, mark, rest = entry.partition(": ")
    return mark != "" and fits(name, file) and matches(rest, target)


def is_everywhere(entry: str) -> bool:
    """Whether an entry of the ignore list is for all files."""
    return ": " not in entry


def matches_any(entries: Iterable[str], target: str) -> bool:
    """Whether an entry for all files matches a target."""
    return any(matches(entry, target) for entry in entries if is_everywhere(entry))


def is_used(entry: str, target: str, places: Located) -> bool:
    """Whether an entry of the ignore list matches a target, or its links in the file that the entry names."""
    return matches(entry, target) if is_everywhere(entry) else any(matches_in(entry, place.file, target) for place in places)


def links_in(rows: List[Row]) -> int:
    """The number of links in the rows of targets and of their locations. A target without a location, to which only redirects lead, counts as one."""
    placed = {row["target"] for row in rows if "file" in row}
    return sum("file" in row or row["target"] not in placed for row in rows)


class Names(NamedTuple):
    """The paths of files and folders, and for each other path of a folder the one that counts. Those of folders end in a slash."""

    paths: Set[bytes]
    links: Dict[bytes, bytes]
    skipped: Dict[bytes, str]  # the hint of each symbolic link that is not followed


def names_below(folder: bytes, follow: bool) -> Names:
    """The names below a folder.

    A symbolic link counts as what it leads to, if that is in the folder or `follow` is set. Of the paths of a folder, the one
    without symbolic links counts, or for a folder outside, the first one of the shortest.
    """
    top = os.path.realpath(folder)
    paths: Set[bytes] = set()
    links: Dict[bytes, bytes] = {}
    skipped: Dict[bytes, str] = {}
    outside: Dict[bytes, bytes] = {}
    level = [b""]
    while level:
        listed = [(place, entry) for place in level for entry in ordered(os.scandir(os.path.join(folder, place)))]
        level = []
        for place, entry in listed:
            path, real = place + entry.name, os.path.realpath(entry.path)
            is_inside = os.path.commonpath([top, real]) == top
            if entry.is_symlink():
                skipped.update({path: hint for hint in skipped_hints(entry.path, is_inside or follow)})
            if entry.is_symlink() and not is_inside and not follow:
                continue
            if os.path.isfile(entry.path):
                paths.add(path)
            elif os.path.isdir(entry.path):
                path += b"/"
                paths.add(path)
                own = os.path.join(os.path.relpath(real, top), b"") if is_inside else outside.setdefault(real, path)
                if path == own:
                    level.append(path)
                else:
                    links[path] = b"" if real == top else own
    return Names({name for name in paths if TOOL.is_utf8(name)}, links, {name: hint for name, hint in skipped.items() if TOOL.is_utf8(name)})


def skipped_hints(path: bytes, is_followed: bool) -> Iterator[str]:
    """The hint of a symbolic link if it is skipped because it leads out of the folder or to nothing."""
    try:
        mode = os.stat(path).st_mode
    except OSError as error:
        if error.errno in (errno.ENOENT, errno.ENOTDIR, errno.ELOOP):
            yield LEADS_NOWHERE
        return
    if not is_followed and (stat.S_ISDIR(mode) or stat.S_ISREG(mode)):
        yield LEADS_OUT


def ordered(entries: Iterator["os.DirEntry[bytes]"]) -> List["os.DirEntry[bytes]"]:
    """Entries in the order of their names as folders, symbolic links last."""
    return sorted(entries, key=lambda entry: (entry.is_symlink(), entry.name + b"/"))


class Key(NamedTuple):
    """What a server looks up: a path in the folder and a query, both without percent-escapes."""

    path: bytes
    query: Optional[bytes]


class Site:
    """The pages of a folder, as a plain static server returns them."""

    def __init__(self, folder: str, settings: Settings) -> None:
        self.folder = os.fsencode(folder)
        self.base = drawn.url_of(settings.base)
        self.settings = settings
        self.names, self.links, self.skipped = names_below(self.folder, settings.follow)
        self.documents: Dict[bytes, Optional[Document]] = {}
        self.files: Dict[Key, bytes] = {}  # the first file in the order of names has the key
        self.own: Dict[bytes, str] = {}  # the own URL of each file: that of its folder for an index file
        for name in sorted(name for name in self.names if not name.endswith(b"/")):
            for key in self.keys(name):
                if self.files.setdefault(key, name) == name:
                    self.own[name] = self.url(key)
        # A query keeps its `%`: decoded, the URL of one file may be the name of another. So whole URLs come first.
        self.by_url = {self.url(key): name for key, name in self.files.items()}
        self.likely_indices = self.likely_index(list(self.own))

    def keys(self, name: bytes) -> Iterator[Key]:
        """What a server looks up to return a file."""
        path, mark, query = name.partition(b"?") if self.settings.queries else (name, b"", b"")
        key = Key(path, unquote_to_bytes(query) if mark else None)
        yield key
        folder, file = os.path.split(path)
        folder = os.path.join(folder, b"")
        indices = [index for index in map(str.encode, self.settings.indices) if folder + index + mark + query in self.names]
        if indices[:1] == [file]:
            yield key._replace(path=folder)

    def url(self, key: Key) -> str:
        """The URL of a key in a server's spelling."""
        path = str(self.base) + quote(key.path, safe=TOOL.IN_NAME + "/")
        return path if key.query is None else f"{path}?{quote(key.query, safe=TOOL.IN_QUERY)}"

    def pages(self) -> List[Tuple[str, bytes]]:
        """The pages in order: each file, and each folder with an index file."""
        return sorted((self.url(key), name) for key, name in self.files.items())

    def urls(self) -> Iterator[str]:
        """The URLs of the pages, and those of folders without their last slashes, which redirect."""
        yield from (url for url, _ in self.pages())
        yield from (self.url(Key(name[:-1], None)) for name in self.names if name.endswith(b"/"))

    def start_of(self, seed: str) -> str:
        """The URL of a link on the top."""
        text = TOOL.cleaned(seed)
        path = in_folder(text, self.base) if self.settings.is_rooted() and begins_path(text) else None
        return path or str(drawn.url_of(seed, self.base))

    def own_starts(self) -> List[str]:
        """The own URLs of the files at which a check starts: HTML documents, sitemaps and feeds by their names."""
        return [url for name, url in self.own.items() if is_page(self.path(name)) or self.is_feed(name) and feeds.is_start(last_of(url))]

    def own_pages(self) -> List[Tuple[str, bytes]]:
        """The own URL of each file."""
        return [(url, name) for name, url in self.own.items()]

    def sitemaps(self) -> List[str]:
        """The own URLs of the sitemaps that are known by their names."""
        return [url for name, url in self.own.items() if self.is_feed(name) and feeds.is_sitemap(last_of(url))]

    def path(self, name: bytes) -> bytes:
        """The path that a file's name is, without its query."""
        return next(self.keys(name)).path

    def form(self, name: bytes) -> Optional[str]:
        """The form of a file. No host serves a file whose name does not say what it is as a document."""
        form = form_of(self.path(name), self.settings.styles)
        return None if form == "" and self.settings.host else form

    def is_feed(self, name: bytes) -> bool:
        """Whether a file is a sitemap or a feed by its name."""
        return self.form(name) in ("feed", "list")

    def is_document(self, name: bytes) -> bool:
        """Whether a file is an HTML document: by its name, or by its first bytes if its name does not say what it is."""
        return is_page(self.path(name)) or self.form(name) == "" and self.document(name) is not None

    def response(self, url: str) -> Response:
        """What a server returns for a URL, or None if the line of the page in a saved web would be too long."""
        served = self.served(url)
        own = self.own[served.name] if isinstance(served, (Found, Alias)) else url
        return served if is_short("page", url) and is_short("page", own) else None

    def served(self, url: str) -> Response:
        """What a server returns for a URL."""
        key = self.key_of(url)
        if key is None:
            return None
        if key.path + b"/" in self.names and key.query is None:
            return Moved(self.url(key._replace(path=key.path + b"/")) + drawn.url_of(url).query)
        name = self.by_url.get(url) or self.files.get(key)
        if name is None and self.settings.fallback and os.path.basename(key.path):
            html = key._replace(path=key.path + b".html")
            if html.path + b"/" in self.names and html.query is None:
                return Moved(self.url(html._replace(path=html.path + b"/")) + drawn.url_of(url).query)
            name = self.files.get(html)
        if name is None:
            return None
        return Found(name) if url == self.own[name] else Alias(name, self.own[name])

    def key_of(self, url: str) -> Optional[Key]:
        """What a server looks up for a URL, or None if it looks up nothing."""
        request = drawn.url_of(url)
        front = self.base.path[:-1]
        if request._replace(path=(), query="") != self.base._replace(path=(), query=""):
            return None
        if len(request.path) == len(front) or list(map(unquote_to_bytes, request.path[:len(front)])) != list(map(unquote_to_bytes, front)):
            return None
        path = self.path_of([unquote_to_bytes(part) for part in request.path[len(front):]])
        if path is None:
            return None
        key = Key(path, unquote_to_bytes(request.query[1:]) if self.settings.queries and request.query else None)
        if self.settings.exact and url != self.url(key):
            return None
        return key._replace(path=self.own_path(key.path))

    def hint(self, url: str) -> Optional[str]:
        """Why a URL has no page: a symbolic link that was skipped on the way, the file that another rule would find, or a folder without one."""
        key = self.key_of(url)
        if key is None or key in self.files:
            return None
        skipped = self.skipped_on(key)
        if skipped:
            return skipped
        if os.path.basename(key.path):
            page = self.files.get(key._replace(path=key.path + b".html"))
            is_off = not self.settings.exact and not self.settings.fallback
            return f"{self.file_of(page)} exists: --fallback html" if page and is_off else None
        index = self.likely_indices.get(key)
        if index:
            # With queries in names, the name of index files has none
            file, last = os.fsdecode(index[len(key.path):]), os.fsdecode(os.path.basename(self.path(index)))
            return f"{os.fsdecode(key.path) or './'} has {file}: --index-file {last}"
        is_folder = key.query is None and (not key.path or key.path in self.names)
        return NO_INDEX_FILE if is_folder else None

    def skipped_on(self, key: Key) -> Optional[str]:
        """The hint of the first symbolic link on a path that was skipped, or of the one at its end."""
        ends = [found.start() for found in re.finditer(b"/", key.path)] + ([len(key.path)] if key.query is None else [])
        return next((self.skipped[key.path[:end]] for end in ends if key.path[:end] in self.skipped), None)

    def likely_index(self, names: List[bytes]) -> Dict[Key, bytes]:
        """By folder and query, the first file that a server may use as index file."""
        found: Dict[Key, bytes] = {}
        for name in sorted(names):
            key = next(self.keys(name))
            folder, last = os.path.split(key.path)
            is_named = last.lower().startswith(tuple(map(str.encode, INDEX_NAMES)))
            if is_named and (form_of(key.path, True) in ("html", "") or is_page(key.path)):
                found.setdefault(key._replace(path=os.path.join(folder, b"")), name)
        return found

    def path_of(self, parts: List[bytes]) -> Optional[bytes]:
        """The path in the folder that a server looks up, or None if it looks up none."""
        *folders, last = b"/".join(parts).split(b"/")
        # A `..` may come from `%2F..%2F`. The others were resolved in the URL.
        walked: List[bytes] = []
        for name in [*folders, *([last] if last in (b".", b"..") else [])]:
            if name == b"..":
                if not walked:
                    return None
                walked.pop()
            elif name not in (b"", b"."):
                walked.append(name)
        return b"".join(name + b"/" for name in walked) + (b"" if last in (b".", b"..") else last)

    def own_path(self, path: bytes) -> bytes:
        """A path with the one that counts in place of other paths of its folders."""
        *folders, last = path.split(b"/")
        own = b""
        for name in folders:
            own += name + b"/"
            own = self.links.get(own, own)
        return own + last

    def document(self, name: bytes) -> Optional[Document]:
        """The document in a file, or None if the file is not a document or is not read."""
        if name not in self.documents:
            self.documents[name] = self.read(name)
        return self.documents[name]

    def read(self, name: bytes) -> Optional[Document]:
        """Reads the links of a file."""
        form = self.form(name)
        if form is None or os.path.getsize(os.path.join(self.folder, name)) > FILE_LIMIT:
            return None
        body = self.body(name)
        if form == "" and not TOOL.is_document(None, body):
            return None
        return document_of(body, form or "html", self.settings.styles)

    def body(self, name: bytes) -> bytes:
        """The bytes of a file. One without bytes is not opened."""
        path = os.path.join(self.folder, name)
        if not os.path.getsize(path):
            return b""
        with open(path, "rb") as file:
            return file.read()

    def file_of(self, name: bytes) -> str:
        """The name of a file as the report has it."""
        return os.fsdecode(name)


class Mapped:
    """Folders in which links are looked up that leave the site."""

    def __init__(self, settings: Settings) -> None:
        self.folders: Dict[str, str] = {}  # by the URL of its top, which ends with a slash
        self.sites: Dict[str, Site] = {}
        for one in settings.maps:
            top = url_of(one.prefix if one.prefix.endswith("/") else one.prefix + "/", drawn.url_of(settings.base))
            assert top is not None and top not in self.folders
            self.folders[top] = one.folder
            # The top of a folder ends with one slash, as that of BASE.
            host = origin_of(drawn.url_of(top))[:-1]
            self.sites[top] = Site(one.folder, settings._replace(base=host + re.sub("/+$", "/", top[len(host):])))

    def top_of(self, url: str) -> Optional[str]:
        """The longest prefix under which a URL is."""
        return max((top for top in self.folders if url.startswith(top) or url + "/" == top), key=len, default=None)

    def folder_of(self, url: str) -> Optional[str]:
        """The folder in which a URL is looked up."""
        top = self.top_of(url)
        return None if top is None else self.folders[top]

    def has(self, url: str) -> bool:
        """Whether a server of the folder has a page or a redirect at a URL. The top without its slash is the top."""
        top = self.top_of(url)
        return top is not None and self.sites[top].served(top if url + "/" == top else url) is not None


class Namesake(NamedTuple):
    """A page that may be meant in place of a missing one."""

    url: str
    file: str


class Model:
    """A search from the top of a folder and from its documents, and the broken links that it finds."""

    def __init__(self, folder: str, settings: Settings, site: Optional[Site] = None) -> None:
        self.settings, self.site = settings, site or Site(folder, settings)
        self.mapped = Mapped(settings)
        self.files = {url: self.site.file_of(name) for url, name in self.site.pages()}  # the file of each page
        self.namesakes: Dict[bytes, List[Namesake]] = {}  # the pages by their names in lower case
        for url, file in self.files.items():
            self.namesakes.setdefault(in_lower_case(name_of(url)), []).append(Namesake(url, file))
        self.responses: Dict[str, Response] = {}
        self.others: Dict[str, Response] = {}  # of URLs of the site's origin that are not below the top
        self.links: Dict[str, List[Link]] = {}  # by the own URL of each file
        self.skipped: Counter[str] = Counter()  # by the own URL of each file, the links that are not http or https
        self.invalid_at: Dict[str, List[Invalid]] = {}  # by the own URL of each file
        starts = [self.site.start_of(seed) for seed in settings.seeds or [""]]
        documents = [] if settings.reachable else self.site.own_starts()
        self.error = self.start_error(starts, documents)
        if settings.seeds or settings.reachable or self.site.response(starts[0]):
            self.search(starts)
        self.reached = self.files_found()
        self.search(documents)
        # Of several links at one location, also those of other URLs of the file, the first one counts, in the order of URLs.
        self.links = dict(sorted(self.links.items()))
        self.invalid = self.invalid_found()

    def is_index_url(self) -> bool:
        """Whether BASE is the URL of an index file, and not that of a folder."""
        front, _, last = self.settings.base.rpartition("/")
        return "#" not in front and not front.endswith(":/") and last in self.settings.indices

    def start_error(self, starts: List[str], documents: List[str]) -> Optional[str]:
        """Why the program does not check the folder, if it does not."""
        if self.is_index_url():
            return "BASE: must be the http or https URL of a folder, without a query, such as https://example.org/docs/"
        missing = [link for link, url in zip(self.settings.seeds or ["./"], starts) if self.site.response(url) is None]
        if not missing or not (self.settings.seeds or self.settings.reachable or not documents):
            return None
        if self.settings.seeds or self.settings.reachable:
            return f"{shown_seed(missing[0], self.settings)}: no such page to start at"
        return f"{os.fsdecode(self.site.folder)}: no HTML documents (if a generator makes the site, pass the folder that it writes)"

    def files_found(self) -> Set[bytes]:
        """The files of the pages that were found."""
        return {response.name for response in self.responses.values() if isinstance(response, (Found, Alias))}

    def search(self, starts: List[str]) -> None:
        """Follows the links from these URLs."""
        waiting = list(starts)
        while waiting:
            url = waiting.pop()
            if url not in self.responses and self.is_within(url):
                self.responses[url] = self.site.response(url)
                waiting += sorted(self.followed(url))
            elif url not in self.others and not self.is_within(url) and url.startswith(origin_of(self.site.base)):
                # The path of the top may have other escapes
                response = self.others[url] = self.site.response(url)
                waiting += [response.url] if isinstance(response, Moved) else [response.own] if isinstance(response, Alias) else []

    def is_within(self, url: str) -> bool:
        """Whether a URL is below the top."""
        return url.startswith(str(self.site.base))

    def followed(self, url: str) -> Set[str]:
        """The URLs that a page links or redirects to."""
        response = self.responses[url]
        if isinstance(response, Moved):
            return {response.url}
        if isinstance(response, Alias):
            return {response.own}
        if response is None:
            return set()
        document = self.site.document(response.name)
        self.links[url] = [] if document is None else list(self.links_of(document, url, self.site.file_of(response.name)))
        return {link.url for link in self.links[url]}

    def links_of(self, document: Document, url: str, name: str) -> Iterator[Link]:
        """The links of a page with their targets."""
        page = Base(drawn.url_of(url), False, "")
        base = page if document.base is None else self.base_of(TOOL.cleaned(document.base), page)
        for link in document.links:
            text = with_query_in(TOOL.cleaned(link.text), document.charset)
            target = self.target_of(text, base)
            if target is None:
                line = written(text if TOOL.scheme_of(text) else base.front + text)
                self.skipped[url] += line is not None
                reason = invalid_reason(text) if TOOL.scheme_of(text) or not base.front else None
            else:
                line, reason = written(text), "not_url" if lacks_slashes(text) else None
            if line and reason:
                place = Place(name, *document.lines.place(link.at))
                self.invalid_at.setdefault(url, []).append(Invalid(line, reason, place, TOOL.cleaned(link.text)))
            if target is not None and is_short("link", target if base.is_given else self.line_of(text, base)):
                fragment = None if document.ids is None else fragment_of(link.text)
                yield Link(target, fragment, Place(name, *document.lines.place(link.at)), TOOL.cleaned(link.text))

    def invalid_found(self) -> Dict[Tuple[str, str], Tuple[Set[str], Located]]:
        """The invalid links by text and reason, each with the pages that have it and the locations."""
        invalid: Dict[Tuple[str, str], Tuple[Set[str], Located]] = {}
        for url, links in sorted(self.invalid_at.items()):
            for link in links:
                pages, places = invalid.setdefault((link.text, link.reason), (set(), {}))
                pages.add(url)
                places.setdefault(link.place, link.written)
        return invalid

    def base_of(self, text: str, page: "Base") -> "Base":
        """The base of a page with a `base` element that has this text."""
        path = in_folder(text, self.site.base) if self.settings.is_rooted() and begins_path(text) else None
        try:
            return Base(drawn.url_of(path or text, page.url), True, "")
        except drawn.NotUrl:
            return page
        except drawn.NotHttp:
            scheme = TOOL.scheme_of(text)
            return page if scheme in ("data", "javascript") else page._replace(front=f"{scheme}:")

    def is_in_folder(self, text: str, base: "Base") -> bool:
        """Whether a text is a path from the root that is a path in the folder, because no BASE is given."""
        return self.settings.is_rooted() and begins_path(text) and not base.front and origin_of(base.url) == origin_of(self.site.base)

    def line_of(self, text: str, base: "Base") -> str:
        """A text without its fragment, as the line of the link has it: below the top if it is a path in the folder, and not yet as a URL."""
        path = text.partition("#")[0]
        return path_below(path, self.site.base) if self.is_in_folder(text, base) else path

    def target_of(self, text: str, base: "Base") -> Optional[str]:
        """The URL to which a text leads, or None if it is not http or https."""
        if self.is_in_folder(text, base):
            return in_folder(text, self.site.base)
        return url_of(text if TOOL.scheme_of(text) else base.front + text, base.url)

    def rows(self) -> List[Row]:
        """The rows that the program prints as JSON, or its error."""
        if self.error is not None:
            return [{"kind": "error", "message": f"mercator: {self.error}"}]
        linking = self.linking()
        broken = [*self.missing_pages(linking), *(self.missing_anchors() if self.settings.anchors else ())]
        invalid = list(self.invalid_links()) if self.settings.invalid else []
        leaving = list(self.leaving_links(linking))
        places = [row for row in [*broken, *invalid, *leaving] if "file" in row]
        redirects = [
            {"kind": "redirect", "page": self.shown(url), "to": self.shown(response.url), "pages": len(linking[url])}
            for url, response in sorted(self.responses.items()) if isinstance(response, Moved) and linking.get(url)
        ]
        files = sorted(Counter(row["file"] for row in places).items(), key=lambda row: (-row[1], row[0].encode()))
        unreached = list(self.unreached()) if self.settings.unreached else []
        unlisted = [name for name in self.unlisted() if not matches_any(self.settings.ignores, name)] if self.settings.sitemap else []
        external = self.external() if self.settings.external else []
        counts = {"unreached": len(unreached)} if self.settings.unreached else {}
        counts.update({"unlisted": len(unlisted)} if self.settings.sitemap else {})
        counts.update({"external": len(external)} if self.settings.external else {})
        found = [response.name for response in map(self.responses.get, self.links) if isinstance(response, Found)]
        pages = sum(map(self.site.is_document, found))
        total = {
            "kind": "total", "pages": pages, "files": len(found) - pages, "redirects": len(redirects), **counts,
            "aliases": sum(isinstance(response, Alias) for response in self.responses.values()),
            "links": sum(self.skipped.values()) + sum(map(len, self.links.values())),
            "broken": sum(row["kind"] == "place" for row in broken), "invalid": links_in(invalid), "leaving": links_in(leaving),
            "missing_pages": sum(row["kind"] == "broken" and row["missing"] == "page" for row in broken),
            "missing_anchors": sum(row["kind"] == "broken" and row["missing"] == "anchor" for row in broken),
        }
        worst = [{"kind": "worst", "file": file, "links": count} for file, count in files[:MOST_FILES]]
        names = [{"kind": "unreached", "name": name} for name in unreached] + [{"kind": "unlisted", "name": name} for name in unlisted]
        base_hint = list(self.base_hints(broken))[:1]
        return [total, *base_hint, *broken, *invalid, *leaving, *worst, *redirects, *names, *external, *self.unused()]

    def base_hints(self, broken: List[Row]) -> Iterator[Row]:
        """The hints at BASE, of which the first is reported: by all links, by those in some pages, and by paths from the root."""
        yield from self.link_hint(broken)
        yield from self.own_hint()
        yield from self.foreign_hint()
        for hint in self.root_hints(broken):
            if self.settings.is_rooted():
                yield {**hint, "base": "/" + hint["base"]}
            else:
                yield from self.url_hint(str(self.site.base) + hint["base"], self.link_urls())

    def root_hints(self, broken: List[Row]) -> Iterator[Row]:
        """The hint at the folder, which the site does not have, of most links that lead to missing pages and are paths from the root.

        Without it they lead to files, or it is the first folder of these paths.
        """
        top = str(self.site.base)
        places = [row for row in broken if row["kind"] == "place" and row["missing"] == "page" and ROOT_PATH.match(row["written"] or "")]
        paths = [path.partition("?")[0] for path in (cut_front(row["target"], top) for row in places) if path not in ("", "./")]
        hints = list(self.folder_hints(paths, range(1, 7))) or [
            {"kind": "hint", "base": folder, "paths": paths_below(folder, paths), "of": len(paths)} for folder in often(paths, 1)[:1] if not self.has_folder(folder)
        ]
        yield from hints[:1]

    def has_folder(self, folder: str) -> bool:
        """Whether a page is in a folder."""
        return any(url.startswith(str(self.site.base) + folder) for url in self.site.urls())

    def link_hint(self, broken: List[Row]) -> Iterator[Row]:
        """The hint that BASE is missing or another one: most links begin with a URL below which the folder has most of them."""
        links, top = self.link_urls(), str(self.site.base)
        lost = sum(row["kind"] == "place" and row["missing"] == "page" for row in broken)
        if 2 * max(sum(link.startswith(top) for link in links) - lost, 0) >= len(links):
            return
        yield from self.folder_hints(links, SLASHES)

    def own_hint(self) -> Iterator[Row]:
        """The hint that BASE is missing or another one: most pages with links elsewhere have one to their own path below the same URL."""
        top, links, fronts, pages = str(self.site.base), self.link_urls(), [], 0
        for url, urls in self.page_urls():
            path = url.partition("?")[0][len(top):] if url.startswith(top) else ""
            own = [link[:-len(path)] for link in urls if path and link.endswith("/" + path) and link.count("/", 0, len(link) - len(path)) >= 3]
            fronts += [front for front in own[:1] if not (top.startswith(front) or front.startswith(top))]
            pages += any(not link.startswith(top) for link in urls)
        most = [front for front, times in Counter(fronts).items() if 2 * times >= max(pages, 4)]
        for front in most[:1]:
            yield {"kind": "hint", "base": front, "paths": paths_below(front, links), "of": len(links)}

    def foreign_hint(self) -> Iterator[Row]:
        """The hint that BASE is missing or another one: most links in pages without links below it begin with one. It counts all links."""
        links, found = self.link_urls(), []
        for url, urls in self.page_urls():
            found += urls if not any(link.startswith(str(self.site.base)) for link in urls) else []
        for hint in self.folder_hints(found, SLASHES):
            yield {**hint, "paths": paths_below(hint["base"], links), "of": len(links)}

    def folder_hints(self, links: List[str], counts: Iterable[int]) -> Iterator[Row]:
        """The hints at the folders with these numbers of slashes in which most of these links are, from the shortest to the longest."""
        for count in counts:
            for folder in often(links, count)[:1]:
                yield from self.url_hint(folder, links)

    def url_hint(self, url: str, links: List[str]) -> Iterator[Row]:
        """The hint at a folder in which some links are, unless the site has it or lacks most of what they name in it."""
        files, top = {page for page, _ in self.site.pages()}, str(self.site.base)
        below = [link[len(url):] for link in links if link.startswith(url) and link != url]
        if not top.startswith(url) and not self.has_folder(url) and len(below) >= 2 and 2 * sum(top + rest in files for rest in below) >= len(below):
            yield {"kind": "hint", "base": url, "paths": paths_below(url, links), "of": len(links)}

    def page_urls(self) -> Iterator[Tuple[str, List[str]]]:
        """Each page, in order, with the URLs to which its links lead, without queries. An alias has a link to its own URL."""
        for url, response in sorted(self.responses.items()):
            if isinstance(response, Found):
                yield url, [link.url.partition("?")[0] for link in self.links[url]]
            elif isinstance(response, Alias):
                yield url, [response.own.partition("?")[0]]

    def link_urls(self) -> List[str]:
        """These URLs in the order of the pages."""
        return [link for _, urls in self.page_urls() for link in urls]

    def linking(self) -> Dict[str, Set[str]]:
        """The pages that link to each URL. A redirect or an alias counts as a link to its target."""
        linking: Dict[str, Set[str]] = {}
        for page, links in self.links.items():
            for link in links:
                linking.setdefault(link.url, set()).add(page)
        for page, response in self.responses.items():
            if isinstance(response, Moved):
                linking.setdefault(response.url, set()).add(page)
            elif isinstance(response, Alias):
                linking.setdefault(response.own, set()).add(page)
        return linking

    def leaving_urls(self, linking: Dict[str, Set[str]]) -> List[str]:
        """The URLs of the site's origin without a page, also in mapped folders, that are not below the top and to which pages link, in order."""
        missing = (url for url in linking if url in self.others and self.others[url] is None)
        return sorted((url for url in missing if not self.mapped.has(url)), key=str.encode)

    def leaving_links(self, linking: Dict[str, Set[str]]) -> Iterator[Row]:
        """The rows of links that leave the site, and of their locations."""
        places = self.places(())
        for url in self.leaving_urls(linking):
            target = self.shown_outside(url)
            left = self.left(target, places.get(url, {}))
            if left is not None:
                folder = self.mapped.folder_of(url)
                usual = "above_folder" if self.settings.is_rooted() else "outside_base"
                shown = {"target": target, "reason": "not_in_map" if folder else usual}
                page = {"same_name": self.page_below(url)} if shown["reason"] == "outside_base" else {}
                yield {"kind": "leaving", **shown, "pages": len(linking[url]), **page, **({"hint": folder} if folder else {})}
                yield from self.place_rows({"kind": "leaving_place", **shown}, left)

    def page_below(self, url: str) -> Optional[str]:
        """The top if this URL lacks only its slash; otherwise the page that has the same path below the top as the URL has below the host."""
        if path_of(url) + "/" == str(self.site.base):
            return str(self.site.base)
        page = str(self.site.base) + path_of(url)[len(origin_of(self.site.base)):]
        return page if self.files.get(page) else None

    def shown_outside(self, url: str) -> str:
        """A URL that is not below the top as the report prints it: without BASE, as a path from the top."""
        if not self.settings.is_rooted():
            return url
        top, path = self.site.base.path[:-1], tuple(url[len(origin_of(self.site.base)):].split("/"))
        shared = next(count for count in range(len(top), -1, -1) if top[:count] == path[:count] and count < len(path))
        return "../" * (len(top) - shared) + "/".join(path[shared:])

    def place_rows(self, shown: Row, places: Located) -> Iterator[Row]:
        """The rows of the locations of links to a target. The text of a link is there if it is not the target, and a question if one is asked."""
        for row in in_order(places):
            place = {**row, "written": None if row["written"] in ("", shown["target"]) else row["written"]}
            asked = question(shown, place)
            yield {**shown, **place, **({"question": asked} if asked else {})}

    def places(self, redirects: Iterable[str]) -> Dict[str, Located]:
        """The locations of links to each URL, and of links to those of these redirects that lead to it."""
        moved = [(url, self.responses[url]) for url in redirects]
        ends = {url: response.url for url, response in moved if isinstance(response, Moved)}
        places: Dict[str, Located] = {}
        for links in self.links.values():
            for link in links:
                places.setdefault(ends.get(link.url, link.url), {}).setdefault(link.place, link.written)
        return places

    def shown(self, url: str) -> str:
        """A URL as the report prints it."""
        return (url[len(self.settings.front):] or "./") if url.startswith(self.settings.front) else url

    def left(self, target: str, places: Located) -> Optional[Located]:
        """The locations of a target that the ignore list leaves, or None if it leaves nothing of the target."""
        if matches_any(self.settings.ignores, target):
            return None
        left = {place: text for place, text in places.items() if not any(matches_in(entry, place.file, target) for entry in self.settings.ignores)}
        return left if left or not places else None

    def missing_pages(self, linking: Dict[str, Set[str]]) -> Iterator[Row]:
        """The rows of missing pages, with the locations of links to them and to redirects to them."""
        places = self.places(self.responses)
        for url in sorted(url for url, response in self.responses.items() if response is None):
            pages, found = linking.get(url, ()), places.get(url, {})
            left = self.left(self.shown(url), found)
            if left is not None:
                shown = {"target": self.shown(url), "missing": "page"}
                yield {"kind": "broken", **shown, "pages": len(pages), "same_name": self.suggestion(url, found), "hint": self.site.hint(url)}
                yield from self.place_rows({"kind": "place", **shown}, left)

    def invalid_links(self) -> Iterator[Row]:
        """The rows of invalid links and of their locations."""
        for (text, reason), (pages, places) in sorted(self.invalid.items(), key=in_bytes):
            left = self.left(text, places)
            if left is not None:
                shown = {"target": text, "reason": reason}
                yield {"kind": "invalid", **shown, "pages": len(pages)}
                yield from self.place_rows({"kind": "invalid_place", **shown}, left)

    def missing_anchors(self) -> Iterator[Row]:
        """The rows of missing anchors in existing pages."""
        for (url, fragment), (pages, places) in sorted(self.anchors_missing().items(), key=in_bytes):
            target = f"{self.shown(url)}#{fragment}"
            left = self.left(target, places)
            if left is not None:
                shown = {"target": target, "missing": "anchor"}
                yield {"kind": "broken", **shown, "pages": len(pages), "same_name": None, "hint": None}
                yield from self.place_rows({"kind": "place", **shown}, left)

    def anchors_missing(self) -> Dict[Tuple[str, str], Tuple[Set[str], Located]]:
        """The missing anchors by URL and fragment, each with the pages that link to it and the locations.

        The anchors of an alias are those of its file.
        """
        missing: Dict[Tuple[str, str], Tuple[Set[str], Located]] = {}
        responses = {**self.others, **self.responses}
        for page, links in self.links.items():
            for link in links:
                response = responses.get(link.url)
                url = response.url if isinstance(response, Moved) else link.url
                found = responses.get(url)
                if link.fragment is not None and isinstance(found, (Found, Alias)) and not self.has_anchor(found.name, link.fragment):
                    pages, places = missing.setdefault((url, link.fragment), (set(), {}))
                    pages.add(page)
                    places.setdefault(link.place, link.written)
        return missing

    def has_anchor(self, name: bytes, fragment: str) -> bool:
        """Whether a file has an anchor. True if its anchors are not known or it is not a document."""
        document = self.site.document(name)
        return document is None or document.ids is None or has_id(fragment, document.ids)

    def suggestion(self, url: str, places: Located) -> Optional[str]:
        """The page that the report suggests for a missing one, unless a link at one of these locations is in its file."""
        files = {place.file for place in places}
        pages = (page for page in (self.namesake(url), self.in_other_form(url)) if page is not None)
        return next((self.shown(page.url) for page in pages if page.file not in files), None)

    def in_other_form(self, url: str) -> Optional[Namesake]:
        """The page `x/` for `x.html`, and `x.html` for `x/`."""
        path = self.shown(url).partition("?")[0]
        other = path[:-1] + ".html" if path.endswith("/") else re.sub(r"\.html\Z", "/", path)
        file = self.files.get(self.settings.front + other) if other != path else None
        return None if file is None else Namesake(self.settings.front + other, file)

    def namesake(self, url: str) -> Optional[Namesake]:
        """The only page with the name of a URL or, if no page has that, the only one with it in another case.

        If there are several, it is the only one whose path differs from that of the URL in nothing but case.
        """
        name = name_of(self.shown(url))
        pages = self.namesakes.get(in_lower_case(name), []) if name else []
        found = [page for page in pages if name_of(page.url) == name] or pages
        if len(found) > 1:
            found = [page for page in pages if in_lower_case(path_of(page.url)) == in_lower_case(path_of(url))]
        return found[0] if len(found) == 1 else None

    def unreached(self) -> Iterator[str]:
        """The unreached files, each by the first of its pages."""
        reached = set(self.reached)
        for url, name in self.site.pages():
            if name not in reached:
                reached.add(name)
                yield self.shown(url)

    def unlisted(self) -> Iterator[str]:
        """The documents that no sitemap lists, without pages of errors. A search that does not reach them does not matter."""
        listed = self.listed()
        responses = [self.site.response(url) for url in listed]
        listed |= {response.own for response in responses if isinstance(response, Alias)}
        for url, name in sorted(self.site.own_pages(), key=lambda page: page[0].encode()):
            if self.site.is_document(name) and url not in listed and last_of(url) != ERROR_PAGE:
                yield self.shown(url)

    def listed(self) -> Set[str]:
        """The URLs that sitemaps list: those that are known by their names, and sitemaps that these list."""
        whole = Model(os.fsdecode(self.site.folder), self.settings._replace(reachable=False, seeds=()), self.site)
        listed = {link.url for url in self.site.sitemaps() for link in whole.links.get(url, ())}
        others = [url for url in listed if self.is_other_sitemap(url)]
        return listed | {link.url for url in others for link in whole.links.get(url, ())}

    def is_other_sitemap(self, url: str) -> bool:
        """Whether a file is a sitemap if another one lists it: its name is neither that of a sitemap nor a usual one of a feed."""
        response = self.site.response(url)
        return isinstance(response, Found) and self.site.is_feed(response.name) and not feeds.is_start(last_of(url))

    def external(self) -> List[Row]:
        """The rows of links, and of redirects, to other sites."""
        own = origin_of(self.site.base)
        found = [link.url for links in self.links.values() for link in links]
        found += [response.url for response in self.responses.values() if isinstance(response, Moved)]
        urls = Counter(url for url in found if not url.startswith(own))
        return [{"kind": "external", "url": url, "links": count} for url, count in sorted(urls.items(), key=lambda row: row[0].encode())]

    def unused(self) -> Iterator[Row]:
        """The rows of ignore entries that match nothing. Those for some files match nothing that one for all files matches, and no document that no sitemap lists."""
        broken = list(self.targets())
        broken += [(name, {}) for name in self.unlisted()] if self.settings.sitemap else []
        left = [one for one in broken if not matches_any(self.settings.ignores, one[0])]
        for entry in self.settings.ignores:
            if not any(is_used(entry, target, places) for target, places in (broken if is_everywhere(entry) else left)):
                yield {"kind": "unused", "name": entry}

    def targets(self) -> Iterator[Tuple[str, Located]]:
        """What is broken, invalid or leaves the site, with its locations, as if there was no ignore list."""
        pages, leaving = self.places(self.responses), self.places(())
        yield from ((self.shown(url), pages.get(url, {})) for url, response in self.responses.items() if response is None)
        yield from ((self.shown_outside(url), leaving.get(url, {})) for url in self.leaving_urls(self.linking()))
        if self.settings.invalid:
            yield from ((text, places) for (text, _), (_, places) in self.invalid.items())
        if self.settings.anchors:
            yield from ((f"{self.shown(url)}#{fragment}", places) for (url, fragment), (_, places) in self.anchors_missing().items())
