#!/usr/bin/env python3
"""Convert a folder of HTML files to a saved web, version 2: a converter that is independent of the program.

The tests compare its output with that of `mercator site` (tests/site.py, and tests/check.py with the model's tokenizer in place of
the one here), and use its parts. It is one pass over the folder, written after docs/MANUAL.md:

- Each file has one own URL, which is the page with its links. Any other URL for which a static server returns it is an alias, whose
  page has one link, to the own URL. A folder without its slash is a redirect. `--help` lists the options that change this.
- The text of a link is written as it is in the document, with its character references decoded, except that tabs, line breaks, and
  spaces at both ends are removed; that the query is percent-encoded in the page's encoding; and that after `<base href>` the resolved
  URL is written or, if the base has another scheme, that scheme before a relative link. Of a document in an encoding that Python does
  not know, only ASCII is read.
- A line has at most 4,096 bytes. A longer link loses its fragment. If it is still too long, a link of another scheme is cut off, and
  any other link is skipped.

The saved web is collected in a temporary file, and written when it is complete, with its pages in ascending byte order of URL. What is
skipped, and why, is listed on standard error. Only the standard library is needed.

exit status:
  0  the saved web was written
  1  an input cannot be read, a write failed, or the saved web would have more than 2^30 bytes, the most that a crawl reads
  3  bad command line
"""

from __future__ import annotations

import argparse
import collections
import errno
import html
import html.entities
import html.parser
import mimetypes
import os
import re
import sys
import tempfile
from typing import BinaryIO, Callable, Iterable, NamedTuple, NoReturn, Optional
from urllib.parse import quote, unquote_to_bytes
from xml.etree import ElementTree

HEADER = b"savedweb 2\n"
LINE_LIMIT = 4096  # most bytes of a line, without its line break
INPUT_LIMIT = 1 << 30  # most bytes that a crawl reads
FILE_LIMIT = 1 << 30  # most bytes of a file whose links are read
ERROR, BAD_WORDS = 1, 3  # exit statuses, the same as those of mercator: an error, and a bad command line

INDEX_FILES = ("index.html", "index.htm", "index.xhtml")
HTML_KINDS = ("text/html", "application/xhtml+xml")
XML_KINDS = {".xhtml": "application/xhtml+xml", ".xht": "application/xhtml+xml", ".svg": "image/svg+xml"}
# The start tags of HTML that end SVG and MathML, but for `font`
BREAKOUTS = frozenset(
    """b big blockquote body br center code dd div dl dt em embed h1 h2 h3 h4 h5 h6 head hr i img li listing menu meta nobr
    ol p pre ruby s small span strong strike sub sup table tt u ul var""".split()
)
# The elements of SVG, and those of MathML, whose content is HTML
SVG_POINTS = ("foreignobject", "desc", "title")
TEXT_POINTS = ("mi", "mo", "mn", "ms", "mtext")
STYLE_KIND = "text/css"
FEED_KIND, LIST_KIND = "feed", "list"  # no media types, since other files have those of feeds, too
FEEDS = (".rss", ".atom", ".xml")
LIST_NAME = re.compile(r"sitemap.*\.txt", re.I | re.S)  # the names of lists of URLs
# Python's own table of suffixes without that of the machine, so that it is the same everywhere
KINDS = mimetypes.MimeTypes()
BYTE_ORDER_MARKS = ((b"\xef\xbb\xbf", "utf-8"), (b"\xff\xfe", "utf-16-le"), (b"\xfe\xff", "utf-16-be"))
NOT_KNOWN = "not known"  # marks an unknown encoding
UNKNOWN = "\x80"  # replaces each non-ASCII byte of a document in an unknown encoding; no character reference gives it
EDGE = "".join(map(chr, range(0x21)))  # the characters that a URL parser removes from both ends of a text
ASCII_SPACES = "\t\n\f\r "
PORTS = {"http": 80, "https": 443}
GREATEST_PORT = 65535
# The characters that are not percent-encoded, in addition to letters, digits and -._~
IN_NAME = "!$&'()*+,;=:@[]|"
IN_PATH = IN_NAME + "%"
IN_QUERY = "!$%&()*+,/:;=?@[\\]^`{|}"
SPELLED_LINK = re.compile(r"[?%\\]|[^:]//|/.*//")  # with consecutive slashes in addition to those of a host

# The attributes of each element that name another document, including obsolete ones.
LINKS = {
    "a": ("href", "xlink:href"),
    "area": ("href",),
    "audio": ("src",),
    "body": ("background",),
    "button": ("formaction",),
    "embed": ("src",),
    "frame": ("src", "longdesc"),
    "iframe": ("src", "longdesc"),
    "image": ("href", "xlink:href"),
    "img": ("src", "srcset", "longdesc"),
    "input": ("src", "formaction"),
    "link": ("href", "imagesrcset"),
    "meta": ("content",),
    "object": ("data",),
    "param": ("value",),
    "script": ("src",),
    "source": ("src", "srcset"),
    "table": ("background",),
    "tbody": ("background",),
    "td": ("background",),
    "tfoot": ("background",),
    "th": ("background",),
    "thead": ("background",),
    "tr": ("background",),
    "track": ("src",),
    "use": ("href", "xlink:href"),
    "video": ("src", "poster"),
}
HOST_HINTS = {"preconnect", "dns-prefetch"}  # the values of rel with which a link names only a host
# The values of property or name with which the content of a meta is a URL
URL_NAMES = {
    "og:url", "twitter:image", "twitter:image:src", "twitter:player", "twitter:player:stream",
    *(f"og:{kind}{part}" for kind in ("image", "video", "audio") for part in ("", ":url", ":secure_url")),
}
DATA_NAMES = {"data", "movie", "src", "url"}  # the names with which the value of a param is a URL


class ConverterError(Exception):
    """An error that ends the script with status 1. Its text is printed."""


# ---------------------------------------------------------------- URLs


def cleaned(text: str) -> str:
    """Return a text without the characters that a URL parser removes: edges, tabs and line breaks."""
    return re.sub("[\t\n\r]", "", text.strip(EDGE))


def encoded(text: str, safe: str) -> str:
    """Percent-encode the UTF-8 of a text, except for letters, digits, -._~ and the safe characters."""
    return quote(text.encode("utf-8", "replace"), safe=safe)


def scheme_of(text: str) -> Optional[str]:
    """Return the scheme at the beginning of a text, in lower case, or None."""
    found = re.match("[A-Za-z][A-Za-z0-9+.-]*:", text)
    return found[0][:-1].lower() if found else None


def is_web(scheme: Optional[str]) -> bool:
    """Return whether a link with this scheme, or without a scheme, may lead to a page."""
    return scheme is None or scheme in PORTS


def is_known_label(label: str) -> bool:
    """Return whether a label is plain ASCII, or Punycode that Python can decode and encode again."""
    try:
        return label[:4] != "xn--" or (
            len(label) < 64 and label == label.encode().decode("idna").encode("idna").decode()
        )
    except UnicodeError:
        return False


def canonical_name(host: str) -> Optional[str]:
    """Return a host name in canonical form, or None if this script cannot compute it."""
    host = unquote_to_bytes(host).decode("latin-1").lower()
    labels = host.removesuffix(".").split(".")
    if not all(re.fullmatch("[a-z0-9_-]+", label) and is_known_label(label) for label in labels):
        return None
    if not re.fullmatch("[0-9]+|0x[0-9a-f]*", labels[-1]):
        return host
    # A host that ends in a number is an IPv4 address. Only its usual form is supported here.
    plain = all(re.fullmatch("0|[1-9][0-9]{0,2}", part) and int(part) < 256 for part in labels)
    return ".".join(labels) if plain and len(labels) == 4 else None


def canonical_host(authority: str, scheme: str) -> Optional[str]:
    """Return the host and port in canonical form, without the scheme's default port; None if it is not known."""
    name, colon, port = authority.rpartition(":")
    if not colon:
        name, port = authority, ""
    host = canonical_name(name)
    number = port.lstrip("0") or port[:1]
    if host is None or not re.fullmatch("[0-9]{0,5}", number):
        return None
    if number == "" or int(number) == PORTS[scheme]:
        return host
    return f"{host}:{number}" if int(number) <= GREATEST_PORT else None


class Url:
    """An http or https URL without its fragment. If `host` is None, only `text` may be used."""

    def __init__(self, scheme: str, authority: str, path: str, query: Optional[str]) -> None:
        self.scheme, self.authority, self.path, self.query = scheme, authority, path, query
        self.host = canonical_host(authority, scheme)

    def site(self) -> str:
        """Return the URL up to its path."""
        return f"{self.scheme}://{self.host or self.authority}"

    def tail(self) -> str:
        """Return the question mark and the query, if there is one."""
        return "" if self.query is None else "?" + self.query

    def text(self) -> str:
        """Return the whole URL. It is canonical if `host` is not None."""
        return self.site() + self.path + self.tail()


def parse(text: str, base: Optional[Url] = None) -> Optional[Url]:
    """Resolve a text against a base by the rules of the URL Standard; None if it is not an http or https URL.

    The fragment is dropped.
    """
    text = cleaned(text).partition("#")[0]
    scheme = scheme_of(text)
    if scheme:
        if scheme not in PORTS:
            return None
        text = text[len(scheme) + 1 :]
        if not base or scheme != base.scheme or re.match(r"[/\\]{2}", text):
            return parse_after_slashes(scheme, text.lstrip("/\\"))
    elif not base:
        return None
    if re.match(r"[/\\]{2}", text):
        return parse_after_slashes(base.scheme, text.lstrip("/\\"))
    return parse_path(text, base)


def url_of(text: str) -> Url:
    """Return the Url of a text that is known to be a URL."""
    url = parse(text)
    assert url is not None
    return url


def parse_after_slashes(scheme: str, text: str) -> Optional[Url]:
    """Return the Url of the text after a scheme and its slashes."""
    authority = re.split(r"[/\\?]", text, maxsplit=1)[0]
    path, mark, query = text[len(authority) :].partition("?")
    if not authority:
        return None
    return Url(scheme, authority, canonical_path(path), encoded(query, IN_QUERY) if mark else None)


def parse_path(text: str, base: Url) -> Url:
    """Return the Url of a text without scheme and host: an absolute, relative or empty path, and a query."""
    path, mark, tail = text.partition("?")
    query = None if path else base.query
    if mark:
        query = encoded(tail, IN_QUERY)
    if not path:
        path = base.path
    elif path[0] in "/\\":
        path = canonical_path(path)
    else:
        path = canonical_path(base.path.rpartition("/")[0] + "/" + path)
    return Url(base.scheme, base.authority, path, query)


def canonical_path(path: str) -> str:
    """Return a path that begins with a slash or is empty, with dots resolved and percent-encoded."""
    parts = re.split(r"[/\\]", path)[1:] or [""]
    kept: list[str] = []
    for place, part in enumerate(parts, 1):
        dots = re.sub("(?i)%2e", ".", part)
        if dots == "..":
            del kept[-1:]
        elif dots != ".":
            kept.append(encoded(part, IN_PATH))
        if dots in (".", "..") and place == len(parts):
            kept.append("")
    return "/" + "/".join(kept)


def respelled(path: str) -> str:
    """Return a canonical path with the same percent-escapes as the URL of a file's page."""
    return "/".join(quote(unquote_to_bytes(part), safe=IN_NAME) for part in path.split("/"))


def looked_up(path: str) -> Optional[str]:
    """Return the path below the folder that a server looks up for one, or None if it leads out of the folder."""
    *folders, last = unquote_to_bytes(path).split(b"/")
    names: list[bytes] = []
    for name in [*folders, *([last] if last in (b".", b"..") else [])]:
        # The other dots were resolved when the URL was parsed
        if name == b".." and not names:
            return None
        if name == b"..":
            names.pop()
        elif name not in (b"", b"."):
            names.append(name)
    end = b"" if last in (b".", b"..") else last
    return "".join(quote(name, safe=IN_NAME) + "/" for name in names) + quote(end, safe=IN_NAME)


# ---------------------------------------------------------------- HTML

ATTRIBUTE = re.compile(r"""[\s/]*([^\s/>][^\s/>=]*)(?:\s*=\s*("[^"]*"|'[^']*'|(?!['"])[^\s>]*))?""", re.A)
END_TAG = re.compile("</[^>]*>?")
COMMENT = re.compile(r"<!--(?:-?>|.*?(?:--!?>|\Z))", re.S)
# One group matches several comments, since `.*?` also matches `-->`. A repeated group would take exponential time.
HTML_START = re.compile(
    rb"(\xef\xbb\xbf)?\s*(<\?xml[^>]*>\s*)?(<!--.*?-->\s*)?<(!doctype\s+html|html)\b", re.I | re.S
)
START_LENGTH = 1024  # the bytes of a document in which its type and its encoding are searched for
# The patterns of the prescan of a document for its encoding
MARK = re.compile(rb"<(?:!(?=--).*?(?:-->|\Z)|((?i:meta)(?=[\t\n\f\r /])|/?[A-Za-z][^\t\n\f\r >]*)|[!/?][^>]*)", re.S)
MARK_ATTRIBUTE = re.compile(
    rb"""[\t\n\f\r /]*([^\t\n\f\r />][^\t\n\f\r />=]*)
    (?:[\t\n\f\r ]*=[\t\n\f\r ]*(?:"([^"]*)(?:"|\Z)|'([^']*)(?:'|\Z)|([^\t\n\f\r >]*)))?""",
    re.X,
)
MARK_END = re.compile(rb"[\t\n\f\r /]*>")
KIND_CHARSET = re.compile(
    rb"""charset[\t\n\f\r ]*=[\t\n\f\r ]*(?:"([^"]*)"|'([^']*)'|(?!["'])([^\t\n\f\r ;]*)|)""", re.I
)
UTF8_NAMES = set(
    "utf-8 utf8 unicode-1-1-utf-8 unicode11utf8 unicode20utf8 x-unicode20utf8 csunicode iso-10646-ucs-2 ucs-2 unicode"
    " unicodefeff unicodefffe".split()
)
WINDOWS_NAMES = set(
    "windows-1252 iso-8859-1 latin1 us-ascii ascii ansi_x3.4-1968 cp1252 cp819 csisolatin1 ibm819 iso-ir-100 iso8859-1"
    " iso88591 iso_8859-1 iso_8859-1:1987 l1 x-cp1252".split()
)
SHEET_CHARSET = re.compile(rb'@charset "([^"]*)";')
REFERENCE = re.compile("&(#[0-9]+;?|#[xX][0-9a-fA-F]+;?|[A-Za-z][A-Za-z0-9]*(?:;|(?![A-Za-z0-9=])))")
LONG_REFERENCE = re.compile("&#([0-9]{8,})(;?)")
# Python's own pattern for references between tags fails on `&#` without a digit, and reads all that follows as text
html.parser.charref = re.compile("&#.", re.S)  # type: ignore[attr-defined]
TAG_NAME = re.compile(r"<[^\s/>]*")
CANDIDATE = re.compile(r"[^ \t\n\f\r]*")
BETWEEN_CANDIDATES = re.compile(r"[ \t\n\f\r,]*")
DESCRIPTORS = re.compile(r"(?:\([^)]*\)?|[^,(])*")
REFRESH = re.compile(
    r"""\s*[0-9.]*(?:\s*[;,]\s*|\s+)(?:url\s*=\s*)?(?:"([^"]*)|'([^']*)|(.*))""", re.A | re.I | re.S
)
STYLE_TEXT = re.compile(
    r"""/\*.*?(?:\*/|\Z)|(?:@import(?:\s|/\*.*?(?:\*/|\Z))*)?(?:"([^"]*)"|'([^']*)')|url\(\s*(?:"([^"]*)"|'([^']*)'|([^"'()\s]+))""",
    re.A | re.I | re.S,
)


def end_of(pattern: re.Pattern[str], text: str, place: int = 0) -> int:
    """Return the end of a pattern's match at a position; the position itself if it does not match."""
    found = pattern.match(text, place)
    return found.end() if found else place


def decoded(value: str) -> str:
    """Decode the character references of an attribute value, where `&copy=1` and `&copy1` are none."""

    def one(found: re.Match[str]) -> str:
        if found[1][0] == "#":
            return html.unescape(found[0])
        return html.entities.html5.get(found[1], found[0])

    return REFERENCE.sub(one, value) if "&" in value else value


def attributes(tag: str) -> dict[str, str]:
    """Return the attributes of a start tag; of several with the same name, the first."""
    found: dict[str, str] = {}
    for name, value in ATTRIBUTE.findall(tag[end_of(TAG_NAME, tag):].removesuffix(">")):
        if value[:1] in ("'", '"'):
            value = value[1:-1]
        found.setdefault(name.lower(), decoded(value))
    return found


def without_long_references(text: str) -> str:
    """Replace character references of more than seven digits, which give no character and on which Python may fail."""

    def one(found: re.Match[str]) -> str:
        digits = found[1].lstrip("0")
        return "\ufffd" if len(digits) > 7 else f"&#{digits or 0}{found[2]}"

    return LONG_REFERENCE.sub(one, text)


def candidates(text: str) -> list[str]:
    """Return the URLs of a srcset. Each ends at white space; a comma at its end is not part of it."""
    found: list[str] = []
    place = 0
    while (begin := end_of(BETWEEN_CANDIDATES, text, place)) < len(text):
        place = end_of(CANDIDATE, text, begin)
        candidate = text[begin:place]
        found.append(candidate.rstrip(","))
        if found[-1] == candidate:
            place = end_of(DESCRIPTORS, text, place)
    return found


def links_of_style(text: str) -> list[str]:
    """Return the texts of url() and @import in a style sheet. Comments and other texts in quotes are passed over."""
    return ["".join(filter(None, found.groups())) for found in STYLE_TEXT.finditer(text) if found[0][0] in "@uU"]


def links_of_feed(text: str) -> list[str]:
    """Return the links of a sitemap or a feed, or none if it is not well-formed or is neither."""
    try:
        root = ElementTree.fromstring(text)
    except ElementTree.ParseError:
        return []
    found: list[Optional[str]] = []
    for node in root.iter():
        name, kind = (one.tag.rpartition("}")[2] for one in (node, root))
        if (name, kind) in (("loc", "urlset"), ("loc", "sitemapindex"), ("link", "rss"), ("link", "RDF")):
            found.append((node.text or "").strip(EDGE) or None)
        elif kind in ("rss", "RDF") and name == "enclosure":
            found.append(node.get("url"))
        elif kind == "feed" and name in ("link", "content"):
            found.append(node.get("href" if name == "link" else "src"))
    return [link for link in found if link and link.strip(EDGE)]


def links_of_list(text: str) -> list[str]:
    """Return the lines of a list of URLs that are not empty."""
    return [line for line in text.split("\n") if line.strip(EDGE)]


def is_link(tag: str, name: str, found: dict[str, str]) -> bool:
    """Return whether an attribute of an element is a link, by the other attributes."""
    kind = found.get("type", "").lower()
    if tag == "link":
        return not set(re.split("[\t\n\f\r ]", found["rel"].lower())) <= {"", *HOST_HINTS} if "rel" in found else "itemprop" in found
    if tag == "input":
        return kind == "image" or name == "formaction" and kind == "submit"
    if tag == "button":
        return kind not in ("reset", "button")
    if tag == "param":
        return found.get("name", "").lower() in DATA_NAMES
    if tag == "meta":
        return not URL_NAMES.isdisjoint((found.get("property"), found.get("name")))
    return True


class Foreign:
    """Whether a tag is in an element of SVG or MathML.

    These elements have other content than those of HTML with the same name. The context is not a tree: an integration
    point ends at the first end tag with its name, and only the `svg` and `math` elements in it are counted.
    """

    def __init__(self) -> None:
        self.kind = ""  # "svg" or "math", or "" in HTML content
        self.points = 0  # the number of integration points around it
        self.nested = 0  # the number of other `svg` and `math` elements that are open in it

    def enter(self, kind: str, points: int) -> None:
        """Set the context."""
        self.kind, self.points, self.nested = kind, points, 0

    def begin(self, tag: str) -> bool:
        """Return whether a start tag is that of an element of SVG or MathML; some of HTML end them."""
        if self.kind and tag in BREAKOUTS:
            self.enter("", self.points)
        return self.kind != ""

    def open(self, tag: str, found: dict[str, str]) -> None:
        """Read a start tag with these attributes that does not close itself."""
        root = tag in ("svg", "math")
        if self.kind == "":
            self.enter(tag if root else "", self.points)
        elif tag == "font" and not {"color", "face", "size"}.isdisjoint(found):
            self.enter("", self.points)
        elif self.is_point(tag, found):
            self.enter("", self.points + 1)
        else:
            self.nested += root

    def is_point(self, tag: str, found: dict[str, str]) -> bool:
        """Return whether the content of an element of SVG or MathML is HTML."""
        if self.kind == "svg":
            return tag in SVG_POINTS
        return tag in TEXT_POINTS or tag == "annotation-xml" and found.get("encoding", "").lower() in HTML_KINDS

    def close(self, tag: str) -> None:
        """Read an end tag."""
        if self.kind == "" and self.points and tag in SVG_POINTS:
            self.enter("svg", self.points - 1)
        elif self.kind == "" and self.points and tag in (*TEXT_POINTS, "annotation-xml"):
            self.enter("math", self.points - 1)
        elif self.kind and tag in ("svg", "math") and self.nested:
            self.nested -= 1
        elif self.kind and (tag in ("svg", "math") or tag in BREAKOUTS):
            self.enter("", self.points)


class LinkReader(html.parser.HTMLParser):
    """Collects the link texts of a document in order, and the text of its base."""

    # The elements whose content is text, by the HTML Standard; Python's own list depends on its version
    CDATA_CONTENT_ELEMENTS = tuple("script style title textarea xmp iframe noembed noframes plaintext".split())

    def __init__(self, styles: bool, xml: bool = False) -> None:
        super().__init__(convert_charrefs=False)
        self.xml = xml
        self.links: list[str] = []
        self.base: Optional[str] = None
        self.styles, self.in_style = styles, False
        self.templates = 0  # the number of open templates, from the first that is no shadow root
        self.foreign = Foreign()
        self.has_text = False  # whether the content of the last start tag's element may be text

    def parse_comment(self, begin: int, report: int = True) -> int:
        """Return the end of a comment by the HTML Standard; Python's own rules depend on its version."""
        return end_of(COMMENT, self.rawdata, begin)

    def parse_marked_section(self, begin: int, report: int = True) -> int:
        """Return the end of `<![..`, the next `>`, but for a CDATA section in SVG or MathML. Python's own method may fail."""
        if (self.xml or self.foreign.kind) and self.rawdata.startswith("<![CDATA[", begin):
            end = self.rawdata.find("]]>", begin + 9)
            return end + 3 if end >= 0 else len(self.rawdata)
        return self.parse_bogus_comment(begin)

    def set_cdata_mode(self, elem: str, **_: bool) -> None:
        """Read what follows as text, up to the end tag of the element; nothing ends a `plaintext`."""
        if not self.has_text or self.xml:
            return
        self.cdata_elem = elem
        self.interesting = re.compile("(?!)" if elem == "plaintext" else rf"(?i)</{elem}(?=[\t\n\f\r />])")

    def parse_endtag(self, begin: int) -> int:
        """Return the end of an end tag. Python's own method reads an end tag with an attribute as text."""
        if self.cdata_elem is None:
            return super().parse_endtag(begin)
        self.in_style = False
        self.clear_cdata_mode()
        return end_of(END_TAG, self.rawdata, begin)

    def handle_startendtag(self, tag: str, attrs: list[tuple[str, Optional[str]]]) -> None:
        """Read a tag such as `<br/>`. In HTML it is a start tag, since the slash closes no element."""
        self.read_start(tag, attrs, True)
        if tag in self.CDATA_CONTENT_ELEMENTS:
            self.set_cdata_mode(tag)

    def handle_endtag(self, tag: str) -> None:
        self.in_style = False
        if tag == "template" and self.templates and not self.foreign.kind:
            self.templates -= 1
        if not self.xml:
            self.foreign.close(tag)

    def handle_data(self, data: str) -> None:
        if self.in_style:
            self.links += links_of_style(data)

    def handle_starttag(self, tag: str, attrs: list[tuple[str, Optional[str]]]) -> None:
        self.read_start(tag, attrs, False)

    def read_start(self, tag: str, attrs: list[tuple[str, Optional[str]]], closed: bool) -> None:
        """Read a start tag, which may have a slash before its end."""
        is_foreign = not self.xml and self.foreign.begin(tag)
        closed = closed and (self.xml or is_foreign)
        self.has_text = not is_foreign
        if not self.templates:
            self.read_tag(tag, attrs, is_foreign)
        if tag == "template" and not is_foreign and not closed and (self.templates or not self.is_shadow_root()):
            self.templates += 1
        if closed:
            self.in_style = False
        elif not self.xml and (is_foreign or tag in ("svg", "math")):
            self.foreign.open(tag, attributes(self.get_starttag_text() or ""))

    def is_shadow_root(self) -> bool:
        """Return whether the last start tag, of a template, makes a shadow root of it."""
        return attributes(self.get_starttag_text() or "").get("shadowrootmode", "").lower() in ("open", "closed")

    def read_tag(self, tag: str, attrs: list[tuple[str, Optional[str]]], is_foreign: bool) -> None:
        """Add the links of a start tag that is not in a template."""
        if self.styles:
            self.in_style = tag == "style"
            for name, value in attrs:
                if name == "style" and value:
                    self.links += links_of_style(value)
        is_other = self.xml and tag not in LINKS and tag not in ("base", "template", "svg", "math")
        if not is_foreign and not is_other and tag not in LINKS and tag != "base":
            return
        found = attributes(self.get_starttag_text() or "")
        if is_foreign or is_other:
            self.read_links(() if tag == "font" else ("href", "xlink:href"), found)
        elif tag == "base":
            if self.base is None:
                self.base = found.get("href")
        elif tag == "meta" and found.get("http-equiv", "").lower() == "refresh":
            self.read_refresh(found)
        else:
            self.read_links(tuple(name for name in LINKS[tag] if is_link(tag, name, found)), found)

    def read_refresh(self, found: dict[str, str]) -> None:
        """Add the target of a meta refresh."""
        refresh = REFRESH.match(found.get("content", ""))
        self.links += [part for part in refresh.groups() if part] if refresh else []

    def read_links(self, names: tuple[str, ...], found: dict[str, str]) -> None:
        """Add the link texts of the attributes with these names."""
        for name in names:
            if name in found and name.endswith("srcset"):
                self.links += candidates(found[name])
            elif name in found:
                self.links.append(found[name])


def name_in(tag: dict[bytes, bytes]) -> bytes:
    """Return the name of the encoding in the attributes of a `meta`, or an empty name."""
    if b"charset" in tag:
        return tag[b"charset"]
    is_kind = tag.get(b"http-equiv", b"").lower() == b"content-type"
    found = KIND_CHARSET.search(tag.get(b"content", b"")) if is_kind else None
    return found[1] or found[2] or found[3] or b"" if found else b""


def declared(start: bytes) -> str:
    """Return the encoding that a document declares, by the prescan of the HTML Standard, or "" if there is none."""
    at = 0
    while mark := MARK.search(start, at):
        at = mark.end()
        if mark[1] is None:
            continue
        tag: dict[bytes, bytes] = {}
        while attribute := MARK_ATTRIBUTE.match(start, at):
            at = attribute.end()
            tag.setdefault(attribute[1].lower(), attribute[2] or attribute[3] or attribute[4] or b"")
        if not MARK_END.match(start, at):
            break
        name = name_in(tag).decode("latin-1").strip(ASCII_SPACES) if mark[1].lower() == b"meta" else ""
        if name:
            return name
    return ""


def charset_of(body: bytes, kind: Optional[str]) -> str:
    """Return the encoding that a document or a style sheet declares, or nothing. UTF-16 means UTF-8, since its bytes would differ."""
    found = SHEET_CHARSET.match(body[:START_LENGTH])
    if kind != STYLE_KIND:
        name = declared(body[:START_LENGTH]).lower()
        if name == "x-user-defined":
            return "cp1252"
    else:
        name = found[1].decode("latin-1").strip(ASCII_SPACES).lower() if found else ""
    if name in WINDOWS_NAMES:
        return "cp1252"
    return "utf-8" if name in UTF8_NAMES or name.startswith("utf-16") else name


def marked_text(body: bytes) -> Optional[str]:
    """Return the text of bytes that begin with a byte order mark, or None."""
    for mark, name in BYTE_ORDER_MARKS:
        if body.startswith(mark):
            return body[len(mark) :].decode(name, "replace")
    return None


def text_of(body: bytes, kind: Optional[str]) -> tuple[str, str]:
    """Return the text and the encoding of a document or a style sheet.

    The encoding is that of its byte order mark, the declared one, UTF-8 or, for a document, windows-1252, whichever applies first.
    """
    marked = marked_text(body)
    if marked is not None:
        return marked, "utf-8"
    charset = charset_of(body, kind)
    try:
        if charset:
            return body.decode(charset, "replace"), charset
    except (LookupError, ValueError):
        # Not an encoding, or one that cannot decode these bytes
        pass
    try:
        return body.decode("utf-8", "replace" if kind == STYLE_KIND and not charset else "strict"), "utf-8"
    except UnicodeError:
        if charset:
            return re.sub("[^\0-\x7f]", UNKNOWN, body.decode("latin-1")), NOT_KNOWN
        return body.decode("cp1252", "replace"), "cp1252"


def known_part(link: str) -> Optional[str]:
    """Return the link, up to its `#` if only its fragment has unknown characters; None if more of it has."""
    front, mark, fragment = link.partition("#")
    if UNKNOWN in front:
        return None
    return front + mark if UNKNOWN in fragment else link


def is_absolute(link: str) -> bool:
    """Return whether a link resolves to the same URL against every base."""
    link = link.strip(EDGE)
    scheme = scheme_of(link)
    return scheme is not None and (not is_web(scheme) or re.match(r"[/\\]{2}", link[len(scheme) + 1 :]) is not None)


def known_links(links: list[str], base: Optional[str]) -> tuple[list[str], Optional[str]]:
    """Return the links and the base of a document in an unknown encoding, as far as they are known."""
    if base is not None and UNKNOWN in base.partition("#")[0]:
        links, base = list(filter(is_absolute, links)), None
    return [known for known in map(known_part, links) if known is not None], base


def with_query_in(text: str, charset: str) -> str:
    """Return a link with the non-ASCII characters of its query percent-encoded in the page's encoding."""
    front, hash_mark, fragment = text.partition("#")
    path, mark, query = front.partition("?")
    if charset == "utf-8" or front.isascii() or not is_web(scheme_of(text)):
        return text
    query = re.sub("[^\0-\x7f]+", lambda run: quote(run[0].encode(charset, "xmlcharrefreplace")), query)
    return path + mark + query + hash_mark + fragment


def with_base(links: list[str], given: str, url: Url) -> list[str]:
    """Return the links of a page that has a `<base>` in a form that does not depend on it."""
    given = cleaned(given)
    base = parse(given, url)
    if base:
        found = ((link, parse(link, base)) for link in links)
        return [target.text() if target else link for link, target in found]
    scheme = scheme_of(given)
    # A base that is not a URL, or has one of these schemes, is ignored
    if is_web(scheme) or scheme in ("data", "javascript"):
        return links
    return [link if scheme_of(link) else f"{scheme}:{link}" for link in links]


def is_feed(kind: Optional[str]) -> bool:
    """Return whether a file is a sitemap, a feed or a list of URLs."""
    return kind in (FEED_KIND, LIST_KIND)


def is_document(kind: Optional[str], body: bytes) -> bool:
    """Return whether a body of this media type, or of unknown type, is a document."""
    return kind in (*HTML_KINDS, *XML_KINDS.values()) or (not kind and HTML_START.match(body[:START_LENGTH]) is not None)


def links_of(body: bytes, url: Url, kind: Optional[str], web: Web) -> list[str]:
    """Return the link texts of a document, a style sheet, a feed or a list of URLs, and none of anything else."""
    base: Optional[str] = None
    if is_feed(kind):
        marked = marked_text(body)
        text = body.decode("utf-8", "replace") if marked is None else marked
        return [cleaned(link) for link in (links_of_list(text) if kind == LIST_KIND else links_of_feed(text))]
    if kind != STYLE_KIND and not is_document(kind, body):
        return []
    text, charset = text_of(body, kind)
    if kind == STYLE_KIND:
        given = links_of_style(text)
    else:
        reader = LinkReader(web.styles, kind in XML_KINDS.values())
        reader.feed(without_long_references(text))
        reader.close()
        given, base = reader.links, reader.base
    if charset == NOT_KNOWN:
        web.note("unknown encoding, only ASCII was read", url.text())
        given, base = known_links(given, base)
        charset = "cp1252"
    web.count("links over several lines, joined", sum("\n" in link.strip(EDGE) for link in given))
    # The queries of a style sheet are in UTF-8 in any encoding
    links = [with_query_in(cleaned(link), "utf-8" if kind == STYLE_KIND else charset) for link in given]
    return links if base is None else with_base(links, base, url)


# ---------------------------------------------------------------- the saved web


def line_of(word: str, text: str) -> Optional[bytes]:
    """Return a line of a word and a text with its line break, or None if it is too long."""
    line = f"{word} {text}\n".encode("utf-8", "replace")
    return line if len(line) <= LINE_LIMIT + 1 else None


class Web:
    """A saved web, which is collected page by page in a temporary file. It counts what is skipped."""

    def __init__(self, options: argparse.Namespace) -> None:
        self.styles, self.quiet = not options.no_styles, options.quiet
        self.file = tempfile.TemporaryFile()
        # By URL: the positions in the file of the page's first line, of the line after it, and of its end
        self.pages: dict[str, tuple[int, int, int]] = {}
        self.size = 0
        self.links = self.moves = self.aliases = 0
        self.counts: dict[str, int] = {}

    def count(self, what: str, number: int = 1) -> None:
        """Count something for the summary."""
        if number:
            self.counts[what] = self.counts.get(what, 0) + number

    def note(self, what: str, where: str) -> None:
        """Print a note about something that was skipped or changed, and count it."""
        self.count(what)
        if not self.quiet:
            # The text is untrusted input and may go to a terminal, so control characters are escaped
            where = where[:200].encode("unicode_escape").decode()
            print(f"converter: {what}: {where}", file=sys.stderr)

    def page(self, url: str, links: Iterable[str]) -> bool:
        """Add a page with its links. Return whether it was added."""
        return self.add(url, lambda: (self.link(text, url) for text in links))

    def moved(self, url: str, target: str) -> bool:
        """Add a page that is a redirect to a target. Return whether it was added."""
        added = self.add(url, lambda: [self.move(target, url)])
        self.moves += added
        return added

    def alias(self, url: str, own: str) -> bool:
        """Add a page whose only link is the own URL of the file. Return whether it was added."""
        added = self.page(url, [own])
        self.aliases += added
        return added

    def add(self, url: str, lines: Callable[[], Iterable[Optional[bytes]]]) -> bool:
        """Add a page and the lines that the function `lines` returns, except None. Return whether it was added."""
        if url in self.pages:
            self.note("page skipped, an earlier page has the same URL", url)
            return False
        head = line_of("page", url)
        if head is None:
            self.note("page skipped, its URL is too long", url)
            return False
        below = [line for line in lines() if line is not None]
        begin = self.size
        self.file.seek(begin)
        self.file.writelines([head, *below])
        self.size += len(head) + sum(map(len, below))
        self.pages[url] = (begin, begin + len(head), self.size)
        self.links += sum(line.startswith(b"link ") for line in below)
        if len(HEADER) + self.size > INPUT_LIMIT:
            raise ConverterError(f"the saved web has more than {INPUT_LIMIT} bytes, the most that a crawl reads")
        return True

    def link(self, text: str, url: str) -> Optional[bytes]:
        """Return the line of a link. If it is too long, return a shorter line with the same meaning, or None."""
        line = line_of("link", text)
        if line is None:
            line = line_of("link", text.partition("#")[0])
            self.count("links without their fragment, they were too long", line is not None)
        start = text.encode("utf-8", "replace")[: LINE_LIMIT - len("link ")].decode("utf-8", "ignore")
        if line is None and not is_web(scheme_of(start)):
            self.count("links of other schemes, cut off at 4,096 bytes")
            line = line_of("link", start)
        if line is None:
            self.note("link skipped, it is too long", f"{url} links to {text}")
        return line

    def move(self, target: str, url: str) -> Optional[bytes]:
        """Return the line of a redirect, or None if it is too long; the page then has no link."""
        line = line_of("moved", target) or line_of("moved", target.partition("#")[0])
        if line is None:
            self.note("target of the redirect skipped, it is too long", f"{url} to {target}")
        return line

    def lines(self, begin: int, end: int) -> bytes:
        """Return the bytes of the file between two positions."""
        self.file.seek(begin)
        return self.file.read(end - begin)

    def write(self, out: BinaryIO) -> None:
        """Write the whole saved web, its pages in ascending byte order of URL."""
        out.write(HEADER)
        for _, (begin, _, end) in sorted(self.pages.items()):
            out.write(self.lines(begin, end))
        out.flush()

    def summary(self) -> None:
        """Print the numbers of pages, links and bytes, and everything that was counted."""
        size = len(HEADER) + self.size
        kinds = f"{self.moves} of them redirects and {self.aliases} aliases"
        lines = [f"{len(self.pages)} pages, {kinds}; {self.links} links; {size} bytes"]
        lines += [f"{what}: {count}" for what, count in sorted(self.counts.items())]
        for line in lines:
            print(f"converter: {line}", file=sys.stderr)


# ---------------------------------------------------------------- folders


class Names(NamedTuple):
    """The sorted paths of files and folders, and for each other path of a folder the one by which its contents are listed.

    The paths of folders end in a slash.
    """

    paths: list[bytes]
    links: dict[bytes, bytes]


def entries_below(folder: bytes, web: Web, follow: bool) -> Names:
    """Return the names below a folder. Symbolic links are followed, but to something outside only if `follow` is set.

    Each folder is listed once: by its path without symbolic links, or if it is outside, by the first of its shortest paths.
    """
    top = os.path.realpath(folder)
    names = Names([], {})
    outside: dict[bytes, bytes] = {}
    waiting = collections.deque([b""])
    while waiting:
        place = waiting.popleft()
        for name in links_last(os.path.join(folder, place)):
            path = os.path.join(folder, place, name)
            if not follow and leads_out(path, top):
                why = "a symbolic link that leads out of the folder (--follow follows it)"
                web.note(f"skipped, {why}", os.fsdecode(place + name))
            elif os.path.isdir(path):
                real = os.path.realpath(path)
                listed = place + name + b"/"
                own = name_below(real, top)
                if own is None:
                    own = outside.setdefault(real, listed)
                names.paths.append(listed)
                if own == listed:
                    waiting.append(listed)
                else:
                    names.links[listed] = own
            elif os.path.isfile(path):
                names.paths.append(place + name)
            else:
                web.note(f"skipped, {why_skipped(path)}", os.fsdecode(place + name))
    names.paths.sort()
    return names


def links_last(folder: bytes) -> list[bytes]:
    """Return the names in a folder in the order of the paths of folders, symbolic links last."""
    return sorted(os.listdir(folder), key=lambda name: (os.path.islink(os.path.join(folder, name)), name + b"/"))


def name_below(real: bytes, top: bytes) -> Optional[bytes]:
    """Return the path, below the folder with the real path `top`, of the folder with the real path `real`, or None if it is outside."""
    front = os.path.join(top, b"")
    below = os.path.join(real, b"")
    return below[len(front) :] if below.startswith(front) else None


def leads_out(path: bytes, top: bytes) -> bool:
    """Return whether a path is a symbolic link to something outside the folder with the real path `top`."""
    if not os.path.islink(path) or not os.path.exists(path):
        return False
    return not (os.path.realpath(path) + b"/").startswith(os.path.join(top, b""))


def why_skipped(path: bytes) -> str:
    """Return why something that is neither a file nor a folder is skipped."""
    try:
        os.stat(path)
    except PermissionError:
        return "it cannot be read"
    except OSError as error:
        if error.errno in (errno.ENOENT, errno.ENOTDIR, errno.ELOOP):
            return "a symbolic link to nothing"
    return "neither a file nor a folder"


def kind_of(name: bytes) -> tuple[Optional[str], bool]:
    """Return the media type that a file's suffix means, or None; and whether the suffix means that it is compressed."""
    last = os.path.basename(os.fsdecode(name))
    suffix = os.path.splitext(last)[1]
    kind, packing = KINDS.guess_type("name" + suffix)
    kind = FEED_KIND if suffix.lower() in FEEDS else XML_KINDS.get(suffix.lower(), kind)
    return LIST_KIND if LIST_NAME.fullmatch(last) else kind, packing is not None


def is_utf8(name: bytes) -> bool:
    """Return whether a file's name is UTF-8."""
    return name.decode("utf-8", "ignore").encode() == name


def split_name(name: bytes, queries: bool) -> tuple[bytes, bytes, bytes]:
    """Split a file's name into path, question mark and query; without --queries, the whole name is the path."""
    return name.partition(b"?") if queries else (name, b"", b"")


def with_html(url: str) -> str:
    """Return a URL with `.html` after its path, unless that ends with a slash."""
    path, mark, query = url.partition("?")
    return url if path.endswith("/") else path + ".html" + mark + query


class Folder:
    """The pages of a folder.

    By URL, `files` has the file of each page, `moves` the target of each redirect, and `linked` the own URL of a folder for each other
    one. By file, `own` has its own URL.
    """

    def __init__(self, folder: str, base: Url, options: argparse.Namespace, web: Web) -> None:
        self.folder, self.base, self.web = os.fsencode(folder), base, web
        self.queries, self.exact = options.queries, options.exact
        self.files: dict[str, bytes] = {}
        self.own: dict[bytes, str] = {}
        self.moves: dict[str, str] = {}
        self.fallback = options.fallback is not None
        self.index_files = [os.fsencode(name) for name in options.index_file or INDEX_FILES]
        names = entries_below(self.folder, web, options.follow)
        self.names = set(names.paths)
        self.linked = {self.url(name): self.url(own) for name, own in names.links.items()}
        for name in names.paths:
            if not is_utf8(name):
                web.note("name is not UTF-8, so its bytes are percent-encoded", self.url(name))
            if name.endswith(b"/"):
                self.moves[self.url(name[:-1])] = self.url(name)
                continue
            self.keep(self.url(name, self.queries), name)
            path, mark, query = split_name(name, self.queries)
            folder = path[: len(path) - len(os.path.basename(path))]
            index = self.index_file(folder, mark + query)
            if index and path == folder + index:
                self.keep(self.url(folder + mark + query, self.queries), name)
        if not self.files:
            raise ConverterError(f"no files in {folder}")

    def index_file(self, folder: bytes, query: bytes) -> bytes:
        """Return the first name of an index file that a folder has with this query, or an empty name."""
        return next((name for name in self.index_files if folder + name + query in self.names), b"")

    def url(self, name: bytes, queries: bool = False) -> str:
        """Return the URL of a path below the folder. With `queries`, a question mark starts the query."""
        path, mark, query = split_name(name, queries)
        url = self.base.text() + quote(path, safe=IN_NAME + "/")
        return url + "?" + quote(unquote_to_bytes(query), safe=IN_QUERY) if mark else url

    def keep(self, url: str, name: bytes) -> None:
        """Make a URL the own one of a file, in place of an earlier one, unless another file has it."""
        if url in self.files:
            self.web.note("file skipped, another file has the same URL", f"{os.fsdecode(name)}, {url}")
        else:
            self.files[url] = name
            self.own[name] = url

    def links(self, name: bytes, url: str) -> list[str]:
        """Return the links of a file at its own URL. No more bytes are read than it has, and none if it is empty."""
        kind, packed = kind_of(split_name(name, self.queries)[0])
        is_read = not kind or kind == STYLE_KIND and self.web.styles or is_document(kind, b"") or is_feed(kind)
        if packed or not is_read:
            return []
        path = os.path.join(self.folder, name)
        size = os.path.getsize(path)
        if size == 0:
            return []
        if size > FILE_LIMIT:
            self.web.note("links skipped, the file has more than 1 GiB", url)
            return []
        with open(path, "rb") as file:
            body = file.read(min(START_LENGTH, size + 1))
            if kind or is_document(kind, body):
                body += file.read(size + 1 - len(body))
        if len(body) > size:
            self.web.note("links skipped, the file changed while it was read", url)
            return []
        return links_of(body, url_of(url), kind, self.web)

    def spelled_otherwise(self, link: str, url: Url) -> Optional[tuple[str, str]]:
        """Return the canonical URL of a link and that of the page that a server returns for it, if these differ."""
        target = parse(link, url)
        if target is None:
            return None
        text = target.text()
        top = self.base.text()
        plain = target.site() + respelled(target.path)
        path = looked_up(plain[len(top) :]) if plain.startswith(top) else None
        if path is None:
            return None
        plain = top + path
        if target.query is not None and self.queries:
            plain += "?" + quote(unquote_to_bytes(target.query), safe=IN_QUERY)
        if text in self.files or text in self.moves or (self.exact and plain != text):
            return None
        plain = self.own_url(plain)
        if self.fallback and plain not in self.files and plain not in self.moves:
            plain = with_html(plain)
        return (text, plain) if self.has_spellings(plain) else None

    def own_url(self, url: str) -> str:
        """Return a URL with the own URL of each folder in place of its other ones."""
        own = ""
        for part in re.findall("[^/]*/|[^/]+", url) if self.linked else [url]:
            own += part
            own = self.linked.get(own, own)
        return own

    def has_spellings(self, url: str) -> bool:
        """Return whether a folder has this URL, or a file whose own URL fits in a line."""
        name = self.files.get(url)
        return url in self.moves if name is None else line_of("page", self.own[name]) is not None

    def other_spellings(self, links: Iterable[str], url: str) -> dict[str, str]:
        """Return the URLs among links that spell a page's URL differently, each with the page's URL."""
        base = url_of(url)
        # Only links with escapes, a query, a backslash or consecutive slashes in the path can, unless symbolic links lead to folders
        # or suffixes are omitted
        marked = [link for link in dict.fromkeys(links) if self.linked or self.fallback or SPELLED_LINK.search(link)]
        found = (self.spelled_otherwise(link, base) for link in marked)
        return {} if self.exact and not self.linked else dict(filter(None, found))

    def write_file(self, url: str, name: bytes) -> list[str]:
        """Add the page at a URL of a file. Return the links of the file at its own URL, and none at an alias."""
        own = self.own[name]
        if url != own:
            self.web.alias(url, self.target(own))
            return []
        links = self.links(name, url)
        self.web.page(url, links)
        return links

    def target(self, url: str) -> str:
        """Return the text with which a page of the folder leads to a URL of the folder."""
        text = url[len(self.base.site()) :]
        # Two slashes would start a host
        return url if text.startswith("//") else text

    def write_spelled(self, found: dict[str, str]) -> dict[str, str]:
        """Add the pages with these other spellings of pages' URLs. Return those among the targets of redirects."""
        again: dict[str, str] = {}
        for text, plain in found.items():
            if plain in self.files:
                self.web.alias(text, self.target(self.own[self.files[plain]]))
            else:
                target = self.target(self.moves[plain] + url_of(text).tail())
                self.web.moved(text, target)
                again.update(self.other_spellings([target], text))
        return again

    def write(self) -> None:
        """Add all pages, and then their other spellings that links or redirects lead to."""
        found: dict[str, str] = {}
        for url, name in sorted(self.files.items()):
            found.update(self.other_spellings(self.write_file(url, name), url))
        for url, target in self.moves.items():
            self.web.moved(url, self.target(target))
            found.update(self.other_spellings([target], url))
        again = self.write_spelled(found)
        self.write_spelled({text: plain for text, plain in again.items() if text not in found})


# ---------------------------------------------------------------- the command


class CommandLine(argparse.ArgumentParser):
    """A parser of the command line that exits with the same status as mercator on a bad command line."""

    def error(self, message: str) -> NoReturn:
        self.print_usage(sys.stderr)
        self.exit(BAD_WORDS, f"converter: {message}\n")


def command_line() -> CommandLine:
    """Return the parser of this script's command line."""
    words = CommandLine(
        usage="converter.py [OPTION..] FOLDER BASE > WEB", description=__doc__,
        formatter_class=argparse.RawDescriptionHelpFormatter,
    )
    words.add_argument("folder", metavar="FOLDER", help="folder to convert")
    words.add_argument("base", metavar="BASE", help="URL of the folder, such as http://docs.test/")
    words.add_argument(
        "--index-file",
        action="append",
        metavar="NAME",
        help="name of index files, in place of index.html, index.htm and index.xhtml; repeatable",
    )
    words.add_argument(
        "--fallback", choices=["html"], help="look up a path that has no page again with .html added"
    )
    words.add_argument(
        "--queries", action="store_true", help="read a ? in a file name as the start of a query (for `wget -r`)"
    )
    words.add_argument("--exact", action="store_true", help="accept only the exact spelling of a page's URL")
    words.add_argument(
        "--follow",
        action="store_true",
        help="follow symbolic links that lead out of FOLDER, which are otherwise listed and skipped",
    )
    words.add_argument("--no-styles", action="store_true", help="do not read style sheets, style elements and style attributes")
    words.add_argument("--quiet", action="store_true", help="only count what is skipped, and do not list it")
    return words


def base_of(text: str, words: argparse.ArgumentParser) -> Url:
    """Return the Url of the folder; exit if the text is not a suitable URL."""
    base = parse(text)
    if base is None or base.host is None or base.query is not None:
        words.error(f"BASE must be an http or https URL with a plain ASCII host and without a query: {text}")
    base.path = respelled(base.path.rstrip("/")) + "/"
    return base


def run(words: argparse.ArgumentParser) -> None:
    """Read the site and write the saved web."""
    options = words.parse_args()
    if options.exact and options.fallback:
        words.error("--exact and --fallback exclude each other")
    web = Web(options)
    base = base_of(options.base, words)
    if not os.path.isdir(options.folder):
        raise ConverterError(f"{options.folder}: not a folder")
    Folder(options.folder, base, options, web).write()
    web.write(sys.stdout.buffer)
    web.summary()


def text_of_error(error: Exception) -> str:
    """Return the text of an error: for one of the system, the file, if there is one, and the reason."""
    if not isinstance(error, OSError) or error.strerror is None:
        return str(error)
    return error.strerror if error.filename is None else f"{os.fsdecode(error.filename)}: {error.strerror}"


def main() -> None:
    """Run the command. An error is printed and ends it with status 1."""
    try:
        run(command_line())
    except (ConverterError, OSError) as error:
        print(f"converter: {text_of_error(error)}", file=sys.stderr)
        if isinstance(error, BrokenPipeError):
            # Otherwise the interpreter would try to write again at its end
            os.dup2(os.open(os.devnull, os.O_WRONLY), sys.stdout.fileno())
        sys.exit(ERROR)


if __name__ == "__main__":
    main()
