"""The links and ids of a document, each link with the line and column of its value, and the links of style sheets, feeds and lists."""

from __future__ import annotations

import os
import re
from bisect import bisect_right
from typing import Any, Dict, FrozenSet, List, NamedTuple, Optional, Set, Tuple
from urllib.parse import quote

from checking import feeds, loading, sheets
from checking.tags import Attribute, Tag, page_tags, sheet_of

TOOL: Any = loading.script("converter", "tests/checking/converter.py")
REFRESH = re.compile(r"[\t\n\f\r ]*[0-9.]+(?=[;,\t\n\f\r ])[\t\n\f\r ]*[;,]?[\t\n\f\r ]*(.*)", re.DOTALL)
MARKS = ((b"\xef\xbb\xbf", "utf-8"), (b"\xff\xfe", "utf-16-le"), (b"\xfe\xff", "utf-16-be"))
# Names of windows-1252 in Python and in the Encoding Standard
WINDOWS = {"cp1252", "windows-1252", "1252"}
UTF_8 = {"utf-8", "utf_8", "u8"}
# The forms of files by their names
FORMS = {
    ".html": "html", ".htm": "html", ".xhtml": "xml", ".xht": "xml", ".svg": "xml", ".css": "css", ".rss": "feed", ".atom": "feed", ".xml": "feed",
}
PICTURES = (".svg",)  # the documents among these that are pictures: a check does not start at them
# A style sheet names its encoding at its very beginning
SHEET_CHARSET = re.compile(rb'@charset "([^"]*)";')
UNKNOWN = "\x80"  # replaces bytes beyond ASCII in an unknown encoding; no character reference gives this character


class Link(NamedTuple):
    text: str
    at: int


class Document(NamedTuple):
    links: Tuple[Link, ...]
    base: Optional[str]
    ids: Optional[FrozenSet[str]]  # None if some id is not known, or of a file that has none
    lines: "Lines"
    charset: str


class Lines:
    """The positions at which the lines of a text start."""

    def __init__(self, text: str) -> None:
        self.begins = [0] + [found.end() for found in re.finditer("\n", text)]

    def place(self, at: int) -> Tuple[int, int]:
        """The line and the column of a position, both from 1."""
        line = bisect_right(self.begins, at)
        return line, at - self.begins[line - 1] + 1


def known_schemes() -> List[str]:
    """The known schemes, which the manual lists in a block after their heading."""
    listed = re.search(r"^### Known schemes\n.*?^```\n(.*?)^```\n", (loading.ROOT / "docs/MANUAL.md").read_text("utf-8"), re.M | re.S)
    if listed is None:
        raise ValueError("the manual lists no known schemes")
    return listed[1].split()


def character(byte: int) -> str:
    """The character of a byte in windows-1252, by the Encoding Standard."""
    try:
        return bytes([byte]).decode("cp1252")
    except UnicodeError:
        return chr(byte)


CHARACTERS = {byte: character(byte) for byte in range(256)}
BYTES = {letter: bytes([byte]) for byte, letter in CHARACTERS.items()}
ASCII = {byte: UNKNOWN for byte in range(128, 256)}


def text_of(body: bytes) -> Tuple[str, str]:
    """A document's text and encoding: by its byte order mark, by its head, as UTF-8 or as windows-1252.

    In any other encoding only ASCII is read.
    """
    label = TOOL.declared(body[:TOOL.START_LENGTH])
    read = marked_text(body) or named_text(body, "windows-1252" if label.lower() == "x-user-defined" else encoding_named(label))
    if read is not None:
        return read
    try:
        return body.decode("utf-8"), "utf-8"
    except UnicodeError:
        return body.decode("latin-1").translate(CHARACTERS), "windows-1252"


def sheet_text(body: bytes) -> Tuple[str, str]:
    """A style sheet's text and encoding, by CSS Syntax: by its byte order mark, by `@charset`, or as UTF-8."""
    charset = SHEET_CHARSET.match(body[:1024])
    read = marked_text(body) or named_text(body, encoding_named(charset[1].decode("latin-1") if charset else ""))
    return read or (body.decode("utf-8", "replace"), "utf-8")


def encoding_named(label: str) -> str:
    """The name of the encoding with a label. UTF-16 means UTF-8, since its bytes could not have said so."""
    label = label.strip(TOOL.ASCII_SPACES).lower()
    if label in TOOL.UTF8_NAMES or label.startswith("utf-16"):
        return "utf-8"
    return "windows-1252" if label in TOOL.WINDOWS_NAMES else label


def marked_text(body: bytes) -> Optional[Tuple[str, str]]:
    """The text and the encoding of bytes that begin with a byte order mark."""
    for mark, name in MARKS:
        if body.startswith(mark):
            return body[len(mark):].decode(name, "replace"), "utf-8"
    return None


def named_text(body: bytes, name: str) -> Optional[Tuple[str, str]]:
    """The text and the encoding by the name of an encoding, if there is one. Of an unknown one only ASCII is read, unless the bytes are UTF-8."""
    if name in UTF_8:
        return body.decode("utf-8", "replace"), "utf-8"
    if name in WINDOWS:
        return body.decode("latin-1").translate(CHARACTERS), "windows-1252"
    try:
        return (body.decode("utf-8"), "utf-8") if name else None
    except UnicodeError:
        return body.decode("latin-1").translate(ASCII), "other"


def is_absolute(link: str) -> bool:
    """Whether a link does not depend on the base."""
    found = re.match(r"([A-Za-z][A-Za-z0-9+.-]*):([/\\]{2})?", link.strip(TOOL.EDGE))
    return found is not None and (found[2] is not None or found[1].lower() not in ("http", "https"))


def in_ascii(document: Document) -> Document:
    """What is known of a document in which only ASCII is read."""
    links, base, ids = document.links, document.base, document.ids
    if base is not None and UNKNOWN in base.split("#")[0]:
        links, base = tuple(link for link in links if is_absolute(link.text)), None
    links = tuple(link._replace(text=re.sub(f"#.*{UNKNOWN}.*", "#", link.text, flags=re.S)) for link in links)
    links = tuple(link for link in links if UNKNOWN not in link.text)
    return document._replace(links=links, base=base, ids=None if any(UNKNOWN in one for one in ids or ()) else ids)


def with_query_in(text: str, charset: str) -> str:
    """The link with its query percent-encoded in windows-1252, if that is the document's encoding."""
    front, hash_mark, fragment = text.partition("#")
    path, mark, query = front.partition("?")
    if charset == "utf-8" or front.isascii() or not TOOL.is_web(TOOL.scheme_of(text)):
        return text
    letters = (c if c.isascii() else quote(BYTES.get(c, f"&#{ord(c)};".encode())) for c in query)
    return path + mark + "".join(letters) + hash_mark + fragment


def firsts(tag: Tag) -> Dict[str, Attribute]:
    """The first attribute with each name."""
    found: Dict[str, Attribute] = {}
    for attribute in tag.attributes:
        found.setdefault(attribute.name, attribute)
    return found


def target_of(text: str) -> List[str]:
    """The target of a refresh, by the steps of the HTML Standard."""
    time = REFRESH.match(text)
    target = re.sub(r"\A[uU][rR][lL][\t\n\f\r ]*=[\t\n\f\r ]*", "", time[1]) if time else ""
    if target[:1] in ("'", '"'):
        target = target[1:].split(target[0])[0]
    return [target] if target else []


def link_names(tag: Tag) -> Tuple[str, ...]:
    """The names of the attributes of a start tag that may be links."""
    kind = tag.context.kind
    if kind == "html":
        return tuple(TOOL.LINKS.get(tag.name, ()))
    if kind == "xml":
        no_links = ("base", "template", "svg", "math")
        return tuple(TOOL.LINKS.get(tag.name, () if tag.name in no_links else ("href", "xlink:href")))
    return () if tag.name == "font" else ("href", "xlink:href")


def texts_of(tag: Tag, found: Dict[str, Attribute], is_inner: bool = False) -> List[Link]:
    """The links of a start tag. Of a tag in a document in a frame, an attribute that names an anchor of that document is none."""
    values = {name: attribute.value for name, attribute in found.items()}
    is_foreign = tag.context.kind in ("svg", "math")
    if tag.name == "meta" and values.get("http-equiv", "").lower() == "refresh":
        return [Link(text, found["content"].at) for text in target_of(values.get("content", ""))]
    links = []
    for name in link_names(tag):
        if name in found and (is_foreign or TOOL.is_link(tag.name, name, values)):
            value = found[name]
            if name.endswith("srcset"):
                links += [Link(text, value.at) for text in TOOL.candidates(value.value)]
            elif not is_inner or not value.value.startswith("#"):
                links.append(Link(value.value, value.at))
    return links


def is_base(tag: Tag, found: Dict[str, Attribute]) -> bool:
    """Whether a start tag sets the base of its document, if it is the first one."""
    return tag.name == "base" and tag.context.kind in ("html", "xml") and "href" in found


def frame_links(tag: Tag, found: Dict[str, Attribute]) -> List[Link]:
    """The links before any base of the document in the `srcdoc` of a frame, at the position of the value. Those of its styles, and of frames in it, are left out."""
    if tag.name != "iframe" or tag.context.kind not in ("html", "xml") or "srcdoc" not in found:
        return []
    value, links = found["srcdoc"], []
    for inner in page_tags(value.value):
        attributes = firsts(inner)
        if is_base(inner, attributes):
            break
        links += [Link(link.text, value.at) for link in texts_of(inner, attributes, True)]
    return links


def style_links(sheet: str, at: int) -> List[Link]:
    """The links of a style sheet that begins at a position."""
    return [Link(found.text, at + found.at) for found in sheets.urls_of(sheet)]


def styles_of(tag: Tag, found: Dict[str, Attribute], text: str) -> List[Link]:
    """The links of a tag's `style`, and of the style sheet in its element."""
    links = style_links(sheet_of(tag, text), tag.end)
    if "style" not in found:
        return links
    style = found["style"]
    own = style_links(style.value, style.at)
    # With character references all links have the position of the value
    return (own if style.value == style.raw else [Link(link.text, style.at) for link in own]) + links


def read_tags(text: str, xml: bool = False, styles: bool = False) -> Tuple[List[Link], Optional[str], Set[str]]:
    """The links, the base and the ids of a document with this text, and with `styles` the links of its styles."""
    links: List[Link] = []
    ids: Set[str] = set()
    base = None
    for tag in page_tags(text, xml):
        found = firsts(tag)
        if base is None and is_base(tag, found):
            base = found["href"].value
        links += (styles_of(tag, found, text) if styles else []) + texts_of(tag, found) + frame_links(tag, found)
        if "id" in found:
            ids.add(found["id"].value)
        if tag.name == "a" and "name" in found:
            ids.add(found["name"].value)
    return links, base, ids


def document_of(body: bytes, form: str = "html", styles: bool = True) -> Document:
    """Reads a document of a form: `html`, `xml`, `css`, `feed` or `list`."""
    if form == "css":
        return sheet_of_file(body)
    if form in ("feed", "list"):
        return feed_of_file(body, form)
    text, charset = text_of(body)
    links, base, ids = read_tags(text, form == "xml", styles)
    document = Document(tuple(links), base, frozenset(ids), Lines(text), charset)
    return in_ascii(document) if charset == "other" else document


def sheet_of_file(body: bytes) -> Document:
    """Reads a style sheet. It has no anchors, and the queries of its links are in UTF-8 in any encoding."""
    text, charset = sheet_text(body)
    sheet = Document(tuple(style_links(text, 0)), None, None, Lines(text), charset)
    return (in_ascii(sheet) if charset == "other" else sheet)._replace(charset="utf-8")


def feed_of_file(body: bytes, form: str) -> Document:
    """Reads a sitemap, a feed or a list of URLs, by its byte order mark or as UTF-8. It has no anchors."""
    text, charset = marked_text(body) or (body.decode("utf-8", "replace"), "utf-8")
    found = feeds.links_of_feed(text) if form == "feed" else feeds.links_of_list(text)
    return Document(tuple(Link(link.text, link.at) for link in found), None, None, Lines(text), charset)


def suffix_of(name: bytes) -> str:
    """The suffix of a file's name in lower case, with its dot."""
    return os.path.splitext(file_name(name))[1].lower()


def is_page(name: bytes) -> bool:
    """Whether a file is an HTML document by its name, in HTML or in XML."""
    return form_of(name, False) in ("html", "xml") and suffix_of(name) not in PICTURES


def file_name(name: bytes) -> str:
    """The last name of a path."""
    return os.path.basename(os.fsdecode(name))


def form_of(name: bytes, styles: bool) -> Optional[str]:
    """The form of a file by its name: one of FORMS, `list`, or `` if its first bytes decide; None of a file without links."""
    if feeds.is_list(file_name(name)):
        return "list"
    suffix = suffix_of(name)
    if suffix in FORMS:
        return FORMS[suffix] if styles or FORMS[suffix] != "css" else None
    kind, packed = TOOL.kind_of(name)
    return None if kind or packed else ""
