"""The saved web of a folder, by the converter with another tokenizer and the known differences of the program."""

from __future__ import annotations

import io
import re
from typing import Any, Dict, List, Optional, Tuple

import drawn
from checking import feeds, loading
from checking.documents import character, read_tags, style_links, with_query_in
from checking.model import HOSTS, Alias, Found, Model, Moved, url_of

DIFFERENCES = """\
differences of the program:
  a name that is not UTF-8 is skipped with a note, because no library call can open its file
  the only known encodings are UTF-8, UTF-16 and windows-1252
  the bytes 81, 8D, 8F, 90 and 9D of windows-1252 are C1 controls, as in the Encoding Standard
  after a base, a link with an invalid host stays as it is, and all other hosts are canonical
  a sitemap or a feed that is not well-formed has links"""
NO_START = re.compile(b"(?!)")  # with the rules of a host, no file is a document by its first bytes
KNOWN = {"utf_8": "utf-8", "u8": "utf-8", "windows-1252": "cp1252", "1252": "cp1252", "utf-8": "utf-8", "cp1252": "cp1252"}


def rules_in(option: str) -> List[str]:
    """The options for the rules of a host in place of its name, and any other option."""
    name, _, value = option.partition("=")
    if name != "--host":
        return [option]
    rules = HOSTS[value]
    return [f"--index-file={one}" for one in rules["indices"]] + ["--exact"] * ("exact" in rules) + ["--fallback=html"] * ("fallback" in rules)


class Reader:
    """Reads a document with the model's tokenizer, in place of the converter's reader."""

    def __init__(self, styles: bool, xml: bool) -> None:
        self.styles, self.xml = styles, xml
        self.links: List[str] = []
        self.base: Optional[str] = None

    def feed(self, text: str) -> None:
        """Reads the whole text of a document."""
        links, self.base, _ = read_tags(text, self.xml, self.styles)
        self.links = [link.text for link in links]

    def close(self) -> None:
        """Does nothing, since nothing is buffered."""


class Converter:
    """The converter with this reader of documents."""

    def __init__(self, tool: Any = None, reader: Any = Reader) -> None:
        self.tool: Any = tool or loading.script("converter_model", "tests/checking/converter.py")
        self.charset, self.text, self.entries = self.tool.charset_of, self.tool.text_of, self.tool.entries_below
        self.resolved, self.start = self.tool.with_base, self.tool.HTML_START
        self.tool.LinkReader = reader
        self.tool.without_long_references = lambda text: text
        self.tool.links_of_style = lambda text: [link.text for link in style_links(text, 0)]
        self.tool.links_of_feed = lambda text: [link.text for link in feeds.links_of_feed(text)]
        self.tool.charset_of = self.known_charset
        self.tool.text_of = self.text_with_controls
        self.tool.with_query_in = with_query_in
        self.tool.entries_below = self.utf_8_entries
        self.tool.with_base = self.with_base

    def known_charset(self, body: bytes, kind: Optional[str]) -> str:
        """The encoding that a document or a style sheet declares, if the program knows it."""
        name = self.charset(body, kind)
        return KNOWN.get(name, "unheard") if name else ""

    def text_with_controls(self, body: bytes, kind: Optional[str]) -> Tuple[str, str]:
        """The text and the encoding of a document or a style sheet, with the controls of windows-1252."""
        text, name = self.text(body, kind)
        return ("".join(map(character, body)), name) if name == "cp1252" else (text, name)

    def with_base(self, links: List[str], base: str, url: Any) -> List[str]:
        """The links of a page with a base. A link with an invalid host stays as it is; the converter does not know such hosts."""
        fixed = []
        for link, text in zip(links, self.resolved(links, base, url)):
            if text != link and self.tool.scheme_of(text) in ("http", "https"):
                target = drawn.url_or_none(text)
                text = link if target is None else str(target)
            fixed.append(text)
        return fixed

    def utf_8_entries(self, *arguments: Any) -> Any:
        """The files and folders whose names are UTF-8."""
        names = self.entries(*arguments)
        return names._replace(paths=list(filter(self.tool.is_utf8, names.paths)))

    def web(self, folder: str, options: List[str], base: str) -> bytes:
        """The saved web of a folder."""
        parser = self.tool.command_line()
        self.tool.HTML_START = NO_START if any(option.startswith("--host=") for option in options) else self.start
        settings = parser.parse_args(["--quiet", *(word for option in options for word in rules_in(option)), folder, base])
        web = self.tool.Web(settings)
        self.tool.Folder(folder, self.tool.base_of(base, parser), settings, web).write()
        out = io.BytesIO()
        web.write(out)
        return out.getvalue()


def pages_of(web: bytes) -> Dict[str, List[Tuple[str, str]]]:
    """The pages of a saved web by their URLs: of each line its word and the URL of its text, if it is http or https."""
    pages: Dict[str, List[Tuple[str, str]]] = {}
    page = ""
    for line in web.decode().split("\n")[1:-1]:
        word, _, text = line.partition(" ")
        if word == "page":
            page = text
            pages[page] = []
        else:
            url = url_of(text, drawn.url_of(page))
            pages[page] += [(word, url)] if url else []
    return pages


def model_error(model: Model, web: bytes) -> Optional[str]:
    """A page of the model that this saved web does not have, or a missing page that it has."""
    pages = pages_of(web)
    for url, response in model.responses.items():
        expected: Optional[List[Tuple[str, str]]] = None
        if isinstance(response, Found):
            expected = [("link", link.url) for link in model.links[url]]
        elif isinstance(response, Alias):
            expected = [("link", response.own)]
        elif isinstance(response, Moved):
            expected = [("moved", response.url)]
        if pages.get(url) != expected:
            return f"{url}\n  converter {pages.get(url)}\n  model     {expected}"
    return None


def first_difference(actual: bytes, expected: bytes) -> Optional[str]:
    """The first line in which two saved webs differ, and its page."""
    ours, theirs = actual.split(b"\n"), expected.split(b"\n")
    page = b""
    for number, (one, other) in enumerate(zip(ours, theirs), 1):
        if one != other:
            return f"line {number}, {page.decode()}\n  actual   {one!r}\n  expected {other!r}"
        if one.startswith(b"page "):
            page = one
    return None if actual == expected else f"{len(ours)} lines, {len(theirs)} expected"
