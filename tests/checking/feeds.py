"""The links of a sitemap, a feed in RSS or Atom, and a list of URLs, each with its position."""

from __future__ import annotations

import re
from fnmatch import fnmatchcase
from typing import Dict, Iterator, List, NamedTuple, Tuple

SPACE = "\t\n\f\r "
EDGE = "".join(map(chr, range(0x21)))  # what a URL parser removes from both ends of a link
# The kinds of feeds by their root: the elements whose text is a link, and the attributes that are links
KINDS: Dict[str, Tuple[Tuple[str, ...], Tuple[Tuple[str, str], ...]]] = {
    "urlset": (("loc",), ()),
    "sitemapindex": (("loc",), ()),
    "rss": (("link",), (("enclosure", "url"),)),
    "RDF": (("link",), (("enclosure", "url"),)),
    "feed": ((), (("link", "href"), ("content", "src"))),
}
# The last names of the URLs of sitemaps and feeds at which a check starts
SITEMAP = "sitemap*.*"
STARTS = (SITEMAP, "*.rss", "*.atom", "feed.xml", "rss.xml", "atom.xml", "index.xml")
LIST = "sitemap*.txt"
CDATA = "<![CDATA["
# A comment, a section of text, an instruction, a declaration up to its end or its first bracket, or a tag. What does not end goes to
# the end of the file
MARK = re.compile(
    r"""<!(?=--).*?(?:-->|\Z)|<!\[CDATA\[.*?(?:\]\]>|\Z)|<(?=\?).*?(?:\?>|\Z)
    |<!(?:"[^"]*(?:"|\Z)|'[^']*(?:'|\Z)|[^"'>\[])*(?:[>\[]|\Z)
    |<(/?)([^\s=/>"']*)((?:"[^"]*(?:"|\Z)|'[^']*(?:'|\Z)|[^"'>])*)(?:>|\Z)""",
    re.DOTALL | re.VERBOSE,
)
ATTRIBUTE = re.compile(r"""([^\s=/"']+)\s*=\s*(?:"([^"]*)"|'([^']*)')""")
REFERENCE = re.compile("&(?:(amp|lt|gt|quot|apos)|#([0-9]+)|#x([0-9A-Fa-f]+));")
NAMED = {"amp": "&", "lt": "<", "gt": ">", "quot": '"', "apos": "'"}


class Text(NamedTuple):
    """A text and its position."""

    text: str
    at: int


def lower(text: str) -> str:
    """The text with ASCII letters in lower case."""
    return re.sub("[A-Z]+", lambda run: run[0].lower(), text)


def is_start(name: str) -> bool:
    """Whether a check starts at a sitemap or a feed whose URL has this last name."""
    return any(fnmatchcase(lower(name), pattern) for pattern in STARTS)


def is_sitemap(name: str) -> bool:
    """Whether a sitemap or a list of URLs is known by its last name."""
    return fnmatchcase(lower(name), SITEMAP)


def is_list(name: str) -> bool:
    """Whether a file with this name has one URL per line."""
    return fnmatchcase(lower(name), LIST)


def decoded(text: str) -> str:
    """A text with the references of XML replaced. What is no reference to a character stays as it is."""

    def one(found: "re.Match[str]") -> str:
        if found[1]:
            return NAMED[found[1]]
        number = int(found[2]) if found[2] else int(found[3], 16)
        is_character = 0 < number <= 0x10FFFF and not 0xD800 <= number < 0xE000
        return chr(number) if is_character else found[0]

    return REFERENCE.sub(one, text)


def after_space(text: str, at: int) -> int:
    """The position after the white space at a position."""
    while text[at:at + 1] and text[at] in SPACE:
        at += 1
    return at


def content(text: str, at: int) -> Text:
    """The text of the element that begins at a position, up to the first tag in it, and the position of its first character."""
    begin = after_space(text, at)
    if text.startswith(CDATA, begin):
        begin = after_space(text, begin + len(CDATA))
    found, last = "", at
    for mark in MARK.finditer(text, at):
        found += decoded(text[last:mark.start()])
        last = mark.end()
        if mark[2] is not None:
            break
        if mark[0].startswith(CDATA):
            found += mark[0][len(CDATA):].partition("]]>")[0]
    else:
        found += decoded(text[last:])
    return Text(found.strip(SPACE), begin)


def links_of_feed(text: str) -> List[Text]:
    """The links of a sitemap or a feed. A file with another root has none, and neither has an empty text."""
    tags = [mark for mark in MARK.finditer(text) if mark[2] is not None and not mark[1]]
    root = local(tags[0]) if tags else ""
    if root not in KINDS:
        return []
    return [link for tag in tags for link in links_of_tag(text, tag, root) if link.text.strip(EDGE)]


def local(tag: "re.Match[str]") -> str:
    """The name of an element without the prefix of its namespace."""
    return tag[2].rpartition(":")[2]


def links_of_tag(text: str, tag: "re.Match[str]", root: str) -> Iterator[Text]:
    """The links of an element of a feed with this root."""
    elements, attributes = KINDS[root]
    if local(tag) in elements and not tag[3].endswith("/"):
        yield content(text, tag.end())
    for element, name in attributes:
        if local(tag) == element:
            values = [value for value in ATTRIBUTE.finditer(text, tag.start(3), tag.end(3)) if value[1] == name]
            yield from (Text(decoded(value[2] or value[3] or ""), value.end() - 1 - len(value[2] or value[3] or "")) for value in values[:1])


def links_of_list(text: str) -> Iterator[Text]:
    """The links of a list of URLs: its lines, without those that are empty."""
    at = 0
    for line in text.split("\n"):
        link = line.strip(EDGE)
        if link:
            yield Text(link, at + line.index(link))
        at += len(line) + 1
