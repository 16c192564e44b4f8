"""The definitions of sitemaps, feeds and lists of URLs in crates/document_links/specs (Markup.antt, Feeds.antt, Unescaped.antt, UrlLists.antt).

These are the same functions over the bytes of a text in UTF-8. `feed_error` compares their links with the model's, which are read in another way.
"""

from __future__ import annotations

from typing import Dict, Iterator, List, Optional, Tuple

from checking.documents import TOOL, marked_text
from checking.model import Site

SPACES = b"\t\n\r "
EDGE = bytes(range(33))
NAMED = {b"amp": 38, b"lt": 60, b"gt": 62, b"quot": 34, b"apos": 39}
KINDS = {b"urlset": "sitemap", b"sitemapindex": "sitemap", b"rss": "rss", b"RDF": "rss", b"feed": "atom"}
# What of an element is a link: its text, or the value of an attribute
PARTS: Dict[Tuple[str, bytes], bytes] = {
    ("sitemap", b"loc"): b"", ("rss", b"link"): b"", ("rss", b"enclosure"): b"url", ("atom", b"link"): b"href", ("atom", b"content"): b"src",
}


def markup_of(rest: bytes) -> str:
    """The kind of the markup that begins before these bytes with a `<`."""
    starts = ((b"!--", "comment"), (b"![CDATA[", "section"), (b"!", "declaration"), (b"?", "instruction"), (b"/", "end"))
    return next((kind for start, kind in starts if rest.startswith(start)), "start")


def through(word: bytes, rest: bytes) -> int:
    """The number of bytes up to the end of the first `word`, or of all bytes if it is not there."""
    at = rest.find(word)
    return len(rest) if at < 0 else at + len(word)


def tag_length(rest: bytes, ends: bytes) -> int:
    """The number of bytes up to the first of these ends that is outside of quotes."""
    quote = 0
    for at, byte in enumerate(rest):
        if quote == 0 and byte in ends:
            return at + 1
        if quote == 0:
            quote = byte if byte in b"\"'" else 0
        elif byte == quote:
            quote = 0
    return len(rest)


def markup_length(rest: bytes) -> int:
    """The number of bytes of markup after its `<`."""
    kind = markup_of(rest)
    words = {"comment": b"-->", "section": b"]]>", "instruction": b"?>"}
    if kind in words:
        return through(words[kind], rest)
    return tag_length(rest, b">[" if kind == "declaration" else b">")


def in_name(byte: int) -> bool:
    """Whether a byte may be in a name."""
    return byte not in SPACES + b"=/>"


def local_name(tag: bytes) -> bytes:
    """The name of a tag without its prefix."""
    end = next((at for at, byte in enumerate(tag) if not in_name(byte)), len(tag))
    return tag[:end].rpartition(b":")[2]


def value_of(name: bytes, tag: bytes) -> Optional[bytes]:
    """The value in quotes of the first attribute with this name."""
    quote, since = 0, b""
    for at, byte in enumerate(tag):
        if quote:
            quote, since = (0 if byte == quote else quote), b""
        elif byte in b"\"'":
            before = since.rstrip(SPACES + b"=")
            begin = next((end for end in range(len(before), 0, -1) if not in_name(before[end - 1])), 0)
            if before[begin:] == name:
                return tag[at + 1:].split(bytes([byte]))[0]
            quote, since = byte, b""
        else:
            since += bytes([byte])
    return None


def meaning_of(name: bytes) -> bytes:
    """The characters of a reference with this name, or the reference itself."""
    number = NAMED.get(name, 0)
    digits, radix = (name[2:], 16) if name.startswith(b"#x") else (name[1:], 10)
    if name.startswith(b"#") and all(byte in b"0123456789abcdefABCDEF"[:22 if radix == 16 else 10] for byte in digits):
        number = int(digits, radix) if digits else 0
    is_character = 0 < number < 0x110000 and not 0xD800 <= number < 0xE000
    return chr(number).encode() if is_character else b"&" + name + b";"


def unescaped(text: bytes) -> bytes:
    """A text with its references replaced. A reference goes to the next `;`, unless another `&` or the end comes first."""
    first, *others = text.split(b"&")
    found = first
    for piece in others:
        name, mark, rest = piece.partition(b";")
        found += meaning_of(name) + rest if mark else b"&" + piece
    return found


def text_of(rest: bytes) -> bytes:
    """The text from here to the next tag."""
    found, run, at = b"", b"", 0
    while at < len(rest):
        if rest[at] != 60:
            run += rest[at:at + 1]
            at += 1
            continue
        found, run = found + unescaped(run), b""
        markup = rest[at + 1:]
        kind = markup_of(markup)
        if kind in ("start", "end"):
            return found
        found += markup.split(b"]]>")[0][8:] if kind == "section" else b""
        at += 1 + markup_length(markup)
    return found + unescaped(run)


def links_of_feed(text: bytes) -> Iterator[bytes]:
    """The links of a sitemap or a feed."""
    root: Optional[str] = None
    at = 0
    while at < len(text):
        if text[at] != 60:
            at += 1
            continue
        rest = text[at + 1:]
        length = markup_length(rest)
        if markup_of(rest) == "start":
            tag = rest[:length]
            root = KINDS.get(local_name(tag), "") if root is None else root
            part = PARTS.get((root, local_name(tag)))
            if part == b"":
                yield b"" if tag.endswith(b"/>") else text_of(rest[length:])
            elif part is not None:
                yield unescaped(value_of(part, tag) or b"")
        at += 1 + length


def links_of_list(text: bytes) -> List[bytes]:
    """The lines of a list of URLs without what a URL parser drops at their ends."""
    return [line.strip(EDGE) for line in text.split(b"\n")]


def feed_error(site: Site) -> Optional[str]:
    """A feed or a list of URLs whose links are others by the definitions than in the model."""
    for name, document in site.documents.items():
        form = site.form(name)
        if document is None or form not in ("feed", "list"):
            continue
        body = site.body(name)
        marked = marked_text(body)
        text = (body.decode("utf-8", "replace") if marked is None else marked[0]).encode("utf-8", "replace")
        found = links_of_feed(text) if form == "feed" else links_of_list(text)
        links = [TOOL.cleaned(link.decode("utf-8", "replace")) for link in found if link.strip(EDGE)]
        expected = [TOOL.cleaned(link.text) for link in document.links]
        if links != expected:
            return f"{name!r}: {links}, the model has {expected}"
    return None
