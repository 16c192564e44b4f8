"""The start tags of a page in HTML or XHTML by the HTML Standard's tokenizer, each value with its position."""

from __future__ import annotations

import html.entities
import re
from typing import Iterator, NamedTuple, Tuple

SPACE = "\t\n\f\r "
NAME = re.compile(r"[^\t\n\f\r />]*")
BETWEEN = re.compile(r"[\t\n\f\r /]*")
SPACES = re.compile(r"[\t\n\f\r ]*")
ATTRIBUTE_NAME = re.compile(r"[^\t\n\f\r />][^\t\n\f\r />=]*")
UNQUOTED = re.compile(r"[^\t\n\f\r >]*")
PLAIN_END = re.compile(r"/(?!template>)[A-Za-z][^\t\n\f\r />]*>", re.I)
LETTERS = frozenset("abcdefghijklmnopqrstuvwxyzABCDEFGHIJKLMNOPQRSTUVWXYZ")
COMMENT_END = re.compile(r"-?>|[\s\S]*?--!?>")
SCRIPT_MARK = re.compile(r"<!--|-->|<(/?)script(?=[\t\n\f\r />])", re.I)
# The start tags that end foreign content, but for `font`
BREAKOUTS = frozenset(
    """b big blockquote body br center code dd div dl dt em embed h1 h2 h3 h4 h5 h6 head hr i img li listing menu meta nobr ol p
    pre ruby s small span strong strike sub sup table tt u ul var""".split()
)
SVG_POINTS = ("foreignobject", "desc", "title")
TEXT_POINTS = ("mi", "mo", "mn", "ms", "mtext")
HTML_ENCODINGS = ("text/html", "application/xhtml+xml")
RAW = ("title", "textarea", "style", "xmp", "iframe", "noembed", "noframes")
REFERENCE = re.compile(r"&(?:#([0-9]+);?|#[xX]([0-9A-Fa-f]+);?|([0-9A-Za-z]+;?))")
NAMED = html.entities.html5
LONGEST_NAME = max(map(len, NAMED))
# The code points that some numeric references give instead of their number
C1 = dict(zip(range(0x80, 0xA0), (
    0x20AC, 0x81, 0x201A, 0x192, 0x201E, 0x2026, 0x2020, 0x2021, 0x2C6, 0x2030, 0x160, 0x2039, 0x152, 0x8D, 0x17D, 0x8F,
    0x90, 0x2018, 0x2019, 0x201C, 0x201D, 0x2022, 0x2013, 0x2014, 0x2DC, 0x2122, 0x161, 0x203A, 0x153, 0x9D, 0x17E, 0x178,
)))


class Attribute(NamedTuple):
    name: str
    value: str  # with character references replaced
    raw: str  # as written
    at: int  # the position of the value


class Context(NamedTuple):
    """Where a tag is: in HTML content, in an element of SVG or MathML, or in XML."""

    kind: str = "html"  # or "svg", "math", "xml"
    points: int = 0  # the integration points around it
    nested: int = 0  # the other `svg` and `math` elements that are open in the element of SVG or MathML

    def of_tag(self, name: str) -> "Context":
        """The context of a start tag with this name."""
        is_graphic = self.kind in ("svg", "math")
        return Context("html", self.points) if is_graphic and name in BREAKOUTS else self

    def inside(self, tag: "Tag") -> "Context":
        """The context after a start tag whose own context is this one."""
        values = {attribute.name: attribute.raw.lower() for attribute in reversed(tag.attributes)}
        if tag.self_closing or self.kind == "xml":
            return self
        if self.kind == "html":
            return Context(tag.name, self.points) if tag.name in ("svg", "math") else self
        if tag.name == "font" and not values.keys().isdisjoint(("color", "face", "size")):
            return Context("html", self.points)
        is_point = tag.name in (SVG_POINTS if self.kind == "svg" else TEXT_POINTS)
        if self.kind == "math" and tag.name == "annotation-xml" and values.get("encoding") in HTML_ENCODINGS:
            is_point = True
        if is_point:
            return Context("html", min(self.points + 1, 255))
        return self._replace(nested=min(self.nested + 1, 255)) if tag.name in ("svg", "math") else self

    def after(self, name: str) -> "Context":
        """The context after an end tag with this name."""
        if self.kind == "html" and self.points:
            if name in SVG_POINTS:
                return Context("svg", self.points - 1)
            if name in TEXT_POINTS or name == "annotation-xml":
                return Context("math", self.points - 1)
        if self.kind in ("svg", "math") and name in ("svg", "math"):
            return self._replace(nested=self.nested - 1) if self.nested else Context("html", self.points)
        return self.of_tag(name)


class Tag(NamedTuple):
    name: str
    attributes: Tuple[Attribute, ...]
    context: Context = Context()
    self_closing: bool = False
    end: int = 0  # the position after the tag
    is_end: bool = False

    def closes_itself(self) -> bool:
        """Whether the tag closes its element."""
        return self.self_closing and self.context.kind != "html"

    def is_template(self) -> bool:
        """Whether the tag begins or ends template contents."""
        return self.name == "template" and self.context.kind in ("html", "xml") and not self.closes_itself()

    def is_shadow(self) -> bool:
        """Whether a template with these attributes becomes a shadow root. Character references are not read."""
        modes = [attribute.value.lower() for attribute in self.attributes if attribute.name == "shadowrootmode"]
        return modes[:1] in (["open"], ["closed"])


def lower(text: str) -> str:
    """The text with ASCII letters in lower case and U+FFFD for NUL."""
    if text.isalpha() and text.isascii():
        return text.lower()
    return re.sub("[A-Z]+", lambda run: run[0].lower(), text).replace("\0", "\ufffd")


def number_read(number: int) -> str:
    """The character of a numeric reference."""
    if number == 0 or number > 0x10FFFF or 0xD800 <= number < 0xE000:
        return "\ufffd"
    return chr(C1.get(number, number))


def name_read(text: str, following: str) -> str:
    """The text of `&` and a run of letters and digits in a value, if the text `following` is after the run."""
    for end in range(min(len(text), LONGEST_NAME), 0, -1):
        if text[:end] in NAMED:
            more = text[end:] + following
            if text[end - 1] != ";" and re.match("[=0-9A-Za-z]", more):
                break
            return NAMED[text[:end]] + text[end:]
    return "&" + text


def decoded(value: str) -> str:
    """A value with its character references replaced."""
    value = value.replace("\r\n", "\n").replace("\r", "\n").replace("\0", "\ufffd")

    def one(found: "re.Match[str]") -> str:
        if found[1]:
            return number_read(int(found[1]))
        if found[2]:
            return number_read(int(found[2], 16))
        return name_read(found[3], value[found.end():found.end() + 1])

    return REFERENCE.sub(one, value) if "&" in value else value


def attributes_from(text: str, at: int) -> Tuple[Tuple[Attribute, ...], bool, int]:
    """The attributes after a tag's name, whether the tag has a slash before its end, and the position after the tag.

    The position is after the text if the tag is cut off.
    """
    found: list[Attribute] = []
    cut = len(text) + 1
    while True:
        between = BETWEEN.match(text, at)
        assert between is not None
        at = between.end()
        if at >= len(text):
            return (), False, cut
        if text[at] == ">":
            return tuple(found), between[0].endswith("/"), at + 1
        name = ATTRIBUTE_NAME.match(text, at)
        assert name is not None
        end = SPACES.match(text, name.end()).end()  # type: ignore[union-attr]
        if text[end:end + 1] != "=":
            found.append(Attribute(lower(name[0]), "", "", name.end()))
            at = name.end()
            continue
        begin = SPACES.match(text, end + 1).end()  # type: ignore[union-attr]
        quote = text[begin:begin + 1]
        if quote in ("'", '"'):
            begin += 1
            at = text.find(quote, begin) + 1 or cut
            value = text[begin:at - 1]
        else:
            at = UNQUOTED.match(text, begin).end()  # type: ignore[union-attr]
            value = text[begin:at]
        found.append(Attribute(lower(name[0]), decoded(value), value, begin))


def script_end(text: str, at: int) -> int:
    """The position of a script's end tag, by the escaped states of the Standard, or after the text if there is none."""
    escaped = doubly = False
    while True:
        mark = SCRIPT_MARK.search(text, at)
        if mark is None:
            return len(text) + 1
        at = mark.end()
        if mark[0] == "<!--":
            # Its dashes may also be those of the end of a comment
            at = mark.end() - 2
            escaped = True
        elif mark[0] == "-->":
            escaped = doubly = False
        elif not escaped:
            if mark[1]:
                return mark.start()
        elif not doubly and mark[1]:
            return mark.start()
        elif doubly == bool(mark[1]):
            doubly = not mark[1]


def content_end(name: str, text: str, at: int) -> int:
    """The position at which markup resumes after a start tag with this name in HTML."""
    if name == "plaintext":
        return len(text) + 1
    if name == "script":
        return script_end(text, at)
    if name in RAW:
        end = re.compile(rf"</{name}(?=[\t\n\f\r />])", re.I).search(text, at)
        return end.start() if end else len(text) + 1
    return at


def after_text(name: str, text: str, at: int) -> int:
    """The position after an element in HTML whose content is text, or otherwise after its start tag."""
    end = content_end(name, text, at)
    if end == at and (name not in RAW and name != "script") or end > len(text):
        return end
    return attributes_from(text, end + 2 + len(name))[2]


def sheet_of(tag: Tag, text: str) -> str:
    """The style sheet in the element of a start tag of this text, which only a `style` has."""
    if tag.name != "style" or tag.closes_itself():
        return ""
    if tag.context.kind == "html":
        return text[tag.end:content_end(tag.name, text, tag.end)]
    return text[tag.end:].split("<")[0]


def page_tags(text: str, xml: bool = False) -> Iterator[Tag]:
    """The start tags of the page, in order: those that are not in the contents of a template."""
    inside = 0  # the number of templates that are open, from the first that is no shadow root
    for tag in document_tags(text, xml):
        if not inside and not tag.is_end:
            yield tag
        if tag.is_template():
            if tag.is_end:
                inside = max(inside - 1, 0)
            elif inside or not tag.is_shadow():
                inside += 1


def document_tags(text: str, xml: bool = False) -> Iterator[Tag]:
    """The start tags of a document and the end tags of templates, in order."""
    at = 0
    context = Context("xml") if xml else Context()
    while True:
        at = text.find("<", at) + 1
        if not at:
            return
        begins = text[at:at + 1]
        if begins == "/" and context == Context():
            plain = PLAIN_END.match(text, at)
            if plain:
                at = plain.end()
                continue
        if text.startswith("!--", at):
            end = COMMENT_END.match(text, at + 3)
            if end is None:
                return
            at = end.end()
        elif begins in LETTERS or text[at + 1:at + 2] in LETTERS and begins == "/":
            written = NAME.match(text, at + (begins == "/"))
            assert written is not None
            name = lower(written[0])
            found, self_closing, at = attributes_from(text, written.end())
            if at > len(text):
                return
            if begins == "/":
                if name == "template":
                    yield Tag(name, (), context, is_end=True)
                context = context.after(name)
                continue
            context = context.of_tag(name)
            tag = Tag(name, found, context, self_closing, at)
            yield tag
            if context.kind == "html":
                at = after_text(name, text, at)
                if at > len(text):
                    return
            context = context.inside(tag)
        elif context.kind != "html" and text.startswith("![CDATA[", at):
            at = text.find("]]>", at + 8) + 3
            if at < 3:
                return
        elif begins in ("!", "?") or begins == "/" and at + 1 < len(text):
            # A comment without dashes, or a DOCTYPE; `</>` is nothing
            at = text.find(">", at) + 1
            if not at:
                return
