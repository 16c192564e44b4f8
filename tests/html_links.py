#!/usr/bin/env python3
"""Compare the links that crates/html_links reads in random documents with those of an independent model.

Usage: html_links.py [COUNT [SEED]]
COUNT is the number of documents [default: 2000], SEED the seed of the random choices [default: 1].

Documents with balanced SVG and MathML are compared with the elements of html5lib's tree, too. All of these documents are
also read as XML, and compared with the tokenizer of tests/checking/tags.py.

The program reads each document a second time, until it has half of the links. If they are not the first ones, the document
fails.

The script makes a small program with a copy of `crates/html_links` in a temporary folder, and runs it by `rt try`. The
model reads a document with html5lib's tokenizer (Debian's python3-html5lib), a refresh by the steps of the HTML
Standard, and other values with the patterns of tests/checking/converter.py. All names of character references are compared
with Python's table, with and without `;`, and followed by a digit, `=`, other characters, or nothing.

The last line is `N passed, M failed`; the exit status is 1 if any failed.
"""

from __future__ import annotations

import html.entities
import importlib.util
import pathlib
import random
import re
import shutil
import subprocess
import sys
import tempfile
from typing import Any, Iterator, Optional

import html5lib
from html5lib import _tokenizer
from html5lib.constants import namespaces, tokenTypes

from checking import sheets
from checking.documents import read_tags
from checking.tags import Attribute, Context, Tag

TOP = pathlib.Path(__file__).resolve().parents[1]
BETWEEN = "\x1d"  # ends a document, and the links of a document
AFTER = "\x1e"  # ends a link
IN_XML = "\x1c"  # begins a document that is read as XML, without styles

TAGS = """a area audio body embed frame image img input link object source table td th track use video base meta p div
svg math option br a img link meta a img source template template input button iframe param param meta tr thead tbody tfoot""".split()
TEXT_TAGS = "script style title textarea xmp iframe noembed noframes plaintext".split()
OWN = {
    "a": "href xlink:href", "img": "src srcset longdesc", "source": "src srcset", "link": "href imagesrcset rel",
    "input": "type src formaction", "button": "type formaction", "iframe": "src longdesc srcdoc srcdoc", "param": "name value",
    "meta": "http-equiv content property name", "video": "src poster", "object": "data", "area": "href", "use": "href",
    **dict.fromkeys("td tr thead tbody tfoot".split(), "background"),
    "template": "shadowrootmode", "font": "color size id", "annotation-xml": "encoding href",
    **dict.fromkeys("svg math g desc foreignObject mi".split(), "href xlink:href"),
}
# Elements of SVG and MathML, and of HTML in them: names, and names of what they may have
CHILDREN = {
    "svg": "g desc title foreignObject style script a textarea use font", "g": "g title a use", "a": "use", "font": "",
    "math": "mi mtext annotation-xml mrow style", "mrow": "mi mtext textarea", "mi": "a i title", "mtext": "svg p",
    "annotation-xml": "textarea a", "desc": "p title a b", "title": "a b", "foreignObject": "div p textarea svg math iframe",
    "div": "p svg", "p": "a b svg math", "style": "a", "script": "a", "textarea": "a", "use": "", "b": "a", "i": "a", "iframe": "a",
}
VALUES = [
    "x", "a b", "../y?q=1&r=2", "", " \t pad \n", "&amp;", "&amp", "&ampx", "&amp=1", "&copy=1", "&copy;", "&copyx", "&notit;",
    "&notin;", "&#65;", "&#x41", "&#X41;z", "&#0;", "&#128;", "&#x9f;", "&#xD800;", "&#x110000;", "&#99999999999;", "&#;", "&#x;",
    "&", "&;", "&#", "&#x", "&CounterClockwiseContourIntegral;", "&frac12", "&there4;", "&bne;", "&acE;", "&nosuch;", "&lt&gt;",
    "&#1;", "&#xFFFE;", "a.png 1x, b.png 2x", "a.png, b.png,, c.png 3w,", "a(,b) 2x, c (d, e) f, g", ",,,", "a,b c,d",
    "0; url=n.html", "5;URL='q.html'", " 3 r.html", '1,"s.html', "0;url = t.html", " 5x", ".;v", "refresh", "REFRESH",
    "preconnect", "DNS-Prefetch icon", " DNS-Prefetch \n preconnect", "open", "Closed",
    "image", "IMAGE", "submit", "reset", "&#98;utton", "text", "movie", "Data", "og:image", "og:image:url", "OG:image",
    "<a href=in>", "<a href=in&amp;amp;>&lt;img src=#in srcset=#in,x style=a:url(no)>", "<base><a href=in><base href=b/><a href=no>",
    "<title><a href=no></title><svg><a href=in><template><a href=no>", "<iframe src=in srcdoc=no></iframe><style>a{b:url(no)}</style><meta content=1;in http-equiv=refresh>",
    "twitter:player", "og:&#117;rl", "text/html", "Application/XHTML+xml", "\u00fc?\u00fc", "\u20ac", "\0",
]
PIECES = [
    "<", "<<", ">", "</", "</>", "</ >", "</3>", "<?", "<!", "<!>", "<!DOCTYPE html>", "<!doctype html PUBLIC \">\" '>'>",
    "<![CDATA[ <a href=cdata> ]]>", "<![CDATA[]]]>", "<![cdata[ <a href=bogus> ]]>", "]]>", "<svg>", "</svg>", "<math>", "</math>",
    "<desc>", "</desc>", "<mi>", "</mi>", "<annotation-xml>", "</annotation-xml>", "</foreignObject>", "<svg><title>", "<br/>", "<b>", "</b>", "<!-- c -->", "<!-- a <!-- b --> c -->", "<!-->", "<!--->", "<!-- x --!>", "<!-- x -- >", "<!--",
    "<!---->", "<!-----x-->", "<!--!>", "--!>", "-->", "--", "-", "!", "&", "\n", "\f", "\0", "'", '"', "=", "/", "</p>",
    "</a href='>'>", "</script>", "</style>", "</title>", "</script >", "</ script>", "</SCRIPT\n>", "</scripty>", "</script",
    "<!--<script>", "<script>", "<script ", "<script/>", "<style/>", "<title/>", "script", "a", "href=", "src=x",
    "<style>p{background:url(s.png)}</style>", "<textarea><a href=in></textarea>", "<template>", "</template>", "</Template >",
]
PROGRAM = """//! Prints the links of the documents in a file.
#![tactic(auto)]

ghost use Rattle.std.specs.Prelude.{map};

use html_links::{CountedLinks, Links, Syntax, read_places};
use std::alloc::{AllocError, Global};
use std::io::Write;
use std::{fs, io};

#[derive(Drop)]
struct Texts(Global, Vec<(usize, Vec<u8>)>);

impl Links for Texts {
    ghost texts = { λ all. map (λ link. link.1.items) all.1.items };

    ghost positions = { λ all. map (λ link. link.0) all.1.items };

    fn push(&mut self, position: usize, text: &[u8]) -> Result<(), AllocError> {
        self.1.push((position, Vec::from_slice(self.0, text)?))?;
        Ok(())
    }
}

impl CountedLinks for Texts {
    fn count(&self) -> usize {
        self.1.len()
    }
}

/// Whether the first `count` texts are the same.
fn begin_same(some: &Texts, all: &Texts, count: usize) -> bool {
    for (a, b) in some.1.iter().zip(&all.1).take(count) {
        if a.0 != b.0 || a.1.as_slice() != b.1.as_slice() {
            return false;
        }
    }
    some.1.len() >= count
}

fn main(rt: HostRuntime) -> io::Result<()> {
    let documents = fs::read(&rt, "documents")?;
    let mut all = Vec::new(rt.alloc());
    for document in documents.as_slice().split(|byte| *byte == 0x1d) {
        let in_xml = document.starts_with(b"\\x1c");
        let syntax = if in_xml { Syntax::Xhtml } else { Syntax::Html };
        let mut texts = Texts(rt.alloc(), Vec::new(rt.alloc()));
        read_places(rt.alloc(), syntax, document, !in_xml, None, &mut texts)?;
        let half = texts.1.len() / 2;
        let mut first = Texts(rt.alloc(), Vec::new(rt.alloc()));
        read_places(rt.alloc(), syntax, document, !in_xml, Some(half), &mut first)?;
        if !begin_same(&first, &texts, half) {
            all.extend_from_slice(b"other first links\\x1e")?;
        }
        for link in &texts.1 {
            all.extend_from_slice(link.1.as_slice())?;
            all.extend_from_slice(b"\\x1e")?;
        }
        all.extend_from_slice(b"\\x1d")?;
    }
    io::writer(&rt).write_all(all.as_slice())
}
"""


# The pieces of a style sheet: an escape, a text in quotes, a URL without them, a name, a comment
ESCAPE = r"\\(?:[0-9A-Fa-f]{1,6}(?:\r\n|[\t\n\f\r ])?|\r\n|[^0-9A-Fa-f]|\Z)"
STRING = re.compile(rf"'((?:{ESCAPE}|[^'\\\n\f\r])*)('|\Z)?|\"((?:{ESCAPE}|[^\"\\\n\f\r])*)(\"|\Z)?", re.S)
PLAIN = re.compile(rf"(?:{ESCAPE}|[^\t-\r \"'()\\])+", re.S)
WORD = re.compile(rf"(?:{ESCAPE}|[A-Za-z0-9_@#\x80-\U0010ffff-])+", re.S)
COMMENT = re.compile(r"/\*.*?(?:\*/|\Z)", re.S)
URL = re.compile(r"url\([\t-\r ]*", re.I)
IMPORT = re.compile(r"@import", re.I)

REFRESH = re.compile(r"[\t\n\f\r ]*[0-9.]+(?=[;,\t\n\f\r ])[\t\n\f\r ]*[;,]?[\t\n\f\r ]*(.*)", re.DOTALL)


def text_at(style: str, at: int) -> tuple[Optional[str], int]:
    """Return the text in quotes at a position, or None if there is none or its line ends in it; and where it ends."""
    found = STRING.match(style, at)
    if found is None:
        return None, at
    value, end = found.group(1, 2) if found[1] is not None else found.group(3, 4)
    return None if end is None else value, found.end()


def url_at(style: str, at: int) -> tuple[Optional[str], int]:
    """Return the URL after a `url(` and white space, with or without quotes, and where it ends."""
    text, end = text_at(style, at)
    plain = PLAIN.match(style, at)
    if text is None and plain is not None:
        return plain[0], plain.end()
    return text, end


def decoded(text: str) -> str:
    """Return the text of a URL with its escapes decoded."""
    is_odd = (len(text) - len(text.rstrip("\\"))) % 2 == 1
    return sheets.unescaped(text[:-1] if is_odd else text)


def links_of_style(style: str) -> list[str]:
    """Return the texts of `url()` and `@import` in a style sheet, by patterns of its pieces."""
    links, at, imports = [], 0, False
    while at < len(style):
        url = URL.match(style, at)
        found, end = url_at(style, url.end()) if url else text_at(style, at) if imports else (None, at)
        if found is not None:
            links.append(decoded(found))
            at, imports = end, False
            continue
        comment, text, word = COMMENT.match(style, at), STRING.match(style, at), WORD.match(style, at)
        if comment is not None:
            at = comment.end()
        elif text is not None:
            at, imports = text.end(), False
        elif IMPORT.match(style, at):
            at, imports = at + len("@import"), True
        else:
            imports = imports and style[at] in "\t\n\v\f\r "
            at = word.end() if word is not None else at + 1
    return links


def load_tool() -> Any:
    """Return tests/checking/converter.py as a module."""
    spec = importlib.util.spec_from_file_location("converter", TOP / "tests/checking/converter.py")
    assert spec is not None and spec.loader is not None
    tool = importlib.util.module_from_spec(spec)
    spec.loader.exec_module(tool)
    return tool


TOOL = load_tool()


class Node:
    """The one element that html5lib's tokenizer sees as open: it decides whether there are CDATA sections."""

    namespace = namespaces["html"]


class Parser:
    """What html5lib's tokenizer reads of its parser."""

    def __init__(self) -> None:
        self.tree = self
        self.defaultNamespace = namespaces["html"]
        self.openElements = [Node()]

    def set_foreign(self, is_foreign: bool) -> None:
        """Make the element one of HTML or of SVG."""
        self.openElements[0].namespace = namespaces["svg" if is_foreign else "html"]


def tokens_of(text: str) -> Iterator[tuple[dict[str, Any], Context]]:
    """Yield the tokens of html5lib's tokenizer, each with its context."""
    parser, context = Parser(), Context()
    tokens = _tokenizer.HTMLTokenizer(text, parser)
    has_text = False  # whether the content of the last start tag's element is text
    for token in tokens:
        name = token.get("name", "")
        if token["type"] == tokenTypes["StartTag"]:
            context = context.of_tag(name)
        yield token, context
        if token["type"] == tokenTypes["StartTag"]:
            has_text = context.kind == "html" and set_state(name, tokens)
            context = context.inside(tag_of(token))
        elif token["type"] == tokenTypes["EndTag"]:
            context = context if has_text else context.after(name)
            has_text = False
        parser.set_foreign(context.kind != "html")


class Reader(TOOL.LinkReader):  # type: ignore[misc, name-defined]
    """The link reader of the converter, with html5lib's tokens."""

    links: list[str]
    in_style: Optional[str]

    def read(self, text: str) -> list[str]:
        """Return the links of a document."""
        self.in_style = None
        context = Context()
        inside = 0  # the number of open templates, from the first that is no shadow root
        for token, context in tokens_of(text):
            name = token.get("name", "")
            if token["type"] in (tokenTypes["StartTag"], tokenTypes["EndTag"], tokenTypes["Comment"]):
                self.end_style(context)
            if token["type"] == tokenTypes["StartTag"]:
                found = dict(reversed(token["data"].items()))
                if not inside:
                    self.read_in(context, token, found)
                if name == "template" and context.kind == "html" and (inside or not is_shadow(found)):
                    inside += 1
            elif token["type"] == tokenTypes["EndTag"]:
                inside = max(0, inside - (name == "template" and context.kind == "html"))
            elif token["type"] in (tokenTypes["Characters"], tokenTypes["SpaceCharacters"]) and self.in_style is not None:
                self.in_style += token["data"]
        self.end_style(context)
        return self.links

    def read_in(self, context: Context, token: dict[str, Any], found: dict[str, str]) -> None:
        """Add the links of a start tag in a context."""
        if context.kind == "html":
            self.read_tag(token["name"], found)
            return
        if "style" in found:
            self.links += links_of_style(found["style"])
        if token["name"] != "font":
            self.read_links(("href", "xlink:href"), found)
        self.in_style = "" if token["name"] == "style" and not token["selfClosing"] else None

    def end_style(self, context: Context) -> None:
        """Add the links of a style element that ends; one of SVG ends at its first `<`."""
        if self.in_style is not None:
            self.flush(self.in_style.split("<")[0] if context.kind != "html" else self.in_style)
        self.in_style = None

    def flush(self, style: Optional[str]) -> None:
        """Add the links of a style element."""
        if style:
            self.links += links_of_style(style)

    def read_refresh(self, found: dict[str, str]) -> None:
        """Add the target of a refresh, by the steps of the HTML Standard."""
        time = REFRESH.match(found.get("content", ""))
        if time:
            target = re.sub(r"\A[uU][rR][lL][\t\n\f\r ]*=[\t\n\f\r ]*", "", time[1])
            if target[:1] in ("'", '"'):
                target = target[1:].split(target[0])[0]
            self.links += [target] if target else []

    def read_tag(self, tag: str, found: dict[str, str], is_foreign: bool = False) -> None:
        """Add the links of a start tag."""
        if "style" in found:
            self.links += links_of_style(found["style"])
        if tag == "meta" and found.get("http-equiv", "").lower() == "refresh":
            self.read_refresh(found)
        elif tag in TOOL.LINKS:
            self.read_links(tuple(name for name in TOOL.LINKS[tag] if name != "srcdoc" and TOOL.is_link(tag, name, found)), found)
        if tag == "iframe" and "srcdoc" in found:
            self.links += SrcdocReader(False).read(found["srcdoc"])
        self.in_style = "" if tag == "style" else None


class SrcdocReader(Reader):
    """The link reader of a document in a `srcdoc`: up to a `base`, without styles, further documents, and links to its own anchors."""

    has_base = False

    def read_in(self, context: Context, token: dict[str, Any], found: dict[str, str]) -> None:
        """Add the links of a start tag in a context."""
        self.has_base = self.has_base or context.kind == "html" and token["name"] == "base" and "href" in found
        if not self.has_base:
            super().read_in(context, token, {name: value for name, value in found.items() if name not in ("style", "srcdoc")})

    def read_links(self, names: tuple[str, ...], found: dict[str, str]) -> None:
        """Add the links of the attributes with these names."""
        super().read_links(tuple(name for name in names if name.endswith("srcset") or not found.get(name, "").startswith("#")), found)

    def flush(self, style: Optional[str]) -> None:
        """Add nothing for a style element."""


def is_shadow(found: dict[str, str]) -> bool:
    """Return whether a template with these attributes becomes a shadow root."""
    return found.get("shadowrootmode", "").lower() in ("open", "closed")


def tag_of(token: dict[str, Any]) -> Tag:
    """Return a start tag of html5lib's tokenizer. Its character references are decoded."""
    values = reversed(token["data"].items())
    return Tag(token["name"], tuple(Attribute(name, value, value, 0) for name, value in values), self_closing=token["selfClosing"])


def set_state(tag: str, tokens: Any) -> bool:
    """Set the state of the tokenizer after a start tag, and return whether text follows."""
    if tag in ("title", "textarea"):
        tokens.state = tokens.rcdataState
    elif tag in ("style", "xmp", "iframe", "noembed", "noframes"):
        tokens.state = tokens.rawtextState
    elif tag == "script":
        tokens.state = tokens.scriptDataState
    elif tag == "plaintext":
        tokens.state = tokens.plaintextState
    else:
        return False
    return True


def random_tag(draw: random.Random) -> str:
    """Return a random start tag, sometimes broken."""
    is_text = draw.random() < 0.08
    name = draw.choice(TEXT_TAGS if is_text else TAGS)
    text = "<" + (name.upper() if draw.random() < 0.1 else name)
    for _ in range(draw.choice([0, 1, 1, 2, 3])):
        own = draw.choice(OWN.get(name, "src").split() + ["style", "class"])
        quote = draw.choice(['"', "'", ""])
        value = draw.choice(VALUES).replace(quote or "\1", "")
        equals = draw.choice(["=", "=", "=", " = ", "==", "=\n"])
        end = quote if draw.random() < 0.97 else ""
        text += draw.choice([" ", " ", "\n", "/", "", "\f"]) + own + equals + quote + value + end
    text += draw.choice([">"] * 12 + ["/>", " >", ""])
    if is_text and draw.random() < 0.8:
        text += draw.choice(["x", "<a href=in>", "<!-- y", "<!--<script>", "<!--<script></script>-->"])
        text += draw.choice(["", f"</{name}x>", "<"]) + f"</{name}>"
    return text


def random_element(draw: random.Random, name: str, depth: int) -> str:
    """Return a random element with its content and its end tag."""
    text = f"<{name}"
    if name not in ("svg", "math", "script", "style"):
        text += draw.choice(["", "", ' href="x"', " xlink:href='y'", " href=z xlink:href=w"])
    if name == "annotation-xml":
        text += draw.choice(["", " encoding='text/html'", " encoding=TEXT/HTML", " encoding=text/xml"])
    if draw.random() < 0.1 and name in ("svg", "math"):
        return text + " />"
    inner = CHILDREN[name].split() if depth else []
    names = [draw.choice(inner) for _ in range(draw.choice([0, 1, 1, 2, 3]))] if inner else []
    return text + ">" + draw.choice(["", "t", "<!-- c -->"]) + "".join(random_element(draw, one, depth - 1) for one in names) + f"</{name}>"


def random_foreign(draw: random.Random) -> str:
    """Return a random document with balanced SVG and MathML, between elements whose content is text."""
    parts = []
    for _ in range(draw.randint(1, 4)):
        parts.append(random_element(draw, draw.choice(["svg", "math", "svg", "p", "div"]), draw.randint(1, 6)))
        parts.append(draw.choice(["", "<textarea><a href=no></textarea>", "<svg><p><title><a href=no></title></svg>", "<svg><style><a href=s></style></svg>"]))
        parts.append(draw.choice(["", "<svg><![CDATA[<a href=no>]]></svg>", "<p><![CDATA[<a href=bogus>]]>", "<svg><font color=x><title><a href=no></title></svg>"]))
    return "<!DOCTYPE html><body>" + "".join(parts)


def tree_links(text: str) -> list[str]:
    """Return the links of `href` and `xlink:href` in a document, by html5lib's tree."""
    links = []
    for node in html5lib.parse(text).iter():
        if not isinstance(node.tag, str):
            continue
        namespace, name = node.tag[1:].split("}")
        if namespace != namespaces["html"] and name != "font" or name in ("a", "use"):
            values = (node.get("href"), node.get("xlink:href") or node.get("{http://www.w3.org/1999/xlink}href"))
            links += [value for value in values if value is not None]
    return links


def random_style(draw: random.Random) -> str:
    """Return a random style sheet in an element or an attribute."""
    words = ["@import", "@IMPORT ", "@imports ", "url(", "URL( ", "'", '"', "a", "b.css", ")", "/*", "*/", "/", "*", " ", "\n", "\v", ";", "\\", "\\", "\\31", "\r\n", "-"]
    text = "".join(draw.choice(words) for _ in range(draw.randint(1, 20)))
    return f"<style>{text}</style>" if draw.random() < 0.5 else "<p style=\"{}\">".format(text.replace('"', "&quot;"))


def random_document(draw: random.Random, wild: bool) -> str:
    """Return a random document; a wild one has broken markup everywhere."""
    parts = []
    for _ in range(draw.randint(1, 40 if wild else 12)):
        parts.append(draw.choice(PIECES) if draw.random() < (0.8 if wild else 0.2) else random_tag(draw))
        parts.append(random_style(draw) if draw.random() < 0.1 else draw.choice(["", "", " ", "text"]))
    return "".join(parts).replace("\r", "")


def xml_links(text: str) -> list[str]:
    """Return the links of a document in XML."""
    return [link.text for link in read_tags(text, xml=True)[0]]


def named_values() -> list[tuple[str, str]]:
    """Return values with each name of Python's table, and with unknown names, and the decoded texts."""
    table = html.entities.html5
    rows = []
    for name in table:
        for behind in ("", "=", "1", ";", "-"):
            value = name + behind
            run = re.split("[^0-9A-Za-z]", value, maxsplit=1)[0]
            rest = value[len(run):]
            if run + ";" in table and rest.startswith(";"):
                rows.append(("&" + value, table[run + ";"] + rest[1:]))
            elif run in table and not rest.startswith("="):
                rows.append(("&" + value, table[run] + rest))
            else:
                rows.append(("&" + value, "&" + value))
        part = name[1:].rstrip(";") + ";"
        rows.append(("&" + part, table.get(part, "&" + part)))
    return [row for row in rows if not row[0].startswith(("&;", "&#"))]


def crate_links(documents: list[str]) -> list[str]:
    """Return the links that the crate reads in each document."""
    with tempfile.TemporaryDirectory() as folder:
        top = pathlib.Path(folder)
        shutil.copytree(TOP / "crates/html_links", top / "crates/html_links", ignore=shutil.ignore_patterns("out"))
        (top / "crates/random_links/src").mkdir(parents=True)
        (top / "crates/random_links/src/main.rt").write_text(PROGRAM)
        (top / "documents").write_text(BETWEEN.join(documents))
        (top / "crates.txt").write_text("html_links: memchr\ndrawn_links: html_links\n")
        subprocess.run(["git", "init", "-q", folder], check=True)
        command = ["rt", "try", "--steps", "2000000000", "--seconds", "600", "--data", f"documents={top / 'documents'}"]
        run = subprocess.run(command, cwd=top / "crates/random_links", capture_output=True, check=False)
        if not run.stdout:
            sys.exit(run.stderr.decode(errors="replace"))
        return run.stdout.decode(errors="replace").split(BETWEEN)


def main() -> int:
    """Compare random documents, and print the shortest differences."""
    arguments = sys.argv[1:]
    count, seed = int(arguments[0]) if arguments else 2000, int(arguments[1]) if len(arguments) > 1 else 1
    draw = random.Random(seed)
    documents = [random_document(draw, number % 2 == 1) for number in range(count)]
    foreign = [random_foreign(draw) for _ in range(count)]
    rows = named_values()
    expected = ["".join(link + AFTER for link in Reader(True).read(document)) for document in documents]
    expected += ["".join(link + AFTER for link in tree_links(document)) for document in foreign]
    expected += ["".join(link + AFTER for link in xml_links(document)) for document in documents + foreign]
    expected += [text + AFTER for _, text in rows]
    documents += foreign + [IN_XML + document for document in documents + foreign] + [f'<a href="{value}">' for value, _ in rows]
    given = crate_links(documents)
    count = len(documents)
    passed, failed = 0, []
    for document, wanted, links in zip(documents, expected, given):
        if links == wanted:
            passed += 1
        else:
            failed.append((document, wanted, links))
    missing = count - passed - len(failed)
    for document, wanted, links in sorted(failed, key=lambda row: len(row[0]))[:5]:
        print(f"document {document!r}\n  expected {wanted!r}\n  crate    {links!r}")
    print(f"{passed} passed, {len(failed) + missing} failed")
    return 1 if failed or missing else 0


if __name__ == "__main__":
    sys.exit(main())
