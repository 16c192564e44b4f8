"""Small folders with known results, which were found by hand."""

from __future__ import annotations

from typing import Any, Dict, List, NamedTuple, Optional, Tuple, Union

from checking.documents import known_schemes
from checking.model import HOSTS, LEADS_NOWHERE, LEADS_OUT, NO_INDEX_FILE, NOWHERE


class To(NamedTuple):
    """A symbolic link to a path."""

    path: str


class Zeros(NamedTuple):
    """A file of this number of zeros, which takes no room on the disk."""

    size: int


class Known(NamedTuple):
    """A folder with its results."""

    name: str
    files: Dict[str, Union[str, bytes, To, Zeros]]
    # The broken, invalid and leaving links: TARGET FILE:LINE:COLUMN, or only TARGET if no link leads to it; an anchor has a `#`
    broken: List[str]
    rows: Tuple[Dict[str, Any], ...] = ()  # some members of some rows
    settings: Tuple[Tuple[str, Any], ...] = ()  # some settings of the check
    without: Tuple[str, ...] = ()  # the kinds of rows that there are not


def total(pages: int, links: int, redirects: int, aliases: int, files: int = 0) -> Tuple[Dict[str, Any]]:
    """The row of totals."""
    return ({"kind": "total", "pages": pages, "files": files, "links": links, "redirects": redirects, "aliases": aliases},)


def unreached(*names: str) -> Tuple[Dict[str, Any], ...]:
    """The rows of unreached files."""
    return tuple({"kind": "unreached", "name": name} for name in names)


def unlisted(*names: str) -> Tuple[Dict[str, Any], ...]:
    """The rows of documents that no sitemap lists."""
    return tuple({"kind": "unlisted", "name": name} for name in names)


def error(text: str) -> Tuple[Dict[str, Any]]:
    """The error of a check that does not start."""
    return ({"kind": "error", "message": f"mercator: {text}"},)


INDICES = (("indices", ("home.html", "index.htm")),)
NO_FOLDER = "BASE: must be the http or https URL of a folder, without a query, such as https://example.org/docs/"
FALLBACK = (("fallback", True),)
FOLLOW = (("follow", True),)
LONG = "/".join(["%" * 200] * 8)  # a path with 1,607 bytes, and 4,807 in a URL
ALMOST_LONG = 5 * ("\u00fc" * 127 + "/") + "\u00fc" * 43  # a path with 4,073 bytes in a URL
LONGEST = 2013 * "\u00fc"  # a path of 4,026 bytes, which below the 65 bytes of the path of a top without BASE just fits in the line of a link
NO_BASE = (("base", NOWHERE), ("front", NOWHERE), ("external", True))
NO_STYLES = (("styles", False),)
# A site with documents that the top does not lead to. Two of them lead to each other
ORPHANS: Dict[str, Union[str, bytes, To, Zeros]] = {
    "index.html": "<a href=a.html>", "a.html": "", "404.html": "<a href=gone>", "d/b.html": "<a href=c.html>",
    "d/c.html": "<a href=b.html#y>", "d/x.htm": "<a href=../none><a href=../a.html>", "y.png": "",
}


def hint(target: str, text: Optional[str]) -> Tuple[Dict[str, Any]]:
    """The row of a missing page with this hint."""
    return ({"kind": "broken", "target": target, "hint": text},)


# Missing pages that symbolic links are on the way to, and the hint of each
SKIPPED_LINKS: Dict[str, Optional[str]] = {
    "a": LEADS_OUT, "a/": LEADS_OUT, "a/gone": LEADS_OUT, "d/a/in.html": LEADS_OUT, "d//a?q": LEADS_OUT, "v/a/in.html": LEADS_OUT, "s.js": LEADS_OUT, "%73.js?q": LEADS_OUT,
    "s.js/x": LEADS_OUT, "gone.html": LEADS_NOWHERE, "gone/x/y": LEADS_NOWHERE, "itself": LEADS_NOWHERE, "deep/gone": LEADS_NOWHERE, "deep/a/x": LEADS_NOWHERE, "null": None,
    "in.html/x": None, "b": "b.html exists: --fallback html", "ab": None, "A": None,
}
SKIPPED: Dict[str, Union[str, bytes, To, Zeros]] = {
    "index.html": "\n".join(f"<a href={link}>" for link in SKIPPED_LINKS), "a": To("../site2"), "a.html": "", "gone.html": To("none"), "gone": To("none/x"),
    "d/a": To("../../site2"), "v": To("d"), "s.js": To("../out.js"), "itself": To("itself"), "deep": To("index.html/x"), "null": To("/dev/null"), "in.html": To("b.html"), "b.html": "",
    "../site2/in.html": "", "../out.js": "",
}


# Links to folders without an index file, and to no folders, with the target of each
FOLDERS = {
    "d": "d/", "d/?q": "d/?q", "d/e/": "d/e/", "%C3%BC d": "%C3%BC%20d/", "d//e//": "d//e//", "l/": "l/", "l/e/": "l/e/", "D/": "D/", "f/": "f/", "d/f/": "d/f/", "d.html/": "d.html/",
    "d/e/a.png/": "d/e/a.png/", "o/": "o/",
}


# Missing pages, and the page that is suggested for each
SUGGESTED: Dict[str, Optional[str]] = {
    "old/a.html": "n/a.html", "b.html": None, "c.html?x": "n/c.html", "gone.html": None, "n/": None, "x/sub": None, "N/A.html": "n/a.html", "c.HTML?x": "n/c.html",
    "img/LOGO.png": "img/logo.png", "M/B.html": "m/b.html", "x/B.html": None, "N/b.html?x": "n/b.html", "x/readme.html": "o/readme.html", "x/README.html": "README.html", "Readme.html": "README.html", "x/Sub": None, "x/index.html": None,
    "x/Index.html": None, "x/INDEX.htm": "o/index.htm", "%C3%BC.html": None, "x/%c3%9c.HTML": "%C3%9C.html", "x/e.HTML/": "e.html", "Q/": "q/", "x/q/": "q/", "x/q/?y": "q/", "Q": "q/", "x/Q.HTML": None,
    "T/": "t/", "T": None, "T/U/": "t/u/", "x/U": "t/u/", "w/t": None, "p/t/": None, "P/T": "p/t", "X/T": None, "v/": "o/v",
}
NAMESAKES: Dict[str, Union[str, bytes, To, Zeros]] = {
    "index.html": "\n".join(f"<a href={link}>" for link in SUGGESTED),
    **{name: "" for name in "n/a.html m/b.html n/b.html n/c.html sub/x.png img/logo.png README.html o/readme.html q/index.html o/index.htm \u00dc.html e.html t/index.html t/u/index.html p/t o/v".split()},
}


# Missing pages, and the page in another form that is suggested for each
OTHER_FORMS: Dict[str, Optional[str]] = {
    "guide/use.html": "guide/use/", "a/": "a.html", "b.html": None, "b/": None, "x/index.html": "x/index/", "c.html?q": "c/", "d/?y": "d.html", "n/f.html": "o/f.html", "f.html/": "o/f.html",
    "use.htm": None, "guide/Use.html": None, "h.html": "h/", "g.html": None,
}
FORMS_OF_PAGES: Dict[str, Union[str, bytes, To, Zeros]] = {
    "index.html": "\n".join(f"<a href={link}>" for link in OTHER_FORMS), "b/x.png": "", "g/index.html": "<a href=../g.html>", "o/h.html": "<a href=../h.html>",
    **{name: "" for name in "guide/use/index.html a.html x/index/index.html c/index.html d.html o/f.html n/f/index.html use/index.html h/index.html".split()},
}


def suggestion(target: str, page: Optional[str]) -> Tuple[Dict[str, Any]]:
    """The row of a missing page with this suggestion."""
    return ({"kind": "broken", "target": target, "same_name": page},)


def written(target: str, text: Optional[str]) -> Tuple[Dict[str, Any]]:
    """The row of a location of a target with this text of the link."""
    return ({"target": target, "written": text},)


def host(name: str) -> Tuple[Tuple[str, Any], ...]:
    """The settings for the rules of a host."""
    return (("host", name), *HOSTS[name].items())


def anchors(name: str, ids: str, links: str, broken: List[str]) -> Known:
    """A page a.html with these elements, and an index file with each of these links on its own line."""
    lines = "".join(f'<a href="a.html{link}">\n' for link in links.split(" "))
    return Known(name, {"index.html": lines, "a.html": ids}, broken)


KNOWN = [
    Known("a BASE that is the URL of an index file", {"index.html": ""}, [], error(NO_FOLDER), settings=(("base", "http://docs.test/a/index.htm"),)),
    Known("a BASE that is the URL of an index file by the options", {"index.html": ""}, [], error(NO_FOLDER), settings=(("base", "http://docs.test/home.html"), *INDICES)),
    Known(
        "a BASE that is the URL of no index file by the options", {"home.html": "<a href=gone>"}, ["index.html/gone home.html:1:9"],
        settings=(("base", "http://docs.test/index.html/"), *INDICES),
    ),
    Known("a BASE whose host has the name of an index file", {"index.html": "<a href=gone>"}, ["http://index.html/gone index.html:1:9"], settings=(("base", "http://index.html/"),)),
    Known("a missing page", {"index.html": "<p>\n <a href='gone.html'>"}, ["gone.html index.html:2:11"]),
    Known("two links to one page", {"index.html": "<a href=x><img src=x>"}, ["x index.html:1:9", "x index.html:1:20"]),
    Known("columns are characters", {"index.html": "\u00fc\u65e5\U0001f514<a href=x>"}, ["x index.html:1:12"]),
    Known("spaces before a value", {"index.html": "<a href =\n 'x'>"}, ["x index.html:2:3"]),
    Known("all links of a srcset", {"index.html": "<img srcset='x 1x, y 2x'>"}, ["x index.html:1:14", "y index.html:1:14"]),
    Known("the first of two attributes with one name", {"index.html": "<a href=x href=y>"}, ["x index.html:1:9"]),
    Known("no links in a comment", {"index.html": "<!-- <a href=x> --!><a href=y><!--><a href=z>"}, ["y index.html:1:29", "z index.html:1:44"]),
    Known("no links in a script", {"index.html": "<script>'<a href=x>'</script><a href=y>"}, ["y index.html:1:38"]),
    Known("an escaped script", {"index.html": "<script><!--<script></script><a href=x>--></script><a href=y>"}, ["y index.html:1:60"]),
    Known("character references", {"index.html": "<a href='x&amp;y&copy=1'>"}, ["x&y&copy=1 index.html:1:10"]),
    Known("a tag that is cut off at the end", {"index.html": "<a href=x><a href='y"}, ["x index.html:1:9"]),
    Known("a space before a fragment", {"index.html": "<a href=' x #y '>"}, ["x%20 index.html:1:10"]),
    Known(
        "only ASCII in an unknown encoding",
        {"index.html": b"<meta charset=koi8-r><a href=\xc1><a href=x><a href='&#1092;'><a href='y#\xc1'>"},
        ["%D1%84 index.html:1:51", "x index.html:1:40", "y index.html:1:69"],
    ),
    Known(
        "an unknown base",
        {"index.html": b"<meta charset=koi8-r><base href='\xc1/'><a href=x><a href=http://docs.test/y>"},
        ["y index.html:1:56"],
    ),
    Known(
        "unknown anchors",
        {"index.html": "<a href='a.html#\u00fc'><a href=a.html#y>", "a.html": b"<meta charset=koi8-r><p id=x><a name=\xc1><a href=#z>"},
        [],
    ),
    Known(
        "known anchors in an unknown encoding",
        {"index.html": "<a href=a.html#x><a href=a.html#y>", "a.html": b"<meta charset=koi8-r><p id=x>\xc1<a href=#z>"},
        ["a.html#y index.html:1:26", "a.html#z a.html:1:39"],
    ),
    Known("a folder without an index file", {"index.html": "<a href=f>", "f/a.html": ""}, ["f/ index.html:1:9"], hint("f/", NO_INDEX_FILE)),
    Known("a folder with an index file", {"index.html": "<a href=f>", "f/index.html": "<a href=a>"}, ["f/a f/index.html:1:9"]),
    Known("a base", {"index.html": "<base href=f/><a href=a.html><a href=b.html>", "f/a.html": ""}, ["f/b.html index.html:1:38"]),
    Known("no index", {"a.html": "<a href=x>"}, ["x a.html:1:9"], total(pages=1, links=1, redirects=0, aliases=0)),
    Known("other schemes and hosts", {"index.html": "<a href=mailto:x><a href=//other.test/x><a href=ftp:x>"}, []),
    anchors("an id", "<p id=x>", "#x #y", ["a.html#y index.html:2:10"]),
    anchors("case matters", "<p id=x>", "#X", ["a.html#X index.html:1:10"]),
    anchors("the name of an a", "<a name=x><b name=y>", "#x #y", ["a.html#y index.html:2:10"]),
    anchors("the top", "<p>", "# #top #TOP #%74op #top2", ["a.html#top2 index.html:5:10"]),
    anchors("percent-decoded", "<p id='a b'><p id=\u00fc><p id=%41>", "#a%20b #%C3%BC #\u00fc #%41 #A", ["a.html#A index.html:5:10"]),
    anchors("escapes next to other letters", "<p id=\u00fc%41><p id=\u00fcB>", "#\u00fc%41 #\u00fc%42", ["a.html#\u00fc%41 index.html:1:10"]),
    anchors("fragments are reported as written", "<p>", "#\u00fc #%C3%BC", ["a.html#%C3%BC index.html:2:10", "a.html#\u00fc index.html:1:10"]),
    anchors("text fragments", "<p id=x>", "#:~:text=y #x:~:text=y #z:~:text=y", ["a.html#z:~:text=y index.html:3:10"]),
    anchors("a query does not change the anchors", "<p id=x>", "?q#x ?q#y", ["a.html?q#y index.html:2:10"]),
    Known("anchors of the same page", {"index.html": "<a href=#x><a href='#y'><p id=x>"}, ["./#y index.html:1:21"]),
    Known("an anchor of one page is not one of another", {"index.html": "<p id=x><a href=a.html#x>", "a.html": ""}, ["a.html#x index.html:1:17"]),
    Known("an anchor of a folder", {"index.html": "<a href=f#x><a href=f#y>", "f/index.html": "<p id=x>"}, ["f/#y index.html:1:21"]),
    Known(
        "any anchor of a file that is not a document",
        {"index.html": "<a href=a.pdf#page=2><img src=b.png#x><img src=b.svgz#x><link rel=stylesheet href=c.css#x>", "a.pdf": "", "b.png": "", "b.svgz": "", "c.css": ""},
        [],
    ),
    Known(
        "two spellings of each nested folder",
        {"a/" * depth + "index.html": "<a href=a/><a href=%61/>" if depth < 22 else "" for depth in range(23)},
        [],
        total(pages=23, links=44, redirects=0, aliases=22),
    ),
    Known(
        "twenty queries of a page",
        {"index.html": "".join(f"<a href=p.html?{number}>" for number in range(20)), "p.html": "<a href=gone.html>"},
        ["gone.html p.html:1:9"],
        (*total(pages=2, links=21, redirects=0, aliases=20), {"kind": "broken", "target": "gone.html", "pages": 1}),
    ),
    Known(
        "links to the same page",
        {"index.html": "<a href=''><a href='?'><a href='?x'><a href='#x'><a href=index.html><a href=gone>"},
        ["./#x index.html:1:46", "gone index.html:1:77"],
        (
            *total(pages=1, links=6, redirects=0, aliases=3),
            {"kind": "broken", "target": "./#x", "pages": 1},
            {"kind": "broken", "target": "gone", "pages": 1},
        ),
    ),
    Known(
        "an anchor of a page in three spellings",
        {"index.html": "<a href=p.html#y><a href=p.html?1#y><a href=%70.html#y><a href=p.html?1#x>", "p.html": "<p id=x>"},
        ["%70.html#y index.html:1:45", "p.html#y index.html:1:9", "p.html?1#y index.html:1:26"],
        total(pages=2, links=4, redirects=0, aliases=2),
    ),
    Known(
        "a folder without its slash, with a query",
        {"index.html": "<a href=f?x#y><a href=%66>", "f/index.html": ""},
        ["f/?x#y index.html:1:9"],
        total(pages=2, links=2, redirects=2, aliases=1),
    ),
    Known(
        "a page that links to its folder with escapes",
        {"index.html": "<a href=%64/p.html>", "d/p.html": "<a href=q.html><a href=gone>", "d/q.html": "<a href=gone>"},
        ["d/gone d/p.html:1:24", "d/gone d/q.html:1:9"],
        (*total(pages=3, links=4, redirects=0, aliases=1), {"kind": "broken", "target": "d/gone", "pages": 2}),
    ),
    Known(
        "names that differ only in their escapes",
        {"index.html": "<a href=A.html#x><a href=%41.html#x><a href=%2541.html#x>", "A.html": "<p id=x>", "%41.html": ""},
        ["%2541.html#x index.html:1:45"],
        total(pages=3, links=3, redirects=0, aliases=1),
    ),
    Known(
        "symbolic links in the folder and out of it",
        {
            "index.html": "<a href=in.html><a href=in/a.html><a href=out.html><a href=out/a.html><a href=near/a.html>",
            "b/a.html": "<a href=gone.html>", "in.html": To("b/a.html"), "in": To("b"),
            "out.html": To("../a.html"), "out": To(".."), "near": To("../site2"),
            "../a.html": "<a href=gone.html>", "../site2/a.html": "",
        },
        [
            "gone.html in.html:1:9", "b/gone.html b/a.html:1:9", "near/a.html index.html:1:79", "out.html index.html:1:43",
            "out/a.html index.html:1:60",
        ],
        (
            *total(pages=3, links=7, redirects=0, aliases=1), *hint("gone.html", None), *hint("near/a.html", LEADS_OUT), *hint("out.html", LEADS_OUT),
            *hint("out/a.html", LEADS_OUT),
        ),
    ),
    Known(
        "links to symbolic links that are not followed",
        SKIPPED,
        [f"{link} index.html:{line}:9" for line, link in enumerate(SKIPPED_LINKS, 1)],
        tuple(row for link, text in SKIPPED_LINKS.items() for row in hint(link, text)),
        settings=NO_BASE,
    ),
    Known(
        "links to symbolic links to nothing, if all are followed",
        {"index.html": "<a href=a/in.html><a href=a/gone><a href=b/c><a href=d>", "a": To("../site2"), "b": To("none"), "d": To("d"), "../site2/in.html": ""},
        ["a/gone index.html:1:27", "b/c index.html:1:42", "d index.html:1:54"],
        (*hint("a/gone", None), *hint("b/c", LEADS_NOWHERE), *hint("d", LEADS_NOWHERE)),
        settings=(*NO_BASE, *FOLLOW),
    ),
    Known(
        "queries and symbolic links that are not followed",
        {
            "index.html": "<a href='s%3Fx'>\n<a href='s?x'>\n<a href='s?x%20y/z'>\n<a href='s?x/z'>\n<a href='d%3Fq/z'>\n<a href='t?x'>\n", "s?x": To("../out.html"),
            "s?x y": To("none"), "d?q": To("../site2"), "t": To("../out.html"), "../out.html": "", "../site2/z": "",
        },
        ["d%3Fq/z index.html:5:10", "s%3Fx index.html:1:10", "s?x index.html:2:10", "s?x%20y/z index.html:3:10", "s?x/z index.html:4:10", "t?x index.html:6:10"],
        (
            *hint("s%3Fx", LEADS_OUT), *hint("s?x", None), *hint("s?x%20y/z", None), *hint("s?x/z", None), *hint("d%3Fq/z", LEADS_OUT), *hint("t?x", None),
        ),
        settings=(*NO_BASE, ("queries", True)),
    ),
    Known(
        "a symbolic link to the folder of the latest version",
        {
            "index.html": "<a href=latest/><a href=latest/a.html#y><a href=latest><a href=latest/gone>",
            "v2/index.html": "<a href=a.html><a href=../latest/a.html><a href=../latest/style/s.css>",
            "v2/a.html": "<p id=x><a href=none>", "latest": To("v2"), "v2/style": To("../style"), "style/s.css": "",
        },
        ["latest/a.html#y index.html:1:25", "latest/gone index.html:1:64", "v2/none v2/a.html:1:17"],
        (
            *total(pages=3, files=1, links=8, redirects=1, aliases=3),
            {"kind": "redirect", "page": "latest", "to": "latest/", "pages": 1},
            {"kind": "broken", "target": "latest/gone", "pages": 1},
        ),
    ),
    Known(
        "two symbolic links from each folder to the next",
        {
            "index.html": "<a href=0/>",
            **{f"{depth}/index.html": "<a href=x/><a href=y/>" if depth < 18 else "" for depth in range(19)},
            **{f"{depth}/{name}": To(f"../{depth + 1}") for depth in range(18) for name in "xy"},
        },
        [],
        total(pages=20, links=37, redirects=0, aliases=36),
    ),
    Known(
        "symbolic links to a folder above",
        {
            "index.html": "<a href=a/up/a/up/><a href=a/up/a/up/a.html><a href=a/up/a/p.html#y>", "a/up": To(".."),
            "a/p.html": "<p id=x><a href=up/gone><a href=up/a/p.html#x>",
        },
        ["a/up/a/p.html#y index.html:1:53", "a/up/a/up/a.html index.html:1:28", "a/up/gone a/p.html:1:17"],
        total(pages=2, links=5, redirects=0, aliases=2),
    ),
    Known(
        "the index file is a symbolic link",
        {"index.html": To("en/index.html"), "en/index.html": "<a href=a.html>", "en/a.html": "<a href=..>"},
        ["a.html index.html:1:9"],
        total(pages=3, links=3, redirects=0, aliases=0),
    ),
    Known(
        "symbolic links out of the folder that are followed",
        {
            "index.html": "<a href=out.html><a href=out/a.html><a href=near/a.html>",
            "out.html": To("../a.html"), "out": To(".."), "near": To("../site2"),
            "../a.html": "<a href=gone.html>", "../site2/a.html": "",
        },
        ["gone.html out.html:1:9", "out/gone.html out/a.html:1:9"],
        total(pages=4, links=5, redirects=0, aliases=0),
        settings=FOLLOW,
    ),
    Known(
        "a folder outside by several paths",
        {
            "index.html": "<a href=a/b/f.html><a href=b/f.html><a href=c/b/f.html><a href=a/site/d/f.html><a href=b/up/b/f.html>",
            "a": To("../out"), "b": To("../out/b"), "c": To("a"), "d": To("a/b"), "../out/b/f.html": "<a href=gone>",
            "../out/b/up": To(".."), "../out/site": To("../site"),
        },
        ["b/gone b/f.html:1:9"],
        total(pages=2, links=6, redirects=0, aliases=4),
        settings=FOLLOW,
    ),
    Known(
        "a symbolic link to a file of the system that never ends",
        {"index.html": "<a href=x.html>", "x.html": To("/proc/kmsg")},
        [],
        total(pages=2, links=1, redirects=0, aliases=0),
        settings=FOLLOW,
    ),
    Known(
        "a file of three gibibytes",
        {"index.html": "<a href=x.html#y>", "x.html": Zeros(3 << 30)},
        [],
        total(pages=2, links=1, redirects=0, aliases=0),
    ),
    Known(
        "consecutive slashes",
        {
            "index.html": "<a href=.//a.html#y><a href=d//b.html><a href=d//><a href=d///e//b.html#x><a href=.//d><a href=a.html//><a href=.//gone>",
            "a.html": "<p id=x>", "d/index.html": "<a href=../a.html#z>", "d/b.html": "<a href=.//gone>", "d/e/b.html": "<p id=x>",
        },
        [
            "/a.html#y index.html:1:9", "a.html#z d/index.html:1:9", "a.html// index.html:1:96", "/gone index.html:1:113",
            "d//gone d/b.html:1:9",
        ],
        (*total(pages=5, links=9, redirects=1, aliases=4), {"kind": "redirect", "page": "/d", "to": "d/", "pages": 1}),
    ),
    Known(
        "a short spelling of a page whose own URL is too long for a line",
        {"index.html": f"<a href={LONG}/>", f"{LONG}/index.html": "<a href=no>"},
        [f"{LONG}/ index.html:1:9", LONG.replace("%", "%25") + "/"],
        total(pages=1, links=1, redirects=0, aliases=0),
    ),
    Known(
        "a link without the suffix to a page whose own URL is too long for a line", {"index.html": f"<a href={ALMOST_LONG}>", f"{ALMOST_LONG}.html": "<a href=no>"},
        [ALMOST_LONG.replace("\u00fc", "%C3%BC") + " index.html:1:9", ALMOST_LONG.replace("\u00fc", "%C3%BC") + ".html"],
        total(pages=1, links=1, redirects=0, aliases=0), settings=FALLBACK,
    ),
    Known(
        "escaped slashes",
        {
            "index.html": "<a href=d%2Fa.html#x><a href=d%2f><a href=%2Fd%2Fe><a href=d%2F%2Fa.html><a href=d%2F..%2Fd/a.html>"
            "<a href=..%2Fd/a.html><a href=d%252Fa.html><a href=d%2Fgone>",
            "d/index.html": "", "d/a.html": "<p id=x>", "d/e/index.html": "",
        },
        ["..%2Fd/a.html index.html:1:108", "d%252Fa.html index.html:1:130", "d%2Fgone index.html:1:151"],
        (*total(pages=4, links=8, redirects=1, aliases=4), {"kind": "redirect", "page": "%2Fd%2Fe", "to": "d/e/", "pages": 1}),
    ),
    Known(
        "suggestions for missing pages, in the same case and in another",
        NAMESAKES,
        [f"{link} index.html:{number}:9" for number, link in enumerate(SUGGESTED, 1)],
        tuple(row for link, page in SUGGESTED.items() for row in suggestion(link, page)),
    ),
    Known(
        "suggestions of a folder for a file, and of a file for a folder",
        FORMS_OF_PAGES,
        [f"{link} index.html:{number}:9" for number, link in enumerate(OTHER_FORMS, 1)] + ["g.html g/index.html:1:9", "h.html o/h.html:1:9"],
        tuple(row for link, page in OTHER_FORMS.items() for row in suggestion(link, page)),
    ),
    Known(
        "suggestions of pages with such a link",
        {"index.html": "<a href=x/about.html>", "About.html": "<a href=about.html><a href=x/about.html>", "n/e.html": "<a href=../e.html>", "E.html": "<a href=d.html>", "D.html": ""},
        ["about.html About.html:1:9", "d.html E.html:1:9", "e.html n/e.html:1:9", "x/about.html About.html:1:28", "x/about.html index.html:1:9"],
        (*suggestion("about.html", None), *suggestion("x/about.html", None), *suggestion("e.html", None), *suggestion("d.html", "D.html")),
    ),
    Known(
        "several names of index files",
        {
            "index.htm": "<a href=d/><a href=d/index.htm#x><a href=d/index.xhtml><a href=e/#x><a href=e/index.xhtml><a href=f/><a href=index.html>",
            "d/index.html": "<a href=gone>", "d/index.htm": "<a href=none>", "d/index.xhtml": "", "e/index.xhtml": "<p id=x>", "f/INDEX.HTML": "",
        },
        ["d/gone d/index.html:1:9", "d/index.htm#x index.htm:1:20", "d/none d/index.htm:1:9", "f/ index.htm:1:99", "index.html index.htm:1:110"],
        total(pages=6, links=9, redirects=0, aliases=1),
    ),
    Known(
        "other names of index files",
        {
            "home.html": "<a href=d/><a href=d/home.html><a href=d/index.htm#x><a href=e/#x><a href=f/>", "d/home.html": "<a href=gone>",
            "d/index.htm": "<a href=none>", "e/index.htm": "<p id=x>", "f/index.html": "",
        },
        ["d/gone d/home.html:1:9", "d/index.htm#x home.html:1:40", "d/none d/index.htm:1:9", "f/ home.html:1:75"],
        total(pages=5, links=7, redirects=0, aliases=1),
        settings=INDICES,
    ),
    Known(
        "a suffix that a link omits",
        {
            "index.html": "<a href=a#x><a href=a#y><a href=b><a href=a/><a href=c><a href=index><a href=d/b?q>", "a.html": "<p id=x>",
            "b/index.html": "", "b.html": "", "d/b.html": "<a href=.>", "c.htm": "",
        },
        ["a#y index.html:1:21", "a/ index.html:1:43", "c index.html:1:54", "d/ d/b.html:1:9"],
        (*total(pages=6, links=8, redirects=1, aliases=3), {"kind": "redirect", "page": "b", "to": "b/", "pages": 1}),
        settings=FALLBACK,
    ),
    Known(
        "a suffix that a link to a folder omits", {"index.html": "<a href=a><a href='b?q#x'><a href=b#y><a href=c/>", "a.html/x.png": "", "b.html/index.html": "<p id=x>", "c.html/index.html": ""},
        ["a.html/ index.html:1:9", "b.html/#y index.html:1:35", "c/ index.html:1:47"], total(pages=3, links=4, redirects=3, aliases=1), settings=FALLBACK,
    ),
    Known(
        "every document",
        ORPHANS,
        ["d/b.html#y d/c.html:1:9", "gone 404.html:1:9", "none d/x.htm:1:9"],
        (*total(pages=6, links=6, redirects=0, aliases=0), *unreached("404.html", "d/b.html", "d/c.html", "d/x.htm", "y.png")),
        settings=(("unreached", True),),
    ),
    Known(
        "only what can be reached",
        ORPHANS,
        [],
        (*total(pages=2, links=1, redirects=0, aliases=0), *unreached("404.html", "d/b.html", "d/c.html", "d/x.htm", "y.png")),
        settings=(("unreached", True), ("reachable", True)),
    ),
    Known(
        "what can be reached from a seed",
        ORPHANS,
        ["d/b.html#y d/c.html:1:9"],
        (*total(pages=2, links=2, redirects=0, aliases=0), *unreached("./", "404.html", "a.html", "d/x.htm", "y.png")),
        settings=(("unreached", True), ("reachable", True), ("seeds", ("d/b.html",))),
    ),
    Known(
        "every document, and unreached files from a seed",
        ORPHANS,
        ["d/b.html#y d/c.html:1:9", "gone 404.html:1:9", "none d/x.htm:1:9"],
        (*total(pages=6, links=6, redirects=0, aliases=0), *unreached("./", "404.html", "a.html", "d/x.htm", "y.png")),
        settings=(("unreached", True), ("seeds", ("d/b.html",))),
    ),
    Known("no index, and nothing to start at", {"a.html": ""}, [], error("./: no such page to start at"), settings=(("reachable", True),)),
    Known(
        "links that are not URLs",
        {
            "index.html": "<a href=' http://[bad/ '><a href='https://'><img src=//x:99999/y><a href=HTTP:/\\><a href='http://a b/'><a href=//[bad/#x>"
            "<a href=gone>",
        },
        [
            "//[bad/#x index.html:1:112", "//x:99999/y index.html:1:54", "HTTP:/\\ index.html:1:74", "gone index.html:1:130",
            "http://[bad/ index.html:1:10", "http://a b/ index.html:1:91", "https:// index.html:1:35",
        ],
        (
            {"kind": "total", "links": 7, "broken": 1, "missing_pages": 1, "missing_anchors": 0, "invalid": 6},
            {"kind": "invalid", "target": "HTTP:/\\", "reason": "not_url", "pages": 1},
            {"kind": "worst", "file": "index.html", "links": 7},
        ),
    ),
    Known(
        "links without their slashes",
        {
            "index.html": "<a href=http:/x.png><a href=http:x.png><a href='http:\\x.png'><a href=HTTP:#top><a href=http:><a href=https:/docs.test/y>"
            "<a href=https:docs.test><a href=http:\\/a.test><a href=https:\\\\a.test><a href='http:/\n/a.test'><a href=' http:y.png\n'>",
            "d/index.html": "<base href='https:/docs.test/e/'><a href=https:/docs.test/y><a href=https:#x><a href=http:z>",
            "x.png": "", "y.png": "",
        },
        [
            "HTTP:#top index.html:1:70", "http: index.html:1:88", "http:/x.png index.html:1:9", "http:\\x.png index.html:1:49", "http:x.png index.html:1:29",
            "http:y.png index.html:2:19", "http:z d/index.html:1:86", "https:#x d/index.html:1:69", "https:/docs.test/y d/index.html:1:42",
            "https:/docs.test/y index.html:1:102", "https:docs.test index.html:1:129",
        ],
        (
            {"kind": "total", "pages": 2, "files": 2, "links": 14, "broken": 0, "invalid": 11},
            {"kind": "invalid", "target": "https:/docs.test/y", "reason": "not_url", "pages": 2},
        ),
    ),
    Known(
        "long texts with a scheme",
        {"index.html": f"<a href={'x' * 4090}:y><a href={'x' * 4091}:y><a href='xy:{'z' * 5000}'><a href='tel:{'1' * 5000}'><a href='x:{'z' * 5000}'><a href=http:{'z' * 5000}>"},
        [f"{'x' * 4090}: index.html:1:9", f"x:{'z' * 4089} index.html:1:18242", f"xy:{'z' * 4088} index.html:1:8213"],
        ({"kind": "total", "pages": 1, "links": 4, "broken": 0, "invalid": 3},),
    ),
    Known(
        "unknown schemes and local files",
        {
            "index.html": "<a href=htp://a.test/><a href='C:\\x y\\z.html'><a href=FILE:///x><a href=localhost:8080/><a href=a.html:b>"
            "<a href=d/><a href='htp://a.\ntest/'>",
            "d/index.html": "<a href=htp://a.test/><a href=file:x><a href=d:x>",
        },
        [
            "C:\\x y\\z.html index.html:1:32", "FILE:///x index.html:1:55", "a.html:b index.html:1:97", "d:x d/index.html:1:46",
            "file:x d/index.html:1:31", "htp://a.test/ d/index.html:1:9", "htp://a.test/ index.html:1:126", "htp://a.test/ index.html:1:9",
            "localhost:8080/ index.html:1:73",
        ],
        (
            {"kind": "total", "pages": 2, "links": 10, "broken": 0, "invalid": 9},
            {"kind": "invalid", "target": "htp://a.test/", "reason": "unknown_scheme", "pages": 2},
            {"kind": "invalid", "target": "C:\\x y\\z.html", "reason": "local_file", "pages": 1},
            {"kind": "invalid", "target": "d:x", "reason": "local_file", "pages": 1},
            {"kind": "invalid", "target": "a.html:b", "reason": "unknown_scheme", "pages": 1},
        ),
    ),
    Known(
        "known schemes",
        {"index.html": "".join(f"<a href='{scheme}:x'><a href='{scheme.upper()}://x'>" for scheme in known_schemes()) + "<a href=s+x.y-z:>"},
        [f"s+x.y-z: index.html:1:{1 + sum(28 + 2 * len(scheme) for scheme in known_schemes()) + len('<a href=')}"],
    ),
    Known(
        "links of a document in a frame",
        {
            "index.html": "<iframe src=1 longdesc=2 srcdoc=\"<a href=3&amp;amp;4><img src=#x srcset='#y 1x'><style>a{b:url(5)}</style><p style='c:url(6)'>"
            "<iframe srcdoc='<a href=7>' src=8></iframe><base target=b><base href=b/><a href=9>\"></iframe>\n<a href=10>",
        },
        ["./#y index.html:1:34", "1 index.html:1:13", "10 index.html:2:9", "2 index.html:1:24", "3&4 index.html:1:34", "8 index.html:1:34"],
        total(pages=1, links=6, redirects=0, aliases=0),
    ),
    Known(
        "documents in frames, with references, templates and a base of the page",
        {
            "index.html": "<base href=d/>\n<iframe srcdoc='&lt;p id=x&gt;&#60;a href=&quot;1&quot;><a href=&quot; #x&quot;>'></iframe><a href=../#x>\n<iframe srcdoc='<template><a href=no><base href=e/></template>"
            "<svg><use href=\"2\"/></svg><iframe><a href=no></iframe><meta http-equiv=refresh content=\"0;url=3\">'></iframe>",
        },
        ["./#x index.html:2:100", "d/ index.html:2:17", "d/1 index.html:2:17", "d/2 index.html:3:17", "d/3 index.html:3:17"],
    ),
    Known(
        "documents in frames, in XHTML and elsewhere",
        {
            "x.xhtml": "<iframe srcdoc='&lt;a href=\"1\"/>&lt;title/>&lt;a href=\"no\"/>'/>\n<svg><iframe srcdoc='&lt;a href=\"2\">'/></svg>",
            "y.html": "<frame srcdoc='<a href=no>'><svg><iframe srcdoc='<a href=no>'/></svg><svg><desc><iframe srcdoc='<a href=3>'></iframe></desc></svg><template><iframe srcdoc='<a href=no>'></iframe></template>",
        },
        ["1 x.xhtml:1:17", "2 x.xhtml:2:22", "3 y.html:1:97"],
    ),
    Known(
        "elements `link` without rel",
        {
            "index.html": "<link href=no><link rev=made href=no><link itemprop href=1><link itemprop=x rel='' href=no imagesrcset=no><link rel=next href=2>"
            "<link itemprop=y imagesrcset='3 1x' href=4><svg><link href=5></svg>",
            "x.xhtml": "<link href='no'/>\n<link itemprop='' href='6'/>",
        },
        ["1 index.html:1:58", "2 index.html:1:127", "3 index.html:1:159", "4 index.html:1:170", "5 index.html:1:188", "6 x.xhtml:2:25"],
    ),
    Known(
        "a base of another scheme",
        {"index.html": "<base href=htp:x><a href=y><a href=htp:y><a href=//[z><a href=''>"},
        ["htp:y index.html:1:36"],
        ({"kind": "total", "links": 4, "broken": 0, "invalid": 1},),
    ),
    Known(
        "no URL by a base",
        {"index.html": "<base href=f/><a href=//[z><a href=x>"},
        ["//[z index.html:1:23", "f/x index.html:1:36"],
    ),
    Known(
        "invalid links that are ignored",
        {"index.html": "<a href=htp:x><a href=htp:y><a href=file:z>"},
        ["htp:y index.html:1:23"],
        ({"kind": "total", "invalid": 1}, {"kind": "unused", "name": "index"}),
        settings=(("ignores", ("htp:x", "file:", "index")),),
    ),
    Known(
        "no invalid links",
        {"index.html": "<a href=htp:x><a href=//[y><a href=gone>"},
        ["gone index.html:1:36"],
        ({"kind": "total", "links": 3, "broken": 1, "invalid": 0}, {"kind": "unused", "name": "htp:"}),
        settings=(("invalid", False), ("ignores", ("htp:",))),
    ),
    Known(
        "tags that close themselves in XHTML",
        {
            "index.html": "<a href=x.xhtml#a><a href=x.xhtml#b><a href=y.XHT#a><a href=z.html#a>",
            "x.xhtml": "<title/><p id='a'/><script/><a href='gone.html'/><style/><![CDATA[<a href='no'>]]>\n<textarea><p id='c'/></textarea>",
            "y.XHT": "<html><title/><p id=a />", "z.html": "<title/><p id=a><a href=no>",
        },
        ["gone.html x.xhtml:1:38", "x.xhtml#b index.html:1:27", "z.html#a index.html:1:61"],
        total(pages=4, links=5, redirects=0, aliases=0),
    ),
    Known(
        "links and anchors of SVG files",
        {
            "index.html": "<svg><use href='p.svg#x'/><use xlink:href=p.svg#y /></svg><img src=p.svg><img src=d/Q.SVG#x>",
            "p.svg": "<?xml version='1.0'?><svg xmlns='x' id='x'><a href='gone'><title>t</title></a><use href='#x'/><g xlink:href='#z'/></svg>",
            "d/Q.SVG": "<svg><image href='../p.svg#x' xlink:href='none.png'/><font href='gone' id='X'/></svg>",
        },
        ["d/Q.SVG#x index.html:1:83", "d/gone d/Q.SVG:1:66", "d/none.png d/Q.SVG:1:43", "gone p.svg:1:53", "p.svg#y index.html:1:43", "p.svg#z p.svg:1:110"],
        total(pages=1, files=2, links=10, redirects=0, aliases=0),
    ),
    Known(
        "files in XML that no link leads to",
        {
            "index.html": "", "a.xhtml": "<a href='gone'/>", "a.XHT": "<a href='none'/>", "b.svg": "<a href='no'/>", "c.css": "a{b:url(no)}",
            "d.xml": "<a href='no'/>",
        },
        ["gone a.xhtml:1:10", "none a.XHT:1:10"],
        (*total(pages=3, links=2, redirects=0, aliases=0), *unreached("a.XHT", "a.xhtml", "b.svg", "c.css", "d.xml")),
        settings=(("unreached", True),),
    ),
    Known("only an SVG file and a style sheet", {"p.svg": "<a href='no'/>", "s.css": "a{b:url(no)}"}, [], ({"kind": "error"},)),
    Known("a start that is an SVG file", {"p.svg": "<a href='gone'/>"}, ["gone p.svg:1:10"], settings=(("seeds", ("p.svg",)),)),
    Known(
        "links of style sheets",
        {
            "index.html": "<link rel=stylesheet href=s/a.css>\n<link rel=stylesheet href='s/a.css?v=2'>",
            "s/a.css": "@import 'b.css';\n@IMPORT/**/url( \"c.css\" ) print;\na{b:url(../x.png),URL( '../gone.png')}/* url(no) */\na::after{content:'url(no)'}",
            "s/b.css": "a{b:url(d.png);c:url(data:,x)}@font-face{src:url(f.eot?#iefix),url('f.svg#y')}", "x.png": "", "s/f.eot": "",
            "s/f.svg": "<font id='x'/>",
        },
        ["gone.png s/a.css:3:25", "s/c.css s/a.css:2:18", "s/d.png s/b.css:1:9"],
        total(pages=1, files=5, links=10, redirects=0, aliases=2),
    ),
    Known(
        "texts in quotes and names of style sheets",
        {"index.html": "<link rel=stylesheet href=a.css>", "a.css": 'a{b:"\\"url(no)";c:no-url(no) url(1);d:"url(no)\n}\\".e{f:url(2)}@import "3'},
        ["1 a.css:1:34", "2 a.css:2:13", "3 a.css:2:25"],
    ),
    Known(
        "escapes in style sheets",
        {"index.html": "<link rel=stylesheet href=a.css>", "a.css": 'a{b:url(a\\28 1\\).png);c:url("x\\"y\\000020z\\\nw");d:URL(\\67one.png);f:url(\\0)}'},
        ["%EF%BF%BD a.css:2:29", "a(1).png a.css:1:9", "gone.png a.css:2:11", "x%22y%20zw a.css:1:30"],
    ),
    Known(
        "no links of styles",
        {"index.html": "<link rel=stylesheet href=a.css><style>a{b:url(no)}</style><p style='a:url(no)'><a href=gone>", "a.css": "a{b:url(no)}"},
        ["gone index.html:1:89"],
        total(pages=1, files=1, links=2, redirects=0, aliases=0),
        settings=NO_STYLES,
    ),
    Known(
        "what only a style uses is used",
        {"index.html": "<style>@import url(a.css)</style>", "a.css": "a{b:url('p.png')}", "p.png": "", "q.png": ""},
        [],
        (*total(pages=1, files=2, links=2, redirects=0, aliases=0), *unreached("q.png")),
        settings=(("unreached", True),),
    ),
    Known(
        "links of styles in a document",
        {
            "index.html": "<base href=d/>\n<style>@import 'a.css';\n/* url(no) */ p{q:url(b.png)}</style>\n<p id=x style='a:url( c.png )' title=url(no)>\n"
            "<p style='a:url(&quot;d.png&quot;),url(e.png)'>\n<svg><style>@import/**/\"f.css\";<b/>url(no)</style></svg><style/>@import 'g.css';</style>",
            "d/b.png": "",
        },
        [
            "d/a.css index.html:2:17", "d/c.png index.html:4:23", "d/d.png index.html:5:11", "d/e.png index.html:5:11", "d/f.css index.html:6:25",
            "d/g.css index.html:6:74",
        ],
        total(pages=1, files=1, links=7, redirects=0, aliases=0),
    ),
    Known(
        "an anchor in a style",
        {"index.html": "<style>p{q:url(#x);r:url(#y)}</style><p id=x style='s:url(a.svg#z)'>", "a.svg": "<svg/>"},
        ["./#y index.html:1:26", "a.svg#z index.html:1:59"],
    ),
    Known(
        "the encoding of a style sheet",
        {
            "index.html": "".join(f"<link rel=stylesheet href={name}.css>" for name in "abcd"), "a.css": "a{b:url(\u00e4?\u00e4)}".encode(),
            "b.css": b'@charset "latin1";a{b:url(\xe4?\xe4)}', "c.css": b'@charset "koi8-r";a{b:url(\xe4),url(c#\xe4)}', "d.css": b"a{b:url(\xe4)}",
        },
        ["%C3%A4?%C3%A4 a.css:1:9", "%C3%A4?%C3%A4 b.css:1:27", "%EF%BF%BD d.css:1:9", "c c.css:1:34"],
    ),
    Known(
        "links that leave the folder",
        {
            "index.html": "<a href=../x.html#y><a href='..\\'><a href='../../doc/x.css'><img src=./../x.html><a href='d/../../x.html'>",
            "d/a.html": "<base href=/d/>\n<a href=../../../z?q=/-/><a href=../><a href=../../doc/x.css><a href='../../doc/'>",
        },
        [
            "../ index.html:1:30", "../../doc/x.css index.html:1:44", "../../z?q=/-/ d/a.html:2:9", "../doc/ d/a.html:2:71", "../doc/x.css d/a.html:2:46",
            "../x.html index.html:1:91", "../x.html index.html:1:70", "../x.html index.html:1:9",
        ],
        (
            {"kind": "total", "pages": 2, "links": 9, "broken": 0, "missing_pages": 0, "invalid": 0, "leaving": 8, "external": 0},
            {"kind": "leaving", "target": "../x.html", "reason": "above_folder", "pages": 1},
            {"kind": "leaving_place", "target": "../x.html", "reason": "above_folder", "file": "index.html", "line": 1, "column": 9},
            {"kind": "worst", "file": "index.html", "links": 5},
        ),
        settings=NO_BASE,
    ),
    Known(
        "paths that begin with a slash, without BASE",
        {
            "d/index.html": "<a href=/d/a.html><a href='\\d\\a.html'><a href=/../d/a.html><a href=/gone><a href='/d/%2E%2e/../../none'>\n"
            "<a href=' /d/\na.html#y'><a href=/><a href=/d><a href=//d/><a href='/\\d'><a href=/?x><a href=/./>",
            "d/a.html": "<p id=x>", "index.html": "",
        },
        ["d/a.html#y d/index.html:2:10", "gone d/index.html:1:68", "none d/index.html:1:83"],
        (
            *total(pages=3, links=12, redirects=1, aliases=1),
            {"kind": "external", "url": "http://d/", "links": 2},
        ),
        settings=NO_BASE,
    ),
    Known(
        "a base on another host, without BASE",
        {"index.html": "<base href=//other.test/x/><a href=/y><a href=z><a href=../../w><a href=http://localhost/a>"},
        [],
        (
            {"kind": "total", "links": 4, "leaving": 0, "broken": 0}, {"kind": "external", "url": "http://localhost/a", "links": 1},
            {"kind": "external", "url": "http://other.test/w", "links": 1}, {"kind": "external", "url": "http://other.test/x/z", "links": 1},
            {"kind": "external", "url": "http://other.test/y", "links": 1},
        ),
        settings=NO_BASE,
    ),
    Known(
        "a base above the folder",
        {"d/index.html": "<base href=../../e/><a href=x><a href=/d/><a href=../d/>"},
        ["../d/ d/index.html:1:51", "../e/x d/index.html:1:29"],
        settings=NO_BASE,
    ),
    Known("forty folders above", {"index.html": "<a href=" + 40 * "../" + "x>"}, [32 * "../" + "x index.html:1:9"], settings=NO_BASE),
    Known(
        "a start that begins with a slash, without BASE",
        {"d/a.html": "<a href=b>", "b.html": "<a href=no>"},
        ["d/b d/a.html:1:9"],
        settings=(*NO_BASE, ("seeds", ("/d/a.html",)), ("reachable", True)),
    ),
    Known(
        "links outside BASE",
        {
            "index.html": "<a href=/x><a href=../x#y><a href=/project><a href=http://docs.test:80/project/a><a href=//docs.test:8080/x>"
            "<a href=https://docs.test/x><a href=/projects/><a href=/%70roject/#y><a href=/%70roject/no>",
        },
        [
            "%70roject/#y index.html:1:164", "http://docs.test/%70roject/no index.html:1:186", "http://docs.test/project index.html:1:35",
            "project/a index.html:1:52",
            "http://docs.test/projects/ index.html:1:145", "http://docs.test/x index.html:1:20", "http://docs.test/x index.html:1:9",
        ],
        (
            {"kind": "total", "links": 9, "broken": 2, "leaving": 5, "external": 2},
            {"kind": "leaving", "target": "http://docs.test/x", "reason": "outside_base", "pages": 1, "same_name": None},
            {"kind": "external", "url": "http://docs.test:8080/x", "links": 1}, {"kind": "external", "url": "https://docs.test/x", "links": 1},
        ),
        settings=(("base", "http://docs.test/project/"), ("external", True)),
    ),
    Known(
        "links outside BASE to paths that the folder has",
        {"index.html": "<a href=/><a href=/a.html><a href=/d/?x><a href=/d><a href=/A.html>", "a.html": "<a href=/a.html>", "d/index.html": ""},
        [
            "http://docs.test/ index.html:1:9", "http://docs.test/A.html index.html:1:60", "http://docs.test/a.html a.html:1:9", "http://docs.test/a.html index.html:1:19",
            "http://docs.test/d index.html:1:49", "http://docs.test/d/?x index.html:1:35",
        ],
        tuple(
            {"kind": "leaving", "target": f"http://docs.test/{path}", "same_name": None if page is None else f"http://docs.test/project/{page}"}
            for path, page in {"": "", "a.html": "a.html", "d/?x": "d/", "d": None, "A.html": None}.items()
        ),
        settings=(("base", "http://docs.test/project/"),),
    ),
    Known(
        "links that leave and are ignored",
        {"index.html": "<a href=../../doc/a><a href=../../doc/b><a href=../c>"},
        ["../c index.html:1:49"],
        ({"kind": "total", "leaving": 1}, {"kind": "unused", "name": "../d"}),
        settings=(*NO_BASE, ("ignores", ("../../doc/", "../d"))),
    ),
    Known(
        "links to mapped folders",
        {
            "index.html": "<a href=../x/a.html>\n<a href=../x/%61.html?q#no>\n<a href=../x>\n<a href=../x/>\n<a href=../x/d>\n<a href=../x/e/>\n<a href=../x/gone.html>\n"
            "<a href=../xa/a.html>\n<a href=../x/y/c.html>\n<a href=../x/y/a.html>\n<a href=../z.html>\n<a href=../x?q>\n<a href=../x/up.html>",
            "d/e.html": "<a href=../../x//a.html>\n<a href=../../x/y>\n<a href=../../x/none>", "../x/index.html": "", "../x/a.html": "<a href=no><a href=../site/>",
            "../x/d/index.html": "", "../x/e/b.html": "", "../x/y/a.html": "", "../y/c.html": "", "../z.html": "", "../x/up.html": To("../z.html"),
        },
        [
            "../x/e/ index.html:6:9", "../x/gone.html index.html:7:9", "../x/none d/e.html:3:9", "../x/up.html index.html:13:9", "../x/y d/e.html:2:9", "../x/y/a.html index.html:10:9",
            "../x?q index.html:12:9", "../xa/a.html index.html:8:9", "../z.html index.html:11:9",
        ],
        (
            {"kind": "total", "pages": 2, "files": 0, "links": 16, "redirects": 0, "aliases": 0, "broken": 0, "leaving": 9, "external": 0},
            {"kind": "leaving", "target": "../x/gone.html", "reason": "not_in_map", "pages": 1}, {"kind": "leaving", "target": "../x/y", "reason": "not_in_map", "pages": 1},
            {"kind": "leaving", "target": "../x?q", "reason": "above_folder", "pages": 1}, {"kind": "unused", "name": "../x/a"},
        ),
        settings=(*NO_BASE, ("maps", (("../x", "x"), ("../x/y/", "y"))), ("ignores", ("../x/a",))),
    ),
    Known(
        "links to mapped folders, with BASE",
        {
            "index.html": "<a href=/x/a.html><a href=../x/no><a href=//docs.test:80/x>\n<a href=/c><a href=/c/><a href=https://docs.test/x/no><a href=/p>\n<a href=/%70/x><a href=/%70/index.html>",
            "../x/index.htm": "", "../x/a.html": "", "../y/c.html": "",
        },
        ["http://docs.test/%70/x index.html:3:9", "http://docs.test/c/ index.html:2:20", "http://docs.test/p index.html:2:63", "http://docs.test/x/no index.html:1:27"],
        ({"kind": "leaving", "target": "http://docs.test/p", "reason": "not_in_map", "pages": 1}, {"kind": "total", "leaving": 4, "broken": 0, "external": 1}),
        settings=(("base", "http://docs.test/p/"), ("maps", (("/x/", "x"), ("http://docs.test", "y"))), ("fallback", True), ("external", True)),
    ),
    Known("a seed without a page", {"index.html": ""}, [], error("x.html: no such page to start at"), settings=(("seeds", ("./", "x.html")),)),
    Known(
        "a sitemap",
        {
            "index.html": "", "i.png": "",
            "sitemap.xml": "<?xml version='1.0'?>\n<urlset xmlns='http://www.sitemaps.org/schemas/sitemap/0.9'><url><loc>http://docs.test/</loc></url>\n"
            "<url><loc> http://docs.test/gone?a&amp;b </loc><image:image><image:loc>http://docs.test/none.png</image:loc></image:image></url>\n"
            "<!-- <loc>no</loc> --><url><loc/><loc>\n\n http://docs.test/i.png</loc><lastmod>no</lastmod></url></urlset>",
        },
        ["gone?a&b sitemap.xml:3:12", "none.png sitemap.xml:3:72"],
        (*total(pages=1, files=2, links=4, redirects=0, aliases=0), *written("none.png", "http://docs.test/none.png")),
    ),
    Known(
        "an index of sitemaps, and a list of URLs",
        {
            "index.html": "", "Sitemap_index.XML": "<sitemapindex><sitemap><loc>http://docs.test/maps/a.xml</loc></sitemap></sitemapindex>",
            "maps/a.xml": "<s:urlset><s:url><s:loc>/gone1</s:loc></s:url></s:urlset>", "maps/b.xml": "<urlset><loc>no</loc></urlset>",
            "maps/sitemap-2.txt": "\ufeffhttp://docs.test/\r\n\n \t http://docs.test/gone2 \r\nhttp://other.test/\ngone#3", "maps/urls.txt": "no",
        },
        ["gone1 maps/a.xml:1:25", "gone2 maps/sitemap-2.txt:3:4", "maps/gone maps/sitemap-2.txt:5:1"],
        total(pages=1, files=3, links=6, redirects=0, aliases=0),
    ),
    Known(
        "a feed in RSS 2.0",
        {
            "index.html": "<p id=x>",
            "feed.xml": "<rss version='2.0' xmlns:atom='http://www.w3.org/2005/Atom'><channel><title>no</title><link>http://docs.test/#x</link>\n"
            "<atom:link href='no1' rel='self'/><item><link><![CDATA[ http://docs.test/gone?x&y ]]></link>\n"
            "<enclosure url='gone.mp3' length='1'/><guid>no2</guid><description>&lt;a href='no3'&gt;</description></item></channel></rss>",
        },
        ["gone.mp3 feed.xml:3:17", "gone?x&y feed.xml:2:57"],
        total(pages=1, files=1, links=3, redirects=0, aliases=0),
    ),
    Known(
        "feeds in RDF and in Atom",
        {
            "index.html": "", "a/x.rss": "<rdf:RDF><channel rdf:about='no1'><link>gone1</link></channel><item><link>.</link></item></rdf:RDF>",
            "b/y.ATOM": "<feed xml:base='/no/'><id>no2</id><link rel='self' href='y.ATOM'/><entry><link href='gone2'>no3</link><content src='gone3'/>\n"
            "<content type='html'>&lt;a href='no4'></content><link rel='alternate' hreflang='en'/></entry></feed>",
        },
        ["a/ a/x.rss:1:75", "a/gone1 a/x.rss:1:41", "b/gone2 b/y.ATOM:1:86", "b/gone3 b/y.ATOM:1:117"],
        total(pages=1, files=2, links=5, redirects=0, aliases=0),
    ),
    Known(
        "files in XML that are reached",
        {
            "index.html": "<a href=a.xml><a href=b.xml><a href=c.xml#x>", "a.xml": "<urlset><loc>gone</loc></urlset>", "b.xml": "<other><loc>no</loc></other>",
            "c.xml": "no", "d.xml": "<urlset><loc>no</loc></urlset>",
        },
        ["gone a.xml:1:14"],
        (*total(pages=1, files=3, links=4, redirects=0, aliases=0), *unreached("d.xml")),
        settings=(("unreached", True),),
    ),
    Known("only a sitemap", {"sitemap.xml": "<urlset><loc>gone</loc></urlset>"}, ["gone sitemap.xml:1:14"], total(pages=0, files=1, links=1, redirects=0, aliases=0)),
    Known(
        "sitemaps that are not reached",
        {"index.html": "", "sitemap.xml": "<urlset><loc>no</loc></urlset>", "d/atom.xml": "<feed><link href='no'/></feed>"},
        [],
        (*total(pages=1, links=0, redirects=0, aliases=0), *unreached("d/atom.xml", "sitemap.xml")),
        settings=(("reachable", True), ("unreached", True)),
    ),
    Known(
        "a folder of BASE that is not in the folder",
        {"index.html": "<a href=/p/a.html><a href='/p/\u00fc/#x'><a href=/q/c><a href=d><a href=/p><a href=/p?/><a href='\n/p/\ta.html'>", "p": "", "d/e.html": "<img src=/p/f>", "pp/p/x": ""},
        [
            "d/ index.html:1:58", "p/a.html index.html:1:9", "p/a.html index.html:1:93", "p/f d/e.html:1:10", "p/%C3%BC/ index.html:1:28", "q/c index.html:1:45",
        ],
        ({"kind": "hint", "base": "/p/", "paths": 4, "of": 5},),
        settings=NO_BASE,
    ),
    Known(
        "paths of two folders that are not in the folder", {"index.html": "<a href=/q/a><a href=/p/b><a href=/p/c><a href=/q/d#x><a href=/Q/e>"},
        ["Q/e index.html:1:63", "p/b index.html:1:22", "p/c index.html:1:35", "q/a index.html:1:9", "q/d index.html:1:48"],
        settings=NO_BASE, without=("hint",),
    ),
    Known(
        "one path, and paths of a folder that exists", {"index.html": "<a href=/p/a><a href=/p/b>", "p/c": "", "d/index.html": ""}, ["p/a index.html:1:9", "p/b index.html:1:22"],
        settings=NO_BASE, without=("hint",),
    ),
    Known(
        "one path from the root", {"index.html": "<a href=/p/a><a href=//p/b><a href=/p><a href='\\\\p\\b'>"}, ["p index.html:1:36", "p/a index.html:1:9"],
        settings=NO_BASE, without=("hint",),
    ),
    Known(
        "paths from the root with BASE", {"index.html": "<a href=/p/a><a href=/p/b>"}, ["p/a index.html:1:9", "p/b index.html:1:22"], without=("hint",),
    ),
    Known(
        "paths from the root that are ignored", {"index.html": "<a href=/p/a><a href=/p/b><a href=/q/c>"}, ["q/c index.html:1:35"], settings=(*NO_BASE, ("ignores", ("p/",))), without=("hint",),
    ),
    Known(
        "the first of two folders", {"index.html": "<a href=/q/a><a href=/p/b><a href=/p/c><a href=/q/d#x>"},
        ["p/b index.html:1:22", "p/c index.html:1:35", "q/a index.html:1:9", "q/d index.html:1:48"],
        ({"kind": "hint", "base": "/p/", "paths": 2, "of": 4},), settings=NO_BASE,
    ),
    Known(
        "paths from the root of five folders",
        {"index.html": "<a href='/a b/x'><a href='/a b/y'><a href=/../c/x><a href=/../c/y><a href=/.d/x><a href=/.d/y><a href=/%41/x><a href=/%41/y><a href=/a-b_c.d~1/z>"},
        [
            "%41/x index.html:1:103", "%41/y index.html:1:118", ".d/x index.html:1:75", ".d/y index.html:1:89", "a%20b/x index.html:1:10", "a%20b/y index.html:1:27",
            "a-b_c.d~1/z index.html:1:133", "c/x index.html:1:43", "c/y index.html:1:59",
        ],
        settings=NO_BASE, without=("hint",),
    ),
    Known(
        "the folder of a path from the root with signs of URLs", {"index.html": "<a href='/a b/x'><a href=/a-b_c.d~1/y><a href='\t/a-b_c.d~1/z'>"},
        ["a%20b/x index.html:1:10", "a-b_c.d~1/y index.html:1:26", "a-b_c.d~1/z index.html:1:48"],
        ({"kind": "hint", "base": "/a-b_c.d~1/", "paths": 2, "of": 3},), settings=NO_BASE,
    ),
    Known(
        "links with the host of the site, without BASE",
        {"index.html": "<a href=http://h.test/p/a.html#x><a href=http://h.test/p/a.html?q><a href=d/gone>", "a.html": "<img src=http://h.test/p/gone.png><a href=mailto:x>"},
        ["d/gone index.html:1:75"], ({"kind": "hint", "base": "http://h.test/p/", "paths": 3, "of": 4},), settings=NO_BASE,
    ),
    Known(
        "links with the host of the site, at its top", {"index.html": "<a href=https://h.test/d/index.html><a href=https://h.test/d/>", "d/index.html": ""}, [],
        ({"kind": "hint", "base": "https://h.test/", "paths": 2, "of": 2},), settings=NO_BASE,
    ),
    Known(
        "as many links with a host as without one", {"index.html": "<a href=http://o.test/a.html><a href=http://o.test/b.html><a href=a.html><a href=b.html>", "a.html": "", "b.html": ""}, [],
        settings=NO_BASE, without=("hint",),
    ),
    Known(
        "links with a host, and an alias, which has a link to the file's own URL",
        {"index.html": "<a href=http://o.test/a.html><a href=http://o.test/b.html><a href=a.html?x>", "a.html": "", "b.html": ""}, [],
        settings=NO_BASE, without=("hint",),
    ),
    Known(
        "links to the first page of another site", {"index.html": "<a href=http://o.test/><a href=http://o.test/?q><a href=http://o.test/a.html>", "a.html": ""}, [],
        settings=NO_BASE, without=("hint",),
    ),
    Known(
        "links outside BASE to files of the folder", {"index.html": "<a href=/a.html><a href=/b.html>", "a.html": "", "b.html": ""}, ["http://docs.test/a.html index.html:1:9", "http://docs.test/b.html index.html:1:25"],
        settings=(("base", "http://docs.test/q/"),), without=("hint",),
    ),
    Known(
        "links to another site with few pages of the folder", {"index.html": "<a href=http://o.test/a.html><a href=http://o.test/b.html><a href=http://o.test/c.html>", "a.html": ""}, [],
        settings=NO_BASE, without=("hint",),
    ),
    Known(
        "links with a host that lead to redirects", {"index.html": "<a href=http://o.test/d><a href=http://o.test/e><a href=http://o.test/d/>", "d/index.html": "", "e/index.html": ""}, [],
        settings=NO_BASE, without=("hint",),
    ),
    Known("one link with a host", {"index.html": "<a href=http://o.test/a.html>", "a.html": ""}, [], settings=NO_BASE, without=("hint",)),
    Known(
        "the first of two hosts", {"index.html": "<a href=http://o.test/a.html><a href=http://h.test/a.html><a href=http://h.test/b.html><a href=http://o.test/b.html>", "a.html": "", "b.html": ""}, [],
        ({"kind": "hint", "base": "http://o.test/", "paths": 2, "of": 4},), settings=NO_BASE,
    ),
    Known(
        "the first of two hosts, which has other pages",
        {"index.html": "<a href=http://o.test/c.html><a href=http://h.test/a.html><a href=http://h.test/b.html><a href=http://o.test/d.html>", "a.html": "", "b.html": ""}, [],
        settings=NO_BASE, without=("hint",),
    ),
    Known(
        "links with a host and five folders", {"index.html": "<a href=http://h.test/1/2/3/4/5/a.html><a href=http://h.test/1/2/3/4/5/b/c>", "a.html": ""}, [],
        ({"kind": "hint", "base": "http://h.test/1/2/3/4/5/", "paths": 2, "of": 2},), settings=NO_BASE,
    ),
    Known("links with a host and six folders", {"index.html": "<a href=http://h.test/1/2/3/4/5/6/a.html><a href=http://h.test/1/2/3/4/5/6/>", "a.html": ""}, [], settings=NO_BASE, without=("hint",)),
    Known(
        "paths from the root, and links with the host of the site",
        {"index.html": "<a href=/p/a><a href=/p/b><a href=http://h.test/p/c.html><a href=http://h.test/p/><a href=http://h.test/p/c.html>", "c.html": ""},
        ["p/a index.html:1:9", "p/b index.html:1:22"], ({"kind": "hint", "base": "http://h.test/p/", "paths": 3, "of": 5},), settings=NO_BASE,
    ),
    Known(
        "pages with a link to themselves below another URL",
        {
            "index.html": "<a href=http://s.test/p/index.html>", "a.html": "<a href=http://s.test/p/a.html?q#x><a href=b.html>" + 9 * "<a href=http://t.test/x.html>",
            "d/b.html": "<a href=http://o.test/><a href=http://s.test/p/d/b.html><a href=c.html>", "d/c.html": "<a href=http://s.test/p/c.html><a href=../a.html>", "b.html": "",
        },
        [],
        ({"kind": "hint", "base": "http://s.test/p/", "paths": 4, "of": 17},), settings=NO_BASE,
    ),
    Known(
        "pages with a link to themselves, and then to the same path elsewhere",
        {
            "a.html": "<link rel=canonical href=http://docs.test/a.html><a href=https://o.test/x/a.html><a href=b.html>",
            "b.html": "<a href=b.html><a href=https://o.test/x/b.html><a href=a.html>", "c.html": "<a href=https://o.test/x/c.html>",
        },
        [], without=("hint",),
    ),
    Known(
        "a sitemap with another host, and other links to other sites",
        {"index.html": "<a href=a.html><a href=http://o.test/x.html><a href=http://o.test/y.html><a href=http://o.test/z.html>", "a.html": "", "sitemap.txt": "http://s.test/\nhttp://s.test/a.html\nhttp://s.test/b.html\n"},
        [], ({"kind": "hint", "base": "http://s.test/", "paths": 3, "of": 7},), settings=NO_BASE,
    ),
    Known("links above the folder", {"index.html": "<a href=../a.html><a href=../../b.html>", "a.html": ""}, ["../../b.html index.html:1:27", "../a.html index.html:1:9"], settings=NO_BASE, without=("hint",)),
    Known(
        "links with another scheme than BASE", {"index.html": "<a href=https://docs.test/a.html><a href=https://docs.test/a.html#x><a href=a.html>", "a.html": ""}, [],
        ({"kind": "hint", "base": "https://docs.test/", "paths": 2, "of": 3},),
    ),
    Known(
        "links with another path than BASE", {"index.html": "<a href=/p/a.html><a href='/p/b%20c.html?q'><a href=d>", "a.html": "", "b c.html": ""},
        ["http://docs.test/p/a.html index.html:1:9", "http://docs.test/p/b%20c.html?q index.html:1:28", "q/d index.html:1:53"],
        ({"kind": "hint", "base": "http://docs.test/p/", "paths": 2, "of": 3},), settings=(("base", "http://docs.test/q/"),),
    ),
    Known(
        "a BASE without its path", {"index.html": "<a href=/p/a.html><a href=/p/b.html#x><a href=a.html>", "a.html": "", "b.html": ""},
        ["p/a.html index.html:1:9", "p/b.html index.html:1:27"], ({"kind": "hint", "base": "http://docs.test/p/", "paths": 2, "of": 3},),
    ),
    Known(
        "a BASE without its path, and the same number of links that work", {"index.html": "<a href=/p/a.html><a href=/p/b.html><a href=a.html><a href=b.html>", "a.html": "", "b.html": ""},
        ["p/a.html index.html:1:9", "p/b.html index.html:1:27"], ({"kind": "hint", "base": "http://docs.test/p/", "paths": 2, "of": 4},),
    ),
    Known(
        "a BASE without its path, and many relative links",
        {"index.html": "<a href=/p/a.html><a href=/p/b.html><a href=/q/c.html>" + 9 * "<a href=a.html>", "a.html": "", "b.html": ""},
        ["p/a.html index.html:1:9", "p/b.html index.html:1:27", "q/c.html index.html:1:45"], ({"kind": "hint", "base": "http://docs.test/p/", "paths": 2, "of": 12},),
    ),
    Known(
        "a folder that was removed, and many relative links", {"index.html": "<a href=/p/a.html><a href=/p/b.html><a href=/p/c.html>" + 9 * "<a href=a.html>", "a.html": ""},
        ["p/a.html index.html:1:9", "p/b.html index.html:1:27", "p/c.html index.html:1:45"], without=("hint",),
    ),
    Known(
        "a BASE with a part of its path", {"index.html": "<a href=/p/q/a.html><a href=/p/q/b.html>" + 4 * "<a href=a.html>", "a.html": "", "q/x.png": ""},
        ["p/q/a.html index.html:1:9", "p/q/b.html index.html:1:29"], settings=(("base", "http://docs.test/p/"),), without=("hint",),
    ),
    Known(
        "a BASE without its path, and ignored links", {"index.html": "<a href=/p/a.html><a href=/p/b.html>", "a.html": "", "b.html": ""},
        [], settings=(("ignores", ("*p/*",)),), without=("hint",),
    ),
    Known(
        "a BASE without its path, and two links at one location", {"index.html": "<img srcset='/p/a.png 1x, /p/a.png 2x'>", "a.png": ""},
        ["p/a.png index.html:1:14"], without=("hint",),
    ),
    Known(
        "documents that no sitemap lists",
        {
            "index.html": "<a href=gone><a href=f>", "a.html": "", "b.html": "", "c.html": "", "404.html": "", "d/index.html": "<a href=e.html?x>", "d/404.html": "", "d/e.html": "", "f": "<html>",
            "sitemap-1.XML": "<urlset><loc>http://docs.test/</loc><loc>http://docs.test/index.html#x</loc><loc>http://docs.test/b.html?x</loc><loc>http://docs.test/d</loc><loc>more.xml</loc>"
            "<loc>https://docs.test/c.html</loc><loc>feed.xml</loc></urlset>",
            "more.xml": "<urlset><loc>http://docs.test/d/e.html</loc><loc>other.txt</loc></urlset>", "feed.xml": "<rss><link>http://docs.test/c.html</link></rss>",
            "other.txt": "http://docs.test/c.html", "x.xml": "<urlset><loc>http://docs.test/a.html</loc></urlset>",
        },
        ["gone index.html:1:9"],
        (*unlisted("a.html", "c.html", "d/", "f"), {"kind": "total", "unlisted": 4, "pages": 9}),
        settings=(("sitemap", True),),
    ),
    Known(
        "documents that no sitemap lists, and entries that match some",
        {"index.html": "<a href=a.html>", "a.html": "", "b.html": "", "c/index.html": "", "d.html": "<a href=e.html>", "sitemap.txt": "http://docs.test/\n"},
        [], (*unlisted("b.html"), {"kind": "total", "unlisted": 1, "missing_pages": 0}, *({"kind": "unused", "name": name} for name in ("b.html: *", "index", "x"))),
        settings=(("sitemap", True), ("ignores", ("a.html", "c*", "d", "b.html: *", "index", "x", "e.html"))),
    ),
    Known(
        "documents that a list of URLs names", {"index.html": "", "a.html": "", "sitemap.txt": "http://docs.test/\n", "feed.rss": "<rss><link>a.html</link></rss>"},
        [], (*unlisted("a.html"), {"kind": "total", "unlisted": 1, "broken": 0}), settings=(("sitemap", True),),
    ),
    Known(
        "a sitemap and documents that are not reached", {"index.html": "", "a.html": "", "b": "<html>", "sitemap.txt": "http://docs.test/a.html\n"}, [],
        (*unlisted("./", "b"), {"kind": "total", "pages": 1, "files": 0, "unlisted": 2}),
        settings=(("sitemap", True), ("reachable", True)),
    ),
    Known(
        "patterns that are ignored",
        {"index.html": "<a href=a.png><a href=d/b.png><a href=b.png?x><a href=d/c.html><a href=x#y><p id=z><a href=htp:a*b><a href=%2A.gif>"},
        ["%2A.gif index.html:1:108", "b.png?x index.html:1:39"],
        ({"kind": "total", "broken": 2, "invalid": 0}, {"kind": "unused", "name": "b*.png"}, {"kind": "unused", "name": "*.gif*.gif"}),
        settings=(*NO_BASE, ("ignores", ("*.png", "d*c*l", "*:*", "x*", "b*.png", "*.gif*.gif"))),
    ),
    Known("all that is ignored", {"index.html": "<a href=a><a href=../b><a href=http:>"}, [], settings=(*NO_BASE, ("ignores", ("*",)))),
    Known(
        "targets that are ignored in some files",
        {
            "index.html": "<a href=a.png><a href=htp:x><a href=../up><a href=d/b.html#x><a href=gone>", "d/b.html": "<a href=../a.png><a href=../gone><a href=../../up#y>",
            "d/c: e.html": "<a href=../a.png><a href='htp: f'><a href='htp: g'>",
        },
        ["../up index.html:1:37", "a.png d/c: e.html:1:9", "a.png index.html:1:9", "gone index.html:1:70", "htp: g d/c: e.html:1:44"],
        (
            {"kind": "total", "pages": 3, "broken": 3, "missing_pages": 2, "missing_anchors": 0, "invalid": 1, "leaving": 1},
            {"kind": "broken", "target": "a.png", "pages": 3}, {"kind": "broken", "target": "gone", "pages": 2}, {"kind": "leaving", "target": "../up", "pages": 2},
            {"kind": "worst", "file": "index.html", "links": 3}, {"kind": "worst", "file": "d/c: e.html", "links": 2},
            {"kind": "unused", "name": "d: a.png"}, {"kind": "unused", "name": "d/c: e.html: a"}, {"kind": "unused", "name": "*.html: b*"}, {"kind": "unused", "name": "htp: g"},
        ),
        settings=(
            *NO_BASE,
            ("ignores", (
                "d/b.html: a.p", "d: a.png", "index.html: htp:", "d/*: go*", "*: d/b.html#x", "d/b*: ../up", "d/c: e.html: a", "*.html: b*", "d/c*: htp: f", "htp: g",
            )),
        ),
    ),
    Known(
        "targets that are ignored in all files that link to them",
        {"index.html": "<a href=a><a href=b#x><a href=e>", "b": "<html>", "d/index.html": "<a href=../a><a href=../c>"},
        ["c d/index.html:1:22"],
        (
            {"kind": "total", "broken": 1, "missing_pages": 1, "missing_anchors": 0},
            {"kind": "unused", "name": "index.html: c"}, {"kind": "unused", "name": "index.html: e"},
        ),
        settings=(*NO_BASE, ("ignores", ("index.html: a", "d/index.html: a", "i*l: b#*", "index.html: c", "e", "index.html: e"))),
    ),
    Known(
        "what the rules of a host would find",
        {
            "index.html": "<a href=a><a href=d/b?x#y><a href=e/><a href=./x/../e><a href=f/><a href=g/><a href=%C3%BC><a href=c><a href=h/>",
            "a.html": "", "d/b.html": "", "e/default.htm": "", "e/Home.php": "", "f/index.css": "", "f/home": "", "f/indexes.html": "", "\u00fc.html": "", "c.htm": "",
            "g/d/index.html": "", "h/Index.html": "", "h/home.html": "",
        },
        [
            "%C3%BC index.html:1:85", "a index.html:1:9", "c index.html:1:100", "d/b?x index.html:1:19", "e/ index.html:1:46", "e/ index.html:1:35",
            "f/ index.html:1:63", "g/ index.html:1:74", "h/ index.html:1:110",
        ],
        (
            *hint("a", "a.html exists: --fallback html"), *hint("d/b?x", "d/b.html exists: --fallback html"), *hint("e/", "e/ has Home.php: --index-file Home.php"),
            *hint("f/", NO_INDEX_FILE), *hint("g/", NO_INDEX_FILE), *hint("%C3%BC", "\u00fc.html exists: --fallback html"), *hint("c", None),
            *hint("h/", "h/ has Index.html: --index-file Index.html"),
        ),
        settings=NO_BASE,
    ),
    Known(
        "hints with BASE, and for the top",
        {"home.php": "", "a.html": "<a href=/a><a href=a%2F><a href=/>"},
        ["./ a.html:1:33", "a a.html:1:9", "a%2F a.html:1:20"],
        hint("./", "./ has home.php: --index-file home.php"),
    ),
    Known(
        "links to folders without an index file",
        {"index.html": "\n".join(f"<a href='{link}'>" for link in FOLDERS), "d/e/a.png": "", "\u00fc d/x": "", "d.html": "", "l": To("d"), "o": To("../site2"), "../site2/a": ""},
        [f"{target} index.html:{line}:10" for line, target in enumerate(FOLDERS.values(), 1)],
        (
            *hint("d/", NO_INDEX_FILE), *hint("d/?q", NO_INDEX_FILE), *hint("d/e/", NO_INDEX_FILE), *hint("%C3%BC%20d/", NO_INDEX_FILE), *hint("d//e//", NO_INDEX_FILE),
            *hint("l/", NO_INDEX_FILE), *hint("l/e/", NO_INDEX_FILE), *hint("D/", None), *hint("f/", None), *hint("d/f/", None), *hint("d.html/", None), *hint("d/e/a.png/", None),
            *hint("o/", LEADS_OUT),
        ),
        settings=NO_BASE,
    ),
    Known(
        "queries and folders without an index file",
        {"index.html": "<a href='d/'><a href='d/?q'><a href='d/?q/'><a href='e/'><a href='e/?q'><a href='f%3Fq/'>", "d/a": "", "e/index.html?q": "", "f?q/a": ""},
        ["d/ index.html:1:10", "d/?q index.html:1:23", "d/?q/ index.html:1:38", "e/ index.html:1:54", "f%3Fq/ index.html:1:82"],
        (*hint("d/", NO_INDEX_FILE), *hint("d/?q", None), *hint("d/?q/", None), *hint("e/", NO_INDEX_FILE), *hint("f%3Fq/", NO_INDEX_FILE)),
        settings=(*NO_BASE, ("queries", True)),
    ),
    Known(
        "other index files with queries in their names",
        {"index.html": "<a href='d/?q'><a href='d/?r/s'><a href='?t'><a href='\u00fc/'>", "d/home.html?q": "", "d/home.html?r/s": "", "default.htm?t": "", "\u00fc/home.html": ""},
        ["%C3%BC/ index.html:1:55", "?t index.html:1:42", "d/?q index.html:1:10", "d/?r/s index.html:1:25"],
        (
            *hint("?t", "./ has default.htm?t: --index-file default.htm"), *hint("d/?q", "d/ has home.html?q: --index-file home.html"),
            *hint("d/?r/s", "d/ has home.html?r/s: --index-file home.html"), *hint("%C3%BC/", "\u00fc/ has home.html: --index-file home.html"),
        ),
        settings=(*NO_BASE, ("queries", True)),
    ),
    Known(
        "folders without an index file, by the rules of a plain server",
        {"index.html": "<a href=d/><a href=d//><a href=%64/><a href=d/?q>", "d/a": ""},
        ["%64/ index.html:1:32", "d/ index.html:1:9", "d// index.html:1:20", "d/?q index.html:1:45"],
        (*hint("d/", NO_INDEX_FILE), *hint("d//", None), *hint("%64/", None), *hint("d/?q", None)),
        settings=(*NO_BASE, *host("plain")),
    ),
    Known(
        "the top without an index file", {"a.html": "<a href=.><a href=/?q>"}, ["./ a.html:1:9", "?q a.html:1:19"], (*hint("./", NO_INDEX_FILE), *hint("?q", NO_INDEX_FILE)),
    ),
    Known(
        "what --fallback html does not find",
        {"index.html": "<a href=a><a href=d/><a href=a/>", "a.html": "", "d/index.php": ""},
        ["a/ index.html:1:30", "d/ index.html:1:19"],
        (*hint("a/", None), *hint("d/", "d/ has index.php: --index-file index.php")),
        settings=(*NO_BASE, *FALLBACK),
    ),
    Known(
        "links as they are written",
        {
            "d/index.html": "<a href=' ../x&amp;y '><a href=./a\nb.html><a href='a\tb.html'><img srcset='z.png, ./z.png 2x'><a href=z#&lt;><a href=ftp:y><a href=HTP:y>\n"
            "<p style='a:url( &quot;./w.png&quot; )'><meta http-equiv=refresh content='0; url=&#39;/v&#39;'><a href=e#f><a href=//[x>",
            "d/e/index.html": "",
        },
        [
            "//[x d/index.html:3:116", "HTP:y d/index.html:2:96", "d/ab.html d/index.html:2:17", "d/a d/index.html:1:32", "d/e/#f d/index.html:3:104",
            "d/w.png d/index.html:3:11", "d/z d/index.html:2:67", "d/z.png d/index.html:2:40", "v d/index.html:3:75", "x&y d/index.html:1:10",
        ],
        (
            *written("x&y", "../x&y"), *written("d/a", "./a"), *written("d/ab.html", "ab.html"), *written("d/z.png", "z.png"), *written("d/z", "z#<"),
            *written("HTP:y", None), *written("d/w.png", "./w.png"), *written("v", "/v"), *written("d/e/#f", "e#f"), *written("//[x", None),
        ),
        settings=NO_BASE,
    ),
    Known(
        "long paths from the root, which are longer below the top",
        {"index.html": f"<a href='/{LONGEST}'>\n<a href='/{LONGEST}x'>\n<a href='/../%2e./{LONGEST}#x'>\n<a href='/d/../{LONGEST}'>"},
        [f"{2013 * '%C3%BC'} index.html:1:10", f"{2013 * '%C3%BC'} index.html:3:10"],
        total(pages=1, links=2, redirects=0, aliases=0),
        settings=NO_BASE,
    ),
    Known(
        "the rules of nginx",
        {"index.html": "<a href=d/><a href=a><a href='./index.html?x'>", "d/index.htm": "", "a.html": ""},
        ["a index.html:1:20", "d/ index.html:1:9"],
        (*total(pages=3, links=3, redirects=0, aliases=1), *hint("d/", "d/ has index.htm: --index-file index.htm")),
        settings=(*NO_BASE, *host("nginx")),
    ),
    Known(
        "the rules of GitHub Pages",
        {"index.html": "<a href=d/><a href=a>", "d/index.htm": "", "a.html": ""},
        ["d/ index.html:1:9"],
        total(pages=3, links=2, redirects=0, aliases=1),
        settings=(*NO_BASE, *host("github")),
    ),
    Known(
        "files without a known suffix, by the rules of a host",
        {"index.html": "<a href=f#x><a href=g.php><a href=h/>", "f": "<html><a href=no>", "g.php": "<!doctype html><a href=no>", "h/index.php": "<html><a href=no>"},
        ["h/ index.html:1:35"],
        (*total(pages=1, files=2, links=3, redirects=0, aliases=0), *hint("h/", "h/ has index.php: --index-file index.php")),
        settings=(*NO_BASE, *host("nginx")),
    ),
    Known(
        "the rules of Netlify", {"index.html": "<a href=a#x>", "a.html": ""}, ["a#x index.html:1:9"], total(pages=2, links=1, redirects=0, aliases=1),
        settings=(*NO_BASE, *host("netlify")),
    ),
    Known(
        "the rules of a plain server",
        {"index.html": "<a href=a><a href=a.html?x><a href=index.html><a href=d/>", "a.html": "", "d/index.htm": ""},
        ["a index.html:1:9", "a.html?x index.html:1:19", "d/ index.html:1:55"],
        (*total(pages=3, links=4, redirects=0, aliases=1), *hint("a", None), *hint("d/", "d/ has index.htm: --index-file index.htm")),
        settings=(*NO_BASE, *host("plain")),
    ),
]
