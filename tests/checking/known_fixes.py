"""Small folders with the bytes that `check --fix` gives their files, which were written by hand."""

from __future__ import annotations

from typing import Any, Dict, List, NamedTuple, Tuple, Union

from checking.known import NO_BASE, To

Files = Dict[str, Union[str, bytes, To]]


class Fixed(NamedTuple):
    """A folder, the files that change, and the notes."""

    name: str
    files: Files
    changed: Dict[str, Union[str, bytes]]
    notes: List[str] = []
    settings: Tuple[Tuple[str, Any], ...] = ()


def page(name: str, old: str, new: str, left: Union[int, str] = 0, *others: str) -> Fixed:
    """An index file with this text before and after, and other files. An old text that stays is the same as the new one."""
    files: Files = {"index.html": old, "d/index.html": "", "new/a.html": "", "new/b.png": "", **{other: "" for other in others}}
    return Fixed(name, files, {"index.html": new} if old != new else {}, [f"index.html: links left as they are: {left}"] if left else [], NO_BASE)


FIXED = [
    page("a folder without its slash", "<a href=d>1</a> <a href='d#x'>2</a> <a href=\"./d\">3</a> <a href=/d>4</a>", "<a href=d/>1</a> <a href='d/#x'>2</a> <a href=\"./d/\">3</a> <a href=/d/>4</a>"),
    page("a folder without its slash and with a query", "<a href=d?x><a href='d?#x'><a href=d/e?x>", "<a href=d/?x><a href='d/?#x'><a href=d/e?x>", 0, "d/e/x.png"),
    page("another spelling of a folder without its slash", "<a href=%64><a href=d>", "<a href=%64><a href=d/>"),
    page("a folder without an index file", "<a href=e>", "<a href=e>", 0, "e/x.png"),
    page("a page that was moved", "<a href='old/a.html'><a href=a.html#x?y><img src=\"old/b.png\">", "<a href='new/a.html'><a href=new/a.html#x?y><img src=\"new/b.png\">"),
    page("a page that was moved, with a query", "<a href=a.html?x#y><a href='a.html#?x'><a href='old/a.html?'>", "<a href=new/a.html?x#y><a href='new/a.html#?x'><a href='new/a.html?'>"),
    page("a page that was moved, with slashes in a query", "<a href=old/a.html?../b.png>", "<a href=new/a.html?../b.png>"),
    page("queries with escapes", "<a href='a.html?%41&amp;b'><a href='a.html?%41'><a href=%64?x>", "<a href='a.html?%41&amp;b'><a href='new/a.html?%41'><a href=%64?x>", 1),
    page("a path from the root, without BASE", "<a href=/old/a.html><a href=old/a.html><a href='\\c\\b.png'><a href=/d>", "<a href=/old/a.html><a href=old/a.html><a href='\\c\\b.png'><a href=/d/>"),
    page("two pages with the name", "<a href=a.html>", "<a href=a.html>", 0, "e/a.html"),
    page("a folder in place of a file, and a file in place of a folder", "<a href=d.html><a href=a/>", "<a href=d.html><a href=a/>", 0, "a.html"),
    page("the same path in another case", "<a href=NEW/a.HTML><a href='New/B.png?x#y'>", "<a href=new/a.html><a href='new/b.png?x#y'>"),
    page("the same name in another case, in another folder", "<a href=A.html><a href=old/B.png>", "<a href=A.html><a href=old/B.png>"),
    page("the same name in the same case, in a folder in another case", "<a href=New/a.html><a href=x/C.html>", "<a href=new/a.html><a href=o/C.html>", 0, "o/C.html", "c.html"),
    page("a folder in another case", "<a href=D/><a href='D/?x#y'><a href=D><a href=NEW/E/>", "<a href=d/><a href='d/?x#y'><a href=D><a href=new/e/>", 0, "new/e/index.html"),
    page("a folder of the same name in another folder", "<a href=old/d/><a href=old/D/><a href=old/d>", "<a href=old/d/><a href=old/D/><a href=old/d>"),
    page("two pages in another case", "<a href=e.html><a href=x/A.html>", "<a href=e.html><a href=x/A.html>", 0, "E.html", "E.HTML", "o/A.HTML"),
    page("one of several pages of the name, by its path in another case", "<a href=NEW/A.html><a href=O/a.html?x#y><a href=p/A.html>", "<a href=new/a.html><a href=o/a.html?x#y><a href=p/A.html>", 0, "o/a.html", "p/a.HTML", "P/a.html"),
    page("a suggestion that is an index file", "<a href=e/index.htm>", "<a href=e/index.htm>", 0, "f/index.htm"),
    page("character references", "<a href='old/a&#46;html'><a href=old/a.html>", "<a href='old/a&#46;html'><a href=new/a.html>", "1 (the first is at 1:10: it is not written as it is read, or follows another one in a list)"),
    page("white space in a link", "<a href=' old/a.html'><a href='old/a\n.html'><a href='old/a.html '>", "<a href=' old/a.html'><a href='old/a\n.html'><a href='new/a.html '>", 2),
    page("a list of links", "<img srcset='b.png 1x, ./b.png 2x'>", "<img srcset='new/b.png 1x, ./b.png 2x'>", 1),
    page("the same link twice in a list", "<img srcset='b.png 1x, b.png 2x'>", "<img srcset='new/b.png 1x, b.png 2x'>", 1),
    page("the beginning of another link in a list", "<img srcset='d.png 1x, d 2x'><a href=old/a.html>", "<img srcset='d.png 1x, d 2x'><a href=old/a.html>", "2 (the first is at 1:14: rewriting the file would change other links or text)", "d.png"),
    page("the first link of a tag whose attributes are read in another order", "<img srcset='b&#46;png 2x' src='old/b&#46;png'>", "<img srcset='b&#46;png 2x' src='old/b&#46;png'>", "2 (the first is at 1:14: it is not written as it is read, or follows another one in a list)"),
    page("a refresh", "<meta http-equiv=refresh content='0;url=d'>", "<meta http-equiv=refresh content='0;url=d'>", 1),
    page("styles in a document", "<style>p{a:url(b.png)}</style>\n<p style='b:url( \"c/b.png\" )'>", "<style>p{a:url(new/b.png)}</style>\n<p style='b:url( \"new/b.png\" )'>"),
    page("a document in a frame", "<iframe srcdoc='<a href=d>'></iframe><a href=d>", "<iframe srcdoc='<a href=d>'></iframe><a href=d/>", 1),
    page("a document in a frame that begins with the text of a link", "<iframe srcdoc='d<a href=d>'></iframe><a href=d>", "<iframe srcdoc='d<a href=d>'></iframe><a href=d>", "2 (the first is at 1:17: rewriting the file would change other links or text)"),
    page("a path with a space", "<a href=c.html>", "<a href=new%20name/c.html>", 0, "new name/c.html"),
    page("a path with a character that may end a link", "<a href=c.html>", "<a href=c.html>", "1 (the first is at 1:9: it has no path, or its new text would need escapes or lead elsewhere)", "a&b/c.html"),
    page("a path that would be a scheme", "<a href='old/x:y.html'><a href=d>", "<a href='old/x:y.html'><a href=d/>", 1, "x:y.html"),
    page("letters beyond ASCII before a link", "\u00fc\u65e5<a href=old/a.html>\U0001f514", "\u00fc\u65e5<a href=new/a.html>\U0001f514"),
    page("lines that end in CR and LF", "<p>\r\n<a\r\nhref=d>\r\n<a href=old/a.html>\r\n", "<p>\r\n<a\r\nhref=d/>\r\n<a href=new/a.html>\r\n"),
    page("a base", "<base href=s/><a href=a.html><a href=/d>", "<base href=s/><a href=a.html><a href=/d/>", "1 (the first is at 1:23: it has no path, or its new text would need escapes or lead elsewhere)"),
    page("a base with a folder", "<base href=/><a href=d><a href=a.html>", "<base href=/><a href=d/><a href=new/a.html>"),
    page("ASCII in windows-1252", "<meta charset=l1><a href=old/a.html>", "<meta charset=l1><a href=new/a.html>"),
    page("UTF-8 that is read as windows-1252", "<meta charset=l1>\u00fc<a href=old/a.html>", "<meta charset=l1>\u00fc<a href=old/a.html>", 1),
    page("no links in comments, scripts and templates", "<!-- <a href=d> --><script>'<a href=d>'</script><template><a href=d></template>", "<!-- <a href=d> --><script>'<a href=d>'</script><template><a href=d></template>"),
    Fixed("an index file in another case", {"index.html": "", "x/a.html": "<a href=../INDEX.html?q><a href=../Index.HTM>"}, {"x/a.html": "<a href=../index.html?q><a href=../Index.HTM>"}, settings=NO_BASE),
    Fixed(
        "documents in other folders",
        {"index.html": "", "s/t/u.html": "<a href=a.html><a href=../../d#x>", "s/t/v.html": "<a href=../../w.html><a href=./x.html>", "s/a.html": "", "s/t/y/x.html": "", "s/t/w.html": "", "d/index.html": ""},
        {"s/t/u.html": "<a href=../a.html><a href=../../d/#x>", "s/t/v.html": "<a href=w.html><a href=y/x.html>"}, settings=NO_BASE,
    ),
    Fixed(
        "files whose names have 255 bytes", {250 * "n" + ".html": "<a href=d>", 125 * "\u00fc" + ".html": "<a href=d>", "d/index.html": ""},
        {250 * "n" + ".html": "<a href=d/>", 125 * "\u00fc" + ".html": "<a href=d/>"}, settings=NO_BASE,
    ),
    Fixed(
        "the forms of links, with BASE",
        {
            "index.html": "<a href=/p/a.html><a href=//docs.test/p/old/a.html#q><a href=HTTP://docs.test:80/p/a.html#x><a href=http:a.html><a href=//docs.test/p/d><a href=/p/d#x>",
            "new/a.html": "", "d/index.html": "",
        },
        {"index.html": "<a href=/p/new/a.html><a href=//docs.test/p/new/a.html#q><a href=http://docs.test/p/new/a.html#x><a href=http://docs.test/p/new/a.html><a href=//docs.test/p/d/><a href=/p/d/#x>"},
        settings=(("base", "http://docs.test/p/"),),
    ),
    Fixed(
        "XHTML, SVG, a file without a suffix, and other files",
        {
            "index.html": "<img src=p.svg><a href=f><link rel=stylesheet href=s.css>", "x.xhtml": "<p><a href='d'/><a href='old/a.html'/></p>", "p.svg": "<svg><a xlink:href='a.html'/></svg>",
            "f": "<!doctype html><a href=d>", "s.css": "a{b:url(b.png)}", "feed.xml": "<feed><link href='d'/></feed>", "new/a.html": "", "new/b.png": "", "d/index.html": "",
        },
        {"x.xhtml": "<p><a href='d/'/><a href='new/a.html'/></p>", "p.svg": "<svg><a xlink:href='new/a.html'/></svg>", "f": "<!doctype html><a href=d/>"}, settings=NO_BASE,
    ),
    Fixed(
        "a page that links to the missing page itself", {"index.html": "<a href=old/a.html><a href=b.html>", "new/a.html": "<a href=../old/a.html>", "new/b.html": ""},
        {"index.html": "<a href=old/a.html><a href=new/b.html>"}, settings=NO_BASE,
    ),
    Fixed(
        "ignored targets", {"index.html": "<a href=old/a.html><a href=old/b.html><a href=d>", "c.html": "<a href=old/b.html>", "new/a.html": "", "new/b.html": "", "d/index.html": ""},
        {"index.html": "<a href=old/a.html><a href=old/b.html><a href=d/>", "c.html": "<a href=new/b.html>"}, settings=(*NO_BASE, ("ignores", ("old/a", "d", "index.html: old/b"))),
    ),
    Fixed(
        "symbolic links", {"index.html": "", "t/x.html": "<a href=/d>", "s.html": To("t/x.html"), "u": To("t"), "d/index.html": ""},
        {"t/x.html": "<a href=/d/>"}, ["s.html: not rewritten, because its path has a symbolic link"], NO_BASE,
    ),
    Fixed(
        "symbolic links to folders", {"index.html": "<a href=u><a href=u?x#y><a href=u/e><a href=w><a href=z>", "t/index.html": "", "t/e/index.html": "", "u": To("t"), "w": To("x"), "x/a.png": "", "z": To("../out"), "../out/index.html": ""},
        {"index.html": "<a href=u/><a href=u/?x#y><a href=u/e><a href=w><a href=z>"}, settings=NO_BASE,
    ),
    Fixed(
        "queries in the names of files", {"index.html": "<a href=a.html?x><a href=b.html?x><a href=d?x><a href=d>", "new/a.html": "", "new/a.html?x": "", "new/b.html": "", "d/index.html": ""},
        {"index.html": "<a href=a.html?x><a href=b.html?x><a href=d?x><a href=d/>"}, settings=(*NO_BASE, ("queries", True)),
    ),
    Fixed(
        "only the exact spelling of a URL", {"index.html": "<a href=a.html?x><a href=a.html><a href=d?x><a href=d>", "new/a.html": "", "d/index.html": ""},
        {"index.html": "<a href=a.html?x><a href=new/a.html><a href=d?x><a href=d/>"}, settings=(*NO_BASE, ("exact", True)),
    ),
    Fixed("bytes that are not UTF-8", {"index.html": b"\xe9<a href=d>", "d/index.html": "<a href=../d>"}, {"d/index.html": "<a href=../d/>"}, ["index.html: links left as they are: 1 (the first is at 1:10: the file is not in UTF-8, or begins with a byte order mark)"], NO_BASE),
    Fixed("a byte order mark", {"index.html": "\ufeff<a href=d>", "a.html": b"\xff\xfe" + "<a href=d>".encode("utf-16-le"), "d/index.html": ""}, {}, ["a.html: links left as they are: 1", "index.html: links left as they are: 1"], NO_BASE),
    Fixed("without styles", {"index.html": "<style>a{b:url(b.png)}</style><a href=d>", "new/b.png": "", "d/index.html": ""}, {"index.html": "<style>a{b:url(b.png)}</style><a href=d/>"}, settings=(*NO_BASE, ("styles", False))),
    Fixed("only what can be reached", {"index.html": "<a href=d>", "a.html": "<a href=d>", "d/index.html": ""}, {"index.html": "<a href=d/>"}, settings=(*NO_BASE, ("reachable", True))),
    Fixed("a rule of a host", {"index.html": "<a href=old/a><a href=d>", "new/a.html": "", "new/a": "", "d/home.html": ""}, {"index.html": "<a href=new/a><a href=d/>"}, settings=(*NO_BASE, ("fallback", True), ("indices", ("home.html",)))),
]
