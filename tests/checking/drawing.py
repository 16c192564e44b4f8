"""Random folders: odd names, links in many spellings, documents in several encodings, and symbolic links.

Also copies of a folder with one change in each document, and folders of many files.
"""

from __future__ import annotations

import html
import os
import shutil
import socket
from pathlib import Path
from random import Random
from typing import Any, List, NamedTuple, Tuple
from urllib.parse import quote as escaped

from checking import feeds
from checking.documents import TOOL
from checking.model import HOSTS

NAMES = """index.html index.html index.html a.html b.htm c d.txt e%20f.html g h.html \u00fc.html i?j.html k#l.html m+n.html [o].html p&q.html
r;s.html t=u.html v@w.html x:y.html ~z.html %.html %zz.html A.HTML A.html %41.html %2541.html %61.html .html .hidden ...html caf\u00e9 y.css y.svg
\u65e5\u672c.html 'q'.html "q".html <r>.html {s}.html |t|.html ^u.html `v`.html \\w.html x.xhtml y.svg z.css W.XHT .css u.svgz index.htm INDEX.HTML
index.html? %69ndex.html index%2ehtml a.html.gz a.html?b ?b # %2e %2E%2e""".split()
NAMES += """sitemap.xml sitemap-1.txt SiteMap_2.XML feed.xml x.rss y.atom Z.Atom x.xml index.xml sitemap.txt sitemap page-2.html page-10.html page-010.html
n2.png n10.png 7 07 default.html index.php Home.html about.html""".split()
NAMES += ["y.css", "\u00fc.css", "y.svg", "\u0085.html", "a b.html", " .html", "a\tb.html", "a\nb.html", "\x01.html", "\x1b[31m.html", "\x7f.html", "\u202ex.html", "\u2028"]
FOLDERS = ["", "", "", "sub/", "sub/deep/", "a.html.d/", "e f/", "%41/", "A/", "a/", "%61/", "\u00e4/", "q?r/", "h#/", "\x1b/", "sub/index.html/"]
BASES = [
    "", "sub/", "/", "http://docs.test/sub/", "//other.test/x/", "mailto:x", "data:x", "x y", "?q", "#f", "https:g", "../..", "http://", "\u00fc/",
    "sub/#\u00fc", "s%75b/", "./%2e/sub", "sub/?q", "index.html", "index.html?x", "/sub//", "/./sub/../sub/",
]
HEADS = ["", "", "", "<!doctype html>", "<html>", "\n<!-- c --><!DOCTYPE HTML>", "<?xml version='1.0'?><html>", "<!-- --> -->\n<html>"]
DECLARED = [
    "", "", "", "<meta charset=utf-8>", '<meta charset="windows-1252">', "<meta charset=iso-8859-1>", "<meta charset=koi8-r>",
    "<meta charset=utf-16>", "<meta charset=windows-1251>", "<meta charset=shift_jis>", "<meta charset=iso-8859-15>",
    '<meta name=a content="charset=l1">', "<!-- <meta charset=l1> --><!--><META/charset=' L1 '>", '<meta charset=utf8 content="charset=l1">',
    "<meta http-equiv=Content-Type content='a; charset Charset = l1;b'>", '<p x="<meta charset=l1>"></p x=">"><meta charset=x>', "<meta charset=''>",
    "<meta http-equiv=content-type content='charset=\"cp819\"' charset>", "<meta content=charset='l1 http-equiv=content-TYPE>", "<?x <meta charset=l1>",
]
ENDS = [
    "", "", "", "?", "?a=b", "?\u00fc", "?&uuml;&#1092;", "?%61", "?b", "#f", "#\u00fc", "#x", "?x#y", "?#x", "/", "/index.html", "/?", "//", "/.", "/..",
    "?" + "x" * 10, "?" + "x" * 4080, "?" + "x" * 4090, "?" + "x" * 5000,
]
OWN = ["", "", "?", "?x", "?x#y", "#", "#x", "?#x", ".", "./", "./?", "index.html", "index.html?x", "%69ndex.html", "..", "../", "../?x"]
FOREIGN = [
    " ", "\n x \t", "javascript:x", "data:," + "y" * 5000, "x#" + "z" * 5000, "mailto:\u00e9" + "\u00fc" * 3000, "%", "%f", "a\tb\nc", "http://[::1]/",
    "http:x", "HTTPS:/docs.test", "https:\\x", "&#128;", "//docs.test/sub", "http://docs.test/sub", "/sub?x", "e%20f?a%20b", "http://docs.test", "https://docs.test/", "/m%61nual/",
    "/manual", "/manual/a.html", "//", "http://[x/", "//x:70000/", "https://a b/?\u00fc", "http://[x#" + "z" * 5000, "http://[" + "z" * 5000, "htp://x", "Htp:x",
    "/", "/../x", "/%2e./sub/../a.html", "\\a.html", "\\/x", "/a\n.html", "../" * 40 + "x", "../" * 9 + "-/../x", "..//x?q=/-/", "../..#x", "file:///x",
    "c:\\x", "x:" + "\u00fc" * 3000, "xy:" + "z" * 5000 + "#x", "xy:#" + "z" * 5000, "ftp:x", "TEL:1",
]
FRAGMENTS = [
    "", "x", "x", "y", "X", "\u00fc", "%C3%BC", "%c3%bc", "a b", "a%20b", "a+b", "top", "TOP", "%74op", "top%20", ":~:text=x",
    "x:~:text=y", "y:~", "y&amp;z", "y&z", "%zz", "%", "%FF", "'", "&quot;", "\u65e5", "#x", "x#y", "\t", "x\n", "&#120;", "\0", "&NoBreak;", "<x>", "`",
    "a b%41", "\u00fc%79", "%78", "&#27;[31m", "/x", "!x/y", "%2Fx", "x/",
]
IDS = [
    "x", "x", "y", "\u00fc", "%C3%BC", "a b", "a+b", "TOP", "y&amp;z", "x:~:text=y", "", "A", "%", "\u65e5", "#x", " x", "&#120;",
    "<x>", "`", "&quot;", "a b%41", "\u00fc%79", "\u00fcy", "%78",
]
PIECES = [
    "<!-- <a href=gone.html id=x> -->", "<!--><p id=y>", "<script><!--<script></script><a href=gone1.html>--></script>", "<script>x</script>",
    "<title><a href=gone2.html></title>", "<textarea id=x><p id=in></textarea>", "<style>@import 'gone.css'</style>", "\n", "\n\n", "\r\n", "text",
    "<base target=x>", "<a name=x name=y>", "<b name=y>", "<p ID=x>", "<p id=x id=y>", "<a/id=y/href=gone3.html>", "</a href=gone4.html id=y>",
    "<svg><a xlink:href=gone5.svg></svg>", "<img srcset='gone6.png 1x, gone7.png 2x' src=gone8.png>", "<meta http-equiv=refresh content='0;url=gone9.html'>",
    "<style>@import url(gone41.css);p{background:url( 'gone42.png' )}</style>", "<p style='background:url(gone43.png)' title=x>", "<b style=\"src:url('#x')\">",
    "<p style='a:url(&quot;gone44.png&quot;) /* url(no) */'>", "<svg><style>/**/@IMPORT/**/'gone45.css'</style><use href='y.svg#x'/><use href=y.svg#z>",
    "<style>/* url(no1) */ p{content:'url(no2)'} @import/**/\"gone46.css\";</style>", "<template><style>@import 'gone47.css'</style></template>",
    "<link rel=stylesheet href=z.css>", "<link rel=stylesheet href='y.css#x'>", "<title/><a href=gone48.html>", "<script/><a href=gone49.html>", "<a id=x/>",
    "<a href=../../gone50.html><a href='/gone51.html#x'>", "<a href='\\gone52.html'><a href='../gone53.html?/'>", "<img src=../../../gone54.png>",
    "<template/><a href=gone55.html>", "<template><a href=gone31.html><p id=x></template>", "<template id=y>", "</template>", "<template shadowrootmode=open><a href=gone32.html></template>",
    "<input src=gone33.png><input type=image src=gone34.png formaction=gone35.html>", "<meta name=twitter:image content=gone36.png>",
    "<button formaction='gone37.html'>", "<img longdesc=gone38.html src=gone39.png><param name=movie value='gone40'>",
    "<link rel=preconnect href=gone10.css>", "<link rev=made href=no10>", "<link itemprop=x href=gone10.html>", "<a href='gone11.html", "<p title=\"", "<a href=\n\n  'gone12.html'>", "\u00fc<a href=gone13.html>",
    "<a\n href=gone14.html\n>", "\u65e5\u672c<img src=gone15.png>", "<!doctype html>", "<![CDATA[<a href=gone16.html>]]>", "\t<a href=gone17.html>",
    "<a href=http://other.test/a>", "<img src=HTTP://Other.test:80/a#b><a href='//other.test/'>", "<a href=https://docs.test.org/?a&amp;b>",
    "<a href=https://docs.test/x><a href=http://www.docs.test/>", "<a href=http://docs.test:8080/x><a href=http://docs.tes/>",
    "<a href=http://me@docs.test/x><a href=//docs.test.org/>", "<a href=http://docs.test:80/gone18.html>", "<a href><a href id=w><a\nhref = ><img src=''>",
]
TARGETS = [
    ".", "..", "sub", "sub/", "./a", "../site", "../site/sub", "../site/a.html", "a.html", "index.html", "linked", "gone", "../site2", "../site2/in.html",
    "../out.html", "../gone.html", "/dev/null", "../site2/back", "../site2/sub", "../site2/again",
]
LINKED = ["linked", "linked.html", "linked.html", "index.html", "sub/linked", "a/linked.html"]


def spelled(draw: Random, name: str) -> str:
    """A name with its special characters, and some others, as percent-escapes, and seldom with other slashes."""
    share = draw.choice([0, 0, 0.1, 0.5])
    special = draw.choice(["%?#", "%?#\\ ", "%?#\\\"<>`{}^ "])
    letters = []
    for letter in name:
        if letter in special or not letter.isprintable() or letter != "/" and draw.random() < share:
            escapes = (draw.choice(["%{:02x}", "%{:02X}"]).format(byte) for byte in letter.encode("utf-8", "surrogateescape"))
            letters.append("".join(escapes))
        elif letter == "/" and draw.random() < 0.04:
            letters.append(draw.choice(["%2F", "%2f", "//"]))
        else:
            letters.append(letter)
    return "".join(letters)


def path_to(draw: Random, name: str, place: str) -> str:
    """A path from a document in the folder `place` to a name: relative or absolute, sometimes with needless segments."""
    kind = draw.random()
    if kind < 0.15:
        return name
    if kind < 0.25:
        return draw.choice(["/", "/guide/", "/guide/", "//docs.test/", "http://DOCS.test:80/", "http://docs.test/manual/"]) + name
    up = "../" * place.count("/")
    if kind < 0.35:
        middle = draw.choice(["./", "x/../", "%2e/", "/", ".//", "sub/../", "sub/%2e%2E/", "\\", "..\\", "%2F"])
        return up + (name.replace("/", "/" + middle) if "/" in name else middle + name)
    return up + name


def random_link(draw: Random, names: List[str], place: str) -> str:
    """A random link of a document in the folder `place`: to a file, to a folder, to the document itself, or any text."""
    kind = draw.random()
    if kind < 0.15:
        return draw.choice(OWN)
    if kind < 0.25:
        return draw.choice(FOREIGN)
    name = draw.choice(names)
    if kind < 0.4:
        return path_to(draw, name, place)  # as it is, without escapes
    if kind < 0.7:
        folder = name.rpartition("/")[0] + "/"
        name = draw.choice([name, folder, folder, folder[:-1], folder + "index.html"])
    return path_to(draw, spelled(draw, name.lstrip("/")), place) + draw.choice(ENDS)


class Documents:
    """Makes random documents."""

    def __init__(self, wild: float) -> None:
        self.wild = wild

    def random_document(self, draw: Random, _: bool) -> str:
        """A random document with ids, fragments and links to files that may exist."""
        return "".join(self.piece(draw) for _ in range(draw.randint(1, 20)))

    def piece(self, draw: Random) -> str:
        """A random piece of a document."""
        if draw.random() < self.wild:
            return draw.choice(PIECES)
        quote = draw.choice(["'", '"'])
        if draw.random() < 0.3:
            value = draw.choice(IDS).replace(quote, "")
            return f"<{draw.choice(['p', 'p', 'h1', 'a'])} {draw.choice(['id', 'id', 'name', 'ID'])}={quote}{value}{quote}>"
        name = draw.choice(["", "", *FOLDERS]) + draw.choice(["", *NAMES]) if draw.random() < 0.8 else ""
        link = name.replace(quote, "") + draw.choice(["", "", "#", "#", " #"]) + draw.choice(FRAGMENTS).replace(quote, "")
        return draw.choice(["", "", " ", "\n"]) + f"<a href={quote}{link}{quote}>"


def random_file(draw: Random, documents: Any, names: List[str], name: str) -> bytes:
    """The bytes of a random file with this name."""
    if name.endswith(".css"):
        return random_sheet(draw, names, name[:name.rfind("/") + 1])
    if feeds.is_sitemap(name.rpartition("/")[2]) and draw.random() < 0.5:
        return random_sitemap(draw, names, name.lower().endswith(".txt"))
    if name.lower().endswith(FEEDS) and draw.random() < 0.9:
        return random_feed(draw, names, name[:name.rfind("/") + 1], name.lower().endswith(".txt"))
    if draw.random() < 0.1:
        return draw.choice([b"", b"plain", bytes(draw.randrange(256) for _ in range(200)), b"<html", b"\xef\xbb\xbf<html>"])
    text = draw.choice(HEADS) + draw.choice(DECLARED)
    if draw.random() < 0.15:
        text += f'<base href="{draw.choice(BASES)}">'
    place = name[:name.rfind("/") + 1]
    for _ in range(draw.randint(0, 12)):
        link = random_link(draw, names, place).replace('"', "&quot;")
        text += f'<a href="{link}">x</a>'
    for sheet in (one for one in names if one.endswith(".css") and draw.random() < 0.4):
        text += f'<link rel=stylesheet href="{path_to(draw, spelled(draw, sheet), place)}">'
    if draw.random() < 0.5:
        text += documents.random_document(draw, draw.random() < 0.5)
    if draw.random() < 0.15:
        text += random_frame(draw, documents, names, place)
    encoding = draw.choice(["utf-8"] * 6 + ["cp1252", "latin-1", "utf-16-le", "utf-16-be", "utf-8-sig"])
    mark = {"utf-16-le": b"\xff\xfe", "utf-16-be": b"\xfe\xff"}.get(encoding, b"")
    return mark + text.encode(encoding, "replace") + (b"\xff\x81" if draw.random() < 0.05 else b"")


def random_frame(draw: Random, documents: Any, names: List[str], place: str) -> str:
    """A frame with a random document in it."""
    links = "".join(f'<a href="{random_link(draw, names, place)}">' for _ in range(draw.randint(0, 4)))
    inner = draw.choice(["", "", "<base href=sub/>", "<base>", "<template>", "<svg>"]) + links + documents.random_document(draw, False)
    inner = html.escape(inner) if draw.random() < 0.7 else inner.replace('"', "&quot;")
    return f'<iframe {draw.choice(["", "src=a.html ", "SRCDOC=x "])}srcdoc="{inner}">' + draw.choice(["</iframe>", "</iframe>", "</iframe>", ""])


# In a style sheet, around a link, and elsewhere
SHEET_LINKS = ["url({})", "url( '{}' )", 'URL("{}"', "@import '{}';", '@import/* x */ "{}" screen;', "@import url({}) print;", "a{{b:url({}),url(gone1.png)}}"]
SHEET_PIECES = [
    "/* url(no3) */", "content:'url(no4)'", 'content:"@import";', "@import;'no5'", "\n", "\r\n", "a{color:#fff}", "\u00fc{}", "<!-- -->", "/* \n", "*/", "}",
    'content:"\\"url(no6)";', "content:'\\\\';", "a{b:no-url(no7)}", "#url(no8)", "content:'url(no9)\n", '}\\"{', "@media print{", "url(#x)", "url(y.svg#z)", "url(data:,x)", "@font-face{src:url(gone2.eot?#iefix)}", "@imports 'no9'",
]


def without_escapes(link: str) -> str:
    """A link without what would be an escape, or break off a URL, in a style sheet."""
    return "".join(one for one in link if one not in "\\'\"() \x7f" and one >= " ")


def with_escapes(draw: Random, link: str, shape: str) -> str:
    """A link with escapes for what would end or break off the URL or the text in quotes that it is in, and for some other characters."""
    ends = '"\\\n\r\f' if '"{}"' in shape else "'\\\n\r\f" if "'{}'" in shape else None
    share = draw.choice((0, 0, 0, 0.1))
    letters = []
    for one in link:
        is_end = one in ends if ends else one <= " " or one in "\\'\"()\x7f"
        letters.append(escaped_in_sheet(draw, one) if is_end or draw.random() < share else one)
    return "".join(letters)


def escaped_in_sheet(draw: Random, letter: str) -> str:
    """A character as an escape of a style sheet."""
    number = f"{ord(letter):x}"
    forms = [number + " ", number + "\n", number + "\r\n", number.upper() + "\t", number.zfill(6)]
    return "\\" + draw.choice(forms if letter in "0123456789abcdefABCDEF\n\r\f" else [letter, *forms])


def random_sheet(draw: Random, names: List[str], place: str) -> bytes:
    """The bytes of a random style sheet in the folder `place`, without broken URLs."""
    text = draw.choice(["", "", "", '@charset "utf-8";', '@charset "L1";', '@charset "koi8-r";', '@charset "utf-16";', "@charset 'l1';"])
    for _ in range(draw.randint(0, 8)):
        shape, link = draw.choice(SHEET_LINKS), random_link(draw, names, place)
        text += draw.choice([shape.format(with_escapes(draw, link, shape)), draw.choice(SHEET_PIECES), draw.choice(SHEET_PIECES)])
    encoding = draw.choice(["utf-8"] * 5 + ["cp1252", "utf-16-le", "utf-8-sig"])
    return {"utf-16-le": b"\xff\xfe"}.get(encoding, b"") + text.encode(encoding, "replace") + (b"\xff" if draw.random() < 0.05 else b"")


FEEDS = (".xml", ".rss", ".atom", ".txt")
# In a feed: roots, what is around a link, and other markup
ROOTS = [
    "<urlset xmlns='http://www.sitemaps.org/schemas/sitemap/0.9'>", "<urlset>", "<s:urlset>", "<sitemapindex>", "<rss version='2.0'>", "<rss>", "<rdf:RDF>", "<RDF>",
    "<feed xmlns='http://www.w3.org/2005/Atom'>", "<feed>", "<feed>", "<html>", "<URLSET>", "<opml>", "<loc>", "<urlset/>",
]
FEED_LINKS = [
    "<url><loc>{}</loc></url>", "<loc>{}</loc>", "<loc>\n  {}\n</loc>", "<image:image><image:loc>{}</image:loc></image:image>", "<loc><![CDATA[{}]]></loc>",
    "<link>{}</link>", "<link> {} </link>", "<link>\n<![CDATA[ {} ]]>\n</link>", "<link><![CDATA[{}]]></link>", "<link href='{}'/>", '<link rel="self" href="{}">x</link>',
    "<enclosure url='{}' length='1'/>", '<content src="{}"/>', "<atom:link href='{}'/>", "<loc>{}<!-- x --></loc>", "<loc>{}<b>no</b></loc>", "<link>{}", "<loc x='>'>{}</loc>",
    "<link a='1' href = '{}' href='no'/>", "<guid>{}</guid>", "<LOC>{}</LOC>", "<x:link x:href='no' href='{}'/>",
]
FEED_PIECES = [
    "<!-- <loc>no</loc> -->", "<!--><loc>gone</loc>", "<?><loc>gone</loc>", "a < b", "<![CDATA[<loc>no</loc>]]>", "<?xml-stylesheet href='no'?>", "<loc/>", "<loc></loc>", "<loc> <!-- --> </loc>", "<link/>", "<link href=''/>",
    "text", "\n", "\r\n", "</x>", "<lastmod>2026-01-01</lastmod>", "<description>&lt;a href='no'&gt;</description>", "<loc>&#x67;one&#45;1</loc>", "<loc>&#0;&nbsp;&amp</loc>",
    "<link href='&quot;&apos;&#x26;'/>", "<loc>x<!-- y -->z<?w?></loc>", "<loc><!-- y -->z</loc>", "\u00fc", "<content src='gone.png'/>", "<enclosure url=\"gone.mp3\"/>",
    "<link>gone&amp;#x</link>", "<loc>\t</loc>", "<link href=' '/>", "<id>no</id>", "<loc>http://[bad/</loc>", "<link>htp:x</link>", "<link href='file:x'/>",
]
FEED_STARTS = ["", "", "<?xml version='1.0' encoding='UTF-8'?>\n", "<?xml version='1.0'?>", "<!-- <urlset> -->\n", "<!DOCTYPE rss [<!ENTITY x 'y'>]>", "\n", "<!DOCTYPE feed>", "x"]


def random_sitemap(draw: Random, names: List[str], is_list: bool) -> bytes:
    """The bytes of a sitemap that lists most of the files, or of a list of their URLs."""
    base = draw.choice(("http://docs.test/", "http://docs.test/", "http://docs.test/manual/", ""))
    urls = [base + spelled(draw, name) for name in names if draw.random() < 0.8]
    if is_list:
        return "".join(url + "\n" for url in urls).encode("utf-8", "replace")
    return f"<urlset>{''.join(f'<url><loc>{html.escape(url)}</loc></url>' for url in urls)}</urlset>".encode("utf-8", "replace")


def random_feed(draw: Random, names: List[str], place: str, is_list: bool) -> bytes:
    """The bytes of a random sitemap or feed, or of a list of URLs."""
    text = "" if is_list else draw.choice(FEED_STARTS) + draw.choice(ROOTS)
    for _ in range(draw.randint(0, 8)):
        link = random_link(draw, names, place)
        if draw.random() < 0.3:
            link = "http://docs.test/" + link.lstrip("/")
        if is_list:
            text += draw.choice(["", "", " ", "\t"]) + link.replace("\n", "") + draw.choice(["\n", "\n", "\r\n", "\n\n", " \n", ""])
            continue
        shape = draw.choice([*FEED_LINKS, *FEED_PIECES])
        for letter, reference in (("&", "&amp;"), ("<", "&lt;"), ("'", "&apos;"), ('"', "&#34;")) if "CDATA" not in shape else ():
            link = link.replace(letter, reference)
        text += shape.format(link.replace("]]>", "")) if "{" in shape else shape
    encoding = draw.choice(["utf-8"] * 6 + ["cp1252", "utf-16-le", "utf-16-be", "utf-8-sig"])
    mark = {"utf-16-le": b"\xff\xfe", "utf-16-be": b"\xfe\xff"}.get(encoding, b"")
    return mark + text.encode(encoding, "replace") + (b"\xff" if draw.random() < 0.05 else b"")


def write(path: Path, content: bytes) -> None:
    """Writes a file, and the folders above it, unless something else has one of these names."""
    if not os.path.lexists(path) and not any(up.is_file() for up in path.parents):
        path.parent.mkdir(parents=True, exist_ok=True)
        path.write_bytes(content)


def draw_files(draw: Random, documents: Any, top: Path) -> None:
    """Fills a folder with random files."""
    names = sorted({draw.choice(FOLDERS) + draw.choice(NAMES) for _ in range(draw.randint(1, 14))})
    names += draw.choice(([], [], ["sitemap.xml"], ["sub/sitemap.txt"]))
    for name in names:
        write(top / name, random_file(draw, documents, names, name))


def draw_nest(draw: Random, top: Path) -> None:
    """Adds nested folders whose index files have links to the next folder in several spellings."""
    name = draw.choice(["a", "a", "%41", "\u00fc", "d e", "q?r"])
    folder = draw.choice(["", "", "sub/"])
    for _ in range(draw.randint(2, 8)):
        links = [spelled(draw, name) + draw.choice(["/", "/", "", "/?x", "?x", "/index.html", "/index.html?y", "//"]) for _ in range(draw.randint(2, 4))]
        links += [draw.choice(OWN) for _ in range(draw.randint(0, 2))] + ["gone" for _ in range(draw.randint(0, 1))]
        text = "".join(f'<a href="{link}">' for link in links)
        write(top / folder / "index.html", text.encode())
        folder += name + "/"
    write(top / folder / draw.choice(["index.html", "index.html", "a.html"]), b"<p id=x>")


def draw_symbolic_links(draw: Random, top: Path) -> None:
    """Adds symbolic links, and something outside of the folder to which some lead."""
    write(top.parent / "out.html", b"<a href=x><a href=a.html>")
    write(top.parent / "site2/in.html", b"<a href=../a.html><a href=gone>")
    write(top.parent / "site2/sub/index.html", b"<a href=../in.html><a href=../back/><a href=gone>")
    os.symlink("../site", top.parent / "site2/back")
    os.symlink("sub", top.parent / "site2/again")
    for _ in range(draw.randint(1, 3)):
        place = top / draw.choice(LINKED)
        if place.parent.is_dir() and not os.path.lexists(place):
            up = "../" if place.parent != top and draw.random() < 0.8 else ""
            target = up + draw.choice(TARGETS)
            if draw.random() < 0.2 and not target.startswith("/"):
                target = os.path.normpath(place.parent / target)
            os.symlink(target, place)


NESTED = ["a", "b", "a/c", "a/c/d", "b/\u00fc", "sub", "sub/a.html"]
LINK_NAMES = ["x", "x", "y", "%41", "\u00fc", "q?r", "c", "index.html"]


def draw_linked_folders(draw: Random, top: Path) -> None:
    """Adds folders with symbolic links to each other and to folders above them, and pages with links through these."""
    folders = [folder for folder in draw.sample(NESTED, draw.randint(2, 5)) if not any(up.is_file() for up in (top / folder / "x").parents)]
    for folder in folders:
        (top / folder).mkdir(parents=True, exist_ok=True)
    for _ in range(draw.randint(1, 6)):
        place = top / draw.choice(["", *folders]) / draw.choice(LINK_NAMES)
        if not os.path.lexists(place):
            target = draw.choice([*folders, *folders, "", "..", "../site2", "a/x", "x/y"])
            os.symlink(os.path.relpath(top / target, place.parent), place)
    for folder in ["", *folders]:
        links = [linked_path(draw, folder) for _ in range(draw.randint(1, 5))]
        text = "<p id=x>" + "".join(f'<a href="{link}">' for link in links)
        write(top / folder / draw.choice(["index.html", "index.html", "p.html"]), text.encode())


def linked_path(draw: Random, place: str) -> str:
    """A random path through folders, from a document in the folder `place`."""
    names = [draw.choice([*LINK_NAMES, "a", "b", "d", "sub", ".."]) for _ in range(draw.randint(1, 4))]
    path = "/".join([*names, draw.choice(["", "", "index.html", "p.html", "gone.html", "in.html"])])
    return path_to(draw, spelled(draw, path), place and place + "/") + draw.choice([*ENDS[:14], "#x", "#y"])


# The prefixes of links that leave a folder: without BASE, and with the BASE http://docs.test/manual/
PREFIXES = {
    True: ["../x", "../x/", "../x/y", "..", "../..", "../../doc", "../site/", "../\u00fc", "../%C3%BC/z", "../a b", "../sub//", "../../../q%3Fr"],
    False: ["/x", "../x/y", "/", "http://docs.test/", "//docs.test/guide/", "http://DOCS.test:80/sub", "../\u00fc/", "/guide/sub", "/manual2", "/e f"],
}
SAME = [{"../x", "../x/"}, {"/", "http://docs.test/"}]  # prefixes that are the same


def random_prefixes(draw: Random, is_rooted: bool) -> List[str]:
    """One to three different prefixes."""
    prefixes = draw.sample(PREFIXES[is_rooted], draw.choice((1, 1, 2, 3)))
    return prefixes[:1] if any(len(same.intersection(prefixes)) > 1 for same in SAME) else prefixes


def add_links_out(draw: Random, top: Path, maps: List[Tuple[str, Path]]) -> None:
    """Adds two documents with links to the files of other folders, each below a prefix."""
    for place in ("", "out/"):
        links = [link_out(draw, prefix, folder, place) for prefix, folder in maps for _ in range(draw.randint(1, 6))]
        write(top / place / "out.html", "\n".join(f'<a href="{html.escape(link)}">x</a>' for link in links).encode("utf-8", "replace"))


def link_out(draw: Random, prefix: str, folder: Path, place: str) -> str:
    """A link from a document in the folder `place` to a file of another folder, or to one that is not there."""
    names = sorted(os.fsdecode(os.path.relpath(path, folder)) for path in folder.rglob("*"))
    name = draw.choice([*names, *names, "", "gone.html", "index.html", "sub/", "../x"])
    up = "../" * place.count("/") if prefix.startswith(".") else ""
    slash = "" if prefix.endswith("/") or not name and draw.random() < 0.5 else "/"
    return up + prefix + slash + spelled(draw, name) + draw.choice([*ENDS[:14], "#gone"])


# URLs that are not that of the folder, below which a site may be
WHOLE = ["http://other.test/", "https://docs.test/", "http://docs.test/p/q/", "HTTPS://Docs.Test:443/\u00fc/", "http://other.test/1/2/3/4/5/", "http://other.test/1/2/3/4/5/6/", "//other.test/p/"]


def add_whole_links(draw: Random, top: Path) -> None:
    """Adds a document with many links to the files of the folder as if these were below another URL, and with some below a second one."""
    names = sorted(os.path.relpath(path, top) for path in top.rglob("*") if path.is_file())
    urls, share, odd = draw.choices(WHOLE, k=2), draw.choice([0, 0, 0, 0.3, 0.5]), draw.choice([0.1, 0.1, 0.3, 0.6])
    links = []
    for _ in range(draw.choice([2, 4, 40, 80, 150, 150])):
        name = draw.choice(names)
        name = escaped(name.encode("utf-8", "surrogateescape"), TOOL.IN_NAME + "/") if draw.random() > odd else draw.choice([spelled(draw, name), "", "gone.html", "sub/gone", "index.html"])
        links.append(urls[draw.random() < share] + name + draw.choice(ENDS[:12]))
    write(top / "whole.html", "".join(f'<a href="{html.escape(link)}">' for link in links).encode("utf-8", "replace"))


def in_other_case(draw: Random, name: str) -> str:
    """A path, or its last name, with its ASCII letters in another case."""
    begin, change = draw.choice([0, name.rfind("/", 0, -1) + 1]), draw.choice([str.upper, str.lower, str.swapcase])
    return name[:begin] + "".join(change(letter) if letter.isascii() else letter for letter in name[begin:])


def in_other_form(name: str) -> str:
    """A folder in place of an HTML file, and a file in place of a folder or its index file."""
    ends = {"/index.html": ".html", ".html": "/", "/": ".html"}
    return next((name[:-len(old)] + new for old, new in ends.items() if name.endswith(old)), name + "/")


# Links that lack a scheme or a part of it, and others that are like them
INCOMPLETE = [
    "us@a.test", "us@A.b.test", "x+1@a-b.test", "us@a.test?x", "a@b", "logo@2x.png", "@a.test", "us@.test", "a@b@c.test", "\u00fc@a.test", "us@a.test/", "www.a.test", "WWW.a.test", "www", "http//a.test/x",
    "https//a.test", "http/a.test", "Http//a.test", "./www.a.test", "sub/us@a.test", "www.us@a.test", "us@a.test#x", " us@a.test\n",
]


def add_misspelled_links(draw: Random, top: Path) -> None:
    """Adds a document with incomplete links, and with links to files and folders in another case or form, some of them to other folders than these are in."""
    names = sorted(os.path.relpath(path, top) for path in top.rglob("*") if path.is_file())
    names += sorted({os.path.dirname(name) + "/" for name in names} - {"/"})
    place, links = draw.choice(["", "", "sub/"]), draw.sample(INCOMPLETE, draw.randint(2, 6))
    for _ in range(draw.randint(1, 8)):
        name = draw.choice(names)
        name = in_other_form(name) if draw.random() < 0.3 else in_other_case(draw, name)
        name = draw.choice([name, name, name[name.rfind("/", 0, -1) + 1:], "old/" + name])
        links.append("../" * place.count("/") + spelled(draw, name) + draw.choice(ENDS[:12]))
    write(top / place / "misspelled.html", "".join(f'<a href="{html.escape(link)}">' for link in links).encode("utf-8", "replace"))


# Where files are moved
NEW_FOLDERS = ["moved/", "moved/", "moved/\u00fc/", "new name/", "sub/deep/", "a&b/", "it's/", "100%/", ""]
# Around a link in a document with moved links
AROUND = [
    '<a href="{}">x</a>', "<a href='{}'>", "<a href={}>", "<a href=' {}'>", "<a href='{} '>", "<a\r\nhref='{}'>\r\n", "\u00fc<img src='{}'>\n", "<img srcset='{} 1x, {} 2x'>",
    "<img srcset='{0} 1x, a 2x' src='{0}'>", "<p style='a:url({})'>", "<style>a{{b:url( \"{}\" )}}</style>\n", "<meta http-equiv=refresh content='0;url={}'>", "<svg><a xlink:href='{}'/></svg>",
    "<a href='{}'>{}</a>\U0001f514", "<!-- <a href='{}'> -->", "<template><a href='{}'></template>", "<iframe srcdoc='&lt;a href={}>'></iframe>", "<link rel=stylesheet href='{}'>", "<a name='{}'>",
]
MOVED_HEADS = ["", "", "", "", "<!doctype html>\n", "<meta charset=l1>", "<meta charset=koi8-r>", "<base href='{}'>", "\ufeff"]


def move_files(draw: Random, top: Path, root: str) -> None:
    """Moves some files of a folder to other folders, and adds documents with links to where they were, and to folders. `root` is the path of BASE."""
    files = sorted(path for path in top.rglob("*") if path.is_file() and not path.is_symlink() and path.name.isprintable())
    names = []
    for path in draw.sample(files, min(len(files), draw.randint(1, 4))):
        new = top / draw.choice(NEW_FOLDERS) / draw.choice([path.name, path.name, f"m{len(names)}.html", f"m{len(names)}.svg"])
        if not os.path.lexists(new) and not any(os.path.lexists(up) and not up.is_dir() for up in new.parents):
            new.parent.mkdir(parents=True, exist_ok=True)
            path.rename(new)
            names.append(draw.choice(["", "", "old/", "sub/"]) + new.name if draw.random() < 0.5 else path.relative_to(top).as_posix())
    folders = sorted(os.path.relpath(path.parent, top) for path in top.rglob("index.html") if path.parent != top)
    names += 2 * folders
    kept = [path.relative_to(top).as_posix() for path in files if path.is_file()] + folders
    names += [in_other_case(draw, name) for name in draw.sample(kept, min(len(kept), draw.choice([0, 0, 1, 2])))]
    for place in draw.sample(["", "sub/", "fixed/deep/", "moved/"], draw.randint(1, 3)):
        text = draw.choice(MOVED_HEADS).format(draw.choice(BASES)) + "".join(moved_link(draw, names, place, root) for _ in range(draw.randint(1, 8)))
        name = draw.choice(["fixed.html", "fixed.html", "fixed.xhtml", "fix it.html", "fixed\n.html"])
        write(top / place / name, text.encode(draw.choice(["utf-8"] * 5 + ["cp1252"]), "replace"))
        if draw.random() < 0.4 and (top / place / name).is_file() and not os.path.lexists(top / place / "linked.html"):
            os.symlink(name, top / place / "linked.html")


def moved_link(draw: Random, names: List[str], place: str, root: str) -> str:
    """Markup with a link from a document in the folder `place` to one of these names, in a random form."""
    name = spelled(draw, draw.choice(names)) if names and draw.random() < 0.9 else draw.choice(["gone.html", "x/index.html", "."])
    front = draw.choice(["../" * place.count("/")] * 4 + [root, root.replace("/", "\\"), "//docs.test" + root, "http://docs.test" + root, "HTTP:/" + root])
    link = front + name + draw.choice(["", "", "", "#x", "?q", "?q#x", "#x?q", "/", "?"])
    around = draw.choice(AROUND)
    link = without_escapes(link) if "url(" in around else link
    link = html.escape(link) if draw.random() < 0.8 or '"' in link or "'" in link else link.replace(".", "&#46;", 1)
    return around.replace("{}", link) if "{}" in around and "{{" not in around else around.format(link)


class Host(NamedTuple):
    """Random rules of a host."""

    name: str  # of the host whose rules they are, if the option names one
    exact: bool
    fallback: bool  # a file is also found without its suffix .html
    index_files: Tuple[str, ...]  # in place of the usual ones, if there are any


def random_host(draw: Random) -> Host:
    """Random rules of a host. Those that exclude each other are not drawn together."""
    if draw.random() < 0.2:
        name = draw.choice(list(HOSTS))
        return Host(name, HOSTS[name].get("exact", False), HOSTS[name].get("fallback", False), HOSTS[name]["indices"])
    exact = draw.random() < 0.2
    names: List[Tuple[str, ...]] = [(), (), (), ("index.htm",), ("a.html", "index.html"), ("index.htm", "index.html")]
    return Host("", exact, not exact and draw.random() < 0.25, draw.choice(names))


def random_options(draw: Random) -> List[str]:
    """Random options of `mercator site`."""
    host = random_host(draw)
    options = [f"--host={host.name}"] if host.name else host_options(host)
    options += ["--queries"] if draw.random() < 0.3 else []
    return options + (["--follow"] if draw.random() < 0.3 else [])


def host_options(host: Host) -> List[str]:
    """The options for rules that have no name."""
    options = ["--exact"] if host.exact else []
    options += ["--fallback", "html"] if host.fallback else []
    return options + [f"--index-file={name}" for name in host.index_files]


def draw_folder(draw: Random, documents: Any, top: Path) -> None:
    """Fills a folder. Half of the folders without an index file get one that links to their documents."""
    if draw.random() < 0.25:
        draw_nest(draw, top)
    draw_files(draw, documents, top)
    if draw.random() < 0.4:
        draw_symbolic_links(draw, top)
    if draw.random() < 0.25:
        draw_linked_folders(draw, top)
    if draw.random() < 0.1:
        add_odd(draw, top)
    if draw.random() < 0.5 and not os.path.lexists(top / "index.html"):
        names = sorted(path.relative_to(top).as_posix() for path in top.rglob("*.html") if path.is_file())[:12]
        links = [f'<a href="{escaped(name.encode("utf-8", "surrogateescape"))}">x</a>\n' for name in names]
        (top / "index.html").write_text("".join(links) + "<p id=x>", encoding="utf-8")
    if not any(path.is_file() for path in top.rglob("*")):
        write(top / "only.html", b"")


def add_odd(draw: Random, top: Path) -> None:
    """Adds rare things: long names, a name that is not UTF-8, a FIFO, a socket, and symbolic links to nothing or to themselves."""
    (top / ("n" * 250 + ".html")).write_text("<a href=x#y>", "utf-8")
    deep = "/".join([draw.choice(["%" * 200, "\u00fc" * 100])] * draw.randint(5, 8))
    write(top / deep / "index.html", b"<a href=?x><a href=gone>")
    write(top / "deep.html", f'<a href="{deep}/"><a href="{deep}/?y"><a href="{escaped(deep)}/?z"><a href="{escaped(deep)}/">'.encode())
    for target, name in (("itself.html", "itself.html"), ("gone.html", "dead.html")):
        if not os.path.lexists(top / name):
            os.symlink(target, top / name)
    with open(os.path.join(os.fsencode(top), b"caf\xe9.html"), "wb") as file:
        file.write(b"<a href=x>")
    os.mkfifo(top / "fifo.html")
    here = os.getcwd()
    os.chdir(top)  # because the path of a socket must be short
    try:
        with socket.socket(socket.AF_UNIX) as made:
            made.bind("socket.html")
    finally:
        os.chdir(here)


def change_folder(draw: Random, given: Path, top: Path) -> None:
    """Copies a folder and makes one change in each document."""
    shutil.copytree(given, top, dirs_exist_ok=True)
    for path in sorted(top.rglob("*.html")):
        path.write_bytes(changed(draw, path.read_bytes()))


def changed(draw: Random, body: bytes) -> bytes:
    """A body that is cut off, or has bytes replaced, added or removed, at a random position."""
    at, more = draw.randrange(len(body) + 1), draw.randrange(1, 4)
    some = bytes(draw.choice(b"<>\"'=&#/!- \n\0ax\xc3\xff") for _ in range(more))
    return draw.choice([body[:at], body[:at] + some + body[at:], body[:at] + some + body[at + more:], body[:at] + body[at + more:]])


def fill_large(top: Path, count: int) -> None:
    """Fills a folder with `count` pages, each with a link to an anchor of the next and one to a missing anchor; some have broken links."""
    for number in range(count):
        folder = top / str(number // 1000)
        folder.mkdir(exist_ok=True)
        ahead = (number + 1) % count
        link = f"../{ahead // 1000}/{ahead}.html"
        text = f"<p id=p{number}>\n<a href={link}#p{ahead}><a href={link}#p{number}>" + "<a href=gone.html>" * (number % 100 == 0)
        (folder / f"{number}.html").write_text(text, "utf-8")
    (top / "index.html").write_text("<a href=0/0.html>", "utf-8")
