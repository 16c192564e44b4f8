#!/usr/bin/env python3
"""Test tests/checking/converter.py. Only the standard library is needed.

The expected lines are written by hand, by the rules in the help of the converter. For the example site, they are also
compared with a server of the standard library. Each saved web is first checked by the rules of its format.
"""

from __future__ import annotations

import contextlib
import functools
import http.client
import http.server
import importlib.util
import io
import os
import subprocess
import sys
import tempfile
import threading
import unittest
from typing import Any, Callable, Iterator, NamedTuple, Optional, Union
from unittest import mock
from urllib.parse import urljoin, urlsplit

ROOT = os.path.dirname(os.path.dirname(os.path.abspath(__file__)))
TOOL = os.path.join(ROOT, "tests", "checking", "converter.py")
SITE = os.path.join(ROOT, "examples", "site")
LINE_LIMIT = 4096
LONGEST = 120

Content = Union[str, bytes]


class Done(NamedTuple):
    """The status, the output and the standard error of a run."""

    status: int
    out: bytes
    notes: str


# ---------------------------------------------------------------- the rules of the format


def checked_lines(web: bytes) -> list[str]:
    """Return the lines of a saved web, version 2; raise AssertionError if it breaks a rule of the format."""
    assert web.endswith(b"\n") and b"\r\n" not in web, "line ends"
    raw = web[:-1].split(b"\n")
    assert all(len(line) <= LINE_LIMIT for line in raw), "a line is too long"
    lines = [line.decode("utf-8") for line in raw]
    assert lines[0] == "savedweb 2", "header"
    pages: list[str] = []
    words: Optional[list[str]] = None
    for line in lines[1:]:
        word, space, text = line.partition(" ")
        assert space and word in ("page", "link", "moved"), f"bad line: {line}"
        if word == "page":
            assert urlsplit(text).scheme in ("http", "https") and urlsplit(text).netloc, f"not a URL: {line}"
            assert "#" not in text and text.isascii() and " " not in text, f"not canonical: {line}"
            pages.append(text)
            words = []
            continue
        assert words is not None, "a line before the first page"
        assert "moved" not in words and (word == "link" or not words), f"a moved page with other lines: {line}"
        words.append(word)
    assert len(set(pages)) == len(pages), "a page twice"
    assert pages == sorted(pages), "pages out of order"
    return lines


def pages_of(lines: list[str]) -> dict[str, list[str]]:
    """Return the lines after each page, by its URL."""
    pages: dict[str, list[str]] = {}
    below: list[str] = []
    for line in lines[1:]:
        if line.startswith("page "):
            below = pages[line[len("page ") :]] = []
        else:
            below.append(line)
    return pages


class TheCheckItself(unittest.TestCase):
    def test_violations_of_each_rule_are_found(self) -> None:
        page = b"page http://a.test/\n"
        for name, web in {
            "no header": page,
            "version 1": b"savedweb 1\n" + page,
            "a link first": b"savedweb 2\nlink x\n",
            "a moved line first": b"savedweb 2\nmoved x\n",
            "another word": b"savedweb 2\n" + page + b"lonk x\n",
            "a link after a moved line": b"savedweb 2\n" + page + b"moved x\nlink y\n",
            "a moved line after a link": b"savedweb 2\n" + page + b"link y\nmoved x\n",
            "moved twice": b"savedweb 2\n" + page + b"moved x\nmoved x\n",
            "a page twice": b"savedweb 2\n" + page + page,
            "pages out of order": b"savedweb 2\npage http://b.test/\n" + page,
            "a line too long": b"savedweb 2\n" + page + b"link " + b"x" * 4092 + b"\n",
            "no UTF-8": b"savedweb 2\n" + page + b"link \xff\n",
            "no URL": b"savedweb 2\npage a\n",
        }.items():
            with self.subTest(name), self.assertRaises((AssertionError, UnicodeError)):
                checked_lines(web)
        checked_lines(b"savedweb 2\n" + page + b"link " + b"x" * 4091 + b"\n")


# ---------------------------------------------------------------- running the tool


def run(*words: str) -> Done:
    """Run the tool. It fails if it does not end within LONGEST seconds."""
    done = subprocess.run([sys.executable, TOOL, *words], capture_output=True, check=False, timeout=LONGEST)
    return Done(done.returncode, done.stdout, done.stderr.decode())


class Converting(unittest.TestCase):
    """A test with a folder of its own, and methods to convert it."""

    maxDiff = None

    def setUp(self) -> None:
        scratch = tempfile.TemporaryDirectory()
        self.addCleanup(scratch.cleanup)
        self.folder = os.path.join(scratch.name, "site")
        os.mkdir(self.folder)
        self.notes = ""

    def put(self, name: Content, content: Content = "") -> None:
        """Write a file below the folder; its name may be bytes."""
        path = os.path.join(os.fsencode(self.folder), os.fsencode(name))
        os.makedirs(os.path.dirname(path), exist_ok=True)
        with open(path, "wb") as file:
            file.write(content if isinstance(content, bytes) else content.encode())

    def web(self, *words: str) -> list[str]:
        """Run the tool with these arguments, and return the checked lines of its output."""
        done = run(*words)
        self.notes = done.notes
        self.assertEqual(done.status, 0, done.notes)
        return checked_lines(done.out)

    def converted(self, *options: str, base: str = "http://a.test/") -> dict[str, list[str]]:
        """Convert the folder, and return the lines after each page."""
        return pages_of(self.web(*options, self.folder, base))

    def links(self, document: Content, *options: str) -> list[str]:
        """Return the lines of a document at http://a.test/dir/page.html."""
        self.put("dir/page.html", document)
        return self.converted(*options)["http://a.test/dir/page.html"]

    def assert_error(self, status: int, *words: str, says: str) -> None:
        """Check that the tool ends with this status, writes nothing, and prints this text."""
        done = run(*words)
        self.assertEqual((done.status, done.out), (status, b""), done.notes)
        self.assertIn(says, done.notes)


# ---------------------------------------------------------------- the example site

TOP = [
    "link style.css",
    "link images/bell.svg",
    "link guide",
    "link api/",
    "link /news/?from=top",
    "link about us.html",
    "link downloads.html",
    "link old.html",
    "link http://cogs.test/wheels",
    "link #top",
]
GUIDE = ["link ../style.css", "link install.html", "link use.html", "link ../"]
NEWS = ["link /style.css", "link 2026.html", "link 2025.html"]
CALLS = [
    "link http://site.test/style.css",
    "link http://site.test/api/v2/types.html",
    "link http://site.test/api/v2/calls.html",
    "link http://site.test/api/v2/calls.html",
]
SHIPPED = {
    "/": TOP,
    "/about%20us.html": ["link style.css", "link contact.html", "link mailto:bell@site.test", "link ."],
    "/api": ["moved /api/"],
    "/api/": CALLS,
    "/api/index.html": ["link /api/"],
    "/api/v2": ["moved /api/v2/"],
    "/api/v2/calls.html": ["link types.html", "link /api/"],
    "/api/v2/types.html": ["link calls.html", "link ../v1/types.html"],
    "/contact.html": ["link about%20us.html", "link guide/use.html#first-steps", "link news/2026.html"],
    "/guide": ["moved /guide/"],
    "/guide/": GUIDE,
    "/guide/index.html": ["link /guide/"],
    "/guide/install.html": [
        "link ../style.css",
        "link ../downloads.html",
        "link use.html#first-steps",
        "link ../guide",
    ],
    "/guide/use.html": [
        "link ../style.css",
        "link ../api/v2/calls.html#set",
        "link questions.html",
        "link ../guide/",
    ],
    "/images": ["moved /images/"],
    "/images/bell.svg": [],
    "/index.html": ["link /"],
    "/news": ["moved /news/"],
    "/news/": NEWS,
    "/news/2025.html": ["link ../api/v2", "link 2026.html"],
    "/news/2026.html": [
        "link ../images/bell.svg",
        "link ../images/bell.svg",
        "link ../images/bell-large.svg",
        "link /search?q=bell&page=1",
        "link 2025.html",
    ],
    "/news/?from=top": ["link /news/"],
    "/news/index.html": ["link /news/"],
    "/old.html": ["link news/2025.html"],
    "/style.css": ["link images/paper.png"],
}


class QuietServer(http.server.SimpleHTTPRequestHandler):
    """The server of the standard library, without lists of folders and without messages."""

    def list_directory(self, path: Union[str, os.PathLike[str]]) -> None:
        self.send_error(404)

    def log_message(self, format: str, *words: object) -> None:
        pass


@contextlib.contextmanager
def served(folder: str) -> Iterator[Callable[[str], tuple[int, Optional[str]]]]:
    """Serve a folder, and yield a function that returns the status and the Location for a path."""
    handler = functools.partial(QuietServer, directory=folder)
    server = http.server.ThreadingHTTPServer(("127.0.0.1", 0), handler)
    thread = threading.Thread(target=server.serve_forever)
    thread.start()

    def ask(path: str) -> tuple[int, Optional[str]]:
        connection = http.client.HTTPConnection("127.0.0.1", server.server_port, timeout=10)
        connection.request("GET", path)
        response = connection.getresponse()
        connection.close()
        return response.status, response.getheader("Location")

    try:
        yield ask
    finally:
        server.shutdown()
        thread.join()
        server.server_close()


class TheShippedSite(Converting):
    def test_its_lines_follow_the_rules(self) -> None:
        lines = self.web(SITE, "http://site.test/")
        self.assertEqual(pages_of(lines), {"http://site.test" + path: below for path, below in SHIPPED.items()})
        links = sum(line.startswith("link ") for line in lines)
        self.assertIn(f"{len(SHIPPED)} pages, 5 of them redirects and 5 aliases; {links} links; ", self.notes)

    def test_its_stored_web_is_what_the_tool_writes(self) -> None:
        with open(os.path.join(ROOT, "examples", "site.web"), "rb") as stored:
            self.assertEqual(run(SITE, "http://site.test/").out, stored.read())

    def test_a_server_returns_what_the_web_has(self) -> None:
        """Request each page, and each target of a link in the site, from a server of the same folder."""
        pages = pages_of(self.web(SITE, "http://site.test/"))
        requested = set(pages)
        for url, lines in pages.items():
            targets = (urljoin(url, line.partition(" ")[2]).partition("#")[0] for line in lines)
            requested.update(target for target in targets if target.startswith("http://site.test/"))
        self.assertLess(len(pages), len(requested))
        with served(SITE) as ask:
            for url in sorted(requested):
                path = url.removeprefix("http://site.test").replace(" ", "%20")
                status, location = ask(path)
                below = pages.get("http://site.test" + path)
                expected = 404 if below is None else 301 if below[:1] == [f"moved {path}/"] else 200
                with self.subTest(url):
                    self.assertEqual(status, expected)
                    if status == 301 and below:
                        self.assertEqual(urljoin(url, location), urljoin(url, below[0].removeprefix("moved ")))


# ---------------------------------------------------------------- folders


class Folders(Converting):
    def test_names_are_percent_encoded_by_the_path_set(self) -> None:
        names = {
            "plain-._~.txt": "plain-._~.txt",
            "two words.txt": "two%20words.txt",
            "50%.txt": "50%25.txt",
            "%41.txt": "%2541.txt",
            "why?.txt": "why%3F.txt",
            "a#b.txt": "a%23b.txt",
            "a\\b.txt": "a%5Cb.txt",
            'a"b<c>d^e`f{g}.txt': "a%22b%3Cc%3Ed%5Ee%60f%7Bg%7D.txt",
            "!$&'()*+,;=:@[]|": "!$&'()*+,;=:@[]|",
            "\u00fc.txt": "%C3%BC.txt",
            "two\nlines.txt": "two%0Alines.txt",
        }
        for name in names:
            self.put(name)
        self.assertEqual(self.converted(), {f"http://a.test/{path}": [] for path in sorted(names.values())})

    def test_names_that_are_not_utf8_are_percent_encoded_and_reported(self) -> None:
        try:
            self.put(b"caf\xe9.html", '<html><a href="caf%E9.html"><a href="caf%e9.html">')
        except OSError:
            self.skipTest("this file system does not accept such a name")
        self.assertEqual(
            self.converted(),
            {
                "http://a.test/caf%E9.html": ["link caf%E9.html", "link caf%e9.html"],
                "http://a.test/caf%e9.html": ["link /caf%E9.html"],
            },
        )
        self.assertIn("name is not UTF-8, so its bytes are percent-encoded: http://a.test/caf%E9.html\n", self.notes)

    def test_the_base_is_made_canonical(self) -> None:
        self.put("x.txt")
        for base, page in {
            "http://A.test:80": "http://a.test/x.txt",
            "https://a.test:0443/": "https://a.test/x.txt",
            "http://a.test:8080/docs": "http://a.test:8080/docs/x.txt",
            "http://a.test/b/../c d/": "http://a.test/c%20d/x.txt",
            "http://a.test/%64ocs/": "http://a.test/docs/x.txt",
            "http://a.test/d%2focs/": "http://a.test/d%2Focs/x.txt",
            "http://127.0.0.1/": "http://127.0.0.1/x.txt",
            "http://a.test:65535/": "http://a.test:65535/x.txt",
        }.items():
            with self.subTest(base):
                self.assertEqual(self.converted(base=base), {page: []})

    def test_unsupported_bases_are_bad_command_lines(self) -> None:
        self.put("x.txt")
        for base in (
            "a.test",
            "ftp://a.test/",
            "http://",
            "http://a.test/?x",
            "http://me@a.test/",
            "http://\u00fc.test/",
            "http://a.test:65536/",
            "http://a.test:x/",
            "http://a..test/",
            "http://1.2.3/",
            "http://256.1.1.1/",
            "http://[::1]/",
        ):
            with self.subTest(base):
                self.assert_error(3, self.folder, base, says="BASE must be an http or https URL with")

    def test_a_folder_redirects_to_its_index_with_its_query(self) -> None:
        self.put("index.html", '<html><a href="dir?x=1"><a href="dir?x=1"><a href="d%69r">')
        self.put("dir/index.html", '<html><a href="?y">')
        self.put("empty/name.txt")
        self.assertEqual(
            self.converted(),
            {
                "http://a.test/": ["link dir?x=1", "link dir?x=1", "link d%69r"],
                "http://a.test/d%69r": ["moved /dir/"],
                "http://a.test/dir": ["moved /dir/"],
                "http://a.test/dir/": ["link ?y"],
                "http://a.test/dir/?x=1": ["link /dir/"],
                "http://a.test/dir/?y": ["link /dir/"],
                "http://a.test/dir/index.html": ["link /dir/"],
                "http://a.test/dir?x=1": ["moved /dir/?x=1"],
                "http://a.test/empty": ["moved /empty/"],
                "http://a.test/empty/name.txt": [],
                "http://a.test/index.html": ["link /"],
            },
        )
        self.assertIn("11 pages, 4 of them redirects and 4 aliases; 8 links;", self.notes)

    def test_redirects_and_aliases_never_name_a_host(self) -> None:
        self.put("index.html", '<html><a href="dir?x">')
        self.put("dir/x.txt")
        pages = self.converted(base="http://a.test//docs/")
        self.assertEqual(pages["http://a.test//docs/dir"], ["moved http://a.test//docs/dir/"])
        self.assertEqual(pages["http://a.test//docs/dir?x"], ["moved http://a.test//docs/dir/?x"])
        self.assertEqual(pages["http://a.test//docs/index.html"], ["link http://a.test//docs/"])

    def test_exact_skips_other_spellings(self) -> None:
        self.put("index.html", '<html><a href="?x"><a href="%69ndex.html">')
        self.assertEqual(list(self.converted("--exact")), ["http://a.test/", "http://a.test/index.html"])

    def test_the_links_of_a_file_are_those_of_its_own_url(self) -> None:
        self.put("index.html", '<html><a href="%64ir/a.html"><a href="dir/a.html?1">')
        self.put("dir/a.html", '<html><a href="b.html"><a href=""><a href="?2">')
        self.put("dir/b.html", '<html><a href="/d%69r/a.html">')
        others = {url: lines for url, lines in self.converted().items() if "%" in url or "?" in url}
        names = ("%64ir/a.html", "d%69r/a.html", "dir/a.html?1", "dir/a.html?2")
        self.assertEqual(others, {f"http://a.test/{name}": ["link /dir/a.html"] for name in names})

    def test_two_spellings_of_each_nested_folder_are_as_many_aliases(self) -> None:
        for depth in range(30):
            self.put("a/" * depth + "index.html", '<a href="a/"><a href="%61/">')
        # For each folder its URL and its index file, and for each but the top its redirect and its other spelling
        self.assertEqual(len(self.converted()), 30 + 30 + 29 + 29)

    def test_each_query_is_an_alias(self) -> None:
        self.put("p.html", "".join(f'<a href="?{number}">' for number in range(300)) + '<a href="#x">')
        pages = self.converted()
        self.assertEqual(len(pages["http://a.test/p.html"]), 301)
        self.assertEqual([lines for url, lines in pages.items() if "?" in url], [["link /p.html"]] * 300)

    def test_a_page_that_links_to_itself_in_another_spelling(self) -> None:
        self.put("%.html", '<html><a href="%.html"><a href="%25.html"><a href="?">')
        links = ["link %.html", "link %25.html", "link ?"]
        own = ["link /%25.html"]
        self.assertEqual(
            self.converted(),
            {"http://a.test/%.html": own, "http://a.test/%25.html": links, "http://a.test/%25.html?": own},
        )

    def test_links_of_another_folder_by_a_base(self) -> None:
        self.put("index.html", '<html><base href="/d%69r/"><a href="a.html">')
        self.put("dir/a.html")
        pages = self.converted()
        self.assertEqual(pages["http://a.test/"], ["link http://a.test/d%69r/a.html"])
        self.assertEqual(pages["http://a.test/d%69r/a.html"], ["link /dir/a.html"])

    def test_links_with_consecutive_and_escaped_slashes(self) -> None:
        links = ["//a.test/dir//x.html", "/dir%2Fx.html", "/dir\\/x.html", "/dir%2F..%2Fdir/x.html", "/..%2Fdir/x.html", "/dir//y.html"]
        self.put("dir/x.html", "<html>" + "".join(f'<a href="{link}">' for link in links))
        pages = self.converted()
        aliases = ["http://a.test/dir%2F..%2Fdir/x.html", "http://a.test/dir%2Fx.html", "http://a.test/dir//x.html"]
        self.assertEqual(sorted(pages), sorted(["http://a.test/dir", "http://a.test/dir/x.html", *aliases]))
        self.assertEqual([pages[url] for url in aliases], [["link /dir/x.html"]] * 3)

    def test_a_link_to_another_host_is_no_other_spelling(self) -> None:
        self.put("dir/x.html", '<html><a href="http://b.test/dir/x.html?q">')
        self.assertEqual(list(self.converted()), ["http://a.test/dir", "http://a.test/dir/x.html"])

    def test_another_index_file(self) -> None:
        self.put("home.htm", '<html><a href="x">')
        self.assertEqual(
            self.converted("--index-file", "home.htm"),
            {"http://a.test/": ["link x"], "http://a.test/home.htm": ["link /"]},
        )

    def test_the_first_index_file_of_a_folder_counts(self) -> None:
        self.put("index.htm", '<html><a href="x">')
        self.put("index.xhtml", '<html><a href="y">')
        below = {"http://a.test/index.htm": ["link x"], "http://a.test/index.xhtml": ["link y"]}
        self.assertEqual(self.converted(), {**below, "http://a.test/": ["link x"], "http://a.test/index.htm": ["link /"]})
        names = ("--index-file=index.xhtml", "--index-file=index.htm")
        self.assertEqual(
            self.converted(*names), {**below, "http://a.test/": ["link y"], "http://a.test/index.xhtml": ["link /"]}
        )
        self.assertEqual(self.converted("--index-file=index.html"), below)

    def test_a_suffix_that_a_link_omits(self) -> None:
        self.put("index.html", '<html><a href="a"><a href="a?b"><a href="a/"><a href="index"><a href="%61#c">')
        self.put("a.html", "<html>")
        aliases = {f"http://a.test/{name}": ["link /a.html"] for name in ("%61", "a", "a?b")}
        indices = {f"http://a.test/{name}": ["link /"] for name in ("index.html", "index")}
        pages = self.converted("--fallback", "html")
        self.assertEqual({url: pages[url] for url in pages if url != "http://a.test/"}, {**aliases, **indices, "http://a.test/a.html": []})

    def test_sitemaps_feeds_and_lists_of_urls(self) -> None:
        """Their links are read by the names of the files."""
        urls = '<urlset xmlns="x"><url><loc> a?b&amp;c </loc><i:image xmlns:i="y"><i:loc><![CDATA[d]]></i:loc></i:image><loc/></url></urlset>'
        self.put("sitemap.xml", urls)
        self.put("maps.XML", "<sitemapindex><sitemap><loc>/s.xml</loc></sitemap></sitemapindex>")
        self.put("x.rss", "<rss><channel><link>e</link><item><enclosure url='f'/><guid>no</guid></item></channel></rss>")
        self.put("y.atom", "<feed><link href='g'/><entry><content src='h'/><id>no</id></entry></feed>")
        self.put("z.xml", "<other><loc>no</loc></other>")
        self.put("w.xml", "<urlset><loc>no")
        self.put("sitemap-2.txt", "i\r\n\n j \nk")
        self.put("urls.txt", "no")
        links = {
            "sitemap.xml": "a?b&c d", "maps.XML": "/s.xml", "x.rss": "e f", "y.atom": "g h", "z.xml": "", "w.xml": "", "sitemap-2.txt": "i j k", "urls.txt": "",
        }
        self.assertEqual(self.converted(), {f"http://a.test/{name}": [f"link {link}" for link in some.split()] for name, some in links.items()})

    def test_queries_of_names(self) -> None:
        self.put("list.html?page=2", '<html><a href="list.html?page=3"><a href="list.html?p%61ge=2">')
        self.put("list.html?p%61ge=2", "<html>")
        below = ["link list.html?page=3", "link list.html?p%61ge=2"]
        self.assertEqual(
            self.converted(), {"http://a.test/list.html%3Fp%2561ge=2": [], "http://a.test/list.html%3Fpage=2": below}
        )
        # The name that comes first by its bytes has the URL
        self.assertEqual(
            self.converted("--queries"),
            {"http://a.test/list.html?page=2": []},
        )
        notes = "file skipped, another file has the same URL: list.html?page=2, http://a.test/list.html?page=2\n"
        self.assertIn(notes, self.notes)

    def test_queries_of_index_files(self) -> None:
        self.put("dir/index.html?page=2", '<html><a href="x">')
        self.assertEqual(
            self.converted("--queries"),
            {
                "http://a.test/dir": ["moved /dir/"],
                "http://a.test/dir/?page=2": ["link x"],
                "http://a.test/dir/index.html?page=2": ["link /dir/?page=2"],
            },
        )
        self.assertEqual(list(self.converted()), ["http://a.test/dir", "http://a.test/dir/index.html%3Fpage=2"])

    def test_an_index_file_whose_folder_has_another_page(self) -> None:
        self.put("?q", '<html><a href="x">')
        self.put("index.html?q", '<html><a href="y">')
        pages = self.converted("--queries")
        self.assertEqual(pages, {"http://a.test/?q": ["link x"], "http://a.test/index.html?q": ["link y"]})

    def test_images_are_pages_without_links(self) -> None:
        for name in ("a.png", "b.jpg", "c.svgz"):
            self.put("images/" + name, b'\x89<html><a href="x">')
        self.assertEqual(
            self.converted(),
            {
                "http://a.test/images": ["moved /images/"],
                "http://a.test/images/a.png": [],
                "http://a.test/images/b.jpg": [],
                "http://a.test/images/c.svgz": [],
            },
        )
        self.assertIn("4 pages, 1 of them redirects and 0 aliases; 0 links;", self.notes)

    def test_html_is_known_by_suffix_or_first_bytes(self) -> None:
        document = '<!-- c --> <!DOCTYPE html><a href="x">'
        for name, found in {
            "a.html": 1,
            "a.HTM": 1,
            "a.xhtml": 1,
            "a.SVG": 1,
            "a.css": 0,
            "none": 1,
            "a.php": 1,
            "a.txt": 0,
            "a.js": 0,
            "a.html.gz": 0,
            "a.html.unheard": 1,
        }.items():
            self.put(name, document)
            with self.subTest(name):
                self.assertEqual(len(self.converted()[f"http://a.test/{name}"]), found)
        self.put("words", "no document")
        self.assertEqual(self.converted()["http://a.test/words"], [])

    def test_many_comments_are_skipped_fast_to_find_the_type_of_a_file(self) -> None:
        comments = "<!---->" * 140
        self.put("data", comments)
        self.put("page", comments + "\n<!doctype html><a href=x>")
        self.put("odd", "<?xml version=1?> <!-- a --> b --> <html><a href=y>")
        self.assertEqual(
            self.converted(), {"http://a.test/data": [], "http://a.test/odd": ["link y"], "http://a.test/page": ["link x"]}
        )

    def test_a_symbolic_link_to_a_folder_gives_its_files_aliases(self) -> None:
        self.put("dir/x.html", "<a href=../other/up/dir/>")
        self.put("index.html", "<a href=other/x.html><a href=other/x.html?a><a href=oth%65r/up/other/x.html><a href=other/gone>")
        os.symlink("dir", os.path.join(self.folder, "other"))
        os.symlink("..", os.path.join(self.folder, "dir", "up"))
        os.symlink("nothing", os.path.join(self.folder, "gone"))
        pages = self.converted()
        names = ("other/x.html", "other/x.html?a", "oth%65r/up/other/x.html")
        self.assertEqual({name: pages.pop(f"http://a.test/{name}") for name in names}, dict.fromkeys(names, ["link /dir/x.html"]))
        self.assertEqual(
            pages,
            {
                "http://a.test/": [f"link {text}" for text in (*names, "other/gone")],
                "http://a.test/dir": ["moved /dir/"],
                "http://a.test/dir/up": ["moved /dir/up/"],
                "http://a.test/dir/up/": ["link /"],
                "http://a.test/dir/x.html": ["link ../other/up/dir/"],
                "http://a.test/index.html": ["link /"],
                "http://a.test/other": ["moved /other/"],
            },
        )
        self.assertIn("skipped, a symbolic link to nothing: gone\n", self.notes)
        exact = self.converted("--exact")
        self.assertEqual(exact["http://a.test/other/x.html"], ["link /dir/x.html"])
        self.assertEqual(set(pages) | {"http://a.test/other/x.html"}, set(exact))

    def test_symbolic_links_out_of_the_folder_are_followed_with_the_option(self) -> None:
        above = os.path.dirname(self.folder)
        os.makedirs(os.path.join(above, "site and more", "dir"))
        for name in ("a.html", "dir/b.html"):
            with open(os.path.join(above, "site and more", name), "w", encoding="utf-8") as file:
                file.write("<a href=x>")
        self.put("in.html", "<a href=y>")
        links = {
            "top": "../site",
            "in": "../site/in.html",
            "twice.html": "through",
            "through": os.path.join(above, "site and more", "a.html"),
            "dir": "../site and more/dir",
            "near": "../site and more",
            "device.html": "/dev/null",
            "gone.html": "../gone.html",
        }
        for name, target in links.items():
            os.symlink(target, os.path.join(self.folder, name))
        inside = {"in": [], "in.html": ["link y"], "top": ["moved /top/"]}
        self.assertEqual(self.converted(), {f"http://a.test/{name}": lines for name, lines in inside.items()})
        note = "converter: skipped, a symbolic link that leads out of the folder (--follow follows it): {}\n"
        for name in ("device.html", "dir", "near", "through", "twice.html"):
            self.assertIn(note.format(name), self.notes)
        self.assertIn("skipped, a symbolic link to nothing: gone.html\n", self.notes)
        pages = self.converted("--follow")
        for name in ("dir/b.html", "near/a.html", "twice.html"):
            self.assertEqual(pages[f"http://a.test/{name}"], ["link x"])
        self.assertNotIn("http://a.test/near/dir/b.html", pages)
        self.assertIn("skipped, neither a file nor a folder: device.html\n", self.notes)
        self.assertNotIn("leads out", self.notes)

    def test_a_symbolic_link_to_the_folder_is_the_folder(self) -> None:
        self.put("a.html", "<a href=x>")
        link = os.path.join(os.path.dirname(self.folder), "link")
        os.symlink("site", link)
        self.assertEqual(pages_of(self.web(link, "http://a.test/")), {"http://a.test/a.html": ["link x"]})

    def test_files_that_the_system_makes_are_not_read(self) -> None:
        """Reading /proc/kmsg would wait for ever. The size of such a file is 0."""
        self.put("a.html", "<a href=x>")
        os.symlink("/proc/kmsg", os.path.join(self.folder, "x.html"))
        self.assertEqual(self.converted("--follow"), {"http://a.test/a.html": ["link x"], "http://a.test/x.html": []})

    def test_a_file_of_more_than_a_gibibyte_is_not_read(self) -> None:
        self.put("x.html", "<a href=x>")
        os.truncate(os.path.join(self.folder, "x.html"), 3 << 30)
        self.put("y.html", "<a href=y>")
        self.assertEqual(self.converted(), {"http://a.test/x.html": [], "http://a.test/y.html": ["link y"]})
        self.assertIn("links skipped, the file has more than 1 GiB: http://a.test/x.html\n", self.notes)

    def test_a_page_whose_line_is_too_long_is_skipped_and_reported(self) -> None:
        deep = "/".join(["\u00fc" * 100] * 7)
        self.put(deep + "/x.txt")
        self.put("y.txt")
        pages = self.converted()
        # The slash and 600 letters for each folder, six of which fit
        self.assertEqual([len(url) - len("http://a.test") for url in pages], [*range(601, 3607, 601), 6])
        self.assertEqual(self.notes.count("page skipped, its URL is too long: http://a.test/%C3%BC"), 2)
        self.assertIn("page skipped, its URL is too long: 2\n", self.notes)

    def test_a_file_whose_own_url_is_too_long_has_no_alias(self) -> None:
        deep = "/".join(["%" * 200] * 7)
        self.put(deep + "/index.html", "<a href=x>")
        self.put("index.html", f'<a href="{deep}/"><a href="{deep}/?y"><a href="{deep}?z">')
        # Each percent sign is three bytes of an own URL, and one of a link
        others = {url: lines for url, lines in self.converted().items() if "%25" not in url}
        self.assertEqual(list(others), ["http://a.test/", f"http://a.test/{deep}?z", "http://a.test/index.html"])

    def test_errors_write_nothing(self) -> None:
        self.assert_error(1, self.folder, "http://a.test/", says="no files in")
        os.mkdir(os.path.join(self.folder, "empty"))
        self.assert_error(1, self.folder, "http://a.test/", says="no files in")
        self.assert_error(1, self.folder + "x", "http://a.test/", says=": not a folder")
        self.assert_error(3, self.folder, says="the following arguments are required: BASE")
        self.assert_error(3, says="the following arguments are required: FOLDER, BASE")
        self.assert_error(3, self.folder, "http://a.test/", "--unheard", says="unrecognized arguments: --unheard")

    def test_help_is_not_an_error(self) -> None:
        done = run("--help")
        self.assertEqual((done.status, done.notes), (0, ""))
        for words in ("usage: converter.py", "exit status:", "4,096 bytes"):
            self.assertIn(words, done.out.decode())
        self.assertEqual(done.out.count(b"FOLDER BASE > WEB"), 1)


# ---------------------------------------------------------------- documents


class Documents(Converting):
    def test_what_is_a_link(self) -> None:
        documents: dict[str, list[str]] = {
            '<a href="x">': ["x"],
            "<a href='x'>": ["x"],
            "<A HREF=x>": ["x"],
            "<a href=x/>": ["x/"],
            '<a href="">': [""],
            "<a href>": [""],
            '<a name="x">': [],
            '<a href="x" href="y">': ["x"],
            '<a title="href=y > z" href="x">': ["x"],
            '<img src="x" srcset="y 1x, z 2x, data:,a 3x">': ["x", "y", "z", "data:,a"],
            '<img srcset=" a,b.png 1x , c.png,d.png 2x,e.png,,f.png (x,y) 3w, g.png">': [
                "a,b.png",
                "c.png,d.png",
                "e.png,,f.png",
                "g.png",
            ],
            '<img srcset="a.png, b.png"><img srcset=", ,"><img srcset="c\u00a0d (e">': ["a.png", "b.png", "c\u00a0d"],
            f'<a title="&#{"0" * 5000}65;" href="a&#{"9" * 5000};b&#{"0" * 5000}65;">': ["a\ufffdbA"],
            '<a href=a\u00a0b>': ["a\u00a0b"],
            '&#<a href="x">&#; &#65a<a href="y">': ["x", "y"],
            '<link rel="stylesheet" href="x"><link rel="preconnect" href="//y">': ["x"],
            '<template><a href="x"><template></template></template></template><a href="y">': ["y"],
            '<p><template shadowrootmode="open"><a href="x"><template/><a href="z"></template></template><a href="y">': ["x", "y"],
            '<link rel="preconnect DNS-Prefetch" href="//y"><link href="y"><link itemprop href="x">': ["x"],
            '<link rel="prev DNS-Prefetch" href="//y"><link rel="" href="x">': ["//y"],
            '<script src="x"></script><iframe src="y"></iframe><area href="z">': ["x", "y", "z"],
            '<video src="x" poster="y"><source src="z"><track src="t"></video>': ["x", "y", "z", "t"],
            '<svg><use xlink:href="x"/><image href="y"/></svg>': ["x", "y"],
            '<svg><title><a href="x"></title><script href="y"/></svg><title><a href="z">': ["x", "y"],
            '<svg><![CDATA[<a href="x">]]><desc><title><a href="y"></title></desc><title><a href="z">': ["z"],
            '<svg><p><title><a href="x"></title></svg><math><mi><textarea><a href="y"></textarea></mi><xmp href="z">': ["z"],
            '<svg><svg></svg><font><title><a href="x"></title><font size="1"><title><a href="y"></title><a href="z">': ["x", "z"],
            '<meta http-equiv="Refresh" content="0;URL=\'x\'">': ["x"],
            '<meta http-equiv="refresh" content="5; x">': ["x"],
            '<meta http-equiv="refresh" content="5">': [],
            '<form action="x"><blockquote cite="y"><q cite="z">': [],
            '<!-- <a href="x"> --><a href="y">': ["y"],
            '<!--><a href="x"> --><a href="y">': ["x", "y"],
            '<!---><a href="x"> --><a href="y">': ["x", "y"],
            '<!-- --!><a href="x"> --><a href="y">': ["x", "y"],
            '<!-- > <a href="x">': [],
            '<![unheard[<a href="x">]]><a href="y">': ["y"],
            '<script>"<a href=x>"</script><a href="y">': ["y"],
            "<title><a href=x></titles></title lang=en><a href=y>": ["y"],
            "<textarea><a href=x></p></TextArea/><a href=y>": ["y"],
            '<iframe src="x"><a href="n"></iframe\n><a href="y">': ["x", "y"],
            "<xmp><!-- </xmp><a href=y> -->": ["y"],
            "<noembed><a href=x></noembed><noframes/><a href=x></noframes><a href=y>": ["y"],
            "<a href=x><plaintext><a href=n></plaintext><a href=n>": ["x"],
            '<a href="?a=1&amp;b=2&copy=3&#38;c&lt;">': ["?a=1&b=2&copy=3&c<"],
        }
        for document, expected in documents.items():
            with self.subTest(document):
                self.assertEqual(self.links(document), [f"link {text}" for text in expected])

    def test_styles_are_not_read_with_the_option(self) -> None:
        document = '<div style="background: url(x)"><style>@import "y"; /* url(n) */</style><a href="z">'
        self.assertEqual(self.links(document), ["link x", "link y", "link z"])
        self.assertEqual(self.links(document, "--no-styles"), ["link z"])
        document = """<style>@import"a";@import/*'n'*/'b';@imports 'n';c:url(d/*e);f:'/*';g:url(h) "url(n)"</style>"""
        self.assertEqual(self.links(document), ["link a", "link b", "link d/*e", "link h"])
        self.put("s.css", '@import "t.css"; a { background: url( "u v.png" ) }')
        self.assertEqual(self.converted()["http://a.test/s.css"], ["link t.css", "link u v.png"])
        self.assertEqual(self.converted("--no-styles")["http://a.test/s.css"], [])

    def test_the_encoding_of_a_style_sheet(self) -> None:
        for sheet, expected in (
            ("url(\u00fc?\u00fc)".encode(), ["\u00fc?\u00fc"]),
            (b"url(\xfc)", ["\ufffd"]),
            (b'@charset "latin1";url(\xfc?\xfc)', ["\u00fc?\u00fc"]),
            (b' @charset "latin1";url(\xfc)', ["\ufffd"]),
            (b'@charset "unheard";url(\xfc)url(a#\xfc)', ["a#"]),
            ("\ufeffurl(\u00fc)".encode("utf-16-le"), ["\u00fc"]),
        ):
            self.put("s.css", sheet)
            with self.subTest(sheet):
                self.assertEqual(self.converted()["http://a.test/s.css"], [f"link {text}" for text in expected])

    def test_documents_in_xml(self) -> None:
        for document, expected in {
            '<title/><a href="x"/><script/><b href="y"/>': ["x", "y"],
            '<title><a href="x"/></title><style>url(y)</style><style/>url(n)': ["x", "y"],
            '<svg href="n"><g xlink:href="x"><image href="y"/><![CDATA[<a href="n"/>]]></g></svg>': ["x", "y"],
            '<template><a href="n"/></template><template/><a href="x"/>': ["x"],
            '<base href="/d/"/><a href="x"/>': ["http://a.test/d/x"],
        }.items():
            for suffix in ("svg", "xhtml", "xht"):
                self.put(f"x.{suffix}", document)
                with self.subTest((document, suffix)):
                    self.assertEqual(self.converted()[f"http://a.test/x.{suffix}"], [f"link {text}" for text in expected])

    def test_line_breaks_tabs_and_edges_are_removed(self) -> None:
        for document, expected in {
            '<a href="a\nb">': ["ab"],
            '<a href="a\r\nb\tc">': ["abc"],
            '<a href=" \n a b \n ">': ["a b"],
            '<a href="a&#10;b&#13;&#9;c">': ["abc"],
            '<a href="&#10;page http://b.test/">': ["page http://b.test/"],
            '<a href="a\x0bb\x0cc">': ["a\x0bb\x0cc"],
            '<a href="a\u2028b">': ["a\u2028b"],
            '<a href="java\nscript:x">': ["javascript:x"],
            '<img srcset="a.png\n1x,\nb.png 2x">': ["a.png", "b.png"],
        }.items():
            with self.subTest(document):
                self.assertEqual(self.links(document), [f"link {text}" for text in expected])
        self.links('<a href="a\nb"><a href="\na\n"><a href="c\nd">')
        self.assertIn("links over several lines, joined: 2\n", self.notes)

    def test_lines_are_at_most_4096_bytes(self) -> None:
        room = LINE_LIMIT - len("link ")
        letters = "\u00fc" * (room // 2)
        for name, text, expected in (
            ("as long as may be", "x" * room, "x" * room),
            ("one byte more", "x" * (room + 1), None),
            ("two bytes a letter", letters, letters),
            ("one letter more", letters + "\u00fc", None),
            ("without its fragment", "x" * room + "#" + "f" * 9000, "x" * room),
            ("too long without its fragment", "x" * (room + 1) + "#f", None),
            ("of another scheme", "data:," + "x" * 9000, "data:," + "x" * (room - 6)),
            ("of another scheme, cut in a letter", "data:," + "\u00fc" * 9000, "data:," + "\u00fc" * (room // 2 - 3)),
            ("of the web", "http://b.test/" + "x" * 9000, None),
        ):
            with self.subTest(name):
                lines = [] if expected is None else [f"link {expected}"]
                self.assertEqual(self.links(f'<meta charset="utf-8"><a href="{text}">'), lines)
                notes = "link skipped, it is too long: http://a.test/dir/page.html"
                self.assertEqual(notes in self.notes, not lines)

    def test_a_base_resolves_what_is_below_it(self) -> None:
        for document, expected in {
            '<base href="/top/"><a href="x"><a href="../y#f"><a href="#f"><a href="//b.test">': [
                "http://a.test/top/x",
                "http://a.test/y",
                "http://a.test/top/",
                "http://b.test/",
            ],
            '<base href="http://B.test:80/d/e"><a href="x y"><a href="?q=\'"><a href="mailto:m">': [
                "http://b.test/d/x%20y",
                "http://b.test/d/e?q=%27",
                "mailto:m",
            ],
            '<a href="x"><base target="_top"><base href="up/"><base href="/not/">': ["http://a.test/dir/up/x"],
            '<base href="https://b.test/"><a href="http:x"><a href="https:x">': ["http://x/", "https://b.test/x"],
            '<base href="ftp://b.test/"><a href="x"><a href="http://c.test/">': ["ftp:x", "http://c.test/"],
            '<base href="data:,x"><a href="x">': ["x"],
            '<base href="http://"><a href="x">': ["x"],
            '<base href="/d/e/"><a href="a/./b/../c/%2e%2E/d\\e">': ["http://a.test/d/e/a/d/e"],
            '<base href="/d/e/"><a href=".."><a href="."><a href="../..">': [
                "http://a.test/d/",
                "http://a.test/d/e/",
                "http://a.test/",
            ],
            '<base href="/d?q"><a href="#f"><a href=""><a href="e">': [
                "http://a.test/d?q",
                "http://a.test/d?q",
                "http://a.test/e",
            ],
        }.items():
            with self.subTest(document):
                self.assertEqual(self.links(document), [f"link {text}" for text in expected])

    def test_encodings(self) -> None:
        for name, document, expected in (
            ("utf-8", '<meta charset="utf-8"><a href="\u00fc?\u00fc">'.encode(), "\u00fc?\u00fc"),
            ("none said", '<a href="\u00fc?\u00fc">'.encode(), "\u00fc?\u00fc"),
            ("none said, no UTF-8", '<a href="\u00fc?\u00fc">'.encode("latin-1"), "\u00fc?%FC"),
            ("a letter that Windows has", b'<meta charset="latin1"><a href="\x80">', "\u20ac"),
            ("said", '<meta charset="koi8-r"><a href="\u0416?\u0416#\u0416">'.encode("koi8-r"), "\u0416?%F6#\u0416"),
            ("a letter that it lacks", '<meta charset="latin1"><a href="?&#x416;">'.encode(), "?%26%231046%3B"),
            ("another scheme", '<meta charset="latin1"><a href="mailto:m?\u00fc">'.encode("cp1252"), "mailto:m?\u00fc"),
            ("an unheard one", '<meta charset="unheard"><a href="\u00fc">'.encode(), "\u00fc"),
            ("one that decodes nothing", '<meta charset="undefined"><a href="\u00fc">'.encode(), "\u00fc"),
            ("one that takes no broken bytes", '<meta charset="idna"><a href="\u00fc">'.encode(), "\u00fc"),
            ("by its kind", b'<meta content="a; Charset = \'koi8-r\'" HTTP-EQUIV=Content-type><a href="\xf6">', "\u0416"),
            ("both", '<meta http-equiv=content-type content="charset=latin1" charset=utf-8><a href="\u00fc">'.encode(), "\u00fc"),
            ("twice", '<meta charset=" utf-8 " charset=latin1><a href="\u00fc">'.encode(), "\u00fc"),
            ("in a description", '<meta name=description content="charset=latin1"><a href="\u00fc">'.encode(), "\u00fc"),
            ("in a comment", '<!--> <!-- <meta charset=latin1> --><a href="\u00fc">'.encode(), "\u00fc"),
            ("in a value", '<p title="<meta charset=latin1>"><a href="\u00fc">'.encode(), "\u00fc"),
            ("after one without", '<meta name=a><meta charset=""><meta/charset=L1><a href="\u00fc">'.encode(), "\u00c3\u00bc"),
            ("cut", ('<meta charset="utf-8" title="' + "-" * 1000 + '"><a href="').encode() + b'\xfc">', "\u00fc"),
            ("a mark", '\ufeff<a href="\u00fc?\u00fc">'.encode("utf-16-le"), "\u00fc?\u00fc"),
            ("broken UTF-8", b'<meta charset="utf-8"><a href="a\xffb">', "a\ufffdb"),
            ("half a pair", b'<meta charset="utf-8"><a href="a&#xD800;b">', "a\ufffdb"),
        ):
            with self.subTest(name):
                self.assertEqual(self.links(document), [f"link {expected}"])

    def test_only_ascii_is_read_in_an_unknown_encoding(self) -> None:
        links = b'<a href="\xe9"><a href="a#\xe9"><a href="&eacute;?&eacute;"><img srcset="\xe9 1x, b 2x"><a href="c?\xe9#d">'
        self.assertEqual(self.links(b'<meta charset="unheard">' + links), ["link a#", "link \u00e9?%E9", "link b"])
        self.assertIn("unknown encoding, only ASCII was read: http://a.test/dir/page.html\n", self.notes)
        for base, expected in {
            b"/\xe9/": ["http://a.test/c", "mailto:m"],
            b"/d/#\xe9": ["http://a.test/d/a", "http://a.test/c", "http://a.test/d/e", "mailto:m"],
        }.items():
            with self.subTest(base):
                links = b'<a href="a"><a href="http://a.test/c"><a href="http:e"><a href="mailto:m">'
                document = b'<meta charset="unheard"><base href="' + base + b'">' + links
                self.assertEqual(self.links(document), [f"link {text}" for text in expected])

    def test_notes_have_no_control_characters(self) -> None:
        self.links(f'<a href="a\x1b[2J{"x" * 9000}">')
        self.assertIn("page.html links to a\\x1b[2Jxxx", self.notes)
        self.assertNotIn("\x1b", self.notes)
        self.assertNotIn("page.html", run("--quiet", self.folder, "http://a.test/").notes)


# ---------------------------------------------------------------- limits


def loaded() -> Any:
    """Return the tool as a module."""
    spec = importlib.util.spec_from_file_location("converter_tool", TOOL)
    assert spec is not None and spec.loader is not None
    tool = importlib.util.module_from_spec(spec)
    spec.loader.exec_module(tool)
    return tool


class Limits(Converting):
    """Tests with lower limits than the real ones, which would need much memory."""

    def run_with(self, limit: str, number: int, *words: str) -> Done:
        """Run the tool with another number for a limit."""
        tool = loaded()
        written, notes, status = io.BytesIO(), io.StringIO(), 0
        out = io.TextIOWrapper(written)
        with contextlib.ExitStack() as patches:
            patches.enter_context(mock.patch.object(tool, limit, number))
            patches.enter_context(mock.patch.object(sys, "stdout", out))
            patches.enter_context(mock.patch.object(sys, "stderr", notes))
            patches.enter_context(mock.patch.object(sys, "argv", ["converter.py", *words]))
            try:
                tool.main()
            except SystemExit as ended:
                status = int(ended.code or 0)
        return Done(status, written.getvalue(), notes.getvalue())

    def test_a_saved_web_that_is_too_large_is_an_error(self) -> None:
        words = SITE, "http://site.test/"
        whole = run(*words).out
        self.assertEqual(self.run_with("INPUT_LIMIT", len(whole), *words)[:2], (0, whole))
        done = self.run_with("INPUT_LIMIT", len(whole) - 1, *words)
        self.assertEqual(done[:2], (1, b""))
        self.assertIn("the most that a crawl reads", done.notes)

    def test_the_largest_file_that_is_read(self) -> None:
        self.put("x.html", "<a href=x>")
        for limit, expected in ((10, ["link x"]), (9, [])):
            done = self.run_with("FILE_LIMIT", limit, self.folder, "http://a.test/")
            self.assertEqual(pages_of(checked_lines(done.out)), {"http://a.test/x.html": expected})

    def test_a_file_that_grows_while_it_is_read_loses_its_links(self) -> None:
        self.put("x.html", "<a href=x>")
        with mock.patch.object(os.path, "getsize", return_value=9):
            done = self.run_with("FILE_LIMIT", 100, self.folder, "http://a.test/")
        self.assertEqual(pages_of(checked_lines(done.out)), {"http://a.test/x.html": []})
        self.assertIn("links skipped, the file changed while it was read: http://a.test/x.html\n", done.notes)


if __name__ == "__main__":
    unittest.main()
