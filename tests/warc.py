#!/usr/bin/env python3
"""Test `tools/unpack_warc.py` with archives that wget makes of served pages, and with records of
this file. The tests with wget are skipped if it is not installed.

The shipped site, and each FOLDER that is given, is also served, archived by wget and unpacked. Then
`mercator check --index` of the archive has to find what `mercator check` of the folder finds. The
program is the one that MERCATOR names, or else the built one; without it, this test is skipped.

Usage: warc.py [FOLDER]..

The last line is `N passed, M failed`; the exit status is 1 if a test failed.
"""

from __future__ import annotations

import gzip
import http.server
import json
import os
import shutil
import subprocess
import sys
import tempfile
import threading
import time
import zlib
from contextlib import contextmanager
from functools import partial
from pathlib import Path
from typing import Any, Callable, Dict, Iterator, List, NamedTuple, Sequence, Set, Tuple
from urllib.parse import unquote, urlsplit

from serving import ROOT
from serving.trial import SECONDS, Skipped, expect, run_all

TOOL = ROOT / "tools/unpack_warc.py"
sys.path.insert(0, str(TOOL.parent))
import unpack_warc


class Unpacked(NamedTuple):
    """What the tool leaves: the list, by URL, the bytes of each document, and its messages."""

    lines: Dict[str, str]
    bodies: Dict[str, bytes]
    notes: str


def run(folder: Path, *archives: Path) -> subprocess.CompletedProcess[str]:
    command = [sys.executable, str(TOOL), str(folder), *map(str, archives)]
    return subprocess.run(command, capture_output=True, text=True, timeout=SECONDS, check=False)


def unpack(*archives: Path) -> Unpacked:
    folder = archives[0].parent / "unpacked"
    ended = run(folder, *archives)
    expect(ended.returncode == 0, ended.stderr)
    text = (folder / "index.txt").read_text("utf-8")
    rows = [line.split(" ", 1) for line in text.splitlines()]
    lines = {url: rest for url, rest in rows}
    expect(len(lines) == len(rows), "a URL is listed twice")
    bodies = {}
    for url, rest in lines.items():
        kind, _, file = rest.partition(" ")
        if kind != "redirect":
            bodies[url] = (folder / file).read_bytes()
    used = {rest.rpartition("/")[2] for rest in lines.values()}
    expect({path.name for path in (folder / "files").iterdir()} <= used, "a file is not listed")
    shutil.rmtree(folder)
    return Unpacked(lines, bodies, ended.stderr)


# ---------------------------------------------------------------- archives of wget

PAGE = b"<title>A page</title>" + b"<p>of some length" * 3000


class Handler(http.server.BaseHTTPRequestHandler):
    """Pages in each coding, a redirect and a page that is missing."""

    protocol_version = "HTTP/1.1"
    pages = {
        "/": ("text/html; charset=UTF-8", b"".join(b"<a href='%s'>x</a>" % link.encode() for link in (
            "/plain", "/chunked", "/gzip", "/deflate", "/both", "/moved", "/missing", "/copy", "/a%20b", "/none"))),
        "/copy": ("text/html", PAGE), "/plain": ("text/html", PAGE), "/a%20b": ("text/x-odd", b"odd\n"),
        "/chunked": ("text/html", PAGE + b"c"), "/gzip": ("text/html", PAGE + b"g"),
        "/deflate": ("text/html", PAGE + b"d"), "/both": ("Text/HTML;  Charset='latin1'", PAGE + b"b"),
        "/target": ("text/plain", b""), "/none": ("", b"\x00\x01"),
    }

    def do_GET(self) -> None:
        if self.path == "/moved":
            self.send_response(301)
            self.send_header("Location", "./target#part")
            self.send_header("Content-Length", "0")
            self.end_headers()
            return
        if self.path not in self.pages:
            self.send_error(404)
            return
        kind, body = self.pages[self.path]
        self.send_response(200)
        if kind:
            self.send_header("Content-Type", kind)
        if self.path in ("/gzip", "/both"):
            self.send_header("Content-Encoding", "gzip")
            body = gzip.compress(body)
        if self.path == "/deflate":
            self.send_header("Content-Encoding", "deflate")
            body = zlib.compress(body)
        if self.path in ("/chunked", "/both"):
            self.send_header("Transfer-Encoding", "chunked")
            body = chunked(body, 1000)
        else:
            self.send_header("Content-Length", str(len(body)))
        self.end_headers()
        self.wfile.write(body)

    def log_message(self, format: str, *words: object) -> None:
        return


def chunked(body: bytes, size: int) -> bytes:
    pieces = [body[at:at + size] for at in range(0, len(body), size)] + [b""]
    return b"".join(b"%x;a=b\r\n%s\r\n" % (len(piece), piece) for piece in pieces)


@contextmanager
def served(handler: Callable[..., http.server.BaseHTTPRequestHandler]) -> Iterator[str]:
    server = http.server.ThreadingHTTPServer(("127.0.0.1", 0), handler)
    threading.Thread(target=server.serve_forever, args=(0.05,), daemon=True).start()
    try:
        yield f"http://127.0.0.1:{server.server_port}"
    finally:
        server.shutdown()
        server.server_close()


def wget(folder: Path, name: str, *words: str) -> Path:
    """An archive that wget makes."""
    if shutil.which("wget") is None:
        raise Skipped("wget is not installed")
    command = ["wget", "-q", "-r", "--delete-after", f"--warc-file={name}", *words]
    ended = subprocess.run(command, cwd=folder, capture_output=True, text=True, timeout=SECONDS, check=False)
    expect(ended.returncode in (0, 8), ended.stderr)  # 8: a response with status 404
    return next(folder.glob(f"{name}.warc*"))


def archives_of_wget(folder: Path) -> None:
    """Documents are the bytes that the server has, in each coding of bodies and archives."""
    with served(Handler) as site:
        expected = {site + path: body for path, (_, body) in Handler.pages.items()}
        options: Tuple[List[str], ...] = (["--no-warc-compression"], [], ["--compression=gzip"])
        for number, words in enumerate(options):
            archive = wget(folder, f"w{number}", *words, f"{site}/")
            expect((archive.suffix == ".gz") == (number > 0), f"{archive}")
            found = unpack(archive)
            expect(found.bodies == expected, f"{words}: {sorted(found.lines)}, {found.notes}")
            expect(found.lines.pop(f"{site}/moved") == "redirect ./target#part", "the redirect")
            kinds = {url: rest.split(" ")[0] for url, rest in found.lines.items()}
            expect(kinds == {
                **dict.fromkeys(expected, "text/html"), f"{site}/": "text/html;charset=utf-8",
                f"{site}/both": "text/html;charset=latin1", f"{site}/a%20b": "text/x-odd",
                f"{site}/target": "text/plain", f"{site}/none": "-",
            }, f"{kinds}")
            expect(found.lines[f"{site}/copy"] == found.lines[f"{site}/plain"], "a file is there twice")
            expect("1 documents with the bytes of another one\n" in found.notes, found.notes)
            expect("responses with status 404\n" in found.notes, found.notes)


def revisits_of_wget(folder: Path) -> None:
    """Revisits have the document of the first archive."""
    with served(Handler) as site:
        first = wget(folder, "first", "--warc-cdx", f"{site}/")
        cdx = next(folder.glob("first.cdx"))
        second = wget(folder, "second", "--warc-cdx", f"--warc-dedup={cdx}", f"{site}/")
        text = gzip.decompress(second.read_bytes())
        expect(text.count(b"WARC-Type: revisit") > 5, "wget makes no revisits")
        whole = unpack(first)
        alone = unpack(second)
        expect("revisits of documents that are not in the archives" in alone.notes, alone.notes)
        for archives in ((first, second), (second, first)):
            both = unpack(*archives)
            expect((both.lines.keys(), both.bodies) == (whole.lines.keys(), whole.bodies), f"{both.lines}")


class Static(http.server.SimpleHTTPRequestHandler):
    """Python's static server without its lists of a folder's files."""

    def list_directory(self, path: object) -> None:
        self.send_error(404)

    def log_message(self, format: str, *words: object) -> None:
        return


def file_of(site_folder: Path, url: str) -> Path:
    """The file that the static server returns for a URL."""
    path = site_folder / unquote(urlsplit(url).path[1:])
    return path / "index.html" if path.is_dir() else path


def shipped_site(folder: Path) -> None:
    """The archive of a served folder has the bytes of its files."""
    site_folder = ROOT / "examples/site"
    with served(partial(Static, directory=str(site_folder))) as site:
        found = unpack(wget(folder, "site", f"{site}/"))
    expect(len(found.bodies) > 5, f"{found.lines}")
    for url, body in found.bodies.items():
        expect(body == file_of(site_folder, url).read_bytes(), url)


Row = Dict[str, Any]


def checked(*words: str) -> List[Row]:
    """The rows of a check in which each page that can be reached is checked."""
    program = os.environ.get("MERCATOR") or str(ROOT / "crates/mercator_cli/out/mercator_cli")
    if shutil.which(program) is None:
        raise Skipped(f"{program} is not a program: build it, or set MERCATOR")
    command = [program, "check", "--json", "--reachable", *words]
    ended = subprocess.run(command, capture_output=True, text=True, timeout=SECONDS, check=False)
    expect(ended.returncode in (0, 4), ended.stderr)
    return [json.loads(line) for line in ended.stdout.splitlines()]


def compared_check(site_folder: Path, folder: Path) -> None:
    """The check of an archive finds the broken links and the redirects that the check of its folder finds.

    The counts of pages and links may differ: in an archive each URL is a page of its own, and in a folder
    another URL of a file, such as `index.html`, is an alias.
    """
    unpacked = folder / "unpacked"
    with served(partial(Static, directory=str(site_folder))) as site:
        ended = run(unpacked, wget(folder, "site", "-l", "inf", "-p", f"{site}/"))
        expect(ended.returncode == 0, ended.stderr)
    files: Dict[str, str] = {}  # the file in the served folder, by the file of the archive
    for line in (unpacked / "index.txt").read_text("utf-8").splitlines():
        url, kind, name = line.split(" ", 2)
        if kind != "redirect":
            files[name] = str(file_of(site_folder, url).relative_to(site_folder))
    of_archive = found_in(checked("--index", str(unpacked / "index.txt"), str(unpacked), f"{site}/"), files)
    of_folder = found_in(checked(str(site_folder), f"{site}/"), {})
    expect(any(kind == "place" for kind, *_ in of_folder), "nothing is broken")
    for title, rows in (("archive", of_archive - of_folder), ("folder", of_folder - of_archive)):
        expect(not rows, f"only in the check of the {title}: {sorted(map(str, rows))[:5]}")


def found_in(rows: List[Row], files: Dict[str, str]) -> Set[Tuple[object, ...]]:
    """The findings of a check, with the files of the served folder."""
    found: Set[Tuple[object, ...]] = set()
    for row in rows:
        if row["kind"] == "place":
            place = files.get(row["file"], row["file"])
            found.add(("place", row["target"], row["missing"], place, row["line"], row["column"]))
        if row["kind"] == "redirect":
            found.add(("redirect", row["page"], row["to"]))
    return found


# ---------------------------------------------------------------- records of this file

def record(kind: str, url: str, block: bytes, *headers: str) -> bytes:
    lines = ["WARC/1.1", f"WARC-Type: {kind}", f"WARC-Target-URI: {url}", *headers]
    return "\r\n".join([*lines, f"Content-Length: {len(block)}", "", ""]).encode() + block + b"\r\n\r\n"


def response(status: int, body: bytes, *headers: str) -> bytes:
    return "\r\n".join([f"HTTP/1.1 {status} x", *headers, "", ""]).encode() + body


def of_records(folder: Path, *records: bytes) -> Unpacked:
    """What is unpacked of these records, plain and compressed, which has to be the same."""
    plain, packed = folder / "plain.warc", folder / "packed.warc.gz"
    plain.write_bytes(b"".join(records))
    packed.write_bytes(b"".join(map(gzip.compress, records)))
    found = unpack(plain)
    expect(unpack(packed) == found, "the compressed archive differs")
    return found


def odd_records(folder: Path) -> None:
    """Records of other kinds, URLs that occur again, folded headers, spaces, and no charset."""
    found = of_records(
        folder,
        record("warcinfo", "", b"software: none"),
        record("request", "http://a.test/", b"GET / HTTP/1.0\r\n\r\n"),
        record("response", "http://a.test/", response(404, b"no")),
        record("response", "<http://a.test/>", response(200, b"one", "content-TYPE: text/html", "Content-Type: text/x")),
        record("response", "http://a.test/", response(200, b"two")),
        record("resource", "http://a.test/a b", b"r", "Content-Type: image/png"),
        record("resource", "ftp://a.test/", b"f"),
        record("resource", "http://[bad/", b"f"),
        record("resource", "http://a.test:99999/", b"f"),
        record("response", "http://a.test/r", response(200, b"x", "Content-Type: redirect; charset=x")),
        record("response", "http://a.test/f", response(200, b"f", "Content-Type: text/html;", " charset=\"X y\"")),
        record("response", "http://a.test/m", response(302, b"", "Location: //b.test/c d\u00e9")),
        record("response", "http://a.test/304", response(304, b"")),
        record("response", "http://a.test/no", response(301, b"no location")),
        record("response", "http://a.test/x", b"not http"),
        record("response", "http://a.test/long", response(200, b"x", "a: " + "b" * (1 << 20))),
    )
    expect(found.lines == {
        "http://a.test/": "text/html files/1", "http://a.test/a%20b": "image/png files/2-a_20b",
        "http://a.test/r": "- files/3-r", "http://a.test/f": "text/html;charset=x files/4-f", "http://a.test/m": "redirect //b.test/c d\u00e9",
    }, f"{found.lines}")
    expect(found.notes.splitlines() == [
        "1 documents left out: more than 1048576 bytes of headers",
        "1 records of URLs that are listed already",
        "3 records of URLs that are neither http nor https",
        "1 responses with status 301", "1 responses with status 304", "1 responses with status 404",
        "1 responses with status none",
    ], found.notes)


def statuses(folder: Path) -> None:
    """Which status is a document, and which is a redirect."""
    kinds: Dict[int, str] = {
        **dict.fromkeys((200, 203, 299), "text/html"),
        **dict.fromkeys((301, 302, 303, 307, 308), "redirect"),
        **dict.fromkeys((100, 199, 300, 304, 305, 400, 401, 410, 500, 503), ""),
    }
    found = of_records(folder, *(
        record("response", f"http://a.test/{status}", response(status, b"x", "Location: there", "Content-Type: text/html"))
        for status in kinds
    ))
    for status, kind in kinds.items():
        line = found.lines.get(f"http://a.test/{status}", "")
        expect(line.partition(" ")[0] == kind, f"{status}: {line}")


def targets(folder: Path) -> None:
    """Targets of redirects: in other schemes, over two lines, given twice, empty, and too long."""
    room = 4096 - len("http://a.test/9 redirect ")
    rows = (
        ("mailto:m", "mailto:m"), ("", None), ("a\r\n b", "a b"), ("a\r\nLocation: b\r\n c", "a"), ("a\tb\rc", "abc"),
        ("x" * room, "x" * room), ("x" * (room + 1), None),
    )
    found = of_records(folder, *(
        record("response", f"http://a.test/{number}", response(302, b"", f"Location: {target}"))
        for number, (target, _) in enumerate(rows)
    ))
    for number, (_, target) in enumerate(rows):
        line = found.lines.get(f"http://a.test/{number}")
        expect(line == (None if target is None else f"redirect {target}"), f"{number}: {line}")
    expect(found.notes.splitlines() == ["1 lines left out: more than 4096 bytes", "1 responses with status 302"], found.notes)


def names_of_files(folder: Path) -> None:
    """A file has the last name in its URL, with plain characters only."""
    urls = {
        "http://a.test": "1", "http://a.test/": "2", "http://a.test//b/": "3-b", "http://a.test/b/c.html?d/e": "4-c.html",
        "http://a.test/..": "5-..", "http://a.test/\u00fc\x1b[2J": "6-_2J", f"http://a.test/{'x' * 200}": f"7-{'x' * 80}",
    }
    found = of_records(folder, *(record("resource", url, b"%d" % number) for number, url in enumerate(urls)))
    expect(found.lines == {url: f"- files/{name}" for url, name in urls.items()}, f"{found.lines}")


def headers(folder: Path) -> None:
    """Long headers, and continuation lines, which are joined in linear time."""
    found = unpack_warc.headers_of([b" x", b"A: 1", b"\t2 ", b"b:", b" c", b"a: 3", b" 4", b"C: d"])
    expect(found == {"a": "1 2", "b": " c", "c": "d"}, f"{found}")
    begun = time.process_time()
    found = unpack_warc.headers_of([b"x: a", *[b" b"] * 1_000_000])
    expect(found == {"x": "a" + " b" * 1_000_000} and time.process_time() - begun < 15, "a million lines")
    long = "".join(f"X: {'a' * 60_000}\r\n" for _ in range(20))[:1_000_000]
    lines = of_records(folder, record("response", "http://a.test/", response(200, b"x", long), long)).lines
    expect(lines == {"http://a.test/": "- files/1"}, f"{lines}")


def codings(folder: Path) -> None:
    """Bodies in each coding, bodies that are decoded already, and bodies that are broken."""
    raw = zlib.compressobj(wbits=-15)
    deflated = raw.compress(PAGE) + raw.flush()
    packed = gzip.compress(PAGE)
    bodies: List[Tuple[bytes, Tuple[str, ...], bool]] = [
        (packed, ("Content-Encoding: x-GZIP",), True),
        (packed + b"\0" * 9, ("Content-Encoding: gzip",), True),
        (gzip.compress(PAGE[:99]) + gzip.compress(PAGE[99:]), ("Content-Encoding: gzip",), True),
        (gzip.compress(packed), ("Content-Encoding: gzip, gzip",), True),
        (PAGE, ("Content-Encoding: gzip",), True),
        (PAGE, ("Content-Encoding: identity",), True),
        (deflated, ("Content-Encoding: deflate",), True),
        (zlib.compress(PAGE), ("Content-Encoding: deflate",), True),
        (PAGE, ("Transfer-Encoding: chunked",), True),
        (chunked(PAGE, 70_000), ("Transfer-Encoding: chunked",), True),
        (chunked(PAGE, 1), ("Transfer-Encoding: chunked",), True),
        (packed[:-9], ("Content-Encoding: gzip",), False),
        (packed[:20] + b"x" * 20, ("Content-Encoding: gzip",), False),
        (PAGE, ("Content-Encoding: br",), False),
        (chunked(PAGE, 1000)[:-900], ("Transfer-Encoding: chunked",), False),
        (chunked(PAGE, 1000)[:2000], ("Transfer-Encoding: chunked",), False),
        (b"5\r\nabcdefg\r\n0\r\n\r\n", ("Transfer-Encoding: chunked",), False),
    ]
    found = of_records(folder, *(
        record("response", f"http://a.test/{number}", response(200, body, *headers))
        for number, (body, headers, _) in enumerate(bodies)
    ))
    for number, (_, headers, is_whole) in enumerate(bodies):
        body = found.bodies.get(f"http://a.test/{number}")
        expect(body == (PAGE if is_whole else None), f"{number}, {headers}: {found.notes}")


def revisits(folder: Path) -> None:
    """A revisit by digest or by URL, before its document and after, and with its own type."""
    digest = "WARC-Payload-Digest: sha1:A"
    found = of_records(
        folder,
        record("revisit", "http://a.test/before", response(200, b""), digest),
        record("revisit", "http://a.test/itself", response(304, b""), "WARC-Refers-To-Target-URI: http://a.test/itself"),
        record("response", "http://a.test/", response(200, b"one", "Content-Type: text/html"), digest),
        record("revisit", "http://a.test/after", response(200, b"", "Content-Type: text/plain"), digest),
        record("revisit", "http://a.test/url", b"", "WARC-Refers-To-Target-URI: <http://a.test/>"),
        record("revisit", "http://a.test/none", response(200, b""), "WARC-Payload-Digest: sha1:B"),
        record("revisit", "http://a.test/moved", response(301, b"", "Location: /"), digest),
        record("revisit", "http://a.test/gone", response(404, b""), digest),
        record("response", "http://a.test/itself", response(200, b"two")),
        record("revisit", "http://a.test/itself", response(304, b"")),
    )
    expect(found.lines == {
        "http://a.test/before": "text/html files/1", "http://a.test/itself": "- files/2-itself",
        "http://a.test/": "text/html files/1", "http://a.test/after": "text/plain files/1",
        "http://a.test/url": "text/html files/1", "http://a.test/moved": "redirect /",
    }, f"{found.lines}")
    expect("1 revisits of documents that are not in the archives\n" in found.notes, found.notes)


def limits(folder: Path) -> None:
    """A document that is too large, also when it is decoded, is left out."""
    unpack_warc.DOCUMENT_LIMIT = len(PAGE)
    archive = folder / "a.warc"
    many = gzip.compress(b"\0" * 10_000_000)
    archive.write_bytes(b"".join((
        record("response", "http://a.test/1", response(200, PAGE)),
        record("response", "http://a.test/2", response(200, PAGE + b"x")),
        record("response", "http://a.test/3", response(200, many, "Content-Encoding: gzip")),
        record("resource", "http://a.test/4", PAGE + b"x"),
    )))
    out = folder / "out"
    out.mkdir()
    notes = unpack_warc.unpack(out, [str(archive)])
    expect(notes == {f"documents left out: more than {len(PAGE)} bytes": 3}, f"{notes}")
    expect((out / "index.txt").read_text() == "http://a.test/1 - files/1-1\n", "the list")


def errors(folder: Path) -> None:
    """After an error no folder is left, and the message names the archive."""
    good = record("response", "http://a.test/", response(200, b"x" * 1000))
    archive, out = folder / "a.warc", folder / "out"
    packed = gzip.compress(good)
    for data, why in (
        (good[:-200], "a record is cut off"), (good + good[:30], "a record is cut off"),
        (b"<html>", "not a WARC file"), (good.replace(b"Content-Length", b"Length"), "no valid Content-Length"),
        (good.replace(b"Content-Length: ", b"Content-Length: x"), "no valid Content-Length"),
        (good.replace(b"Content-Length: ", b"Content-Length: " + b"9" * 5000), "no valid Content-Length"),
        (good.replace(b"WARC-Type", b"x: " + b"y" * (1 << 20) + b"\r\nWARC-Type"), "bytes of headers"),
        (packed[:-9], "end-of-stream"), (packed[:-8] + bytes(8), "CRC"), (packed + b"no gzip", ""),
    ):
        archive.write_bytes(data)
        ended = run(out, archive)
        expect(ended.returncode == 1 and ended.stderr.startswith(f"unpack_warc.py: {archive}: "), f"{ended}")
        expect(why in ended.stderr and "Traceback" not in ended.stderr and not out.exists(), f"{why}: {ended}")
    archive.write_bytes(b"")
    expect(unpack(archive).lines == {}, "an empty archive")
    out.mkdir()
    (out / "mine").touch()
    expect(run(out, archive).returncode == 1 and (out / "mine").exists(), "a folder that exists")
    expect(run(folder / "new", folder / "none").returncode == 1, "an archive that is missing")
    expect(not (folder / "new").exists(), "the folder is left")
    expect(run(out).returncode == 3, "no archive")


TESTS: Tuple[Callable[[Path], None], ...] = (
    archives_of_wget, revisits_of_wget, shipped_site, odd_records, statuses, targets, names_of_files, headers, codings, revisits, limits,
    errors,
)


def checks(sites: Sequence[str]) -> Iterator[Tuple[str, Callable[[], None]]]:
    """The comparisons of checks, of each folder."""
    for site in [str(ROOT / "examples/site"), *sites]:
        yield f"check of {site}", partial(in_folder, partial(compared_check, Path(site)))


def in_folder(test: Callable[[Path], None]) -> None:
    with tempfile.TemporaryDirectory(prefix="unpack-warc-") as folder:
        test(Path(folder))


if __name__ == "__main__":
    tests = [(test.__name__, partial(in_folder, test)) for test in TESTS]
    sys.exit(run_all([*tests, *checks(sys.argv[1:])]))
