#!/usr/bin/env python3
"""Unpack web archives (WARC files) into a folder: one file for each document, and a site list.

  unpack_warc.py FOLDER WARC..
  mercator check --index FOLDER/index.txt FOLDER BASE

FOLDER must not exist. The documents become the files `files/1`, `files/2-about.html` and so on, with
a number and the last name in the URL. Documents with the same bytes share a file. The site list is
`index.txt`, and each of its lines is one URL:

  URL TYPE FILE        a document; FILE is its path in FOLDER
  URL redirect TARGET  a redirect; TARGET is its Location as it was sent

- URL is what the archive names, with each space as %20. It is not made canonical.
- TYPE is the media type in lower case, with its charset if there is one, such as `text/html` or
  `text/html;charset=latin1`. It is `-` if there is no media type.
- A URL occurs once: its first document or redirect counts. URLs are in the order of the archives.

The records `response`, `resource` and `revisit` of http and https URLs are read. A status of 200 to
299 is a document. A redirect has a Location and the status 301, 302, 303, 307 or 308. URLs with any
other status are not listed. A revisit is the document with the same digest or, if there is none, of
the URL that it refers to, also if that comes later.

Archives may be compressed by gzip, and bodies may be chunked and encoded by gzip or deflate. A body
that is not, although its header says so, is unpacked as it is, because some programs archive decoded
bodies. A document of more than 2^30 bytes and a line of more than 4,096 bytes are left out, because
mercator does not read them. What is not listed is counted on standard error, with its reason. The
script needs only the standard library.

Exit status: 0 the archives were unpacked; 1 an archive cannot be read or is invalid, or a write
failed: then FOLDER does not exist; 3 bad command line.
"""

from __future__ import annotations

import argparse
import gzip
import hashlib
import re
import shutil
import sys
import zlib
from collections import Counter
from pathlib import Path
from typing import BinaryIO, Dict, Iterable, Iterator, List, NamedTuple, NoReturn, Optional
from urllib.parse import urlsplit

HEADER_LIMIT = 1 << 20  # most bytes of the headers of a record, or of a response
DOCUMENT_LIMIT = 1 << 30  # most bytes of a document
LINE_LIMIT = 4096  # most bytes of a line of the list
NAME_LIMIT = 80  # most characters of a URL's last name in the name of a file
PIECE = 1 << 16  # most bytes that are read at a time
REDIRECTS = (301, 302, 303, 307, 308)
# The decoders of content codings, by the argument of zlib.decompressobj.
GZIP, ZLIB, DEFLATE = 31, 15, -15

Headers = Dict[str, str]


class Invalid(Exception):
    """An archive is invalid."""


class NoDocument(Exception):
    """A record has no document that can be unpacked."""


class Block:
    """The rest of a record's block, which is read once."""

    def __init__(self, file: BinaryIO, length: int) -> None:
        self.file, self.left = file, length

    def read(self, size: int) -> bytes:
        """Read up to `size` bytes; none at the end."""
        return self.taken(self.file.read(min(size, self.left)), size)

    def line(self) -> bytes:
        """Read a line, or a part of a very long one; nothing at the end."""
        return self.taken(self.file.readline(min(PIECE, self.left)), PIECE)

    def taken(self, some: bytes, size: int) -> bytes:
        """Count bytes that were read; none, although some were requested, means that the record is cut off."""
        if not some and self.left and size:
            raise Invalid("a record is cut off")
        self.left -= len(some)
        return some

    def pieces(self) -> Iterator[bytes]:
        """Yield the rest in pieces."""
        while some := self.read(PIECE):
            yield some


def headers_of(lines: Iterable[bytes]) -> Headers:
    """Return headers by name in lower case. The first of several counts; a folded one is joined."""
    found: Dict[str, List[str]] = {}
    last: List[str] = []  # the lines of the last header's value, which is not used if the header occurred before
    for line in lines:
        text = line.decode("utf-8", "replace").rstrip("\r\n")
        if text[:1] in (" ", "\t"):
            last.append(text.strip())
            continue
        name, _, value = text.partition(":")
        last = [value.strip()]
        found.setdefault(name.strip().lower(), last)
    return {name: " ".join(values) for name, values in found.items()}


def head(block: Block) -> Iterator[bytes]:
    """Yield the lines before the first empty one."""
    size = 0
    while line := block.line():
        size += len(line)
        if size > HEADER_LIMIT:
            raise NoDocument(f"more than {HEADER_LIMIT} bytes of headers")
        if line in (b"\r\n", b"\n"):
            return
        yield line


# ---------------------------------------------------------------- records

class Record(NamedTuple):
    """A record of an archive."""

    headers: Headers
    block: Block

    @property
    def kind(self) -> str:
        """Its type, such as `response`."""
        return self.headers.get("warc-type", "")

    @property
    def url(self) -> str:
        """The URL that it is about."""
        return url_of(self.headers.get("warc-target-uri", ""))


def url_of(text: str) -> str:
    """Return a URL without the brackets that some programs write, and without spaces."""
    return unbroken(text.strip("<> ")).replace(" ", "%20")


def is_web(url: str) -> bool:
    """Return whether a text is an http or https URL with a host and, if it has a port, a valid one."""
    try:
        parts = urlsplit(url)
        return parts.scheme in ("http", "https") and bool(parts.hostname) and (parts.port or 0) >= 0
    except ValueError:
        return False


def unbroken(text: str) -> str:
    """Return a text without tabs and line breaks, which a URL parser removes."""
    return re.sub("[\t\n\r]", "", text)


def records(file: BinaryIO) -> Iterator[Record]:
    """Yield the records of an archive. What is not read of a block is skipped."""
    endless = Block(file, sys.maxsize)
    while True:
        first = b"\n"
        while first in (b"\r\n", b"\n"):
            first = file.readline(PIECE)
        if not first:
            return
        if not first.startswith(b"WARC/"):
            raise Invalid("not a WARC file: a record does not begin with WARC/")
        try:
            headers = headers_of(head(endless))
        except NoDocument as why:
            raise Invalid(f"a record has {why}") from None
        length = headers.get("content-length", "")
        if not re.fullmatch("[0-9]{1,18}", length):
            raise Invalid("a record has no valid Content-Length")
        block = Block(file, int(length))
        yield Record(headers, block)
        for _ in block.pieces():
            pass


class Response(NamedTuple):
    """The status of an HTTP response, or None if it is none, and its headers. The body follows."""

    status: Optional[int]
    headers: Headers

    @classmethod
    def of_block(cls, block: Block) -> Response:
        """Read the status and the headers at the beginning of a block."""
        first, *lines = list(head(block)) or [b""]
        status = re.match(rb"HTTP/[0-9.]+ ([0-9]{3})", first)
        return cls(int(status[1]) if status else None, headers_of(lines))

    @property
    def target(self) -> Optional[str]:
        """The target of a redirect, or None."""
        target = unbroken(self.headers.get("location", ""))
        return target if target and self.status in REDIRECTS else None

    @property
    def is_document(self) -> bool:
        """Whether the status is that of a document."""
        return self.status is not None and 200 <= self.status < 300

    def body(self, block: Block) -> Iterator[bytes]:
        """Yield the body without its transfer coding and content coding."""
        pieces = block.pieces()
        if "chunked" in self.headers.get("transfer-encoding", "").lower():
            pieces = dechunked(block)
        codings = self.headers.get("content-encoding", "").lower().split(",")
        for coding in reversed([coding.strip() for coding in codings]):
            if coding in ("gzip", "x-gzip", "deflate"):
                pieces = decoded(pieces, coding)
            elif coding not in ("", "identity"):
                raise NoDocument(f"unknown content coding {coding[:20]!r}")
        return pieces


def dechunked(block: Block) -> Iterator[bytes]:
    """Yield the chunks of a body. If it does not begin with a chunk, yield it as it is."""
    line = block.line()
    if not size_of_chunk(line):
        yield line
        yield from block.pieces()
        return
    while digits := size_of_chunk(line):
        left = int(digits, 16)
        if left == 0:
            return
        while left:
            some = block.read(min(left, PIECE))
            if not some:
                raise NoDocument("the last chunk is cut off")
            left -= len(some)
            yield some
        if block.line() not in (b"\r\n", b"\n"):
            raise NoDocument("a chunk has the wrong length")
        line = block.line()
    raise NoDocument("the last chunk is missing")


def size_of_chunk(line: bytes) -> bytes:
    """Return the digits of a chunk's size, or nothing if the line has none."""
    match = re.fullmatch(rb"[ \t]*([0-9A-Fa-f]{1,15})[ \t]*(?:;.*)?\r?\n", line)
    return match[1] if match else b""


def decoded(pieces: Iterator[bytes], coding: str) -> Iterator[bytes]:
    """Yield a body without a content coding. If it is not encoded, yield it as it is."""
    some = next(pieces, b"")
    while len(some) < 2 and (more := next(pieces, b"")):
        some += more
    window = window_of(some, coding)
    if window is None:
        yield some
        yield from pieces
        return
    decoder = zlib.decompressobj(window)
    try:
        while some:
            while some and not decoder.eof:
                yield decoder.decompress(some, PIECE)
                some = decoder.unconsumed_tail
            if decoder.eof and decoder.unused_data:
                if window != GZIP or not decoder.unused_data.startswith(b"\x1f\x8b"):
                    return  # what follows is padding
                some, decoder = decoder.unused_data, zlib.decompressobj(window)
                continue
            some = next(pieces, b"")
        yield decoder.flush(PIECE)
    except zlib.error:
        raise NoDocument(f"the body is not {coding}") from None
    if not decoder.eof:
        raise NoDocument("the body is cut off")


def window_of(begin: bytes, coding: str) -> Optional[int]:
    """Return how zlib decodes a body with these first bytes; None if the body is not encoded."""
    if coding != "deflate":
        return GZIP if begin[:2] == b"\x1f\x8b" else None
    if len(begin) < 2:
        return None
    is_zlib = begin[0] & 15 == 8 and int.from_bytes(begin[:2], "big") % 31 == 0
    return ZLIB if is_zlib else DEFLATE


def type_of(value: str) -> str:
    """Return the media type in lower case, and its charset; `-` if it is no media type."""
    kind, _, parameters = value.partition(";")
    kind = re.sub(r"\s", "", kind).lower()
    if "/" not in kind:
        return "-"
    charset = re.search(r"(?i)charset\s*=\s*[\"']?([^\s\"';]+)", parameters)
    return kind + (f";charset={charset[1].lower()}" if charset else "")


def name_of(number: int, url: str) -> str:
    """Return the name of a file: its number, and the last name in the URL with only plain characters."""
    path = re.split("[?#]", url, maxsplit=1)[0].split("/")[3:]
    last = [name for name in path if name][-1:]
    return "-".join([str(number), *(re.sub("[^A-Za-z0-9._-]+", "_", name)[:NAME_LIMIT] for name in last)])


# ---------------------------------------------------------------- what is unpacked

class Document(NamedTuple):
    """A document's type, and its file in the folder."""

    kind: str
    file: str


class Revisit(NamedTuple):
    """A revisit whose document is looked up at the end."""

    kind: str
    digest: str
    refers_to: str


class Unpacked:
    """The folder of documents, and the list."""

    def __init__(self, folder: Path) -> None:
        self.folder = folder
        self.lines: Dict[str, str] = {}  # by URL, what follows it in the list
        self.documents: Dict[str, Document] = {}  # by URL
        self.by_digest: Dict[str, Document] = {}  # by the digest that the archive gives
        self.by_hash: Dict[bytes, str] = {}  # the files
        self.revisits: Dict[str, Revisit] = {}
        self.notes: Counter[str] = Counter()

    def read(self, archive: str) -> None:
        """Unpack an archive."""
        with open(archive, "rb") as plain:
            is_packed = plain.read(2) == b"\x1f\x8b"
        opened = gzip.open(archive, "rb") if is_packed else open(archive, "rb")
        with opened as file:
            for record in records(file):  # type: ignore[arg-type]
                self.add(record)

    def add(self, record: Record) -> None:
        """Unpack a record, unless its URL is listed already."""
        if record.kind not in ("response", "resource", "revisit"):
            return
        url = record.url
        if not is_web(url):
            self.notes["records of URLs that are neither http nor https"] += 1
        elif url in self.lines and (record.kind == "revisit" or url not in self.revisits):
            self.notes["records of URLs that are listed already"] += 1
        else:
            if "warc-truncated" in record.headers:
                self.notes["documents that were cut off when they were archived"] += 1
            try:
                self.add_new(url, record)
            except NoDocument as why:
                self.notes[f"documents left out: {why}"] += 1

    def add_new(self, url: str, record: Record) -> None:
        """Unpack a record of a URL that is not listed."""
        digest = record.headers.get("warc-payload-digest", "")
        if record.kind == "resource":
            kind = type_of(record.headers.get("content-type", ""))
            return self.add_document(url, kind, digest, record.block.pieces())
        response = Response.of_block(record.block)
        kind = type_of(response.headers.get("content-type", ""))
        if response.target is not None:
            self.list(url, f"redirect {response.target}")
        elif record.kind == "revisit" and (response.is_document or response.status in (None, 304)):
            refers_to = url_of(record.headers.get("warc-refers-to-target-uri", ""))
            self.list(url, "")  # it keeps its place
            self.revisits[url] = Revisit(kind, digest, refers_to)
        elif response.is_document:
            self.add_document(url, kind, digest, response.body(record.block))
        else:
            self.notes[f"responses with status {response.status or 'none'}"] += 1

    def add_document(self, url: str, kind: str, digest: str, body: Iterator[bytes]) -> None:
        """Write a document to a new file, or find the file with the same bytes."""
        path = self.folder / "files" / name_of(len(self.by_hash) + 1, url)
        content, size = hashlib.sha256(), 0
        try:
            with open(path, "wb") as file:
                for piece in body:
                    size += len(piece)
                    if size > DOCUMENT_LIMIT:
                        raise NoDocument(f"more than {DOCUMENT_LIMIT} bytes")
                    content.update(piece)
                    file.write(piece)
        except NoDocument:
            path.unlink()
            raise
        known = self.by_hash.setdefault(content.digest(), path.name)
        if known != path.name:
            path.unlink()
            self.notes["documents with the bytes of another one"] += 1
        document = Document(kind, f"files/{known}")
        self.documents[url] = document
        self.list(url, f"{document.kind} {document.file}")
        if digest:
            self.by_digest.setdefault(digest, document)

    def list(self, url: str, rest: str) -> None:
        """List a URL, with the rest of its line."""
        self.lines[url] = rest
        self.revisits.pop(url, None)

    def end(self) -> None:
        """Look up the revisits, and write the list."""
        for url, revisit in self.revisits.items():
            document = self.by_digest.get(revisit.digest) or self.documents.get(revisit.refers_to)
            if document is None:
                self.notes["revisits of documents that are not in the archives"] += 1
                del self.lines[url]
            else:
                kind = document.kind if revisit.kind == "-" else revisit.kind
                self.lines[url] = f"{kind} {document.file}"
        with open(self.folder / "index.txt", "wb") as file:
            for url, rest in self.lines.items():
                line = f"{url} {rest}".encode("utf-8", "replace")
                if len(line) > LINE_LIMIT:
                    self.notes[f"lines left out: more than {LINE_LIMIT} bytes"] += 1
                else:
                    file.write(line + b"\n")


# ---------------------------------------------------------------- the command

class CommandLine(argparse.ArgumentParser):
    """A parser that exits with the status of mercator if the command line is bad."""

    def error(self, message: str) -> NoReturn:
        """Print the error and exit."""
        self.exit(3, f"unpack_warc.py: {message}\n")


def unpack(folder: Path, archives: List[str]) -> Counter[str]:
    """Unpack archives into a new folder, and return how many records are not listed, by reason."""
    (folder / "files").mkdir()
    unpacked = Unpacked(folder)
    for archive in archives:
        try:
            unpacked.read(archive)
        except (Invalid, EOFError, zlib.error, gzip.BadGzipFile) as error:
            raise Invalid(f"{archive}: {error}") from None
    unpacked.end()
    return unpacked.notes


def main() -> int:
    """Run the command."""
    about, _, more = (__doc__ or "").partition("\n\n")
    parser = CommandLine(description=about, epilog=more,
                         formatter_class=argparse.RawDescriptionHelpFormatter)
    parser.add_argument("folder", metavar="FOLDER", type=Path, help="the new folder")
    parser.add_argument("archives", metavar="WARC", nargs="+", help="an archive, also gzipped")
    given = parser.parse_args()
    try:
        given.folder.mkdir()
    except OSError as error:
        print(f"unpack_warc.py: {given.folder}: {error.strerror}", file=sys.stderr)
        return 1
    notes: Optional[Counter[str]] = None
    try:
        notes = unpack(given.folder, given.archives)
    except (Invalid, OSError) as error:
        print(f"unpack_warc.py: {error}", file=sys.stderr)
        return 1
    finally:
        if notes is None:
            shutil.rmtree(given.folder)
    for note, count in sorted(notes.items()):
        print(f"{count} {note}", file=sys.stderr)
    return 0


if __name__ == "__main__":
    sys.exit(main())
