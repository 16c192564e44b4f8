"""Findings of a check with what a person needs to judge them: the text of the link, and what the folder has in place of its target."""

from __future__ import annotations

import contextlib
import http.client
import http.server
import os
import re
import threading
from collections import defaultdict
from functools import lru_cache, partial
from pathlib import Path
from typing import Any, Dict, Iterator, List, NamedTuple, Optional
from urllib.parse import quote, unquote

from checking.documents import Document, document_of, form_of, sheet_text, text_of
from checking.printing import REASONS

AROUND = 60  # the most characters that are shown on each side of a link's value
SHOWN = 3  # the most other spellings that are shown
INDEXES = ("index.htm", "index.xhtml", "index.php", "index.shtml")


class Finding(NamedTuple):
    """A broken, invalid or leaving link: its location, its target without the base, and what is missing, `page` or `anchor`, or the reason."""

    file: str
    line: int
    column: int
    target: str
    missing: str
    reason: str


class Handler(http.server.SimpleHTTPRequestHandler):
    """Python's static server of a folder at a path, without its lists of files and its log."""

    protocol_version = "HTTP/1.1"
    disable_nagle_algorithm = True  # else each answer waits for an acknowledgement

    def __init__(self, prefix: str, *arguments: Any, **names: Any) -> None:
        self.prefix = prefix
        super().__init__(*arguments, **names)

    def translate_path(self, path: str) -> str:
        rest = path[len(self.prefix):] if path.startswith(self.prefix) else "\ufffd"
        return super().translate_path("/" + rest)

    def list_directory(self, path: object) -> None:
        self.send_error(http.HTTPStatus.NOT_FOUND)

    def log_message(self, *_: object) -> None:
        """Logs nothing."""


@contextlib.contextmanager
def server(folder: str, prefix: str) -> Iterator[http.client.HTTPConnection]:
    """A connection to Python's static server over a folder, which it serves at the path `prefix`."""
    with http.server.ThreadingHTTPServer(("127.0.0.1", 0), partial(Handler, prefix, directory=folder)) as made:
        made.daemon_threads = True
        threading.Thread(target=made.serve_forever, daemon=True).start()
        connection = http.client.HTTPConnection("127.0.0.1", made.server_address[1], timeout=60)
        try:
            yield connection
        finally:
            connection.close()
            made.shutdown()


class Folder:
    """A folder of documents, as a person looks at it."""

    def __init__(self, top: str, prefix: str, connection: http.client.HTTPConnection) -> None:
        self.top, self.prefix, self.connection = top, prefix, connection
        self.names: Dict[str, List[str]] = defaultdict(list)  # the files by their names in lower case without a suffix
        for above, _, files in os.walk(top):
            for name in files:
                path = os.path.relpath(os.path.join(above, name), top)
                self.names[bare(name)].append(path)
        self.lines = lru_cache(maxsize=64)(self.read_lines)
        self.document = lru_cache(maxsize=64)(self.read_document)
        self.page_notes = lru_cache(maxsize=None)(self.read_page_notes)

    def read_lines(self, file: str) -> List[str]:
        """The lines of a document."""
        body = Path(self.top, file).read_bytes()
        text, _ = text_of(body) if form_of(os.fsencode(file), True) in ("html", "xml", "") else sheet_text(body)
        return text.split("\n")

    def read_document(self, file: str) -> Document:
        """The links and ids of a document."""
        return document_of(Path(self.top, file).read_bytes(), form_of(os.fsencode(file), True) or "html")

    def value(self, finding: Finding) -> str:
        """The value of the attribute at the location of a finding, as far as it is in this line."""
        line, at = self.lines(finding.file)[finding.line - 1], finding.column - 1
        mark = line[at - 1:at]
        ends = " \t>)" if mark == "(" else " \t>"
        end = line.find(mark, at) if mark in ("'", '"') else min((i for i, c in enumerate(line) if i >= at and c in ends), default=-1)
        return line[at:end if end >= 0 else len(line)]

    def excerpt(self, finding: Finding) -> str:
        """The line around the location of a finding, with the value in brackets."""
        line, at, value = self.lines(finding.file)[finding.line - 1], finding.column - 1, self.value(finding)
        return f"{line[max(0, at - AROUND):at].lstrip()}\u300a{value}\u300b{line[at + len(value):at + len(value) + AROUND].rstrip()}"

    def notes(self, finding: Finding) -> List[str]:
        """What is known of a finding, in words, the most telling first."""
        left = self.left(finding)
        if finding.reason:
            return left or [REASONS[finding.reason]]
        if finding.missing == "anchor":
            return left + self.anchor_notes(finding)
        return left + self.page_notes(finding.target)

    def left(self, finding: Finding) -> List[str]:
        """A note if the link leads out of the folder, or names the host on which it is served."""
        value = self.value(finding)
        if value.startswith(("http:", "https:", "//")):
            return [f"names a host: {re.split('[/?#]', value.partition('//')[2])[0]}"]
        if value.startswith("/"):
            return ["begins with a slash"]
        path = os.path.normpath(os.path.join(os.path.dirname(finding.file), unquote(re.split("[?#]", value)[0])))
        if not path.startswith(".."):
            return []
        exists = "exists" if os.path.exists(os.path.join(self.top, path)) else "does not exist"
        return [f"leaves the folder, and {exists} outside"]

    def status(self, target: str) -> int:
        """The status with which Python's static server answers a request for a target, after its redirects."""
        path = self.prefix + target
        for _ in range(5):
            self.connection.request("GET", quote(path, safe="/%?=&;:+,!$'()*@[]~"))
            response = self.connection.getresponse()
            response.read()
            if response.status not in (301, 302):
                break
            path = response.getheader("Location", path)
        return response.status

    def read_page_notes(self, target: str) -> List[str]:
        """What is known of the target of a missing page."""
        path = unquote(target.partition("?")[0])
        place = os.path.join(self.top, path)
        notes = []
        if self.status(target) == 200:
            notes.append("a static server has it")
        if os.path.islink(place.rstrip("/")):
            notes.append("a symbolic link to nothing in the folder")
        if os.path.isfile(place.rstrip("/") + ".html"):
            notes.append("with .html it exists")
        if os.path.isfile(place + ".gz"):
            notes.append("with .gz it exists")
        if os.path.isdir(place):
            indexes = [name for name in INDEXES if os.path.isfile(os.path.join(place, name))]
            notes.append(f"a folder with {', '.join(indexes) or 'no index file'}")
        others = self.names.get(bare(os.path.basename(path)), []) if os.path.basename(path) else []
        if others:
            notes.append(f"other spellings: {', '.join(sorted(others)[:SHOWN])}{', ..' if len(others) > SHOWN else ''}")
        return notes or ["no file has this name"]

    def anchor_notes(self, finding: Finding) -> List[str]:
        """What is known of a missing anchor."""
        target, _, fragment = finding.target.partition("#")
        file = self.file_of(target)
        ids = (self.document(file).ids or frozenset()) if file else frozenset()
        others = [one for one in sorted(ids) if one.lower() == unquote(fragment).lower()]
        return [f"other spellings: {', '.join(others[:SHOWN])}"] if others else [f"no id has this name: {len(ids)} ids"]

    def file_of(self, target: str) -> Optional[str]:
        """The file of a target."""
        path = unquote(target.partition("?")[0])
        path += "index.html" if not path or path.endswith("/") else ""
        return path if os.path.isfile(os.path.join(self.top, path)) else None


def bare(name: str) -> str:
    """A name in lower case without its suffix."""
    return name.lower().partition(".")[0]


def shown(folder: Folder, finding: Finding) -> str:
    """A finding in a form that a person can judge."""
    wrong = REASONS[finding.reason] if finding.reason else f"no such {finding.missing}"
    return "\n".join([
        f"{finding.file}:{finding.line}:{finding.column}: {finding.target}: {wrong}",
        f"  {folder.excerpt(finding)}",
        *(f"  - {note}" for note in folder.notes(finding)),
    ])
