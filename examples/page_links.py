"""Find the links of HTML pages in another process, which ends if a page takes too long.

`html.parser` is in the standard library, but its time grows with the square of the size of some
pages, so a page of 80 kB can take minutes. It also raises exceptions for some pages.
"""

from __future__ import annotations

import json
import os
import signal
import subprocess
import sys
from contextlib import suppress
from html.parser import HTMLParser
from queue import LifoQueue
from typing import List, NamedTuple, Optional, Tuple
from urllib.parse import urljoin

# The limit of CPU time. The densest pages need about 2 seconds per million bytes.
SECONDS = 1.0
SECONDS_PER_MILLION_BYTES = 5.0

LINKS = {
    ("a", "href"), ("area", "href"), ("frame", "src"), ("iframe", "src"), ("img", "src"),
    ("link", "href"), ("script", "src"),
}


class Links(NamedTuple):
    """The links of a page as they are written in it."""

    base: str  # the URL that they are resolved against
    texts: List[str]
    error: Optional[str] = None  # why links may be missing


def links_of(url: str, body: bytes, charset: Optional[str]) -> Links:
    """Find the links of a page.

    If Python does not know the charset, or there is none, the page is decoded as UTF-8.
    """
    reader, free = readers.get(), None
    try:
        reader = reader or Reader()
        links = reader.links_of(url, body, charset)
        free = reader if reader.process.returncode is None else None
        return links
    finally:
        readers.put(free)


class Reader:
    """A process that finds the links of one page at a time."""

    def __init__(self) -> None:
        # In a session of its own, so that Ctrl-C reaches only the crawler. When that ends, so does
        # the input of the reader.
        self.process = subprocess.Popen(
            [sys.executable, __file__], stdin=subprocess.PIPE, stdout=subprocess.PIPE, text=True,
            start_new_session=True,
        )

    def links_of(self, url: str, body: bytes, charset: Optional[str]) -> Links:
        requests, answers = self.process.stdin, self.process.stdout
        assert requests and answers
        answer = ""
        with suppress(BrokenPipeError):
            # JSON has no bytes. Latin-1 has a character for each.
            print(json.dumps([url, body.decode("latin-1"), charset]), file=requests, flush=True)
            answer = answers.readline()
        if answer.endswith("\n"):
            return Links(*json.loads(answer))
        return Links(url, [], self.end())

    def end(self) -> str:
        """Close the pipes of the process, which has ended, and return the reason."""
        with suppress(BrokenPipeError), self.process:
            pass
        if self.process.returncode == -signal.SIGPROF:
            return "links not read: the page takes too much CPU time"
        return f"links not read: the reader ended with status {self.process.returncode}"


# The readers that are free, or None for one that is not started yet. The last one is used first.
readers: LifoQueue[Optional[Reader]] = LifoQueue()
for _ in range(max(2, os.cpu_count() or 1)):
    readers.put(None)


# ---- the process


class Page(HTMLParser):
    """Collects the links of a page."""

    def __init__(self, url: str) -> None:
        super().__init__()
        self.base = url
        self.has_base = False
        self.texts: List[str] = []

    def handle_starttag(self, tag: str, attrs: List[Tuple[str, Optional[str]]]) -> None:
        for name, value in attrs:
            if value is not None and (tag, name) in LINKS:
                self.texts.append(value)
            elif value is not None and (tag, name) == ("base", "href") and not self.has_base:
                self.has_base = True
                with suppress(ValueError):  # not a URL
                    self.base = urljoin(self.base, value)  # the frontier resolves the links


def text_of(body: bytes, charset: Optional[str]) -> str:
    try:
        return body.decode(charset or "utf-8", "replace")
    except (LookupError, ValueError):
        return body.decode("utf-8", "replace")


def found_in(url: str, body: bytes, charset: Optional[str]) -> Links:
    """Find the links of a page; if an exception is raised, those before it."""
    page = Page(url)
    try:
        page.feed(text_of(body, charset))
        page.close()
    except Exception as error:
        error_text = f"links may be missing: {type(error).__name__}: {error}"
        return Links(page.base, page.texts, error_text)
    return Links(page.base, page.texts)


def main() -> None:
    """Read pages from standard input, one per line, and print the links of each as a line."""
    signal.signal(signal.SIGPIPE, signal.SIG_DFL)  # if the crawler was killed, end without a message
    for line in sys.stdin:
        url, text, charset = json.loads(line)
        limit = SECONDS + len(text) * SECONDS_PER_MILLION_BYTES / 1e6
        signal.setitimer(signal.ITIMER_PROF, limit)  # its signal ends the process
        links = found_in(url, text.encode("latin-1"), charset)
        signal.setitimer(signal.ITIMER_PROF, 0)
        print(json.dumps(links), flush=True)


if __name__ == "__main__":
    main()
