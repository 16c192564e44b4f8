"""An independent model of a compaction to other settings: the lines of the new log, and what it keeps of the old one."""

from __future__ import annotations

from itertools import zip_longest
from random import Random
from typing import Dict, Iterator, List, NamedTuple, Optional, Sequence, Tuple

import drawn
from serving.model import Session, random_requests, read, session_of
from serving.sums import whole_lines
from serving.trial import expect

# The options of a session.
Words = Tuple[str, ...]


class Lists(NamedTuple):
    """What a client was told of URLs: each list has its URLs in the order of `serve --list`."""

    done: List[str]
    in_progress: List[str]
    pending: List[List[str]]
    elsewhere: List[str]
    ended: bool
    closed: bool


class Known(Session):
    """A session that knows the canonical URLs of other sessions, also those that drawn.py cannot parse."""

    urls: Dict[str, drawn.Url] = {}

    def url_of(self, text: str) -> drawn.Url:
        if text not in self.urls:
            url = drawn.url_of(text)
            self.urls[str(url)] = url
        return self.urls.get(text) or drawn.url_of(text)

    def offer(self, text: str, base: Optional[str] = None) -> str:
        if base is not None and text not in self.urls:
            try:
                url = drawn.url_of(text, self.url_of(base))
                self.urls[str(url)] = url
            except (drawn.NotUrl, drawn.NotHttp):
                pass
        return super().offer(text, base)


def host_of(url: str) -> str:
    return Known.urls[url].host


def session_with(words: Words) -> Known:
    """Return a session with these options, of which each has a value."""
    one = session_of(words)
    return Known(one.workers, one.most, one.suffix, (one.part, len(one.waiting) // one.workers) if one.is_part else None)


class Refused(Exception):
    """The new settings are refused. No new log is made."""


def suffix_allows(suffix: Optional[str], url: str) -> bool:
    return suffix is None or f".{host_of(url)}".endswith(f".{suffix}")


def lists_of(session: Session, lines: Sequence[bytes]) -> Lists:
    """Return the lists of a new session after these lines, by its answers only."""
    done: List[str] = []
    elsewhere: Dict[str, None] = {}
    ended = closed = False
    for line in lines:
        word, _, number = line.decode("utf-8", "replace").partition(" ")
        taken = session.answer(b"again " + number.encode()) if word == "done" else ""
        answer = session.answer(line)
        if word == "done" and answer.startswith("count "):
            done.append(taken[6:])
        ended = ended or line == b"endseeds"
        closed = closed or answer == "closed"
        if answer.startswith("elsewhere "):
            elsewhere[answer.split(" ")[2]] = None
    queues = range(len(session.waiting))
    in_progress = [session.answer(b"again %d" % queue)[6:] for queue in queues if queue in session.busy]
    return Lists(done, in_progress, [list(session.waiting[queue]) for queue in queues], list(elsewhere), ended, closed)


def by_turns(queues: Sequence[Sequence[str]]) -> Iterator[str]:
    """Yield the first URL of each queue, then the second of each, and so on."""
    for row in zip_longest(*queues):
        yield from (url for url in row if url is not None)


def lines_of(old: Lists, new: Session) -> Tuple[List[bytes], List[str], int]:
    """Return the lines of a log of the new session, which is given them; the URLs that its filter leaves out; and how many of these
    are unfinished.

    Raises:
        Refused: a line has another answer than the log needs.
    """
    lines: List[bytes] = []
    left_out: List[str] = []
    unfinished = 0

    def give(line: bytes, *allowed: str) -> str:
        answer = new.answer(line)
        if answer.split(" ")[0] not in allowed:
            raise Refused(f"{line!r}: {answer}")
        lines.append(line)
        return answer

    if old.ended:
        give(b"endseeds", "count")
    for url in old.done:
        if suffix_allows(new.suffix, url):
            queue = int(give(f"offer {url}".encode(), "accepted").split(" ")[1])
            give(b"next %d" % queue, "taken")
            give(b"done %d" % queue, "count")
        else:
            left_out.append(url)
    for url in (*old.in_progress, *by_turns(old.pending)):
        if suffix_allows(new.suffix, url):
            give(f"offer {url}".encode(), "accepted")
        else:
            left_out.append(url)
            unfinished += 1
    for url in old.elsewhere:
        if suffix_allows(new.suffix, url):
            give(f"offer {url}".encode(), "elsewhere")
        else:
            left_out.append(url)
    if old.closed:
        give(b"next %d" % (new.part * new.workers), "closed")
    return lines, left_out, unfinished


def rebuilds(old: Lists, suffix: Optional[str], new: Lists) -> None:
    """Check what a log with other settings keeps of an old one, with this suffix."""
    def allowed(urls: Sequence[str]) -> List[str]:
        return [url for url in urls if suffix_allows(suffix, url)]
    waited = [url for queue in old.pending for url in queue]
    waits = [url for queue in new.pending for url in queue]
    expect(new.done == allowed(old.done), "done URLs, in their order")
    expect(new.in_progress == [], "none is in progress")
    expect(sorted(waits) == sorted(allowed([*old.in_progress, *waited])), "unfinished URLs")
    expect(new.elsewhere == allowed(old.elsewhere), "URLs of other parts")
    expect((new.ended, new.closed) == (old.ended, old.closed), "the ends")
    for host in set(map(host_of, waits)):
        own = [url for url in (*old.in_progress, *waited) if host_of(url) == host and suffix_allows(suffix, url)]
        expect([url for url in waits if host_of(url) == host] == own, f"the order of {host}")


def random_rebuild(draw: Random, count: int, old: Words, words: Words) -> str:
    """Compact a random session to other options, and check the result. Return how that ends."""
    data, _ = random_requests(draw, count, session_with(old), True)
    copy, new = session_with(old), session_with(words)
    before = lists_of(copy, [read(line) for line in whole_lines(data)])
    try:
        lines, left_out, unfinished = lines_of(before, new)
    except Refused:
        expect(copy.count() > new.most or new.most == 1, "refused, although it has room")
        return "refused"
    expect(copy.count() - unfinished <= new.most, "not refused, although it has no room")
    rebuilds(before, new.suffix, lists_of(session_with(words), lines))
    expect(unfinished <= len(left_out), "more unfinished URLs than were left out")
    return "narrower" if left_out else "closed" if before.closed else "kept"
