"""An independent model of a session, which uses the model of URLs in drawn.py."""

from __future__ import annotations

import re
from random import Random
from typing import Dict, Iterable, List, Optional, Sequence, Set, Tuple

import drawn

LINE_LIMIT = 4096
MOST = 2**64 - 1  # the largest number that is counted to


class Session:
    """The answers of a session, by the table of requests in docs/SESSION.md: for each queue a plain list of the URLs that wait."""

    def __init__(
        self, workers: int, most: int, suffix: Optional[str] = None, part: Optional[Tuple[int, int]] = None
    ) -> None:
        self.part, parts = part or (0, 1)
        self.is_part, self.workers, self.most, self.suffix = part is not None, workers, most, suffix
        self.waiting: List[List[str]] = [[] for _ in range(workers * parts)]
        self.put_back: List[Set[str]] = [set() for _ in range(workers * parts)]
        self.accepted = [0] * (workers * parts)
        self.again = [0] * (workers * parts)  # offers that were answered `seen`
        self.busy: Dict[int, str] = {}
        self.ended: List[Tuple[int, str]] = []
        self.seen: Set[str] = set()
        self.opening, self.closed = True, False

    def count(self) -> int:
        """The number of URLs that are not done, and one for the seeds until they have ended."""
        return self.opening + sum(map(len, self.waiting)) + len(self.busy)

    def answer(self, line: bytes) -> str:
        if len(line) > LINE_LIMIT:
            return "line too long"
        try:
            text = line.decode()
        except UnicodeDecodeError:
            return "not UTF-8"
        word, space, rest = text.partition(" ")
        if word == "offer" and space:
            return self.offer(rest)
        if word == "link" and " " in rest:
            base, _, rest = rest.partition(" ")
            return self.offer(rest, base)
        if text == "sync" and self.is_part:
            return "synced"
        if text == "endseeds":
            return self.end_seeds()
        if text == "stats":
            return self.stats(range(len(self.waiting)))
        if word == "seen" and re.fullmatch("[0-9]{1,20} [0-9]{1,20}", rest):
            return self.count_seen(*map(int, rest.split(" ")))
        if word in ("next", "done", "again", "later", "stats") and re.fullmatch("[0-9]{1,20}", rest) and int(rest) < 2**32:
            return self.of_queue(word, int(rest))
        return "bad line"

    def count_seen(self, queue: int, count: int) -> str:
        """The answer to `seen`, by which a compacted log keeps the numbers of the log."""
        if queue >= 2**32 or count > MOST:
            return "bad line"
        if queue >= len(self.again):
            return "refused nosuch"
        self.again[queue] = min(self.again[queue] + count, MOST)
        return "seen"

    def end_seeds(self) -> str:
        if not self.opening:
            return "refused nothing"
        self.opening = False
        return f"count {self.count()}"

    def of_queue(self, word: str, queue: int) -> str:
        if queue >= len(self.waiting) or self.is_part and queue // self.workers != self.part:
            return "refused nosuch"
        if word == "next":
            return self.next(queue)
        if word == "stats":
            return self.stats((queue,))
        if queue not in self.busy:
            return "refused nothing"
        if word == "again":
            return f"taken {self.busy[queue]}"
        url = self.busy.pop(queue)
        if word == "later":
            self.waiting[queue].append(url)
            self.put_back[queue].add(url)
        else:
            self.ended.append((queue, url))
        return f"count {self.count()}"

    def stats(self, queues: Iterable[int]) -> str:
        """How many URLs of these queues were accepted, are done, in progress, and waiting; and how many of the last were put back."""
        return " ".join(["stats", *(f"{name} {number}" for name, number in self.numbers(queues).items())])

    def numbers(self, queues: Iterable[int]) -> Dict[str, int]:
        """Return the numbers in the answer to `stats`, by name."""
        rows = [
            (self.accepted[q], q in self.busy, len(self.waiting[q]), len(self.put_back[q]), self.again[q]) for q in queues
        ]
        accepted, busy, waiting, put_back, seen = map(sum, zip(*rows))
        done = accepted - busy - waiting
        return {"accepted": accepted, "done": done, "in-progress": busy, "waiting": waiting, "put-back": put_back,
                "seen": min(seen, MOST)}

    def listed(self, kind: str) -> List[Tuple[int, str]]:
        """Return the URLs of `--list` with their queues, in order."""
        if kind == "done":
            return self.ended
        if kind == "in-progress":
            return sorted(self.busy.items())
        return [(queue, url) for queue, urls in enumerate(self.waiting) for url in urls]

    def next(self, queue: int) -> str:
        if queue in self.busy:
            return "refused busy"
        if self.waiting[queue]:
            self.busy[queue] = self.waiting[queue].pop(0)
            self.put_back[queue].discard(self.busy[queue])
            return f"taken {self.busy[queue]}"
        self.closed = self.closed or self.count() == 0
        return "closed" if self.closed else f"pending {self.count()}"

    def url_of(self, text: str) -> drawn.Url:
        return drawn.url_of(text)

    def offer(self, text: str, base: Optional[str] = None) -> str:
        try:
            url = self.url_of(text) if base is None else drawn.url_of(text, self.url_of(base))
        except drawn.NotUrl:
            return "not a URL"
        except drawn.NotHttp:
            return "not http or https"
        if self.suffix is not None and not f".{url.host}".endswith(f".{self.suffix}"):
            return "filtered"
        queue = drawn.queue_of(url, len(self.waiting))
        part = queue // self.workers
        if part != self.part:
            return f"elsewhere {part} {url}"
        if self.closed:
            return "refused closed"
        if self.count() == self.most:
            return "refused full"
        if str(url) in self.seen:
            return self.count_seen(queue, 1)
        self.seen.add(str(url))
        self.waiting[queue].append(str(url))
        self.accepted[queue] += 1
        return f"accepted {queue} {self.accepted[queue] - 1}"


ODD_LINES = (
    b"", b" ", b"offer", b"Offer http://a.test/", b"offers http://a.test/", b"next", b"next 0 ", b"next  0", b"done -1",
    b"done +1", b"next 4294967296", b"next 4294967295", b"again", b"again x", b"endseeds ", b"end", b"link", b"look 0",
    b"link http://a.test/", b"enter 0", b"close", b"offer \xff", b"\xc3", b"offer http://\xe2\x82", b"\r", b"next 0\r",
    b"done 00000000000000000000", b"done 000000000000000000000", b"offer ", b"link  x", b"link  http://a.test/",
    b"later", b"later ", b"later x", b"later -1", b"later 4294967296", b"later 4294967295", b"stats ", b"stats x", b"stats  0",
    b"stats 4294967296", b"stats 4294967295", b"stats 0 0", b"Stats", b"sync", b"sync ", b"sync 0", b"identity x", b"synced",
    b"#", b"#00000000", b"# next 0", b" #", b"seen", b"seen 0", b"seen 0 x", b"seen x 0", b"seen  0 0", b"seen 0 0 ", b"seen 0 0 0",
    b"seen 0 18446744073709551616", b"seen 4294967296 1", b"seen 4294967295 1", b"seen 0 000000000000000000001",
)


def random_line(draw: Random, first: int, workers: int, has_link: bool, hosts: Sequence[drawn.Target]) -> bytes:
    kind = draw.randrange(100)
    queue = first + draw.choice((*range(min(workers, 4)), *range(min(workers, 4)), workers - 1, workers, -min(first, 1)))
    if kind < 40:
        return f"offer {drawn.spelled(draw, draw.choice(hosts))}".encode()
    if kind < 43:
        return f"offer {draw.choice(drawn.NO_SEEDS)}".encode()
    if kind < 58 and has_link:
        base = draw.choice(("http://a.test/", "x", "", "ftp://a.test/", *[drawn.spelled(draw, draw.choice(hosts))] * 30))
        return f"link {base} {drawn.random_link(draw, list(hosts))}".encode()
    if kind < 75:
        return b"next %d" % queue
    if kind < 87 or kind < 92 and not has_link:
        return b"done %d" % queue
    if kind < 92:
        return b"later %d" % queue
    if kind < 94 and has_link:
        return b"again %d" % queue
    if kind < 95 and has_link:
        count = draw.choice((0, 1, 1, 2, 10**6, MOST - draw.randrange(9)))
        return draw.choice((b"stats", b"stats %d" % queue, b"stats %d" % queue, b"seen %d %d" % (queue, count)))
    if kind < 97:
        return draw.choice(ODD_LINES)
    if kind < 98:
        length = draw.choice((4095, 4096, 4097, 4098, 4099, 9000))
        return draw.choice((b"offer http://a.test/", b"x")).ljust(length, b"a") + draw.choice((b"", b"\r"))
    return b"next 0"


def read(line: bytes) -> bytes:
    """Return a line without its LF, and without one CR before that."""
    line = line[:-1]
    return line[:-1] if line.endswith(b"\r") else line


def part_of(text: str) -> Tuple[int, int]:
    number, _, parts = text.partition("/")
    return int(number), int(parts)


def session_of(words: Sequence[str]) -> Session:
    """Return a session with these options, of which each has a value."""
    settings = dict(zip(words[::2], words[1::2]))
    workers = int(settings.get("--workers", "4"))
    part = part_of(settings["--part"]) if "--part" in settings else None
    return Session(workers, int(settings.get("--max-pending", "1048576")), settings.get("--within"), part)


def random_session(draw: Random, count: int, words: Sequence[str], has_link: bool) -> Tuple[bytes, List[str]]:
    """Return random request lines with their line ends, and the expected answers."""
    return random_requests(draw, count, session_of(words), has_link)


def random_requests(draw: Random, count: int, session: Session, has_link: bool) -> Tuple[bytes, List[str]]:
    """Return random request lines with their line ends, and the answers of a session."""
    workers, first = session.workers, session.part * session.workers
    hosts = [target for _ in range(12) for target in drawn.random_targets(draw, 20)]
    data: List[bytes] = []
    answers: List[str] = []
    while len(answers) < count:
        line = random_line(draw, first, workers, has_link, hosts) if len(answers) != count // 2 else b"endseeds"
        end = draw.choice((b"\n", b"\n", b"\n", b"\r\n"))
        try:
            answers.append(session.answer(read(line + end)))
        except drawn.NotPlain:
            continue
        data.append(line + end)
    return b"".join(data), answers
