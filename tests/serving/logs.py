"""Tests of logs: after kills, with a full disk, compacted, and refused ones."""

from __future__ import annotations

import os
import re
import subprocess
import threading
import time
from contextlib import contextmanager
from pathlib import Path
from random import Random
from typing import Iterable, Iterator, List, Optional, Sequence, Tuple

import drawn
from mercator_frontier import Frontier, FrontierEnded, Refusal
from serving.model import random_requests, random_session, read, session_of
from serving.sessions import PARTS, compare, random_pieces
from serving.sums import FLAG, damage, in_pieces, requests_of, whole_lines
from serving.trial import SECONDS, Differs, Serve, Skipped, Trial, expect

SETTINGS: Tuple[Tuple[str, ...], ...] = (
    ("--workers", "2", "--max-pending", "9"), ("--workers", "7"),
    ("--workers", "3", "--max-pending", "60", "--within", "a.test"),
)

# A log of this number of lines is changed this number of times; this many of them at least must end in each way.
CHANGED_LINES, CHANGES, LEAST = 60, 100, 5

# The most bytes of a line that a log has, without its end.
HELD = 4098

# How often one byte of a log is changed.
DAMAGES = 1_000


def answered(log: Path) -> int:
    """Return the number of requests in a log."""
    return len(requests_of(log.read_bytes())) if log.exists() else 0


def killed_sessions(trial: Trial) -> None:
    """A session that is killed at any moment resumes from its log as if it had not been killed.

    All answered requests are in the log, unless a crash of the machine lost the end of the log.
    """
    trial.require_log()
    kills = torn = 0
    for number, words in enumerate((*SETTINGS, *PARTS[:2 * trial.has_part])):
        draw = trial.draw(f"killed session {number}")
        data, expected = random_session(draw, trial.lines, words, trial.has_link)
        lines = whole_lines(data)
        log = trial.folder / f"session-{number}.log"
        words = (*words, "--log", str(log))
        begin = 0
        for _ in range(20):
            session = Serve(trial.program, words)
            answers = killed_after(session, b"".join(lines[begin:]), draw)
            kills += 1
            compare_some(lines[begin:], expected[begin:], answers)
            least = begin + len(answers)
            if draw.randrange(3) == 0 and answered(log):
                # Cut off the end of the last line, which has at least one byte; keep the first line.
                last = len(log.read_bytes().rstrip(b"\n").rpartition(b"\n")[2])
                os.truncate(log, log.stat().st_size - 1 - draw.randrange(last + 1))
                torn += 1
                least = 0
            begin = answered(log)
            expect(least <= begin <= len(lines), f"{begin} lines in the log, but {least} were answered")
        session = Serve(trial.program, words)
        rest = b"".join(lines[begin:])
        compare(rest, expected[begin:], session.exchange(random_pieces(draw, rest)))
        session.end()
    print(f"  {kills} kills, {torn} torn logs")


def killed_after(session: Serve, data: bytes, draw: Random) -> List[str]:
    """Kill the program after a random number of answers, and return all whole answers."""
    least = min(draw.choice((0, 1, draw.randrange(2000))), data.count(b"\n"))

    def send() -> None:
        try:
            for piece in random_pieces(draw, data):
                session.send(piece)
        except BrokenPipeError:
            pass
    sender = threading.Thread(target=send, daemon=True)
    sender.start()
    try:
        output = b"".join(line + b"\n" for line in session.lines(least)) + session.held
        time.sleep(draw.random() / 500)
    finally:
        session.process.kill()
    output += session.stdout.read()
    sender.join(SECONDS)
    session.end()
    return output.decode("utf-8", "backslashreplace").split("\n")[:-1]


def compare_some(lines: Sequence[bytes], expected: Sequence[str], answers: Sequence[str]) -> None:
    """Compare the answers to the first of these lines with the expected ones."""
    expect(len(answers) <= len(expected), f"{len(answers)} answers to {len(expected)} lines")
    for line, expected_line, answer in zip(lines, expected, answers):
        expect(expected_line == answer, f"{line[:200]!r}: {answer!r}, expected {expected_line!r}")


def refused_logs(trial: Trial) -> None:
    """A log that has other settings or is not a log: status 1, no answer, the file unchanged. If it is in use, the status is 5."""
    trial.require_log()
    log = trial.folder / "refused.log"
    words = ("--workers", "3", "--within", "test", "--log", str(log))
    session = Serve(trial.program, words)
    expect(session.ask(b"offer http://a.test/").startswith("accepted"), "the first session")
    refuses(trial, words, log, 5)
    expect(session.end() == (0, ""), "its end")
    for others in (
        ("--workers", "4", "--within", "test"), ("--workers", "3"), (*words[:4], "--max-pending", "9"),
    ):
        refuses(trial, (*others, "--log", str(log)), log)
    session = Serve(trial.program, words)
    expect(session.ask(b"offer http://a.test/") == "seen", "it does not resume with the same settings")
    session.end()
    none = trial.folder / "no.log"
    none.write_bytes(b"offer http://a.test/\n")
    refuses(trial, (*words[:-1], str(none)), none)
    refuses(trial, (*words[:-1], str(trial.folder)), log)
    refuses(trial, (*words[:-1], str(trial.folder / "none" / "log")), log)


def changed_logs(trial: Trial) -> None:
    """A session resumes from a log with one change as one that has answered its lines, if the log has no checksums.

    It refuses a log whose first line is changed, or which has a wrong checksum.
    """
    trial.require_log()
    counts = {"refused": 0, "resumed": 0, "damaged": 0, "torn": 0}
    for number, words in enumerate(SETTINGS):
        draw = trial.draw(f"changed log {number}")
        log = trial.folder / f"changed-{number}.log"
        whole = logged(trial, words, log, draw)
        for old in (False, True):
            head, rest = head_of(whole, old)
            for _ in range(CHANGES):
                body = draw.choice((drawn.changed(draw, head) + rest, head + drawn.changed(draw, rest), (head + rest)[:draw.randrange(len(head + rest))]))
                log.write_bytes(body)
                counts[resumes_or_not(trial, (*words, "--log", str(log)), body, head, draw)] += 1
    expect(min(counts.values()) >= LEAST, f"{counts}")
    print(f"  {counts} of {CHANGES * 2 * len(SETTINGS)} logs")


def logged(trial: Trial, words: Sequence[str], log: Path, draw: Random) -> bytes:
    """Return a log that the program wrote, of a few appends, and check its checksums."""
    data, _ = random_session(draw, CHANGED_LINES, words, trial.has_link)
    session = Serve(trial.program, (*words, "--log", str(log)))
    for line in whole_lines(data):
        session.ask(line[:-1])
    expect(session.end() == (0, ""), "its end")
    whole = log.read_bytes()
    lines = [(b" " + line[1:] if line.startswith(b"#") else line)[:-1][:HELD] + b"\n" for line in whole_lines(data)]
    expect(whole == in_pieces(whole[:whole.index(b"\n") + 1], lines), "the log that it wrote")
    return whole


def head_of(whole: bytes, old: bool) -> Tuple[bytes, bytes]:
    """Return the first line of a log and the rest, as they are, or as an old log without checksums."""
    first = whole.index(b"\n") + 1
    if not old:
        return whole[:first], whole[first:]
    return whole[:first].replace(FLAG, b"\n"), b"".join(requests_of(whole))


def resumes_or_not(trial: Trial, words: Sequence[str], body: bytes, head: bytes, draw: Random) -> str:
    """Check whether a session resumes from this log, which had this first line before it was changed."""
    log = Path(words[-1])
    old = head.replace(FLAG, b"\n")
    new = old[:-1] + FLAG
    if new.startswith(body) or body.startswith(old):
        return "torn" if resumes(trial, words, whole_lines(body)[1:], draw) else "resumed"
    if not body.startswith(new):
        refuses(trial, words, log)
        return "refused"
    wrong = damage(body)
    if wrong is None:
        return "torn" if resumes(trial, words, whole_lines(body)[1:], draw) else "resumed"
    refuses(trial, words, log, message=f"log {log}: damaged between lines {wrong[0]} and {wrong[1]}")
    return "damaged"


def damaged_logs(trial: Trial) -> None:
    """A log in which one byte was changed before its last checksum is refused. The message has the lines between which it is."""
    trial.require_log()
    words, log = SETTINGS[0], trial.folder / "damaged.log"
    draw = trial.draw("damaged log")
    whole = logged(trial, words, log, draw)
    # Without the LF before its `#`, or with another byte for the `#`, the last checksum would be a request.
    first, mark = whole.index(b"\n") + 1, whole.rindex(b"\n#")
    places = [*range(first, mark), *range(mark + 2, mark + 10)]
    for _ in range(DAMAGES):
        at = draw.choice(places)
        body = whole[:at] + bytes([whole[at] ^ draw.randrange(1, 256)]) + whole[at + 1:]
        log.write_bytes(body)
        wrong = damage(body)
        expect(wrong is not None and wrong[0] <= whole.count(b"\n", 0, at) + 1, f"byte {at}: the model finds {wrong}")
        refuses(trial, (*words, "--log", str(log)), log, message=f"log {log}: damaged between lines {wrong[0]} and {wrong[1]}")


def resumes(trial: Trial, words: Sequence[str], lines: Sequence[bytes], draw: Random) -> bool:
    """Compare the answers of a session with those of one that has answered these lines. Return whether its log was torn."""
    model = session_of(words)
    try:
        for line in lines:
            model.answer(read(line))
    except drawn.NotPlain:
        return False
    data, expected = random_requests(draw, CHANGED_LINES, model, trial.has_link)
    session = Serve(trial.program, words)
    compare(data, expected, session.exchange(iter([data])))
    status, errors = session.end()
    is_torn = errors.endswith(": incomplete last line removed")
    expect(status == 0 and (is_torn or not errors), f"status {status}, {errors!r}")
    return is_torn


def refuses(trial: Trial, words: Sequence[str], log: Path, status: int = 1, message: str = "") -> None:
    """Check that the program fails with this status and one line on standard error, and leaves the log unchanged."""
    before = log.read_bytes()
    done = subprocess.run(
        [trial.program, "serve", *words], input=b"offer http://b.test/\n", capture_output=True,
        timeout=SECONDS, check=False,
    )
    errors = done.stderr.decode()
    expect((done.returncode, done.stdout) == (status, b""), f"{words}: {done.returncode}, {done.stdout!r}")
    expect(errors.startswith(f"mercator: {message}") and errors.count("\n") == 1, f"{words}: {errors!r}, expected {message!r}")
    expect(log.read_bytes() == before, f"{words}: the log was changed")


def full_disk(trial: Trial) -> None:
    """A request that there is no room for in the log is not answered; with room, the crawl resumes."""
    trial.require_log()
    with small_disk(trial.folder / "disk") as disk:
        if not disk:
            raise Skipped("this user cannot mount a file system")
        log = disk / "log"
        accepted = fill(trial, log)
        subprocess.run(["mount", "-o", "remount,size=1m", str(disk)], check=True)
        with Frontier(2, log=log, program=trial.program) as frontier:
            offers = frontier.offer_all(accepted)
            expect(offers == [Refusal.SEEN] * len(accepted), "an answered request is not in the log")
            queue = drawn.queue_of(drawn.url_of("http://a.test/"), 2)
            for url in accepted:
                expect(frontier.take(queue) == url, "another URL")
                frontier.done(queue)


@contextmanager
def small_disk(folder: Path) -> Iterator[Optional[Path]]:
    """Mount a file system of 64 kB at this new folder, or yield nothing if this user cannot."""
    folder.mkdir()
    mounted = subprocess.run(
        ["mount", "-t", "tmpfs", "-o", "size=64k", "none", str(folder)],
        capture_output=True, check=False,
    )
    try:
        yield None if mounted.returncode else folder
    finally:
        if not mounted.returncode:
            subprocess.run(["umount", str(folder)], check=False)


def fill(trial: Trial, log: Path) -> List[str]:
    """Offer URLs until the disk is full, and return the accepted ones."""
    accepted: List[str] = []
    with Frontier(2, log=log, program=trial.program) as frontier:
        try:
            for number in range(100_000):
                if frontier.offer(f"http://a.test/{number}"):
                    accepted.append(f"http://a.test/{number}")
        except FrontierEnded as error:
            expect(error.status == 1 and "cannot write" in error.stderr, f"the error: {error}")
            return accepted
    raise Differs("a full disk is not an error")


def compacted_logs(trial: Trial) -> None:
    """A compacted log is shorter, and a session resumes from it as from the whole log."""
    trial.require_log()
    if not trial.has_compact:
        raise Skipped("the program has no --compact")
    for number, words in enumerate((*SETTINGS, *PARTS[:3 * trial.has_part])):
        draw = trial.draw(f"compacted {number}")
        data, expected = random_session(draw, trial.lines, words, trial.has_link)
        lines = whole_lines(data)
        log = trial.folder / f"whole-{number}.log"
        before = log
        for part in range(4):
            begin, end = (len(lines) * quarter // 4 for quarter in (part, part + 1))
            some = b"".join(lines[begin:end])
            session = Serve(trial.program, (*words, "--log", str(log)))
            compare(some, expected[begin:end], session.exchange(random_pieces(draw, some)))
            expect(session.end()[0] == 0, "its end")
            before, log = log, trial.folder / f"short-{number}-{part}.log"
            done = subprocess.run(
                [trial.program, "serve", *words, "--log", str(before), "--compact", str(log)],
                stdin=subprocess.DEVNULL, capture_output=True, timeout=SECONDS, check=False,
            )
            errors = done.stderr.decode()
            expect(done.returncode == 0 and not done.stdout, f"status {done.returncode}: {errors}")
            expect(log.stat().st_size < before.stat().st_size, "the compacted log is not shorter")
            heads = [file.read_bytes().partition(b"\n") for file in (before, log)]
            expect(heads[0][0] == heads[1][0], "the compacted log has another first line")
            again = elsewhere(Serve(trial.program, words).exchange(iter([heads[1][2]])).decode().split("\n"))
            expect(again == elsewhere(expected[:end]), "the URLs of other parts are not kept once each")
            refuses(trial, (*words, "--log", str(before), "--compact", str(log)), log)


def elsewhere(answers: Iterable[str]) -> List[str]:
    """Return the answers that begin with `elsewhere`, each once."""
    return list(dict.fromkeys(answer for answer in answers if answer.startswith("elsewhere ")))


def logs_of_parts(trial: Trial) -> None:
    """A log belongs to one part and keeps its identity, even if its first line is incomplete."""
    trial.require_log()
    trial.require_part()
    log = trial.folder / "part.log"
    words = ("--part", "1/2", "--workers", "2", "--log", str(log))
    named = identity(trial, words)
    expect(re.fullmatch("identity [0-9a-f]{32}", named) is not None, f"the identity {named!r}")
    head = f"part 1 of 2 {named} workers 2 max 1048576".encode() + FLAG
    expect(log.read_bytes() == in_pieces(head, [b"identity\n", b"sync\n"]), f"the log: {log.read_bytes()!r}")
    expect(identity(trial, words) == named, "another identity")
    for others in (("--part", "0/2"), ("--part", "1/3"), ()):
        refuses(trial, (*others, *words[2:]), log)
    for length in (0, 5, 20, 21, 30, len(head) - 1):
        log.write_bytes(head[:length])
        again = identity(trial, words)
        expect(again[:max(9, length - 12)] == named[:max(9, length - 12)], f"cut off after {length} bytes: {again!r}")
        expect(length < 53 or again == named, f"cut off after {length} bytes: {again!r}")
    log.write_bytes(head.replace(named[9:11].encode(), b"xy"))
    refuses(trial, words, log)


def identity(trial: Trial, words: Sequence[str]) -> str:
    session = Serve(trial.program, words)
    answer = session.ask(b"identity")
    expect(session.ask(b"sync") == "synced", "no sync")
    expect(session.end()[0] == 0, "its end")
    return answer
