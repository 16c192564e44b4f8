"""Tests of sessions over pipes."""

from __future__ import annotations

import re
import signal
import subprocess
import sys
import threading
import time
from collections import Counter
from pathlib import Path
from random import Random
from typing import Iterator, List, Tuple

from serving.model import random_session
from serving import ROOT
from serving.trial import SECONDS, Serve, Trial, expect

SETTINGS: Tuple[Tuple[str, ...], ...] = (
    ("--workers", "2", "--max-pending", "9"), (), ("--workers", "1", "--max-pending", "1"),
    ("--workers", "3", "--max-pending", "60", "--within", "a.test"), ("--workers", "512", "--within", "test"),
    ("--workers", "7", "--max-pending", "25"),
)
PARTS: Tuple[Tuple[str, ...], ...] = (
    ("--part", "0/2", "--workers", "2", "--max-pending", "9"), ("--part", "1/2", "--workers", "2"),
    ("--part", "2/3", "--workers", "1", "--within", "a.test"), ("--part", "0/1", "--workers", "3"),
    ("--part", "1/8", "--workers", "64", "--within", "test"), ("--part", "3/20", "--workers", "512"),
)
ANSWERS = {
    "accepted", "seen", "filtered", "not a URL", "not http or https", "taken", "pending", "closed", "count", "refused busy",
    "refused closed", "refused full", "refused nothing", "refused nosuch", "bad line", "line too long", "not UTF-8", "stats",
}


def compare(data: bytes, expected: List[str], output: bytes) -> None:
    """Compare the output with the expected answers to these requests."""
    lines = output.decode("utf-8", "backslashreplace").split("\n")
    expect(lines.pop() == "", "the last answer has no line end")
    requests = data.split(b"\n")
    for number, (request, expected_line, line) in enumerate(zip(requests, expected, lines), 1):
        expect(expected_line == line, f"line {number}, {request[:200]!r}: {line!r}, expected {expected_line!r}")
    expect(len(lines) == len(expected), f"{len(lines)} answers, expected {len(expected)}")


def random_pieces(draw: Random, data: bytes) -> Iterator[bytes]:
    """Yield the data in pieces of random sizes, with pauses."""
    begin = 0
    while begin < len(data):
        size = draw.choice((1, 7, 50, 4000, 65_535, 65_536, 65_537, 200_000, draw.randrange(1, 9000)))
        yield data[begin:begin + size]
        if draw.randrange(50) == 0:
            time.sleep(0.001)
        begin += size


def random_parts(trial: Trial) -> None:
    """Random sessions of parts; each URL has one part; and bad values of --part."""
    trial.require_part()
    for number, words in enumerate(PARTS):
        draw = trial.draw(f"part {number}")
        data, expected = random_session(draw, trial.lines // 4, words, trial.has_link)
        session = Serve(trial.program, words)
        compare(data, expected, session.exchange(random_pieces(draw, data)))
        expect(session.end() == (0, ""), "it did not end like at the end of its input")
    one_owner(trial, parts=3)
    for text in ("2/2", "0/0", "1", "1/", "/2", "a/2", "-1/2", "0/524289", "0/4294967297", "1/2/3", ""):
        done = subprocess.run(
            [trial.program, "serve", "--workers", "2", "--part", text], stdin=subprocess.DEVNULL,
            capture_output=True, timeout=SECONDS, check=False,
        )
        expect((done.returncode, done.stdout) == (3, b""), f"--part {text!r}: status {done.returncode}")


def one_owner(trial: Trial, parts: int) -> None:
    """Each URL is accepted by one part, and the other parts answer with its number."""
    sessions = [Serve(trial.program, ("--part", f"{part}/{parts}", "--workers", "2")) for part in range(parts)]
    for number in range(200):
        line = f"offer http://h{number % 90}.test/{number}#x".encode()
        answers = [session.ask(line) for session in sessions]
        owners = [part for part, answer in enumerate(answers) if answer.startswith("accepted ")]
        expect(len(owners) == 1, f"{line!r}: {answers}")
        elsewhere = f"elsewhere {owners[0]} http://h{number % 90}.test/{number}"
        others = [answer for part, answer in enumerate(answers) if part != owners[0]]
        expect(set(others) == {elsewhere}, f"{line!r}: {answers}")
    for session in sessions:
        expect(session.ask(b"identity") == "identity none", "a part without a log")
        expect(session.end() == (0, ""), "its end")


def random_sessions(trial: Trial) -> None:
    """Random sessions, which have every kind of answer."""
    came: Counter[str] = Counter()
    for number, words in enumerate(SETTINGS):
        draw = trial.draw(f"session {number}")
        data, expected = random_session(draw, trial.lines, words, trial.has_link)
        came.update(re.sub(r"^(accepted|taken|pending|count|stats) .*", r"\1", line) for line in expected)
        session = Serve(trial.program, words)
        compare(data, expected, session.exchange(random_pieces(draw, data)))
        expect(session.end() == (0, ""), "it did not end like at the end of its input")
    expect(set(came) == ANSWERS, f"these answers did not occur: {ANSWERS - set(came)}")


def transcript(trial: Trial) -> None:
    """The example session in docs/SESSION.md."""
    trial.require_link()
    text = (ROOT / "docs/SESSION.md").read_text("utf-8")
    shown = re.findall(r"^> (.*)\n(.*?)(?:  .*)?$", text.partition("```text\n")[2].partition("```")[0], re.M)
    expect(len(shown) > 10, "docs/SESSION.md has no transcript")
    session = Serve(trial.program, ("--workers", "2"))
    for request, expected in shown:
        answer = session.ask(request.encode())
        expect(answer == expected, f"{request}: {answer!r}, but docs/SESSION.md has {expected!r}")
    expect(session.end() == (0, ""), "its end")


def all_at_once(trial: Trial) -> None:
    """A session whose input is a file, and whose last line has no line end."""
    data, expected = random_session(trial.draw("at once"), trial.lines, SETTINGS[0], trial.has_link)
    file = trial.folder / "requests"
    file.write_bytes(data.rstrip(b"\r\n"))
    with open(file, "rb") as requests:
        done = subprocess.run([trial.program, "serve", *SETTINGS[0]], stdin=requests, capture_output=True, timeout=SECONDS)
    ends = data.rstrip(b"\r\n").count(b"\n") + 1
    compare(data, expected[:ends], done.stdout)
    expect(done.returncode == 0 and done.stderr == b"", f"status {done.returncode}")


def byte_by_byte(trial: Trial) -> None:
    """Requests byte by byte; each answer comes before the next line begins."""
    data, expected = random_session(trial.draw("bytes"), trial.lines // 20, SETTINGS[3], trial.has_link)
    session = Serve(trial.program, SETTINGS[3])
    for request, expected_line in zip(data.split(b"\n"), expected):
        if len(request) < 500:
            for place in range(len(request)):
                session.send(request[place:place + 1])
        else:
            session.send(request)
        line = session.ask(b"")
        expect(line == expected_line, f"{request!r}: {line!r}, expected {expected_line!r}")
    expect(session.end() == (0, ""), "its end")


def stopped_between(trial: Trial) -> None:
    """SIGSTOP and SIGCONT while requests and answers are being sent."""
    draw = trial.draw("stop")
    data, expected = random_session(draw, trial.lines, SETTINGS[5], trial.has_link)
    session = Serve(trial.program, SETTINGS[5])
    ended = threading.Event()

    def stop() -> None:
        while not ended.wait(draw.random() / 100):
            session.process.send_signal(signal.SIGSTOP)
            time.sleep(draw.random() / 100)
            session.process.send_signal(signal.SIGCONT)
    stopper = threading.Thread(target=stop)
    stopper.start()
    try:
        compare(data, expected, session.exchange(random_pieces(draw, data)))
    finally:
        ended.set()
        stopper.join()
    expect(session.end() == (0, ""), "its end")


# A client that fills the pipe, reads nothing and is killed.
DYING = """
import os, signal, subprocess, sys
serve = subprocess.Popen([sys.argv[1], "serve"], stdin=-1, stdout=-1, stderr=subprocess.DEVNULL)
print(serve.pid, flush=True)
os.set_blocking(serve.stdin.fileno(), False)
os.write(serve.stdin.fileno(), sys.stdin.buffer.read())
os.kill(os.getpid(), signal.SIGKILL)
"""


def dying_client(trial: Trial) -> None:
    """A client that dies with unread answers, or in the middle of a line, leaves no process behind."""
    for requests in (b"next 0\n" * 200_000, b"offer http://a.test/\noffer http://a.te", b"offer http://b.test/x" * 100_000):
        words = [sys.executable, "-c", DYING, trial.program]
        done = subprocess.run(words, input=requests, capture_output=True, timeout=SECONDS, check=False)
        left = Path(f"/proc/{int(done.stdout)}")
        end = time.monotonic() + SECONDS
        while left.exists() and "State:\tZ" not in status_of(left) and time.monotonic() < end:
            time.sleep(0.01)
        expect(not left.exists() or "State:\tZ" in status_of(left), "it is still running after its client died")


def status_of(process: Path) -> str:
    try:
        return (process / "status").read_text()
    except OSError:
        return "State:\tZ"


def closed_output(trial: Trial) -> None:
    """If nobody reads the output, or it is closed or full, the program ends with an error message."""
    session = Serve(trial.program)
    session.ask(b"offer http://a.test/")
    session.stdout.close()
    session.send(b"next 0\n")
    expect(session.wait() == (1, "mercator: cannot write"), "if nobody reads the output")
    for redirection in (">&-", "> /dev/full"):
        words = ["sh", "-c", f'echo next 0 | "$0" serve {redirection}', trial.program]
        done = subprocess.run(words, capture_output=True, timeout=SECONDS, check=False)
        result = (done.returncode, done.stderr.decode())
        expect(result == (1, "mercator: cannot write\n"), f"{redirection}: {result}")
    done = subprocess.run([trial.program, "serve"], input=b"", capture_output=True, timeout=SECONDS, check=False)
    expect((done.returncode, done.stdout, done.stderr) == (0, b"", b""), "with an empty input")
    done = subprocess.run(["sh", "-c", '"$0" serve <&-', trial.program], capture_output=True, timeout=SECONDS, check=False)
    expect((done.returncode, done.stderr) == (1, b"mercator: cannot read -\n"), f"with a closed input: {done.stderr!r}")


def memory(trial: Trial) -> None:
    """Requests that store no URL need no memory, however many there are; a URL needs some hundred bytes."""
    count = trial.options.requests
    session = Serve(trial.program)
    block = b"offer http://A.test:80/x/../#f\nnext 9\nbad\noffer mailto:x\n" * 250
    before = session.flood(iter([block]), 1000)
    after = session.flood((block for _ in range(count // 1000)), count // 1000 * 1000)
    expect(after - before < 4_000_000, f"{after - before} bytes for {count} requests that store no URL")
    expect(session.end() == (0, ""), "its end")
    session = Serve(trial.program)
    before = session.flood(iter([block]), 1000)
    blocks = (b"".join(b"offer http://h%d.test/p/%d\n" % (url % 100, url) for url in range(begin, begin + 1000))
              for begin in range(0, count, 1000))
    after = session.flood(blocks, -(-count // 1000) * 1000)
    print(f"  {(after - before) // count} bytes per URL, for {count} URLs of 25 bytes")
    expect(after - before < 600 * count + 4_000_000, f"{after - before} bytes for {count} URLs")
    expect(session.end() == (0, ""), "its end")


def long_line(trial: Trial) -> None:
    """A line of any length has one answer and needs no memory, with or without a log."""
    for log in ((), ("--log", str(trial.folder / "long.log")))[:1 + trial.has_log]:
        session = Serve(trial.program, log)
        piece = b"offer http://a.test/".ljust(1_000_000, b"a")
        rest = trial.options.longest
        session.flood(iter([b"next 0\n" * 10]), 10)
        before = session.memory()
        session.flood((piece[:min(len(piece), rest - sent)] for sent in range(0, rest, len(piece))), 0)
        session.send(b"\nendseeds\n")
        expect(session.lines(2) == [b"line too long", b"count 0"], "its answer")
        after = session.memory()
        expect(after - before < 4_000_000, f"{after - before} bytes for a line of {rest}")
        expect(session.end() == (0, ""), "its end")
        if log:
            expect(Path(log[1]).stat().st_size < 1_000_000, "the log contains the whole line")
