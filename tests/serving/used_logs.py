"""Tests of logs that other programs use, replace or change."""

from __future__ import annotations

import os
import resource
import shutil
import signal
import time
from pathlib import Path
from typing import Callable, Dict, Optional

from serving.sums import requests_of
from serving.trial import SECONDS, Serve, Skipped, Trial, expect

WORDS = ("--workers", "3")
LIMIT = 4_096  # the largest file that a limited process can write


def waiting(trial: Trial) -> None:
    """With --wait, a program waits until the other one has ended, but not longer."""
    trial.require_log()
    trial.require_wait()
    log = trial.folder / "waiting.log"
    words = (*WORDS, "--log", str(log))
    first = Serve(trial.program, words)
    expect(first.ask(b"offer http://a.test/") == "accepted 0 0", "the first program")
    begun = time.monotonic()
    status, errors = Serve(trial.program, (*words, "--wait", "1")).wait()
    took = time.monotonic() - begun
    expect((status, errors) == (5, f"mercator: log {log}: in use by another program"), f"{status}, {errors!r}")
    expect(1 <= took < SECONDS / 2, f"it waited for {took} s")
    both = [Serve(trial.program, (*words, f"--wait={SECONDS:.0f}")) for _ in range(2)]
    for serve in both:
        serve.send(b"again 0\n")
    expect(first.ask(b"next 0") == "taken http://a.test/", "the first program, while others wait")
    expect(first.end() == (0, ""), "its end")
    # Either may be the next. The other one waits until that one has ended.
    for serve in both:
        serve.stdin.close()
    for serve in both:
        expect(serve.lines(1) == [b"taken http://a.test/"], "the URL in progress")
        expect(serve.wait() == (0, ""), "the end of one that waited")
    expect(log.read_bytes().count(b"again 0\n") == 2, "the requests of those that waited")


def replaced_while_waiting(trial: Trial) -> None:
    """A program that waits for a log uses the file that has its name when no other program uses it."""
    trial.require_log()
    trial.require_wait()
    log, new = trial.folder / "replaced.log", trial.folder / "new.log"
    words = (*WORDS, "--log", str(log))
    first = Serve(trial.program, words)
    expect(first.ask(b"offer http://a.test/") == "accepted 0 0", "the first program")
    before = log.read_bytes()
    second = Serve(trial.program, (*words, f"--wait={SECONDS:.0f}"))
    second.send(b"offer http://b.test/\n")
    is_open(second, log)
    shutil.copyfile(log, new)
    with open(new, "ab") as file:
        file.write(b"offer http://b.test/\n")
    new.rename(log)
    expect(first.end() == (0, ""), "the end of the first program")
    expect(second.lines(1) == [b"seen"], "it does not use the new file")
    expect(second.end() == (0, ""), "its end")
    after = requests_of(log.read_bytes())
    expect(after == requests_of(before) + 2 * [b"offer http://b.test/\n"], "the new file")


def is_open(serve: Serve, file: Path) -> None:
    """Wait until the program has opened the file."""
    end = time.monotonic() + SECONDS
    while not any(os.path.realpath(one) == str(file.resolve()) for one in Path(f"/proc/{serve.pid}/fd").iterdir()):
        expect(time.monotonic() < end, "it does not open the log")
        time.sleep(0.01)


def changed_while_running(trial: Trial) -> None:
    """A program notices before its next answer that its log was changed, and leaves the log as it is."""
    trial.require_log()
    if not trial.has_wait:
        raise Skipped("the program does not notice changes of its log")
    folder = trial.folder / "changed"
    folder.mkdir()
    log, other = folder / "a.log", folder / "other"

    def cut(length: int) -> Callable[[], None]:
        return lambda: os.truncate(log, length)

    def append() -> None:
        with open(log, "ab") as file:
            file.write(b"endseeds\n")

    def copy_over() -> None:
        other.write_bytes(b"workers 3 max 1048576\n")
        shutil.copyfile(other, log)

    def replace() -> None:
        shutil.copyfile(log, other)
        other.rename(log)

    def make_link() -> None:
        log.rename(other)
        log.symlink_to("nothing")

    changes: Dict[str, Callable[[], object]] = {
        "emptied": cut(0), "shortened": cut(40), "grown": append, "longer": lambda: os.truncate(log, 5_000),
        "removed": log.unlink, "renamed": lambda: log.rename(other), "copied over": copy_over, "replaced": replace,
        "a broken link": make_link, "a folder": lambda: (log.rename(other), log.mkdir()),
    }
    for name, change in changes.items():
        for limit in (None, limit_writes):
            for words in (WORDS, (*WORDS, "--sync")):
                changed(trial, log, (*words, "--log", str(log)), change, limit, name)
                shutil.rmtree(folder)
                folder.mkdir()
    kept(trial, log, other)


def limit_writes() -> None:
    """Let each write fail that makes a file larger than LIMIT."""
    resource.setrlimit(resource.RLIMIT_FSIZE, (LIMIT, LIMIT))
    signal.signal(signal.SIGXFSZ, signal.SIG_IGN)


def changed(
    trial: Trial, log: Path, words: tuple[str, ...], change: Callable[[], object],
    limit: Optional[Callable[[], None]], name: str,
) -> None:
    """Change the log of a program, and send one more request; with a limit, one for which there is no room."""
    serve = Serve(trial.program, words, limit=limit)
    expect(serve.ask(b"offer http://a.test/") == "accepted 0 0", f"{name}: the first request")
    change()
    files = bytes_of(log.parent)
    serve.send(b"offer http://b.test/" + b"x" * LIMIT * (limit is not None) + b"\n")
    serve.stdin.close()
    expect(serve.stdout.read() == b"", f"{name}: it answers")
    status, errors = serve.wait()
    message = f"mercator: log {log}: changed by another program"
    expect((status, errors) == (1, message), f"{name}: {status}, {errors!r}")
    expect(bytes_of(log.parent) == files, f"{name}: it changed a file")


def bytes_of(folder: Path) -> Dict[str, Optional[bytes]]:
    return {path.name: path.read_bytes() if path.is_file() else None for path in folder.iterdir()}


def kept(trial: Trial, log: Path, other: Path) -> None:
    """What leaves the name and the length of a log is no change: other permissions, and a copy elsewhere."""
    serve = Serve(trial.program, (*WORDS, "--log", str(log)))
    expect(serve.ask(b"offer http://a.test/") == "accepted 0 0", "the first request")
    log.chmod(0o600)
    os.utime(log, (0, 0))
    os.link(log, other)
    shutil.copyfile(log, log.parent / "copy")
    expect(serve.ask(b"offer http://b.test/").startswith("accepted"), "it notices no change")
    expect(serve.end() == (0, ""), "its end")
