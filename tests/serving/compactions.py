"""Tests of compactions that are killed, fail, or have the same new log: that log is whole, or it does not exist."""

from __future__ import annotations

import itertools
import os
import re
import resource
import signal
import subprocess
import time
from pathlib import Path
from typing import Callable, Optional, Sequence, Set, Tuple, Union

from serving.logs import refuses, small_disk
from serving.sums import requests_of
from serving.trial import SECONDS, Serve, Skipped, Trial, expect

WORDS = ("--workers", "3")
OTHERS = ("--workers", "5")
OFFERS = 6_000  # a compaction of as many takes long enough to be stopped
LIMIT = 65_536  # the largest file that a limited process can write; the compacted log is larger
TRIES = 20


def stopped_compactions(trial: Trial) -> None:
    """A compaction that is killed or fails leaves no new log, or a whole one, and the next one succeeds."""
    trial.require_log()
    if not trial.has_compact:
        raise Skipped("the program has no --compact")
    folder = trial.folder / "compactions"
    folder.mkdir()
    log = large_log(trial, folder / "a.log", "a.test")
    new = folder / "new.log"
    expect(ended(compaction(trial, log, new)) == (0, ""), "the first compaction fails")
    whole = new.read_bytes()
    expect(len(requests_of(whole)) == OFFERS and names(folder) == {"a.log", "new.log"}, "the first new log")
    new.unlink()
    limited(trial, log, new, WORDS)
    killed(trial, log, new, WORDS, whole)
    overtaken(trial, log, new, WORDS)
    expect(ended(compaction(trial, log, new, OTHERS)) == (0, ""), "the first compaction with other settings fails")
    other = new.read_bytes()
    expect(len(requests_of(other)) == OFFERS and other != whole, "the first new log with other settings")
    new.unlink()
    limited(trial, log, new, OTHERS)
    killed(trial, log, new, OTHERS, other)
    overtaken(trial, log, new, OTHERS)
    full(trial, log)
    synced(trial, log, new)
    named(trial, log, new, whole)
    rivals(trial, log, large_log(trial, folder / "b.log", "b.test"), new)


def large_log(trial: Trial, log: Path, host: str) -> Path:
    """Write a log of many offers, all of which a compacted log needs."""
    session = Serve(trial.program, (*WORDS, "--log", str(log)))
    offers = "".join(f"offer http://{host}/{number}\n" for number in range(OFFERS)).encode()
    answers = session.exchange(iter([offers]))
    expect(answers.count(b"accepted") == OFFERS and session.end() == (0, ""), "not all offers are accepted")
    return log


def compaction(
    trial: Trial, log: Path, new: Union[str, Path], words: Sequence[str] = WORDS, *, limit: Optional[Callable[[], None]] = None
) -> subprocess.Popen[bytes]:
    """Start a compaction with these settings in the folder of the log. The new process first calls `limit`."""
    return subprocess.Popen(
        [trial.program, "serve", *words, "--log", str(log), "--compact", str(new)], stdin=subprocess.DEVNULL, stdout=subprocess.DEVNULL, stderr=subprocess.PIPE,
        cwd=log.parent, preexec_fn=limit,
    )


def ended(process: subprocess.Popen[bytes]) -> Tuple[int, str]:
    """Return the exit status, which is negative after a signal, and standard error."""
    errors = process.communicate(timeout=SECONDS)[1]
    return process.returncode, errors.decode().strip()


def names(folder: Path) -> Set[str]:
    return {path.name for path in folder.iterdir()}


def limit_files() -> None:
    """Limit the size of files. A process that writes more is killed by a signal, unless it ignores that."""
    resource.setrlimit(resource.RLIMIT_CORE, (0, 0))
    resource.setrlimit(resource.RLIMIT_FSIZE, (LIMIT, LIMIT))


def limit_writes() -> None:
    """Let each write fail that exceeds the limit."""
    limit_files()
    signal.signal(signal.SIGXFSZ, signal.SIG_IGN)


def limited(trial: Trial, log: Path, new: Path, words: Sequence[str]) -> None:
    """A compaction that is killed at a write, or whose write fails, leaves no new log."""
    before = names(log.parent)
    status, errors = ended(compaction(trial, log, new, words, limit=limit_writes))
    expect((status, errors) == (1, f"mercator: log {log}: cannot write the new log"), f"{status}, {errors!r}")
    expect(names(log.parent) == before, f"a failed write leaves {names(log.parent) - before}")
    status, errors = ended(compaction(trial, log, new, words, limit=limit_files))
    expect(status == -signal.SIGXFSZ, f"a write above the limit: status {status}, {errors!r}")
    expect(not new.exists(), "a compaction that was killed at a write leaves a new log")


def stopped(trial: Trial, log: Path, new: Path, words: Sequence[str]) -> subprocess.Popen[bytes]:
    """Start a compaction, and stop it when it has created a file and before the new log exists."""
    before = names(log.parent)
    for _ in range(TRIES):
        process = compaction(trial, log, new, words)
        while process.poll() is None and names(log.parent) == before:
            pass
        process.send_signal(signal.SIGSTOP)
        if process.poll() is None and not new.exists():
            return process
        process.send_signal(signal.SIGCONT)
        ended(process)
        new.unlink()
    raise Skipped(f"no compaction could be stopped in {TRIES} tries")


def killed(trial: Trial, log: Path, new: Path, words: Sequence[str], whole: bytes) -> None:
    """A compaction that is killed at any moment leaves no new log, or a whole one, and the next compaction succeeds."""
    draw = trial.draw("killed compactions")
    for _ in range(5):
        process = stopped(trial, log, new, words)
        process.send_signal(signal.SIGCONT)
        time.sleep(draw.random() / 10)
        process.kill()
        ended(process)
        if new.exists():
            expect(new.read_bytes() == whole, "a killed compaction leaves a new log that is not whole")
            new.unlink()
    left = names(log.parent) - {log.name}
    expect(ended(compaction(trial, log, new, words)) == (0, ""), "the compaction after killed ones fails")
    expect(new.read_bytes() == whole, "the new log after killed compactions is not whole")
    expect(names(log.parent) == {log.name, new.name} | left, "a compaction changes which files killed ones left")
    for name in left | {new.name}:
        (log.parent / name).unlink()


def overtaken(trial: Trial, log: Path, new: Path, words: Sequence[str]) -> None:
    """A file that is created with the name of the new log, while that is written, is not replaced."""
    process = stopped(trial, log, new, words)
    new.write_bytes(b"other")
    process.send_signal(signal.SIGCONT)
    status, errors = ended(process)
    expect(status == 1 and "must not exist" in errors, f"an overtaken compaction: {status}, {errors!r}")
    expect(new.read_bytes() == b"other", "a compaction replaced a file")
    expect(names(log.parent) == {log.name, new.name}, "an overtaken compaction leaves a file")
    new.unlink()


def full(trial: Trial, log: Path) -> None:
    """A compaction to a full disk leaves no file there."""
    with small_disk(trial.folder / "small") as disk:
        if disk:
            status, errors = ended(compaction(trial, log, disk / "new.log"))
            expect(status == 1 and "cannot write the new log" in errors, f"a full disk: {status}, {errors!r}")
            expect(not names(disk), f"a full disk has {names(disk)}")


def synced(trial: Trial, log: Path, new: Path) -> None:
    """The new log is synced to disk before it gets its name, and its folder after that."""
    trace = trial.folder / "trace"
    tracer = ["strace", "-f", "-o", str(trace), "-e", "trace=write,fsync,?link,linkat,?unlink,unlinkat"]
    words = ["serve", *WORDS, "--log", str(log), "--compact", str(new)]
    try:
        done = subprocess.run([*tracer, trial.program, *words], capture_output=True, timeout=SECONDS, check=False)
    except FileNotFoundError:
        print("  not tested, because strace is not installed: the order of syncs and names")
        return
    text = trace.read_text() if trace.exists() else ""
    calls = re.findall(r"^\d+ +(write|fsync|link|unlink)(?:at)?\(", text, re.M)
    if not calls:
        print(f"  not tested, because strace fails: the order of syncs and names: {done.stderr[:200]!r}")
        return
    order = [name for name, _ in itertools.groupby(calls)]
    expect(order == ["write", "fsync", "link", "unlink", "fsync"], f"the order of system calls: {order}")
    new.unlink()


def named(trial: Trial, log: Path, new: Path, whole: bytes) -> None:
    """The name of the new log needs no folder. It is refused if it is that of a link to nothing, or of a folder."""
    expect(ended(compaction(trial, log, new.name)) == (0, ""), "a name without a folder")
    expect(new.read_bytes() == whole, "the new log with a name without a folder")
    new.unlink()
    os.symlink("nothing", new)
    for refused in (new, log.parent, log.parent / "none" / "new.log"):
        refuses(trial, (*WORDS, "--log", str(log), "--compact", str(refused)), log)
    expect(names(log.parent) == {log.name, new.name}, "a refused compaction leaves a file")
    new.unlink()


def rivals(trial: Trial, log: Path, other: Path, new: Path) -> None:
    """Of two compactions to one new log at the same time, one succeeds, and the other leaves nothing."""
    for _ in range(3):
        both = [compaction(trial, one, new) for one in (log, other)]
        statuses = [ended(one)[0] for one in both]
        expect(sorted(statuses) == [0, 1], f"the statuses of two compactions to one new log: {statuses}")
        host = b"http://a.test/" if statuses[0] == 0 else b"http://b.test/"
        expect(new.read_bytes().count(host) == OFFERS, "the new log is not that of the compaction that succeeded")
        expect(names(log.parent) == {log.name, other.name, new.name}, "two compactions leave a file")
        new.unlink()
