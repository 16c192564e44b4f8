"""Tests of compactions to other settings."""

from __future__ import annotations

import subprocess
from collections import Counter
from pathlib import Path
from random import Random
from typing import List, Tuple

from serving.lists import compare_lists, expected
from serving.model import random_requests, read
from serving.rebuilds import Known, Refused, Words, lines_of, lists_of, rebuilds, session_with
from serving.sessions import compare
from serving.sums import requests_of, whole_lines
from serving.trial import SECONDS, Serve, Skipped, Trial, expect

# The settings of an old log, and of a new one. A part keeps its number of queues.
CHANGES: Tuple[Tuple[Words, Words], ...] = (
    (("--workers", "1"), ("--workers", "4")),
    (("--workers", "4"), ("--workers", "1")),
    (("--workers", "4"), ("--workers", "3", "--max-pending", "1000")),
    (("--workers", "3"), ("--max-pending", "30")),
    (("--workers", "2", "--max-pending", "50"), ("--max-pending", "2")),
    (("--workers", "512"), ("--workers", "2", "--within", "test")),
    (("--workers", "4"), ("--within", "a.test")),
    (("--workers", "2", "--within", "test"), ("--workers", "5")),
    (("--workers", "2", "--within", "test"), ("--within", "a.test")),
)
PART_CHANGES: Tuple[Tuple[Words, Words], ...] = (
    (("--part", "1/2", "--workers", "2"), ("--max-pending", "500")),
    (("--part", "0/3", "--workers", "1"), ("--within", "test")),
)


def merged(old: Words, given: Words) -> Words:
    """Return the settings of the new log: those that are given, and otherwise the old ones."""
    settings = {**dict(zip(old[::2], old[1::2])), **dict(zip(given[::2], given[1::2]))}
    return tuple(word for pair in settings.items() for word in pair)


def compacted(trial: Trial, log: Path, given: Words, new: Path) -> Tuple[int, str]:
    """Compact a log with these options. Return the exit status and what was written to standard error."""
    done = subprocess.run(
        [trial.program, "serve", *given, "--log", str(log), "--compact", str(new)],
        stdin=subprocess.DEVNULL, capture_output=True, timeout=SECONDS, check=False,
    )
    expect(not done.stdout, f"an output: {done.stdout!r}")
    return done.returncode, done.stderr.decode()


def changed_settings(trial: Trial) -> None:
    """A log that is compacted with other settings has the lines of the model. Both then go on alike."""
    trial.require_log()
    if not trial.has_compact or not trial.has_list:
        raise Skipped("the program has no --compact or no --list")
    ends: Counter[str] = Counter()
    for number, (old, given) in enumerate((*CHANGES, *PART_CHANGES[:2 * trial.has_part])):
        for turn in range(3):
            draw = trial.draw(f"changed {number} {turn}")
            ends[changed(trial, draw, old, given, f"{number}-{turn}")] += 1
    print("  " + ", ".join(f"{count} {end}" for end, count in sorted(ends.items())))


def changed(trial: Trial, draw: Random, old: Words, given: Words, name: str) -> str:
    """Compact the log of a random session with these options. Return how that ends."""
    log, new = trial.folder / f"old-{name}.log", trial.folder / f"new-{name}.log"
    count = draw.randrange(1, max(2, trial.lines // draw.choice((1, 4, 40))))
    data, answers = random_requests(draw, count, session_with(old), trial.has_link)
    if draw.randrange(3) == 0:
        data, answers = ended(data, answers, session_with(old))
    session = Serve(trial.program, (*old, "--log", str(log)))
    compare(data, answers, session.exchange(iter([data])))
    expect(session.end()[0] == 0, "its end")
    before = lists_of(session_with(old), [read(line) for line in whole_lines(data)])
    words = merged(old, given)
    status, errors = compacted(trial, log, given, new)
    model = session_with(words)
    try:
        lines, left_out, unfinished = lines_of(before, model)
    except Refused:
        expect(status == 1 and errors == f"mercator: log {log}: more unfinished URLs than --max-pending allows\n", f"{status}, {errors!r}")
        expect(not new.exists(), "a new log without room")
        return "refused"
    note = f"mercator: log {log}: URLs left out by --within: {len(left_out)} ({unfinished} unfinished)\n" if left_out else ""
    expect((status, errors) == (0, note), f"{status}, {errors!r}, expected {note!r}")
    written = [read(line) for line in requests_of(new.read_bytes())]
    expect(written == lines, f"other lines: {written[:9]!r}, expected {lines[:9]!r}")
    rebuilds(before, model.suffix, lists_of(session_with(words), lines))
    compare_lists(trial, new, expected(model))
    more, answers = random_requests(draw, 50, model, trial.has_link)
    session = Serve(trial.program, (*words, "--log", str(new)))
    compare(more, answers, session.exchange(iter([more])))
    expect(session.end()[0] == 0, "its end")
    return "narrower" if left_out else "closed" if before.closed else "kept"


def ended(data: bytes, answers: List[str], session: Known) -> Tuple[bytes, List[str]]:
    """Return these requests, and those that end each URL and close the session, with all answers."""
    for line in whole_lines(data):
        session.answer(read(line))
    first = session.part * session.workers
    lines = [b"endseeds"]
    for queue in range(first, first + session.workers):
        waiting = len(session.waiting[queue])
        lines += [b"done %d" % queue] + [b"next %d" % queue, b"done %d" % queue] * waiting
    lines.append(b"next %d" % first)
    return data + b"".join(line + b"\n" for line in lines), [*answers, *(session.answer(line) for line in lines)]
