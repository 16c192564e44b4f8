"""Tests of `--list`: the URLs of a log and their numbers."""

from __future__ import annotations

import json
import subprocess
import threading
from pathlib import Path
from typing import Dict, List, Sequence, Tuple, Union

from serving.logs import SETTINGS
from serving.model import Session, random_requests, session_of
from serving.sessions import PARTS, compare
from serving.trial import SECONDS, Serve, Skipped, Trial, expect

KINDS = ("pending", "in-progress", "done", "stats")


def lists(trial: Trial) -> None:
    """The lists of a log are those of the model, also while a program uses the log. A compacted log has the same lists."""
    trial.require_log()
    if not trial.has_list:
        raise Skipped("the program has no --list")
    sizes: List[int] = []
    for number, words in enumerate((*SETTINGS, *PARTS[:3 * trial.has_part])):
        draw = trial.draw(f"lists {number}")
        model = session_of(words)
        log = trial.folder / f"listed-{number}.log"
        for quarter in range(4):
            data, answers = random_requests(draw, trial.lines // 4, model, trial.has_link)
            session = Serve(trial.program, (*words, "--log", str(log)))
            sender = threading.Thread(target=session.send, args=(data,), daemon=True)
            sender.start()
            compare(data, answers, b"".join(line + b"\n" for line in session.lines(len(answers))))
            sender.join(SECONDS)
            expected_lists = expected(model)
            compare_lists(trial, log, expected_lists)
            expect(session.end() == (0, ""), "its end")
            sizes.append(len(model.listed("pending")))
            short = trial.folder / f"listed-{number}-{quarter}.log"
            compact(trial, words, log, short)
            compare_lists(trial, short, expected_lists)
            torn = trial.folder / "listed-torn.log"
            torn.write_bytes(log.read_bytes() + b"offer http://a.test/not-answered"[:draw.randrange(1, 40)])
            compare_lists(trial, torn, expected_lists)
    print(f"  {sum(sizes)} pending URLs in {len(sizes)} logs")


def compact(trial: Trial, words: Sequence[str], log: Path, new: Path) -> None:
    """Compact a log to a new file."""
    subprocess.run(
        [trial.program, "serve", *words, "--log", str(log), "--compact", str(new)], stdin=subprocess.DEVNULL, timeout=SECONDS, check=True,
    )


def compare_lists(trial: Trial, log: Path, expected_lists: Dict[Tuple[str, bool], str]) -> None:
    """Compare all lists of a log with the expected ones. The log stays as it is."""
    before = log.read_bytes()
    for (kind, is_json), text in expected_lists.items():
        words = ["serve", "--log", str(log), "--list", kind, *["--json"] * is_json]
        done = subprocess.run(
            [trial.program, *words], stdin=subprocess.DEVNULL, capture_output=True, timeout=SECONDS, check=False,
        )
        expect((done.returncode, done.stderr) == (0, b""), f"{words}: {done.returncode}, {done.stderr!r}")
        for number, (expected_line, line) in enumerate(zip(text.split("\n"), done.stdout.decode().split("\n")), 1):
            expect(expected_line == line, f"{words}, line {number}: {line!r}, expected {expected_line!r}")
        expect(done.stdout.decode() == text, f"{words}: another number of lines")
    expect(log.read_bytes() == before, "a list changed the log")


def expected(model: Session) -> Dict[Tuple[str, bool], str]:
    """Return the text of each list, by its kind and whether it is JSON."""
    return {(kind, is_json): "".join(f"{line}\n" for line in listed_lines(model, kind, is_json)) for kind in KINDS for is_json in (False, True)}


def listed_lines(model: Session, kind: str, is_json: bool) -> List[str]:
    """Return the lines of a list."""
    if kind == "stats":
        return stats_lines(model, is_json)
    if is_json:
        return [json_line({"kind": kind, "queue": queue, "url": url}) for queue, url in model.listed(kind)]
    return [f"{kind} {queue} {url}" for queue, url in model.listed(kind)]


def stats_lines(model: Session, is_json: bool) -> List[str]:
    """Return the lines of the numbers of all queues, and in JSON also of each queue that accepted a URL."""
    queues = range(len(model.waiting))
    if not is_json:
        return [model.stats(queues)]
    lines = [json_line({"kind": "stats", "queue": None, **model.numbers(queues)})]
    return lines + [json_line({"kind": "stats", "queue": queue, **model.numbers((queue,))}) for queue in queues if model.accepted[queue]]


def json_line(members: Dict[str, Union[str, int, None]]) -> str:
    """Return the object of these members without spaces. Names and kinds have `_` in place of `-`."""
    named = {name.replace("-", "_"): value for name, value in members.items()}
    named["kind"] = str(named["kind"]).replace("-", "_")
    return json.dumps(named, separators=(",", ":"))
