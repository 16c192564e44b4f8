#!/usr/bin/env python3
"""Run the frontier for threads by `library_calls`, and compare the results of its calls with the machine.

- random calls: workers, the seeder and a sender make calls in random order. Each result must be the machine's, as
  `mercator replay` prints it for the events of the call. Hops, numbers and the account are compared with a model here.
- steps of threads: four workers run in threads of their own. There must be an order of all their steps for which the
  machine has the same results; if one step is changed, there must be no such order.
- threads that end: workers and senders in threads offer the same pages until the gate is closed. Each page is accepted
  once, and after a worker saw the closed gate, all calls do.
- threads that leave: workers leave with pages in progress, so the gate never closes, and there is no account.

The random calls depend only on the seed. The environment variables CALLS and PROGRAM are the commands of
`library_calls` and `mercator` [default: the built ones]. The last line is `N passed, M failed`; the exit status is 1
if any failed.
"""

from __future__ import annotations

import argparse
import os
import shlex
import shutil
import subprocess
import sys
from collections import Counter
from concurrent.futures import ThreadPoolExecutor
from pathlib import Path
from random import Random
from typing import Callable, Iterator, NamedTuple, Optional, Sequence

ROOT = Path(__file__).resolve().parent.parent
CALLS = shlex.split(os.environ.get("CALLS", str(ROOT / "crates/library_calls/out/library_calls")))
PROGRAM = os.environ.get("PROGRAM", str(ROOT / "crates/mercator_cli/out/mercator_cli"))
SECONDS = 60  # the time limit of a run, which ends it if a waiting thread is not woken
HOSTS = 50  # the number of hosts of the pages, as in crates/library_calls/src/running.rt
LINKS = 4
PAGES = 8_000
ROOM = 1_000_000


class Differs(Exception):
    """Raised when a result is not the expected one."""


def expect(holds: bool, text: str) -> None:
    if not holds:
        raise Differs(text)


def answers(blocks: Sequence[list[str]]) -> list[list[str]]:
    """Return the results of the calls of each block, followed by how the frontier ended."""
    text = "\n\n".join("\n".join(block) for block in blocks) + "\n"
    ran = subprocess.run([*CALLS, "calls"], input=text, capture_output=True, text=True, timeout=2 * SECONDS)
    results = [block.splitlines() for block in ran.stdout.split("\n\n")][: len(blocks)]
    is_whole = ran.returncode == 0 and len(results) == len(blocks)
    counts = f"results of {len(results)} of {len(blocks)} blocks of calls"
    expect(is_whole, f"{counts}, and status {ran.returncode}, expected 0: {ran.stderr[-500:]}")
    return results


def replies(workers: int, room: int, events: list[str]) -> list[str]:
    """Return the machine's reply to each event."""
    script = "\n".join([f"workers {workers} max {room}", *events]) + "\n"
    ran = subprocess.run([PROGRAM, "replay", "-"], input=script, capture_output=True, text=True, timeout=SECONDS)
    lines = ran.stdout.splitlines()
    expect(ran.returncode == 0 and len(lines) == len(events), f"replay: status {ran.returncode}: {ran.stderr.strip()}")
    return lines


def agree(workers: int, room: int, events: list[tuple[str, str]]) -> None:
    """Check that the machine replies to each event as expected; `*` matches any number."""
    for (event, expected), reply in zip(events, replies(workers, room, [event for event, _ in events])):
        fits = len(expected.split()) == len(reply.split()) and all(
            one in ("*", word) for one, word in zip(expected.split(), reply.split())
        )
        expect(fits, f"{event}: the machine's reply is {reply!r}, the frontier's {expected!r}")


# ---------------------------------------------------------------- random calls


class Row(NamedTuple):
    name: str
    workers: int
    room: int
    suffixes: tuple[str, ...]
    sender: int
    calls: int
    gets_full: bool


ROWS = (
    Row("three workers", 3, 5, (), 7, 6_000, True),
    Row("64 workers", 64, 1_000, (), 77, 12_000, False),
    Row("a filter before the machine", 3, 5, ("test", "example"), 7, 6_000, True),
    Row("one worker, room for one URL", 1, 2, (), 3, 2_000, True),
    Row("512 workers", 512, 1_000, (), 1_000, 6_000, False),
)


def random_urls(count: int) -> list[str]:
    """Return pages of 30 hosts, a third of them each below `test`, `example` and `invalid`."""
    return [f"http://h{n % 30}.{('test', 'example', 'invalid')[n % 30 % 3]}/{n}" for n in range(count)]


def random_calls(row: Row, draw: Random, urls: list[str]) -> Iterator[str]:
    """Yield random calls, the end of the seeds, turns until all are closed, and a last offer of the sender."""
    seeder, sender = row.workers, row.workers + 1
    yield f"another {seeder} {row.sender}"
    for _ in range(row.calls):
        kind = draw.randrange(8)
        place = seeder if kind == 0 else sender if kind == 1 else draw.randrange(row.workers)
        if kind < 5:
            yield f"offer {place} {draw.choice(urls)}"
        else:
            yield f"next {place}"
    yield f"next {seeder}"
    for _ in range(2 * len(urls) // min(row.workers, 30) * 3 + 3):
        for place in range(row.workers):
            yield f"next {place}"
    yield f"offer {sender} {urls[0]}"


class Hand:
    """The state of a worker, the seeder or a sender: `idle`, `busy`, `closed`, `seeds` or `sends`."""

    def __init__(self, kind: str, sender: int) -> None:
        self.kind, self.sender, self.hops = kind, sender, 0
        self.numbers: Counter[int] = Counter()


class Model:
    """Collects the events of calls with their expected replies, and models hops, numbers and lists."""

    def __init__(self, row: Row) -> None:
        self.row = row
        self.hands = [Hand("idle", place) for place in range(row.workers)]
        self.hands += [Hand("seeds", row.workers), Hand("sends", row.sender)]
        self.events: list[tuple[str, str]] = []
        self.tally: Counter[str] = Counter()
        self.hops: dict[str, int] = {}
        self.lists: dict[int, list[str]] = {queue: [] for queue in range(row.workers)}

    def allows(self, url: str) -> bool:
        host = url.split("/")[2]
        return not self.row.suffixes or any(host == it or host.endswith("." + it) for it in self.row.suffixes)

    def offer(self, hand: Hand, url: str, answer: str) -> None:
        can = hand.kind in ("busy", "seeds", "sends")
        word, first, second = answer.split()
        expect((word == "none") != can, f"offer in the state {hand.kind}: {answer}")
        if not can:
            return
        expect((word == "filtered") != self.allows(url), f"offer {url}: {answer}")
        self.tally[word] += 1
        if word == "filtered":
            return
        self.events += [(f"look {hand.sender}", "word * open" if word != "closed" else "word * closed")]
        if word in ("full", "closed"):
            self.events += [(f"enter {hand.sender}", f"refused {word}")]
            return
        self.events += [(f"enter {hand.sender}", "entered *")]
        reply = f"accepted {first} {second}" if word == "accepted" else word
        self.events += [(f"admit {hand.sender} {url}", reply)]
        if word == "seen":
            self.events += [(f"back {hand.sender}", "count *")]
        if word == "accepted":
            queue = int(first)
            expect(int(second) == hand.numbers[queue], f"offer {url}: number {second}, expected {hand.numbers[queue]}")
            hand.numbers[queue] += 1
            hops = hand.hops + 1 if hand.kind == "busy" else 0
            self.hops[url] = hops
            self.lists[queue].append(f"entry {queue} {hand.sender} {second} {hops} {url}")

    def turn(self, place: int, hand: Hand, answer: str) -> None:
        word, _, rest = answer.partition(" ")
        expected = {"idle": ("taken", "idle", "closed"), "busy": ("done",), "closed": ("closed",),
                    "seeds": ("ended",), "sends": ("ended",)}[hand.kind]
        expect(word in expected, f"next in the state {hand.kind}: {answer}")
        if hand.kind in ("closed", "sends"):
            return
        self.tally[word] += 1
        if word == "taken":
            hops, _, url = rest.partition(" ")
            expect(int(hops) == self.hops.get(url, -1), f"{answer}: expected {self.hops.get(url)} hops")
            self.events += [(f"take {place}", f"taken {url}"), (f"look {place}", "word * open")]
            hand.kind, hand.hops = "busy", int(hops)
        elif word == "done":
            self.events += [(f"done {place}", "count *")]
            hand.kind = "idle"
        elif word == "ended":
            self.events += [("endseeds", "count *")]
            hand.kind = "sends"
        else:
            self.events += [(f"take {place}", "empty"), ("close", f"pending {rest}" if word == "idle" else "closed")]
            hand.kind = "idle" if word == "idle" else "closed"

    def met(self) -> None:
        """Check that the results of this row occurred, and no others, and that each worker saw the closed gate once."""
        tally, row = self.tally, self.row
        some = all(tally[word] > 0 for word in ("accepted", "seen", "idle")) and tally["taken"] == tally["accepted"]
        expect(some, f"results: {dict(tally)}")
        expect((tally["full"] > 0) == row.gets_full, f"full {tally['full']} times")
        expect((tally["filtered"] > 0) == bool(row.suffixes), f"filtered {tally['filtered']} times")
        late = all(hand.kind == "closed" for hand in self.hands[: row.workers])
        expect(late and tally["closed"] >= row.workers + 1, f"closed {tally['closed']} times")


def check_row(row: Row, draw: Random) -> None:
    urls = random_urls(300)
    calls = list(random_calls(row, draw, urls))
    results = answers([[" ".join(["frontier", str(row.workers), str(row.room), *row.suffixes]), *calls]])[0]
    model = Model(row)
    expect(results[0] == "made", f"another sender: {results[0]}")
    for call, answer in zip(calls[1:], results[1:]):
        verb, place, *url = call.split()
        hand = model.hands[int(place)]
        if verb == "offer":
            model.offer(hand, url[0], answer)
        else:
            model.turn(int(place), hand, answer)
    model.met()
    end = results[len(calls):]
    lists = [entry for queue in range(row.workers) for entry in model.lists[queue]]
    expect(end == ["account 0 0", *lists], f"the end: {end[:3]} .., {len(end)} lines, expected {len(lists) + 1}")
    agree(row.workers, row.room, model.events)


# ---------------------------------------------------------------- threads


def page(number: int) -> str:
    return f"http://h{number % HOSTS}.test/{number}"


class Note(NamedTuple):
    place: int
    word: str
    page: int
    first: int
    second: int
    late: bool


def notes_of(printed: list[str]) -> list[Note]:
    """Return the notes of the threads among the results of a run."""
    notes = []
    for line in printed:
        words = line.split()
        if len(words) == 6 and words[0].isdigit():
            place, word, number, first, second, late = words
            notes.append(Note(int(place), word, int(number), int(first), int(second), late == "true"))
    return notes


def entries_of(printed: list[str]) -> list[list[str]]:
    return [line.split()[1:] for line in printed if line.startswith("entry ")]


class Plan(NamedTuple):
    name: str
    workers: int
    room: int
    pages: int
    sent: int
    until_closed: bool
    rounds: int


PLANS = (
    Plan("one page, offered until the end", 2, ROOM, 1, 1, True, 30),
    Plan("one page, only offered by the seeder", 2, ROOM, 1, 0, False, 30),
    Plan("forty pages, offered once", 2, ROOM, 40, 40, False, 20),
    Plan("all pages, offered until the end", 2, ROOM, PAGES, PAGES, True, 1),
    Plan("all pages, found by links", 4, ROOM, PAGES, 1, False, 1),
    Plan("a gate that is often full", 2, 8, PAGES, PAGES, True, 1),
)


def ending(plan: Plan) -> list[str]:
    hands = plan.workers + 2
    return [
        f"frontier {plan.workers} {plan.room}",
        f"another {plan.workers} 77",
        f"run {plan.pages} 1 {plan.sent} {int(plan.until_closed)} 0",
        *(f"offer {place} {page(0)}" for place in range(hands)),
    ]


def check_ends(plan: Plan) -> None:
    for printed in answers([ending(plan)] * plan.rounds):
        check_end(plan, printed)


def check_end(plan: Plan, printed: list[str]) -> None:
    notes, entries = notes_of(printed), entries_of(printed)
    expect(not any(note.late for note in notes), "a call did not see the closed gate")
    last = printed[1 + len(notes):1 + len(notes) + plan.workers + 2]
    expect(last == ["none 0 0"] * plan.workers + ["closed 0 0"] * 2, f"offers after closing: {last}")
    expect("account 0 0" in printed, f"the end: {printed[-1]}")
    urls = [entry[4] for entry in entries]
    expect(len(set(urls)) == len(urls), "a page is in the account twice")
    accepted = sorted(page(note.page) for note in notes if note.word == "accepted")
    expect(accepted == sorted(urls), "the account does not have the accepted pages")
    taken = sorted(page(note.page) for note in notes if note.word == "took")
    expect(taken == sorted(urls), "the account does not have the taken pages")
    refused = [note.word for note in notes if note.word not in ("accepted", "seen", "took", "done", "idle", "closed")]
    if plan.room > PAGES:
        expect(sorted(urls) == sorted(page(n) for n in range(plan.pages)), "the account does not have all pages")
        expect(not refused, f"refused: {refused[:3]}")
    else:
        expect(set(refused) == {"full"}, f"refused: {set(refused)}")
    closed = Counter(note.place for note in notes if note.word == "closed" and note.page >= plan.pages)
    expect(closed == Counter(range(plan.workers)), f"workers that saw the closed gate: {closed}")


# When each of four workers leaves: at which URL that it takes (0: never), and whether that URL is still in progress.
LEAVING = (
    ((1, 1), (0, 0), (0, 0), (0, 0)),
    ((0, 0), (0, 0), (0, 0), (1_000, 1)),
    ((1, 1), (2, 1), (3, 1), (4, 1)),
    ((1, 0), (0, 0), (0, 0), (0, 0)),
    ((0, 0), (1, 0), (100, 1), (500, 0)),
    ((1, 0), (10, 0), (100, 0), (1_000, 0)),
)


def leaving(row: Sequence[tuple[int, int]]) -> list[str]:
    """Return the calls of a run. The seeds come before the workers begin, so that each has some pages."""
    return [
        f"frontier 4 {ROOM}",
        "another 4 77",
        *(f"offer 4 {page(n)}" for n in range(50)),
        "next 4",
        *(f"leaves {place} {at} {busy}" for place, (at, busy) in enumerate(row)),
        f"run {PAGES} 0 0 0 1000",
    ]


def check_left(row: Sequence[tuple[int, int]]) -> None:
    printed = answers([leaving(row)])[0]
    notes = notes_of(printed)
    expect(printed[-1] == "missing 0 0", f"the end: {printed[-1]}")
    expect(not any(note.word == "closed" for note in notes), "the gate closed with pages in progress")
    took = Counter(note.place for note in notes if note.word == "took")
    for place, (at, busy) in enumerate(row):
        done = sum(note.word == "done" for note in notes if note.place == place)
        left = took[place] - (busy if took[place] == at else 0)
        expect((not at or took[place] <= at) and done == left, f"worker {place}: {took[place]} taken, {done} done")


# ---------------------------------------------------------------- steps of threads


def joined(traces: list[list[Note]], order: dict[int, int], waited: dict[int, int], queues: dict[int, int]
           ) -> Optional[list[tuple[int, Note]]]:
    """Return an order of all steps of the workers that is consistent with their results, or None.

    These rules order the steps: each worker's steps are in the order in which it made them; an accepted page has the
    position in its subqueue that the account gives; a page is taken, or seen, after it was accepted; a turn that found
    nothing comes before the next page that its subqueue accepts; and because the gate was open in each such turn, the
    last step of all is the end of a fetch, by a worker that found nothing after it. Each rule decides for two steps
    which comes first, so if there is an order, taking any possible next step finds it.
    """
    held = next((place for place, trace in enumerate(traces) if trace and trace[-1].word == "done"), None)
    until = [len(trace) - (place == held) for place, trace in enumerate(traces)]
    at = [0] * len(traces)
    accepted, idle = Counter({queues.get(0, 0): 1}), Counter[int]()
    steps: list[tuple[int, Note]] = []

    def may_come(place: int, note: Note) -> bool:
        queue = queues.get(note.page, -1)
        if note.word == "took":
            return queue == place and order[note.page] < accepted[place]
        if note.word == "accepted":
            return queue >= 0 and order[note.page] == accepted[queue] and waited.get(note.page, 0) <= idle[queue]
        if note.word == "seen":
            return queue >= 0 and order[note.page] < accepted[queue]
        return True

    moved = True
    while moved:
        moved = False
        for place, trace in enumerate(traces):
            while at[place] < until[place] and may_come(place, trace[at[place]]):
                note = trace[at[place]]
                accepted[queues.get(note.page, -1)] += note.word == "accepted"
                idle[place] += note.word == "idle"
                steps.append((place, note))
                at[place] += 1
                moved = True
    if held is not None and at == until:
        steps.append((held, traces[held][-1]))
        at[held] += 1
    return steps if at == [len(trace) for trace in traces] else None


def events_of(workers: int, steps: list[tuple[int, Note]], seed: int) -> list[tuple[str, str]]:
    """Return the machine's events and the expected replies. Numbers of units are not compared."""

    def offer(sender: int, number: int, reply: str) -> list[tuple[str, str]]:
        events = [(f"look {sender}", "word * open"), (f"enter {sender}", "entered *")]
        events += [(f"admit {sender} {page(number)}", reply)]
        return events + ([(f"back {sender}", "count *")] if reply == "seen" else [])

    events = offer(workers, 0, f"accepted {seed} 0") + [("endseeds", "count *")]
    for place, note in steps:
        if note.word == "took":
            events += [(f"take {place}", f"taken {page(note.page)}"), (f"look {place}", "word * open")]
        elif note.word == "accepted":
            events += offer(place, note.page, f"accepted {note.first} {note.second}")
        elif note.word == "seen":
            events += offer(place, note.page, "seen")
        elif note.word == "done":
            events += [(f"done {place}", "count *")]
        else:
            events += [(f"take {place}", "empty"), ("close", "pending *")]
    for place in range(workers):
        events += [(f"take {place}", "empty"), ("close", "closed")]
    return events


def other_than(note: Note) -> Note:
    """Return a step that differs from the one that was made."""
    if note.word == "took":
        return note._replace(page=note.page + 1)
    if note.word == "accepted":
        return note._replace(second=note.second + 1)
    if note.word == "seen":
        return note._replace(word="accepted", first=0, second=2**63)
    return note._replace(word="idle" if note.word == "done" else "done")


def check_steps(pages: int, workers: int) -> None:
    printed = answers([steps_in_threads(pages, workers)])[0]
    notes, entries = notes_of(printed), entries_of(printed)
    traces = [[note for note in notes if note.place == place and note.word != "closed"] for place in range(workers)]
    order: dict[int, int] = {}
    queues: dict[int, int] = {}
    lengths: Counter[int] = Counter()
    for queue, _, _, _, url in entries:
        number = int(url.rsplit("/")[-1])
        order[number], queues[number] = lengths[int(queue)], int(queue)
        lengths[int(queue)] += 1

    def replays(traces: list[list[Note]]) -> int:
        """Check that there is an order of the steps with the machine's results; return the number of steps."""
        waited: dict[int, int] = {}
        for trace in traces:
            turns = 0
            for note in trace:
                turns += note.word == "idle"
                if note.word == "took":
                    waited[note.page] = turns
        steps = joined(traces, order, waited, queues)
        expect(steps is not None, "there is no order of the steps of the threads")
        agree(workers, ROOM, events_of(workers, steps or [], queues[0]))
        return len(steps or [])

    idle = sum(note.word == "idle" for note in notes)
    links = sum(max(0, min(2 * n + 1 + LINKS, pages) - (2 * n + 1)) for n in range(pages))
    expect(replays(traces) == 2 * pages + links + idle, "not every page was taken, its links offered, and done once")
    longest = max(traces, key=len)
    for at in range(8):
        changed = [[*trace[:at], other_than(trace[at]), *trace[at + 1:]] if trace is longest else trace for trace in traces]
        try:
            replays(changed)
        except Differs:
            continue
        raise Differs(f"there is an order although step {at} was changed")


def steps_in_threads(pages: int, workers: int) -> list[str]:
    return [f"frontier {workers} {ROOM}", f"offer {workers} {page(0)}", f"next {workers}", f"run {pages} 0 0 0 0"]


# ---------------------------------------------------------------- all


def main() -> None:
    parser = argparse.ArgumentParser(description=__doc__, formatter_class=argparse.RawDescriptionHelpFormatter)
    parser.add_argument("--count", type=int, default=2, metavar="N", help="number of runs of random calls (default: 2)")
    parser.add_argument("--seed", default="1", help="seed of the random calls (default: 1)")
    parser.add_argument("--jobs", type=int, default=1, metavar="N", help="number of checks at a time (default: 1)")
    parser.add_argument("--only", metavar="NAME", help="make only the check with this name, which a failure prints")
    options = parser.parse_args()
    for program, crate in ((CALLS[0], "library_calls"), (PROGRAM, "mercator_cli")):
        if shutil.which(program) is None:
            sys.exit(f"frontier.py: no program {program} (run `rt run` in crates/{crate} to build it)")
    checks: list[tuple[str, Callable[..., None], tuple[object, ...]]] = []
    for number in range(options.count):
        for row in ROWS:
            checks.append((f"{row.name}, run {number}", check_row, (row, Random(f"{options.seed} {number} {row.name}"))))
    checks += [(plan.name, check_ends, (plan,)) for plan in PLANS]
    checks += [(f"leaving {number}", check_left, (leaves,)) for number, leaves in enumerate(LEAVING)]
    checks += [("steps of four threads", check_steps, (2_000, 4))] * options.count
    checks = [check for check in checks if options.only in (None, check[0])]
    if not checks:
        sys.exit(f"frontier.py: no check has the name {options.only}")

    def error_of(name: str, check: Callable[..., None], arguments: tuple[object, ...]) -> str:
        """Return what a check finds wrong, or an empty text."""
        try:
            check(*arguments)
        except (Differs, subprocess.TimeoutExpired, IndexError, KeyError, ValueError) as error:
            words = [sys.argv[0], "--seed", options.seed, "--count", str(options.count), "--only", name]
            named = "".join(f"{it}={shlex.quote(os.environ[it])} " for it in ("CALLS", "PROGRAM") if it in os.environ)
            return f"{name}: {type(error).__name__}: {error}\nto run only this: {named}{shlex.join(words)}"
        return ""

    with ThreadPoolExecutor(options.jobs) as pool:
        errors = [error for error in pool.map(error_of, *zip(*checks)) if error]
    for error in errors:
        print(error)
    passed, failed = len(checks) - len(errors), len(errors)
    print(f"{passed} passed, {failed} failed")
    sys.exit(failed > 0)


if __name__ == "__main__":
    main()
