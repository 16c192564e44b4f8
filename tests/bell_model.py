#!/usr/bin/env python3
"""Try every interleaving of a worker that rests and of others that push URLs and ring its bell, to find lost wake-ups.

Usage: bell_model.py

The steps are those of `rest`, `await_ring` and `ring` in crates/crawl_queues/src/subqueue.rt; each is atomic and
`SeqCst`. A ring is lost if the worker sleeps, a URL waits, and nobody has a step left, so that only the time limit of the
sleep would end it. There must be no lost ring with the code as it is, and one in each mutant. The last line is
`N passed, M failed`; the exit status is 1 if any failed.
"""
import sys
from dataclasses import dataclass, replace
from typing import Iterator, Tuple

QUIET, AWAITED, ASLEEP = "quiet", "awaited", "asleep"

# The next step of the worker. `look` takes a waiting URL; `load` begins a rest, and the value of the bell decides.
LOOK, LOAD, AWAIT, SPIN, SHUT, PARK, SLEEP = "look", "load", "await", "spin", "shut", "park", "sleep"

# The next step of one that pushes.
PUSH, PEEK, SWAP, WAKE, DONE = "push", "peek", "swap", "wake", "done"


@dataclass(frozen=True)
class Form:
    """The code to try, or a mutant of it; the default is that of the sources."""

    looks_again: bool = True  # the first rest returns, so the worker looks after it has set the bell to awaited
    exchanges: bool = True  # falling asleep is an exchange, which fails if the bell rang; otherwise it is a store
    returns: bool = True  # falling asleep returns, so the worker looks before it sleeps
    pushes_first: bool = True  # the push comes before the ring
    wakes: bool = True  # a ring wakes the worker if it may be asleep according to the bell


@dataclass(frozen=True)
class State:
    bell: str
    waiting: int
    worker: str
    pushers: Tuple[Tuple[str, int], ...]  # each one's next step, and how many pushes it has left


def worker_steps(form: Form, now: State) -> Iterator[State]:
    if now.worker == LOOK:
        if now.waiting:
            yield replace(now, waiting=now.waiting - 1)
        else:
            yield replace(now, worker=LOAD)
    elif now.worker == LOAD:
        yield replace(now, worker={QUIET: AWAIT, AWAITED: SPIN, ASLEEP: PARK}[now.bell])
    elif now.worker == AWAIT:
        yield replace(now, bell=AWAITED, worker=LOOK if form.looks_again else SPIN)
    elif now.worker == SPIN:  # it may look at the bell for a while, or not at all
        if now.bell != AWAITED:
            yield replace(now, worker=LOOK)
        yield replace(now, worker=SHUT)
    elif now.worker == SHUT:
        falls_asleep = now.bell == AWAITED or not form.exchanges
        yield replace(now, bell=ASLEEP if falls_asleep else now.bell, worker=LOOK if form.returns else PARK)
    elif now.worker == PARK:  # the kernel only sleeps if the bell is asleep
        yield replace(now, worker=SLEEP if now.bell == ASLEEP else LOOK)


def pusher_steps(form: Form, now: State, number: int) -> Iterator[State]:
    step, left = now.pushers[number]

    def at(next_step: str, pushes_left: int = left, **changes: object) -> State:
        pushers = now.pushers[:number] + ((next_step, pushes_left),) + now.pushers[number + 1:]
        return replace(now, pushers=pushers, **changes)

    def after(**changes: object) -> State:
        """Return the state after the push and its ring."""
        waiting = now.waiting + (not form.pushes_first)
        first = PUSH if form.pushes_first else PEEK
        return at(first if left > 1 else DONE, left - 1, waiting=waiting, **changes)

    if step == PUSH:
        yield at(PEEK, waiting=now.waiting + 1)
    elif step == PEEK:
        yield after() if now.bell == QUIET else at(SWAP)
    elif step == SWAP:
        has_to_wake = now.bell == ASLEEP and form.wakes
        yield at(WAKE, bell=QUIET) if has_to_wake else after(bell=QUIET)
    elif step == WAKE:
        yield after(worker=LOOK if now.worker == SLEEP else now.worker)


def explore(form: Form, pushers: int, pushes: int) -> Tuple[int, int]:
    """Return the number of states, and the number of states in which a ring is lost."""
    first = PUSH if form.pushes_first else PEEK
    start = State(QUIET, 0, LOOK, ((first, pushes),) * pushers)
    seen = {start}
    open_states = [start]
    lost = 0
    while open_states:
        now = open_states.pop()
        after = list(worker_steps(form, now))
        for number in range(pushers):
            after.extend(pusher_steps(form, now, number))
        if not after and now.waiting:
            lost += 1
        if now.worker == SLEEP:
            after.append(replace(now, worker=LOOK))  # the time limit of the sleep
        for state in after:
            if state not in seen:
                seen.add(state)
                open_states.append(state)
    return len(seen), lost


WRONG = {
    "rests without a look after the bell is awaited": Form(looks_again=False, returns=False),
    "overwrites a ring when it falls asleep": Form(exchanges=False, returns=False),
    "rings before it pushes": Form(pushes_first=False),
    "wakes nobody": Form(wakes=False),
}


def main() -> int:
    passed = failed = 0

    def report(is_right: bool, line: str) -> None:
        nonlocal passed, failed
        passed += is_right
        failed += not is_right
        print(line if is_right else f"FAILED: {line}")

    for pushers, pushes in ((1, 4), (2, 3), (3, 2)):
        states, lost = explore(Form(), pushers, pushes)
        report(lost == 0, f"{pushers} threads that push {pushes} times each: {states} states, {lost} lost rings")
    for name, form in WRONG.items():
        states, lost = explore(form, 2, 2)
        report(lost > 0, f"mutant that {name}: {states} states, {lost} lost rings")
    print(f"{passed} passed, {failed} failed")
    return 1 if failed else 0


if __name__ == "__main__":
    sys.exit(main())
