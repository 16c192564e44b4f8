"""Tests of the Python client and its exceptions."""

from __future__ import annotations

import fcntl
import os
import signal
import threading
import time
import tracemalloc
from typing import Callable, List

from mercator_frontier import (
    Accepted, Closed, Frontier, FrontierEnded, LogInUse, NoSuchQueue, NothingTaken, Pending,
    ProgramMissing, QueueBusy, Refusal,
)
from serving.trial import SECONDS, Differs, Trial, expect, expect_error

F_SETPIPE_SZ = 1031


def client_values(trial: Trial) -> None:
    """The results and exceptions of each method."""
    with Frontier(1, program=trial.program, within="test", max_pending=3) as frontier:
        expect(frontier.offer("http://A.test:80/x/../y#f") == Accepted(0, 0), "accepted")
        offers = frontier.offer_all(iter([
            "http://a.test/y", "http://b.other/", "mailto:a@b.test", "nowhere", "http://a.test/" + "x" * 5000,
            "http://a.test/\udc00", "http://a.te\nst/\r\nnext 0\n", "http://a.test/\n" + "y" * 9000, "http://a.test/full",
        ]))
        expect(offers == [
            Refusal.SEEN, Refusal.FILTERED, Refusal.NOT_HTTP, Refusal.NOT_URL, Refusal.TOO_LONG, Refusal.NOT_TEXT,
            Accepted(0, 1), Refusal.TOO_LONG, Refusal.FULL,
        ], f"offers: {offers}")
        expect(bool(offers[6]) and not offers[0], "an accepted offer is false, or a refusal is true")
        expect(frontier.offer_all([]) == [], "no offer")
        expect(frontier.try_take(0) == "http://a.test/y", "try_take")
        for error, call in ((QueueBusy, lambda: frontier.take(0)), (NoSuchQueue, lambda: frontier.take(1)),
                            (NoSuchQueue, lambda: frontier.done(-1))):
            expect_error(error, call)
        expect(frontier.done(0) == 2, "done")
        expect_error(NothingTaken, lambda: frontier.done(0))
        expect(frontier.take(0) == "http://a.test/next%200", "take")
        expect((frontier.end_seeds(), frontier.end_seeds()) == (1, None), "end_seeds")
        if trial.has_link:
            texts = ("../y", "f g", "", " \t", "mailto:x", "//b.other")
            offers = [frontier.link("http://a.test/d/e?q", text) for text in texts]
            expect(offers == [
                Refusal.SEEN, Accepted(0, 2), Accepted(0, 3), Refusal.FULL, Refusal.NOT_HTTP, Refusal.FILTERED,
            ], f"links: {offers}")
        while frontier.done(0):
            expect(isinstance(frontier.take(0), str), "a URL")
        expect((frontier.take(0), frontier.try_take(0)) == (None, Closed.CLOSED), "closed")
        expect(frontier.offer("http://a.test/late") is Refusal.CLOSED, "late")
    expect_error(FrontierEnded, lambda: frontier.take(0))
    with Frontier(2, program=trial.program) as frontier:
        frontier.offer("http://a.test/")
        taken = [frontier.try_take(queue) for queue in (0, 1)]
        expect("http://a.test/" in taken and Pending(2) in taken, f"pending: {taken}")


def long_base(trial: Trial) -> None:
    """A page with a base of a megabyte: its links are too long, and need little memory."""
    trial.require_link()
    with Frontier(1, program=trial.program) as frontier:
        tracemalloc.start()
        offers = frontier.links("http://a.test/" + "x" * 10**6, ["y"] * 200)
        most = tracemalloc.get_traced_memory()[1]
        tracemalloc.stop()
    expect(offers == [Refusal.TOO_LONG] * 200, f"links: {offers[:3]}")
    expect(most < 2 * 10**7, f"the links need {most} bytes of memory")


def client_ends(trial: Trial) -> None:
    """A program that is missing, that rejects its arguments, or that is killed."""
    expect_error(ProgramMissing, lambda: Frontier(program="/no/such/program"))
    with Frontier(513, program=trial.program) as frontier:
        try:
            frontier.end_seeds()
            raise Differs("513 workers are not rejected")
        except FrontierEnded as error:
            expect(error.status == 3 and "513" in error.stderr and "513" in str(error), f"{error}")
    for is_killed in (True, False):
        with Frontier(2, program=trial.program) as frontier:
            ends: List[FrontierEnded] = []
            fetchers = [threading.Thread(target=wait, args=(frontier, queue, ends)) for queue in range(2)]
            for fetcher in fetchers:
                fetcher.start()
            time.sleep(0.1)
            if is_killed:
                os.kill(pid_of(frontier), signal.SIGKILL)
            else:
                frontier.close()
            expect_error(FrontierEnded, lambda: frontier.offer("http://a.test/"))
            for fetcher in fetchers:
                fetcher.join(SECONDS)
            status = -9 if is_killed else 0
            expect([end.status for end in ends] == [status] * 2, f"the exceptions of the fetchers: {ends}")


def log_in_use(trial: Trial) -> None:
    """Only one program uses a log at a time; the next one gives out the URL in progress again."""
    trial.require_log()
    log = trial.folder / "used.log"
    with Frontier(1, log=log, sync=trial.has_sync, program=trial.program) as frontier:
        frontier.offer("http://a.test/")
        expect(frontier.take(0) == "http://a.test/", "take")
        error = expect_error(LogInUse, lambda: Frontier(1, log=log, program=trial.program))
        message = f"mercator: log {log}: in use by another program"
        expect((error.status, error.stderr) == (5, message), f"the exception: {error}")
        expect(str(error).endswith(f" ended with status 5: {message}"), f"the message: {error}")
    frontier = Frontier(1, log=log, program=trial.program)
    frontier.close()
    expect_error(FrontierEnded, lambda: frontier.take(0))
    for _ in range(2):
        with Frontier(1, log=log, program=trial.program) as frontier:
            expect(frontier.again(0) == "http://a.test/", "again")
            expect(frontier.take(0) == "http://a.test/", "the URL in progress")
            expect_error(QueueBusy, lambda: frontier.take(0))
    with Frontier(1, log=log, program=trial.program) as frontier:
        expect(frontier.done(0) == 1, "done of the URL in progress")
        expect((frontier.again(0), frontier.try_take(0)) == (None, Pending(1)), "nothing is left")


def log_that_cannot_be(trial: Trial) -> None:
    """A path that cannot be a log: the exception has the message of the program."""
    trial.require_log()
    file = trial.folder / "file"
    file.touch()
    for log in (file / "log", trial.folder, trial.folder / "none" / "log", trial.folder / ("x" * 300)):
        error = expect_error(FrontierEnded, lambda: Frontier(1, log=log, program=trial.program))
        expect("cannot open" in str(error), f"{log}: {error}")


def words_like_options(trial: Trial) -> None:
    """The name of a log and a suffix may look like options."""
    trial.require_log()
    before = os.getcwd()
    os.chdir(trial.folder)
    try:
        for offer in (Accepted(0, 0), Refusal.SEEN):
            with Frontier(1, within="-a.test", log="--x", program=trial.program) as frontier:
                offers = frontier.offer_all(["http://b.-a.test/", "http://a.test/"])
                expect(offers == [offer, Refusal.FILTERED], f"offers: {offers}")
    finally:
        os.chdir(before)


def wait(frontier: Frontier, queue: int, ends: List[FrontierEnded]) -> None:
    try:
        frontier.take(queue)
    except FrontierEnded as error:
        ends.append(error)


def interrupted_call(trial: Trial) -> None:
    """Ctrl-C during a call ends the frontier, since nobody reads the answers."""
    with Frontier(2, program=trial.program) as frontier:
        os.kill(pid_of(frontier), signal.SIGSTOP)
        interrupt(lambda: frontier.offer("http://a.test/"))
        expect_error(FrontierEnded, lambda: frontier.offer("http://b.test/"))


def interrupted_close(trial: Trial) -> None:
    """Ctrl-C while the frontier is being closed: waiting calls end, and no request goes to another file."""
    frontier = Frontier(2, program=trial.program)
    ends: List[FrontierEnded] = []
    fetcher = threading.Thread(target=wait, args=(frontier, 0, ends), daemon=True)
    fetcher.start()
    while not frontier._waiting:
        time.sleep(0.01)
    os.kill(pid_of(frontier), signal.SIGSTOP)
    interrupt(frontier.close)
    # These files have the descriptors that the pipes had.
    others = [open(trial.folder / f"other-{number}", "w+b", buffering=0) for number in range(4)]
    expect_error(FrontierEnded, lambda: frontier.offer("http://a.test/"))
    expect(not any(other.seek(0, os.SEEK_END) for other in others), "a request was written to another file")
    for other in others:
        other.close()
    fetcher.join(1)
    expect(len(ends) == 1, "a fetcher waits forever")
    frontier._channel._process.kill()
    frontier._channel._process.wait()


def interrupt(call: Callable[[], object]) -> None:
    """Call a function, and interrupt it by Ctrl-C."""
    # These tests may be a background job of a shell, which ignores the signal.
    before = signal.signal(signal.SIGINT, signal.default_int_handler)
    threading.Timer(0.2, signal.pthread_kill, (threading.get_ident(), signal.SIGINT)).start()
    try:
        call()
        raise Differs("the call was not interrupted")
    except KeyboardInterrupt:
        return
    finally:
        signal.signal(signal.SIGINT, before)


def pid_of(frontier: Frontier) -> int:
    return frontier._channel._process.pid


def closing_handler(trial: Trial) -> None:
    """A signal whose handler closes the frontier ends the call that it interrupts."""
    for is_stopped in (True, False):
        with Frontier(1, program=trial.program) as frontier:
            handlers = {signal.SIGUSR1: lambda *_: frontier.close(), signal.SIGALRM: late}
            before = {number: signal.signal(number, handler) for number, handler in handlers.items()}
            if is_stopped:
                os.kill(pid_of(frontier), signal.SIGSTOP)
            threading.Timer(0.2, signal.pthread_kill, (threading.get_ident(), signal.SIGUSR1)).start()
            signal.alarm(15)
            try:
                expect_error(FrontierEnded, lambda: frontier.take(0))
                expect_error(FrontierEnded, lambda: frontier.offer("http://a.test/"))
            finally:
                signal.alarm(0)
                for number, handler in before.items():
                    signal.signal(number, handler)


def late(*_: object) -> None:
    raise Differs("the handler waits forever")


def forked_process(trial: Trial) -> None:
    """A forked process cannot use the frontier, and does not keep the program running."""
    with Frontier(1, program=trial.program) as frontier:
        read, written = os.pipe()
        child = os.fork()
        if not child:
            os.write(written, word_of(lambda: frontier.offer("http://a.test/")).encode())
            time.sleep(SECONDS)
            os._exit(0)
        try:
            result = os.read(read, 1000).decode()
            expect(result == "FrontierEnded", f"an offer of the forked process: {result}")
            expect(frontier.offer("http://a.test/") == Accepted(0, 0), "an offer of the first process")
            frontier.close()
            status = frontier._channel._process.returncode
            expect(status == 0, f"the program, which was closed, has status {status}")
        finally:
            os.kill(child, signal.SIGKILL)
            os.waitpid(child, 0)
            os.close(read)
            os.close(written)


def word_of(call: Callable[[], object]) -> str:
    """Return the result of a call, or the name of its exception."""
    try:
        return str(call())
    except Exception as error:
        return type(error).__name__


def client_small_pipes(trial: Trial) -> None:
    """With pipes of one memory page, there is no deadlock."""
    count = trial.lines
    with Frontier(3, program=trial.program) as frontier:
        process = frontier._channel._process
        for pipe in (process.stdin, process.stdout):
            assert pipe
            fcntl.fcntl(pipe.fileno(), F_SETPIPE_SZ, 4096)
        offers = frontier.offer_all(f"http://h{number % 50}.test/{number}" for number in range(count))
        expect(all(offers) and len(offers) == count, "offers")
        # Each of these answers is longer than its request.
        expect(frontier.offer_all(["a:"] * count) == [Refusal.NOT_HTTP] * count, "refusals")
        expect(bool(frontier.offer("http://a.test/" + "x" * 4000)), "a long one")
