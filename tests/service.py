#!/usr/bin/env python3
"""Test `clients/python/mercator_service.py`, which shares one frontier between several processes.

The program is the one that MERCATOR names, or else the built one. The last line is `N passed, M
failed`; the exit status is 1 if a test failed.
"""

from __future__ import annotations

import argparse
import os
import re
import signal
import socket
import subprocess
import sys
import tempfile
import threading
import time
import urllib.error
import urllib.request
from collections import Counter
from contextlib import suppress
from functools import partial
from pathlib import Path
from random import Random
from typing import Callable, Dict, List, Optional, Set, Tuple

from serving import ROOT
from serving.trial import SECONDS, command_of, expect, expect_error, program_of, run_all
from mercator_frontier import Accepted, FrontierEnded, FrontierError, NoSuchQueue, NothingTaken, QueueBusy
from mercator_service import Fetcher

SERVICE = ROOT / "clients/python/mercator_service.py"
PROGRAM = os.environ["MERCATOR"] = program_of(None)


class Service:
    """A process of the service, with a Unix socket, a TCP port and a port for metrics."""

    def __init__(self, folder: Path, *options: str, workers: int = 2) -> None:
        self.path = folder / "service.sock"
        self.unix = f"unix:{self.path}"
        self.log = folder / "crawl.log"
        self.process = subprocess.Popen(
            [sys.executable, str(SERVICE), "--listen", self.unix, "--listen", "127.0.0.1:0",
             "--metrics", "127.0.0.1:0", "--log", str(self.log), f"--workers={workers}", *options],
            stdout=subprocess.PIPE, stderr=subprocess.PIPE, text=True, start_new_session=True,
        )
        assert self.process.stdout
        lines = [self.process.stdout.readline().split() for _ in range(3)]
        self.tcp, self.metrics = (line[-1] if line else "" for line in lines[1:])

    def end(self, how: int = signal.SIGTERM) -> Tuple[int, str]:
        """End the service, and return its exit status and what it printed on standard error."""
        if self.process.poll() is None:
            self.process.send_signal(how)
        try:
            _, errors = self.process.communicate(timeout=SECONDS)
        finally:
            self.process.kill()
        return self.process.returncode, errors

    def program(self) -> int:
        children = Path(f"/proc/{self.process.pid}/task/{self.process.pid}/children").read_text()
        return int(children.split()[0])

    def __enter__(self) -> Service:
        return self

    def __exit__(self, kind: Optional[type[BaseException]], *_: object) -> None:
        status, errors = self.end()
        if kind is None:
            expect(status == 0 and not errors, f"status {status}: {errors}")
            expect(not self.path.exists(), "the socket is left")

    def figures(self) -> Dict[str, float]:
        with urllib.request.urlopen(f"http://{self.metrics}/metrics", timeout=SECONDS) as answer:
            text = answer.read().decode()
        lines = [line for line in text.splitlines() if not line.startswith("#")]
        expect(all(re.fullmatch(r'mercator_\w+(\{\w+="[^"\\]*"\})? \d+', line) for line in lines), text)
        names = [re.split(r"[{ ]", line)[0] for line in lines]
        for name in set(names):
            expect(f"# TYPE {name} " in text and f"# HELP {name} " in text, f"{name} has no type")
        return {name: float(value) for name, _, value in (line.rpartition(" ") for line in lines)}


class Wire:
    """A connection on which a test sends lines."""

    def __init__(self, address: str) -> None:
        self.socket = socket.socket(socket.AF_UNIX)
        self.socket.connect(address[len("unix:"):])
        self.socket.settimeout(SECONDS)
        self.file = self.socket.makefile("rb")

    def send(self, *lines: str) -> None:
        self.socket.sendall("".join(f"{line}\n" for line in lines).encode())

    def read(self) -> str:
        return self.file.readline().decode().rstrip("\n")

    def ask(self, line: str) -> str:
        self.send(line)
        return self.read()

    def is_silent(self) -> bool:
        """Whether nothing arrives for a while."""
        self.socket.settimeout(0.2)
        try:
            return not self.socket.recv(1, socket.MSG_PEEK)
        except socket.timeout:
            return True
        finally:
            self.socket.settimeout(SECONDS)

    def close(self) -> None:
        self.file.close()
        self.socket.close()


def until(is_so: Callable[[], bool], what: str) -> None:
    end = time.monotonic() + SECONDS
    while not is_so():
        expect(time.monotonic() < end, what)
        time.sleep(0.01)


# ---------------------------------------------------------------- the tests

def same_answers(folder: Path) -> None:
    """One client gets the answers of the program, however its requests are cut into pieces."""
    random = Random("service")
    for number in range(6):
        data = b"".join(random_line(random) for _ in range(3000))
        command = [PROGRAM, "serve", "--workers=3", "--max-pending=40"]
        expected = subprocess.run(command, input=data, stdout=subprocess.PIPE, check=True).stdout
        place = folder / str(number)
        place.mkdir()
        with Service(place, "--max-pending=40", workers=3) as service:
            wire = Wire(service.unix)
            reader: List[bytes] = []
            thread = threading.Thread(target=lambda: reader.append(wire.file.read()))
            thread.start()
            begin = 0
            while begin < len(data):
                size = random.choice((1, 10, 1000, 100_000))
                wire.socket.sendall(data[begin:begin + size])
                begin += size
            wire.socket.sendall(b"link http://a.test/ half")  # not a request
            wire.socket.shutdown(socket.SHUT_WR)
            thread.join(SECONDS)
            expect(reader == [expected], f"session {number}: other answers")
            wire.close()
            expect(b"half" not in service.log.read_bytes(), "a line that was cut off is a request")


def random_line(random: Random) -> bytes:
    kind = random.randrange(20)
    if kind < 9:
        word = random.choice(("next", "next", "done", "later", "again", "stats"))
        queue = random.choice((0, 0, 1, 1, 2, 2, 3, "00", 2**32))
        return f"{word} {queue}{random.choice(('', '', chr(13)))}\n".encode()
    if kind < 18:
        text = f"{random.choice(('/', '//h1.test/', '/x'))}{random.randrange(300)}"
        return f"link http://h{random.randrange(9)}.test/ {text}\n".encode()
    if kind == 18:
        long = b"offer " + b"x" * random.randrange(4080, 9000) + b"\n"
        return random.choice((b"\n", b"next\n", b"stats\n", b"\xff\n", long))
    return b"next 0\n" if random.randrange(300) else b"endseeds\n"


def owners(folder: Path) -> None:
    """A queue has one owner, until that has gone. What the owner had in progress is put back."""
    with Service(folder) as service:
        one, two = Fetcher(service.unix), Fetcher(service.tcp)
        offer = one.offer("http://a.test/1")
        assert isinstance(offer, Accepted)
        queue = offer.queue
        two.links("http://a.test/", ["2", "3"])
        expect(one.take(queue) == "http://a.test/1", "the first URL")
        expect_error(QueueBusy, lambda: one.take(queue))
        expect_error(NoSuchQueue, lambda: two.take(queue))
        for call in (two.done, two.later):
            expect_error(NothingTaken, lambda: call(queue))
        expect(two.again(queue) is None and one.again(queue) == "http://a.test/1", "again")
        one.close()
        until(lambda: service.figures()["mercator_put_back_total"] == 1, "it is not put back")
        expect(service.figures()["mercator_owned_queues"] == 0, "the queue is not free")
        taken = [two.take(queue) for _ in range(3) if two.again(queue) is None or two.done(queue)]
        expect(taken == [f"http://a.test/{number}" for number in (2, 3, 1)], f"{taken}")
        two.close()


def waits(folder: Path) -> None:
    """`next` waits for a URL from any client, or for the end; `pending` is sent if other requests follow."""
    with Service(folder) as service:
        one, two, three = (Wire(service.unix) for _ in range(3))
        queue = int(one.ask("offer http://a.test/").split()[1])
        one.send(f"next {queue}", f"done {queue}", f"next {queue}")
        expect([one.read(), one.read()] == ["taken http://a.test/", "count 1"], "the first URL")
        expect(one.is_silent(), "`next` does not wait")
        two.ask("offer http://a.test/2")
        expect(one.read() == "taken http://a.test/2", "the URL of another client")
        expect(one.ask(f"later {queue}") == "count 2", "later")
        one.send(f"next {queue}", f"done {queue}", f"next {queue}")
        expect([one.read(), one.read()] == ["taken http://a.test/2", "count 1"], "the URL that was put back")
        expect(one.is_silent(), "`next` does not wait again")
        one.send("endseed", f"next {queue}")
        expect([one.read(), one.read()] == ["pending 1", "bad line"], "a request after `next`")
        expect(one.is_silent(), "the second `next` does not wait")
        three.send(f"next {1 - queue}")
        expect(three.is_silent(), "`next` of another queue does not wait")
        expect(two.ask("endseeds") == "count 0", "the end of the seeds")
        expect([one.read(), three.read()] == ["closed", "closed"], "the end")
        expect(two.ask("offer http://a.test/3") == "refused closed", "an offer after the end")
        expect(service.figures()["mercator_closed"] == 1, "the metric of the end")
        for wire in (one, two, three):
            wire.close()


def no_lost_wakeups(folder: Path) -> None:
    """Two fetchers each take what the other offers, many times."""
    with Service(folder) as service:
        hosts: Dict[int, str] = {}
        with Fetcher(service.unix) as first:
            for number in range(20):
                offer = first.offer(f"http://h{number}.test/")
                assert isinstance(offer, Accepted)
                hosts[offer.queue] = f"http://h{number}.test/"
            errors: List[str] = []

            def work(queue: int) -> None:
                try:
                    with Fetcher(service.unix) as fetcher:
                        while fetcher.try_take(queue):  # what was offered above
                            fetcher.done(queue)
                            if fetcher.offer(f"{hosts[queue]}last"):
                                break
                        for number in range(500):
                            fetcher.offer(f"{hosts[1 - queue]}{number}")
                            fetcher.take(queue)
                            fetcher.done(queue)
                except FrontierError as error:
                    errors.append(repr(error))

            threads = [threading.Thread(target=work, args=(queue,), daemon=True) for queue in (0, 1)]
            for thread in threads:
                thread.start()
            for thread in threads:
                thread.join(SECONDS)
                expect(not thread.is_alive() and not errors, f"a fetcher waits forever: {errors}")


def slow_client(folder: Path) -> None:
    """A client that reads no answers does not stop others, and the service does not grow."""
    with Service(folder) as service:
        slow = Wire(service.unix)
        slow.socket.settimeout(1)
        try:
            for _ in range(1000):
                slow.send(*(["mailto:x" + "y" * 90] * 1000))
            expect(False, "the service reads 100 MB without sending its answers")
        except socket.timeout:
            pass
        status = Path(f"/proc/{service.process.pid}/status").read_text()
        expect(int(re.findall(r"VmRSS:\s+(\d+)", status)[0]) < 100_000, "the memory of the service")
        with Fetcher(service.unix) as other:
            offers = other.links("http://a.test/", [f"/{number}" for number in range(20_000)])
            expect(all(offers), "another client")
        slow.close()


def metrics(folder: Path) -> None:
    """The counts are those of the requests, and other paths are not found."""
    with Service(folder, "--within", "test", "--max-pending", "5", workers=3) as service:
        with Fetcher(service.unix) as one:
            offers = one.offer_all([
                "http://a.test/", "http://a.test/#b", "http://a.other/", "mailto:x", "nowhere", "x" * 9000,
                "http://a.test/\udc00", "http://a.test/2", "http://a.test/3", "http://a.test/4", "http://a.test/5",
            ])
            assert isinstance(offers[0], Accepted)
            queue = offers[0].queue
            one.take(queue)
            one.later(queue)
            one.take(queue)
            one.done(queue)
            one.take(queue)
            answers = ("filtered", "line too long", "not UTF-8", "not a URL", "not http or https", "refused full", "seen")
            expected = {
                "accepted_total": 4, "taken_total": 3, "done_total": 1, "put_back_total": 1, "in_progress": 1,
                "waiting": 2, "waiting_put_back": 1, "seen_total": 1, "clients": 1, "owned_queues": 1, "queues": 3, "closed": 0,
                **{f'refused_total{{reason="{answer}"}}': 1 for answer in answers},
            }
            found = service.figures()
            expect(found == {f"mercator_{name}": value for name, value in expected.items()}, f"{found}")
        for path in ("/", "/metrics2"):
            expect_error(urllib.error.HTTPError, lambda: urllib.request.urlopen(f"http://{service.metrics}{path}"))
        for text in (b"GET\r\n\r\n", b"\r\n\r\n", b"GET /metrics", b"\xff" * 200_000):
            with socket.create_connection(service.metrics.split(":")) as wire:  # type: ignore[arg-type]
                try:
                    wire.sendall(text)
                    wire.shutdown(socket.SHUT_WR)
                    wire.recv(1000)
                except OSError:
                    pass  # it does not read on
        service.figures()


def ends(folder: Path) -> None:
    """The service ends on SIGTERM and SIGINT, and after its program has ended, with a message that says why."""
    for how in (signal.SIGTERM, signal.SIGINT):
        service = Service(folder)
        with Fetcher(service.tcp) as fetcher, Fetcher(service.unix) as waiting:
            fetcher.offer("http://a.test/")
            fetcher.take(1)
            thread = threading.Thread(target=lambda: expect_error(FrontierEnded, lambda: waiting.take(0)))
            thread.start()
            time.sleep(0.1)
            program = service.program()
            expect(service.end(how) == (0, ""), f"signal {how}")
            thread.join(SECONDS)
            expect(not service.path.exists() and not Path(f"/proc/{program}").exists(), "what is left")
            expect_error(FrontierEnded, lambda: fetcher.done(1))
        expect("\nlater 1\n" in service.log.read_text(), "it was not put back")
        service.log.unlink()
    with Service(folder) as service:
        expect(oct(service.path.stat().st_mode)[-3:] == "600", "others may connect")
        for log, why in ((folder / "other.log", "listens on"), (service.log, "in use")):
            again = run_service("--listen", service.unix, "--log", str(log))
            expect(again.returncode == 1 and why in again.stderr, f"{again}")
        Fetcher(service.unix).close()  # the first one still listens
    service = Service(folder)
    with Fetcher(service.unix) as fetcher:
        os.kill(service.program(), signal.SIGKILL)
        expect_error(FrontierEnded, lambda: fetcher.take(0))
    status, errors = service.end(0)
    expect(status == 1 and "ended with status -9" in errors, f"{status}: {errors}")
    service.process.kill()
    service = Service(folder)  # the socket of a service that was killed
    os.killpg(service.process.pid, signal.SIGKILL)
    service.process.wait()
    with Service(folder) as service:
        Fetcher(service.unix).close()
    bad_command_lines(folder)


def bad_command_lines(folder: Path) -> None:
    """The exit status, and a message without a traceback."""
    valid = ["--listen", f"unix:{folder}/x", "--log", str(folder / "x.log")]
    failing = ["--workers=0", "--log=/no/such/log", "--program=/no/such/program", "--within=", "--listen=192.0.2.1:1"]
    for option in failing:
        ended = run_service(*valid, option)
        expect(ended.returncode == 1 and "mercator_service: " in ended.stderr, f"{option}: {ended}")
        expect("Traceback" not in ended.stderr and not Path(folder, "x").exists(), f"{option}: {ended}")
    wrong: List[List[str]] = [["--listen", "x"], ["--listen", "unix:"], ["--listen", "a:99999"], []]
    for arguments in wrong:
        expect(run_service(*valid[2:], *arguments).returncode == 2, f"{arguments}")


def run_service(*arguments: str) -> subprocess.CompletedProcess[str]:
    command = [sys.executable, str(SERVICE), *arguments]
    return subprocess.run(command, capture_output=True, text=True, timeout=SECONDS, check=False)


# ---------------------------------------------------------------- crawls by several processes

HOSTS, PAGES, WORKERS = 12, 300, 6


def targets_of(url: str) -> List[str]:
    """The links of a page of a fixed web."""
    number = int(url.rpartition("/")[2])
    random = Random(number)
    targets = [random.randrange(PAGES) for _ in range(4)]
    return [f"http://h{target % HOSTS}.test/{target}" for target in targets]


def reached() -> Set[str]:
    found = ["http://h0.test/0"]
    known = set(found)
    for url in found:
        more = [target for target in targets_of(url) if target not in known]
        found += dict.fromkeys(more)
        known |= set(more)
    return known


def crawl(address: str, events: str) -> None:
    """A crawler: a process with a fetcher for each queue, which waits for queues that others own."""
    file = os.open(events, os.O_WRONLY | os.O_APPEND)

    def note(word: str, url: str) -> None:
        os.write(file, f"{word} {os.getpid()} {url}\n".encode())

    def work(queue: int) -> None:
        while True:
            try:
                with Fetcher(address) as fetcher:
                    while (url := fetcher.take(queue)) is not None:
                        note("start", url)
                        time.sleep(0.004)
                        if Random(url).randrange(8) == 0 and Random().randrange(2):
                            note("end", url)
                            fetcher.later(queue)
                            continue
                        fetcher.links(url, targets_of(url))
                        note("done", url)
                        fetcher.done(queue)
                    return
            except (NoSuchQueue, FrontierEnded):
                time.sleep(0.02)
            except FrontierError:  # the service has not started again
                time.sleep(0.05)

    threads = [threading.Thread(target=work, args=(queue,)) for queue in range(WORKERS)]
    for thread in threads:
        thread.start()
    for thread in threads:
        thread.join()


class Crawlers:
    """Three processes that crawl, and what they note in a file in the order in which it happens."""

    def __init__(self, folder: Path, address: str) -> None:
        self.address, self.events = address, folder / "events"
        self.events.touch()
        self.running = [self.start() for _ in range(3)]
        self.killed = 0

    def start(self) -> subprocess.Popen[bytes]:
        return subprocess.Popen([sys.executable, __file__, "--crawl", self.address, str(self.events)])

    def kill(self, index: int) -> None:
        """Kill a process and start another. It is stopped first, so that the note is in its place."""
        process = self.running[index]
        if process.poll() is None:
            process.send_signal(signal.SIGSTOP)
            time.sleep(0.01)
            with open(self.events, "a", encoding="utf-8") as file:
                file.write(f"kill {process.pid} -\n")
            process.kill()
            process.wait()
            self.killed += 1
            self.running[index] = self.start()

    def wait(self) -> None:
        for process in self.running:
            expect(process.wait(SECONDS) == 0, "the status of a crawler")

    def end(self) -> None:
        for process in self.running:
            process.kill()
            process.wait()

    def judge(self, is_one_each: bool) -> str:
        """Check that each URL was done, and once, except for those in progress at a kill."""
        done: Counter[str] = Counter()
        at_kill: Counter[str] = Counter()
        active: Dict[Tuple[str, str], str] = {}  # by process and URL, the host
        for line in self.events.read_text().splitlines():
            word, pid, url = line.split(" ")
            if word == "start":
                host = url.split("/")[2]
                expect(not is_one_each or host not in active.values(), f"two fetchers visit {host}")
                active[pid, url] = host
            elif word == "kill":
                for key in [key for key in active if key[0] == pid]:
                    at_kill[key[1]] += 1
                    del active[key]
            else:
                done[url] += word == "done"
                active.pop((pid, url), None)
        expect(set(done) >= reached() and not set(done) - reached(), f"{len(done)} of {len(reached())} URLs")
        twice = Counter({url: count - 1 for url, count in done.items() if count > 1})
        # A process that is killed may have noted `done` before it sent it.
        expect(sum(twice.values()) <= WORKERS * self.killed or not is_one_each, f"{sum(twice.values())} URLs again")
        return f"{self.killed} kills of crawlers, {len(done)} URLs, {sum(twice.values())} again"


def killed_crawlers(folder: Path) -> None:
    """Crawlers are killed, and others take over. No URL is lost, and no host is visited by two."""
    random = Random("crawlers")
    with Service(folder, workers=WORKERS) as service:
        with Fetcher(service.unix) as first:
            first.offer("http://h0.test/0")
        crawlers = Crawlers(folder, service.unix)
        try:
            for _ in range(8):
                time.sleep(0.2 + random.random() / 5)
                crawlers.kill(random.randrange(3))
            with Fetcher(service.unix) as last:
                last.end_seeds()
            crawlers.wait()
        finally:
            crawlers.end()
        print(f"  {crawlers.judge(is_one_each=True)}")
        figures = service.figures()
        expect(figures["mercator_accepted_total"] == figures["mercator_done_total"] == len(reached()), f"{figures}")
        expect(figures["mercator_waiting"] == 0 and figures["mercator_closed"] == 1, f"{figures}")


def killed_services(folder: Path) -> None:
    """The service and its program are killed, and start again with the log. No URL is lost."""
    random = Random("services")
    service = Service(folder, workers=WORKERS)
    with Fetcher(service.unix) as first:
        first.offer("http://h0.test/0")
    crawlers = Crawlers(folder, service.unix)
    try:
        for number in range(5):
            time.sleep(0.3 + random.random() / 5)
            if number % 2:
                service.process.kill()  # its program ends by itself
            else:
                os.kill(service.program(), signal.SIGKILL)
            service.process.wait(SECONDS)
            service = Service(folder, workers=WORKERS)
        with Fetcher(service.unix) as last:
            last.end_seeds()
        crawlers.wait()
        print(f"  {crawlers.judge(is_one_each=False)}, 5 kills of services")
        expect(service.end() == (0, ""), "the status of the service")
    finally:
        crawlers.end()
        service.process.kill()


# A program that stops reading at the first offer, until the service is killed. It writes to a file what it has read.
SLOW_READER = """
import os, sys, time
parent, data = os.getppid(), b""
while b"offer" not in data:
    some = os.read(0, 65536)
    data += some
    os.write(1, some.count(b"again") * b"refused nothing\\n")
while os.getppid() == parent:
    time.sleep(0.01)
while some := os.read(0, 65536):
    data += some
with open(sys.argv[0] + ".new", "wb") as file:
    file.write(data)
os.rename(sys.argv[0] + ".new", sys.argv[0] + ".read")
"""


def cut_off(folder: Path) -> None:
    """A service that is killed while it waits to write leaves no part of a request to the program."""
    program, read = folder / "program", folder / "program.read"
    program.write_text(f"#!{sys.executable}\n{SLOW_READER}")
    program.chmod(0o755)
    service = Service(folder, f"--program={program}")
    for count in (1, 30, 1000):  # these are more than the pipe takes
        wire = Wire(service.unix)
        wire.socket.settimeout(0.3)
        with suppress(socket.timeout):
            wire.send(*(f"offer http://a.test/{count}/{number}/{'a' * 300}" for number in range(count)))
        time.sleep(0.3)
    service.end(signal.SIGKILL)
    until(read.exists, "the program runs on")
    lines = read.read_bytes().split(b"\n")
    expect(lines[-1] == b"" and len(lines) > 100, f"{len(lines)} lines, and the last is {lines[-1]!r}")


TESTS: Tuple[Callable[[Path], None], ...] = (
    same_answers, owners, waits, no_lost_wakeups, slow_client, metrics, ends, killed_crawlers, killed_services,
    cut_off,
)


def in_folder(test: Callable[[Path], None]) -> None:
    with tempfile.TemporaryDirectory(prefix="service-") as folder:
        test(Path(folder))


def main() -> int:
    parser = argparse.ArgumentParser(description=__doc__, formatter_class=argparse.RawDescriptionHelpFormatter)
    names = [test.__name__ for test in TESTS]
    parser.add_argument("--part", action="append", choices=names, metavar="NAME",
                        help=f"run only this test; repeatable. The tests are {', '.join(names)}")
    parser.add_argument("--crawl", nargs=2, metavar=("ADDRESS", "FILE"), help=argparse.SUPPRESS)
    options = parser.parse_args()
    if options.crawl:
        crawl(*options.crawl)
        return 0
    chosen = [test for test in TESTS if test.__name__ in (options.part or names)]
    return run_all(((test.__name__, partial(in_folder, test)) for test in chosen), command_of)


if __name__ == "__main__":
    sys.exit(main())
