"""The program over pipes, what it supports, and the settings of the tests."""

from __future__ import annotations

import argparse
import os
import re
import select
import shlex
import shutil
import subprocess
import sys
import threading
import time
import traceback
from pathlib import Path
from random import Random
from typing import Callable, Iterable, Iterator, List, Optional, Sequence, Tuple, Type, TypeVar

from serving import ROOT

SECONDS = float(os.environ.get("SECONDS", "120"))  # the time limit of each wait
Raised = TypeVar("Raised", bound=Exception)


class Differs(Exception):
    """Raised when the program does not do what it should."""


class Skipped(Exception):
    """Raised when the program, or this machine, lacks what a test needs."""


def expect(is_so: bool, text: str) -> None:
    if not is_so:
        raise Differs(text)


def expect_error(kind: Type[Raised], call: Callable[[], object]) -> Raised:
    """Call a function that has to raise an exception of this class, and return the exception."""
    try:
        answer = call()
    except Exception as error:
        if type(error) is not kind:
            raise Differs(f"{kind.__name__} expected: {error!r}") from error
        return error
    raise Differs(f"{kind.__name__} expected: {answer!r}")


def command_of(name: str) -> str:
    """Return the command that runs only the test with this name, in a script with the option --part. It has the other
    options of this run."""
    rest = iter(sys.argv[1:])
    words = [sys.argv[0]]
    for word in rest:
        if word == "--part":
            next(rest)
        elif not word.startswith("--part="):
            words.append(word)
    return shlex.join([*words, "--part", name])


def run_all(tests: Iterable[Tuple[str, Callable[[], None]]], command: Optional[Callable[[str], str]] = None) -> int:
    """Run tests by name, print a line for each and a last one, and return the exit status. `command` returns the command
    that runs only the test with a name."""
    passed = failed = 0
    for name, test in tests:
        begun = time.monotonic()
        try:
            test()
        except Skipped as why:
            print(f"{name}: skipped: {why}", flush=True)
        except Exception as error:
            failed += 1
            print(f"{name}: FAILED: {error}", flush=True)
            if not isinstance(error, Differs):
                traceback.print_exc(file=sys.stdout)
            if command is not None:
                print(f"to run only this: {command(name)}", flush=True)
        else:
            passed += 1
            print(f"{name}: passed, {time.monotonic() - begun:.0f} s", flush=True)
    print(f"{passed} passed, {failed} failed")
    return 1 if failed or not passed else 0


class Serve:
    """A process of the program, with pipes as its input and output."""

    def __init__(self, program: str, words: Sequence[str] = (), limit: Optional[Callable[[], None]] = None) -> None:
        """Start the program. The new process first calls `limit`."""
        self.process = subprocess.Popen(
            [program, "serve", *words], bufsize=0, stdin=subprocess.PIPE, stdout=subprocess.PIPE, stderr=subprocess.PIPE,
            preexec_fn=limit,
        )
        assert self.process.stdin and self.process.stdout and self.process.stderr
        self.stdin, self.stdout = self.process.stdin, self.process.stdout
        self.pid = self.process.pid
        self.held = b""

    def send(self, data: bytes) -> None:
        view = memoryview(data)
        while view:
            view = view[os.write(self.stdin.fileno(), view):]

    def lines(self, count: int) -> List[bytes]:
        """Read `count` lines within the time limit."""
        end = time.monotonic() + SECONDS
        while self.held.count(b"\n") < count:
            ready, _, _ = select.select([self.stdout], [], [], max(0.0, end - time.monotonic()))
            expect(bool(ready), f"only {self.held.count(10)} of {count} answers in {SECONDS} s")
            some = os.read(self.stdout.fileno(), 1 << 20)
            if not some:
                raise Differs(f"it ended after {self.held[-200:]!r}: {self.errors()}")
            self.held += some
        *whole, self.held = self.held.split(b"\n", count)
        return whole

    def ask(self, line: bytes) -> str:
        self.send(line + b"\n")
        return self.lines(1)[0].decode()

    def exchange(self, pieces: Iterator[bytes]) -> bytes:
        """Send the pieces and end the input; return the whole output."""
        def send() -> None:
            for piece in pieces:
                self.send(piece)
            self.stdin.close()
        sender = threading.Thread(target=send, daemon=True)
        sender.start()
        answers = self.stdout.read()
        sender.join(SECONDS)
        return answers

    def flood(self, pieces: Iterator[bytes], count: int) -> int:
        """Send the pieces, which have `count` lines, and read the answers; return the peak memory after that."""
        def send() -> None:
            for piece in pieces:
                self.send(piece)
        sender = threading.Thread(target=send, daemon=True)
        sender.start()
        while count > 0:
            some = os.read(self.stdout.fileno(), 1 << 20)
            if not some:
                raise Differs(f"it ended before {count} answers: {self.errors()}")
            count -= some.count(b"\n")
        expect(count == 0, "it sent more answers than there were requests")
        sender.join(SECONDS)
        expect(not sender.is_alive(), f"it did not read its input for {SECONDS} s")
        return self.memory()

    def errors(self) -> str:
        """Return what it wrote on standard error."""
        assert self.process.stderr
        return self.process.stderr.read().decode("utf-8", "replace").strip()

    def end(self) -> Tuple[int, str]:
        """End the input, and return the exit status and standard error."""
        for pipe in (self.stdin, self.stdout):
            pipe.close()
        return self.wait()

    def wait(self) -> Tuple[int, str]:
        try:
            status = self.process.wait(SECONDS)
        except subprocess.TimeoutExpired:
            self.process.kill()
            raise Differs(f"it did not end within {SECONDS} s") from None
        return status, self.errors()

    def memory(self) -> int:
        """Return its peak memory in bytes."""
        return int(re.findall(r"VmHWM:\s*(\d+) kB", Path(f"/proc/{self.pid}/status").read_text())[0]) * 1024


class Trial:
    """What all tests share: the program, what it supports, the options of the command line, and a temporary folder."""

    def __init__(self, options: argparse.Namespace, folder: Path) -> None:
        self.options, self.folder = options, folder
        self.program = program_of(options.program)
        help_text = subprocess.run(
            [self.program, "serve", "--help"], capture_output=True, check=False, stdin=subprocess.DEVNULL
        ).stdout
        self.has_log, self.has_sync, self.has_compact, self.has_part, self.has_wait, self.has_list = (
            option in help_text for option in (b"--log", b"--sync", b"--compact", b"--part", b"--wait", b"--list")
        )
        session = Serve(self.program)
        self.has_link = session.ask(b"again 0") != "bad line"
        session.end()
        self.lines: int = options.lines

    def draw(self, name: str) -> Random:
        """Return a generator of random numbers, which depends on this name and the seed."""
        return Random(f"{name} of seed {self.options.seed}")

    def require_log(self) -> None:
        if not self.has_log:
            raise Skipped("the program has no --log")

    def require_wait(self) -> None:
        if not self.has_wait:
            raise Skipped("the program has no --wait")

    def require_part(self) -> None:
        if not self.has_part:
            raise Skipped("the program has no --part")

    def require_link(self) -> None:
        if not self.has_link:
            raise Skipped("the program has no `link` and `again`")


def program_of(given: Optional[str]) -> str:
    """Return the path of the program to test."""
    path = given or os.environ.get("MERCATOR") or str(ROOT / "crates/mercator_cli/out/mercator_cli")
    found = shutil.which(path)
    if found is None:
        sys.exit(f"{Path(sys.argv[0]).name}: {path} is not a program: build it, or set MERCATOR")
    return str(Path(found).resolve())
