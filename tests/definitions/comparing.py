"""All comparisons of a folder: of the definitions with the model, and with what a program prints."""

from __future__ import annotations

import json
import resource
import subprocess
import sys
import tempfile
import threading
from typing import Any, Callable, Dict, Iterator, List, NamedTuple, Optional, Sequence, Tuple, TypeVar

from check import arguments, site_options
from checking.model import Model, Row, Settings
from definitions import findings, pages, printed, served, sites, texts
from definitions.translate import Library

DEPTH, STACK = 10 ** 7, 1 << 30  # the definitions call themselves for each byte of a text
SECONDS = 900  # the time limit of a run of the program
MEMORY = 6 << 30  # the most bytes of a process, with the stack
Result = TypeVar("Result")


class Outcome(NamedTuple):
    """What was found in a folder, and how much was compared."""

    errors: Tuple[str, ...]
    counts: Dict[str, int]


class Comparison:
    """The comparisons of a folder. A program is not needed."""

    def __init__(self, library: Library, folder: str, settings: Settings, program: Optional[str]) -> None:
        self.library, self.folder, self.settings, self.program = library, folder, settings, program
        self.model = Model(folder, settings)
        self.files = sites.files_of(library, self.model.site)
        self.read: Dict[bytes, texts.Read] = {}
        self.counts: Dict[str, int] = {}

    def outcome(self, forms: Sequence[str]) -> Outcome:
        """All differences."""
        return Outcome(tuple(self.errors(forms)), self.counts)

    def errors(self, forms: Sequence[str]) -> Iterator[str]:
        """The differences, one after another."""
        yield from named("server", served.errors(self.library, self.model, self.files))
        yield from named("documents", texts.errors(self.library, self.model, self.files, self.read))
        known = pages.Pages(self.library, self.model, self.files, self.read)
        yield from named("saved web", self.web_errors(known))
        self.counts = {"URLs": len(self.model.responses) + len(self.model.others), "files": len(self.read)}
        if self.model.error is None:
            yield from named("crawl", pages.model_errors(self.model, known.crawl(known.starts(True))))
            rows, base = self.rows()
            if not rows:
                yield "report: the program printed none"
                return
            check = findings.Check(self.library, self.model, self.files, known, rows)
            yield from named("report", findings.errors(check))
            yield from named("form", self.form_errors(base, rows, forms))
            self.counts.update({"statements about reports": sum(1 for _ in check.statements()), "forms of reports": len(forms)})
        self.counts.update({"pages": len(known.pages), "pages that the definitions leave open": known.open})

    def rows(self) -> Tuple[List[Row], str]:
        """The rows of the report, of the program if there is one, and the name of the site in it."""
        if self.program is None:
            return self.model.rows(), ""
        rows = [json.loads(line) for line in self.run(("--json",)).splitlines()]
        base = rows[0].pop("base", "") if rows else ""
        return rows, base

    def run(self, form: Tuple[str, ...]) -> bytes:
        """What the program prints of a check in a form."""
        assert self.program is not None
        with tempfile.TemporaryDirectory() as scratch:
            return self.done(arguments(self.settings, self.folder, scratch, form)).stdout

    def done(self, words: List[str]) -> "subprocess.CompletedProcess[bytes]":
        """A run of the program."""
        assert self.program is not None
        return subprocess.run([self.program, *words], capture_output=True, check=False, stdin=subprocess.DEVNULL, timeout=SECONDS)

    def web_errors(self, known: pages.Pages) -> Iterator[str]:
        """The differences in the saved web of the folder that the program prints."""
        if self.program is None or self.settings.is_rooted():
            return
        done = self.done(["site", *site_options(self.settings), self.folder, self.settings.base])
        if done.returncode:
            yield f"exit status {done.returncode}: {done.stderr.decode(errors='replace')}"
        else:
            yield from pages.web_errors(known, done.stdout)

    def form_errors(self, base: str, rows: Sequence[Row], forms: Sequence[str]) -> Iterator[str]:
        """The differences in the forms of the report."""
        if self.program is None:
            yield from printed.model_errors(self.library, self.settings, self.folder, rows)
        else:
            yield from printed.errors(self.library, self.settings, self.folder, base, rows, self.run, forms)


def named(part: str, errors: Iterator[str]) -> Iterator[str]:
    """Differences with the name of what is compared."""
    return (f"{part}: {error}" for error in errors)


def limit_memory() -> None:
    """Limits the memory of this process."""
    resource.setrlimit(resource.RLIMIT_AS, (MEMORY, MEMORY))


def in_deep_thread(work: Callable[[], Result]) -> Result:
    """The result of a function that may call itself a million times."""
    results: List[Any] = []

    def called() -> None:
        try:
            results.append((work(), None))
        except BaseException as error:  # pylint: disable=broad-except
            results.append((None, error))

    limit = sys.getrecursionlimit()
    sys.setrecursionlimit(DEPTH)
    threading.stack_size(STACK)
    thread = threading.Thread(target=called)
    thread.start()
    thread.join()
    threading.stack_size(0)
    sys.setrecursionlimit(limit)
    result, error = results[0]
    if error is not None:
        raise error
    return result  # type: ignore[no-any-return]
