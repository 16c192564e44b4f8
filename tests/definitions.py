#!/usr/bin/env python3
"""Evaluates the definitions that the proofs of a check cite, and compares them with the independent model and the program: definitions.py [OPTION..].

A definition in crates/*/specs is a function. tests/definitions/ reads its text and makes a function of Python of it, so what is
compared is the definition itself. For each folder these are compared:
- what a server returns for each URL, the own URL of each file, hints, and the starts of a check, with the model's server;
- the links, the base and the anchors of each document, and which fragments they have, with the model's tokenizer;
- the pages and the results of a crawl, with the model's search;
- the statements of a check about its report: the rows of missing pages, of invalid links and of links that leave the site, redirects,
  the files with the most broken links, unreached files, external links, entries that match nothing, totals and hints;
- with a program, its saved web, and the bytes of its report in each form.

The folders are random, those of tests/check.py with the same seed and number, and the packages of tests/real_sites.txt that are named.
With --edits, each change of a definition in tests/definitions/edits.py must make a difference in one of the random folders. With
--show NAME, a definition is printed with its function in Python, such as `site_files.Server.looked_up`. With --coverage, the number of
definitions of each file that were called is printed, and the names of the others.

The environment variable PROGRAM names the program; without it, that in crates/mercator_cli is taken if it is built, or none. The last
line is `N passed, M failed`; the exit status is 1 if any failed.
"""

from __future__ import annotations

import argparse
import os
import sys
import tempfile
from collections import Counter
from concurrent.futures import ProcessPoolExecutor
from functools import lru_cache, partial
from pathlib import Path
from random import Random
from typing import Dict, NamedTuple, Optional, Sequence

import drawn
import real_sites
from check import draw_number
from checking import archives, loading
from definitions import lists, printed
from definitions.comparing import Comparison, Outcome, in_deep_thread, limit_memory
from definitions.edits import EDITS
from definitions.sites import Tables
from definitions.translate import Edit, Library, modules_of

SHOWN, LONGEST = 5, 600  # the number of differences that are printed of a folder, and the most letters of one
EVERY = 4  # one of this number of random folders has all forms of its report compared, and another one a site list
CHECKED = ("site_files", "saved_site", "site_check", "document_links", "html_links", "page_anchors", "mercator_site", "check_report")


class Compared(NamedTuple):
    """The comparison of a folder."""

    name: str
    outcome: Optional[Outcome]  # None if it has a URL that the model does not support
    called: Dict[str, int]


@lru_cache(maxsize=1)
def all_definitions() -> Tables:
    """The definitions of this process."""
    return Tables()


def shared_library() -> Tables:
    """The definitions of this process, without what they found in other folders."""
    library = all_definitions()
    library.forget()
    return library


def compare_number(program: Optional[str], seed: int, is_counted: bool, number: int) -> Compared:
    """Compares a random folder."""
    called: Counter[str] = Counter()

    def work() -> Optional[Outcome]:
        with tempfile.TemporaryDirectory() as above:
            folder, settings, _ = draw_number(seed, number, above)
            forms = tuple(printed.FORMS) if number % EVERY == 0 else ("json",)
            library = Tables((), called) if is_counted else shared_library()
            try:
                outcome = Comparison(library, folder, settings, program).outcome(forms)
                if number % EVERY == 1:
                    listed = archives.draw_list(Random(f"list {seed} {number}"), folder, settings)
                    found = tuple(f"site list: {error}" for error in lists.errors(library, folder, listed))
                    outcome = Outcome(outcome.errors + found, {**outcome.counts, "site lists": 1})
                return outcome
            except drawn.NotPlain:
                return None

    return Compared(f"folder {number}", in_deep_thread(work), dict(called))


def compare_package(program: Optional[str], is_counted: bool, site: real_sites.Site) -> Compared:
    """Compares the documentation of a package: without BASE, and its saved web and its report as JSON with a BASE."""
    called: Counter[str] = Counter()
    without = real_sites.settings_of(site)

    def work() -> Outcome:
        library = Tables((), called) if is_counted else shared_library()
        outcome = Comparison(library, site.folder, without, program).outcome(tuple(printed.FORMS))
        library.forget()
        other = Comparison(library, site.folder, without._replace(base=real_sites.BASE, front=""), program).outcome(("json",))
        counts = Counter(outcome.counts)
        counts.update(other.counts)
        return Outcome(outcome.errors + tuple(f"with BASE: {error}" for error in other.errors), dict(counts))

    return Compared(site.name, in_deep_thread(work), dict(called))


def first_error(seed: int, library: Tables, number: int) -> Optional[str]:
    """The first difference in a random folder, by these definitions."""
    library.forget()

    def work() -> Optional[str]:
        with tempfile.TemporaryDirectory() as above:
            folder, settings, _ = draw_number(seed, number, above)
            try:
                return next(Comparison(library, folder, settings, None).errors(("json",)), None)
            except drawn.NotPlain:
                return None

    return in_deep_thread(work)


class Totals:
    """What was compared so far."""

    def __init__(self) -> None:
        self.passed = self.failed = self.skipped = 0
        self.counts: Counter[str] = Counter()
        self.called: Counter[str] = Counter()

    def add(self, compared: Compared, again: Sequence[str]) -> None:
        """Counts a folder, and prints its differences."""
        self.called.update(compared.called)
        if compared.outcome is None:
            self.skipped += 1
            return
        self.counts.update(compared.outcome.counts)
        self.failed += bool(compared.outcome.errors)
        self.passed += not compared.outcome.errors
        for error in compared.outcome.errors[:SHOWN]:
            print(f"{compared.name}: {error if len(error) < LONGEST else error[:LONGEST] + '..'}")
        if compared.outcome.errors:
            print(f"to run only this: {sys.argv[0]} {' '.join(again)}", flush=True)

    def end(self) -> None:
        """Prints the counts."""
        print(f"compared: {', '.join(f'{count} {name}' for name, count in self.counts.items())}; {self.skipped} folders skipped")
        print(f"{self.passed} passed, {self.failed} failed")


def program_of() -> Optional[str]:
    """The path of the program, if there is one."""
    path = os.path.abspath(os.environ.get("PROGRAM", loading.BUILT))
    if os.path.isfile(path):
        return path
    print("no program: only the model is compared")
    return None


def has_difference(seed: int, count: int, edit: Edit) -> Optional[str]:
    """The first difference that a change of a definition makes in one of the random folders."""
    library = Tables((edit,))
    for number in range(count):
        error = first_error(seed, library, number)
        if error is not None:
            return f"folder {number}, {error}"
    return None


def try_edits(seed: int, count: int, pool: ProcessPoolExecutor) -> int:
    """The number of changes of definitions that make no difference in any random folder."""
    failed = 0
    for edit, found in zip(EDITS, pool.map(partial(has_difference, seed, count), EDITS)):
        failed += found is None
        print(f"{edit.module}: {edit.new.strip()}: {'NO DIFFERENCE' if found is None else found[:LONGEST]}", flush=True)
    return failed


def show(path: str) -> None:
    """Prints a definition, and its function in Python."""
    library = Library()
    module, _, name = path.rpartition(".")
    library.name_of(module, name)
    print(library.module(module).definitions[name].text)
    print()
    print(library.texts[path], end="")


def print_coverage(called: Dict[str, int]) -> None:
    """Prints how many definitions of each file were called, and which were not."""
    library = Library()
    total = reached = 0
    for module in (one for crate in CHECKED for one in modules_of(crate)):
        names = list(library.module(module).definitions)
        others = [name for name in names if f"{module}.{name}" not in called]
        total, reached = total + len(names), reached + len(names) - len(others)
        if names:
            print(f"{module}: {len(names) - len(others)} of {len(names)}{'; not ' + ', '.join(others) if others else ''}")
    print(f"{reached} of {total} definitions were called")


def main() -> None:
    """Compares what the arguments name."""
    parser = argparse.ArgumentParser(description=__doc__, formatter_class=argparse.RawDescriptionHelpFormatter)
    parser.add_argument("--drawn", type=int, default=100, metavar="N", help="compare N random folders (default: 100)")
    parser.add_argument("--number", type=int, help="compare only the random folder with this number")
    parser.add_argument("--seed", type=int, default=1, help="the seed of the random folders (default: 1)")
    parser.add_argument("--package", action="append", default=[], metavar="NAME", help="compare a package of tests/real_sites.txt, too")
    parser.add_argument("--cache", type=Path, default=real_sites.CACHE, metavar="FOLDER",
                        help=f"the folder of unpacked packages (default: {real_sites.CACHE})")
    parser.add_argument("--jobs", type=int, default=os.cpu_count() or 1, metavar="N", help="the number of processes (default: that of the processors)")
    parser.add_argument("--edits", action="store_true", help="check that each change of a definition makes a difference")
    parser.add_argument("--coverage", action="store_true", help="print which definitions were called")
    parser.add_argument("--show", metavar="NAME", help="print a definition and its function in Python")
    arguments = parser.parse_args()
    if arguments.show:
        show(arguments.show)
        return
    totals = Totals()
    with ProcessPoolExecutor(arguments.jobs, initializer=limit_memory) as pool:
        if arguments.edits:
            failed = try_edits(arguments.seed, arguments.drawn, pool)
            print(f"{len(EDITS) - failed} passed, {failed} failed")
            sys.exit(1 if failed else 0)
        program = program_of()
        numbers = range(arguments.drawn) if arguments.number is None else [arguments.number]
        for compared, number in zip(pool.map(partial(compare_number, program, arguments.seed, arguments.coverage), numbers), numbers):
            totals.add(compared, ["--seed", str(arguments.seed), "--number", str(number)])
        if arguments.package:
            arguments.cache.mkdir(parents=True, exist_ok=True)
            found = list(real_sites.packages(arguments.cache, arguments.package))
            for compared in pool.map(partial(compare_package, program, arguments.coverage), found):
                totals.add(compared, ["--drawn", "0", "--package", compared.name])
    if arguments.coverage:
        print_coverage(totals.called)
    totals.end()
    sys.exit(1 if totals.failed or not totals.passed else 0)


if __name__ == "__main__":
    main()
