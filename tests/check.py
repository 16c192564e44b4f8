#!/usr/bin/env python3
"""Compares the output of `mercator check --json` and `mercator site` with an independent model: check.py [OPTION..] [FOLDER ..].

The model (tests/checking/) has its own tokenizer, server, search and anchors, written from the standards. The script compares
small folders with known results, the shipped site, each FOLDER, and random folders: odd names, links in many spellings, base
elements, encodings, redirects, and symbolic links. Without a FOLDER it takes the documentation folders that are installed
(DOCUMENTATION in tests/checking/loading.py). The saved webs of random folders are compared with those of the converter,
tests/checking/converter.py, with the model's tokenizer. Of each random folder, a random list of its pages is checked, too, with
--index. Many of them have links to other random folders, which are checked with --map. In every eighth, the other forms of the
report are compared, in others a check whose options are in a configuration file, and in others the files that --fix rewrites after
some files were moved. With --model, only the model is tested: with the known results, the pages that the converter finds, the
answers of Python's static server, and the definitions of a server and of feeds that the proofs cite (tests/checking/twins.py,
feed_twins.py).

A random folder depends only on the seed and its number. The first folders that differ are kept, and their paths are printed, with
the commands that compare only these.
With at least 1,000 random folders, each kind of row must occur at least 5 times; otherwise the test fails. The environment
variable PROGRAM names the program to test; the default is the one built in crates/mercator_cli. The last line is
`N passed, M failed`; the exit status is 1 if any failed.
"""

from __future__ import annotations

import argparse
import json
import os
import re
import shlex
import stat
import subprocess
import sys
import tempfile
from collections import Counter
from concurrent.futures import ProcessPoolExecutor
from functools import lru_cache, partial
from pathlib import Path
from random import Random
from typing import Any, Callable, Dict, Iterator, List, NamedTuple, Optional, Sequence, Tuple, Union
from urllib.parse import quote, unquote_to_bytes

import drawn
from checking import archives, drawing, feed_twins, fixes, forms, loading, printing, samples, structures, twins
from checking.documents import TOOL, form_of
from checking.known import KNOWN, Known, To, Zeros
from checking.known_fixes import FIXED, Fixed
from checking.model import FLAGS, INDEX_FILES, LEADS_NOWHERE, LEADS_OUT, NO_INDEX_FILE, NOWHERE, Map, Model, Moved, Row, Settings, Site, is_short, name_of
from checking.tags import document_tags
from checking.webs import Converter, first_difference, model_error

BASE = "http://docs.test/"
LINE_ONLY = ("json", "follow", "workers")  # options that a configuration file cannot have
SECONDS = 60  # the time limit of a run
SHOWN, LONGEST = 5, 4000  # the number of differences that a series prints, and the most letters of one
EVERY = 8  # one of this number of random folders has its other forms compared
# What 1,000 random folders must have at least LEAST times
KINDS = "brokenpage brokenanchor placepage placeanchor hint worst redirect unreached unlisted external unused with_aliases error in_sheets in_xml in_feeds".split()
KINDS += "written hint_url hint_fallback hint_index_file hint_leads_out hint_leads_nowhere hint_no_index_file mapped question suggestion suggestion_in_other_case suggestion_in_other_form suggested_folder".split()
KINDS += "fixed_redirect fixed_name fixed_case fix_left fix_link".split()
KINDS += [kind + reason for kind in ("invalid", "invalid_place") for reason in ("not_url", "unknown_scheme", "local_file")]
KINDS += [kind + reason for kind in ("leaving", "leaving_place") for reason in ("above_folder", "outside_base", "not_in_map")]
HINT_KINDS = {LEADS_OUT: "hint_leads_out", LEADS_NOWHERE: "hint_leads_nowhere", NO_INDEX_FILE: "hint_no_index_file"}
LEAST = 5
PARTS = ("known", "folders", "random")
ONLY_FOLDERS = ("--part", "folders")


def host_options(settings: Settings) -> List[str]:
    """The options for the rules of a host, but for --exact without its name."""
    if settings.host:
        return [f"--host={settings.host}"]
    words = [f"--index-file={name}" for name in settings.indices] if settings.indices != INDEX_FILES else []
    return words + (["--fallback=html"] if settings.fallback else [])


def site_options(settings: Settings) -> List[str]:
    """The options for the pages of a folder."""
    flags = ("follow", "queries") if settings.host else ("exact", "follow", "queries")
    words = host_options(settings) + [f"--{name}" for name in flags if getattr(settings, name)]
    return words + ([] if settings.styles else ["--no-styles"])


def arguments(settings: Settings, folder: str, scratch: str, form: Sequence[str] = ("--json",)) -> List[str]:
    """The arguments of the command, with the options for a form of the report."""
    words = ["check", *form]
    words += [flag.option for flag in FLAGS if getattr(settings, flag.setting) == flag.value(True) and not (flag.setting == "exact" and settings.host)]
    words += host_options(settings)
    words += [f"--seed={seed}" for seed in settings.seeds]
    words += [f"--map={one.prefix}={one.folder}" for one in settings.maps]
    words += [f"--workers={settings.workers}"] if settings.workers > 1 else []
    if settings.ignores:
        entries = Path(scratch, "ignores")
        entries.write_text("# known\n\n" + "\n".join(settings.ignores) + "\n", "utf-8")
        words.append(f"--ignore={entries}")
    return [*words, folder, *([] if settings.is_rooted() else [settings.base])]


def with_file(words: List[str], has_base: bool, scratch: str) -> List[str]:
    """The same arguments, with a configuration file that has BASE and the options that it may have."""
    line, lines = words[:1], []
    values: Dict[str, List[str]] = {}
    for word in words[1:]:
        name, mark, value = word[2:].partition("=")
        if not word.startswith("--") or name in LINE_ONLY:
            line.append(word)
        elif mark:
            values.setdefault(name, []).append(value)
        else:
            lines.append(f"{name} = true")
    values.update({"base": [line.pop()]} if has_base else {})
    lines += [f"{name} = {json.dumps(some if len(some) > 1 else some[0], ensure_ascii=False)}" for name, some in values.items()]
    file = Path(scratch, "check.toml")
    file.write_text("\n".join(lines) + "\n", "utf-8")
    return [*line, f"--config={file}"]


def run(program: str, words: List[str]) -> "subprocess.CompletedProcess[bytes]":
    """Runs the program. If it does not end within the time limit, the status is -1."""
    try:
        return subprocess.run([program, *words], capture_output=True, check=False, stdin=subprocess.DEVNULL, timeout=SECONDS)
    except subprocess.TimeoutExpired:
        return subprocess.CompletedProcess(words, -1, b"", f"it did not end within {SECONDS} s".encode())


def printed_rows(program: str, settings: Settings, folder: str, more: Sequence[str] = (), in_file: bool = False) -> List[Row]:
    """The rows that the program prints, or its error. Its exit status must be 4 if a link is broken or invalid or leaves or a document is not listed, and 0 if not."""
    with tempfile.TemporaryDirectory() as scratch:
        words = [*arguments(settings, folder, scratch), *more]
        done = run(program, with_file(words, not settings.is_rooted(), scratch) if in_file else words)
    return rows_of(done)


def rows_of(done: "subprocess.CompletedProcess[bytes]") -> List[Row]:
    """The rows that a check has printed, or its error."""
    if done.returncode == 1 and not done.stdout:
        return [{"kind": "error", "message": done.stderr.decode(errors="replace").splitlines()[-1]}]
    rows = [json.loads(line) for line in done.stdout.splitlines()]
    status = status_of(rows)
    if done.returncode != status or not rows:
        return [{"kind": "status", "actual": done.returncode, "expected": status, "message": done.stderr.decode(errors="replace")}]
    rows[0].pop("base", None)
    return rows


def status_of(rows: List[Row]) -> int:
    """The exit status of a check with these rows."""
    return 4 if any(row["kind"] in ("broken", "invalid", "leaving", "unlisted") for row in rows) else 0


def difference(actual: List[Row], expected: List[Row]) -> Optional[str]:
    """The first row in which the program's output differs from the model's."""
    for one, other in zip(actual, expected):
        if one != other:
            return f"\n  actual   {json.dumps(one)}\n  expected {json.dumps(other)}"
    if len(actual) != len(expected):
        more = [*actual, *expected][min(len(actual), len(expected))] if len(actual) > len(expected) else expected[len(actual)]
        return f"{len(actual)} rows, {len(expected)} expected; the first extra row is {json.dumps(more)}"
    return None


class Series:
    """Counts comparisons that passed and failed, and prints the first failures."""

    passed_in_all = failed_in_all = 0

    def __init__(self, name: str) -> None:
        self.name, self.passed, self.failed, self.skipped = name, 0, 0, 0

    def add(self, what: str, error: Optional[str], again: Sequence[str] = ()) -> None:
        """Counts one comparison. `again` are the options that make only this one."""
        if error is None:
            self.passed += 1
            return
        self.failed += 1
        if self.failed <= SHOWN:
            print(f"{self.name}, {what}: {error if len(error) < LONGEST else error[:LONGEST] + '..'}")
            if again:
                named = f"PROGRAM={shlex.quote(os.environ['PROGRAM'])} " if "PROGRAM" in os.environ else ""
                print(f"to run only this: {named}{shlex.join([sys.argv[0], *again])}")

    def end(self) -> None:
        """Prints the counts. A series in which nothing passed has failed."""
        if not self.passed:
            self.failed += not self.failed
        skipped = f", {self.skipped} skipped" if self.skipped else ""
        print(f"{self.name}: {self.passed} passed, {self.failed} failed{skipped}", flush=True)
        Series.passed_in_all += self.passed
        Series.failed_in_all += self.failed


def broken_links(rows: List[Row]) -> List[str]:
    """The broken, invalid and leaving links, in the form of known.py."""
    places = [row for row in rows if row["kind"] in ("place", "invalid_place", "leaving_place")]
    found = [f"{row['target']} {row['file']}:{row['line']}:{row['column']}" for row in places]
    placed = {row["target"] for row in places}
    return sorted(found + [row["target"] for row in rows if row["kind"] == "broken" and row["target"] not in placed])


def write_known(known: Union[Known, Fixed], top: Path) -> str:
    """Writes the files to a folder and returns its path."""
    top.mkdir()
    for name, content in known.files.items():
        path = top / name
        path.parent.mkdir(parents=True, exist_ok=True)
        if isinstance(content, To):
            path.symlink_to(content.path)
        elif isinstance(content, Zeros):
            path.write_bytes(b"")
            os.truncate(path, content.size)
        else:
            path.write_bytes(content if isinstance(content, bytes) else content.encode())
    return str(top)


def known_error(known: Known, rows: List[Row]) -> Optional[str]:
    """A result of the folder that these rows do not have."""
    if broken_links(rows) != sorted(known.broken):
        return f"{broken_links(rows)}, expected {sorted(known.broken)}"
    for members in known.rows:
        if not any(members.items() <= row.items() for row in rows):
            return f"no row has {members}; the first one is {rows[0]}"
    for kind in known.without:
        if any(row["kind"] == kind for row in rows):
            return f"a row has the kind {kind}"
    return None


Errors = List[Tuple[str, Optional[str]]]  # of each comparison what was compared, and the error if there is one


def known_errors(program: Optional[str], number: int) -> Errors:
    """Compares the model with the known results of a folder, and with the program, if there is one."""
    known = KNOWN[number]
    with tempfile.TemporaryDirectory() as scratch:
        folder = write_known(known, Path(scratch, "site"))
        settings = Settings(BASE)._replace(**dict(known.settings))
        settings = settings._replace(maps=tuple(Map(prefix, os.path.join(scratch, name)) for prefix, name in settings.maps))
        shown = settings if settings.front else settings._replace(front=BASE)
        errors = [(f"{known.name}, model", known_error(known, Model(folder, shown).rows()))]
        if program:
            errors.append((known.name, difference(printed_rows(program, settings, folder), Model(folder, settings).rows())))
        return errors


def fixed_errors(program: Optional[str], number: int) -> Errors:
    """Compares what the model's --fix does in a folder with the known results, and with the program, if there is one."""
    fixed = FIXED[number]
    with tempfile.TemporaryDirectory() as scratch:
        folder = write_known(fixed, Path(scratch, "site"))
        settings = Settings(BASE)._replace(**dict(fixed.settings))
        found = fixes.fixes_of(Model(folder, settings))
        actual = {os.fsdecode(change.name): change.new for change in found.changes}
        expected = {name: content if isinstance(content, bytes) else content.encode() for name, content in fixed.changed.items()}
        # Most known results do not say which link is the first that stays as it is.
        notes = [note if note in fixed.notes else note.partition(" (the first is at ")[0] for note in found.notes]
        error = f"{actual} {found.notes}, expected {expected} {fixed.notes}"
        errors: Errors = [(f"{fixed.name}, model", None if (actual, notes) == (expected, fixed.notes) else error)]
        if program:
            errors.append((fixed.name, fix_error(program, settings, folder)))
        return errors


def compare_known(program: Optional[str], jobs: int, name: Optional[str]) -> None:
    """Compares the folders with known results, or only the one with this name, with several processes."""
    series = Series("folders with known results")
    with ProcessPoolExecutor(jobs) as pool:
        for folders, compare in ((KNOWN, known_errors), (FIXED, fixed_errors)):
            numbers = [number for number, known in enumerate(folders) if name in (None, known.name)]
            for number, errors in zip(numbers, pool.map(partial(compare, program), numbers)):
                again = ["--part", "known", "--known", folders[number].name, *([] if program else ["--model"])]
                for what, error in errors:
                    series.add(what, error, again)
    series.end()


def kind_of(row: Row) -> str:
    """The kind of a row, as it is counted."""
    return str(row["kind"] + row.get("missing", "") + row.get("reason", ""))


def compare_folder(series: Series, program: str, folder: str, settings: Settings, again: Sequence[str]) -> Counter[str]:
    """Compares a folder, and returns the number of rows of each kind. `again` are the options that make only this comparison."""
    try:
        expected = Model(folder, settings).rows()
    except drawn.NotPlain:
        series.skipped += 1
        return Counter()
    series.add(f"{folder} {settings}", difference(printed_rows(program, settings, folder), expected), [*ONLY_FOLDERS, *again])
    return Counter(map(kind_of, expected))


def random_settings(draw: Random) -> Settings:
    """Random settings for a check. Without BASE, targets are paths."""
    base = draw.choice((BASE, BASE, BASE + "manual/", NOWHERE))
    front = base if base == NOWHERE else ""
    shown = base[len(front):]
    ignores = draw.choice([
        (), (), (shown + "gone", "../"), (shown + "a", "x", shown + "sub/#", BASE + "gone"), (shown + "*x", "*//*", "*.html*", shown + "s*b/"), ("*gone*", "*#*x*"),
        ("index.html: *", "sub/*: " + shown + "*", "*: " + shown + "gone", "x: y"), ("*a*: *#*", "*.html: ../", "*" + "index.html: htp*", shown + "a", "*: *: *"),
    ])
    seeds = draw.choice([
        (), (), (), ("sub/",), ("#x", "a.html?b", "gone/../b.html"), ("?", "index.html", "%61.html?x", "a?y"), ("./", "s%75b"),
        ("/a.html",) if front else (),
    ])
    flags: Dict[str, Any] = {flag.setting: flag.value(draw.random() < flag.share) for flag in FLAGS}
    host = drawing.random_host(draw)
    flags.update(host=host.name, exact=host.exact, fallback=host.fallback, indices=host.index_files or INDEX_FILES)
    flags["sitemap"] = flags["sitemap"] and base != NOWHERE
    return Settings(base, front, ignores, seeds=seeds, workers=draw.choice((1, 1, 2, 4, 64)))._replace(**flags)


class RandomFolder(NamedTuple):
    """A random folder, the settings of its check, and the options of its saved web."""

    folder: str
    settings: Settings
    options: List[str]


def draw_number(seed: int, number: int, above: str) -> RandomFolder:
    """Makes the random folder with this number."""
    draw = Random(f"{seed} {number}")
    folder = Path(above, "site")
    folder.mkdir()
    drawing.draw_folder(draw, drawing.Documents(draw.choice([0.1, 0.3, 0.6])), folder)
    settings = random_settings(draw)
    if draw.random() < 0.8:
        site = Site(str(folder), settings)
        found = [seed for seed in settings.seeds if site.response(site.start_of(seed))]
        settings = settings._replace(seeds=tuple(found))
    options = drawing.random_options(draw)
    maps = draw_maps(Random(f"maps {seed} {number}"), Path(above), settings.base)
    draw = Random(f"whole {seed} {number}")
    if draw.random() < 0.2:
        drawing.add_whole_links(draw, folder)
    draw = Random(f"misspelled {seed} {number}")
    if draw.random() < 0.2:
        drawing.add_misspelled_links(draw, folder)
    return RandomFolder(str(folder), settings._replace(maps=maps), options)


def draw_maps(draw: Random, above: Path, base: str) -> Tuple[Map, ...]:
    """Makes random folders for links that leave the site in `above`, and adds a document with links to their files. Some sites have none."""
    prefixes = drawing.random_prefixes(draw, base == NOWHERE) if base != BASE and draw.random() < 0.6 else []
    maps = []
    for number, prefix in enumerate(prefixes):
        folder = above / f"map{number}/site"
        folder.mkdir(parents=True)
        drawing.draw_folder(draw, drawing.Documents(0.1), folder)
        maps.append(Map(prefix, str(folder)))
    if maps:
        drawing.add_links_out(draw, above / "site", [(one.prefix, Path(one.folder)) for one in maps])
    return tuple(maps)


def draw_moved(seed: int, number: int, above: str) -> RandomFolder:
    """Makes the random folder with this number, and moves some of its files. Symbolic links out of it are not followed."""
    made = draw_number(seed, number, above)
    settings = made.settings._replace(follow=False, seeds=())
    root = "/" if settings.is_rooted() else settings.base[len(BASE) - 1:]
    drawing.move_files(Random(f"moves {seed} {number}"), Path(made.folder), root)
    return made._replace(settings=settings)


class Outcome(NamedTuple):
    """What was found in a random folder. Its report is None if it has a URL that the model does not support."""

    number: int
    errors: Errors
    kinds: Counter[str]
    is_skipped: bool


@lru_cache(maxsize=1)
def converter() -> Converter:
    """The converter of this process."""
    return Converter()


def web_error(program: str, folder: str, options: List[str]) -> Optional[str]:
    """An error in the saved web of a folder."""
    done = run(program, ["site", *options, folder, BASE])
    if done.returncode != 0:
        return f"exit status {done.returncode}: {done.stderr.decode(errors='replace')}"
    return first_difference(done.stdout, converter().web(folder, options, BASE))


def form_error(program: str, settings: Settings, folder: str, rows: List[Row]) -> Optional[str]:
    """An error in the other forms of the report of a folder: another output than these rows give, or a control character."""
    with tempfile.TemporaryDirectory() as scratch:
        for name, (form, error_of) in FORMS.items():
            done = run(program, arguments(settings, folder, scratch, form))
            allowed = "\n\t" if name.startswith("page") else "\n"
            error = forms.control_error(done.stdout, allowed) or forms.control_error(done.stderr) or error_of(done.stdout.decode(), rows, folder)
            if error:
                return f"{name}: {error}"
    return None


def text_error(options: printing.Options, actual: str, rows: List[Row], _: str) -> Optional[str]:
    """An error in the report as text."""
    return line_error(actual, printing.as_text(rows, options))


def annotation_error(actual: str, rows: List[Row], folder: str) -> Optional[str]:
    """An error in the report as annotations."""
    return line_error(actual, printing.as_annotations(rows, folder))


def line_error(actual: str, expected: str) -> Optional[str]:
    """The first line in which two texts differ."""
    for one, other in zip(actual.split("\n"), expected.split("\n")):
        if one != other:
            return f"\n  actual   {one}\n  expected {other}"
    return None if actual == expected else f"{len(actual)} characters, {len(expected)} expected"


SOURCES = "https://code.test/site/blob/main/"
# The forms of a report: its options, and what finds an error in it
FORMS: Dict[str, Tuple[Tuple[str, ...], Callable[[str, List[Row], str], Optional[str]]]] = {
    "text": ((), partial(text_error, printing.Options())),
    "all": (("--all-sources", "--format=text"), partial(text_error, printing.Options(all_sources=True))),
    "by target": (("--by-target",), partial(text_error, printing.Options(by_target=True))),
    "all by target": (("--by-target", "--all-sources"), partial(text_error, printing.Options(True, True))),
    "annotations": (("--annotations",), annotation_error),
    "page": (("--html",), forms.page_error),
    "JUnit": (("--format", "junit"), structures.junit_error),
    "SARIF": (("--format", "sarif"), structures.sarif_error),
    "SARIF with sources": (("--format", "sarif", "--source-url", SOURCES), partial(structures.sarif_error, sources=SOURCES)),
    "page with sources": (("--format", "html", "--source-url", SOURCES), partial(forms.page_error, sources=SOURCES)),
}


def list_error(program: str, draw: Random, folder: str, settings: Settings) -> Optional[str]:
    """An error in the check of a random list of a folder's pages."""
    with_base = settings._replace(base=BASE, front="", maps=()) if settings.is_rooted() else settings
    listed = archives.draw_list(draw, folder, with_base)
    expected = archives.expected_rows(folder, listed)
    with tempfile.TemporaryDirectory() as scratch:
        index = Path(scratch, "index.txt")
        index.write_bytes(listed.text)
        return difference(printed_rows(program, listed.settings, folder, ["--index", str(index)]), expected)


def snapshot(folder: str) -> Dict[str, Any]:
    """By path, the bytes and the mode of each file of a folder. Of symbolic links, devices and folders only that they are there."""
    found: Dict[str, Any] = {}
    for path in Path(folder).rglob("*"):
        status = path.lstat()
        is_read = stat.S_ISREG(status.st_mode) and status.st_size < 1 << 20
        found[os.path.relpath(path, folder)] = (path.read_bytes() if is_read else None, status.st_mode)
    return found


FIX_NOTE = re.compile(r"^mercator: (.*: (?:links left as they are: .*|links rewritten: [0-9]+|not rewritten, .*))$", re.M)


def fix_notes(done: "subprocess.CompletedProcess[bytes]") -> List[str]:
    """The notes of --fix on standard error."""
    return FIX_NOTE.findall(done.stderr.decode(errors="replace"))


def dry_error(program: str, words: List[str], expected: fixes.Fixes, folder: str) -> Optional[str]:
    """An error of --fix --dry-run: in its output, its status or its notes, or a change of the folder."""
    before = snapshot(folder)
    done = run(program, [*words, "--fix", "--dry-run"])
    diff = fixes.diff_of(expected.changes)
    if done.stdout != diff or done.returncode != (4 if diff else 0):
        return f"diff: status {done.returncode}, actual {done.stdout!r}, expected {diff!r}, {done.stderr!r}"
    if fix_notes(done) != expected.notes:
        return f"notes of --dry-run: actual {fix_notes(done)}, expected {expected.notes}"
    return None if snapshot(folder) == before else "--dry-run changed the folder"


def fix_error(program: str, settings: Settings, folder: str) -> Optional[str]:
    """An error of --fix, which changes the folder: other changes or notes than the model's, or another report than that of the changed folder."""
    model = Model(folder, settings)
    expected = fixes.fixes_of(model)
    with tempfile.TemporaryDirectory() as scratch:
        words = arguments(settings, folder, scratch)
        error = dry_error(program, words, expected, folder) if model.error is None else None
        if error:
            return error
        before = snapshot(folder)
        done = run(program, [*words, "--fix"])
        for change in expected.changes:
            name = os.fsdecode(change.name)
            before[name] = (change.new, before[name][1])
        after = snapshot(folder)
        others = sorted(name for name in {*before, *after} if before.get(name) != after.get(name))
        if others:
            return f"{others[0]}: actual {after.get(others[0])}, expected {before.get(others[0])}, {done.stderr!r}"
        notes = expected.notes + [f"{printing.shown(os.fsdecode(change.name))}: links rewritten: {change.links}" for change in expected.changes]
        if sorted(fix_notes(done)) != sorted(notes):
            return f"notes: actual {fix_notes(done)}, expected {notes}"
        changed = Model(folder, settings)
        error = difference(rows_of(done), changed.rows())
        return error or (dry_error(program, words, fixes.fixes_of(changed), folder) if changed.error is None else None)


def moved_error(program: str, seed: int, number: int, kinds: Counter[str]) -> Optional[str]:
    """An error of --fix in the random folder with this number, in which files were moved. Counts the links that are rewritten, and the notes."""
    with tempfile.TemporaryDirectory() as above:
        made = draw_moved(seed, number, above)
        model = Model(made.folder, made.settings)
        found = fixes.fixes_of(model)
        kinds.update(found.kinds)
        kinds["fix_left"] += sum(": links left" in note for note in found.notes)
        kinds["fix_link"] += sum("symbolic link" in note for note in found.notes)
        return fix_error(program, made.settings, made.folder)


def suggestion_kinds(target: str, page: str) -> Iterator[str]:
    """The kinds of a suggestion, by the missing page and the suggested one."""
    name, own = name_of(target), name_of(page)
    yield "suggestion" if name == own else "suggestion_in_other_case" if name.lower() == own.lower() else "suggestion_in_other_form"
    if page.endswith("/") and name.lower() == own.lower():
        yield "suggested_folder"


def details(row: Row) -> Iterator[str]:
    """What is counted of a row in addition to its kind."""
    if row["kind"] == "hint" and row["base"].startswith("http"):
        yield "hint_url"
    if row.get("hint"):
        yield HINT_KINDS.get(row["hint"]) or ("hint_fallback" if row["hint"].endswith(": --fallback html") else "hint_index_file")
    if row.get("same_name"):
        yield from suggestion_kinds(row["target"], row["same_name"])
    if "question" in row:
        yield "question"
    if row.get("written"):
        yield "written"
    form = form_of(os.fsencode(row["file"]), True) if row["kind"].endswith("place") else None
    if form in ("css", "xml", "feed", "list"):
        yield {"css": "in_sheets", "xml": "in_xml"}.get(form, "in_feeds")


def compare_number(program: str, seed: int, number: int) -> Outcome:
    """Compares the random folder with this number."""
    with tempfile.TemporaryDirectory() as above:
        folder, settings, options = draw_number(seed, number, above)
        errors: Errors = []
        try:
            errors.append((f"site {' '.join(options)}", web_error(program, folder, options)))
            model = Model(folder, settings)
            rows = model.rows()
            errors.append((f"check --index {settings}", list_error(program, Random(f"list {seed} {number}"), folder, settings)))
        except drawn.NotPlain:
            return Outcome(number, errors, Counter(), True)
        errors.append((f"check {settings}", difference(printed_rows(program, settings, folder), rows)))
        if number % EVERY == 0 and rows[0]["kind"] == "total":
            errors.append((f"forms {settings}", form_error(program, settings, folder, rows)))
        if number % EVERY == 1:
            errors.append((f"check --config {settings}", difference(printed_rows(program, settings, folder, in_file=True), rows)))
        kinds = Counter(map(kind_of, rows))
        if number % EVERY in (2, 6):
            try:
                errors.append((f"check --fix {settings}", moved_error(program, seed, number, kinds)))
            except drawn.NotPlain:
                kinds["fix_skipped"] += 1
        kinds["with_aliases"] += rows[0].get("aliases", 0) > 0
        kinds["mapped"] += sum(response is None and model.mapped.has(url) for url, response in model.others.items())
        kinds.update(kind for row in rows for kind in details(row))
        return Outcome(number, errors, kinds, False)


def compare_models(seed: int, number: int) -> Outcome:
    """Compares the pages that the model finds in the random folder with this number with those of the converter and a static server."""
    with tempfile.TemporaryDirectory() as above:
        folder, settings, _ = draw_number(seed, number, above)
        try:
            model = Model(folder, settings._replace(base=BASE, seeds=(), maps=()))
            served = Model(folder, SERVER)
        except drawn.NotPlain:
            return Outcome(number, [], Counter(), True)
        errors: Errors = [
            ("model", model_error(model, converter().web(folder, site_options(settings), BASE))),
            ("server", server_error(served, folder)),
            ("definitions of a server", twins.server_error(model)),
            ("definitions of feeds", feed_twins.feed_error(model.site)),
        ]
        return Outcome(number, errors, Counter(), False)


# The rules of Python's static server
SERVER = Settings(BASE, follow=True, indices=("index.html", "index.htm"))


def server_error(model: Model, folder: str) -> Optional[str]:
    """A URL for which Python's static server returns something else than the model."""
    with samples.server(folder, "/") as connection:
        for url, response in model.responses.items():
            if is_served(folder, url):
                connection.request("GET", url[len(BASE) - 1:])
                answer = connection.getresponse()
                answer.read()
                expected = 404 if response is None else 301 if isinstance(response, Moved) else 200
                if answer.status != expected:
                    return f"{url}: status {answer.status}, expected {expected}"
    return None


def is_served(folder: str, url: str) -> bool:
    """Whether the server and the model must agree on a URL.

    Its line and that of the file's own URL are short enough, the name is UTF-8, and it is a file, a folder or nothing. The server
    redirects a path that ends in `%2F`, or in dots after it, for which others, and the model, return the folder. It ignores each
    `..` of a path that leads above the folder, for which others, and the model, return nothing.
    """
    request = url[len(BASE):].partition("?")[0]
    name = unquote_to_bytes(request)
    path = os.path.join(os.fsencode(folder), name.lstrip(b"/"))
    is_known = os.path.isfile(path) or os.path.isdir(path) or not os.path.lexists(path)
    is_line = is_short("page", url) and is_short("page", BASE + quote(name))
    is_same = not leads_above(name) and not re.search(r"%2f(?:\.|%2e)*$", request, re.IGNORECASE)
    return is_known and is_line and TOOL.is_utf8(name) and is_same


def leads_above(path: bytes) -> bool:
    """Whether the names of a path lead above the folder in which it begins."""
    depth = 0
    for name in path.split(b"/"):
        depth += -1 if name == b".." else name not in (b"", b".")
        if depth < 0:
            return True
    return False


def keep(seed: int, number: int) -> str:
    """Makes a random folder that stays, and returns its path."""
    return draw_number(seed, number, tempfile.mkdtemp(prefix=f"check-{number}-")).folder


def compare_random(program: Optional[str], numbers: range, seed: int, jobs: int) -> None:
    """Compares random folders with several processes."""
    series = Series("random folders")
    kinds: Counter[str] = Counter()
    compare = partial(compare_number, program, seed) if program else partial(compare_models, seed)
    with ProcessPoolExecutor(jobs) as pool:
        for outcome in pool.map(compare, numbers, chunksize=8):
            kinds += outcome.kinds
            series.skipped += outcome.is_skipped
            for what, error in outcome.errors:
                kept = f", {keep(seed, outcome.number)}" if error and series.failed < SHOWN else ""
                again = ["--part", "random", "--seed", str(seed), "--first", str(outcome.number), "--drawn", "1"]
                series.add(f"number {outcome.number}, {what}{kept}", error, again if program else [*again, "--model"])
    if program:
        print("rows of random folders:", dict(sorted(kinds.items())))
    if program and len(numbers) >= 1000:
        rare = [kind for kind in KINDS if kinds[kind] < LEAST]
        series.add("kinds of rows", f"too few: {', '.join(rare)}" if rare else None)
        series.add("skipped reports", f"{series.skipped} of {len(numbers)}" if series.skipped > len(numbers) / 5 else None)
    series.end()


def compare_changed(program: str, count: int, seed: int) -> None:
    """Compares copies of the shipped site in which each document has one change."""
    series, draw = Series("changed folders"), Random(seed)
    kinds: Counter[str] = Counter()
    for number in range(count):
        with tempfile.TemporaryDirectory() as above:
            folder = Path(above, f"site{number}")
            drawing.change_folder(draw, loading.ROOT / "examples/site", folder)
            again = ["--seed", str(seed), "--changed", str(number + 1)]
            kinds += compare_folder(series, program, str(folder), Settings(BASE, unreached=True, external=True), again)
    print("rows of changed folders:", dict(kinds))
    series.end()


def compare_large(program: str, count: int) -> None:
    """Compares a folder with many pages."""
    series = Series("large folders")
    with tempfile.TemporaryDirectory() as folder:
        drawing.fill_large(Path(folder), count)
        print("rows of a large folder:", dict(compare_folder(series, program, folder, Settings(BASE), ["--changed", "0", "--large", str(count)])))
    series.end()


def compare_folders(program: str, folders: List[str]) -> None:
    """Compares existing folders."""
    series = Series("folders")
    for folder in folders:
        kinds = compare_folder(series, program, folder, Settings(BASE, unreached=True, external=True), ["--changed", "0", folder])
        print(f"{folder}: {dict(kinds)}")
    series.end()


def compare_forms(program: str, folder: str) -> None:
    """Compares the HTML page of a folder with its rows, and the text on a terminal with the text in a pipe."""
    series, settings = Series("forms"), Settings(BASE, unreached=True, external=True)
    with tempfile.TemporaryDirectory() as scratch:
        page = run(program, arguments(settings, folder, scratch, ("--html",))).stdout.decode()
    again = [*ONLY_FOLDERS, "--changed", "0", folder]
    series.add(f"page of {folder}", forms.page_error(page, Model(folder, settings).rows(), folder), again)
    series.add(f"colour of {folder}", forms.colour_error(program, folder), again)
    series.end()


def compare_tags(count: int, seed: int) -> None:
    """Compares the tags that the model reads in random documents with those of html5lib."""
    links = loading.script("html_links", "tests/html_links.py")
    from html5lib.constants import tokenTypes

    def theirs(text: str) -> List[Tuple[str, Dict[str, str]]]:
        starts = (token for token, _ in links.tokens_of(text) if token["type"] == tokenTypes["StartTag"])
        return [(token["name"], dict(token["data"])) for token in starts]

    series, draw = Series("tags of documents"), Random(seed)
    for number in range(count):
        text = links.random_document(draw, number % 2 == 1)
        tags = (tag for tag in document_tags(text) if not tag.is_end)
        ours = [(tag.name, {one.name: one.value for one in reversed(tag.attributes)}) for tag in tags]
        series.add(repr(text), None if ours == theirs(text) else f"model {ours}, expected {theirs(text)}")
    series.end()


def main() -> int:
    """Runs the comparisons."""
    parser = argparse.ArgumentParser(description=__doc__, formatter_class=argparse.RawDescriptionHelpFormatter)
    option = parser.add_argument
    option("folders", nargs="*", metavar="FOLDER", help="folder to compare")
    option("--drawn", type=int, default=1000, metavar="COUNT", help="number of random folders (default: 1000)")
    option("--part", action="append", choices=PARTS, help="make only these comparisons; repeatable")
    option("--known", metavar="NAME", help="compare only this folder with known results")
    option("--first", type=int, default=0, metavar="NUMBER", help="number of the first random folder (default: 0)")
    option("--changed", type=int, default=100, metavar="COUNT", help="number of changed copies of the shipped site (default: 100)")
    option("--large", type=int, default=0, metavar="PAGES", help="also compare a folder with this number of pages")
    option("--seed", type=int, default=1, help="seed of the random folders (default: 1)")
    option("--jobs", type=int, default=os.cpu_count() or 1, help="number of processes (default: that of the processors)")
    option(
        "--tags", type=int, default=0, metavar="COUNT",
        help="also compare the tags of this number of random documents with html5lib (Debian's python3-html5lib)",
    )
    option("--model", action="store_true", help="test only the model, without the program: with known results, the converter, and Python's static server")
    options = parser.parse_args()
    parts = options.part or PARTS
    program = None if options.model else loading.program()
    if "known" in parts:
        compare_known(program, options.jobs, options.known)
    if program and "folders" in parts:
        shipped = str(loading.ROOT / "examples/site")
        folders = options.folders or [folder for folder in loading.DOCUMENTATION if os.path.isdir(folder)]
        compare_folders(program, [shipped, *folders])
        compare_forms(program, shipped)
        if options.changed:
            compare_changed(program, options.changed, options.seed)
        if options.large:
            compare_large(program, options.large)
    if options.drawn and "random" in parts:
        compare_random(program, range(options.first, options.first + options.drawn), options.seed, options.jobs)
    if options.tags:
        compare_tags(options.tags, options.seed)
    print(f"{Series.passed_in_all} passed, {Series.failed_in_all} failed")
    return 1 if Series.failed_in_all else 0


if __name__ == "__main__":
    sys.exit(main())
