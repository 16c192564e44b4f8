#!/usr/bin/env python3
"""Compares checks and crawls of real sites with the independent model: real_sites.py [OPTION..] [NAME ..].

The sites are the shipped one, the documentation in Debian packages (tests/real_sites.txt), and small sites that are made by those
of five generators that are installed (tests/checking/generators.py). With a NAME, only the sites with this package or generator
are compared. A package is downloaded by `apt-get download` and unpacked into the cache, and not installed: together they have
250 MB, and 1.2 GB unpacked. A package that cannot be downloaded, and a generator that is not installed, is named and skipped.

Of each site, all rows of `mercator check --json` are compared with the model's, finding by finding. The documentation of a
package is checked without BASE. Then `mercator site` makes the site's saved web, and the report of `mercator crawl --sources` with
1 and with 4 workers is compared with that of the model's search.
The findings of a generated site must be the links of its sources that are broken or leave the site. It is also checked without
options, and with the only one that it needs, if it needs one: BASE or --fallback. If that is missing, the report must name it.

With --sample, random findings of each site are printed in a form that a person can judge: the text of the link, and notes such as
whether Python's static server has the target, and which files have a similar name. How many findings have each note is printed,
too. The environment variable PROGRAM names the program to test; the default is the one built in crates/mercator_cli. The last line
is `N passed, M failed`; the exit status is 1 if any failed.
"""

from __future__ import annotations

import argparse
import json
import os
import shutil
import subprocess
import sys
import tempfile
from collections import Counter
from concurrent.futures import ProcessPoolExecutor
from functools import partial
from pathlib import Path
from random import Random
from typing import Any, Dict, Iterator, List, NamedTuple, Optional

from check import arguments, site_options, status_of
from checking import generators, loading, samples
from checking.model import NOWHERE, Model, Moved, Response, Row, Settings
from checking.samples import Finding
from checking.sites import Site

BASE = "http://docs.test/"  # of the saved web of a site that is checked without BASE
SHOWN = 5  # the most differences of a site that are printed
SECONDS = 600  # the time limit of a command
# The folder of the packages.
CACHE = Path(os.environ.get("XDG_CACHE_HOME") or os.path.expanduser("~/.cache"), "mercator-real-sites")


class Options(NamedTuple):
    """What is done with each site."""

    program: str
    sample: int
    seed: int


class Outcome(NamedTuple):
    """The result of a site."""

    name: str
    text: str
    failed: bool


def packages(cache: Path, names: List[str]) -> Iterator[Site]:
    """The sites of the listed packages that are in the cache or can be downloaded."""
    for line in (loading.ROOT / "tests/real_sites.txt").read_text("utf-8").splitlines():
        package, *places = line.split()
        if package == "#" or (names and package not in names):
            continue
        folder, *starts = places
        error = fetch(cache, package)
        if error:
            print(f"{package}: skipped, {error}", flush=True)
            continue
        yield Site(package, str(cache / package / folder), NOWHERE, () if starts == ["./"] else tuple(starts))


def fetch(cache: Path, package: str) -> Optional[str]:
    """Downloads and unpacks a package, if it is not in the cache. Returns what went wrong."""
    if (cache / package).is_dir():
        return None
    if not shutil.which("apt-get") or not shutil.which("dpkg-deb"):
        return "no apt-get"
    with tempfile.TemporaryDirectory(dir=cache) as scratch:
        got = subprocess.run(["apt-get", "-q", "download", package], cwd=scratch, capture_output=True, check=False)
        files = list(Path(scratch).glob("*.deb"))
        if got.returncode or not files:
            lines = got.stderr.decode(errors="replace").splitlines()
            return lines[-1] if lines else "not downloaded"
        unpacked = Path(scratch, "unpacked")
        subprocess.run(["dpkg-deb", "-x", str(files[0]), str(unpacked)], check=True)
        unpacked.rename(cache / package)
    return None


def run(words: List[str], given: Optional[bytes] = None) -> "subprocess.CompletedProcess[bytes]":
    """Runs a command."""
    return subprocess.run(words, input=given or b"", capture_output=True, check=False, timeout=SECONDS)


def settings_of(site: Site) -> Settings:
    """The settings of a site's check."""
    front = site.base if site.base == NOWHERE else ""
    return Settings(site.base, front, unreached=True, external=True, seeds=site.starts, fallback=site.fallback)


def rows_of(program: str, site: Site) -> List[Row]:
    """The rows that the program prints for a site."""
    done = run([program, *arguments(settings_of(site), site.folder, "")])
    rows = [json.loads(line) for line in done.stdout.splitlines()]
    for row in rows[:1]:
        row.pop("base", None)  # the folder, which the model does not know
    status = status_of(rows)
    return rows if done.returncode == status else [{"kind": "status", "actual": done.returncode, "expected": status}, *rows]


def differences(actual: List[Any], expected: List[Any]) -> List[str]:
    """What only one of two lists has."""
    ours, theirs = (Counter(row if isinstance(row, str) else json.dumps(row, sort_keys=True) for row in rows) for rows in (actual, expected))
    found = [f"only the program: {row}" for row in ours - theirs] + [f"only the model:   {row}" for row in theirs - ours]
    return found or ([] if actual == expected else ["the same rows in another order"])


def line_of(model: Model, url: str, response: Response) -> str:
    """The line of a page in the report of a crawl."""
    if response is None:
        return f"missing {url}"
    if isinstance(response, Moved):
        return f"moved {url}"
    # An alias has one link, to the file's own URL
    links, skipped = (len(model.links[url]), model.skipped[url]) if url in model.links else (1, 0)
    return f"ok {links + skipped} {skipped} {url}"


def report_of(model: Model) -> List[str]:
    """The report of a crawl of the site's saved web, with the sources of missing pages."""
    linking = model.linking()
    responses = {**dict.fromkeys(linking), **model.responses}
    ordered = sorted(responses.items(), key=lambda page: page[0])
    report = [line_of(model, url, response) for url, response in ordered]
    counts = Counter(line.split(" ")[0] for line in report)
    moved = f" moved {counts['moved']}" if counts["moved"] else ""
    total = f"total {len(report)} ok {counts['ok']} missing {counts['missing']}{moved}"
    missing = [(url, linking.get(url, ())) for url, response in ordered if response is None]
    sources = [f"from {len(pages)} {min(pages, default='-')} {url}" for url, pages in missing]
    return [*report, total, *sources]


def crawl_differences(program: str, site: Site) -> List[str]:
    """How the crawls of a site's saved web from its starts differ from the model's search from these."""
    base = BASE if site.base == NOWHERE else site.base
    settings = settings_of(site)._replace(base=base, front="", reachable=True)
    web = run([program, "site", *site_options(settings), site.folder, base])
    if web.returncode:
        return [f"site: exit status {web.returncode}, {web.stderr.decode(errors='replace')}"]
    expected, found = report_of(Model(site.folder, settings)), []
    for workers in ("1", "4"):
        words = [program, "crawl", "--sources", "--workers", workers, "-", *(base + start for start in site.starts or ("",))]
        actual = run(words, web.stdout).stdout.decode().splitlines()
        found += [f"crawl with {workers} workers: {one}" for one in differences(actual, expected)]
    return found


def findings_of(rows: List[Row], base: str) -> List[Finding]:
    """The broken, invalid and leaving links of a site."""
    return [finding_of(row, base) for row in rows if row["kind"] in ("place", "invalid_place", "leaving_place")]


def finding_of(row: Row, base: str) -> Finding:
    """The finding of a location. The target of a broken link has no base."""
    target = row["target"][len(base):] if row["kind"] == "place" and base != NOWHERE else row["target"]
    return Finding(row["file"], row["line"], row["column"], target, row.get("missing", ""), row.get("reason", ""))


def planted_error(site: Site, findings: List[Finding]) -> List[str]:
    """How the findings of a generated site differ from the links of its sources that are broken or leave the site."""
    if site.broken is None:
        return []
    targets = {finding.target for finding in findings}
    known = site.broken | site.leaving
    extra, lacking = sorted(targets - known), sorted(known - targets)
    return [f"not in the sources: {target}" for target in extra] + [f"not found: {target}" for target in lacking]


def option_of(site: Site) -> str:
    """The option without which the findings of a generated site are not right, or no text if there is none."""
    if site.fallback:
        return "--fallback html"
    return "" if site.base == generators.BASE else "BASE"


def is_named(option: str, site: Site, rows: List[Row]) -> bool:
    """Whether the report of a check names an option that the site needs."""
    if option == "BASE":
        names = (site.base, "/" + site.base[len(generators.BASE):])
        return any(row["kind"] == "hint" and row["base"] in names for row in rows)
    return any(option in (row.get("hint") or "") for row in rows)


def option_differences(program: str, site: Site) -> List[str]:
    """How checks of a generated site without options, and with only the option that it needs, differ from what they should report."""
    if site.broken is None:
        return []
    plain, option = site._replace(base=NOWHERE, leaving=frozenset(), fallback=False), option_of(site)
    rows = rows_of(program, plain)
    found = differences(rows, Model(site.folder, settings_of(plain)).rows())
    if not option:
        found += planted_error(plain, findings_of(rows, NOWHERE))
    elif not is_named(option, site, rows):
        found.append(f"{option} is not named")
    found = [f"without options: {one}" for one in found]
    if site.fallback:
        only = plain._replace(fallback=True)
        found += [f"with {option} only: {one}" for one in planted_error(only, findings_of(rows_of(program, only), NOWHERE))]
    return found


def sampled(site: Site, findings: List[Finding], options: Options) -> List[str]:
    """How many findings have each note, and random findings in a form that a person can judge."""
    prefix = "/" if site.base == NOWHERE else "/" + site.base.split("/", 3)[3]
    chosen = sorted(Random(f"{options.seed} {site.name}").sample(findings, min(options.sample, len(findings))))
    with samples.server(site.folder, prefix) as connection:
        folder = samples.Folder(site.folder, prefix, connection)
        kinds: Counter[str] = Counter()
        for finding in findings:
            kinds[", ".join(note.partition(":")[0] for note in folder.notes(finding))] += 1
        counts = [f"  {count} {note}" for note, count in kinds.most_common()]
        return counts + [f"{number}. {samples.shown(folder, finding)}" for number, finding in enumerate(chosen, 1)]


def compare(options: Options, site: Site) -> Outcome:
    """Compares a site."""
    rows, expected = rows_of(options.program, site), Model(site.folder, settings_of(site)).rows()
    findings = findings_of(rows, site.base)
    errors = differences(rows, expected) + planted_error(site, findings) + option_differences(options.program, site)
    errors += crawl_differences(options.program, site)
    total: Dict[str, int] = rows[0]
    counts = ", ".join(f"{total.get(name)} {name}" for name in ("pages", "links", "missing_pages", "missing_anchors", "invalid", "leaving"))
    text = [f"{site.name}: {counts}, {len(findings)} findings, {len(errors)} differences"]
    text += errors[:SHOWN] + (sampled(site, findings, options) if options.sample else [])
    return Outcome(site.name, "\n".join(text), bool(errors))


def sites(cache: Path, names: List[str], scratch: str) -> Iterator[Site]:
    """All sites with these names."""
    if not names or "shipped" in names:
        yield Site("shipped", str(loading.ROOT / "examples/site"), "http://site.test/", ())
    yield from packages(cache, names)
    yield from generators.sites(Path(scratch), names)


def main() -> int:
    """Runs the comparisons."""
    parser = argparse.ArgumentParser(description=__doc__, formatter_class=argparse.RawDescriptionHelpFormatter)
    option = parser.add_argument
    option("names", nargs="*", metavar="NAME", help="package, generator, or `shipped`")
    option("--cache", type=Path, default=CACHE, metavar="FOLDER", help=f"folder of the packages (default: {CACHE})")
    option("--sample", type=int, default=0, metavar="COUNT", help="number of random findings of each site that are printed (default: 0)")
    option("--seed", type=int, default=1, help="seed of the sample (default: 1)")
    option("--jobs", type=int, default=os.cpu_count() or 1, help="number of processes (default: that of the processors)")
    options = parser.parse_args()
    options.cache.mkdir(parents=True, exist_ok=True)
    passed = failed = 0
    with tempfile.TemporaryDirectory() as scratch, ProcessPoolExecutor(options.jobs) as pool:
        task = partial(compare, Options(loading.program(), options.sample, options.seed))
        for outcome in pool.map(task, sites(options.cache.resolve(), options.names, scratch)):
            print(outcome.text, flush=True)
            passed, failed = passed + (not outcome.failed), failed + outcome.failed
    print(f"{passed} passed, {failed} failed")
    return 1 if failed or not passed else 0


if __name__ == "__main__":
    sys.exit(main())
