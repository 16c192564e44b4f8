#!/usr/bin/env python3
"""Tests a page of `mercator check --html` in headless Chromium (Debian's chromium): check_page.py [PAGE.html | FOLDER] [--shots FOLDER].

PAGE is a report. For a FOLDER, by default the shipped site, the program makes the report with --unreached, --external and
--source-url. The environment variable PROGRAM names the program; the default is the one built in crates/mercator_cli.

The script searches the page, changes its views and narrows the window, and prints the time of each step. With --shots it saves
screenshots. The exit status is 1 if
- the console is not empty, or the page's script does not run,
- Chromium reads other text in the plain lists than Python's html.parser,
- a search shows other rows than the lists have, or the groups of targets that are alike have other numbers of targets and links,
- the bars do not match the list of external hosts,
- the locations in the table are not the links to the sources that the list of broken links has,
- the page has an unexpected element, or a link that is neither http nor a fragment,
- the page is wider than a narrow screen.
"""

from __future__ import annotations

import argparse
import base64
import json
import os
import subprocess
import sys
import tempfile
import time
from collections import Counter
from pathlib import Path
from typing import Any, Dict, List, Optional

from checking import loading
from checking.forms import Lines

STEP = 200  # the number of rows that the page adds at a time
BUILT = loading.ROOT / "crates/mercator_cli/out/mercator_cli"
CHROMIUM = "exec chromium --headless=new --no-sandbox --disable-gpu --remote-debugging-pipe --user-data-dir={} 3<&{} 4>&{}"
SAID = ("Runtime.consoleAPICalled", "Runtime.exceptionThrown", "Log.entryAdded")
LISTS = (
    "Object.fromEntries([...document.querySelectorAll('section')]"
    ".map((part) => [part.id, '\\n' + part.querySelector('pre').textContent]))"
)
DRAWN = "[document.querySelectorAll('#broken tbody tr').length, document.getElementById('said').textContent].join(' rows; ')"
FOUND = "document.getElementById('said').textContent"
HOSTS = (
    "Object.fromEntries([...document.querySelectorAll('#external tbody tr')]"
    ".map((row) => [row.querySelector('th').textContent, +row.querySelector('td').textContent]))"
)
ROWS = (
    "[...document.querySelectorAll('#broken tbody tr')]"
    ".map((row) => [row.querySelector('th').firstChild.textContent, row.querySelector('.aside').textContent, +row.querySelector('.n').textContent])"
)
WIDTHS = "[...document.querySelectorAll('#external .bar')].map((bar) => bar.style.width)"
FOREIGN = (
    "[...document.querySelectorAll('body *')].filter((e) => !e.closest('form, header, footer, table')"
    " && !/^(A|MAIN|SECTION|H2|P|PRE|B|BUTTON)$/.test(e.tagName)).length"
)
SOURCES = "[...document.querySelectorAll('#broken tbody td a')].map((link) => link.getAttribute('href'))"
LINKS = "[...document.querySelectorAll('[href]')].every((e) => /^(https?:|#)/.test(e.getAttribute('href')))"
CHANGE = (
    "(() => {{ const begin = performance.now(), field = document.getElementById('{0}'); field.value = {1};"
    " field.dispatchEvent(new Event('input', {{ bubbles: true }})); document.body.offsetHeight; return performance.now() - begin; }})()"
)


class Browser:
    """Chromium over the pipes 3 and 4: messages of JSON that end in NUL."""

    def __init__(self) -> None:
        given, self.out = os.pipe()
        self.back, taken = os.pipe()
        self.profile = tempfile.TemporaryDirectory()
        words = ["bash", "-c", CHROMIUM.format(self.profile.name, given, taken)]
        self.process = subprocess.Popen(words, pass_fds=(given, taken), stderr=subprocess.DEVNULL)
        os.close(given)
        os.close(taken)
        self.number, self.rest, self.session = 0, b"", ""
        self.events: List[Dict[str, Any]] = []

    def read(self) -> Dict[str, Any]:
        """Returns the next message."""
        while b"\0" not in self.rest:
            more = os.read(self.back, 1 << 20)
            if not more:
                sys.exit("chromium exited")
            self.rest += more
        one, self.rest = self.rest.split(b"\0", 1)
        message: Dict[str, Any] = json.loads(one)
        return message

    def call(self, method: str, **parameters: Any) -> Dict[str, Any]:
        """Calls a method and returns its result."""
        self.number += 1
        message = {"id": self.number, "method": method, "params": parameters}
        message.update({"sessionId": self.session} if self.session else {})
        os.write(self.out, json.dumps(message).encode() + b"\0")
        while True:
            got = self.read()
            if got.get("id") == self.number:
                if "error" in got:
                    sys.exit(f"{method}: {got['error']}")
                result: Dict[str, Any] = got["result"]
                return result
            self.events.append(got)

    def open(self, page: str) -> float:
        """Opens a page and returns the seconds that it took."""
        target = self.call("Target.createTarget", url="about:blank")["targetId"]
        self.session = self.call("Target.attachToTarget", targetId=target, flatten=True)["sessionId"]
        for domain in ("Page", "Runtime", "Log"):
            self.call(f"{domain}.enable")
        self.size(1200, 900, False)
        begin = time.time()
        self.call("Page.navigate", url=Path(page).resolve().as_uri())
        while not any(event["method"] == "Page.loadEventFired" for event in self.events):
            self.events.append(self.read())
        return time.time() - begin

    def size(self, width: int, height: int, mobile: bool) -> None:
        """Sets the size of the screen."""
        self.call("Emulation.setDeviceMetricsOverride", width=width, height=height, deviceScaleFactor=1, mobile=mobile)

    def ask(self, code: str) -> Any:
        """Returns the value of an expression in the page."""
        answer = self.call("Runtime.evaluate", expression=code, returnByValue=True, awaitPromise=True)
        return answer["result"].get("value")

    def change(self, field: str, value: str) -> float:
        """Sets a field of the search form and returns the milliseconds that it took."""
        took: float = self.ask(CHANGE.format(field, json.dumps(value)))
        return took

    def close(self) -> None:
        """Closes the browser."""
        self.session = ""
        self.call("Browser.close")
        self.process.wait()
        self.profile.cleanup()


class Errors:
    """Counts and prints the errors of a page."""

    def __init__(self) -> None:
        self.count = 0

    def expect(self, what: str, given: object, wanted: object) -> None:
        """Prints an error if two values differ."""
        if given != wanted:
            self.count += 1
            print(f"ERROR: {what}: actual {str(given)[:500]}, expected {str(wanted)[:500]}")


def hosts_of(text: str) -> Dict[str, int]:
    """Returns the number of links to each host in a list of URLs."""
    hosts: Counter[str] = Counter()
    for line in text.split("\n"):
        url, tab, links = line.partition("\t")
        if tab:
            hosts[url.split("/")[2]] += int(links)
    return dict(hosts)


def targets_of(text: str) -> List[str]:
    """Returns the text of each target in the list of broken links, with its locations, in which a search looks."""
    targets: List[str] = []
    for line in text.split("\n"):
        if line.startswith("\t"):
            targets[-1] += "\n" + line[1:]
        elif line:
            targets.append(line.replace("\t", "\n"))
    return [target.lower() for target in targets]


def folder_of(target: str) -> str:
    """Returns what targets that are alike share: the page of an anchor, or the text up to the last slash."""
    page, mark, _ = target.partition("#")
    return page if mark else target[:target.rfind("/") + 1] or "./"


def folders_of(text: str) -> List[List[object]]:
    """Returns the groups of targets that are alike, in the order of the list of broken links: the name, the number of targets and the number of links."""
    targets: Dict[str, int] = {}
    links: Dict[str, int] = {}
    folder = ""
    for line in text.split("\n"):
        if line.startswith("\t"):
            links[folder] += 1
        elif line:
            folder = folder_of(line.split("\t")[0])
            targets[folder] = targets.get(folder, 0) + 1
            links.setdefault(folder, 0)
    return [[name, f"{count} target{'' if count == 1 else 's'}", links[name]] for name, count in targets.items()]


def look_at_lists(browser: Browser, page: str, errors: Errors) -> Lines:
    """Compares the plain lists with the text that Python reads in the page, and the bars with the list of external links."""
    read = Lines()
    read.feed(Path(page).read_text("utf-8"))
    errors.expect("plain lists", browser.ask(LISTS), read.texts)
    hosts = hosts_of(read.texts.get("external", ""))
    errors.expect("hosts", browser.ask(HOSTS), hosts)
    widths = [f"{100 * links / max(hosts.values()):.2f}" for links in sorted(hosts.values(), reverse=True)]
    errors.expect("bars", [f"{float(width[:-1]):.2f}" for width in browser.ask(WIDTHS)], widths)
    return read


def search(browser: Browser, read: Lines, errors: Errors) -> None:
    """Searches the list of broken links, and shows it in each view and order."""
    targets = targets_of(read.texts["broken"])
    counted = f"{len(targets)} target{'' if len(targets) == 1 else 's'}"
    print("by target:", browser.ask(DRAWN))
    for words in ["html", targets[0].split("\n")[0], "no such anchor", "\u2400nowhere"]:
        took = browser.change("q", words)
        found = sum(all(word in target for word in words.lower().split()) for target in targets)
        errors.expect(f"search for {words!r}", browser.ask(FOUND), f"{found} of {counted}")
        print(f"search for {words!r}: {browser.ask(DRAWN)}; {took:.0f} ms")
    browser.change("q", "")
    took = browser.change("by", "folder")
    folders = folders_of(read.texts["broken"])
    print(f"by=folder: {browser.ask(DRAWN)}; {took:.0f} ms")
    errors.expect("groups of targets", browser.ask(ROWS), folders[:STEP])
    errors.expect("number of groups", browser.ask(FOUND), f"{len(folders)} of {len(folders)} folder{'' if len(folders) == 1 else 's'}")
    for field, value in [("by", "file"), ("order", "most"), ("by", "folder"), ("by", "target")]:
        took = browser.change(field, value)
        print(f"{field}={value}: {browser.ask(DRAWN)}; {took:.0f} ms")
        shown = browser.ask(SOURCES)
        errors.expect("links to sources", bool(shown), bool(read.links))
        errors.expect("links to other sources than in the list", Counter(shown) - Counter(read.links), Counter())
    errors.expect("all targets again", browser.ask(FOUND), f"{len(targets)} of {counted}")


def look(page: str, shots: Optional[str]) -> int:
    """Tests a page and returns the number of errors."""
    browser, errors = Browser(), Errors()

    def shot(name: str) -> None:
        if shots:
            data = browser.call("Page.captureScreenshot")["data"]
            Path(shots, name + ".png").write_bytes(base64.b64decode(data))

    print(f"loaded after {browser.open(page):.2f} s; {browser.ask('document.title')!r}")
    errors.expect("the script ran", browser.ask("document.documentElement.className"), "js")
    read = look_at_lists(browser, page, errors)
    shot("light")
    if "broken" in read.texts:
        search(browser, read, errors)
    browser.call("Emulation.setEmulatedMedia", features=[{"name": "prefers-color-scheme", "value": "dark"}])
    shot("dark")
    browser.size(360, 700, True)
    errors.expect("wider than a narrow screen", browser.ask("document.documentElement.scrollWidth > innerWidth"), False)
    shot("narrow")
    errors.expect("foreign elements", browser.ask(FOREIGN), 0)
    errors.expect("links are http or fragments", browser.ask(LINKS), True)
    errors.expect("console", [event["params"] for event in browser.events if event["method"] in SAID], [])
    browser.close()
    return errors.count


def made_of(folder: str, page: str) -> None:
    """Makes the report of a folder."""
    call = os.environ.get("PROGRAM", str(BUILT))
    words = [call, "check", "--html", "--unreached", "--external", "--source-url", "https://code.test/", folder, "http://docs.test/"]
    with open(page, "wb") as file:
        status = subprocess.run(words, stdout=file, stderr=subprocess.DEVNULL, check=False).returncode
    if status not in (0, 4):
        sys.exit(f"{call}: exit status {status}")


def main() -> int:
    """Tests the page that the command line names."""
    words = argparse.ArgumentParser(description=__doc__, formatter_class=argparse.RawDescriptionHelpFormatter)
    words.add_argument(
        "page", nargs="?", default=str(loading.ROOT / "examples/site"), metavar="PAGE|FOLDER", help="report, or folder to check"
    )
    words.add_argument("--shots", metavar="FOLDER", help="save screenshots in this folder")
    given = words.parse_args()
    with tempfile.TemporaryDirectory() as scratch:
        page = given.page
        if os.path.isdir(page):
            page = os.path.join(scratch, "page.html")
            made_of(given.page, page)
        count = look(page, given.shots)
    print(f"{count} errors")
    return 1 if count else 0


if __name__ == "__main__":
    sys.exit(main())
