#!/usr/bin/env python3
"""Test `tools/list_folder.py`: the site list that it makes of a folder with names that are not UTF-8,
and what `mercator check --index` finds with it. The program is the one that MERCATOR names, or else
the built one; without it, the test that needs it is skipped.

The last line is `N passed, M failed`; the exit status is 1 if a test failed.
"""

from __future__ import annotations

import os
import subprocess
import sys
import tempfile
from pathlib import Path
from typing import Callable, Dict, List

ROOT = Path(__file__).resolve().parent.parent
TOOL = ROOT / "tools" / "list_folder.py"
PROGRAM = Path(os.environ.get("MERCATOR", ROOT / "crates/mercator_cli/out/mercator_cli"))
BASE = "http://a.test/s/"

# The files of a site with names in Latin-1. `caf%C3%A9.html`, the name in UTF-8, is not among them.
SITE: Dict[bytes, bytes] = {
    b"index.html": b'<a href="caf%E9.html">\n<a href="n%FA/">\n<a href="caf%C3%A9.html">',
    b"caf\xe9.html": b'<a href="gone%E9.html">',
    b"caf%E9.html": b"<p id=escaped>",
    b"n\xfa/index.htm": b'<a href="../caf%25E9.html#escaped"><link rel=stylesheet href="x%0Ay.css">',
    b"n\xfa/x\ny.css": b"a { background: url(none.png) }",
    b"t\xc3\xa9.txt": b"text",
}


def make_site(folder: Path) -> None:
    """Write the files of the site."""
    for name, body in SITE.items():
        path = os.path.join(os.fsencode(folder), name)
        os.makedirs(os.path.dirname(path), exist_ok=True)
        with open(path, "wb") as file:
            file.write(body)
    os.symlink("/", folder / "root")
    os.symlink("/etc/passwd", folder / "passwd")


def run(*words: object) -> subprocess.CompletedProcess[str]:
    """Run the script."""
    return subprocess.run([sys.executable, str(TOOL), *map(str, words)], stdout=subprocess.PIPE, stderr=subprocess.PIPE, text=True, check=False)


def expect(what: str, expected: object, found: object) -> None:
    """Fail if these differ."""
    if expected != found:
        raise AssertionError(f"{what}: expected {expected!r}, found {found!r}")


def made(folder: Path) -> Path:
    """Make the list of the site, and return the folder that the script made."""
    make_site(folder / "site")
    done = run(folder / "site", folder / "out", BASE)
    expect("status", 0, done.returncode)
    notes = [
        "list_folder.py: left out 1: a symbolic link out of the folder",
        "list_folder.py: left out 1: not a file, or a symbolic link to a folder or to nothing",
    ]
    expect("notes", notes, done.stderr.splitlines())
    return folder / "out"


def lists_every_file(folder: Path) -> None:
    """Each file has a line, a folder with an index file is a page, and names that are not UTF-8 are escaped."""
    lines = [
        "http://a.test/s/caf%25E9.html text/html caf%E9.html",
        "http://a.test/s/caf%E9.html text/html caf%E9.html_",
        "http://a.test/s/index.html text/html index.html",
        "http://a.test/s/ text/html index.html",
        "http://a.test/s/n%FA/index.htm text/html n%FA/index.htm",
        "http://a.test/s/n%FA/ text/html n%FA/index.htm",
        "http://a.test/s/n%FA redirect http://a.test/s/n%FA/",
        "http://a.test/s/n%FA/x%0Ay.css text/css n%FA/x%0Ay.css",
        "http://a.test/s/t%C3%A9.txt text/plain té.txt",
    ]
    expect("lines", lines, (made(folder) / "index.txt").read_text(encoding="utf-8").splitlines())


def links_to_the_files(folder: Path) -> None:
    """Each name in the list leads to the bytes of its file."""
    out = made(folder)
    files: List[bytes] = []
    for line in (out / "index.txt").read_text(encoding="utf-8").splitlines():
        _, kind, name = line.split(" ", 2)
        if kind != "redirect":
            files.append((out / "files" / name).read_bytes())
    expect("files", sorted(SITE.values()), sorted(set(files)))


def checks_the_site(folder: Path) -> None:
    """The files are found by their escapes. The three broken links have locations."""
    out = made(folder)
    words = [str(PROGRAM), "check", "--index", str(out / "index.txt"), str(out / "files"), BASE]
    done = subprocess.run(words, stdout=subprocess.PIPE, stderr=subprocess.PIPE, text=True, check=False)
    expect("status", 4, done.returncode)
    rows = [line for line in done.stdout.splitlines() if ": no such " in line]
    starts = ["caf%E9.html_:1:10: ", "index.html:3:10: ", "n%FA/x%0Ay.css:1:21: "]
    expect("locations", starts, [row[: row.index(" ") + 1] for row in rows])


def keeps_what_is_there(folder: Path) -> None:
    """OUT must not exist, and a folder that cannot be read is an error."""
    (folder / "out").mkdir()
    done = run(folder, folder / "out", BASE)
    expect("status", 3, done.returncode)
    expect("message", f"list_folder.py: {folder / 'out'} exists\n", done.stderr)
    done = run(folder / "none", folder / "new", BASE)
    expect("status", 1, done.returncode)
    expect("folder", False, (folder / "new").exists())


def main() -> int:
    tests: List[Callable[[Path], None]] = [lists_every_file, links_to_the_files, keeps_what_is_there]
    if PROGRAM.exists():
        tests.append(checks_the_site)
    failed = 0
    for test in tests:
        with tempfile.TemporaryDirectory() as folder:
            try:
                test(Path(folder))
            except AssertionError as error:
                failed += 1
                print(f"{test.__name__}: {error}")
    print(f"{len(tests) - failed} passed, {failed} failed")
    return 1 if failed else 0


if __name__ == "__main__":
    sys.exit(main())
