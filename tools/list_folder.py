#!/usr/bin/env python3
"""Make a site list of a folder, with the files whose names are not UTF-8.

  list_folder.py FOLDER OUT BASE
  mercator check --index OUT/index.txt OUT/files BASE

`mercator check FOLDER BASE` skips a file or folder whose name is not UTF-8, such as `caf\\xe9.html`
with one byte for the last letter. On the web, such a file has the URL `caf%E9.html`. In the site
list that this script makes, it has that URL, too.

OUT must not exist. `OUT/files` has a symbolic link to each file of FOLDER, in the same folders. Its
name is that of the file, but one that is not UTF-8, or has control characters, is written with
percent-escapes. `OUT/index.txt` is the site list. In it, each folder with an index file is a page,
and the folder's URL without its slash redirects to it. The index files are `index.html`,
`index.htm` and `index.xhtml`.

Symbolic links to folders are not followed. A symbolic link that leads out of FOLDER or to nothing is
left out, and so is a file whose line has more than 4,096 bytes, because mercator does not read such
a line. What is left out is counted on standard error. The script needs only the standard library.

Exit status: 0 the list was made; 1 a file or folder cannot be read or written: then OUT does not
exist; 3 bad command line.
"""

from __future__ import annotations

import argparse
import mimetypes
import os
import shutil
import sys
from collections import Counter
from typing import Iterator, List, NamedTuple, NoReturn, Set, Tuple
from urllib.parse import quote_from_bytes

LINE_LIMIT = 4096  # most bytes of a line of the list
INDEX_FILES = (b"index.html", b"index.htm", b"index.xhtml")
# Types by suffix that `mimetypes` lacks on some systems.
TYPES = {".xhtml": "application/xhtml+xml", ".xht": "application/xhtml+xml", ".svg": "image/svg+xml"}
# The bytes of a name that need no escape in a URL.
PLAIN = "!$&'()*+,;=:@-._~"


class Entry(NamedTuple):
    """A file: its path, its path in the URL and its path in OUT/files."""

    path: bytes
    url: str
    name: str


def plain_name(name: bytes, taken: Set[str]) -> str:
    """Return the name as text: escaped if it is not UTF-8 or has control characters."""
    try:
        text = name.decode()
    except UnicodeDecodeError:
        text = ""
    if not text.isprintable() or not text:
        text = quote_from_bytes(name, safe=PLAIN)
        while text in taken:
            text += "_"
    return text


def names_of(folder: bytes) -> List[Tuple[bytes, str]]:
    """Return the names in the folder, in byte order, each with its name in OUT/files."""
    names = sorted(os.listdir(folder))
    taken = {name.decode(errors="replace") for name in names}
    return [(name, plain_name(name, taken)) for name in names]


def files_of(top: bytes, folder: bytes, url: str, to: str, left: Counter[str]) -> Iterator[Entry]:
    """List the files of a folder and of the folders in it."""
    for name, plain in names_of(folder):
        path = os.path.join(folder, name)
        part = quote_from_bytes(name, safe=PLAIN)
        if os.path.isdir(path) and not os.path.islink(path):
            yield from files_of(top, path, url + part + "/", to + plain + "/", left)
        elif not os.path.isfile(path):
            left["not a file, or a symbolic link to a folder or to nothing"] += 1
        elif not os.path.realpath(path).startswith(top):
            left["a symbolic link out of the folder"] += 1
        else:
            yield Entry(path, url + part, to + plain)


def type_of(path: bytes) -> str:
    """Return the media type of a file by its suffix: `-` if it has none."""
    suffix = os.path.splitext(path)[1].decode(errors="replace").lower()
    if not suffix:
        return "-"
    return TYPES.get(suffix) or mimetypes.types_map.get(suffix) or "application/octet-stream"


def lines_of(base: str, entries: List[Entry]) -> Iterator[str]:
    """Write the lines of the site list."""
    paths = {entry.path for entry in entries}
    for entry in entries:
        file = f"{type_of(entry.path)} {entry.name}"
        yield f"{base}{entry.url} {file}"
        folder = os.path.dirname(entry.path)
        indices = [os.path.join(folder, name) for name in INDEX_FILES]
        if entry.path == next((path for path in indices if path in paths), None):
            url = base + entry.url[: entry.url.rfind("/") + 1]
            yield f"{url} {file}"
            if url != base:
                yield f"{url[:-1]} redirect {url}"


def make(folder: bytes, out: str, base: str) -> Counter[str]:
    """Make OUT, and return what was left out, with its reason."""
    left: Counter[str] = Counter()
    top = os.path.join(os.path.realpath(folder), b"")
    entries = list(files_of(top, top, "", "", left))
    os.makedirs(os.path.join(out, "files"))
    for entry in entries:
        link = os.path.join(out, "files", entry.name)
        os.makedirs(os.path.dirname(link), exist_ok=True)
        os.symlink(entry.path, os.fsencode(link))
    with open(os.path.join(out, "index.txt"), "w", encoding="utf-8") as file:
        for line in lines_of(base, entries):
            if len(line.encode()) > LINE_LIMIT:
                left["a line that is too long"] += 1
            else:
                file.write(line + "\n")
    return left


class Parser(argparse.ArgumentParser):
    """A parser that ends with status 3."""

    def error(self, message: str) -> NoReturn:
        self.exit(3, f"list_folder.py: {message}\n")


def main() -> int:
    parser = Parser(description=__doc__, formatter_class=argparse.RawDescriptionHelpFormatter)
    parser.add_argument("folder", metavar="FOLDER", help="the folder of the site")
    parser.add_argument("out", metavar="OUT", help="the folder that is made")
    parser.add_argument("base", metavar="BASE", help="the URL of the site, such as https://example.org/docs/")
    words = parser.parse_args()
    if os.path.lexists(words.out):
        parser.error(f"{words.out} exists")
    base = words.base if words.base.endswith("/") else words.base + "/"
    try:
        left = make(os.fsencode(words.folder), words.out, base)
    except OSError as error:
        shutil.rmtree(words.out, ignore_errors=True)
        print(f"list_folder.py: {error}", file=sys.stderr)
        return 1
    for reason, count in sorted(left.items()):
        print(f"list_folder.py: left out {count}: {reason}", file=sys.stderr)
    return 0


if __name__ == "__main__":
    sys.exit(main())
