#!/usr/bin/env python3
"""Make the table of the named character references, crates/html_links/src/names/table.rt, from Python's table.

  tools/character_names.py            write the file
  tools/character_names.py --check    compare the file with what would be written; the last line is
                                      `N passed, M failed`, and the exit status is 1 if they differ

Python's `html.entities.html5` is the table of the HTML Standard.
"""

from __future__ import annotations

import html.entities
import sys
import unicodedata
from pathlib import Path
from typing import Iterable

FILE = Path(__file__).resolve().parent.parent / "crates/html_links/src/names/table.rt"
LISTS = 256
WIDTH = 99
INDENT = " " * 4
ESCAPES = {"\n": "\\n", "\t": "\\t", '"': '\\"', "\\": "\\\\"}

TEXT = """\
//! The named character references. `tools/character_names.py` makes this file.

/// The start of each list in `ROWS`, and the end of the last one.
pub(crate) static STARTS: [u16; {count}] = [
{starts}
];

/// The rows, each with a space after it: a name, `=` or, if the name counts only with a `;` after
/// it, `;`, and the characters. The lists are those of `list_of` the names.
pub(crate) static ROWS: &str = "\\
{rows}";
"""


def list_of(name: str) -> int:
    """Return the list of a name, as `list_of` in names.rt does."""
    first, second, *rest = name.encode()
    return (first * 23 + second * 29 + len(rest) * 47) % LISTS


def escaped(text: str) -> str:
    """Return a text as it is written in a string literal. Characters that cannot be seen are escaped."""
    return "".join(
        ESCAPES.get(c) or (c if unicodedata.category(c)[0] in "LNPS" else f"\\u{{{ord(c):x}}}") for c in text
    )


def filled(items: Iterable[str], end: str) -> str:
    """Return lines that are filled with these items; each line but the last has this end."""
    lines = [INDENT]
    for item in items:
        if len(lines[-1] + item.rstrip(" ")) + len(end) > WIDTH:
            lines.append(INDENT)
        lines[-1] += item
    return (end + "\n").join(lines)


def table_text() -> str:
    """Return the text of the file."""
    table = html.entities.html5
    lists: list[list[str]] = [[] for _ in range(LISTS)]
    for name in sorted(name[:-1] for name in table if name.endswith(";")):
        lists[list_of(name)].append(name + ("=" if name in table else ";") + table[name + ";"])
    starts = [0]
    for rows in lists:
        starts.append(starts[-1] + sum(len(row.encode()) + 1 for row in rows))
    return TEXT.format(
        count=len(starts),
        starts=filled((f"{start}, " for start in starts), "").replace(" \n", "\n").rstrip(),
        rows=filled((escaped(row) + " " for rows in lists for row in rows), "\\"),
    )


def main() -> int:
    """Write the file, or compare it."""
    if sys.argv[1:] == ["--check"]:
        is_same = FILE.read_text(encoding="utf-8") == table_text()
        if not is_same:
            print(f"{FILE}: not what tools/character_names.py writes")
        print("1 passed, 0 failed" if is_same else "0 passed, 1 failed")
        return 0 if is_same else 1
    if sys.argv[1:]:
        print("usage: character_names.py [--check]", file=sys.stderr)
        return 3
    FILE.write_text(table_text(), encoding="utf-8")
    return 0


if __name__ == "__main__":
    sys.exit(main())
