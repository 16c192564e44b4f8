"""The output forms of a check other than JSON: colour on a terminal, and the HTML page."""

from __future__ import annotations

import base64
import hashlib
import html
import os
import pty
import re
import subprocess
from html.parser import HTMLParser
from typing import Dict, List, Optional, Tuple
from urllib.parse import quote

from checking.model import Row
from checking.printing import CONTROL, Target, advice, as_written, asked, base_hint, decoded, in_order, message, named, pages_text, shown, targets

CODES = re.compile(rb"\x1b\[[0-9]+m")
POLICY = re.compile(r"script-src 'sha256-([^']*)'")
HINT = re.compile(r"^<p>(hint: .*)</p>$", re.M)
SCRIPT = re.compile(r"<script>(.*?)</script>", re.S)


def on_terminal(words: List[str], **named: str) -> bytes:
    """What a program writes to a terminal, with these environment variables."""
    ours, theirs = pty.openpty()
    running = subprocess.Popen(words, stdout=theirs, stderr=subprocess.DEVNULL, env={**os.environ, **named})
    os.close(theirs)
    written = b""
    while True:
        try:
            some = os.read(ours, 1 << 16)
        except OSError:  # the program has ended
            some = b""
        if not some:
            break
        written += some
    os.close(ours)
    running.wait()
    return written.replace(b"\r\n", b"\n")


def colour_error(call: str, folder: str) -> Optional[str]:
    """An error in the use of colour. Only a terminal gets it, not with NO_COLOR, and it changes nothing else."""
    words = [call, "check", folder]
    plain = subprocess.run(words, capture_output=True, check=False).stdout
    if CODES.search(plain):
        return "the output to a pipe has colour"
    if on_terminal(words, NO_COLOR="1") != plain:
        return "the output with NO_COLOR has colour"
    coloured = on_terminal(words, NO_COLOR="")
    if not CODES.search(coloured) or CODES.sub(b"", coloured) != plain:
        return f"the output on a terminal is {coloured!r}"
    return None


class Lines(HTMLParser):
    """Reads the lists of the page, by section."""

    def __init__(self) -> None:
        super().__init__()
        self.part, self.inside = "", False
        self.texts: Dict[str, str] = {}
        self.tags: List[str] = []
        self.links: List[str] = []  # of the list of broken links

    def handle_starttag(self, tag: str, attrs: List[Tuple[str, Optional[str]]]) -> None:
        self.tags.append(tag)
        self.part = dict(attrs).get("id") or self.part if tag == "section" else self.part
        self.inside = self.inside or tag == "pre"
        link = dict(attrs).get("href")
        if self.inside and self.part == "broken" and link:
            self.links.append(link)

    def handle_endtag(self, tag: str) -> None:
        self.inside = self.inside and tag != "pre"

    def handle_data(self, data: str) -> None:
        if self.inside:
            self.texts[self.part] = self.texts.get(self.part, "") + data


def control_error(text: bytes, allowed: str = "\n") -> Optional[str]:
    """The first line with a control character that is not allowed."""
    for line in text.decode("utf-8").split("\n"):
        if any(one not in allowed for one in re.findall(CONTROL, line)):
            return f"a control character in {line!r}"
    return None


def target_fields(target: Target) -> List[List[str]]:
    """The fields of the lines of a target and its locations in the page."""
    row = target.row
    lines = [[named(row), message(row) + advice(row)]]
    for place in target.places:
        notes = [as_written(place, named(row)).lstrip(" "), asked(row, place).lstrip(" ")]
        lines.append(["", f"{place['file']}:{place['line']}:{place['column']}", *filter(None, notes)])
    return lines


def list_fields(row: Row) -> Tuple[str, List[str]]:
    """The section of the page that has a row, and the fields of the row's line there."""
    kind = row["kind"]
    if kind == "worst":
        return kind, [row["file"], str(row["links"])]
    if kind == "redirect":
        return "redirects", [decoded(row["page"]), f"to {decoded(row['to'] or '-')}", f"linked from {pages_text(row['pages'])}"]
    if kind == "external":
        return kind, [row["url"], str(row["links"])]
    return kind, [row["name"] if kind == "unused" else decoded(row["name"])]


def page_texts(rows: List[Row]) -> Dict[str, str]:
    """The text of each section of the page. Fields are separated by tabs."""
    lines = {"broken": [fields for target in in_order(targets(rows)) for fields in target_fields(target)]}
    for row in rows:
        if row["kind"] not in ("total", "hint") and "target" not in row:
            part, fields = list_fields(row)
            lines.setdefault(part, []).append(fields)
    return {part: "".join("\t".join(map(shown, fields)) + "\n" for fields in [[""], *some]) for part, some in lines.items() if some}


def heading(total: Row) -> str:
    """The text of the heading: the first of these counts that is not 0, or the first one."""
    counts = [
        (total["broken"], "broken link"), (total["missing_pages"], "missing page"), (total["invalid"], "invalid link"),
        (total["leaving"], "leaving link"),
    ]
    count, noun = next((one for one in counts if one[0]), counts[0])
    return f"<b>{count}</b> {noun}{'' if count == 1 else 's'}</h1>"


def source_links(rows: List[Row], sources: str) -> List[str]:
    """The links of the locations to the sources of the site, in the order of the page."""
    places = (place for target in in_order(targets(rows)) for place in target.places)
    return [f"{sources}{quote(place['file'])}#L{place['line']}" for place in places] if sources else []


def page_error(text: str, rows: List[Row], _: str, sources: str = "") -> Optional[str]:
    """An error in the page of these rows, in which the locations are links if `sources` is the URL of the site's sources."""
    policy, script = POLICY.search(text), SCRIPT.search(text)
    if policy is None or script is None or base64.b64encode(hashlib.sha256(script[1].encode()).digest()).decode() != policy[1]:
        return "its policy does not allow its script"
    if heading(rows[0]) not in text:
        return f"its heading is not {heading(rows[0])}"
    hints = [html.unescape(hint) for hint in HINT.findall(text)]
    if hints != [shown(base_hint(row)) for row in rows if row["kind"] == "hint"]:
        return f"its hints are {hints}"
    read = Lines()
    read.feed(text)
    expected = page_texts(rows)
    if read.texts != expected:
        return f"actual {read.texts}, expected {expected}"
    if read.links != source_links(rows, sources):
        return f"links {read.links}, expected {source_links(rows, sources)}"
    return None
