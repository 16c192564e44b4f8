"""The report of a check as text and as annotations, made from the rows of its JSON."""

from __future__ import annotations

import re
from typing import Iterator, List, NamedTuple, Tuple
from urllib.parse import unquote_to_bytes

from checking.model import Row
from checking.questions import question

LISTED = 3  # the locations of a target that a report as text lists
ESCAPES = re.compile("(?:%[0-9A-Fa-f]{2})+")
# C0, DEL, C1, the line separators, and the characters that change the direction of writing
CONTROL = "[\0-\x1f\x7f-\x9f\u2028\u2029\u202a-\u202e\u2066-\u2069]"
REASONS = {
    "not_url": "not a URL", "unknown_scheme": "unknown scheme", "local_file": "local file",
    "above_folder": "leaves the folder", "outside_base": "outside BASE on the same host, not checked", "not_in_map": "no such page in the mapped folder",
}
UNLISTED = "not in a sitemap"
KINDS = ("broken", "invalid", "leaving")


class Target(NamedTuple):
    """A target of broken links and their locations."""

    row: Row
    places: List[Row]


class Options(NamedTuple):
    """What a report as text lists, and how."""

    by_target: bool = False
    all_sources: bool = False


def targets(rows: List[Row]) -> List[Target]:
    """The targets in the rows, in their order."""
    found: List[Target] = []
    for row in rows:
        if row["kind"] in KINDS:
            found.append(Target(row, []))
        elif "column" in row:
            found[-1].places.append(row)
    return found


def natural(text: str) -> Tuple[List[Tuple[int, int]], bytes]:
    """A sort key: a run of digits is a number, and any other byte its value; of equal ones the bytes decide."""
    runs = re.findall(rb"[0-9]+|[^0-9]", text.encode("utf-8", "replace"))
    return [(ord("0"), int(run)) if run.isdigit() else (run[0], 0) for run in runs], b"".join(runs)


def place_order(place: Row) -> Tuple[object, int, int]:
    """A sort key: a location by file in natural order, line and column."""
    return natural(place["file"]), place["line"], place["column"]


def in_order(found: List[Target]) -> List[Target]:
    """Missing pages, missing anchors, invalid links and leaving links, each in the natural order of the targets, with their locations in order."""
    ordered = sorted(found, key=lambda one: (KINDS.index(one.row["kind"]), one.row.get("missing") == "anchor", natural(named(one.row))))
    return [Target(row, sorted(places, key=place_order)) for row, places in ordered]


def shown(text: str) -> str:
    """A text with escapes for its control characters, as people see it."""
    return re.sub(CONTROL, lambda one: f"\\u{{{ord(one[0]):x}}}", text)


def decoded(text: str) -> str:
    """
    A path without percent-escapes of spaces, and of characters beyond ASCII that a report shows. A URL is left as it is, and so is a space
    that nobody would see, at the beginning or the end.
    """
    if text.startswith(("http://", "https://")):
        return text
    return re.sub(r"\A | \Z", "%20", ESCAPES.sub(lambda run: run_decoded(run[0]), text))


def run_decoded(run: str) -> str:
    """A run of percent-escapes, some of them decoded."""
    letters = unquote_to_bytes(run).decode("utf-8", "surrogateescape")
    texts, at = [], 0
    for letter in letters:
        end = at + 3 * len(letter.encode("utf-8", "surrogateescape"))
        is_decoded = letter == " " or ord(letter) >= 0x80 and not "\ud800" <= letter <= "\udfff" and not re.match(CONTROL, letter)
        texts.append(letter if is_decoded else run[at:end])
        at = end
    return "".join(texts)


def named(row: Row) -> str:
    """The target of a row as people read it. An invalid link is left as it is written."""
    return str(row["target"]) if row["kind"].startswith("invalid") else decoded(row["target"])


def message(row: Row) -> str:
    """What is wrong with a target, or with a document."""
    if row["kind"] == "unlisted":
        return UNLISTED
    return REASONS[row["reason"]] if "reason" in row else f"no such {row['missing']}"


def advice(row: Row, is_plain: bool = False) -> str:
    """The page that is suggested for a target, and the hint, each in brackets."""
    same, hint = row.get("same_name"), row.get("hint")
    page = same if is_plain or same is None else decoded(same)
    return (f" (did you mean {page}?)" if page else "") + (f" ({hint})" if hint else "")


def as_written(place: Row, name: str) -> str:
    """The text of a link, in brackets, unless the name of its target ends with it."""
    text = place["written"]
    return f" (written as {text})" if text is not None and not name.endswith(text) else ""


def asked(row: Row, place: Row) -> str:
    """The question about a link, in brackets, or nothing."""
    text = question(row, place)
    return f" ({text})" if text else ""


def line_of(row: Row, place: Row) -> str:
    """The line of a location in a report as text."""
    return f"{place['file']}:{place['line']}:{place['column']}: {named(row)}: {message(row)}{as_written(place, named(row))}{asked(row, place)}{advice(row)}"


def rest_text(count: int) -> str:
    """How many links to a target are not listed, and the option that lists them."""
    return "1 more link (--all-sources lists it)" if count == 1 else f"{count} more links (--all-sources lists them)"


def broken_lines(rows: List[Row], options: Options) -> Iterator[str]:
    """The lines of broken links."""
    limited = [(row, places, len(places) if options.all_sources else LISTED) for row, places in in_order(targets(rows))]
    if options.by_target:
        for row, places, limit in limited:
            if not places:
                yield f"{named(row)}: {message(row)}{advice(row)}"
            yield from (line_of(row, place) for place in places[:limit])
            if len(places) > limit:
                yield f"  and {rest_text(len(places) - limit)}"
        return
    listed = [(row, place) for row, places, limit in limited for place in places[:limit]]
    yield from (line_of(row, place) for row, place in sorted(listed, key=lambda one: place_order(one[1])))
    yield from (f"{named(row)}: {message(row)}{advice(row)}" for row, places, _ in limited if not places)
    yield from (f"{named(row)}: {message(row)}: {rest_text(len(places) - limit)}" for row, places, limit in limited if len(places) > limit)


COUNTS = {"unreached": "unreached files", "unlisted": "documents that no sitemap lists", "external": "external URLs"}


def totals(total: Row) -> Iterator[str]:
    """The two lines of totals."""
    names = {"files": "other files"}
    first = [f"{names.get(name, name)} {total[name]}" for name in ("pages", "files", "links", "redirects", "aliases")]
    first += [f"{text} {total[name]}" for name, text in COUNTS.items() if name in total]
    yield ", ".join(first)
    second = [f"broken links {total['broken']}", f"missing pages {total['missing_pages']}", f"missing anchors {total['missing_anchors']}"]
    yield ", ".join(second + [f"{name} links {total[name]}" for name in ("invalid", "leaving") if total[name]])


def pages_text(count: int) -> str:
    """A number of pages."""
    return "1 page" if count == 1 else f"{count} pages"


def list_line(row: Row) -> str:
    """The line of a row in one of the lists after the broken links."""
    if row["kind"] == "worst":
        return f"{row['links']} {row['file']}"
    if row["kind"] == "redirect":
        return f"{decoded(row['page'])} -> {decoded(row['to'] or '-')} (linked from {pages_text(row['pages'])})"
    if row["kind"] == "external":
        return f"{row['links']} {row['url']}"
    return str(row["name"]) if row["kind"] == "unused" else decoded(row["name"])


HEADINGS = {
    "worst": "files with the most broken, invalid and leaving links:", "redirect": "links to redirects (not errors; in documents, --fix --dry-run shows where):", "unreached": "unreached files:", "unlisted": "documents that no sitemap lists (list them, or leave them out with --ignore):",
    "external": "external links (not checked):", "unused": "unused --ignore entries:",
}


def base_hint(row: Row) -> str:
    """The line of a hint at a missing BASE, which names a URL or a folder of paths from the root."""
    folder = row["base"]
    if folder.startswith(("http://", "https://")):
        return f"hint: {row['paths']} of {row['of']} HTTP links begin with {folder}: pass it as BASE"
    return f"hint: {row['paths']} of {row['of']} paths from the root begin with {folder}, which is not in the folder: pass BASE, such as https://HOST{folder}"


def as_text(rows: List[Row], options: Options) -> str:
    """The report as text."""
    lines = list(totals(rows[0])) + [base_hint(row) for row in rows if row["kind"] == "hint"]
    broken = list(broken_lines(rows, options))
    lines += [""] * bool(broken) + broken
    for kind, heading in HEADINGS.items():
        listed = ["  " + list_line(row) for row in rows if row["kind"] == kind]
        lines += ["", heading] * bool(listed) + listed
    return "".join(shown(line) + "\n" for line in lines)


ESCAPED = {"%": "%25", "\r": "%0D", "\n": "%0A"}
IN_PROPERTIES = {":": "%3A", ",": "%2C"}


def escaped(text: str, is_property: bool) -> str:
    """A text in an annotation, by the escapes that GitHub reads, and with those of people for all other control characters."""
    escapes = {**ESCAPED, **IN_PROPERTIES} if is_property else ESCAPED
    return "".join(escapes.get(letter) or shown(letter) for letter in text)


def as_annotations(rows: List[Row], folder: str) -> str:
    """The report as annotations. The paths begin with the folder. What has no location has an annotation of no file."""
    front = "" if folder == "." else folder.rstrip("/") + "/"
    lines = [f"::notice::{escaped(base_hint(row), False)}\n" for row in rows if row["kind"] == "hint"]
    for row, places in targets(rows):
        begin, end = row["target"] + ": " + message(row), advice(row, True)
        for place in places:
            file = f" file={escaped(front + place['file'], True)},line={place['line']},col={place['column']}"
            lines.append(f"::error{file}::{escaped(begin + as_written(place, row['target']) + asked(row, place) + end, False)}\n")
        lines += [f"::error::{escaped(begin + end, False)}\n"] if not places else []
    lines += [f"::error::{escaped(row['name'], False)}: {message(row)}\n" for row in rows if row["kind"] == "unlisted"]
    return "".join(lines)
