"""Site lists, by `site_files`, compared with what the model reads."""

from __future__ import annotations

from typing import Iterator, List, Optional

import drawn
from checking import archives
from definitions.library import lines
from definitions.sites import KINDS
from definitions.translate import Library
from definitions.values import Record, Value, items, shown, text, unlisted

ERRORS = {
    "LineTooLong": "line too long", "NotText": "not UTF-8", "BadLine": "bad line", "NotUrl": "not a URL", "NotHttp": "not http or https", "BadFile": "bad file name",
}


def errors(library: Library, folder: str, given: archives.Listed) -> Iterator[str]:
    """The differences in what a list means."""
    result = library.function("site_files.SiteList.list_in")(lines(text(given.text)))
    try:
        expected = archives.read_list(given.text)
    except archives.BadList as error:
        if result[0] != "Err" or str(error) != f"index: line {result[1][1]}: {ERRORS[result[1][0]]}":
            yield f"list_in: {shown(result)[:300]}, the model has {error}"
        return
    if result[0] != "Ok":
        yield f"list_in: {shown(result)}, the model has no error"
        return
    columns = result[1]
    for one, name, line in zip(items(columns.urls), items(columns.names), expected):
        if not is_line(one, name, line):
            yield f"list_in: {shown(one)} {shown(name)}, the model has {line}"
    if len(list(items(columns.urls))) != len(expected):
        yield f"list_in: {len(list(items(columns.urls)))} lines, the model has {len(expected)}"
    yield from page_errors(library, columns, archives.ListedSite(folder, given.settings, expected))


def is_line(one: Record, name: Value, line: archives.Line) -> bool:
    """Whether a URL with its content and its name is that of a line."""
    form = None if one.content[0] == "Redirect" or one.content[1][0] == "None" else KINDS[one.content[1][1][0]]
    is_same = unlisted(one.url).decode() == str(drawn.url_of(line.url)) and unlisted(name).decode() == line.name
    return is_same and (one.content[0] == "Redirect") == (line.kind == "redirect") and (line.kind == "redirect" or form == line.form())


def page_errors(library: Library, columns: Record, site: archives.ListedSite) -> Iterator[str]:
    """The URLs for which a list has something else than in the model."""
    listed_at = library.function("site_files.Listed.listed_at")
    top = text(str(site.base).encode())
    urls: List[str] = [*site.lines, str(site.base), f"{site.base}not/listed", "http://other.test/"]
    for url in urls:
        found = listed_at(top, columns.urls, columns.names, text(url.encode()))
        line = site.lines.get(url)
        if found != ("Missing",) and line is None or not is_response(columns, found, line):
            yield f"listed_at {url}: {shown(found)}, the model has {line}"


def is_response(columns: Record, found: Value, line: Optional[archives.Line]) -> bool:
    """Whether a response is that of a line."""
    if line is None:
        return bool(found == ("Missing",))
    if line.kind == "redirect":
        return bool(found[0] == "Moved" and unlisted(found[1]).decode() == line.name)
    return bool(found[0] == "Found" and unlisted(list(items(columns.names))[found[1]]).decode() == line.name)
