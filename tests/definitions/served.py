"""What a plain static server returns, by `site_files`, compared with the model's server."""

from __future__ import annotations

import os
from typing import Iterator, List, Optional, Tuple

from checking.model import Alias, Found, Model, Moved, Response, Site
from definitions.sites import KINDS, Files
from definitions.translate import Library
from definitions.values import Value, items, shown, text, unlisted

SMALL = 60  # names of a folder for which each response is also searched in the whole list of pages


def errors(library: Library, model: Model, files: Files) -> Iterator[str]:
    """The differences between the definitions and the model."""
    site = model.site
    yield from own_errors(library, site, files)
    yield from start_errors(library, site, files)
    for url in [*model.responses, *model.others]:
        yield from url_errors(library, site, files, url)


def url_errors(library: Library, site: Site, files: Files, url: str) -> Iterator[str]:
    """The differences at a URL."""
    expected = site.served(url)
    response = library.function("site_files.Serving.found_for")(files.server, files.value.pages, files.value.linked, text(url.encode()))
    if not is_response(site, files, response, expected):
        yield f"found_for {url}: {shown(response)}, the model has {expected}"
    if len(files.names) <= SMALL:
        whole = library.function("site_files.Pages.response_at")(files.server, files.folder, text(url.encode()))
        if not is_response(site, files, whole, expected):
            yield f"response_at {url}: {shown(whole)}, the model has {expected}"
    if expected is None:
        hint = library.function("site_check.Hints.hint_of")(files.value, text(url.encode()))
        found = None if hint[0] == "None" else unlisted(hint[1]).decode()
        if found != site.hint(url):
            yield f"hint_of {url}: {found}, the model has {site.hint(url)}"


def is_response(site: Site, files: Files, response: Value, expected: Response) -> bool:
    """Whether a response is that of the model."""
    if response[0] == "Moved":
        return isinstance(expected, Moved) and unlisted(response[1]).decode() == expected.url
    if response[0] == "Found":
        return isinstance(expected, (Found, Alias)) and expected.name == files.names[response[1]]
    return expected is None


def own_errors(library: Library, site: Site, files: Files) -> Iterator[str]:
    """The files whose own URL or kind is another one than in the model."""
    own_url_at = library.function("site_files.Own.own_url_at")
    named_kind, if_read = library.function("site_files.Files.named_kind"), library.function("site_files.Kinds.if_read")
    for number, (url, index) in enumerate(pages(library, files)):
        if index is None:
            continue
        name = files.names[index]
        own = unlisted(own_url_at(files.value, number)[1]).decode()
        if own != site.own.get(name):
            yield f"own_url_at {name!r}, {url}: {own}, the model has {site.own.get(name)}"
        kind = named_kind(files.value.rules.now, text(name))
        read = kind if kind[0] == "None" else if_read(files.value.rules.now, kind[1])
        if form_of(read) != site.form(name):
            yield f"if_read {name!r}: {shown(read)}, the model has {site.form(name)}"
    if sorted(site.own) != sorted({files.names[index] for _, index in pages(library, files) if index is not None}):
        yield "pages_of: other files than in the model"


def pages(library: Library, files: Files) -> List[Tuple[bytes, Optional[int]]]:
    """The URL of each page, and the index of its file."""
    found = items(library.function("site_files.Files.pages_of")(files.value))
    return [(unlisted(page.url), page.file[1] if page.file[0] == "Some" else None) for page in found]


def form_of(kind: Value) -> Optional[str]:
    """The kind of a file in the words of the model."""
    return None if kind[0] == "None" else KINDS[kind[1][0]]


def start_errors(library: Library, site: Site, files: Files) -> Iterator[str]:
    """Other URLs at which a check starts, and other sitemaps, than in the model."""
    for name, expected in (("start_at", site.own_starts()), ("sitemap_at", site.sitemaps())):
        function = library.function(f"site_files.Own.{name}")
        found = [function(files.value, number) for number in range(len(pages(library, files)))]
        urls = sorted(unlisted(one[1]).decode() for one in found if one[0] == "Some")
        if urls != sorted(expected):
            yield f"{name}: {urls}, the model has {sorted(expected)}"


def name_of(files: Files, index: int) -> str:
    """The name of a file for people."""
    return os.fsdecode(files.names[index])
