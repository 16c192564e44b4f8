"""The files of a folder as the definitions have them: the tables that a server looks up, made by the definitions of each of their entries.

That a table has the entries that the definitions list is a statement about each URL, so it is made here and not evaluated: the first
page with a URL counts, and the pages are in the order of their URLs.
"""

from __future__ import annotations

from typing import Dict, Iterable, List, Mapping, NamedTuple, Optional, Sequence, Tuple

from checking.model import LEADS_OUT, NOWHERE, Settings, Site
from definitions.library import canonical
from definitions.translate import Edit, Library
from definitions.values import NONE, Record, Value, items, listed, reference, some, text, unlisted, vector

KEPT = (
    "site_files.Pages.pages", "site_files.Hints.home_pages", "site_files.Files.pages_of", "html_links.Seen.seen_in", "site_check.Worst.files_in",
    "site_files.Files.server_of", "site_files.Entries.host_of", "site_check.Names.last_part", "site_check.Names.last_name",
)
# The kinds of files, and the forms that the model has for them
KINDS = {"Html": "html", "Xml": "xml", "Svg": "xml", "Style": "css", "Feed": "feed", "UrlList": "list", "Unknown": ""}
Names = Sequence[bytes]
Links = Iterable[Tuple[bytes, bytes]]


class Files(NamedTuple):
    """A folder: its names in order, and its tables as `SiteFiles` has them."""

    names: Names
    server: Record
    folder: Record  # what a plain static server returns is a function of this
    value: Record


def rules_of(settings: Settings) -> Record:
    """The rules of a check with these settings."""
    return Record(
        index_files=vector(text(name.encode()) for name in settings.indices), queries=settings.queries, exact=settings.exact, html_fallback=settings.fallback,
        anchors=settings.anchors, places=True, styles=settings.styles, sniff=not settings.host, follow=settings.follow, rooted=settings.base == NOWHERE,
    )


def site_of(base: str) -> Record:
    """The top of a site, and its origin."""
    origin = base[:base.index("/", base.index("//") + 2)]
    return Record(top=text(base.encode()), origin=text(origin.encode()), top_url=text(base.encode()))


def table_of(pages: Value) -> List[Record]:
    """The first of the pages with each URL, in the order of the URLs."""
    found: Dict[bytes, Value] = {}
    for page in items(pages):
        found.setdefault(url_of(page.text), page.response)
    return [Record(url=text(url), source=source_of(response)) for url, response in sorted(found.items())]


def url_of(given: Value) -> bytes:
    """The canonical URL of the text of a page."""
    result = canonical(given)
    assert result[0] == "Ok", unlisted(given)
    return unlisted(result[1])


def source_of(response: Value) -> Value:
    """The entry of a response. That of a file at its name is also the one of a folder at its index file."""
    return ("File", response[1]) if response[0] == "Found" else response


def linked_of(library: Library, top: Value, links: Links) -> Value:
    """The URLs of folders with other names, in the order of these."""
    link_urls = library.function("site_files.Pages.link_urls")
    found: Dict[bytes, Record] = {}
    for name, own in links:
        urls = link_urls(top, Record(name=text(name), own=text(own)))
        found.setdefault(unlisted(urls.name), urls)
    return listed(found[name] for name in sorted(found))


def own_numbers(library: Library, server: Record, names: Names, entries: List[Record]) -> List[Value]:
    """For each file the number of the page at the URL of its folder, if the file is the page there."""
    numbers = {unlisted(entry.url): number for number, entry in enumerate(entries)}
    folder_texts = library.function("site_files.Pages.folder_texts")
    found = []
    for index, name in enumerate(names):
        urls = [url_of(one) for one in items(folder_texts(server, index, text(name)))]
        own = next((numbers[url] for url in urls if url in numbers and entries[numbers[url]].source == ("File", index)), None)
        found.append(NONE if own is None else some(own))
    return found


def skipped_of(library: Library, top: Value, skipped: Mapping[bytes, str]) -> Value:
    """The URLs of symbolic links that are not followed, in the order of these, with whether each leads out of the folder."""
    link_below = library.function("site_files.Skipped.link_below")
    found: Dict[bytes, Record] = {}
    for name, hint in sorted(skipped.items()):
        link = link_below(top, Record(name=text(name), is_outside=hint == LEADS_OUT))
        found.setdefault(unlisted(link.url), Record(name=link.url, is_outside=link.is_outside))
    return listed(found[url] for url in sorted(found))


def files_of(library: Library, site: Site) -> Files:
    """The files of a folder, whose names are those that the model found."""
    ordered, others, settings = sorted(site.names), sorted(site.links.items()), site.settings
    rules, top = rules_of(settings), site_of(settings.base)
    server = library.function("site_files.Entries.server_at")(rules, top)
    texts = listed(map(text, ordered))
    entries = table_of(library.function("site_files.Pages.pages")(server, texts))
    homes = table_of(library.function("site_files.Hints.home_pages")(server, texts))
    value = Record(
        site=top, pages=listed(entries), homes=listed(homes), own=vector(own_numbers(library, server, ordered, entries)),
        linked=linked_of(library, top.top, others), skipped=skipped_of(library, top.top, site.skipped), names=reference(texts), rules=reference(rules),
        listed=NONE,
    )
    folder = Record(names=texts, links=listed(Record(name=text(name), own=text(own)) for name, own in others))
    return Files(ordered, server, folder, value)


class Tables(Library):
    """The definitions, with tables in place of searches of long lists. `edits` change their texts, and `counts` gets how often each was called."""

    def __init__(self, edits: Sequence[Edit] = (), counts: Optional[Dict[str, int]] = None) -> None:
        super().__init__(KEPT, edits, counts)
        self.tables: Dict[int, Tuple[Value, Dict[bytes, Value]]] = {}
        self.override("site_files.Entries.entry_at", self.entry_at)

    def entry_at(self, entries: Value, url: Value) -> Value:
        """What is at a URL by these entries, the first of which with the URL counts."""
        if id(entries) not in self.tables:
            found: Dict[bytes, Value] = {}
            for entry in items(entries):
                source = entry.source
                found.setdefault(unlisted(entry.url), ("Found", source[1]) if source[0] in ("File", "Index") else source)
            self.tables[id(entries)] = (entries, found)
        return self.tables[id(entries)][1].get(unlisted(url), ("Missing",))

    def forget(self) -> None:
        """Forgets the tables and the results that are kept."""
        super().forget()
        self.tables.clear()
