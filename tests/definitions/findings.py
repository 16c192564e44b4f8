"""The statements of `site_check`, `mercator_site` and `check_report` about the report of a folder, evaluated for rows of a report."""

from __future__ import annotations

from typing import Callable, Dict, Iterator, List, NamedTuple, Optional, Sequence, Set, Tuple

from checking.documents import Document
from checking.model import Model, Row, is_everywhere
from definitions.library import utf8_lossy
from definitions.pages import Page, Pages, results_of
from definitions.sites import Files, files_of
from definitions.texts import Read
from definitions.translate import Library
from definitions.values import NIL, NONE, Decided, Record, Value, items, listed, reference, same, shown, some, text, unlisted, vector

KINDS = {
    "page": "NoPage", "anchor": "NoAnchor", "not_url": "NotUrl", "unknown_scheme": "UnknownScheme", "local_file": "LocalFile", "above_folder": "Leaves",
    "outside_base": "OutsideBase", "not_in_map": "NotInMap",
}
TARGETS = ("broken", "invalid", "leaving")
PLACES = ("place", "invalid_place", "leaving_place")
TOTALS = {
    "pages": "pages", "files": "files", "aliases": "aliases", "links": "links", "broken": "broken_links", "missing_pages": "broken_urls",
    "missing_anchors": "broken_anchors", "invalid": "invalid_links", "leaving": "leaving_links", "redirects": "moved",
}


def shown_text(given: str) -> Value:
    """The bytes of a text of a report."""
    return text(given.encode("utf-8", "surrogateescape"))


def optional(given: Optional[str]) -> Value:
    """The Option of a text of a report."""
    return NONE if given is None else some(shown_text(given))


def broken_of(rows: Sequence[Row]) -> Value:
    """The targets of a report, with their locations."""
    found: List[Record] = []
    places: List[Record] = []
    for row in rows:
        if row["kind"] in TARGETS:
            places = []
            found.append(Record(
                target=shown_text(row["target"]), kind=(KINDS[row.get("missing") or row["reason"]],), pages=row["pages"], places=places,
                same_name=optional(row.get("same_name")), hint=optional(row.get("hint")),
            ))
        elif row["kind"] in PLACES:
            places.append(Record(file=shown_text(row["file"]), line=row["line"], column=row["column"], written=optional(row["written"])))
    return listed(one.replaced(places=vector(one.places)) for one in found)


class Report(NamedTuple):
    """The rows of a report as the definitions have them."""

    broken: Value
    redirects: Value
    totals: Record
    worst: Value
    unreached: Value
    unlisted: Value
    external: Value
    unused: Value
    hint: Value


def report_of(rows: Sequence[Row]) -> Report:
    """The values of the rows that a check prints as JSON."""
    def of_kind(kind: str) -> List[Row]:
        return [row for row in rows if row["kind"] == kind]

    hints = [Record(folder=shown_text(row["base"]), paths=row["paths"], of=row["of"]) for row in of_kind("hint")]
    return Report(
        broken_of(rows),
        listed(Record(page=shown_text(row["page"]), target=optional(row["to"]), pages=row["pages"]) for row in of_kind("redirect")),
        Record(**{field: rows[0][member] for member, field in TOTALS.items()}),
        listed(Record(file=shown_text(row["file"]), links=row["links"]) for row in of_kind("worst")),
        listed(shown_text(row["name"]) for row in of_kind("unreached")),
        listed(shown_text(row["name"]) for row in of_kind("unlisted")),
        listed(Record(url=shown_text(row["url"]), links=row["links"]) for row in of_kind("external")),
        listed(shown_text(row["name"]) for row in of_kind("unused")),
        some(hints[0]) if hints else NONE,
    )


class Crawled(NamedTuple):
    """The results of a check by the definitions."""

    own: Value  # below the top
    found: Value  # of all URLs on the top's host, without those in mapped folders
    reached: Value  # those of the search from the starts alone
    aliases: Value
    documents: Value
    places: Value  # what is known of the links of each document
    listed: Value  # the URLs that sitemaps list, if these documents are reported


def mapped_of(library: Library, model: Model) -> Value:
    """The folders of --map."""
    found = []
    for top, site in model.mapped.sites.items():
        files = files_of(library, site)
        name = Record(prefix=reference(text(top.encode())), folder=reference(shown_text(model.mapped.folders[top])))
        found.append(Record(name=name, files=files.value))
    return listed(found)


def crawled_by(library: Library, model: Model, files: Files, pages: Pages, folders: Value) -> Crawled:
    """The results of a check of a folder."""
    found = pages.crawl(pages.starts(True))
    results = results_of(found)
    own = library.function("mercator_site.Own.own_of")(files.server.top, results)
    names = [name for name in model.site.own if model.site.is_document(name)]
    documents = listed(text(url) for url in sorted(model.site.own[name].encode() for name in names))
    places = listed(places_of(url, page) for url, page in found if page.invalid)
    unmapped = library.function("mercator_site.Maps.unmapped")(folders, results)
    reached = library.function("mercator_site.Own.own_of")(files.server.top, results_of(pages.crawl(pages.starts(False))))
    listed_urls = pages.listed() if model.settings.sitemap else NIL
    for listed_url in items(listed_urls):
        pages.at(unlisted(listed_url))  # which may be an alias that the crawl does not reach
    aliases = listed(Record(url=text(url), own=text(page.alias)) for url, page in sorted(pages.pages.items()) if page.alias is not None)
    return Crawled(own, unmapped, reached, aliases, documents, places, listed_urls)


def places_of(url: bytes, page: Page) -> Record:
    """What is known of the invalid links of a page."""
    invalid = vector(Record(index=0, kind=(kind,), text=text(one)) for one, kind in page.invalid)
    return Record(url=text(url), indices=vector([]), invalid=invalid)


class FileLink(NamedTuple):
    """A link of a file: where it is, where it leads, and how it is written."""

    point: Tuple[int, int]
    url: Optional[bytes]
    written: Value


class Statement(NamedTuple):
    """A statement about a report, and what finds an error in it."""

    name: str
    error: Callable[[], Optional[str]]


def equal(actual: Value, expected: Value) -> Optional[str]:
    """The first difference between two values, the second of which is that of the definitions."""
    if same(actual, expected):
        return None
    if isinstance(actual, Record) or (actual and isinstance(actual[0], str)):
        return f"{shown(actual)}, by the definitions {shown(expected)}"
    ones, others = list(items(actual)), list(items(expected))
    first = next((pair for pair in zip(ones, others) if not same(*pair)), None)
    if first is None:
        more = (ones + others)[min(len(ones), len(others)):][:1] if len(ones) > len(others) else others[len(ones):][:1]
        return f"{len(ones)} values, by the definitions {len(others)}; the first of the others is {shown(more[0])}"
    return f"{shown(first[0])}, by the definitions {shown(first[1])}"


class Check:
    """A report of a folder, and what the definitions need for the statements about it."""

    def __init__(self, library: Library, model: Model, files: Files, pages: Pages, rows: Sequence[Row]) -> None:
        self.library, self.model, self.settings, self.files, self.pages = library, model, model.settings, files, pages
        self.links: Dict[str, List[FileLink]] = {}  # of each file whose links the definitions give
        self.folders = mapped_of(library, model)
        self.crawled = crawled_by(library, model, files, pages, self.folders)
        self.report = report_of(rows)
        self.front = text(self.settings.front.encode())
        self.entries = listed(shown_text(entry) for entry in self.settings.ignores)

    def call(self, path: str, *arguments: Value) -> Value:
        """The value of a definition."""
        return self.library.function(path)(*arguments)

    def statements(self) -> Iterator[Statement]:
        """The statements about the report."""
        crawled, report, files = self.crawled, self.report, self.files.value
        way_of = self.library.function("site_check.RowMeanings.way_of")
        yield Statement("redirects_of", lambda: equal(
            listed(map(way_of, items(report.redirects))), self.call("site_check.Broken.redirects_of", self.front, crawled.own)))
        yield Statement("totals_of", lambda: equal(report.totals, self.call(
            "site_check.Totals.totals_of", crawled.aliases, crawled.documents, crawled.own, report.broken, report.redirects)))
        yield Statement("worst_of", lambda: equal(report.worst, self.call("site_check.Worst.worst_of", report.broken)))
        yield Statement("base_hint_of", lambda: equal(report.hint, self.call(
            "site_check.*.base_hint_of", self.settings.is_rooted(), files, crawled.own, report.broken)))
        if self.settings.unreached:
            yield Statement("unreached_of", lambda: equal(report.unreached, self.call("site_check.Unreached.unreached_of", self.front, files, crawled.reached)))
        yield Statement("not_ignored", lambda: equal(report.unlisted, self.call("site_check.Ignored.not_ignored", self.entries, self.documents_in_no_sitemap())))
        yield Statement("unused_by", lambda: equal(report.unused, self.call("site_check.Ignored.unused_by", self.documents_in_no_sitemap(), self.unused_by_rows())))
        if self.settings.external:
            yield Statement("AreExternal", self.external_error)
        yield Statement("AreReported", self.reported_error)
        if self.library.has("site_check.*.in_row"):
            yield Statement("IsLocated", self.located_error)
        if self.library.has("mercator_site.*.is_long_file"):
            yield Statement("IsRightlyMissed", self.false_miss_error)
        if self.library.has("mercator_site.*.documents_in"):
            yield Statement("documents_in", lambda: equal(
                listed(map(text, sorted(map(str.encode, [] if self.settings.reachable else self.model.site.own_starts())))),
                self.call("mercator_site.*.documents_in", self.settings.reachable, files, self.files.server.top)))
        yield Statement("entries_in", lambda: equal(self.entries, self.call("site_check.Ignored.entries_in", text(self.file_of_entries()))))

    def file_of_entries(self) -> bytes:
        """A file with the entries of the list of what is ignored, with a comment, an empty line and white space."""
        lines = "".join(f" \t{entry}\u00a0\r\n" for entry in self.settings.ignores)
        return f"\ufeff# known\n\n{lines}#".encode()

    def external_error(self) -> Optional[str]:
        """An error in the external links."""
        root = self.call("mercator_site.External.host_root", self.files.value)
        urls = sorted(map(unlisted, items(self.call("mercator_site.External.outside_links", root, self.crawled.own))))
        return equal(self.report.external, self.call("mercator_site.External.runs", listed(map(text, urls))))

    def reported_error(self) -> Optional[str]:
        """A part of the statement about all rows that does not hold."""
        crawled = self.crawled
        scope = Record(invalid=self.settings.invalid)
        links = self.call("site_check.Invalid.texts_if", scope.invalid, crawled.places, crawled.own)
        texts = sorted(set(map(unlisted, items(links))))
        names = self.call("mercator_site.Maps.names_of", self.folders)
        whole = self.whole()
        arguments = [
            self.front, self.entries, scope, crawled.places, self.settings.is_rooted(), names, self.files.value, crawled.own, crawled.found,
            self.report.broken, self.unused_by_rows(),
        ]
        failures = self.library.record_failures("site_check.Reported.AreReported", arguments, {
            "whole": whole,
            "all": {
                "invalid": {"texts": listed(map(text, texts)), "each": {"same": Decided(True)}},
                "ignores": {"anchors": listed(self.anchors())},
            },
        })
        return f"does not hold: {', '.join(failures)}" if failures else None

    def located_error(self) -> Optional[str]:
        """A location in a row that is not that of a link of its file, or of one that leads elsewhere. Lines and columns are the model's."""
        in_row = self.library.function("site_check.*.in_row")
        for row in items(self.report.broken):
            ends = self.ends_of(row) if row.kind == ("NoPage",) else None
            for place in items(row.places.items):
                name = unlisted(place.file).decode("utf-8", "surrogateescape")
                links = self.links_in(name)
                if links is None:
                    continue
                found = [one for one in links if one.point == (place.line, place.column) and (ends is None or one.url in ends)]
                written = [in_row(row.target, Record(file=place.file, line=place.line, column=place.column, written=one.written)) for one in found]
                if not any(same(one, place) for one in written):
                    return f"{name}:{place.line}:{place.column}: no link to {shown(row.target)}"
        return None

    def false_miss_error(self) -> Optional[str]:
        """A missing page for whose URL a server returns a page, if neither that URL nor the file's own one is too long."""
        is_missing, fits = self.library.function("crawl_pages.Pages.is_missing"), self.library.function("document_links.Texts.fits")
        found = [shown(one.url) for one in items(self.crawled.own) if is_missing(one.page) and fits(5, one.url) and self.is_returned(one.url)]
        return f"a page is at {found[0]}" if found else None

    def is_returned(self, url: Value) -> bool:
        """Whether a server returns a page for a URL, which is not a file whose own URL is too long."""
        served = self.call("site_files.Serving.served_at", self.files.value, url)
        if served == ("Missing",):
            return False
        response_of = self.library.function("site_files.*.response_of")
        numbers = [number for number, entry in enumerate(items(self.files.value.pages)) if same(response_of(entry.source), served)]
        return not any(self.call("mercator_site.*.is_long_file", self.files.value, number) for number in numbers)

    def ends_of(self, row: Record) -> Set[bytes]:
        """The URLs that lead to the missing page of a row, directly or by a redirect."""
        shown_as = self.library.function("site_check.Broken.shown")
        results = list(items(self.crawled.own))
        urls = {unlisted(one.url) for one in results if one.page == ("Missing",) and same(shown_as(self.front, one.url), row.target)}
        moved = [one for one in results if one.page[0] == "Moved" and one.page[1][0] == "Some"]
        return urls | {unlisted(one.url) for one in moved if unlisted(one.page[1][1]) in urls}

    def links_in(self, name: str) -> Optional[List["FileLink"]]:
        """The links of a file, or None if the definitions leave them open."""
        if name not in self.links:
            encoded = name.encode("utf-8", "surrogateescape")
            read, document = self.pages.found.get(encoded), self.model.site.document(encoded)
            if read is None or document is None or read.base is not None or not read.fits or not self.pages.is_unicode(encoded):
                return None
            url = text(self.model.site.own[encoded].encode())
            self.links[name] = list(self.file_links(url, read, document))
        return self.links[name]

    def file_links(self, url: Value, read: Read, document: Document) -> Iterator["FileLink"]:
        """The links of a file with this own URL."""
        link_url, clean = self.library.function("saved_pages.SavedWeb.link_url"), self.library.function("document_links.Written.clean")
        if_any = self.library.function("site_check.*.if_any")
        for link, written, given in zip(items(read.links), items(read.written), document.links):
            target = link_url(url, written)
            yield FileLink(document.lines.place(given.at), None if target == NONE else unlisted(target[1]), if_any(utf8_lossy(clean(link))))

    def whole(self) -> Value:
        """The rows as if no entry named a file."""
        if all(map(is_everywhere, self.settings.ignores)):
            return self.report.broken
        ignores = tuple(filter(is_everywhere, self.settings.ignores))
        other = Model("", self.settings._replace(ignores=ignores), self.model.site)
        return broken_of(other.rows())

    def documents_in_no_sitemap(self) -> Value:
        """The documents that no sitemap lists, ignored or not, if they are reported."""
        if not self.settings.sitemap:
            return NIL
        crawled = self.crawled
        return self.call("site_check.Unlisted.unlisted_of", self.front, crawled.aliases, crawled.documents, crawled.listed)

    def unused_by_rows(self) -> Value:
        """The entries that match nothing but, perhaps, documents that no sitemap lists."""
        if not self.settings.sitemap:
            return self.report.unused
        other = Model("", self.settings._replace(sitemap=False), self.model.site)
        return listed(shown_text(row["name"]) for row in other.rows() if row["kind"] == "unused")

    def anchors(self) -> List[Value]:
        """The rows of the missing anchors as they are reported, without the list of what is ignored."""
        if not self.settings.anchors:
            return []
        found = sorted(self.model.anchors_missing().items(), key=lambda one: (one[0][0].encode(), one[0][1].encode("utf-8", "replace")))
        return [Record(text=shown_text(f"{self.model.shown(url)}#{fragment}"), pages=len(pages)) for (url, fragment), (pages, _) in found]


def errors(check: Check) -> Iterator[str]:
    """The statements that do not hold."""
    for statement in check.statements():
        error = statement.error()
        if error:
            yield f"{statement.name}: {error}"
