"""The pages that a server of a folder has by `saved_site`, and the results of a crawl of them."""

from __future__ import annotations

from typing import Dict, Iterable, Iterator, List, NamedTuple, Optional, Tuple

from checking.model import Found, Model
from definitions.library import host_key, resolve
from definitions.sites import Files
from definitions.texts import Read, text_in
from definitions.translate import Library
from definitions.values import NIL, NONE, Record, Value, from_option, items, listed, pair, same, shown, text, unlisted

MISSING: Value = ("Missing",)


class Page(NamedTuple):
    """A page as a crawl finds it, and the invalid links of its file."""

    value: Value
    under: Value  # the texts of its links, or of its redirect, as a saved web has them; None if the model gives them
    invalid: Tuple[Tuple[bytes, str], ...]  # the text of each, and what is wrong
    alias: Optional[bytes]  # the own URL of the file, if this is not it


class Pages:
    """The pages of a folder. What definitions leave open is taken from the model: files that have
    a `base`, or a link that is too long, or are in another encoding than Unicode."""

    def __init__(self, library: Library, model: Model, files: Files, found: Dict[bytes, Read]) -> None:
        self.library, self.model, self.files, self.found = library, model, files, found
        self.pages: Dict[bytes, Page] = {}
        self.open = 0  # the number of pages that the model gives
        self.numbers: Dict[object, int] = {}
        for number, entry in enumerate(items(files.value.pages)):
            self.numbers.setdefault(self.key(entry.source), number)

    def key(self, source: Value) -> object:
        """What two entries with the same response have in common."""
        return source[1] if source[0] == "File" else unlisted(source[1])

    def at(self, url: bytes) -> Page:
        """The page at a URL."""
        if url not in self.pages:
            self.pages[url] = self.served(url)
        return self.pages[url]

    def served(self, url: bytes) -> Page:
        """The page that a server returns for a URL, if its line is short enough."""
        given = text(url)
        response = self.library.function("site_files.Serving.served_at")(self.files.value, given)
        if response[0] == "Missing" or not self.library.function("document_links.Texts.fits")(5, given):
            return Page(MISSING, None, (), None)
        number = self.numbers[response[1] if response[0] == "Found" else unlisted(response[1])]
        answer = self.library.function("saved_site.TaskPages.kind_at")(self.files.value, number, given)
        return self.answered(url, number, answer)

    def answered(self, url: bytes, number: int, answer: Value) -> Page:
        """The page at a URL for which the server returns this."""
        given, files = text(url), self.files.value
        text_to = self.library.function("saved_site.SiteTexts.text_to")
        if answer[0] == "Own":
            return self.own(url, answer[1])
        if answer[0] == "Alias":
            link = self.library.function("saved_site.SiteTexts.link_to")(text_to(files, answer[1]))
            if not link:
                return Page(MISSING, None, (), None)  # the definitions allow a page without a link, too
            return self.page(given, ("Links", link))._replace(alias=unlisted(answer[1]))
        target = self.library.function("saved_site.SiteTexts.target_at")(files, number, given, answer[1])
        return self.page(given, self.library.function("saved_site.SiteTexts.redirect_to")(text_to(files, target)))

    def page(self, url: Value, under: Value) -> Page:
        """The page with these links or this redirect."""
        return Page(self.library.function("saved_site.Meaning.under_page")(url, under), under, (), None)

    def own(self, url: bytes, document: Value) -> Page:
        """The page at the own URL of a file."""
        name = from_option(document, lambda found: self.files.names[found.index])
        read = None if name is None else self.found.get(name)
        if name is None or self.model.site.document(name) is None:
            return self.page(text(url), ("Links", NIL))
        if read is None or read.base is not None or not read.fits or not self.is_unicode(name):
            return self.given(url)
        return self.page(text(url), ("Links", read.written))._replace(invalid=tuple(self.invalid(url, read)))

    def is_unicode(self, name: bytes) -> bool:
        """Whether the links of a file do not depend on its encoding."""
        form = self.model.site.form(name) or ""
        return form not in ("html", "xml", "") or text_in(form, self.model.site.body(name))[1] == "utf-8"

    def given(self, url: bytes) -> Page:
        """The page as the model has it."""
        self.open += 1
        links = self.model.links.get(url.decode(), [])
        value = ("Found", listed(text(link.url.encode()) for link in links), self.model.skipped[url.decode()])
        texts = sorted((one, reason) for (one, reason), (pages, _) in self.model.invalid.items() if url.decode() in pages)
        return Page(value, None, tuple((one.encode("utf-8", "replace"), reason) for one, reason in texts), None)

    def invalid(self, url: bytes, read: Read) -> Iterable[Tuple[bytes, str]]:
        """The links of a file that have no URL or lack their slashes, and what is wrong with each."""
        link_url = self.library.function("saved_pages.SavedWeb.link_url")
        invalid_kind = self.library.function("document_links.Schemes.invalid_kind")
        lacks_slashes = self.library.function("document_links.Schemes.lacks_slashes")
        for link in items(read.written):
            if lacks_slashes(link) or link_url(text(url), link) == NONE:
                kind = invalid_kind(link)
                if kind[0] == "Some":
                    yield unlisted(link), kind[1][0]

    # ---- crawls

    def crawl(self, starts: Iterable[bytes]) -> List[Tuple[bytes, Page]]:
        """The pages that are reached from these URLs through the URLs of the top's host, in the order of their URLs."""
        host = self.library.function("crawl_keys.HostFilter.allows")
        suffixes = listed([host_key(self.files.server.top)])
        links_of = self.library.function("crawl_pages.Pages.links_of")
        allowed: Dict[bytes, bool] = {}
        reached: Dict[bytes, Page] = {}
        waiting = list(starts)
        while waiting:
            url = waiting.pop()
            if url in reached:
                continue
            if url not in allowed:
                allowed[url] = host(suffixes, text(url))
            if allowed[url]:
                reached[url] = self.at(url)
                waiting += map(unlisted, items(links_of(reached[url].value)))
        return sorted(reached.items())

    def starts(self, is_whole: bool) -> List[bytes]:
        """The URLs at which a check starts. Those of documents only if the check is of the whole folder."""
        settings, top = self.model.settings, self.files.server.top
        seed_link = self.library.function("mercator_site.Seeds.seed_link")
        links = listed(seed_link(settings.is_rooted(), text(seed.encode())) for seed in settings.seeds)
        is_out = self.library.function("mercator_site.*.is_left_out")(settings.reachable, self.at(unlisted(top)).value)
        found = [resolve(top, link) for link in items(self.library.function("mercator_site.*.starts")(is_out, links))]
        urls = [unlisted(one[1]) for one in found if one[0] == "Ok"]
        return urls + (self.documents() if is_whole and not settings.reachable else [])

    def listed(self) -> Value:
        """The URLs that sitemaps list."""
        files = self.files.value
        named = self.library.function("saved_site.Sitemaps.named_sitemaps")(files)
        may_be_sitemap = self.library.function("site_files.Own.may_be_sitemap")
        first = self.library.function("saved_site.Sitemaps.links_at")(self.found_at(map(unlisted, items(named))), named)
        others = [unlisted(url) for url in items(first) if may_be_sitemap(files, url)]
        found = self.found_at([*map(unlisted, items(named)), *others])
        return self.library.function("saved_site.Sitemaps.listed_in")(files, found)

    def found_at(self, urls: Iterable[bytes]) -> Value:
        """The pages at some URLs, with these."""
        return listed(pair(text(url), self.at(url).value) for url in urls)

    def documents(self) -> List[bytes]:
        """The own URLs of the documents at which a check starts."""
        start_at = self.library.function("site_files.Own.start_at")
        found = [start_at(self.files.value, number) for number, _ in enumerate(items(self.files.value.pages))]
        return [unlisted(one[1]) for one in found if one[0] == "Some"]


def results_of(found: List[Tuple[bytes, Page]]) -> Value:
    """The results of a crawl."""
    return listed(Record(url=text(url), page=page.value) for url, page in found)


def model_errors(model: Model, found: List[Tuple[bytes, Page]]) -> Iterator[str]:
    """The pages of a crawl below the top that the model does not have, or has with other links."""
    pages = {url.decode(): page for url, page in found if url.decode().startswith(str(model.site.base))}
    for url in sorted({*pages, *model.responses}):
        if url not in pages or url not in model.responses:
            yield f"{url} is reached only by {'the model' if url in model.responses else 'the definitions'}"
            continue
        response, value = model.responses[url], pages[url].value
        if isinstance(response, Found):
            links = [link.url for link in model.links[url]]
            if value[0] != "Found" or [unlisted(link).decode() for link in items(value[1])] != links or value[2] != model.skipped[url]:
                yield f"{url}: other links than in the model"


def web_errors(pages: Pages, web: bytes) -> Iterator[str]:
    """The pages of a saved web that are not those of the server, and pages of the folder that it does not have."""
    fits = pages.library.function("document_links.Texts.fits")
    found = under_in(web)
    for url, under in found.items():
        page = pages.at(url)
        if page.value[0] == "Missing":
            yield f"{url!r}: a page in the saved web, by the definitions none"
        elif page.under is not None and not same(page.under, under):
            yield f"{url!r}: {shown(under)[:400]}, by the definitions {shown(page.under)[:400]}"
    for entry in items(pages.files.value.pages):
        if unlisted(entry.url) not in found and fits(5, entry.url):
            yield f"{unlisted(entry.url)!r}: no page in the saved web"


def under_in(web: bytes) -> Dict[bytes, Value]:
    """By URL, the texts of links, or of a redirect, in a saved web."""
    links: Dict[bytes, List[Value]] = {}
    moved: Dict[bytes, Value] = {}
    url = b""
    for line in web.split(b"\n")[1:-1]:
        word, _, rest = line.partition(b" ")
        if word == b"page":
            url = rest
            links[url] = []
        elif word == b"link":
            links[url].append(text(rest))
        else:
            moved[url] = text(rest)
    return {one: ("Moved", moved[one]) if one in moved else ("Links", listed(texts)) for one, texts in links.items()}
