"""The links, the base and the anchors of documents, by `html_links`, `document_links` and `page_anchors`, compared with the model's."""

from __future__ import annotations

from typing import Dict, Iterator, List, NamedTuple, Optional, Set, Tuple

from checking.documents import TOOL, Document, marked_text, sheet_text, text_of
from checking.model import Found, Model, has_id
from definitions.library import utf8_lossy
from definitions.sites import Files
from definitions.translate import Library
from definitions.values import NIL, NONE, Record, Value, items, listed, reference, some, text, unlisted

SYNTAXES = {"html": ("Html",), "xml": ("Xhtml",), "": ("Html",)}
KINDS = {"css": ("StyleSheet",), "feed": ("Feed",), "list": ("UrlList",)}
LIMIT = 1 << 30
LONG = 300_000  # the length of a text from which on it is not read: a definition calls itself for each byte
CHARSETS = {"Windows1252": "windows-1252", "Other": "other"}  # the names of encodings in the model; the others are Unicode
SHORT, FEW = 2000, 5  # the length of a text, and the number of its links, whose points are compared


class Read(NamedTuple):
    """What the definitions find in a file."""

    links: Value  # the texts of its links as they are in the file
    positions: List[int]  # and their positions
    written: Value  # as they are in a saved web
    fits: bool  # whether each can be in a line; otherwise the definitions say nothing of the links in a saved web
    base: Optional[str]
    ids: Value


def utf8(given: str) -> bytes:
    """The bytes of a text, in which half a pair of UTF-16 is replaced."""
    return given.encode("utf-8", "replace")


def text_in(form: str, body: bytes) -> Tuple[str, str]:
    """The text of a file and its encoding. Definitions say nothing of encodings but UTF-8."""
    if form == "css":
        return sheet_text(body)
    if form in ("feed", "list"):
        return marked_text(body) or (body.decode("utf-8", "replace"), "utf-8")
    return text_of(body)


def options_of(files: Files, form: str) -> Record:
    """The options with which a file of a form is read."""
    rules, site = files.value.rules.now, files.value.site
    root = some(reference(text(unlisted(site.top)[len(unlisted(site.origin)):]))) if rules.rooted else NONE
    return Record(syntax=SYNTAXES.get(form, ("Html",)), styles=rules.styles, anchors=rules.anchors, places=True, root=root, byte_limit=LIMIT)


def read(library: Library, files: Files, form: str, given: Value) -> Read:
    """What the definitions find in a file of a form with this text."""
    options = options_of(files, form)
    positions = library.function("document_links.Places.positions_in")(KINDS.get(form, ("Document", options.syntax, options.styles)), given)
    if form in KINDS:
        links = library.function("document_links.Encoding.links_in")(KINDS[form], given)
        base, ids = NONE, NIL
    else:
        syntax = options.syntax
        links = library.function("html_links.Links.links_of")(options.styles, syntax, given)
        base, ids = library.function("html_links.Links.base_of")(syntax, given), library.function("html_links.Links.ids_of")(syntax, given)
    rooted = library.function("document_links.Rooted.all_rooted")(options.root, links)
    can_write, written = library.function("document_links.Written.can_write"), library.function("document_links.Written.written")
    fits = all(can_write(("Utf8",), link) for link in items(rooted))
    return Read(links, list(items(positions)), listed(map(written, items(rooted))), fits, None if base[0] == "None" else unlisted(base[1]).decode(), ids)


def link_texts(library: Library, read_links: Value) -> List[str]:
    """The texts of links without what a URL parser drops."""
    clean = library.function("document_links.Written.clean")
    return [unlisted(clean(link)).decode() for link in items(read_links)]


def errors(library: Library, model: Model, files: Files, found: Dict[bytes, Read]) -> Iterator[str]:
    """The differences between the definitions and the model in all files that are read. `found` gets what the definitions find."""
    for name in files.names:
        document = None if name.endswith(b"/") else model.site.document(name)
        form = model.site.form(name)
        if form == "" and not name.endswith(b"/"):
            yield from start_errors(library, name, model.site.body(name))
        if document is None or form is None:
            continue
        body = model.site.body(name)
        given, charset = text_in(form, body)
        yield from charset_errors(library, name, form, body, charset)
        if charset == "other" or len(given) > LONG:
            continue
        value = text(utf8(given))
        if charset == "utf-8" and not marked_text(body):
            without_mark = library.function("document_links.Encoding.without_mark")
            if unlisted(utf8_lossy(without_mark(text(body)))) != utf8(given):
                yield f"{name!r}: IsTextIn Utf8: another text than in the model"
        if charset == "windows-1252" and unlisted(library.function("document_links.Encoding.windows_text")(text(body))) != utf8(given):
            yield f"{name!r}: windows_text: another text than in the model"
        found[name] = read(library, files, form, value)
        yield from document_errors(library, name, document, found[name])
        if found[name].positions != [len(utf8(given[:link.at])) for link in document.links]:
            yield f"{name!r}: positions_in: {found[name].positions}, the model has {[link.at for link in document.links]}"
        if len(given) < SHORT:
            yield from point_errors(library, name, document, given)
    yield from anchor_errors(library, model, found)


def start_errors(library: Library, name: bytes, body: bytes) -> Iterator[str]:
    """A file without a known suffix that is a document only by the definition, or only in the model."""
    is_document = library.function("document_links.Sniffing.is_document")(text(body[:SHORT]))
    if is_document != TOOL.is_document(None, body):
        yield f"{name!r}: is_document: {is_document}"


def charset_errors(library: Library, name: bytes, form: str, body: bytes, charset: str) -> Iterator[str]:
    """A file in another encoding than in the model."""
    if len(body) <= LONG:
        found = library.function("document_links.Encoding.charset_of")(KINDS.get(form, ("Document", ("Html",), True)), text(body))
        if CHARSETS.get(found[0], "utf-8") != charset:
            yield f"{name!r}: charset_of: {found[0]}, the model has {charset}"


def document_errors(library: Library, name: bytes, document: Document, one: Read) -> Iterator[str]:
    """The differences in a file."""
    links = link_texts(library, one.links)
    expected = [TOOL.cleaned(link.text) for link in document.links]
    if links != expected:
        first = next((pair for pair in zip(links, expected) if pair[0] != pair[1]), (len(links), len(expected)))
        yield f"{name!r}: links: {first[0]!r}, the model has {first[1]!r}"
    if one.base != document.base:
        yield f"{name!r}: base_of: {one.base!r}, the model has {document.base!r}"
    ids: Set[str] = {unlisted(found).decode() for found in items(one.ids)}
    if document.ids is not None and ids != set(document.ids):
        yield f"{name!r}: ids_of: {sorted(ids ^ set(document.ids))[:3]} in only one of both"


def point_errors(library: Library, name: bytes, document: Document, given: str) -> Iterator[str]:
    """The positions of links in a text whose line and column are others than in the model."""
    point_at = library.function("document_links.Places.point_at")
    for link in document.links[:FEW]:
        point = point_at(text(utf8(given)), len(utf8(given[:link.at])))
        if (point.line, point.column) != document.lines.place(link.at):
            yield f"{name!r}: point_at {link.at}: {point.line}:{point.column}, the model has {document.lines.place(link.at)}"


def anchor_errors(library: Library, model: Model, found: Dict[bytes, Read]) -> Iterator[str]:
    """The fragments of links that are judged in another way than in the model."""
    is_indicated = library.function("page_anchors.Indicated.is_indicated")
    seen: Set[Tuple[bytes, str]] = set()
    for links in model.links.values():
        for link in links:
            response = model.site.served(link.url)
            if link.fragment is None or not isinstance(response, Found) or response.name not in found or (response.name, link.fragment) in seen:
                continue
            seen.add((response.name, link.fragment))
            document = model.site.document(response.name)
            if document is None or document.ids is None:
                continue
            is_there = is_indicated(found[response.name].ids, text(utf8(link.fragment)))
            if is_there != has_id(link.fragment, document.ids):
                yield f"{response.name!r}: is_indicated {link.fragment!r}: {is_there}"
