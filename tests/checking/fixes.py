"""The links that `check --fix` rewrites, by the rules in the manual: the new bytes of each file, the diff and the notes.

A link with a move leads to a redirect from a folder without its last slash, or to a missing page that has one candidate: the suggested
page, if it has the same file name, or if the whole paths differ only in case. The query of the link stays.
"""

from __future__ import annotations

import os
import re
from typing import Dict, Iterator, List, NamedTuple, Optional, Tuple

import drawn
from checking.documents import TOOL, Document, document_of, with_query_in
from checking.model import Alias, Base, Found, Model, Moved, Row, begins_path, in_lower_case, last_of, origin_of
from checking.model import written as line_of
from checking.printing import shown, targets

SCHEME = re.compile("[A-Za-z][A-Za-z0-9+.-]*:")
# What a new link may consist of: no quotes, references, parentheses, commas or white space
PLAIN = re.compile(r"[A-Za-z0-9._~%/:@!$*+;=\[\]^{}|-]*")
PATH = re.compile("[^?#]*")
DOCUMENTS = ("html", "xml", "")  # the forms of files whose links are rewritten
# Why a link stays as it is
ENCODING, WRITTEN = "the file is not in UTF-8, or begins with a byte order mark", "it is not written as it is read, or follows another one in a list"
NEW_TEXT, OTHER_CHANGES = "it has no path, or its new text would need escapes or lead elsewhere", "rewriting the file would change other links or text"

Moves = Dict[str, str]  # where links lead, and where they are to lead


class Change(NamedTuple):
    """A file with its bytes before and after."""

    name: bytes
    old: bytes
    new: bytes
    links: int  # how many are rewritten


class Fixes(NamedTuple):
    """What --fix does with a folder."""

    changes: List[Change]
    notes: List[str]
    kinds: List[str]  # of each link that is rewritten


class Fixer:
    """Rewrites the links of a folder's documents, as far as it is certain where they are to lead."""

    def __init__(self, model: Model) -> None:
        self.model, self.site = model, model.site
        self.redirects = dict(self.folders_without_slash())
        self.candidates = self.moves_by_file()

    def folders_without_slash(self) -> Iterator[Tuple[str, str]]:
        """The URLs that redirect to a file whose URL has one more slash, at the end of its path."""
        for url, response in self.model.responses.items():
            path, mark, query = url.partition("?")
            if isinstance(response, Moved) and response.url == path + "/" + mark + query and isinstance(self.site.served(response.url), (Found, Alias)):
                yield url, response.url

    def moves_by_file(self) -> Dict[str, Moves]:
        """By file, the missing pages that have one candidate and to which a reported link of the file leads."""
        found: Dict[str, Moves] = {}
        for row, places in targets(list(self.model.missing_pages(self.model.linking()))):
            if row["same_name"] is not None:
                url, candidate = self.whole(row["target"]), self.whole(row["same_name"])
                if self.is_certain(url, candidate, places):
                    for place in places:
                        found.setdefault(place["file"], {})[url] = with_query_of(url, candidate)
        return found

    def is_certain(self, url: str, candidate: str, places: List[Row]) -> bool:
        """Whether the links at these locations can only be meant for a candidate: not those to an index file or, without BASE, to a path from the root.

        The candidate has the same file name, or the same path in another case. With the query of the link, the server returns the same file.
        """
        is_named = last_of(url) == last_of(candidate) != "" or in_lower_case(url.partition("?")[0]) == in_lower_case(candidate)
        is_outside = self.model.settings.is_rooted() and any((place["written"] or "").startswith(("/", "\\")) for place in places)
        files = [self.site.served(one) for one in (candidate, with_query_of(url, candidate))]
        is_same = all(isinstance(one, (Found, Alias)) for one in files) and len({one.name for one in files if isinstance(one, (Found, Alias))}) == 1
        return is_named and "?" not in candidate and is_same and last_of(url) not in self.model.settings.indices and not is_outside

    def whole(self, target: str) -> str:
        """The URL of a target of the report."""
        front = self.model.settings.front
        return target if not front or target.startswith(("http://", "https://")) else front + ("" if target == "./" else target)

    def fixes(self) -> Fixes:
        """What is done with the folder."""
        changes: List[Change] = []
        notes: List[str] = []
        kinds: List[str] = []
        pages = {response.name: url for url, response in self.model.responses.items() if isinstance(response, Found)}
        for name in sorted(pages):
            if self.site.form(name) in DOCUMENTS and self.site.document(name) is not None:
                page = Page(self, name, pages[name])
                edits = page.edits()
                new = page.checked(edits)
                left = page.left(new)
                if (left or new != page.body) and self.has_link(name):
                    notes.append(f"{shown(os.fsdecode(name))}: not rewritten, because its path has a symbolic link")
                    continue
                notes += [f"{shown(os.fsdecode(name))}: links left as they are: {left}{page.first_left(new != page.body)}"] if left else []
                changes += [Change(name, page.body, new, len(edits))] if new != page.body else []
                kinds += [edit.kind for edit in edits] if new != page.body else []
        return Fixes(changes, notes, kinds)

    def has_link(self, name: bytes) -> bool:
        """Whether a part of the path of a file is a symbolic link."""
        parts = name.split(b"/")
        return any(os.path.islink(os.path.join(self.site.folder, *parts[:count])) for count in range(1, len(parts) + 1))


class Edit(NamedTuple):
    """A text that replaces another one in a file."""

    at: int
    old: str
    new: str
    kind: str


class Page:
    """A document and its links."""

    def __init__(self, fixer: Fixer, name: bytes, url: str) -> None:
        self.model, self.name, self.url = fixer.model, name, url
        self.form = fixer.site.form(name) or "html"
        self.body = fixer.site.body(name)
        self.text = utf8(self.body)
        self.lines = (self.text or "").split("\n")
        document = fixer.site.document(name)
        assert document is not None
        self.document = document
        self.redirects = fixer.redirects
        self.moves = {**fixer.redirects, **fixer.candidates.get(os.fsdecode(name), {})}
        self.leads = self.leads_of(document)
        self.reasons: List[Tuple[int, int, Optional[str]]] = []  # the location of each link with a move, and why it has no edit

    def leads_of(self, document: Document) -> List[str]:
        """Where each link of a version of the document leads: to a URL, or the text of one that is neither http nor https. Nowhere if it is too long."""
        page = Base(drawn.url_of(self.url), False, "")
        base = page if document.base is None else self.model.base_of(TOOL.cleaned(document.base), page)
        texts = [with_query_in(TOOL.cleaned(link.text), document.charset) for link in document.links]
        return [self.model.target_of(text, base) or text if line_of(text) is not None else "" for text in texts]

    def edits(self) -> List[Edit]:
        """The changes of the document in the order of its text. Of the links at one location the first one that can be rewritten counts."""
        found: Dict[int, Edit] = {}
        for link, lead in zip(self.document.links, self.leads):
            if lead not in self.moves:
                continue
            line, column = self.document.lines.place(link.at)
            at = self.position(line, column)
            written = TOOL.cleaned(link.text)
            new = self.new_text(written, lead)
            is_there = self.text is not None and at is not None and at not in found and self.text.startswith(written, at)
            reason = ENCODING if self.text is None else WRITTEN if not is_there else NEW_TEXT if new is None else None
            self.reasons.append((line, column, reason))
            if at is not None and new is not None and reason is None:
                found[at] = Edit(at, written, new, self.kind_of(lead))
        return [found[at] for at in sorted(found)]

    def first_left(self, is_changed: bool) -> str:
        """The first link in the file that stays as it is, and why, in brackets. The attributes of a tag are not read in their order."""
        left = [(line, column, reason or OTHER_CHANGES) for line, column, reason in self.reasons if reason or not is_changed]
        line, column, reason = min(left, key=lambda link: link[:2], default=(0, 0, ""))
        return f" (the first is at {line}:{column}: {reason})" if left else ""

    def kind_of(self, lead: str) -> str:
        """The kind of a link that leads to a URL with a move, as it is counted."""
        if lead in self.redirects:
            return "fixed_redirect"
        return "fixed_name" if last_of(lead) == last_of(self.moves[lead]) else "fixed_case"

    def position(self, line: int, column: int) -> Optional[int]:
        """The position of a location in the bytes as UTF-8, if there is one. Another encoding of the document does not matter."""
        begin = sum(len(text) + 1 for text in self.lines[:line - 1])
        return begin + column - 1 if line <= len(self.lines) and column <= len(self.lines[line - 1]) + 1 else None

    def new_text(self, written: str, lead: str) -> Optional[str]:
        """The new text of a link that leads to a URL with a move, if it is certain."""
        found = PATH.match(written)
        path = found[0] if found else ""
        if not path:
            return None
        rest = written[len(path):]
        if lead in self.redirects:
            return path + "/" + rest
        new = self.new_path(written, self.moves[lead].partition("?")[0])
        is_right = written.startswith(("/", "\\")) or SCHEME.match(written) or self.leads_to(written, lead) and self.leads_to(new + rest, self.moves[lead])
        return new + rest if is_right and PLAIN.fullmatch(new) else None

    def leads_to(self, text: str, url: str) -> bool:
        """Whether a text in the document leads to a URL if no base element changes that."""
        return self.model.target_of(text, Base(drawn.url_of(self.url), False, "")) == url

    def new_path(self, written: str, target: str) -> str:
        """The new text before the query and the fragment, in the form of the old one."""
        if SCHEME.match(written):
            return target
        if begins_path(written):
            top = self.model.site.base
            return "/" + target[len(str(top) if self.model.settings.is_rooted() else origin_of(top)):]
        if written.startswith(("/", "\\")):
            return target.partition(":")[2]
        return relative(self.url.partition("?")[0], target)

    def checked(self, edits: List[Edit]) -> bytes:
        """The new bytes, or the old ones if a link of the new document leads elsewhere than it did and than it is to lead."""
        parts: List[str] = []
        at = 0
        for edit in edits:
            assert self.text is not None
            parts += [self.text[at:edit.at], edit.new]
            at = edit.at + len(edit.old)
        new = ("".join(parts) + (self.text or "")[at:]).encode() if edits else self.body
        leads = self.leads_of(self.read(new))
        is_right = len(leads) == len(self.leads) and all(now in (old, self.moves.get(old)) for now, old in zip(leads, self.leads))
        is_all = sum(now != old for now, old in zip(leads, self.leads)) == len(edits)
        return new if is_right and is_all else self.body

    def read(self, body: bytes) -> Document:
        """Reads another version of the document."""
        return document_of(body, self.form, self.model.settings.styles)

    def left(self, new: bytes) -> int:
        """How many links with a move lead where they led."""
        return sum(now in self.moves and now == old for now, old in zip(self.leads_of(self.read(new)), self.leads))


def with_query_of(url: str, candidate: str) -> str:
    """The URL of a candidate with the query of another URL."""
    return candidate + "".join(url.partition("?")[1:])


def utf8(body: bytes) -> Optional[str]:
    """The text of bytes in UTF-8 without a byte order mark."""
    try:
        return None if body.startswith(b"\xef\xbb\xbf") else body.decode("utf-8")
    except UnicodeError:
        return None


def relative(own: str, target: str) -> str:
    """A link from one URL to another on the same host."""
    shared = os.path.commonprefix([own, target]).rpartition("/")[0] + "/"
    return "../" * own.count("/", len(shared)) + target[len(shared):]


def fixes_of(model: Model) -> Fixes:
    """What --fix does with the folder of a model."""
    return Fixes([], [], []) if model.error is not None else Fixer(model).fixes()


def diff_of(changes: List[Change]) -> bytes:
    """The changes as a diff, with one hunk for each changed line. A tab ends a name with a space, so that `patch` reads all of it."""
    lines: List[bytes] = []
    for change in changes:
        name = shown(os.fsdecode(change.name)).encode() + b"\t" * (b" " in change.name)
        lines += [b"--- a/%b\n" % name, b"+++ b/%b\n" % name]
        pairs = zip(change.old.split(b"\n"), change.new.split(b"\n"))
        last = change.old.count(b"\n") + 1
        for number, (old, new) in enumerate(pairs, 1):
            end = b"\n\\ No newline at end of file\n" if number == last else b"\n"
            lines += [b"@@ -%d +%d @@\n" % (number, number), b"-", old, end, b"+", new, end] if old != new else []
    return b"".join(lines)
