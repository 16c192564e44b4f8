"""The definitions of a server in crates/site_files/specs (Server.antt, Pages.antt, Hints.antt, Skipped.antt): the same functions, with the same cases in their order.

`server_error` compares them with the model, which is written from other rules.
"""

from __future__ import annotations

import os
from functools import partial
from typing import Callable, Dict, List, NamedTuple, Optional, Tuple, Union
from urllib.parse import quote_from_bytes, unquote_to_bytes

import drawn
from checking import model
from checking.documents import TOOL, form_of, is_page

Name = bytes
Names = Tuple[Name, ...]


class Host(NamedTuple):
    """The rules of a host."""

    indices: Names
    queries: bool
    exact: bool
    fallback: bool


class Server(NamedTuple):
    """A host, and the place of a folder on it."""

    host: Host
    origin: bytes
    top: bytes


class Key(NamedTuple):
    """What is looked up: a path below the top and a query, both without escapes."""

    path: bytes
    query: Optional[bytes]


def is_same_folder(name: Name) -> bool:
    """The folder itself."""
    return name in (b"", b".")


def is_parent(name: Name) -> bool:
    """The folder above."""
    return name == b".."


def without_last(names: Names) -> Optional[Names]:
    """The list without its last element, if it has one."""
    return names[:-1] if names else None


def stepped(way: Names, name: Name) -> Optional[Names]:
    """The way to a folder, after one more name."""
    if is_same_folder(name):
        return way
    if is_parent(name):
        return without_last(way)
    return (*way, name)


def walked(way: Names, names: Names) -> Optional[Names]:
    """The way that the names of a path lead."""
    if not names:
        return way
    following = stepped(way, names[0])
    return None if following is None else walked(following, names[1:])


def names_of(path: bytes) -> Names:
    """The names between the slashes of a path."""
    return tuple(path.split(b"/"))


def ends_in_folder(names: Names) -> bool:
    """The last name is not that of a file."""
    return is_same_folder(names[-1]) or is_parent(names[-1])


def path_of(is_folder: bool, way: Names) -> bytes:
    """The path of a way."""
    return b"/".join((*way, b"") if is_folder else way)


def looked_up(path: bytes) -> Optional[bytes]:
    """The path without empty names and dots."""
    way = walked((), names_of(path))
    return None if way is None else path_of(ends_in_folder(names_of(path)), way)


def after_front(front: bytes, text: bytes) -> Optional[bytes]:
    """The text after its front, if it begins with that."""
    return text[len(front):] if text.startswith(front) else None


def before_query(text: bytes) -> bytes:
    """What is before the first `?`, or all."""
    return text.partition(b"?")[0]


def query_of(text: bytes) -> Optional[bytes]:
    """What is after the first `?`, if there is one."""
    return text.partition(b"?")[2] if b"?" in text else None


def encoded(text: bytes, safe: str) -> bytes:
    """The text with its escapes."""
    return quote_from_bytes(text, safe=safe).encode()


def respelled(path: bytes) -> bytes:
    """The escapes of each name of a path."""
    return b"/".join(encoded(unquote_to_bytes(name), TOOL.IN_NAME) for name in names_of(path))


def path_at(server: Server, path: bytes) -> Optional[bytes]:
    """What is looked up for the path of a URL, if that is below the top."""
    rest = after_front(server.origin, path)
    below = None if rest is None else after_front(server.top, server.origin + respelled(rest))
    return None if below is None else looked_up(unquote_to_bytes(below))


def known_query(host: Host, query: Optional[bytes]) -> Optional[bytes]:
    """The query of a URL, if it counts."""
    return query if host.queries else None


def key_with(query: Optional[bytes], path: bytes) -> Key:
    """The key of a path without escapes and of a query with its escapes."""
    return Key(path, None if query is None else unquote_to_bytes(query))


def key_of(server: Server, url: bytes) -> Optional[Key]:
    """The key of a URL, if that is below the top."""
    path = path_at(server, before_query(url))
    return None if path is None else key_with(known_query(server.host, query_of(url)), path)


def with_mark(query: Optional[bytes]) -> bytes:
    """A question mark and a query with its escapes."""
    return b"" if query is None else b"?" + encoded(query, TOOL.IN_QUERY)


def url_of(top: bytes, key: Key) -> bytes:
    """The URL of a key below the top, as a server writes it."""
    return top + encoded(key.path, TOOL.IN_NAME + "/") + with_mark(key.query)


def is_accepted(host: Host, plain: bytes, url: bytes) -> bool:
    """The URL is spelled as a server accepts it, if this is the URL of its key."""
    return not host.exact or plain == url


def plain_url(server: Server, url: bytes) -> Optional[bytes]:
    """The URL of the key of a URL that a server accepts."""
    key = key_of(server, url)
    if key is None:
        return None
    return url_of(server.top, key) if is_accepted(server.host, url_of(server.top, key), url) else None


class SkippedLink(NamedTuple):
    """A symbolic link that is not followed: it leads out of the folder, or to nothing."""

    name: Name
    is_outside: bool


class Folder(NamedTuple):
    """The names in a folder, the folders that are listed by another name, with that name, and the symbolic links that are not followed."""

    names: Names
    links: Tuple[Tuple[Name, Name], ...]
    skipped: Tuple[SkippedLink, ...]


class Moved(NamedTuple):
    """A redirect."""

    url: bytes


class Found(NamedTuple):
    """The file with this index among the names."""

    number: int


Response = Union[Moved, Found, None]


class Page(NamedTuple):
    """What is returned for the URL of a text."""

    text: bytes
    response: Response


def ends_in_slash(name: Name) -> bool:
    """The name is that of a folder."""
    return name[-1:] == b"/"


def path_in(queries: bool, name: Name) -> bytes:
    """The path of a file's name."""
    return before_query(name) if queries else name


def query_in(queries: bool, name: Name) -> Optional[bytes]:
    """The query of a file's name."""
    return query_of(name) if queries else None


def file_page(server: Server, number: int, name: Name) -> Page:
    """A file at the URL of its name."""
    key = key_with(query_in(server.host.queries, name), path_in(server.host.queries, name))
    return Page(url_of(server.top, key), Found(number))


def named_page(server: Server, number: int, name: Name) -> Optional[Page]:
    """A file at the URL of its name."""
    return None if ends_in_slash(name) else file_page(server, number, name)


def folder_of(index: Name, path: bytes) -> Optional[bytes]:
    """The folder of the file with this path, if that is the index file of this name."""
    folder = path[:max(len(path) - len(index), 0)]
    return folder if path.endswith(index) and (not folder or ends_in_slash(folder)) else None


def index_page(server: Server, index: Name, number: int, name: Name) -> Optional[Page]:
    """A file at the URL of its folder."""
    folder = None if ends_in_slash(name) else folder_of(index, path_in(server.host.queries, name))
    if folder is None:
        return None
    return Page(url_of(server.top, key_with(query_in(server.host.queries, name), folder)), Found(number))


def moved_page(top: bytes, name: Name) -> Optional[Page]:
    """A folder without its slash."""
    if not ends_in_slash(name):
        return None
    return Page(url_of(top, key_with(None, name[:-1])), Moved(url_of(top, key_with(None, name))))


def pages(server: Server, names: Names) -> List[Page]:
    """All pages. Of those at one URL the first counts."""
    files = list(enumerate(names))
    found = [named_page(server, number, name) for number, name in files]
    found += [index_page(server, index, number, name) for index in server.host.indices for number, name in files]
    found += [moved_page(server.top, name) for name in names]
    return [page for page in found if page is not None]


def canonical(text: bytes) -> bytes:
    """The URL of a text."""
    return str(drawn.url_of(text.decode())).encode()


Table = Dict[bytes, Response]


def table_of(server: Server, names: Names) -> Table:
    """The response of `page_at` for each URL that has one. The definition searches the list instead."""
    table: Table = {}
    for page in pages(server, names):
        table.setdefault(canonical(page.text), page.response)
    return table


class LinkUrls(NamedTuple):
    """The URLs of the two names of a folder."""

    name: bytes
    own: bytes


def link_urls(top: bytes, link: Tuple[Name, Name]) -> LinkUrls:
    """The URLs of the names of a folder: the other one, and the one by which it is listed."""
    return LinkUrls(url_of(top, key_with(None, link[0])), url_of(top, key_with(None, link[1])))


def own_folder(links: List[LinkUrls], url: bytes) -> bytes:
    """The URL of a folder by the name by which it is listed."""
    return next((link.own for link in links if link.name == url), url)


Own = Callable[[bytes], bytes]
At = Callable[[bytes], Response]


def own_spelling(own: Own, front: bytes, names: Names) -> bytes:
    """A URL with the own URL of each of its folders, the first of them first."""
    if len(names) == 1:
        return front + names[0]
    return own_spelling(own, own(front + names[0] + b"/"), names[1:])


def with_html(url: bytes) -> bytes:
    """The URL with `.html` after its path."""
    path, mark, query = url.partition(b"?")
    return path + b".html" + mark + query


def fallback_at(at: At, host: Host, url: bytes) -> Response:
    """The page `x.html` in place of `x`, which is not a folder. `at` has the page at each URL."""
    return at(with_html(url)) if host.fallback and not ends_in_slash(before_query(url)) else None


def plain_at(at: At, host: Host, url: bytes) -> Response:
    """The page at a URL whose path and query are looked up."""
    return at(url) or fallback_at(at, host, url)


def found_at(at: At, own: Own, host: Host, plain: Optional[bytes]) -> Response:
    """The page that is looked up for the URL of a key, if there is a key."""
    return None if plain is None else plain_at(at, host, own_spelling(own, b"", names_of(plain)))


def spelled_at(at: At, own: Own, server: Server, url: bytes) -> Response:
    """The page that is looked up for a URL."""
    return found_at(at, own, server.host, plain_url(server, url))


def with_query(query: Optional[bytes], url: bytes) -> bytes:
    """The URL with the query of a request."""
    return url if query is None else url + b"?" + query


def response_at(server: Server, table: Table, folder: Folder, url: bytes) -> Response:
    """The page with this URL, or else the one that is looked up for it. A redirect keeps the query."""
    own = partial(own_folder, [link_urls(server.top, link) for link in folder.links])
    response = table.get(url) or spelled_at(table.get, own, server, url)
    return Moved(with_query(query_of(url), response.url)) if isinstance(response, Moved) else response


def texts_of(server: Server, number: int, name: Name) -> List[bytes]:
    """The texts of a file's URLs: those of its folder, then that of its name."""
    indexed = [index_page(server, index, number, name) for index in server.host.indices]
    return [page.text for page in indexed if page is not None] + [file_page(server, number, name).text]


def own_text(server: Server, table: Table, names: Names, number: int) -> Optional[bytes]:
    """The text of the first of them at which the page is the file."""
    found = (text for text in texts_of(server, number, names[number]) if table.get(canonical(text)) == Found(number))
    return next(found, None)


# ---- hints (Hints.antt)


class Hint(NamedTuple):
    """The file that another rule finds, by its index among the names: the fallback, or the name of an index file."""

    is_fallback: bool
    number: int


def last_name(path: bytes) -> bytes:
    """The last name on a path."""
    return path.rpartition(b"/")[2]


def is_home(path: bytes) -> bool:
    """The file with this path may be the page of its folder."""
    name = last_name(path).lower()
    is_home_name = name.startswith(b"index.") or name.startswith(b"default.") or name.startswith(b"home.")
    return is_home_name and (is_page(path) or form_of(path, True) == "")


def home_at(server: Server, number: int, query: Optional[bytes], path: bytes) -> Optional[Page]:
    """The file with this path at the URL of its folder, if it may be its page and the rules do not have its name."""
    folder = folder_of(last_name(path), path) if is_home(path) and last_name(path) not in server.host.indices else None
    return None if folder is None else Page(url_of(server.top, key_with(query, folder)), Found(number))


def home_page(server: Server, number: int, name: Name) -> Optional[Page]:
    """The page of a folder under another rule."""
    return home_at(server, number, query_in(server.host.queries, name), path_in(server.host.queries, name))


def homes_of(server: Server, names: Names) -> Table:
    """The pages of folders under other rules: at each URL the first."""
    found: Table = {}
    for number, name in enumerate(names):
        page = home_page(server, number, name)
        if page is not None:
            found.setdefault(canonical(page.text), page.response)
    return found


def found_file(response: Response) -> Optional[int]:
    """The file that is returned, if it is a file."""
    return response.number if isinstance(response, Found) else None


def html_hint(at: At, host: Host, url: bytes) -> Optional[Hint]:
    """The file that the fallback finds for this URL."""
    file = None if host.fallback or host.exact else found_file(fallback_at(at, host._replace(fallback=True), url))
    return None if file is None else Hint(True, file)


def index_hint(homes: At, url: bytes) -> Optional[Hint]:
    """The file that is the page of the folder at this URL, if the rules have its name."""
    file = found_file(homes(url))
    return None if file is None else Hint(False, file)


class FolderHint(NamedTuple):
    """The folder at this URL has no index file."""

    url: bytes


def is_subfolder(at: At, url: bytes) -> bool:
    """This is the URL of a folder below the top: there is a redirect at the URL without its slash."""
    return ends_in_slash(url) and isinstance(at(url[:-1]), Moved)


def folder_hint(at: At, top: bytes, url: bytes) -> Optional[FolderHint]:
    """That this is the URL of a folder: of the top, or of one below it."""
    return FolderHint(url) if url == top or is_subfolder(at, url) else None


class LinkHint(NamedTuple):
    """A symbolic link that is not followed leads out of the folder, or to nothing."""

    is_outside: bool


def outside_at(server: Server, folder: Folder, url: bytes) -> Optional[bool]:
    """Whether the first link with a URL leads out of the folder, if there is one. Its URL is that of a folder with its name, without the slash."""
    return next((link.is_outside for link in folder.skipped if url_of(server.top, key_with(None, link.name)) == url), None)


def outside_on(at: Callable[[bytes], Optional[bool]], front: bytes, names: Names) -> Optional[bool]:
    """Likewise for the first link on the path of a URL: at a front of it that ends before a slash, or at the URL itself."""
    if not names:
        return None
    found = at(front + names[0])
    return found if found is not None or len(names) == 1 else outside_on(at, front + names[0] + b"/", names[1:])


def link_hint(server: Server, folder: Folder, url: bytes) -> Optional[LinkHint]:
    """The first symbolic link on the path of this URL that is not followed."""
    is_outside = outside_on(partial(outside_at, server, folder), b"", names_of(url))
    return None if is_outside is None else LinkHint(is_outside)


def hint_at(server: Server, tables: Tuple[Table, Table], folder: Folder, url: bytes) -> Union[Hint, LinkHint, FolderHint, None]:
    """The hint for a URL, by the pages at each URL and those under other rules."""
    table, homes = tables
    plain = plain_url(server, url)
    if plain is None:
        return None
    own = partial(own_folder, [link_urls(server.top, link) for link in folder.links])
    looked_up = own_spelling(own, b"", names_of(plain))
    if table.get(looked_up) is not None:
        return None
    by_other_rules = html_hint(table.get, server.host, looked_up) or index_hint(homes.get, looked_up)
    return link_hint(server, folder, looked_up) or by_other_rules or folder_hint(table.get, server.top, looked_up)


# ---- against the model


def server_of(site: model.Site) -> Server:
    """The server of the model's site."""
    top = str(site.base)
    settings = site.settings
    host = Host(tuple(map(str.encode, settings.indices)), settings.queries, settings.exact, settings.fallback)
    return Server(host, top[:top.index("/", top.index("//") + 2)].encode(), top.encode())


def server_error(found: model.Model) -> Optional[str]:
    """A URL for which the definitions say something else than the model, or a file whose own URL they do."""
    site = found.site
    skipped = tuple(SkippedLink(name, hint == model.LEADS_OUT) for name, hint in sorted(site.skipped.items()))
    folder = Folder(tuple(sorted(site.names)), tuple(sorted(site.links.items())), skipped)
    server = server_of(site)
    table = table_of(server, folder.names)
    for number, name in enumerate(folder.names):
        own = own_text(server, table, folder.names, number)
        expected = site.own.get(name)
        if not ends_in_slash(name) and own != (None if expected is None else expected.encode()):
            return f"own URL of {name!r}: {own!r}, the model has {expected!r}"
    for url in found.responses:
        if model.is_short("page", url) and not is_response(site, folder, response_at(server, table, folder, url.encode()), url):
            return f"{url}: {response_at(server, table, folder, url.encode())}, the model has {found.responses[url]}"
    return hint_error(found, folder, table)


def hint_error(found: model.Model, folder: Folder, table: Table) -> Optional[str]:
    """A URL without a page for which the definitions have another hint than the model."""
    site = found.site
    server = server_of(site)
    tables = (table, homes_of(server, folder.names))
    for url in found.responses:
        if response_at(server, table, folder, url.encode()) is None and model.is_short("page", url):
            hint = hint_at(server, tables, folder, url.encode())
            text = None if hint is None else hint_text(site, folder, hint)
            if text != site.hint(url):
                return f"{url}: hint {text}, the model has {site.hint(url)}"
    return None


def hint_text(site: model.Site, folder: Folder, hint: Union[Hint, LinkHint, FolderHint]) -> str:
    """A hint as the model shows it."""
    if isinstance(hint, LinkHint):
        return model.LEADS_OUT if hint.is_outside else model.LEADS_NOWHERE
    if isinstance(hint, FolderHint):
        return model.NO_INDEX_FILE
    name = folder.names[hint.number]
    if hint.is_fallback:
        return f"{site.file_of(name)} exists: --fallback html"
    path = site.path(name)
    front, last = os.path.split(os.fsdecode(path))
    return f"{os.path.join(front, '') or './'} has {last}{os.fsdecode(name[len(path):])}: --index-file {last}"


def is_response(site: model.Site, folder: Folder, response: Response, url: str) -> bool:
    """Whether the model has this response for a URL. The model has none if the own URL of the file is too long for a line."""
    expected = site.response(url)
    if isinstance(response, Moved):
        return isinstance(expected, model.Moved) and expected.url.encode() == response.url
    if response is None:
        return expected is None
    name = folder.names[response.number]
    if not model.is_short("page", site.own[name]):
        return expected is None
    return isinstance(expected, (model.Found, model.Alias)) and expected.name == name
