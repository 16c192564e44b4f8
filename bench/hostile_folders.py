"""Folders that an attacker might make to be slow to check, for hostile.py.

A pattern is a function of a number. It yields the files of a folder, each with its name and its text. A name that ends in a slash is
an empty folder, and a `Link` is a symbolic link.
"""

from __future__ import annotations

import itertools
import os
import pathlib
import re
from typing import Callable, Iterator, NamedTuple, Union


class Link(NamedTuple):
    """A symbolic link to a path. If it leads to a file, which a server returns at the URL of the link too, that has `size` bytes."""

    path: str
    size: int = 0


Files = Iterator[tuple[str, Union[str, Link]]]
Pattern = Callable[[int], Files]
NEST = 20  # the depth of nested folders
LINE = 4000  # the bytes of a long query or path; a link may have 4,091


def links(texts: Iterator[str]) -> str:
    """A document with these links."""
    return "".join(f'<a href="{text}">' for text in texts)


def numbered(text: str, count: int) -> str:
    """A document with `count` links, each with its number in place of `{}`."""
    return links(text.format(number) for number in range(count))


def ordinary(pages: int, size: int, images: int = 0) -> Files:
    """Pages of equal size, with links to the next page and to missing ones, and empty images. With their paths they have `size` bytes."""
    names = ["index.html", *(f"p{number}.html" for number in range(1, pages))]
    pictures = [f"i{number}.png" for number in range(images)]
    size -= sum(map(len, pictures))
    number = 0
    for page, name in enumerate(names):
        following = names[(page + 1) % pages]
        text = ""
        while not text or len(text) < size // pages - len(name) - 20:
            text += f'<a href="{following}">x</a><a href="gone{number}">'
            number += 1
        yield name, text
    for name in pictures:
        yield name, ""


def ordinary_size(pages: int, size: int, images: int) -> int:
    """The size of the saved web of an ordinary folder."""
    lines = ["savedweb 2", "page http://a.test/", "link /"]
    for name, text in ordinary(pages, size, images):
        lines.append(f"page http://a.test/{name}")
        lines += [f"link {text}" for text in re.findall('href="(.*?)"', str(text))]
    return sum(map(len, lines)) + len(lines)


def ordinary_like(files: int, size: int, web: int) -> tuple[int, int]:
    """The numbers of pages and of images of the ordinary folder of a size whose saved web has at least `web` bytes, or as many as possible.

    It has no more pages than `files`, and images only if that many pages are not enough.
    """

    def pages_beside(images: int) -> int:
        return max(1, min(files, (size - 9 * images) // 64))

    least, most = -1, size // 10
    while most - least > 1 + most // 100:
        images = (least + most) // 2
        if ordinary_size(pages_beside(images), size, images) < web:
            least = images
        else:
            most = images
    images = 0 if ordinary_size(files, size, 0) >= web else most
    return (files, 0) if images == 0 else (pages_beside(images), images)


# ---------------------------------------------------------------- other spellings and queries


def nests(count: int, text: str) -> Files:
    """Nested folders: the index file of each has this text. No nest is deeper than NEST."""
    yield "index.html", numbered("n{}/", -(-count // NEST))
    for number in range(count):
        yield f"n{number // NEST}/" + "a/" * (number % NEST) + "index.html", text


def escapes_depth(count: int) -> Files:
    """Nested folders, with two spellings of a link to the next."""
    return nests(count, '<a href="a/"><a href="%61/">')


def moved_depth(count: int) -> Files:
    """Nested folders, with links to the next without its slash, in other spellings and with queries."""
    return nests(count, '<a href="a"><a href="%61"><a href="a?1"><a href="%61?2">')


def index_depth(count: int) -> Files:
    """Nested folders, with links to the next by the name of its index file."""
    return nests(count, '<a href="a/"><a href="a/index.html"><a href="a/%69ndex.html"><a href="a/index.html?1">')


def base_depth(count: int) -> Files:
    """Nested folders, whose base is another spelling of the next."""
    return nests(count, '<base href="%61/"><a href="./"><a href="?1"><a href="index.html">')


def links_depth(count: int) -> Files:
    """Nested folders, with two symbolic links to the next one."""
    yield "index.html", numbered("n{}/0/", -(-count // NEST))
    for number in range(count):
        nest, depth = divmod(number, NEST)
        yield f"n{nest}/{depth}/index.html", '<a href="x/"><a href="y/">'
        if depth + 1 < NEST and number + 1 < count:
            yield f"n{nest}/{depth}/x", Link(f"../{depth + 1}")
            yield f"n{nest}/{depth}/y", Link(f"../{depth + 1}")


def links_square(count: int) -> Files:
    """Symbolic links to one folder, which has as many files, and a link through each."""
    yield "index.html", numbered("l{}/f0.html", count)
    for number in range(count):
        yield f"a/f{number}.html", "x"
        yield f"l{number}", Link("a")


def links_to_file(count: int) -> Files:
    """A page with links, and as many symbolic links to it. Each is a page of its own, as if it were a copy."""
    text = numbered("gone{}", count)
    yield "index.html", numbered("l{}.html", count)
    yield "page.html", text
    for number in range(count):
        yield f"l{number}.html", Link("page.html", len(text))


def links_long(count: int) -> Files:
    """Long paths through a symbolic link from a deep folder to itself."""
    deep = "a/" * 200
    yield f"{deep}f.html", "x"
    yield f"{deep}x", Link(".")
    yield "index.html", links(f"{deep}{'x/' * 1700}f.html?{number}" for number in range(count))


def escapes_exp(count: int) -> Files:
    """One page in many spellings."""
    name = "abcdefghijklmnopqrst"
    spelled = ("".join(f"%{ord(c):02x}" if number >> place & 1 else c for place, c in enumerate(name)) for number in range(count))
    yield "index.html", links(f"{text}.html" for text in spelled)
    yield f"{name}.html", numbered("gone{}", 20)


def escapes_dirs(count: int) -> Files:
    """Pages in one folder, which is linked in two spellings."""
    yield "index.html", '<a href="%61/x.html">'
    yield "a/x.html", numbered("y{}.html", count) + '<a href="../%61/x.html"><a href="../a/x.html">'
    for number in range(count):
        yield f"a/y{number}.html", f'<a href="y{(number + 1) % count}.html">'


def many_slashes(count: int) -> Files:
    """Links with more and more slashes."""
    repeats = (number % 600 for number in range(count))
    yield "index.html", links("/./" * repeat + "x.html" for repeat in repeats)
    yield "x.html", '<a href=".//x.html">'


def slashes_relative(count: int) -> Files:
    """Pages in nested folders that link to themselves with one slash more."""
    return nests(count, '<a href="a/"><a href=".//"><a href="a//">')


def query_selfgrow(count: int) -> Files:
    """One page that links to itself with one query, many times."""
    yield "index.html", '<a href="p.html">'
    yield "p.html", '<a href="?1">' * count


def query_pages(count: int) -> Files:
    """Pages that link to each other, each with its own query."""
    yield "index.html", '<a href="p0.html">'
    for number in range(count):
        yield f"p{number}.html", f'<a href="p{(number + 1) % count}.html?{number}"><a href="?a">'


def query_square(count: int) -> Files:
    """One page that links to itself with many queries."""
    yield "index.html", numbered("?{}", count)


def query_cube(count: int) -> Files:
    """A page with many queries and many broken links."""
    yield "index.html", numbered("p.html?{}", count)
    yield "p.html", numbered("gone{}", count)


def queries_once(count: int) -> Files:
    """A page with many queries and one broken link."""
    yield "index.html", numbered("p.html?{}", count)
    yield "p.html", '<a href="gone">'


def empty_link_query(count: int) -> Files:
    """Links to the page itself, with many queries and with many fragments."""
    yield "index.html", links(text for number in range(count) for text in (f"?{number}", f"#f{number}"))


def query_long_page(count: int) -> Files:
    """Links to fragments of a page with a long query."""
    yield "index.html", f'<a href="?{"q" * LINE}">' + '<a href="#x">' * count


def anchors_queries(count: int) -> Files:
    """Missing anchors of a page with many queries and many anchors."""
    yield "p.html", "".join(f"<p id=x{number}>" for number in range(count))
    yield "index.html", numbered("p.html?{}#y", count)


# ---------------------------------------------------------------- redirects


def moved_chain(count: int) -> Files:
    """Folders that link to each other without their slashes."""
    yield "index.html", '<a href="d0">'
    for number in range(count):
        yield f"d{number}/index.html", f'<a href="../d{(number + 1) % count}">'


def moved_to_missing(count: int) -> Files:
    """Pages that link to one folder without an index file."""
    yield "dir/", ""
    yield "index.html", numbered("q{}.html", count)
    for number in range(count):
        yield f"q{number}.html", '<a href="dir">'


def many_moved(count: int) -> Files:
    """Links to many folders without index files."""
    yield "index.html", numbered("dir{}", count)
    for number in range(count):
        yield f"dir{number}/", ""


# ---------------------------------------------------------------- anchors


def many_anchors(count: int) -> Files:
    """Many missing anchors of a page with many anchors."""
    yield "index.html", numbered("p.html#{}", count)
    yield "p.html", "".join(f"<p id=x{number}>" for number in range(count))


def anchors_many_pages(count: int) -> Files:
    """Pages that link to missing anchors of one page with many anchors."""
    yield "index.html", numbered("q{}.html", count)
    yield "p.html", "".join(f"<p id=x{number}>" for number in range(count))
    for number in range(count):
        yield f"q{number}.html", f'<a href="p.html#y{number}">'


def ids_collide(count: int) -> Files:
    """Anchors with the same polynomial hash."""
    yield "index.html", "".join(f'<p id={text}><a href="#{text}x">' for text in colliding(count))


# ---------------------------------------------------------------- broken links


def same_target_many(count: int) -> Files:
    """Pages that each link three times to one missing page."""
    yield "index.html", numbered("q{}.html", count)
    for number in range(count):
        yield f"q{number}.html", '<a href="gone">' * 3


def gone_lines(count: int) -> Files:
    """Broken links, each on its own line."""
    yield "index.html", "".join(f'<a href="gone{number}">\n' for number in range(count))


def gone_oneline(count: int) -> Files:
    """Broken links on one line with letters beyond ASCII."""
    yield "index.html", "".join(f'\u00e9<a href="gone{number}">' for number in range(count))


def gone_oneline_same(count: int) -> Files:
    """Equal broken links on one line."""
    yield "index.html", '<a href="gone">' * count


def same_name(count: int) -> Files:
    """Links to missing files, whose name many files have."""
    yield "index.html", numbered("g{}/name.html", count)
    for number in range(count):
        yield f"f{number}/name.html", "x"


def same_name_one(count: int) -> Files:
    """Links to missing files, whose name one file has."""
    yield "index.html", numbered("g{}/name.html", count)
    yield "z/name.html", "x"


def same_name_linkers(count: int) -> Files:
    """The same, and that file also has broken links."""
    yield "index.html", '<a href="z/name.html">' + numbered("g{}/name.html", count)
    yield "z/name.html", numbered("../h{}/name.html", count)


def dotdot(count: int) -> Files:
    """Links with many dot segments."""
    yield "index.html", numbered("../" * 200 + "{}", count)


def base_long(count: int) -> Files:
    """Equal links below a long base."""
    yield "index.html", f'<base href="{"a/" * (LINE // 2)}">' + '<a href="x">' * count


def base_long_distinct(count: int) -> Files:
    """Distinct links below a long base. Each row of the report has the whole base."""
    yield "index.html", f'<base href="{"a/" * (LINE // 2 - 8)}">' + numbered("{}", count)


# ---------------------------------------------------------------- other folders


def deep(count: int) -> Files:
    """Folders that are nested as deep as a path may be long, with a link to the next."""
    for number in range(count):
        nest, depth = divmod(number, 900)
        yield f"n{nest}/" + "a/" * depth + "index.html", '<a href="a/">'
    yield "index.html", numbered("n{}/", -(-count // 900))


def external_many(count: int) -> Files:
    """Links to many other hosts."""
    yield "index.html", numbered("http://h{}.test/", count)


def unreached(count: int) -> Files:
    """Files to which no link leads."""
    yield "index.html", "x"
    for number in range(count):
        yield f"u{number}.html", "x"


def colliding(count: int) -> Iterator[str]:
    """Texts with the same polynomial hash of base 31."""
    digits = max(1, count).bit_length()
    return itertools.islice(("".join(text) for text in itertools.product(("Aa", "BB"), repeat=digits)), count)


def collide(count: int) -> Files:
    """Files whose names have the same polynomial hash."""
    yield "index.html", links(f"{text}.html" for text in colliding(count))
    for text in colliding(count):
        yield f"{text}.html", "x"


PATTERNS: dict[str, Pattern] = {
    pattern.__name__: pattern
    for pattern in (
        escapes_depth, moved_depth, index_depth, base_depth, links_depth, links_square, links_to_file, links_long, escapes_exp,
        escapes_dirs, many_slashes, slashes_relative, query_selfgrow, query_pages, query_square, query_cube, queries_once,
        empty_link_query, query_long_page, anchors_queries, moved_chain, moved_to_missing, many_moved, many_anchors, anchors_many_pages, ids_collide,
        same_target_many, gone_lines, gone_oneline, gone_oneline_same, same_name, same_name_one, same_name_linkers, dotdot,
        base_long, base_long_distinct, deep, external_many, unreached, collide,
    )
}


def size_of(files: Files) -> int:
    """The size of a folder: the bytes of its files, also through symbolic links to them, of the paths of links, and of all names."""
    size = 0
    for name, text in files:
        size += len(name.encode())
        size += len(text.path.encode()) + text.size if isinstance(text, Link) else len(text.encode())
    return size


def count_for(pattern: Pattern, size: int) -> int:
    """The greatest number for which a pattern's folder is not larger than `size`, but at least 1."""
    least, most = 1, 2
    while size_of(pattern(most)) <= size:
        least, most = most, 2 * most
    while most - least > max(1, least // 200):
        middle = (least + most) // 2
        if size_of(pattern(middle)) <= size:
            least = middle
        else:
            most = middle
    return least


def write(files: Files, folder: str) -> tuple[int, int]:
    """Write files into an empty folder, and return their size and number."""
    written = list(files)
    for name, text in written:
        path = pathlib.Path(folder, name)
        path.parent.mkdir(parents=True, exist_ok=True)
        if name.endswith("/"):
            path.mkdir(exist_ok=True)
        elif isinstance(text, Link):
            os.symlink(text.path, path)
        else:
            path.write_bytes(text.encode())
    return size_of(iter(written)), len(written)
