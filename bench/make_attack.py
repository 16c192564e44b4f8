#!/usr/bin/env python3
"""Write a saved web or a script that an attacker might make to be slow, or the expected result of running it.

Usage: make_attack.py NAME              write the input of this name to standard output
       make_attack.py --expected NAME   print the expected result
       make_attack.py --names           print the names of all inputs

The expected result has these fields: the command (`crawl` or `replay`), the seed (or `-`), the exit status, what the time is
divided by (`input` for its bytes, or `both` for those of input and output), and the last line of the output (or `-`). It
follows from docs/FORMATS.md and the number of pages that were written, not from a run of the program.

The environment variable COUNT is the number of pages, links or senders, and the number of bytes of the long line and of line
ends. Each input has its own default.
"""
from __future__ import annotations

import os
import string
import sys
from typing import Callable, Iterator, NamedTuple, Optional, Tuple

BLOCK = 1 << 20  # the number of bytes that are written at a time
LINE = 1 << 29  # the default number of bytes of the long line, and of line ends
MILLION = 1_000_000
SEED = "http://a.test/"
WEB, SCRIPT = "savedweb 1", "workers 1 max 1099511627776"  # the headers
LETTERS = "abcdefghijklmnopqrstuvwxyz012345"
URL_LENGTH = 4_090  # with `page ` and the LF, the line has 4,096 bytes

# FoldHasher of std, with which the program hashes texts: its first state, the constant of each step, and a mask of 64 bits
HASH_START, HASH_STEP, WORD = 0x243F_6A88_85A3_08D3, 0x9E37_79B9_7F4A_7C15, (1 << 64) - 1
HASHED = 48  # the bytes of a URL with the common hash: two steps, the state after them, and a name of eight bytes
# the bits of a hash that select a bucket of slots in a `hash_index` of a million texts, and the bits that a slot stores
BUCKET_BITS, MARK_BITS = (1 << 24) - 8, WORD >> 33 << 33
NAME_LETTERS = string.ascii_letters + string.digits + "-_"
# the bytes that are not escaped in a path
PATH_BYTES = frozenset((string.ascii_letters + string.digits + "-_~!$&'()*+,;=:@").encode())

Writer = Callable[[int], Iterator[str]]  # yields an input with the given number of pages, links, senders or bytes, in pieces


class Attack(NamedTuple):
    """An input and the expected result."""

    command: str
    seed: str  # `-` for a script
    status: int
    lines: Writer
    number: int  # the argument of the writer
    last: Optional[Callable[[int], str]]  # the last line of the output, as a function of this number


def count(usual: int) -> int:
    """Return the environment variable COUNT as a number, or this one if it is not set."""
    return int(os.environ.get("COUNT", usual))


def children(page: int, pages: int) -> range:
    """Return the pages that a page links to, so that all pages can be reached from the first."""
    return range(2 * page + 1, min(2 * page + 3, pages))


def long_line(header: str, start: str) -> Writer:
    """Return a writer of a line that is far too long."""

    def lines(size: int) -> Iterator[str]:
        yield f"{header}\n{start}"
        yield from filled(size - len(start), "a")
        yield "\n"

    return lines


def line_ends(header: str) -> Writer:
    """Return a writer of nothing but line ends after the header: an empty saved web, or a script without events."""

    def lines(size: int) -> Iterator[str]:
        yield f"{header}\n"
        yield from filled(size, "\n")

    return lines


def filled(size: int, letter: str) -> Iterator[str]:
    for _ in range(size // BLOCK):
        yield letter * BLOCK
    yield letter * (size % BLOCK)


def shared_prefix(prefix: str, width: int, more_links: str) -> Tuple[Writer, str]:
    """Return a writer of pages with a common prefix and a name of `width` letters, with relative links; and the first URL."""

    def name(page: int) -> str:
        letters = ""
        for _ in range(width):
            letters, page = LETTERS[page % 32] + letters, page // 32
        return letters

    def lines(pages: int) -> Iterator[str]:
        yield f"{WEB}\n"
        for page in range(pages):
            links = "".join(f"link {name(child)}\n" for child in children(page, pages))
            yield f"page {prefix}{name(page)}\n{links}{more_links}"

    return lines, prefix + "a" * width


def prefix_of(length: int, filling: str) -> str:
    """Return the beginning of a URL with about `length` bytes; the name of a page is appended to it."""
    room = length - len(SEED) - 1
    return SEED + (filling * room)[: room - room % len(filling)] + "/"


LONG_BASE = prefix_of(URL_LENGTH, '"')


def word(text: bytes, offset: int) -> int:
    return int.from_bytes(text[offset : offset + 8], "little")


def hash_step(state: int, text: bytes, offset: int) -> int:
    """Multiply the two words at this offset to 128 bits, and return the xor of their halves."""
    product = (word(text, offset) ^ state) * (word(text, offset + 8) ^ HASH_STEP)
    return product & WORD ^ product >> 64


def hash_of(text: bytes) -> int:
    """Return the hash of a text of at least 16 bytes: one step for each 16 bytes, the last one for the last 16."""
    state = HASH_START + len(text) & WORD
    for offset in range(0, (len(text) - 1) // 16 * 16, 16):
        state = hash_step(state, text, offset)
    return hash_step(state, text, len(text) - 16)


def hash_prefix(factor: int) -> str:
    """Return the first 40 bytes of a URL after which the last step of the hash has this factor.

    The last eight of these bytes are the state after the 32 bytes before them, xor the factor. The 32 bytes contain a number,
    which is increased until all of the last eight are bytes that a path keeps; this takes some 10,000 attempts. With factor
    0, the hash of the URL is 0 whatever the next eight bytes are. With factor 1, the hash is these eight bytes, xor a constant.
    """
    number = 0
    while True:
        text = SEED.encode() + b"%018d" % number
        state = HASH_START + HASHED & WORD
        for offset in (0, 16):
            state = hash_step(state, text, offset)
        last = (state ^ factor).to_bytes(8, "little")
        if PATH_BYTES.issuperset(last):
            return (text + last).decode()
        number += 1


def digits(number: int, letters: str, width: int) -> str:
    """Return a number with these letters as digits, the least significant first."""
    text = ""
    for _ in range(width):
        number, digit = divmod(number, len(letters))
        text += letters[digit]
    return text


def colliding(factor: int, name: Callable[[int], str], bits: int) -> Tuple[Writer, str]:
    """Return a writer of a page that links to all others by their absolute URLs, and its URL.

    The hashes of pages, link texts and offers all have the same `bits`. `name` returns the last eight bytes of a page's URL.
    """
    prefix = hash_prefix(factor)
    first = hash_of((prefix + name(0)).encode())

    def url(page: int) -> str:
        text = prefix + name(page)
        assert len(text) == HASHED and (hash_of(text.encode()) ^ first) & bits == 0
        return text

    def lines(pages: int) -> Iterator[str]:
        yield f"{WEB}\npage {url(0)}\n"
        for page in range(1, pages):
            yield f"link {url(page)}\n"
        for page in range(1, pages):
            yield f"page {url(page)}\n"

    return lines, url(0)


def many_links(links: int) -> Iterator[str]:
    yield f"{WEB}\npage {SEED}\n"
    for link in range(links):
        yield f"link {link:06}\n"


def same_link(links: int) -> Iterator[str]:
    yield f"{WEB}\npage {SEED}\n"
    for _ in range(links):
        yield "link a\n"


def chain(hosts: int) -> Tuple[Writer, str]:
    """Return a writer of pages that each link only to the next, and the first URL.

    The pages are on the hosts in turn, so the crawl moves from worker to worker.
    """

    def url(page: int) -> str:
        return f"//{page % hosts}.test/{page:06}"

    def lines(pages: int) -> Iterator[str]:
        yield f"{WEB}\n"
        for page in range(pages):
            link = f"link {url(page + 1) if hosts > 1 else f'{page + 1:06}'}\n" if page + 1 < pages else ""
            yield f"page http:{url(page)}\n{link}"

    return lines, "http:" + url(0)


def long_base(links: int) -> Iterator[str]:
    """Yield short links of a page whose canonical URL has 12,000 bytes, so the output is a thousand times the input."""
    yield f"{WEB}\npage {LONG_BASE}\n"
    for link in range(links):
        yield f"link {link}\n"


def many_letters(links: int) -> Iterator[str]:
    """Yield hosts with two labels of 600 different non-ASCII letters.

    Punycode looks at all letters for each of them. The Rattle toolchain's `idna` rejects labels of more than 1,000 letters.
    """
    yield f"{WEB}\npage {SEED}\n"
    for link in range(links):
        label = "".join(chr(0x4E00 + (letter * 7_919 + link) % 20_000) for letter in range(600))
        yield f"link http://{label}.{label}.test/\n"


def million_hosts(pages: int) -> Iterator[str]:
    yield f"{WEB}\n"
    for page in range(pages):
        links = "".join(f"link //h{child}.test/\n" for child in children(page, pages))
        yield f"page http://h{page}.test/\n{links}"


def senders(number: int) -> Iterator[str]:
    """Yield a script in which each sender takes a unit, in a shuffled order, and then admits a URL; the worker takes one URL."""
    step = 611_953  # a prime, so that the order below has all senders
    order = [sender * step % number for sender in range(number)]
    yield f"{SCRIPT}\n"
    for sender in order:
        yield f"look {sender}\nenter {sender}\n"
    for sender in order:
        yield f"admit {sender} http://a.test/{sender}\n"
    yield "take 0\ndone 0\n"


def found(pages: int) -> str:
    return f"total {pages} ok {pages} missing 0"


def web(lines: Writer, seed: str, usual: int, last: Callable[[int], str] = found) -> Attack:
    return Attack("crawl", seed, 0, lines, count(usual), last)


def prefixed(length: int, usual: int, filling: str = "p", more_links: str = "") -> Attack:
    lines, seed = shared_prefix(prefix_of(length, filling), 4, more_links)
    return web(lines, seed, usual)


def chained(hosts: int) -> Attack:
    lines, seed = chain(hosts)
    return web(lines, seed, MILLION)


def collided(pages: int, factor: int, name: Callable[[int], str], bits: int) -> Attack:
    lines, seed = colliding(factor, name, bits)
    return web(lines, seed, pages)


def page_and_missing(links: int) -> str:
    return f"total {links + 1} ok 1 missing {links}"


ATTACKS = {
    "long_line": Attack("crawl", SEED, 1, long_line(WEB, f"page {SEED}"), count(LINE), None),
    "line_ends": Attack("crawl", SEED, 0, line_ends(WEB), count(LINE), lambda _: "total 1 ok 0 missing 1"),
    "last_bytes": prefixed(400, 1 << 20),
    "one_target": prefixed(50, 100_000, more_links=f"link {prefix_of(50, 'p')}aaaa\n" * 3),
    "many_links": web(many_links, SEED, MILLION, page_and_missing),
    "same_link": web(same_link, SEED, MILLION, lambda _: page_and_missing(1)),
    "chain": chained(1),
    "chain_of_hosts": chained(64),
    "million_hosts": web(million_hosts, "http://h0.test/", MILLION),
    "escapes": prefixed(URL_LENGTH - 4, 20_000, filling="%41"),
    "grown": prefixed(URL_LENGTH - 4, 20_000, filling='"'),
    "one_host": prefixed(52, 100_000),
    "prefix_2000": prefixed(2_000, 100_000),
    "one_hash": collided(100_000, 0, lambda page: f"{page:08}", WORD),
    "one_bucket": collided(MILLION, 1, lambda page: "000" + digits(page, NAME_LETTERS, 5), BUCKET_BITS),
    "one_mark": collided(MILLION, 1, lambda page: digits(page, NAME_LETTERS, 4) + "0000", MARK_BITS),
    "script_long_line": Attack("replay", "-", 1, long_line(SCRIPT, f"admit 1 {SEED}"), count(LINE), None),
    "script_line_ends": Attack("replay", "-", 0, line_ends(SCRIPT), count(LINE), None),
    "long_base": web(long_base, LONG_BASE, 50_000, page_and_missing),
    "many_letters": web(many_letters, SEED, 3_000, page_and_missing),
    # the unit of the seeding phase, and those of the URLs that were not taken
    "senders": Attack("replay", "-", 0, senders, count(MILLION), lambda number: f"count {number}"),
}


# The output of these has many times the bytes of the input, so the time is divided by the bytes of both.
BY_BOTH = {"long_base"}


def print_expected(name: str) -> None:
    it = ATTACKS[name]
    print(it.command, it.seed, it.status, "both" if name in BY_BOTH else "input", it.last(it.number) if it.last else "-")


def write(name: str) -> None:
    it = ATTACKS[name]
    with open(sys.stdout.fileno(), "w", encoding="utf-8", closefd=False) as out:
        batch, size = [], 0
        for text in it.lines(it.number):
            batch.append(text)
            size += len(text)
            if size >= BLOCK:
                out.write("".join(batch))
                batch, size = [], 0
        out.write("".join(batch))


def main() -> None:
    if len(sys.argv) < 2:
        sys.exit(__doc__)
    if sys.argv[1] == "--names":
        print("\n".join(ATTACKS))
    elif sys.argv[1] == "--expected":
        print_expected(sys.argv[2])
    else:
        write(sys.argv[1])


main()
