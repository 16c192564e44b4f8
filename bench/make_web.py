#!/usr/bin/env python3
"""Write a saved web (a text file of pages and their links) to standard output.

The saved web has PAGES pages on 1,000 hosts, each with five links. A page is on host k, 1 to 1,000, with weight 1/k. Page i,
counted from 0, links to pages 2i+1 and 2i+2, so all pages can be reached from the first one; its other links are random.
Links have four forms: absolute, `//host/..`, `/path` and relative, the last two only to pages of the same host. The random
choices have a fixed seed, so the saved web is the same each time. All URLs have 56 bytes, so saved webs differ only in
their numbers of pages.

With --links N, the saved web is like real sites: it has one host per 1,000 pages, and 3/4 N to 8/5 N links per page. A third
of a page's links repeat others of the page, half of these with a fragment. Of the rest, seven in eight are the navigation
that all pages of the folder share; the others lead to the page's children and to random pages.
"""
from __future__ import annotations

import argparse
import random
import sys
from typing import Dict, Iterable, Iterator, List, Tuple

HOSTS = 1_000
SECTIONS = 20
LINKS = 5
SEED = 20_261_122

ABSOLUTE, BY_HOST, BY_PATH, RELATIVE = range(4)

Hosts = List[int]  # the host of each page
PagesOf = Dict[int, List[int]]  # the pages of each host
Navigations = Dict[Tuple[int, int], List[str]]  # the links that the pages of a host and a folder share


def authority(host: int) -> str:
    return f"//host-{host - 1:03}.crawl.test"


def path(page: int) -> str:
    return f"/sections/{page % SECTIONS:02}/page-{page:07}.html"


def relative(page: int, target: int) -> str:
    name = f"page-{target:07}.html"
    return name if page % SECTIONS == target % SECTIONS else f"../{target % SECTIONS:02}/{name}"


def spelled(hosts: Hosts, page: int, target: int, spelling: int) -> str:
    if spelling == ABSOLUTE:
        return f"http:{authority(hosts[target])}{path(target)}"
    if spelling == BY_HOST:
        return authority(hosts[target]) + path(target)
    return path(target) if spelling == BY_PATH else relative(page, target)


def links(rng: random.Random, hosts: Hosts, pages_of: PagesOf, page: int) -> Iterator[str]:
    children = range(2 * page + 1, min(2 * page + 3, len(hosts)))
    for target in children:
        spellings = 4 if hosts[target] == hosts[page] else 2
        yield spelled(hosts, page, target, rng.randrange(spellings))
    for _ in range(LINKS - len(children)):
        spelling = rng.randrange(4)
        near = spelling in (BY_PATH, RELATIVE)
        target = rng.choice(pages_of[hosts[page]]) if near else rng.randrange(len(hosts))
        yield spelled(hosts, page, target, spelling)


def most_links(average: int) -> int:
    return 8 * average // 5


def own_links(rng: random.Random, hosts: Hosts, pages_of: PagesOf, page: int, count: int) -> Iterator[str]:
    """Yield links to the page's children, and to random pages, so that there are at least `count` links."""
    for target in range(2 * page + 1, min(2 * page + 3, len(hosts))):
        yield spelled(hosts, page, target, RELATIVE if hosts[target] == hosts[page] else BY_HOST)
        count -= 1
    for _ in range(count):
        yield spelled(hosts, page, rng.choice(pages_of[hosts[page]]), RELATIVE)


def repeated(rng: random.Random, text: str) -> str:
    return text if rng.randrange(2) else f"{text}#part-{rng.randrange(10)}"


def many_links(
    rng: random.Random, hosts: Hosts, pages_of: PagesOf, page: int, navigations: Navigations, average: int
) -> List[str]:
    """Return links like those of a real page: the navigation of its folder, its own links, and repetitions."""
    folder = (hosts[page], page % SECTIONS)
    if folder not in navigations:
        targets = rng.choices(pages_of[hosts[page]], k=most_links(average))
        navigations[folder] = [spelled(hosts, page, target, rng.choice((BY_PATH, RELATIVE))) for target in targets]
    count = rng.randrange(3 * average // 4, most_links(average) + 1)
    repeats = count // 3
    own = list(own_links(rng, hosts, pages_of, page, (count - repeats) // 8))
    texts = navigations[folder][:count - repeats - len(own)] + own
    return texts + [repeated(rng, text) for text in rng.choices(texts, k=repeats)]


def random_hosts(rng: random.Random, count: int, most: int) -> Hosts:
    hosts = range(1, most + 1)
    return rng.choices(hosts, [1 / host for host in hosts], k=count)


def arguments() -> argparse.Namespace:
    parser = argparse.ArgumentParser(description=__doc__, formatter_class=argparse.RawDescriptionHelpFormatter)
    parser.add_argument("pages", metavar="PAGES", type=int, help="number of pages")
    parser.add_argument("--links", metavar="N", type=int, help="make real sites with about N links per page, at least 4")
    parsed = parser.parse_args()
    if parsed.links is not None and parsed.links < 4:
        parser.error("--links must be at least 4")
    return parsed


def main() -> None:
    options = arguments()
    rng = random.Random(SEED)
    hosts = random_hosts(rng, options.pages, HOSTS if options.links is None else options.pages // 1_000 + 1)
    pages_of: PagesOf = {}
    navigations: Navigations = {}
    for page, host in enumerate(hosts):
        pages_of.setdefault(host, []).append(page)
    sys.stdout.write("savedweb 1\n")
    for page, host in enumerate(hosts):
        lines = [f"page http:{authority(host)}{path(page)}\n"]
        texts: Iterable[str]
        if options.links is None:
            texts = links(rng, hosts, pages_of, page)
        else:
            texts = many_links(rng, hosts, pages_of, page, navigations, options.links)
        lines += [f"link {text}\n" for text in texts]
        sys.stdout.write("".join(lines))


main()
