#!/usr/bin/env python3
"""Test URLs in crawl_keys that are one byte away from the common forms that skip the parser, each in two ways.

In random URLs and links of a common form, one byte is inserted, removed or replaced. Both ways must have the same result:
for an absolute URL, the text itself and the text after a space, which always uses the parser; for a link, `Base::resolve`
and `resolve`, which always parses. The script needs crates/library_calls/out/library_calls, which `rt run` in its crate's
folder builds.
"""
import argparse
import os
import random
import subprocess
import sys
import tempfile
from typing import List

PROGRAM = os.path.join(os.path.dirname(os.path.dirname(os.path.abspath(__file__))), "crates/library_calls/out/library_calls")

# One or more characters of each class that the scan or the parser treats differently. A line feed would end a line of the
# output, so only the tab represents the characters that the parser removes.
CLASSES = [
    "a", "z", "A", "Z", "0", "9", "-", "_", "~", ".", "/", "\\", "%", "%2e", "%41", ":", "@", "?", "#", "[", "]",
    "!", "$", "&", "'", "(", ")", "*", "+", ",", ";", "=", '"', "<", ">", "^", "`", "{", "|", "}",
    " ", "\t", "\x00", "\x1f", "\x7f", "\x80", "é", "\u2028", "xn--",
]

PAGES = [
    "http://a.test/",
    "http://a.test/d/e/f?q=/x",
    "https://a.test:8080/d/e/",
    "http://u:p@a.test./d//e?",
]

HOSTS = ["a.test", "www.b-1.test", "a_b.c.test", "x.y9", "localhost", "A.Test", "B-1.C_D.TEST"]
SCHEMES = ["http:", "https:", "HTTP:", "Https:"]
OTHER_SCHEMES = ["mailto", "javascript", "tel", "data", "a", "ftp", "ws", "wss", "file", "http", "https", "httpx", "x-y"]
PORTS = ["", "", "", ":8080", ":80", ":443", ":1", ":65535"]
SEGMENTS = ["a", "page-1.html", "~user", "x..", "a.b", "a%20b", "-", "with:colon", "1"]
QUERIES = ["", "", "?", "?q", "?a=b&c=d/../e", "?x?y", "?q=http://b.test//x/.y?z"]
DOTS = [".", "..", "a/..", "./.."]
FRAGMENTS = ["", "", "", "#", "#top", "#a?b/../c"]


def path(draw: random.Random) -> str:
    parts = [draw.choice(SEGMENTS) for _ in range(draw.randint(1, 3))]
    if not draw.randrange(4):
        parts.insert(draw.randint(0, len(parts)), draw.choice(DOTS))
    return "/".join(parts) + draw.choice(["", "/"])


def tail(draw: random.Random) -> str:
    return draw.choice(QUERIES) + draw.choice(FRAGMENTS)


def by_host(draw: random.Random) -> str:
    rest = draw.choice(["", "/", "/" + path(draw), "/" + path(draw)])
    return "//" + draw.choice(HOSTS) + draw.choice(PORTS) + rest + tail(draw)


def absolute(draw: random.Random) -> str:
    return draw.choice(SCHEMES) + by_host(draw)


def opaque(draw: random.Random) -> str:
    return draw.choice(OTHER_SCHEMES) + ":" + path(draw) + tail(draw)


def link(draw: random.Random) -> str:
    kind = draw.randrange(7)
    if kind == 0:
        return "/" + path(draw) + tail(draw)
    if kind == 1:
        return path(draw) + tail(draw)
    if kind == 2:
        dots = "".join(draw.choice(["../", "../", "./", "a/../", "x-1.html/../"]) for _ in range(draw.randint(1, 4)))
        return dots + draw.choice(["", path(draw)]) + tail(draw)
    if kind == 3:
        return draw.choice(QUERIES) + draw.choice(FRAGMENTS)
    if kind == 4:
        return by_host(draw)
    if kind == 5:
        return opaque(draw)
    return absolute(draw)


def one_away(draw: random.Random, text: str) -> str:
    place = draw.randint(0, len(text))
    kind = draw.randrange(4)
    if kind == 0:
        return text
    if kind == 1:
        return text[:place] + text[place + 1:]
    byte = draw.choice(CLASSES)
    return text[:place] + byte + text[place + (kind == 2):]


def escape(text: str) -> str:
    # A line that begins with dashes would be a comment.
    return "".join(c if "!" <= c <= "~" and c not in "\\-" else "\\u%x;" % ord(c) for c in text)


def ask(lines: List[str]) -> List[str]:
    """Return the result of each vector, one per line."""
    with tempfile.TemporaryDirectory() as folder:
        with open(os.path.join(folder, "vectors.txt"), "w") as vectors:
            vectors.writelines(line + "\n" for line in lines)
        done = subprocess.run([PROGRAM, "vectors", "0", "0", "vectors.txt"], cwd=folder, stdout=subprocess.PIPE, check=True)
    lines = done.stdout.decode().split("\n")[:-2]
    return [line.rsplit(" => ", 1)[1].removesuffix(", and not ") for line in lines]


def main() -> None:
    parser = argparse.ArgumentParser(description=__doc__, formatter_class=argparse.RawDescriptionHelpFormatter)
    parser.add_argument("--count", type=int, default=100000, metavar="N", help="number of texts (default: 100000)")
    parser.add_argument("--seed", type=int, default=1, metavar="N", help="seed of the random texts (default: 1)")
    options = parser.parse_args()
    if not os.path.isfile(PROGRAM):
        sys.exit(f"no such file: {PROGRAM} (run `rt run` in crates/library_calls to build it)")
    draw = random.Random(options.seed)
    texts, lines = [], []
    for _ in range(options.count // 2):
        text = one_away(draw, absolute(draw))
        texts.append(text)
        lines += [escape(text) + " => ", escape(" " + text) + " => "]
    for page in PAGES:
        lines.append("base " + page)
        for _ in range(options.count // 2 // len(PAGES)):
            text = one_away(draw, link(draw))
            texts.append(page + " and " + text)
            lines.append(escape(text) + " => ")
    results = ask(lines)
    if len(results) != 2 * len(texts):
        sys.exit(f"{len(results)} results for {len(texts)} texts")
    pairs = zip(texts, results[::2], results[1::2])
    differing = [(text, one, other) for text, one, other in pairs if one != other]
    for text, one, other in differing[:20]:
        print(f"{text!r}: {one} in one way, {other} in the other")
    urls = sum("://" in result for result in results) // 2
    print(f"{len(texts)} texts, of which {urls} are URLs; {len(differing)} differ")
    sys.exit(1 if differing or 2 * urls <= len(texts) else 0)  # most texts have to be URLs


if __name__ == "__main__":
    main()
