#!/usr/bin/env python3
"""Write a script of frontier steps for `mercator replay` to standard output.

Usage: make_script.py LINES SENDERS WORKERS

The script has LINES lines and a pool of 300,000 URLs. In seven of ten turns a sender admits a URL (look, enter, admit, and
back if the URL was seen); in the others a worker fetches one (take, done). The kind of a turn, its URL, sender and subqueue
are random with a fixed seed, so the script is the same each time.
"""
from __future__ import annotations

import random
import sys

URLS = 300_000
SEED = 20_261_122


def admit(sender: int, url: int, seen: set[int]) -> list[str]:
    lines = [
        f"look {sender}",
        f"enter {sender}",
        f"admit {sender} http://host{url % 1_000}.test/page/{url // 1_000}",
    ]
    if url in seen:
        lines.append(f"back {sender}")
    seen.add(url)
    return lines


def main() -> None:
    count, senders, workers = (int(word) for word in sys.argv[1:4])
    rng = random.Random(SEED)
    seen: set[int] = set()
    lines = [f"workers {workers} max 1099511627776"]
    while len(lines) < count:
        if rng.randrange(10) < 7:
            lines += admit(rng.randrange(senders), rng.randrange(URLS), seen)
        else:
            queue = rng.randrange(workers)
            lines += [f"take {queue}", f"done {queue}"]
    sys.stdout.write("\n".join(lines[:count]) + "\n")


main()
