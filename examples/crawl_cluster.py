#!/usr/bin/python3
"""Crawl sites over HTTP on several machines: run one of K parts that share a crawl over Redis.

Start each part with the same arguments, except for its number I, from 0, and its log:

    redis-server --appendonly yes --maxmemory-policy noeviction &
    crawl_cluster.py --part 0/2 --log part0.log --within example.org http://example.org/ &
    crawl_cluster.py --part 1/2 --log part1.log --within example.org http://example.org/

For each URL that a part fetched, it prints a line with the status, the number of links, and the
URL. It fetches like crawl_http.py, and obeys robots.txt, but does not try a page again.

To resume a part, however it ended, run its command again. To begin a new crawl, use new logs and
another --name. If Redis does not answer, the part prints one message, tries to connect for ten
minutes, and then fails. If Redis needs another password, the part fails immediately. If Redis
loses the keys of the crawl, a running part recovers; start any part again that has ended.

The script needs the Python package `redis`. Debian's python3-redis is for /usr/bin/python3.

Exit status: 0 no URL is left in any part, 1 error, 2 bad command line or Ctrl-C.
"""

from __future__ import annotations

import argparse
import logging
import sys
import time
from collections import defaultdict
from contextlib import suppress
from pathlib import Path
from typing import DefaultDict, List, Tuple

import crawl_http

sys.path.insert(0, str(Path(__file__).resolve().parent.parent / "clients" / "python"))
import redis
from mercator_cluster import Crawl, Part, run
from mercator_frontier import FrontierError


def options_of_command_line() -> argparse.Namespace:
    parser = argparse.ArgumentParser(
        description=__doc__, formatter_class=argparse.RawDescriptionHelpFormatter
    )
    option = parser.add_argument
    option("--part", required=True, type=part_of, metavar="I/K",
           help="run part I, from 0, of K parts that share the crawl")
    option("--log", required=True, metavar="FILE",
           help="log file of this part; run again with it to resume")
    option("--redis", default="redis://127.0.0.1:6379/0", type=redis_of, metavar="URL",
           help="URL of Redis: redis://HOST:PORT/0, rediss://HOST:PORT/0 or unix://PATH"
           " (default: redis://127.0.0.1:6379/0)")
    option("--name", default="crawl", metavar="NAME",
           help="name of the crawl, with which its keys in Redis begin (default: crawl)")
    option("--workers", type=int, default=4, metavar="N",
           help="number of fetchers of each part (default: 4)")
    option("--max-pending", type=most_of, metavar="M",
           help="most URLs of a part waiting or in progress at a time, at least 2"
           " (default: 1048576)")
    crawl_http.add_options_to(parser)
    parser.set_defaults(retries=2, pause=1.0)  # of a robots.txt
    return parser.parse_args()


def part_of(text: str) -> Tuple[int, int]:
    part, _, parts = text.partition("/")
    with suppress(ValueError):
        if 0 <= int(part) < int(parts):
            return int(part), int(parts)
    raise argparse.ArgumentTypeError(f"must be I/K with I from 0 to K - 1, such as 0/2: {text}")


def redis_of(url: str) -> str:
    if url.startswith(("redis://", "rediss://", "unix://")):
        return url
    raise argparse.ArgumentTypeError(f"must begin with redis://, rediss:// or unix://: {url}")


def most_of(text: str) -> int:
    with suppress(ValueError):
        if int(text) >= 2:
            return int(text)
    raise argparse.ArgumentTypeError(f"must be a number of at least 2: {text}")


def main() -> int:
    options = options_of_command_line()
    logging.basicConfig(format="crawl_cluster: %(message)s")
    part, parts = options.part
    crawl = Crawl(parts, options.workers, options.within, options.name, options.redis)
    known: DefaultDict[int, crawl_http.Known] = defaultdict(crawl_http.Known)

    def start() -> Part:
        return Part(
            crawl, part, options.log, options.seed, max_pending=options.max_pending,
            program=options.program,
        )

    def fetch(queue: int, url: str) -> Tuple[str, List[str]]:
        while (wait := known[queue].ready_at(url, options) - time.monotonic()) > 0:
            time.sleep(wait)
        status, base, texts = crawl_http.visited(url, known[queue], options)
        sys.stdout.write(f"{status} {len(texts)} {url}\n")
        sys.stdout.flush()
        return base, texts

    try:
        run(start, fetch)
    except (FrontierError, redis.RedisError, OSError) as error:
        print(f"crawl_cluster: {error}", file=sys.stderr)
        return 1
    except KeyboardInterrupt:
        return 2
    return 0


if __name__ == "__main__":
    sys.exit(main())
