#!/usr/bin/env python3
"""Measure a crawl of many hosts with a delay, against the time that one host takes.

Usage: bench/many_hosts.py [--hosts N] [--pages N] [--delay S] COMMAND [WORD..]

COMMAND is a crawler with the options of the example crawlers. `--delay S` and a URL of each host are
appended to it. Each host has its own address, no robots.txt, and N pages that respond immediately:
the first one links to the others. So the ideal time is N delays, between the request for robots.txt
and that for the last page. For example:

    bench/many_hosts.py clients/node/crawl_http.mjs --workers 512

It prints the number of requests, the time from the first to the last request, and its ratio to the
ideal time. It fails if a page is not requested once, or if a host is not given its delay.
"""

from __future__ import annotations

import argparse
import asyncio
import subprocess
import sys
import threading
import time
from collections import defaultdict
from typing import DefaultDict, List, Tuple


class Site:
    """The hosts, in a thread of its own."""

    def __init__(self, hosts: int, pages: int) -> None:
        self.hosts = [f"127.0.{number // 250 + 1}.{number % 250 + 1}" for number in range(hosts)]
        self.first = "".join(f"<a href=/{page}>" for page in range(1, pages)).encode()
        self.requests: DefaultDict[str, List[Tuple[float, str]]] = defaultdict(list)
        self.started = threading.Event()
        threading.Thread(target=asyncio.run, args=(self.serve(),), daemon=True).start()
        self.started.wait()

    async def serve(self) -> None:
        server = await asyncio.start_server(self.respond, "0.0.0.0", 0, backlog=4096)
        self.port = server.sockets[0].getsockname()[1]
        self.started.set()
        await server.serve_forever()

    async def respond(self, reader: asyncio.StreamReader, writer: asyncio.StreamWriter) -> None:
        try:
            path = (await reader.readuntil(b"\r\n\r\n")).split(b" ")[1].decode()
            host = writer.get_extra_info("sockname")[0]
            self.requests[host].append((time.monotonic(), path))
            status = "404 Not Found" if path == "/robots.txt" else "200 OK"
            body = self.first if path == "/0" else b""
            head = f"HTTP/1.0 {status}\r\nContent-Type: text/html\r\nContent-Length: {len(body)}\r\n\r\n"
            writer.write(head.encode() + body)
            await writer.drain()
        except (OSError, EOFError):
            pass  # the crawler has closed the connection
        writer.close()


def main() -> int:
    parser = argparse.ArgumentParser(
        description=__doc__, formatter_class=argparse.RawDescriptionHelpFormatter
    )
    option = parser.add_argument
    option("--hosts", type=int, default=200, metavar="N", help="number of hosts (default: 200)")
    option("--pages", type=int, default=5, metavar="N", help="pages of each host (default: 5)")
    option("--delay", type=float, default=0.5, metavar="S", help="delay in seconds (default: 0.5)")
    option("command", nargs=argparse.REMAINDER, metavar="COMMAND")
    options = parser.parse_args()
    site = Site(options.hosts, options.pages)
    seeds = [f"http://{host}:{site.port}/0" for host in site.hosts]
    begun = time.monotonic()
    command = [*options.command, "--delay", str(options.delay), *seeds]
    status = subprocess.run(command, stdout=subprocess.DEVNULL, check=False).returncode
    took = time.monotonic() - begun
    expected = sorted(["/robots.txt", *(f"/{page}" for page in range(options.pages))])
    if status or any(sorted(path for _, path in site.requests[host]) != expected for host in site.hosts):
        print(f"status {status}, or not every page was requested once", file=sys.stderr)
        return 1
    times = [[at for at, _ in site.requests[host]] for host in site.hosts]
    least = min(later - earlier for one in times for earlier, later in zip(one, one[1:]))
    if least < options.delay - 0.02:
        print(f"a host was requested again after {least:.3f} s", file=sys.stderr)
        return 1
    everything = [at for one in times for at in one]
    crawl, ideal = max(everything) - min(everything), options.pages * options.delay
    print(f"{len(everything)} requests in {crawl:.2f} s, {crawl / ideal:.2f} times the ideal {ideal:g} s;"
          f" {took:.2f} s with the start and the end of the crawler")
    return 0


if __name__ == "__main__":
    sys.exit(main())
