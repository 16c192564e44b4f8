#!/usr/bin/env python3
"""Test `mercator serve`, its Python client, and the crawlers that use it.

Each test is a function in `serving/`. A test is skipped, with a message, if the program lacks what it
needs: the option --log, or the requests `link` and `again`. The test of a full disk is skipped if this
user cannot mount one. Random sessions are compared with an independent model of the session, which
uses the models of URLs and of the machine in drawn.py.

`serving/fake.py` is a frontier in Python. As --program it passes all tests except `memory`, whose
limit is that of the program, and `changed_logs`, `damaged_logs` and `logs_of_parts`, since its log has another
first line and no checksums.

The environment variable SECONDS is the time limit of each wait [default: 120]. The unproved program of
`rt try` keeps freed memory for a while, so for the test `memory` it needs the environment variable
ASAN_OPTIONS=quarantine_size_mb=0:thread_local_quarantine_size_kb=0.

After a test that fails, the command that runs only this test is printed. The last line is `N passed, M failed`; the exit
status is 1 if a test failed or none ran.
"""

from __future__ import annotations

import argparse
import sys
import tempfile
from functools import partial
from pathlib import Path
from typing import Callable, Tuple

from serving import changed_settings, clients, compactions, crawlers, crawls, lists, logs, sessions, used_logs
from serving.trial import Trial, command_of, run_all

PARTS: Tuple[Callable[[Trial], None], ...] = (
    sessions.transcript, sessions.random_sessions, sessions.random_parts, sessions.all_at_once, sessions.byte_by_byte,
    sessions.stopped_between, sessions.dying_client, sessions.closed_output, sessions.memory,
    sessions.long_line,
    logs.killed_sessions, logs.refused_logs, logs.changed_logs, logs.damaged_logs, logs.full_disk, logs.compacted_logs, compactions.stopped_compactions,
    changed_settings.changed_settings,
    logs.logs_of_parts, lists.lists, used_logs.waiting, used_logs.replaced_while_waiting, used_logs.changed_while_running,
    clients.client_values, clients.long_base, clients.client_ends, clients.interrupted_call,
    clients.interrupted_close, clients.closing_handler, clients.forked_process, clients.client_small_pipes,
    clients.log_in_use, clients.log_that_cannot_be, clients.words_like_options,
    crawls.crawls, crawls.asyncio_crawls, crawls.killed_crawls,
    crawlers.crawler, crawlers.crawler_help, crawlers.bash_crawler, crawlers.killed_crawler, crawlers.polite_crawler,
    crawlers.polite_to_ports, crawlers.hostile_hosts, crawlers.dribbling_hosts, crawlers.saved_documentation,
)


def main() -> int:
    parser = argparse.ArgumentParser(
        description=__doc__, formatter_class=argparse.RawDescriptionHelpFormatter
    )
    names = [part.__name__ for part in PARTS]
    option = parser.add_argument
    option("--program", metavar="FILE",
           help="path of the program (default: $MERCATOR if it is set, else the built program)")
    option("--part", action="append", choices=names, metavar="NAME",
           help=f"run only this test; repeatable. The tests are {', '.join(names)}")
    option("--lines", type=int, default=20_000, metavar="N",
           help="number of lines of a random session (default: 20000)")
    option("--requests", type=int, default=1_000_000, metavar="N",
           help="number of requests of the test memory (default: 1000000)")
    option("--longest", type=int, default=10**9, metavar="BYTES",
           help="length of the line of the test long_line (default: 1000000000)")
    option("--kills", type=int, default=200, metavar="N",
           help="number of kills of the test killed_crawls (default: 200)")
    option("--seed", default="1", help="seed of the random inputs (default: 1)")
    words = parser.parse_args()
    with tempfile.TemporaryDirectory(prefix="serve-") as folder:
        trial = Trial(words, Path(folder))
        chosen = [part for part in PARTS if part.__name__ in (words.part or names)]
        return run_all(((part.__name__, partial(part, trial)) for part in chosen), command_of)


if __name__ == "__main__":
    sys.exit(main())
