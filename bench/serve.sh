#!/bin/bash
# Measures `mercator serve` over pipes.
#
# Usage: bench/serve.sh [--program PROGRAM] [URLS]
# URLS is the number of URLs [default: 1000000]. PROGRAM is the path of the program; the default is the environment variable
# MERCATOR, or else `mercator`. The environment variable PYTHON is the Python for the Python rows [default: /usr/bin/python3, for
# which Debian's python3-scrapy is].
#
# It measures
# - offers of new and of seen URLs, sent ahead of their answers;
# - offers one by one, each after the answer to the previous one, and the limits that the pipes and the system set;
# - URLs that are taken and put back by `later`, in instructions;
# - bytes of memory per URL, and the memory for a line of 10^9 bytes;
# - offers by the Python client, and for comparison the alternatives of a crawler in Python: a set and a queue with URLs that
#   urllib.parse normalized, and Scrapy's own scheduler with its fingerprints;
# - the scheduler for Scrapy that uses the frontier.
#
# It prints rates by elapsed time, and the CPU time and instructions of the program, which other work on the machine affects less
# or not at all. The exit status is 1 if a target is missed. Requires a C compiler, valgrind and Python 3.9 or later; the rows of
# Scrapy need Scrapy.
set -euo pipefail

program=${MERCATOR:-mercator}
if [ "${1:-}" = --program ]; then
    program=$2
    shift 2
fi
program=$(realpath "$(type -P "$program")")
many=${1:-1000000}
few=$((many / 5))        # number of offers one by one, and by Python
counted=$((many / 50))   # number of offers under callgrind, which is slow
line=$((many * 1000))    # bytes of the long line
runs=3
least_new=1000000    # new offers per second
least_seen=1500000   # seen offers per second
least_single=120000  # offers one by one, per second
least_client=250000  # offers of the Python client, per second
most_bytes=200       # per URL that was offered
most_line=8192       # KiB of memory for the long line
python=${PYTHON:-/usr/bin/python3}

cd "$(dirname "$0")/.."
made=$PWD/bench/out
mkdir -p "$made"
cc -O2 -std=c11 -Wall -o "$made/serve_client" bench/serve_client.c
serve=("$program" serve --workers 4 --max-pending 1000000000)
status=0

# fastest CLIENT..: prints the fastest of some runs: elapsed nanoseconds, CPU nanoseconds of the program, its peak memory in bytes.
fastest() {
    for _ in $(seq "$runs"); do "$@"; done | sort -n | head -n 1
}

# bounded NAME FIGURE least|most TARGET: prints a figure and its target.
bounded() {
    echo "$1: $2 (at $3 $4)"
    if ! awk -v is="$2" -v side="$3" -v target="$4" 'BEGIN { exit side == "least" ? is < target : is > target }'; then
        echo "  missed"
        status=1
    fi
}

# rate NAME MODE COUNT TARGET: prints a rate of the program.
rate() {
    local spent worked
    read -r spent worked _ < <(fastest "$made/serve_client" "$2" "$3" "${serve[@]}")
    bounded "$1, per second" $(($3 * 1000000000 / spent)) least "$4"
    echo "  CPU time of the program: $((worked / $3)) ns each, $(($3 * 1000000000 / worked)) per CPU second"
}

# awaited NAME CLIENT..: prints a rate of offers one by one that has no target.
awaited() {
    local what=$1 spent
    shift
    read -r spent _ < <(fastest "$@")
    echo "  $what: $((few * 1000000000 / spent)) per second"
}

# instructions FILE: prints the instructions of the program for the requests of a file.
instructions() {
    valgrind --tool=callgrind --callgrind-out-file="$made/callgrind" "${serve[@]}" < "$1" 2>&1 > /dev/null |
        awk '/Collected/ { print $NF }'
}

rate "new offers, ahead of their answers" new "$many" "$least_new"
rate "seen offers, ahead of their answers" seen "$many" "$least_seen"
rate "new offers, one by one" single "$few" "$least_single"
client=$made/serve_client
awaited "with a program that only answers: the limit of the pipes and the system" "$client" single "$few" "$client" echo
awaited "client and program on one processor" taskset -c 0 "$client" single "$few" "${serve[@]}"
awaited "with a client that polls for the answer" "$client" polled "$few" "${serve[@]}"

"$made/serve_client" print "$counted" > "$made/new"
: > "$made/none"
cat "$made/new" "$made/new" > "$made/seen"
{ cat "$made/new" && awk -v count="$counted" 'BEGIN { for (i = 0; i < count; i++) print "next 0\nlater 0" }'; } > "$made/later"
if none=$(instructions "$made/none") && new=$(instructions "$made/new") && seen=$(instructions "$made/seen") && later=$(instructions "$made/later"); then
    echo "instructions per new offer: $(((new - none) / counted)), per seen offer: $(((seen - new) / counted))"
    echo "instructions per URL that is taken and put back: $(((later - new) / counted))"
else
    echo "callgrind cannot run this program, so its instructions are not counted"
fi

read -r _ _ full < <("$made/serve_client" new "$many" "${serve[@]}")
read -r _ _ empty < <("$made/serve_client" new 1 "${serve[@]}")
bounded "bytes per URL, including its text of 35 bytes" $(((full - empty) / many)) most "$most_bytes"

read -r spent _ peak < <("$made/serve_client" line "$line" "${serve[@]}")
bounded "KiB of memory for a line of $line bytes" $((peak / 1024)) most "$most_line"
echo "  read in $((spent / 1000000)) ms"

# offers.py KIND COUNT PROGRAM: prints the elapsed and the CPU nanoseconds of COUNT new offers, the same for seen offers, and the
# bytes of this process per URL. Scrapy's requests are created before the time starts.
cat > "$made/offers.py" <<'PY'
import queue
import resource
import sys
import time
from urllib.parse import urlsplit, urlunsplit

HOSTS = 997
PORTS = {"http": 80, "https": 443}


def normalised(url):
    """Return a URL as a crawler with only the standard library would compare it; dots in paths stay."""
    parts = urlsplit(url)
    host = parts.hostname
    if parts.port is not None and parts.port != PORTS.get(parts.scheme):
        host = f"{host}:{parts.port}"
    return urlunsplit((parts.scheme, host, parts.path or "/", parts.query, ""))


def by_client(program):
    from mercator_frontier import Frontier

    return list, Frontier(4, max_pending=10**9, program=program).offer_all


def by_set(program):
    seen, waiting = set(), queue.Queue()

    def offer_all(urls):
        for url in urls:
            url = normalised(url)
            if url not in seen:
                seen.add(url)
                waiting.put(url)

    return list, offer_all


def by_scheduler(name, program):
    import scrapy
    from scrapy.utils.misc import load_object
    from scrapy.utils.test import get_crawler

    crawler = get_crawler(
        scrapy.Spider,
        {
            "MERCATOR_MAX_PENDING": 10**9,
            "MERCATOR_PROGRAM": program,
            "REQUEST_FINGERPRINTER_IMPLEMENTATION": "2.7",
        },
    )
    crawler.spider = crawler._create_spider("bench")
    scheduler = load_object(name).from_crawler(crawler)
    scheduler.open(crawler.spider)

    def offer_all(requests):
        for request in requests:
            scheduler.enqueue_request(request)

    return lambda urls: [scrapy.Request(url) for url in urls], offer_all


KINDS = {
    "client": by_client,
    "set": by_set,
    "scrapy": lambda program: by_scheduler("scrapy.core.scheduler.Scheduler", program),
    "mercator_scrapy": lambda program: by_scheduler("mercator_scrapy.MercatorScheduler", program),
}


def spent(offer_all, offers):
    passed, worked = time.perf_counter_ns(), time.process_time_ns()
    offer_all(offers)
    return time.perf_counter_ns() - passed, time.process_time_ns() - worked


def resident():
    return resource.getrusage(resource.RUSAGE_SELF).ru_maxrss * 1024


def main():
    kind, count, program = sys.argv[1], int(sys.argv[2]), sys.argv[3]
    prepare, offer_all = KINDS[kind](program)
    urls = [f"http://h{number % HOSTS:03}.example.test/p{number:09}" for number in range(count)]
    before = resident()
    new = spent(offer_all, prepare(urls))
    after = resident()
    seen = spent(offer_all, prepare(urls))
    print(*new, *seen, (after - before) // count)


main()
PY

# python_row NAME KIND COUNT: prints a row of Python, and sets `python_rate` to the new offers per second.
python_row() {
    local new worked seen seen_worked bytes
    read -r new worked seen seen_worked bytes < <(
        for _ in $(seq "$runs"); do
            PYTHONPATH=clients/python PYTHONDONTWRITEBYTECODE=1 "$python" "$made/offers.py" "$2" "$3" "$program"
        done | sort -n | head -n 1
    )
    python_rate=$(($3 * 1000000000 / new))
    echo "$1: $python_rate new offers per second, $(($3 * 1000000000 / seen)) seen offers per second"
    echo "  CPU time of Python: $((worked / $3)) ns and $((seen_worked / $3)) ns each; $bytes bytes per URL"
}

python_row "Python client, offer_all" client "$few"
bounded "offers of the Python client, per second" "$python_rate" least "$least_client"
python_row "set, queue.Queue and urllib.parse" set "$few"
if "$python" -c 'import scrapy' 2> "$made/no_scrapy"; then
    python_row "Scrapy's scheduler with its fingerprints" scrapy $((few / 4))
    python_row "MercatorScheduler" mercator_scrapy $((few / 4))
else
    echo "Scrapy is not installed for $python, so it is not measured"
fi
exit $status
