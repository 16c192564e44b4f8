#!/bin/bash
# Measures crawls of generated saved webs by the built program with 1, 2, 4 and 8 workers.
#
# Usage: bench/crawl.sh [PAGES ..]
#        bench/crawl.sh sites
# PAGES is the number of pages of a saved web [default: 10000 100000 1000000]; the instructions of the first one are counted.
# With `sites`, only saved webs like real sites are crawled.
#
# For each saved web it prints the instructions per page (counted by callgrind), the peak memory per page beyond the size of the
# file, and the elapsed times with their ratios to that of one worker. Then it does the same per link on saved webs like real
# sites, which have some 100 links per page, of 3,000 and 30,000 pages. The exit status is not 0 if the report depends on the
# number of workers, if a page is missing, or if a target is missed. Requires `rt`, valgrind and GNU time.
set -euo pipefail
cd "$(dirname "$0")/.."
made=bench/out
program=$PWD/crates/mercator_cli/out/mercator_cli
sizes=("$@")
if [ ${#sizes[@]} -eq 0 ]; then sizes=(10000 100000 1000000); fi
sites=(3000 30000)
threads=(1 2 4 8)
most_instructions=60000 # per page of the first saved web, with one worker
most_bytes=1400         # per page, beyond the size of the file, with one worker
least_gain=1.5          # ratio of the time of one worker to that of four, at 100,000 pages
most_link_instructions=1600 # per link of the first site, with one worker
most_link_bytes=40          # per link of a site, beyond the size of the file, with one worker
mkdir -p "$made"

# `rt run` proves and builds the program, and leaves it in out/.
(cd crates/mercator_cli && rt run -- key http://a.test/ > /dev/null)

# web PAGES, seed PAGES, report PAGES: print the file of a saved web, the URL of its first page, and the file of its report.
web() { echo "$made/$1.pages"; }
seed() { sed -n '2s/^page //p' "$(web "$1")"; }
report() { echo "$made/$1.report"; }

# crawl_under PAGES WORKERS COMMAND..: crawls a saved web under a command such as `time`.
crawl_under() {
    local pages=$1 workers=$2
    shift 2
    "$@" "$program" crawl --workers "$workers" - "$(seed "$pages")" < "$(web "$pages")"
}

# bounded NAME FIGURE MOST: prints a figure and its target.
bounded() {
    echo "$1: $2 (at most $3)"
    if [ "$2" -gt "$3" ]; then status=1; fi
}

# reports PAGES: checks that the report of one worker has each page and that all reports are the same; prints memory.
reports() {
    local pages=$1 workers total size
    size=$(stat -c %s "$(web "$pages")")
    for workers in "${threads[@]}"; do
        crawl_under "$pages" "$workers" env time -o "$made/peak" -f %M > "$made/found"
        if [ "$workers" = 1 ]; then
            mv "$made/found" "$(report "$pages")"
            total=$(tail -n 1 "$(report "$pages")")
            if [ "$total" != "total $pages ok $pages missing 0" ]; then
                echo "the crawl of $pages pages ended with: $total" >&2
                exit 1
            fi
            bounded "$pages pages, 1 worker: bytes per page beyond the file" $((($(cat "$made/peak") * 1024 - size) / pages)) "$most_bytes"
        else
            cmp "$made/found" "$(report "$pages")"
            echo "$pages pages, $workers workers: the same report; bytes per page beyond the file: $((($(cat "$made/peak") * 1024 - size) / pages))"
        fi
    done
}

# times PAGES: prints the times of crawls of a saved web, the least of five runs, or of three for a large one.
times() {
    local pages=$1 workers seconds one=
    for workers in "${threads[@]}"; do
        RUNS=$((${pages%.site} < 1000000 ? 5 : 3)) python3 bench/run.py "$made/seconds" "$(web "$pages")" \
            "$program" crawl --workers "$workers" - "$(seed "$pages")" > /dev/null
        seconds=$(cat "$made/seconds")
        one=${one:-$seconds}
        awk -v web="$pages" -v pages="${pages%.site}" -v workers="$workers" -v seconds="$seconds" -v one="$one" 'BEGIN {
            printf "%s pages, %d workers: %.3f s, %d per second, %.2f times as fast as one\n", web, workers, seconds, pages / seconds, one / seconds }'
        if [ "$pages" = 100000 ] && [ "$workers" = 4 ] &&
            ! awk -v one="$one" -v seconds="$seconds" -v least="$least_gain" 'BEGIN { exit one / seconds < least }'; then
            echo "four workers are less than $least_gain times as fast as one" >&2
            status=1
        fi
    done
}

# instructions PAGES: prints the instructions of a crawl by one worker.
instructions() {
    crawl_under "$1" 1 valgrind --tool=callgrind --callgrind-out-file="$made/callgrind" 2>&1 > /dev/null |
        awk '/Collected/ { print $NF }'
}

# Measures saved webs like real sites, with one host per 1,000 pages.
real_sites() {
    local pages name links peak
    for pages in "${sites[@]}"; do
        name=$pages.site
        python3 bench/make_web.py "$pages" --links 100 > "$(web "$name")"
        links=$(grep -c '^link ' "$(web "$name")")
        crawl_under "$name" 1 env time -o "$made/peak" -f %M > "$(report "$name")"
        peak=$(($(cat "$made/peak") * 1024 - $(stat -c %s "$(web "$name")")))
        echo "$name: $links links; $(tail -n 1 "$(report "$name")")"
        crawl_under "$name" 4 | cmp - "$(report "$name")"
        bounded "$name, 1 worker: bytes per link beyond the file" $((peak / links)) "$most_link_bytes"
        if [ "$pages" = "${sites[0]}" ]; then
            bounded "$name, 1 worker: instructions per link" $(($(instructions "$name") / links)) "$most_link_instructions"
        fi
        times "$name"
    done
}

status=0
if [ "${sizes[0]}" != sites ]; then
    for pages in "${sizes[@]}"; do
        python3 bench/make_web.py "$pages" > "$(web "$pages")"
        reports "$pages"
    done
    bounded "${sizes[0]} pages, 1 worker: instructions per page" $(($(instructions "${sizes[0]}") / sizes[0])) "$most_instructions"
    for pages in "${sizes[@]}"; do
        times "$pages"
    done
fi
real_sites
exit $status
