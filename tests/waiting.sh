#!/bin/bash
# Tests that waiting workers use no CPU time. A saved web of one host has work for only one of 64 workers, so a crawl with 64
# workers should need little more CPU time than a crawl with one. Workers that poll would use all processors during the whole crawl,
# and slow down the one that has work. The exit status is 1 if the CPU time is more than three times that of one worker plus one
# second.
#
# Usage: tests/waiting.sh
# Environment: PROGRAM is the path of the program [default: crates/mercator_cli/out/mercator_cli, which `rt run` in its crate's
# folder builds].
set -euo pipefail
cd "$(dirname "$0")/.."
program=${PROGRAM:-$PWD/crates/mercator_cli/out/mercator_cli}
pages=200000
scratch=$(mktemp -d)
trap 'rm -rf "$scratch"' EXIT

# Each page links to the next one, so at most one URL waits at any time.
(echo savedweb 1; paste -d '\n' <(seq -f 'page http://a.test/%.0f' 1 "$pages") <(seq -f 'link %.0f' 2 $((pages + 1)))) > "$scratch/web"

# hundredths WORKERS: prints the CPU time of a crawl, in hundredths of a second.
hundredths() {
    local TIMEFORMAT='%U %S'
    { time timeout 300 "$program" crawl --workers "$1" "$scratch/web" http://a.test/1 > "$scratch/out"; } 2> "$scratch/time"
    tail -n 1 "$scratch/out" > "$scratch/total"
    [ "$(cat "$scratch/total")" = "total $((pages + 1)) ok $pages missing 1" ] || { echo "$1 workers: $(cat "$scratch/total")" >&2; exit 1; }
    awk '{ printf "%d\n", 100 * ($1 + $2) }' "$scratch/time"
}

one=$(hundredths 1)
many=$(hundredths 64)
most=$((3 * one + 100))
echo "CPU time in hundredths of a second: $one with one worker, $many with 64 workers, of which 63 wait"
[ "$many" -le "$most" ] || { echo "FAILED: expected at most $most with 64 workers" >&2; exit 1; }
