#!/bin/bash
# Tests crawls by the built program with 512 workers, each in a thread of its own, on two processors.
#
# Usage: tests/stress_threads.sh [RUNS [PROCESSORS]]
# RUNS is the number of runs on each saved web [default: 200], PROCESSORS a list of processors [default: 0,1].
#
# The saved webs are examples/ring.web, whose report is stored, and a generated one (bench/make_web.py of 10,000 pages, which has
# more hosts than there are workers), whose report is computed here from the text of the saved web. Each run must end within 60
# seconds with status 0, the bytes of the report, and nothing on standard error. The script prints the times, and stops at the first
# run that fails.
#
# Environment: PROGRAM is the path of the program [default: crates/mercator_cli/out/mercator_cli, which `rt run` in its crate's
# folder builds].
set -euo pipefail
cd "$(dirname "$0")/.."
program=${PROGRAM:-$PWD/crates/mercator_cli/out/mercator_cli}
runs=${1:-200}
processors=${2:-0,1}
workers=512
pages=10000
time_limit=60 # seconds per run
scratch=$(mktemp -d)
trap 'rm -rf "$scratch"' EXIT

# Makes the generated saved web and its report: every page can be reached from the first and has five links, none of them skipped.
generated() {
    python3 bench/make_web.py "$pages" > "$scratch/web"
    sed -n 's/^page //p' "$scratch/web" | LC_ALL=C sort | sed 's/^/ok 5 0 /' > "$scratch/report"
    echo "total $pages ok $pages missing 0" >> "$scratch/report"
}

# run WEB SEED REPORT NUMBER: crawls a saved web and compares the output with a report.
run() {
    local web=$1 seed=$2 report=$3 number=$4 status=0
    timeout "$time_limit" taskset -c "$processors" "$program" crawl --workers "$workers" - "$seed" \
        < "$web" > "$scratch/out" 2> "$scratch/err" || status=$?
    if [ "$status" -ne 0 ] || ! cmp "$scratch/out" "$report" || [ -s "$scratch/err" ]; then
        echo "run $number on $web: status $status, $(wc -c < "$scratch/out") bytes of $(wc -c < "$report")" >&2
        cat "$scratch/err" >&2
        exit 1
    fi
}

# runs_on NAME WEB SEED REPORT COUNT: crawls a saved web COUNT times, and prints the time.
runs_on() {
    local name=$1 web=$2 seed=$3 report=$4 count=$5 start=$EPOCHREALTIME number
    for ((number = 1; number <= count; number++)); do run "$web" "$seed" "$report" "$number"; done
    awk -v name="$name" -v count="$count" -v workers="$workers" -v processors="$processors" -v start="$start" -v end="$EPOCHREALTIME" \
        'BEGIN { printf "%s: %d runs with %d workers on processors %s, all with the same report, in %.1f s, %.3f s each\n",
            name, count, workers, processors, end - start, (end - start) / count }'
}

generated
runs_on ring examples/ring.web http://a.test/ examples/ring.report "$runs"
runs_on generated "$scratch/web" "$(sed -n '2s/^page //p' "$scratch/web")" "$scratch/report" "$runs"
