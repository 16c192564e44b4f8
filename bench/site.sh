#!/bin/bash
# Measures `mercator site` and `mercator check` on folders of HTML pages.
#
# Usage: bench/site.sh FOLDER ..
#
# For each folder and command it prints a row: the number of documents, the bytes of all files, the bytes of the output, the
# least elapsed time, the least CPU time and the peak memory of RUNS runs. The first run is not counted, so the files are in the
# system's cache.
#
# Environment: PROGRAM is the path of the program [default: the built one], RUNS the number of runs [default: 10]. Requires GNU
# time.
set -euo pipefail
cd "$(dirname "$0")/.."
made=bench/out
program=${PROGRAM:-$PWD/crates/mercator_cli/out/mercator_cli}
runs=${RUNS:-10}
mkdir -p "$made"
trap 'rm -f "$made"/site.*' EXIT

# `rt run` proves and builds the program, and leaves it in out/.
if [ -z "${PROGRAM:-}" ]; then (cd crates/mercator_cli && rt run -- --help > /dev/null); fi

# row COMMAND FOLDER: prints the row of a command. Exit status 4 of a check means broken links.
row() {
    local command=$1 folder=$2
    "$program" "$command" "$folder" http://docs.test/ > "$made/site.out" 2> /dev/null || [ $? -eq 4 ]
    for ((run = 0; run < runs; run++)); do
        start=$EPOCHREALTIME
        env time -q -o "$made/site.time" -f '%U %S %M' "$program" "$command" "$folder" http://docs.test/ \
            > "$made/site.out" 2> /dev/null || [ $? -eq 4 ]
        end=$EPOCHREALTIME
        read -r user system peak < "$made/site.time"
        awk -v a="$start" -v b="$end" -v u="$user" -v s="$system" -v m="$peak" 'BEGIN { printf "%.3f %.3f %d\n", b - a, u + s, m }'
    done > "$made/site.rows"
    seconds=$(cut -d' ' -f1 "$made/site.rows" | sort -g | head -n 1)
    processor=$(cut -d' ' -f2 "$made/site.rows" | sort -g | head -n 1)
    peak=$(cut -d' ' -f3 "$made/site.rows" | sort -g | tail -n 1)
    documents=$(find -L "$folder" -type f -iname '*.htm*' 2> /dev/null | wc -l)
    bytes=$(find -L "$folder" -type f -printf '%s\n' 2> /dev/null | awk '{ sum += $1 } END { printf "%d", sum }')
    printf '%-5s %-44s %9d %12d %12d %8s %8s %10s\n' \
        "$command" "$folder" "$documents" "$bytes" "$(stat -c %s "$made/site.out")" "$seconds" "$processor" "$peak"
}

printf '%-5s %-44s %9s %12s %12s %8s %8s %10s\n' '' folder documents bytes output 'elapsed' 'CPU' 'peak KiB'
for folder in "$@"; do
    row site "$folder"
    row check "$folder"
done
