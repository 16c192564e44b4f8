#!/bin/bash
# Crawls and replays inputs that an attacker might make to be slow (bench/make_attack.py) with the built program, and compares
# their times with those of ordinary inputs.
#
# Usage: bench/attack.sh [NAME ..]
# NAME is the name of an input [default: all]. `bench/make_attack.py --names` prints the names.
#
# Saved webs are crawled with 1 and 4 workers. For each input, the script prints a row with the elapsed time, the CPU time,
# nanoseconds per byte of the input (for some inputs, of input and output), the peak memory, and the ratio to the time per byte
# of the ordinary input. The ordinary input is a saved web of 100,000 pages (bench/make_web.py) or a script of 100,000 lines
# (bench/make_script.py); it runs right before and right after, and its least time counts. The time of an input is the least of
# three runs, or that of one run if this takes more than 20 s. Inputs are deleted afterwards.
#
# The exit status is 1 if a ratio is more than 10, if an exit status or a last line is not what docs/FORMATS.md requires, or if
# the output depends on the number of workers.
#
# Environment: PROGRAM is the path of the program [default: the built one], WORKERS the numbers of workers [default: 1 4],
# COUNT the size of each input (see make_attack.py). Requires GNU time.
set -euo pipefail
cd "$(dirname "$0")/.."
made=bench/out
program=${PROGRAM:-$PWD/crates/mercator_cli/out/mercator_cli}
names=("$@")
if [ ${#names[@]} -eq 0 ]; then mapfile -t names < <(python3 bench/make_attack.py --names); fi
most_times=10        # the greatest allowed ratio of times per byte
most_memory=12582912 # KiB of address space that a run may reserve
read -r -a threads <<< "${WORKERS:-1 4}"
long_run=20          # a run of more seconds is not repeated
mkdir -p "$made"
trap 'rm -f "$made"/attack.*' EXIT

# `rt run` proves and builds the program, and leaves it in out/.
if [ -z "${PROGRAM:-}" ]; then (cd crates/mercator_cli && rt run -- key http://a.test/ > /dev/null); fi

python3 bench/make_web.py 100000 > "$made/ordinary.web"
python3 bench/make_script.py 100000 8 1 > "$made/ordinary.script"

# timed FILE COMMAND..: runs a command with a file as its input. Sets `ended` to its status, `seconds` to the elapsed seconds,
# `processor` to the CPU seconds and `peak` to the peak memory in KiB; the output goes to attack.out.
timed() {
    local input=$1 start=$EPOCHREALTIME user system
    shift
    ended=0
    (ulimit -v "$most_memory"; exec env time -q -o "$made/attack.time" -f '%U %S %M' "$@" < "$input" > "$made/attack.out") || ended=$?
    seconds=$(awk -v start="$start" -v end="$EPOCHREALTIME" 'BEGIN { printf "%.3f", end - start }')
    read -r user system peak < "$made/attack.time"
    processor=$(awk -v a="$user" -v b="$system" 'BEGIN { print a + b }')
}

least() { awk -v a="$1" -v b="$2" 'BEGIN { print (a == "" || b < a) ? b : a }'; }
above() { awk -v a="$1" -v b="$2" 'BEGIN { exit !(a > b) }'; }

# counted INPUT OUTPUT: prints the number of bytes that a time is divided by: those of the input, or of both if `measure` is
# `both`.
counted() {
    local bytes
    bytes=$(stat -c %s "$1")
    if [ "$measure" = both ]; then bytes=$((bytes + $(stat -c %s "$2"))); fi
    echo "$bytes"
}

# words COMMAND SEED WORKERS: prints the arguments of the program for a crawl or a replay.
words() {
    if [ "$1" = crawl ]; then echo "crawl --workers $3 - $2"; else echo "replay -"; fi
}

# run_ordinary COMMAND WORKERS: runs the ordinary input, and sets `ordinary` to its least seconds so far.
run_ordinary() {
    local input=$made/ordinary.web seed
    if [ "$1" = replay ]; then input=$made/ordinary.script; fi
    seed=$(sed -n '2s/^page //p' "$input")
    # shellcheck disable=SC2046 # several arguments, none of which has a space
    timed "$input" "$program" $(words "$1" "$seed" "$2")
    if [ "$ended" -ne 0 ]; then echo "the ordinary $1 ended with status $ended" >&2; exit 1; fi
    ordinary=$(least "$ordinary" "$seconds")
    ordinary_size=$(counted "$input" "$made/attack.out")
}

# check NAME STATUS LAST: compares the status and the last line of a run with the expected ones, and its output with that of
# the first run.
check() {
    local name=$1 expected=$2 last=$3 line
    line=$(tail -n 1 "$made/attack.out" | head -c 4096)
    if [ "$ended" -ne "$expected" ] || [ "${line:--}" != "$last" ]; then
        echo "$name: status $ended, expected $expected; last line '${line:--}', expected '$last'" >&2
        status=1
    fi
    if [ ! -e "$made/attack.first" ]; then
        mv "$made/attack.out" "$made/attack.first"
    elif ! cmp "$made/attack.out" "$made/attack.first" >&2; then
        echo "$name: the output differs from that of the first run" >&2
        status=1
    fi
}

# row NAME COMMAND SEED STATUS LAST WORKERS: prints the row of an input.
row() {
    local name=$1 command=$2 seed=$3 expected=$4 last=$5 workers=$6 best='' work='' top=0 turn size ratio
    ordinary=
    run_ordinary "$command" "$workers"
    for turn in 1 2 3; do
        # shellcheck disable=SC2046
        timed "$made/attack.in" "$program" $(words "$command" "$seed" "$workers")
        check "$name" "$expected" "$last"
        best=$(least "$best" "$seconds")
        work=$(least "$work" "$processor")
        if [ "$peak" -gt "$top" ]; then top=$peak; fi
        if above "$seconds" "$long_run"; then break; fi
    done
    run_ordinary "$command" "$workers"
    size=$(counted "$made/attack.in" "$made/attack.first")
    ratio=$(awk -v a="$best" -v b="$size" -v c="$ordinary" -v d="$ordinary_size" 'BEGIN { printf "%.2f", (a / b) / (c / d) }')
    awk -v name="$name" -v workers="$workers" -v size="$size" -v best="$best" -v work="$work" -v top="$top" -v ratio="$ratio" \
        -v turns="$turn" -v usual="$(awk -v c="$ordinary" -v d="$ordinary_size" 'BEGIN { print c / d * 1e9 }')" 'BEGIN {
        printf "| `%s` | %d | %d | %.3f s (%d) | %.2f s | %.1f | %.1f | %.1f MiB | %s |\n",
            name, workers, size, best, turns, work, best / size * 1e9, usual, top / 1024, ratio }'
    if above "$ratio" "$most_times"; then
        echo "$name, $workers workers: $ratio times the time per byte of the ordinary input (at most $most_times)" >&2
        status=1
    fi
}

status=0
echo '| Input | Workers | Bytes | Least time (of runs) | CPU time | ns per byte | ns per byte, ordinary | Peak memory | Ratio |'
echo '|---|---|---|---|---|---|---|---|---|'
for name in "${names[@]}"; do
    read -r command seed expected measure last < <(python3 bench/make_attack.py --expected "$name")
    python3 bench/make_attack.py "$name" > "$made/attack.in"
    rm -f "$made/attack.first"
    # a replay has no workers
    if [ "$command" = replay ]; then counts=(1); else counts=("${threads[@]}"); fi
    for workers in "${counts[@]}"; do row "$name" "$command" "$seed" "$expected" "$last" "$workers"; done
done
exit $status
