#!/bin/bash
# Measures crawl_frontier: offers of new URLs, offers of seen URLs, and taking a URL and finishing it.
#
# Usage: bench/frontier.sh
#
# For each of the three it prints the instructions (counted by callgrind) at 100,000 URLs, the elapsed times at 100,000 and
# 1,000,000 URLs with 1, 2 and 4 threads, and how much slower one is among 1,000,000 URLs. It also prints the bytes of memory
# per URL, including its text of 56 bytes. The exit status is 1 if a target is missed. Requires `rt`, valgrind and GNU time.
set -euo pipefail

few=100000
many=1000000
repeats=5 # how many times the program offers each URL again
runs=5
most_new=1600     # instructions per new offer
most_seen=950     # instructions per seen offer
most_slowing=1.9  # ratio of the time among many URLs to that among few
most_bytes=300    # per URL that was offered once and taken

cd "$(dirname "$0")/../crates/library_calls"
rt run -- crawler > /dev/null
program=$PWD/out/library_calls
scratch=$(mktemp -d)
trap 'rm -r "$scratch"' EXIT
status=0

# URLs of 56 bytes, of 1,000 hosts.
for count in "$few" "$many"; do
    awk -v count="$count" 'BEGIN {
        for (n = 0; n < count; n++) {
            printf "http://host-%04d.example.test/part-%d/page-%07d.html\n", n % 1000, n % 7, n
        }
    }' > "$scratch/$count.urls"
done

# work NAME URLS THREADS: prints the arguments of a piece of work. `lines` only reads the lines, `made` makes their URLs, `new`
# offers each once, `seen` offers all of them again, and `taken` also takes them.
work() {
    case $1 in
    lines) echo "lines 1 $3 $scratch/$2.urls" ;;
    made) echo "offered 0 $3 $scratch/$2.urls" ;;
    new) echo "offered 1 $3 $scratch/$2.urls" ;;
    seen) echo "offered $((repeats + 1)) $3 $scratch/$2.urls" ;;
    taken) echo "taken $((repeats + 1)) $3 $scratch/$2.urls" ;;
    esac
}

# nanoseconds WORK URLS THREADS: prints the least elapsed time of a piece of work.
nanoseconds() {
    local best= start spent words
    read -ra words <<< "$(work "$1" "$2" "$3")"
    for _ in $(seq "$runs"); do
        start=$(date +%s%N)
        "$program" "${words[@]}" > /dev/null
        spent=$(($(date +%s%N) - start))
        if [ -z "$best" ] || [ "$spent" -lt "$best" ]; then best=$spent; fi
    done
    echo "$best"
}

# instructions WORK URLS: prints the instructions of a piece of work on one thread.
instructions() {
    local words
    read -ra words <<< "$(work "$1" "$2" 1)"
    valgrind --tool=callgrind --callgrind-out-file="$scratch/out" "$program" "${words[@]}" 2>&1 > /dev/null |
        awk '/Collected/ { print $NF }'
}

# resident WORK URLS: prints the peak resident memory of a piece of work, in bytes.
resident() {
    local words
    read -ra words <<< "$(work "$1" "$2" 1)"
    env time -o "$scratch/peak" -f %M "$program" "${words[@]}" > /dev/null
    echo $(($(cat "$scratch/peak") * 1024))
}

# bounded NAME FIGURE MOST: prints a figure and its target.
bounded() {
    echo "$1: $2 (at most $3)"
    if ! awk -v is="$2" -v most="$3" 'BEGIN { exit is > most }'; then status=1; fi
}

made=$(instructions made "$few")
new=$(instructions new "$few")
seen=$(instructions seen "$few")
taken=$(instructions taken "$few")
bounded "instructions per new offer" $(((new - made) / few)) "$most_new"
bounded "instructions per seen offer" $(((seen - new) / few / repeats)) "$most_seen"
echo "instructions per URL taken and finished: $(((taken - seen) / few))"

bounded "bytes per URL" $((($(resident new "$many") - $(resident lines "$many")) / many)) "$most_bytes"
echo "bytes per URL after it was seen $repeats times: $((($(resident seen "$many") - $(resident lines "$many")) / many))"

# costs URLS THREADS: prints the nanoseconds per new offer, per seen offer, and per URL taken and finished.
costs() {
    local count=$1 threads=$2 made new seen taken
    made=$(nanoseconds made "$count" "$threads")
    new=$(nanoseconds new "$count" "$threads")
    seen=$(nanoseconds seen "$count" "$threads")
    taken=$(nanoseconds taken "$count" "$threads")
    echo $(((new - made) / count)) $(((seen - new) / count / repeats)) $(((taken - seen) / count))
}

for threads in 1 2 4; do
    for count in "$few" "$many"; do
        costs "$count" "$threads" > "$scratch/$count"
        awk -v count="$count" -v threads="$threads" \
            '{ printf "%d URLs, %d threads: %d ns per new offer, %d ns per seen offer, %d ns per URL taken\n", count, threads, $1, $2, $3 }' \
            "$scratch/$count"
    done
    if [ "$threads" = 1 ]; then
        read -r few_new few_seen _ < "$scratch/$few"
        read -r many_new many_seen _ < "$scratch/$many"
        bounded "slowdown of new offers" "$(awk -v a="$many_new" -v b="$few_new" 'BEGIN { printf "%.2f", a / b }')" "$most_slowing"
        bounded "slowdown of seen offers" "$(awk -v a="$many_seen" -v b="$few_seen" 'BEGIN { printf "%.2f", a / b }')" "$most_slowing"
    fi
done
exit $status
