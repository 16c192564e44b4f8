#!/bin/bash
# Measures crawl_keys: URLs and links per second, instructions each (counted by callgrind), bytes of memory per URL in a set,
# with and without three copies, and the instructions of a call of a filter. Each piece of work but `canonical` has only common
# URL forms, which skip the parser.
#
# Usage: bench/keys.sh [URLS [LINKS]]
# Defaults: 300000 URLs and 500000 links. Requires `rt`, valgrind and GNU time.
set -euo pipefail

urls=${1:-300000}
links=${2:-500000}
counted=2000 # number of URLs or links under callgrind, which is slow

cd "$(dirname "$0")/../crates/library_calls"
rt run -- crawler > /dev/null
program=$PWD/out/library_calls
scratch=$(mktemp -d)
trap 'rm -r "$scratch"' EXIT

# texts FORMAT COUNT: prints COUNT texts; %host and %page in the format are the numbers of a host and of a page.
texts() {
    awk -v format="$1" -v count="$2" 'BEGIN {
        for (n = 0; n < count; n++) {
            text = format
            sub(/%host/, sprintf("%03d", n % 1000), text)
            sub(/%page/, sprintf("%06d", n), text)
            print text
        }
    }'
}

# format NAME: prints the format of the texts of a row.
format() {
    case $1 in
    canonical) echo 'http://Host-%host.Crawl.test:80/section/./old/../page-%page?view=full#top' ;;
    plain) echo 'http://host-%host.crawl.test/section/page-%page?view=full' ;;
    joined) echo '../page-%page?view=full' ;;
    by_host) echo '//host-001.crawl.test/section/page-000001?view=full' ;;
    rooted) echo '/section/page-000001?view=full' ;;
    beside) echo 'page-000001?view=full' ;;
    part) echo '#part' ;;
    odd) echo '/section/./page-000001?view=full' ;;
    esac
}

# nanoseconds WORK FILE: prints the least elapsed time of five runs of a piece of work.
nanoseconds() {
    local best= start spent
    for _ in 1 2 3 4 5; do
        start=$(date +%s%N)
        "$program" "$1" 1 0 "$2" > /dev/null
        spent=$(($(date +%s%N) - start))
        if [ -z "$best" ] || [ "$spent" -lt "$best" ]; then best=$spent; fi
    done
    echo "$best"
}

# instructions WORK COUNT FILE: prints the instructions of a piece of work that is done COUNT times.
instructions() {
    valgrind --tool=callgrind --callgrind-out-file="$scratch/out" "$program" "$1" "$2" 0 "$3" 2>&1 > /dev/null |
        awk '/Collected/ { print $NF }'
}

# resident WORK FILE: prints the peak resident memory of a piece of work, in bytes.
resident() {
    env time -f %M "$program" "$1" 1 0 "$2" 2>&1 > /dev/null | awk '{ print $1 * 1024 }'
}

# more WORK FILE: prints the instructions of one more round.
more() {
    echo $(($(instructions "$1" 2 "$2") - $(instructions "$1" 1 "$2")))
}

cd "$scratch"

# row NAME WORK COUNT: prints the cost of a piece of work, without that of reading its texts.
row() {
    local name=$1 work=$2 count=$3 time calls
    texts "$(format "$name")" "$count" > many
    head -n "$counted" many > few
    time=$(($(nanoseconds "$work" many) - $(nanoseconds lines many)))
    calls=$((($(more "$work" few) - $(more lines few)) / counted))
    printf '%s: %d in %d ms, %d per second, %d instructions each\n' \
        "$name" "$count" $((time / 1000000)) $((count * 1000000000 / time)) "$calls"
}

# kept WORK: prints the bytes of memory per URL, without those of the texts.
kept() {
    printf '%s: %d bytes per URL\n' "$1" $((($(resident "$1" many) - $(resident lines many)) / urls))
}

# answer SUFFIXES: prints the instructions of one call of a filter. A round calls it for 64 URLs, half of them within a suffix.
answer() {
    awk -v suffixes="$1" 'BEGIN {
        for (n = 0; n < suffixes; n++) printf "host-%06d.crawl.test ", n
        print ""
        for (n = 0; n < 64; n++) {
            host = int(n / 2) * 1567 % suffixes
            printf "http://%shost-%06d.crawl.test/section/page?view=full\n", n % 2 ? "other-" : "www.", host
        }
    }' > asked
    echo $((($(instructions allowed 11 asked) - $(instructions allowed 1 asked)) / 640))
}

row canonical canonical "$urls"
kept kept
kept shared
row plain canonical "$urls"
for name in joined by_host rooted beside part odd; do row "$name" joined "$links"; done

one=$(answer 1)
many=$(answer 100000)
printf 'allows: %d instructions with one suffix, %d with 100000, %d.%02d times as many\n' \
    "$one" "$many" $((many / one)) $((100 * many / one % 100))
