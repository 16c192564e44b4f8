#!/bin/bash
# Crawls sites over HTTP with curl, and `mercator serve` as the URL frontier. It shows the protocol in another language than
# Python. There is one fetcher, and robots.txt is not read, so use it only for your own hosts, and crawl_http.py for others.
#
# Usage: crawl_http.sh SUFFIX SEED..
# It crawls hosts equal to SUFFIX or subdomains of it, and prints the status and the URL of each page.
#
# Environment: MERCATOR is the path of the program [default: mercator]; DELAY is the number of seconds between two requests
# [default: 1].
set -euo pipefail
export LC_ALL=C  # pages are read as bytes
if [ $# -lt 2 ]; then
    echo "usage: crawl_http.sh SUFFIX SEED.." >&2
    exit 3
fi
suffix=$1
shift
page=$(mktemp)
trap 'rm -f "$page"' EXIT
coproc SERVE { exec "${MERCATOR:-mercator}" serve --workers 1 --within="$suffix"; }

# ask REQUEST: sends a request, and reads its answer into the variable `answer`.
ask() {
    printf '%s\n' "$1" >&"${SERVE[1]}"
    IFS= read -r answer <&"${SERVE[0]}"
}

# links: prints the links of the page, one per line, as they are written in it.
links() {
    tr '\n\t' '  ' < "$page" | grep -aoiE '<(a|area|link|img|script|iframe) [^>]*(href|src)="[^"]*"' \
        | sed -E 's/.*(href|src)="([^"]*)"$/\2/I; s/&amp;/\&/g' || true
}

for seed in "$@"; do
    ask "offer $seed"
    case $answer in
        accepted*|seen) ;;
        *) echo "crawl_http.sh: seed $seed: $answer" >&2 ;;
    esac
done
ask endseeds

while ask "next 0"; do
    case $answer in
        taken*) url=${answer#taken } ;;
        *) break ;;
    esac
    reply=$(curl --silent --globoff --max-time 30 --max-filesize 5000000 --user-agent crawl_http --output "$page" \
        --write-out '%{http_code} %header{location}' -- "$url") || reply="failed "
    echo "${reply%% *} $url"
    if [[ $reply == 3* ]]; then
        ask "link $url ${reply#* }"
    elif [[ $reply == 200* ]]; then
        # Each request is sent after the answer to the previous one was read, so there is no deadlock.
        while IFS= read -r text; do
            ask "link $url $text"
        done < <(links)
    fi
    : > "$page"
    ask "done 0"
    sleep "${DELAY:-1}"
done

# With one fetcher, the last answer is `closed`: no URL is left. Any other answer is an error.
[ "$answer" = closed ]
