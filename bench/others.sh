#!/bin/bash
# Checks folders of HTML with mercator and with other link checkers: html-proofer, LinkChecker, wget and Scrapy. It prints a table
# per folder: what each tool reports, the shortest elapsed time and the least CPU time of RUNS runs, the peak memory, whether all
# runs printed the same apart from times, how many requests the tool made, and the server's CPU time for a run.
#
# mercator and html-proofer read the folder. The others fetch it over HTTP from a Python server on this machine, which sends the
# header `LinkChecker`: without it LinkChecker makes at most ten requests per second. html-proofer runs without HTML validation and
# without its check of alt attributes. LinkChecker and wget ignore robots.txt, and Scrapy runs a short spider that follows
# links of `a` elements. A tool that is not installed is skipped; bench/README.md lists the packages.
#
# A run of more than 20 s is not repeated. A run is stopped after LIMIT seconds.
#
# Usage: bench/others.sh [--save FILE] [FOLDER ..]     FOLDER is examples/site by default
# --save writes the elapsed times to FILE, for bench/chart.py.
# Environment: PROGRAM, mercator's path (default: the program that this repository builds), and COMMIT, its commit (default: that of
# the checkout that PROGRAM is in); RUNS (default: 3); LIMIT (default: 150).
set -euo pipefail
cd "$(dirname "$0")/.."
program=${PROGRAM:-$PWD/crates/mercator_cli/out/mercator_cli}
runs=${RUNS:-3}
limit=${LIMIT:-150}
long_run=20
save=
if [ "${1:-}" = --save ]; then
    save=$2
    shift 2
fi
folders=("$@")
[ ${#folders[@]} -gt 0 ] || folders=(examples/site)
for file in "$program" "${folders[@]}"; do
    [ -e "$file" ] || { echo "others.sh: cannot read $file" >&2; exit 1; }
done

scratch=$(mktemp -d)
chmod 755 "$scratch" # LinkChecker gives up root's rights before it reads its configuration
server=
trap '[ -z "$server" ] || kill "$server"; rm -rf "$scratch"' EXIT

cat > "$scratch/serve.py" << 'PY'
import functools
import http.server
import sys


class Handler(http.server.SimpleHTTPRequestHandler):
    def end_headers(self):
        self.send_header("LinkChecker", "unlimited")
        super().end_headers()


server = http.server.ThreadingHTTPServer(("127.0.0.1", 0), functools.partial(Handler, directory=sys.argv[1]))
print(server.server_address[1], flush=True)
server.serve_forever()
PY

printf '[checking]\nmaxrequestspersecond=100000\n' > "$scratch/linkchecker"

cat > "$scratch/spider.py" << 'PY'
import scrapy
from scrapy.linkextractors import LinkExtractor


class Spider(scrapy.Spider):
    name = "links"
    custom_settings = {
        "LOG_LEVEL": "ERROR", "HTTPERROR_ALLOW_ALL": True, "REQUEST_FINGERPRINTER_IMPLEMENTATION": "2.7"
    }

    def start_requests(self):
        yield scrapy.Request(self.site)

    def parse(self, response):
        yield {"status": response.status, "url": response.url, "from": str(response.request.headers.get("Referer"))}
        if isinstance(response, scrapy.http.HtmlResponse):
            yield from response.follow_all(LinkExtractor(allow=self.site).extract_links(response))
PY

# serve FOLDER: starts the server on a free port, and sets `server` to its process and `url` to the folder's URL.
serve() {
    : > "$scratch/port"
    python3 "$scratch/serve.py" "$1" > "$scratch/port" 2>> "$scratch/requests" &
    server=$!
    until [ -s "$scratch/port" ]; do sleep 0.1; done
    url=http://127.0.0.1:$(cat "$scratch/port")/
    python3 -c 'import sys, urllib.request; urllib.request.urlopen(sys.argv[1]).read()' "$url"
}

# by_TOOL FOLDER URL: one run of a tool.
by_mercator() { "$program" check "$1"; }
by_html_proofer() { htmlproofer --disable-external --alt-ignore '/.*/' --log-level info "$1" 2>&1; }
by_linkchecker() { linkchecker -f "$scratch/linkchecker" --no-robots --no-warnings "$2" 2> /dev/null; }
by_wget() { wget --spider -r -l inf -nd -nv -e robots=off -P "$scratch/none" "$2" 2>&1; }
by_scrapy() {
    cd "$scratch"
    /usr/bin/python3 -m scrapy runspider spider.py -a site="$2" -O found.json:jsonlines 2>&1
    cat found.json
}

is_installed() {
    case $1 in
    mercator) true ;;
    html_proofer) command -v htmlproofer > /dev/null ;;
    scrapy) /usr/bin/python3 -c 'import scrapy' 2> /dev/null ;;
    *) command -v "$1" > /dev/null ;;
    esac
}

name_of() {
    case $1 in
    html_proofer) echo html-proofer ;;
    linkchecker) echo LinkChecker ;;
    scrapy) echo Scrapy ;;
    *) echo "$1" ;;
    esac
}

version_of() {
    case $1 in
    mercator) echo "${COMMIT:-$(git -C "$(dirname "$program")" describe --always --abbrev=7 2> /dev/null || echo "of an unknown commit")}" ;;
    html_proofer) htmlproofer --version | awk '{ print $NF }' ;;
    linkchecker) linkchecker --version 2> /dev/null | awk 'NR == 1 { print $2 }' ;;
    wget) wget --version | awk 'NR == 1 { print $3 }' ;;
    scrapy) /usr/bin/python3 -m scrapy version | awk '{ print $2 }' ;;
    esac
}

# summary TOOL: the line of its output that counts broken links.
summary() {
    case $1 in
    mercator) sed -n 2p ;;
    html_proofer) grep -oE 'found [0-9]+ failures?' || echo "no failures" ;;
    linkchecker) grep -oE '[0-9]+ links? in .* checked\..*[0-9]+ errors? found' | sed 's/ in [0-9]* URLs//' ;;
    wget) grep -oE 'Found (no|[0-9]+) broken links?' ;;
    scrapy) awk '/"status": 404/ { n++ } END { print n + 0 " responses with status 404" }' ;;
    esac
}

# Removes dates, times, rates and the server's port, which differ from run to run.
without_times() {
    sed -E 's/[0-9]{4}-[0-9]{2}-[0-9]{2} [0-9:+ ]+//g; s/[0-9.,]+ ?([KMG]?B\/s|ms|s|seconds|minutes?,? ?)\b//g; s/127\.0\.0\.1:[0-9]+/HOST/g'
}

# The CPU seconds that the server has used so far.
server_cpu() { awk -v ticks="$(getconf CLK_TCK)" '{ print ($14 + $15) / ticks }' "/proc/$server/stat"; }

# timed TOOL FOLDER RUN: runs a tool. Appends elapsed time, CPU time and peak memory to `rows`, and sets `ended` to its status.
timed() {
    local started finished user system peak
    ended=0
    : > "$scratch/requests"
    rm -f "$scratch/elapsed"
    # shellcheck disable=SC2016 # the inner shell expands these
    env program="$program" scratch="$scratch" time -q -o "$scratch/time" -f '%U %S %M' timeout "$limit" \
        bash -c 'started=$EPOCHREALTIME; "by_$0" "$@"; ended=$?; echo "$started $EPOCHREALTIME" > "$scratch/elapsed"; exit $ended' \
        "$1" "$2" "$url" > "$scratch/output.$3" || ended=$?
    if [ "$ended" -eq 124 ]; then
        echo "$limit 0 0" >> "$scratch/rows"
        return
    fi
    read -r started finished < "$scratch/elapsed"
    read -r user system peak < <(tail -n 1 "$scratch/time")
    awk -v a="$started" -v b="$finished" -v u="$user" -v s="$system" -v m="$peak" \
        'BEGIN { printf "%.3f %.2f %d\n", b - a, u + s, m }' >> "$scratch/rows"
}

# same RUNS: whether all runs printed the same, apart from times.
same() {
    local run
    if [ "$1" -eq 1 ]; then echo "one run"; return; fi
    for ((run = 1; run < $1; run++)); do
        cmp -s <(without_times < "$scratch/output.0") <(without_times < "$scratch/output.$run") || { echo no; return; }
    done
    echo yes
}

# row TOOL FOLDER: runs a tool several times, and prints its row.
row() {
    local tool=$1 folder=$2 name run elapsed cpu peak requests served
    name=$(name_of "$tool")
    served=$(server_cpu)
    export -f "by_$tool"
    : > "$scratch/rows"
    for ((run = 0; run < runs; run++)); do
        timed "$tool" "$folder" "$run"
        if awk -v most="$long_run" '{ last = $1 } END { exit last <= most }' "$scratch/rows"; then run=$((run + 1)); break; fi
    done
    requests=$(grep -c 'HTTP/1' "$scratch/requests" || true)
    served=$(awk -v before="$served" -v after="$(server_cpu)" -v runs="$run" 'BEGIN { printf "%.2f", (after - before) / runs }')
    if [ "$ended" -eq 124 ]; then
        printf '| %s | stopped | > %s s | | | | %d | %s s |\n' "$name" "$limit" "$requests" "$served"
        saved "$name" "$folder" "> $limit"
        return
    fi
    elapsed=$(cut -d' ' -f1 "$scratch/rows" | sort -g | head -n 1)
    cpu=$(cut -d' ' -f2 "$scratch/rows" | sort -g | head -n 1)
    peak=$(cut -d' ' -f3 "$scratch/rows" | sort -g | tail -n 1)
    printf '| %s | %s | %s s | %s s | %d MiB | %s | %d | %s s |\n' "$name" "$(summary "$tool" < "$scratch/output.0")" "$elapsed" \
        "$cpu" $((peak / 1024)) "$(same "$run")" "$requests" "$served"
    saved "$name" "$folder" "$elapsed"
}

# saved NAME FOLDER SECONDS: appends a row to the file of --save.
saved() {
    local pages
    [ -n "$save" ] || return 0
    pages=$(find -L "$2" -type f -name '*.html' | wc -l)
    printf '%s\t%s\t%s\t%s\n' "$1" "$2" "$pages" "$3" >> "$save"
}

tools=()
for tool in mercator html_proofer linkchecker wget scrapy; do
    if is_installed "$tool"; then tools+=("$tool"); fi
done
versions=$(for tool in "${tools[@]}"; do printf '%s %s, ' "$(name_of "$tool")" "$(version_of "$tool")"; done)
versions=${versions%, }
machine="$(nproc) processors, $(sed -n 's/^model name\s*: //p' /proc/cpuinfo | head -n 1 | tr -s ' ')"
if [ -n "$save" ]; then
    printf '# %s\n' "bench/others.sh ${folders[*]}" "$(date -u +%Y-%m-%d)" "$machine" "$versions" \
        "shortest of at most $runs runs, each stopped after $limit s" 'tool, folder, HTML files, elapsed seconds' > "$save"
fi
echo "$versions"
echo "$machine"
for folder in "${folders[@]}"; do
    printf '\n%s:\n\n' "$folder"
    echo '| Tool | Reports | Elapsed | CPU time | Peak memory | Same output each time | Requests | CPU time of the server |'
    echo '|---|---|---|---|---|---|---|---|'
    serve "$folder"
    for tool in "${tools[@]}"; do row "$tool" "$folder"; done
    kill "$server"
    wait "$server" 2> /dev/null || true
    server=
done
