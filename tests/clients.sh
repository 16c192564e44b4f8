#!/bin/bash
# Tests the clients of `mercator serve` in Python, Node and Go: the self-test of the suite in clients/conformance, this suite and
# its kill test over each client, the tests of the Node and Go clients, those of `later` in Python, and the examples in the READMEs of
# the clients. If Node 18 or Go 1.19, or a later version, is not installed, a line says that its client is skipped. The script prints
# a line per part, with the output of one that fails, and on the last line `N passed, M failed`.
#
# Usage: tests/clients.sh. PROGRAM in the environment is another program than crates/mercator_cli/out/mercator_cli (which
# `rt run` in that folder makes), and KILLS is the number of kills of each kill test; 25.
set -uo pipefail
cd "$(dirname "$0")/.." || exit 1
MERCATOR=$(realpath "${PROGRAM:-crates/mercator_cli/out/mercator_cli}")
KILLS=${KILLS:-25}
export MERCATOR KILLS
suite=clients/conformance
scratch=$(mktemp -d)
trap 'rm -rf "$scratch"' EXIT
passed=0
failed=0

# part NAME COMMAND ARGUMENT..: the command succeeds.
part() {
    local name=$1 start=$SECONDS
    shift
    if "$@" < /dev/null > "$scratch/out" 2>&1; then
        passed=$((passed + 1))
        echo "$name: passed, $((SECONDS - start)) s"
    else
        failed=$((failed + 1))
        echo "$name: FAILED, $((SECONDS - start)) s"
        tail -n 60 "$scratch/out"
    fi
}

# client NAME CRAWLER: the conformance suite and the kill test of a client.
client() {
    part "conformance of the $1 client" $suite/conformance.py "$2"
    part "the kill test of the $1 client" $suite/kill_test.py --kills "$KILLS" "$2"
}

# notices MISTAKE TEXT: the kill test fails with this text.
notices() {
    $suite/kill_test.py --kills 12 $suite/crawlers/crawl_mistakes.py "$1" | tee "$scratch/messages"
    grep -q "^FAILED: .*$2" "$scratch/messages"
}

# code LANGUAGE FOLDER: the example in the README of a client.
code() {
    sed -n "/^\`\`\`$1\$/,/^\`\`\`\$/{//!p}" "clients/$2/README.md"
}

# prints_urls COMMAND ARGUMENT..: the example prints three URLs, and none when it runs again, since it has a log.
prints_urls() {
    printf '%s\n' http://a.test/ http://a.test/b http://c.test/ > "$scratch/urls"
    rm -f "$scratch/crawl.log"
    (cd "$scratch" && "$@" | diff urls - && "$@" | diff /dev/null -)
}

is_node_here() {
    command -v node > /dev/null && [ "$(node -p 'process.versions.node.split(".")[0]')" -ge 18 ]
}

node_example() {
    code js node | sed "s|'\./clients/node|'$PWD/clients/node|" > "$scratch/lines.mjs"
    prints_urls node lines.mjs
}

# Prints only the tests that failed.
node_tests() {
    local status=0
    node --test clients/node/test/frontier.test.mjs clients/node/test/crawl_http.test.mjs > "$scratch/node" || status=$?
    grep -E -A 20 '^ *(not ok|✖)|^# [0-9]+ kills' "$scratch/node"
    return "$status"
}

is_go_here() {
    command -v go > /dev/null && [[ $(go env GOVERSION) =~ ^go1\.([0-9]+) ]] && [ "${BASH_REMATCH[1]}" -ge 19 ]
}

# build_go NAME FILE: builds a Go program that uses the client.
build_go() {
    (cd clients/go && go build -o "$scratch/$1" "$2")
}

go_example() {
    code go go > "$scratch/lines.go"
    build_go lines "$scratch/lines.go" && prints_urls ./lines
}

go_tests() {
    local changed
    changed=$(gofmt -l clients/go $suite/crawlers/crawl_go.go) || return
    [ -z "$changed" ] || { echo "gofmt would change $changed"; return 1; }
    (cd clients/go && go vet ./... && go vet ../conformance/crawlers/crawl_go.go && go test -count=1 ./...)
}

[ -x "$MERCATOR" ] || { echo "$MERCATOR is not there: \`rt run -- --help\` in crates/mercator_cli builds it"; exit 1; }
part "the conformance suite's own test" $suite/conformance.py --self-test
part "the kill test of a crawler without mistakes" $suite/kill_test.py --kills 4 $suite/crawlers/crawl_mistakes.py none
part "the kill test of one that finishes what was in progress" notices again_is_done "never requested"
part "the kill test of one that does not request what was in progress" notices no_again "refused busy"
part "the kill test of one that finishes pages that are refused" notices done_after_503 "never requested"
client Python $suite/crawlers/crawl_python.py
part "the Python client and its crawler put URLs back" tests/later.py
if is_node_here; then
    client Node $suite/crawlers/crawl_node.mjs
    part "the example of the Node client" node_example
    part "the tests of the Node client" node_tests
else
    echo "the Node client: skipped, since there is no Node 18 or later"
fi
if is_go_here; then
    part "the crawler over the Go client is built" build_go crawl_go ../conformance/crawlers/crawl_go.go
    client Go "$scratch/crawl_go"
    part "the example of the Go client" go_example
    part "the tests of the Go client" go_tests
else
    echo "the Go client: skipped, since there is no Go 1.19 or later"
fi
echo "$passed passed, $failed failed"
[ "$failed" -eq 0 ]
