#!/bin/bash
# Runs the long tests, which tests/run.sh leaves out. They need the program and the tests that run.sh has built. The mutants take
# longest, so they run at the same time as the others, on all processors but one. For each test it prints a line, and the end of its
# output if it failed. The last line is `N passed, M failed`, and the exit status is 1 if one failed. tests/README.md says what each
# tests and how long it takes.
#
# Usage: tests/all.sh
set -uo pipefail
cd "$(dirname "$0")/.." || exit 1
outputs=$(mktemp -d)
passed=0
failed=0
mutants_job=

# Ends the mutants if this script is stopped.
end() {
    [ -z "$mutants_job" ] || kill -- "-$mutants_job" 2> /dev/null
    rm -rf "$outputs"
}
trap end EXIT

# report FILE STATUS SECONDS COMMAND ARGUMENT..: counts and prints how a test ended.
report() {
    if [ "$2" -eq 0 ]; then
        passed=$((passed + 1))
        echo "${*:4}: passed, $3 s: $(tail -n 1 "$1")"
    else
        failed=$((failed + 1))
        echo "${*:4}: FAILED, $3 s"
        tail -n 40 "$1"
    fi
}

# part COMMAND ARGUMENT..: runs a test.
part() {
    local start=$SECONDS status=0
    "$@" < /dev/null > "$outputs/part" 2>&1 || status=$?
    report "$outputs/part" "$status" $((SECONDS - start)) "$@"
}

# run_mutants FILE COMMAND ARGUMENT..: runs a test, and writes its status and its seconds to FILE.ended.
run_mutants() {
    local status=0
    nice "${@:2}" < /dev/null > "$1" 2>&1 || status=$?
    echo "$status $SECONDS" > "$1.ended"
}

processors=$(nproc)
mutants=(tests/mutants.sh -j $((processors > 1 ? processors - 1 : 1)))
set -m
run_mutants "$outputs/mutants" "${mutants[@]}" &
mutants_job=$!
set +m
part tests/stress_crawl.py
part tests/stress_threads.sh
part tests/waiting.sh
part tests/large_crawl.py
part tests/real_sites.py
part tests/refused-growths.sh
part tests/refused-growths.sh tests
part tests/drawn.py --count 100000
part tests/plain_texts.py
part tests/serve.py
part tests/check.py --drawn 10000 --changed 50 --large 20000
part tests/check.py --model --drawn 1000
part tests/definitions.py --drawn 300 --package debian-faq --package mkdocs-doc --package debian-policy
part tests/definitions.py --edits --drawn 300
part tests/warc.py
part tests/site.py
part tests/cluster_model.py
part tests/cluster.sh
part tests/clients.sh
part tests/service.py
part tests/install.sh
part tests/new_user.py crates/mercator_cli/out/mercator_cli
wait "$mutants_job"
mutants_job=
read -r status seconds < "$outputs/mutants.ended"
report "$outputs/mutants" "$status" "$seconds" "${mutants[@]}"
echo "$passed passed, $failed failed"
[ "$failed" -eq 0 ]
