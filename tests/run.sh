#!/bin/bash
# Runs every test that a change must pass: first that the scripts name only what exists, then the proofs, and then the tests of the
# program that they build. This is what CI runs.
# It prints the output of each part, then what time it took, one line for each part, and on the last line `N passed, M failed` over
# all. The exit status is 1 if anything failed.
#
# Usage: tests/run.sh
# tests/quick.sh runs the same tests in minutes, without the proofs.
set -uo pipefail
cd "$(dirname "$0")/.." || exit 1
# shellcheck source=tests/parts.sh
. tests/parts.sh
output=$(mktemp)
trap 'rm -f "$output"' EXIT

# part COMMAND ARGUMENT..: runs a part, and adds its counts.
part() {
    local status passed failed
    "$@" < /dev/null 2>&1 | tee "$output"
    status=${PIPESTATUS[0]}
    read -r passed failed < <(judged "$status" "$output")
    add "$*" "$passed" "$failed"
}

# took: prints the elapsed time, and the CPU time of all parts with everything that they started and waited for.
took() {
    local user system
    times > "$output"
    read -r user system < <(tail -n 1 "$output")
    echo "elapsed $((SECONDS / 60)) min $((SECONDS % 60)) s, CPU time $user in user mode and $system in system mode"
}

part tests/scripts.py
part rt ci
part tests/cases.py
part tests/drawn.py
part tests/check.py --drawn 300 --changed 20
part tests/frontier.py
part tests/serve.py --program crates/mercator_cli/out/mercator_cli --lines 2000 --part random_sessions --part random_parts --part all_at_once --part byte_by_byte --part compacted_logs --part lists --part stopped_compactions
part tests/bell_model.py
part tests/command-line.sh
part tests/manual_page.py
part tests/converter.py
part tests/list_folder.py
part docs/check.py
part docs/definitions.py --check
part tools/character_names.py --check
took
total
