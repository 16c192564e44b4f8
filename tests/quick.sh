#!/bin/bash
# Tests a change in minutes, without the proofs: the layout of the sources, the documents, the tests in Rattle by `rt try --test`,
# and the tests of tests/run.sh that need the program, with a program that is built without proofs (tools/unproved.sh). Parts run
# side by side. The output of a part is printed only if something failed in it. The last line is `N passed, M failed` over all,
# and the exit status is 1 if anything failed.
#
# Usage: tests/quick.sh [--anew] [PART]..
# PART is one of those that `parts` lists below; without PART all are run. A part that passed is run again only after a change of
# something that it reads; --anew runs it in any case. Requires the Rattle toolchain. In the end a change must pass tests/run.sh.
set -uo pipefail
cd "$(dirname "$0")/.." || exit 1
# shellcheck source=tests/parts.sh
. tests/parts.sh

parts=(format scripts documents definitions character_names mercator_tests crawl_run_tests crawl_gate_tests crawl_text_tests frontier cases command_line manual_page drawn check serve service bell_model converter list_folder warc)
kept=tests/out/quick
# A test of crawl_text_tests that no time limit fits. tests/run.sh runs it.
too_long=tests::indices::finds_what_a_plain_search_finds

# command PART: sets `words` to its command.
command_of() {
    case $1 in
    format) words=(format) ;;
    scripts) words=(tests/scripts.py) ;;
    documents) words=(docs/check.py) ;;
    definitions) words=(docs/definitions.py --check) ;;
    character_names) words=(tools/character_names.py --check) ;;
    *_tests) words=(tests_of "$1") ;;
    frontier) words=(tests/frontier.py --count 1 --jobs 2) ;;
    cases) words=(tests/cases.py --quick --seconds 300) ;;
    command_line) words=(tests/command-line.sh) ;;
    manual_page) words=(tests/manual_page.py) ;;
    drawn) words=(tests/drawn.py --count 500) ;;
    check) words=(tests/check.py --drawn 20 --changed 2 --jobs 2) ;;
    serve) words=(tests/serve.py --lines 2000 --part random_sessions --part random_parts --part all_at_once --part byte_by_byte --part compacted_logs --part lists --part stopped_compactions) ;;
    service) words=(tests/service.py --part owners --part waits --part metrics --part killed_crawlers) ;;
    bell_model) words=(tests/bell_model.py) ;;
    converter) words=(tests/converter.py) ;;
    list_folder) words=(tests/list_folder.py) ;;
    warc) words=(tests/warc.py) ;;
    esac
}

# programs PART: the crates of the programs that it needs.
programs() {
    case $1 in
    cases | command_line | manual_page | drawn | check | serve | service | list_folder | warc) echo mercator_cli ;;
    frontier) echo mercator_cli library_calls ;;
    esac
}

# The files of the work tree that git does not ignore.
tracked() {
    git -c core.quotePath=off ls-files -co --exclude-standard
}

# reads PART: the files that it reads; nothing, if it is run each time.
reads() {
    local crates
    read -ra crates < <(programs "$1")
    case $1 in
    format | scripts | documents | definitions | character_names) return ;;
    *_tests)
        crates+=("$1")
        echo tests/quick.sh
        ;;
    # These may read any file, except those that only a build or a check reads.
    cases | manual_page) tracked | grep -Ev '^bench/|^crates/\w+/(src|specs|proofs|must-fail|mutants)/' ;;
    *) tracked | grep -E '^(tests/[^/]+|tests/(checking|serving)/.*|tools/.*|clients/.*|examples/.*)$' ;;
    esac
    [ ${#crates[@]} -eq 0 ] || tools/unproved.sh --sources "${crates[@]}"
}

# checksum PART: of the tools, of its command, and of what it reads.
checksum() {
    command_of "$1"
    {
        echo "$tools ${words[*]}"
        reads "$1" | tr '\n' '\0' | xargs -0r sha256sum 2>&1
    } | sha256sum | cut -d ' ' -f 1
}

# Says whether the files of each crate have the layout that `rt fmt` gives them.
format() {
    local crate passed=0 failed=0 files
    for crate in crates/*; do
        mapfile -t files < <(find "$crate" -path "$crate/out" -prune -o \( -name '*.rt' -o -name '*.antt' \) -print)
        if "$rattle" fmt --check "${files[@]}"; then
            passed=$((passed + 1))
        else
            failed=$((failed + 1))
            echo "$crate: run \`rt fmt\` in this folder"
        fi
    done
    echo "$passed passed, $failed failed"
}

# tests_of CRATE: runs its tests in Rattle.
tests_of() {
    local status=0 limit=60
    # The other tests of this crate take a few seconds in all.
    [ "$1" != crawl_text_tests ] || limit=30
    (cd "crates/$1" && rt try --test --seconds "$limit") > "$work/$1.tests" 2>&1 || status=$?
    awk -v status="$status" -v too_long="$too_long" '
        { print }
        name == too_long && /no-answer: the program did not end within the time limit/ { failed--; left_out++ }
        { name = "" }
        /^tests: / { count = $2 }
        /^test .* \.\.\. ok$/ { passed++ }
        /^test .* \.\.\. FAILED$/ { failed++; name = $2 }
        END {
            if (left_out) print "left out, because it takes too long without proofs: " too_long
            # Each test has ended, and the status is 0 if all have passed.
            if (passed + failed + left_out != count || (status && !left_out)) failed += !failed
            print passed + 0 " passed, " failed + 0 " failed"
        }
    ' "$work/$1.tests"
}

# say LINE [FILE]: prints a line, and then the file.
say() {
    flock "$work/lock" cat <(printf '%s\n' "$1") "${@:2}"
}

# build CRATE: builds its program, and then lets the parts begin that need it.
build() {
    local status=0
    tools/unproved.sh "$1" > "$work/$1.program" 2> "$work/$1.messages" || status=$?
    [ ! -s "$work/$1.messages" ] || say "program of $1: $(tail -n 1 "$work/$1.messages")"
    echo "$status" > "$work/$1.status"
    mv "$work/$1.status" "$work/$1.built"
}

# has_programs PART: waits for the programs that it needs. The status is 1 if one was not built.
has_programs() {
    local crate
    for crate in $(programs "$1"); do
        until [ -e "$work/$crate.built" ]; do sleep 0.2; done
        if [ "$(cat "$work/$crate.built")" -ne 0 ]; then
            cat "$work/$crate.messages"
            return 1
        fi
    done
}

# run PART: runs it, and writes its counts to the file PART.counts.
run() {
    local status=0 passed failed start=$SECONDS sum words
    sum=$(checksum "$1")
    command_of "$1"
    (has_programs "$1" && "${words[@]}") > "$work/$1.output" 2>&1 < /dev/null || status=$?
    read -r passed failed < <(judged "$status" "$work/$1.output")
    if [ "$failed" -gt 0 ]; then
        say "$1: $passed passed, $failed FAILED, $((SECONDS - start)) s" "$work/$1.output"
    else
        say "$1: $passed passed, $((SECONDS - start)) s"
        # It passed with what it read, if that is still the same.
        if [ "$(checksum "$1")" = "$sum" ]; then
            echo "$sum $passed" > "$kept/$1"
        fi
    fi
    echo "$passed $failed" > "$work/$1.counts"
}

# Ends what still runs.
end() {
    local group
    for group in $(jobs -p); do
        kill -- "-$group" 2> /dev/null
    done
    rm -rf "$work"
}

anew=
if [ "${1:-}" = --anew ]; then
    anew=1
    shift
fi
for part; do
    if [[ " ${parts[*]} " != *" $part "* ]]; then
        echo "usage: tests/quick.sh [--anew] [PART].., of: ${parts[*]}" >&2
        exit 3
    fi
done
[ $# -eq 0 ] || parts=("$@")
if ! command -v rt > /dev/null; then
    echo "quick.sh: the Rattle toolchain is required, and its command rt is not in PATH" >&2
    exit 1
fi
rattle=$(dirname "$(realpath "$(command -v rt)")")/rattle
tools="$(rt version) $(python3 --version)"
mkdir -p "$kept"
work=$(mktemp -d)
trap end EXIT
trap 'exit 130' INT TERM HUP

# What is left to do: first the builds and tests that take longest.
queue=()
needed=
for part in "${parts[@]}"; do
    sum='' passed=''
    [ -n "$anew" ] || read -r sum passed 2> /dev/null < "$kept/$part"
    if [ -n "$passed" ] && [ -n "$(reads "$part")" ] && [ "$sum" = "$(checksum "$part")" ]; then
        echo "$part: unchanged since it passed: $passed passed"
        echo "$passed 0" > "$work/$part.counts"
    else
        rm -f "$kept/$part"
        queue+=("run $part")
        needed+=" $(programs "$part")"
    fi
done
for crate in library_calls mercator_cli; do
    [[ $needed != *$crate* ]] || queue=("build $crate" "${queue[@]}")
done
export PROGRAM=$PWD/crates/mercator_cli/out/mercator_unproved
export MERCATOR=$PROGRAM
CALLS=$(printf %q "$PWD/crates/library_calls/out/library_calls_unproved")
export CALLS

# As many at a time as there are processors, but a build needs up to 3.5 GB.
lanes=$(awk '/^MemAvailable/ { print int($2 / 3500000) }' /proc/meminfo)
lanes=$((lanes < $(nproc) ? lanes : $(nproc)))
lanes=$((lanes > 1 ? lanes : 1))
running=0
set -m
for item in "${queue[@]}"; do
    if [ "$running" -ge "$lanes" ]; then
        wait -n
        running=$((running - 1))
    fi
    $item &
    running=$((running + 1))
done
set +m
wait
echo
for part in "${parts[@]}"; do
    passed=0 failed=1
    read -r passed failed < "$work/$part.counts"
    add "$part" "$passed" "$failed"
done
echo "$SECONDS s"
total
