#!/bin/bash
# Tests the built program on files, pipes, a closed output and a full device, which no test of `run_words` can use. It builds the
# program first if it is missing.
#
# Usage: tests/command-line.sh
# Environment: PROGRAM is the path of the program [default: the built one]. The last line is `N passed, M failed`.
set -uo pipefail
cd "$(dirname "$0")/.." || exit 1
program=${PROGRAM:-$PWD/crates/mercator_cli/out/mercator_cli}
data=$PWD/examples
scratch=$(mktemp -d)
trap 'rm -rf "$scratch"' EXIT
[ -x "$program" ] || (cd crates/mercator_cli && rt run -- key http://a.test/ > "$scratch/build" 2>&1) || { cat "$scratch/build"; exit 1; }

passed=0
failed=0

# expect NAME STATUS OUT ERR: compares the results of the last `run`. OUT is the whole output, or `@FILE` for the bytes of a file;
# ERR is the whole of standard error, or `~TEXT` for a text in it.
expect() {
    local name=$1 status=$2 out=$3 err=$4 fine=1
    [ "$got" -eq "$status" ] || fine=0
    case $out in
        @*) cmp -s "${out#@}" "$scratch/out" || fine=0 ;;
        *) [ "$(cat "$scratch/out")" = "$out" ] || fine=0 ;;
    esac
    case $err in
        ~*) grep -qF -- "${err#\~}" "$scratch/err" || fine=0 ;;
        *) [ "$(cat "$scratch/err")" = "$err" ] || fine=0 ;;
    esac
    if [ "$fine" -eq 1 ]; then
        passed=$((passed + 1))
    else
        failed=$((failed + 1))
        echo "FAILED: $name (line ${BASH_LINENO[0]} of tests/command-line.sh)"
        echo "  status $got, expected $status"
        echo "  output:"
        head -c 400 "$scratch/out"
        echo "  expected output:"
        case $out in
            @*) head -c 400 "${out#@}" ;;
            *) echo "$out" ;;
        esac
        echo "  standard error:"
        head -c 400 "$scratch/err"
        case $err in
            ~*) echo "  expected in standard error: ${err#\~}" ;;
            *) echo "  expected standard error: $err" ;;
        esac
    fi
}

# run ARGUMENT..: runs the program with empty input, and sets `got` to its status.
run() {
    got=0
    : > "$scratch/out"
    "$program" "$@" < /dev/null > "$scratch/out" 2> "$scratch/err" || got=$?
}

run crawl "$data/ring.web" http://a.test/
expect "a file by name" 0 "@$data/ring.report" ""

run crawl "$data/ring.web" --workers 512 http://a.test/
expect "512 threads" 0 "@$data/ring.report" ""

run replay "$data/two_urls.script"
expect "a script by name" 0 "@$data/two_urls.replies" ""

cp "$data/ring.web" "$scratch/a name.web"
(cd "$scratch" && cp "a name.web" ./-)
run crawl "$scratch/a name.web" http://a.test/
expect "a name with a space" 0 "@$data/ring.report" ""

run crawl "$scratch/-" http://a.test/
expect "a path that ends in -" 0 "@$data/ring.report" ""

got=0
cat "$data/ring.web" | "$program" crawl - http://a.test/ > "$scratch/out" 2> "$scratch/err" || got=$?
expect "a pipe" 0 "@$data/ring.report" ""

got=0
(head -c 30 "$data/ring.web"; sleep 0.2; tail -c +31 "$data/ring.web") | "$program" crawl - http://a.test/ > "$scratch/out" 2> "$scratch/err" || got=$?
expect "a pipe that is slow" 0 "@$data/ring.report" ""

got=0
"$program" crawl - http://a.test/ < "$data/ring.web" 2> "$scratch/err" | cat > "$scratch/out" || got=$?
expect "an output that is a pipe" 0 "@$data/ring.report" ""

mkfifo "$scratch/fifo"
cat "$data/ring.web" > "$scratch/fifo" &
run crawl "$scratch/fifo" http://a.test/
expect "a named pipe" 0 "@$data/ring.report" ""
wait

run crawl "$scratch/none.web" http://a.test/
expect "no such file" 1 "" "mercator: cannot read $scratch/none.web"

run crawl "$scratch" http://a.test/
expect "a folder" 1 "" "mercator: cannot read $scratch"

run crawl /dev/null http://a.test/
expect "an empty file" 1 "" "mercator: saved web: bad header"

# Root may read everything, so root runs this case as another user, in a folder that this user may enter.
closed=$(mktemp -d)
trap 'rm -rf "$scratch" "$closed"' EXIT
cp "$program" "$closed/program"
cp "$data/ring.web" "$closed/closed.web"
chmod 755 "$closed" "$closed/program"
chmod 0 "$closed/closed.web"
as=()
if [ "$(id -u)" -eq 0 ]; then as=(setpriv --reuid 65534 --regid 65534 --clear-groups); fi
got=0
"${as[@]}" "$closed/program" crawl "$closed/closed.web" http://a.test/ < /dev/null > "$scratch/out" 2> "$scratch/err" || got=$?
expect "a file without permission" 1 "" "mercator: cannot read $closed/closed.web"

# run_limited COUNT ARGUMENT..: runs the program as a user without other processes, who may have COUNT threads.
run_limited() {
    local count=$1
    shift
    got=0
    : > "$scratch/out"
    timeout 60 setpriv --reuid 54321 --regid 54321 --clear-groups prlimit --nproc="$count" \
        "$closed/program" "$@" < "$data/ring.web" > "$scratch/out" 2> "$scratch/err" || got=$?
}

# A single worker runs on the main thread, and each of several workers in a thread of its own. With fewer threads, the crawl fails.
if setpriv --reuid 54321 --regid 54321 --clear-groups true 2> /dev/null; then
    run_limited 1 crawl --workers 1 - http://a.test/
    expect "one worker and one thread" 0 "@$data/ring.report" ""
    for workers in 2 3 8; do
        run_limited $((workers + 1)) crawl --workers "$workers" - http://a.test/
        expect "$workers workers and the main thread" 0 "@$data/ring.report" ""
        for ((count = workers; count >= 1; count--)); do
            run_limited "$count" crawl --workers "$workers" - http://a.test/
            expect "$workers workers with only $count threads" 2 "" "mercator: incomplete: no thread"
        done
    done
    # If no other thread can run, the main thread reads the documents of the site.
    cp -r "$data/site" "$closed/site"
    chmod -R a+rX "$closed/site"
    run check "$closed/site"
    mv "$scratch/out" "$scratch/site.report"
    run_limited 1 check --workers 1 "$closed/site"
    expect "a check by one worker and one thread" 4 "@$scratch/site.report" ""
    run_limited 2 check --workers 2 "$closed/site"
    expect "a check by two workers with only 2 threads" 2 "" "mercator: incomplete: no thread"
else
    echo "not tested, because this user cannot change to another one: limits on the number of threads"
fi

(echo savedweb 1; paste -d '\n' <(seq -f 'page http://a.test/%.0f' 0 2999) <(seq -f 'link %.0f' 3000)) > "$scratch/row.web"
run crawl "$scratch/row.web" http://a.test/0
mv "$scratch/out" "$scratch/row.report"
run crawl --progress --workers 1 "$scratch/row.web" http://a.test/0
expect "progress" 0 "@$scratch/row.report" "~mercator: 64 pages, "

got=0
"$program" crawl --progress "$scratch/row.web" http://a.test/0 > "$scratch/out" 2> /dev/full || got=$?
: > "$scratch/err"
expect "progress on a full device" 0 "@$scratch/row.report" ""

run crawl --sources --within site.test "$data/site.web" http://site.test/
expect "the sources of missing URLs" 0 "@$data/site.broken" ""

run crawl --seeds "$data/moved.seeds" "$data/moved.web"
expect "seeds from a file" 0 "@$data/moved.report" ""

got=0
"$program" crawl "$data/moved.web" --seeds - < "$data/moved.seeds" > "$scratch/out" 2> "$scratch/err" || got=$?
expect "seeds from a pipe" 0 "@$data/moved.report" ""

run crawl --seeds "$scratch/gone.seeds" "$data/moved.web"
expect "a missing file of seeds" 1 "" "mercator: cannot read $scratch/gone.seeds (--seeds)"

printf 'http://a.test/\n\nno seed\n' > "$scratch/bad.seeds"
run crawl --seeds "$scratch/bad.seeds" "$data/moved.web" mailto:x
expect "a bad line of seeds" 1 "" "mercator: seeds: line 3: not a URL"

run crawl --seeds - -
expect "one input for two files" 3 "" "~cannot both be '-'"

got=0
"$program" replay - <&- > "$scratch/out" 2> "$scratch/err" || got=$?
expect "a closed input" 1 "" "mercator: cannot read -"

# No more than 2^30 bytes are read. These, and half as many again while the buffer grows, fit into 3 GiB of address space.
if (ulimit -v $((3 << 20)) && "$program" --help) > /dev/null 2>&1; then
    got=0
    yes look | (ulimit -v $((3 << 20)); exec timeout 60 "$program" replay -) > "$scratch/out" 2> "$scratch/err" || got=$?
    expect "an input without an end" 1 "" "mercator: cannot read -"
else
    echo "not tested, because this program needs more than 3 GiB of addresses: an input without an end"
fi

got=0
: > "$scratch/out"
"$program" crawl "$data/ring.web" http://a.test/ >&- 2> "$scratch/err" || got=$?
expect "a closed output" 1 "" "mercator: cannot write"

got=0
"$program" crawl "$data/ring.web" http://a.test/ > /dev/full 2> "$scratch/err" || got=$?
expect "a full device" 1 "" "mercator: cannot write"

got=0
"$program" --help > /dev/full 2> "$scratch/err" || got=$?
expect "help on a full device" 1 "" "mercator: cannot write"

got=0
"$program" check --help > /dev/full 2> "$scratch/err" || got=$?
expect "a command's help on a full device" 1 "" "mercator: cannot write"

# If standard output or error is closed at the start, its descriptor is not used for the log.
got=0
echo 'offer http://a.test/' | "$program" serve --log "$scratch/closed.log" >&- 2> "$scratch/err" || got=$?
grep -v '^#' "$scratch/closed.log" > "$scratch/out"
expect "a log with standard output closed" 1 $'workers 4 max 1048576 sums\noffer http://a.test/' "mercator: cannot write"

got=0
printf 'torn' >> "$scratch/closed.log"
echo 'next 3' | "$program" serve --log "$scratch/closed.log" > "$scratch/out" 2>&- || got=$?
tail -n +2 "$scratch/closed.log" | grep -v '^#' >> "$scratch/out"
: > "$scratch/err"
expect "a log with standard error closed" 0 $'taken http://a.test/\noffer http://a.test/\nnext 3' ""

got=0
: > "$scratch/out"
"$program" serve --log "$scratch/closed.log" <&- > "$scratch/out" 2> "$scratch/err" || got=$?
expect "a log with standard input closed" 1 "" "mercator: cannot read -"

got=0
: > "$scratch/err"
"$program" key mailto:x > "$scratch/out" 2> /dev/full || got=$?
expect "an error on a full device" 1 "" ""

got=0
"$program" key mailto:x > "$scratch/out" 2>&- || got=$?
expect "an error with standard error closed" 1 "" ""

run crawl --max-pending 1 "$data/ring.web" http://a.test/
expect "an incomplete crawl" 2 "" "mercator: incomplete: seed missing"

run
expect "no command" 3 "" "~requires a subcommand"

run crawl --workers 513 "$data/ring.web" http://a.test/
expect "513 workers" 3 "" "~513 is not in 1..=512"

run key $'http://a.test/\xff'
expect "an argument that is not UTF-8" 3 "" "error: the command line is not UTF-8"

run key http://A.test:80/x/../y#f --workers 2
expect "a key" 0 "http://a.test/y a.test 1" ""

echo "$passed passed, $failed failed"
[ "$failed" -eq 0 ]
