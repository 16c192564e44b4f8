#!/bin/bash
# Tests that the built program survives failing memory allocations.
#
# Usage: tests/refused-growths.sh [tests]
#
# Each command is run again and again, with its first, second, .. allocation failing, until a run needs no more allocations. A
# crawl of 2,000 pages is run with later allocations failing. A run must not hang or crash. It must end like a run without a
# failure, with the same status and output; or with status 1 or 2, nothing on standard output, and on standard error a line
# that the formats define, or nothing if there was no memory for it. A session may have answered its first lines. The
# script prints the number of allocations of each command. Its exit status is 1 if a run ended in another way.
#
# With `tests`, it does the same with each test of each crate whose tests are built (by `rt test` in its folder, which leaves them
# in `out/`), with longer and longer steps between the failing allocations. A test must pass or be stopped by an error or an
# assertion of its own, and must not hang or crash. The same holds for the calls of a frontier that `library_calls` makes.
#
# An allocation is a call of malloc, calloc, realloc or aligned_alloc; a small library replaces these functions of the C library.
# Environment: SECONDS is the time limit of a run, PROGRAM the path of the program [default: the built one]. Requires a C compiler
# and Python 3.9 or later, and `rt` if the program is not built.
set -euo pipefail
cd "$(dirname "$0")/.."
program=${PROGRAM:-$PWD/crates/mercator_cli/out/mercator_cli}
scratch=$(mktemp -d)
trap 'rm -rf "$scratch"' EXIT
what=${1:-commands}

# `rt run` proves and builds the program, and leaves it in out/.
if [ "$what" != tests ] && [ ! -x "$program" ]; then
    (cd crates/mercator_cli && rt run -- key http://a.test/ > /dev/null)
fi

"${CC:-cc}" -O1 -shared -fPIC -o "$scratch/refuse.so" tests/refused_growths.c
python3 bench/make_web.py 2000 > "$scratch/pages.web"
printf '%s\n' 'offer http://a.test/' 'link http://a.test/ b' 'offer HTTP://A.test:80/#x' endseeds 'next 0' 'again 0' 'done 0' \
    'next 0' 'done 0' 'next 0' x > "$scratch/requests"
printf '%s\n' 'within a.test workers 2 max 9' 'offer http://a.test/' 'offer http://a.test/b' 'next 1' 'later 1' > "$scratch/log"
echo downloads.html > "$scratch/known"
printf 'http://site.test/%s\n' ' text/html index.html' 'use - guide/use.html' 'use - guide/use.html' 'old redirect use' > "$scratch/list"
python3 tests/refused_growths.py "$program" "$scratch" "$what"
