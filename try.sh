#!/bin/bash
# Runs mercator from a clone. If the proved program was built from the sources as they are, that program runs; otherwise it is one
# without proofs, which has the address sanitizer, so it is slower. Building that one takes about two minutes.
#
# Usage: ./try.sh [--proved] [ARGUMENT..]
# The arguments are those of mercator [default: check examples/site]; `./try.sh help` prints its help. With --proved the program is
# proved and built first, which takes 200 CPU minutes. The exit status is that of mercator. Requires the Rattle toolchain.
set -euo pipefail
case ${1:-} in
-h | --help)
    sed -n '2,/^[^#]/s/^# \{0,1\}//p' "$0"
    exit
    ;;
esac
here=$(cd "$(dirname "$0")" && pwd)
folder=$here/crates/mercator_cli
program=$folder/out/mercator_cli

# Says whether the program exists and no source was changed after it was built.
is_new() {
    local sources
    [ -x "$program" ] || return 1
    mapfile -t sources < <("$here/tools/unproved.sh" --sources mercator_cli)
    [ -z "$(cd "$here" && find "${sources[@]}" -newer "$program" -print -quit)" ]
}

if [ "${1:-}" = --proved ]; then
    shift
    command -v rt > /dev/null || { echo "try.sh: the Rattle toolchain is required, and its command rt is not in PATH" >&2; exit 1; }
    echo "try.sh: proving and building the program, unless that was done; it takes 200 CPU minutes .." >&2
    (cd "$folder" && rt run -- --version) >&2
elif ! is_new; then
    program=$("$here/tools/unproved.sh")
    echo "try.sh: running a program without proofs (\`./try.sh --proved\` proves it)" >&2
fi
[ $# -gt 0 ] || set -- check "$here/examples/site"
exec "$program" "$@"
