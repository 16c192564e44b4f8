#!/bin/bash
# Tries the mutants (wrong bodies) in crates/NAME/mutants, which are not part of CI: the prover must refuse each. It works on a
# temporary clone of the last commit, and uses the libraries that are built here, and what checks of the crates here have proved.
# tests/mutants.py tries and judges the mutants.
#
# Usage: tests/mutants.sh [-j N] [CRATE | CRATE/NAME ..]
# CRATE is all mutants of a crate, CRATE/NAME one of them [default: all]. N is the number of crates that are tried at a time
# [default: 1]; with little memory it is less.
#
# It prints a line for each mutant; the last line is `N passed, M failed`. The exit status is 1 if a mutant is not refused or cannot
# be tried.
set -uo pipefail
cd "$(dirname "$0")/.." || exit 1
at_once=1
if [ "${1:-}" = -j ]; then at_once=${2:?a number}; shift 2; fi
[ $# -gt 0 ] || set -- $(ls -d crates/*/mutants | cut -d / -f 2)
scratch=$(mktemp -d)
trap 'rm -rf "$scratch"' EXIT
clone=$scratch/clone
git clone -q . "$clone" || exit 1

# A library is proved again if its sources differ from the clone's, or if `rt ci` built it, which leaves no stamp.
for library in crates/*/out/rlib; do
    if [ -f "$library/stamp" ]; then mkdir -p "$clone/${library%/rlib}" && cp -r "$library" "$clone/$library"; fi
done

# What checks of a crate here have proved need not be proved again.
for crate in $(printf '%s\n' "${@%%/*}" | sort -u); do
    if [ -d "crates/$crate/out/incremental" ]; then
        mkdir -p "$clone/crates/$crate/out" && cp -r "crates/$crate/out/incremental" "$clone/crates/$crate/out"
    fi
done

# The libraries are built first, because two checks could otherwise build the same one at the same time.
libraries=$(for crate in "${@%%/*}"; do sed -n "s/^$crate[ :].*: *\|^$crate: *//p" crates.txt; done | tr ' ' '\n' | sort -u)
for below in $libraries; do
    if [ -d "$clone/crates/$below" ]; then
        (cd "$clone/crates/$below" && rt lib > "$scratch/lib" 2>&1) || { cat "$scratch/lib"; exit 1; }
    fi
done
python3 tests/mutants.py "$clone" "$at_once" "$@"
