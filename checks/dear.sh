#!/usr/bin/env bash
# Names the functions whose proofs are dear: those for which the last check of a crate generated more than 3 MB. Nearly always a
# large value is let go on several branches there, and the drop of all its parts is written out at each of them.
# docs/COST.md says what to write in its place.
#
# Usage: checks/dear.sh [MEGABYTES]     (run `rt check` first, and `rt check --test` for the tests)
set -eu
cd "$(dirname "$0")/../crates"
find . -path './*/out/incremental/*' -name 'Rattle-*-proofs.*.Lts.oantt' -size "+${1:-3}M" -printf '%s %f\n' | sort -rn |
    sed -E 's/^([0-9]+)([0-9]{6}) Rattle-([^-]+)-proofs\.(.*)\.Lts\.oantt$/\1 MB  \3::\4/'
