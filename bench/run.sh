#!/usr/bin/env bash
# Builds the program and the one that it is measured beside, as `rt` builds a release, and measures them.
# The tables go to standard output. Arguments are the number of runs for each figure, and the tables that are
# wanted (see measure.py).
set -eu
cd "$(dirname "$(readlink -f "${BASH_SOURCE[0]}")")/.."
for crate in bench_read wcv; do
    (cd "crates/$crate" && rt run -- validate <stdin >/dev/null) >&2
done
exec python3 bench/measure.py "$@"
