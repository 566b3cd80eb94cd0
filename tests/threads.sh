#!/usr/bin/env bash
# Runs the program on 2,000 sets of random files on threads, with --long on 10,000, and looks for a history of each:
# threads.sh [--long]. random_runs.py says what may come; the status is 1 where something else does.
set -euo pipefail

tests=$(dirname "$(readlink -f "${BASH_SOURCE[0]}")")
runs=2000
if [ "${1:-}" = --long ]; then
    runs=10000
fi
program=$("$tests/../bin/build" fartable)
exec /usr/bin/python3 -B "$tests/random_runs.py" "$program" "$runs"
