#!/usr/bin/env bash
# Refuses requests for memory, each in turn: those of the program on one file, on another and on three, and the first of a
# long file, whose replies have to come from a history (allocation_failures.py), and those of the case files that say so in their head,
# which make each public call that can answer want of memory (refused_cases.py). The status is 1 where something else comes than may,
# and 77 where there is no C compiler.
set -euo pipefail

tests=$(dirname "$(readlink -f "${BASH_SOURCE[0]}")")
if ! command -v cc >/dev/null; then
    echo 'skipped: growths that are refused (no C compiler cc)'
    exit 77
fi
work=$(mktemp -d)
trap 'rm -rf "$work"' EXIT
cc -O -Wall -shared -fPIC -fno-builtin -o "$work/refuse_allocation.so" "$tests/refuse_allocation.c"
program=$("$tests/../bin/build" fartable)
status=0
/usr/bin/python3 -B "$tests/allocation_failures.py" "$program" "$work/refuse_allocation.so" || status=1
program=$("$tests/../bin/build" transcripts)
/usr/bin/python3 -B "$tests/refused_cases.py" "$program" "$work/refuse_allocation.so" || status=1
exit "$status"
