#!/usr/bin/env bash
# Runs the program with starts of threads refused. thread_starts.py says what may come; the status is 1 where something else
# does, and 77 where there is no C compiler.
set -euo pipefail

tests=$(dirname "$(readlink -f "${BASH_SOURCE[0]}")")
if ! command -v cc >/dev/null; then
    echo 'skipped: starts of threads that are refused (no C compiler cc)'
    exit 77
fi
work=$(mktemp -d)
trap 'rm -rf "$work"' EXIT
cc -O -Wall -shared -fPIC -o "$work/refuse_start.so" "$tests/refuse_start.c" -ldl
program=$("$tests/../bin/build" fartable)
/usr/bin/python3 -B "$tests/thread_starts.py" "$program" "$work/refuse_start.so"
