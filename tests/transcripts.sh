#!/usr/bin/env bash
# Plays the case files of tests/cases, or those that are named, side by side on a build without proofs: transcripts.sh [FILE..].
# docs/FORMATS.md says what stands in them. Each case that went otherwise is printed; the status is 1 where one did. Without a FILE
# the stored run of the program that plays them is made too, which has to print what is wrong with wrong cases.
set -euo pipefail

tests=$(dirname "$(readlink -f "${BASH_SOURCE[0]}")")
if [ "${1:-}" = --long ]; then
    shift
fi
program=$("$tests/../bin/build" transcripts)
status=0
if [ "$#" -eq 0 ]; then
    /usr/bin/python3 -B "$tests/stored_run.py" transcripts || status=1
fi
/usr/bin/python3 -B "$tests/transcripts.py" "$program" "$@" || status=1
exit "$status"
