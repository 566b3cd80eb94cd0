#!/usr/bin/env bash
# Tries how bin/fartable, farrun, wordcount and farserve are started and built (starts.py): by another user, from archives, without the
# kit, with closed standard files and files that may not grow, and ended by signals at any moment: starts.sh [--long] [TRIAL]... The
# status is 1 if a trial fails, and 77 if rustc is missing.
set -euo pipefail

tests=$(dirname "$(readlink -f "${BASH_SOURCE[0]}")")
if ! command -v rustc >/dev/null; then
    echo 'skipped: starts of programs (no rustc)'
    exit 77
fi
for name in fartable farrun wordcount farserve; do "$tests/../bin/build" "$name" >/dev/null; done
work=$(mktemp -d)
leave() {
    chmod -R u+w "$work"
    rm -rf "$work"
}
trap leave EXIT
/usr/bin/python3 -B "$tests/starts.py" "$work" "$@"
