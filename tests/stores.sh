#!/usr/bin/env bash
# Runs farrun with its devices in redis-server, joined to it by a bridge over named pipes, and behind nutcracker where that is there:
# stores.py says what is tried. The status is 1 where a trial is wrong, and 77 where redis-server is missing.
set -euo pipefail

tests=$(dirname "$(readlink -f "${BASH_SOURCE[0]}")")
if ! command -v redis-server >/dev/null; then
    echo 'skipped: devices in a store (no redis-server)'
    exit 77
fi
fartable=$("$tests/../bin/build" fartable)
farrun=$("$tests/../bin/build" farrun)
work=$(mktemp -d)
trap 'rm -rf "$work"' EXIT
/usr/bin/python3 -B "$tests/stores.py" "$fartable" "$farrun" "$work"
