#!/usr/bin/env bash
# Tries bin/fardump, which writes all keys of a server into a file (fardump.py): with bin/farserve, redis-server and redis-cli, with servers that
# misbehave, and with disks that are full: fardump.sh [--long] [TRIAL]... --long has more keys. The status is 1 if a trial fails, and 77 if
# something is missing that it needs: redis-server and redis-tools of Debian, and rustc.
set -euo pipefail

tests=$(dirname "$(readlink -f "${BASH_SOURCE[0]}")")
for needed in redis-server redis-cli rustc; do
    if ! command -v "$needed" >/dev/null; then
        echo "skipped: dumps of the server (no $needed)"
        exit 77
    fi
done
"$tests/../bin/build" farserve >/dev/null
work=$(mktemp -d)
trap 'rm -rf "$work"' EXIT
/usr/bin/python3 -B "$tests/fardump.py" "$work" "$@"
