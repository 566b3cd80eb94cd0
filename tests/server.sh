#!/usr/bin/env bash
# Tries the server, bin/farserve, from outside (server.py): beside redis-server, by redis-cli, redis-benchmark and redis-py, by
# hostile and broken clients, and with its parts killed: server.sh [--long | --half] [TRIAL]... --long has more of each. The status is 1 where
# a trial fails, and 77 where something is missing that it needs: redis-server, redis-tools and python3-redis of Debian, and rustc.
set -euo pipefail

tests=$(dirname "$(readlink -f "${BASH_SOURCE[0]}")")
for needed in redis-server redis-cli redis-benchmark rustc; do
    if ! command -v "$needed" >/dev/null; then
        echo "skipped: the server (no $needed)"
        exit 77
    fi
done
if ! /usr/bin/python3 -c 'import redis' 2>/dev/null; then
    echo 'skipped: the server (no python3-redis)'
    exit 77
fi
"$tests/../bin/build" farserve >/dev/null
work=$(mktemp -d)
trap 'rm -rf "$work"' EXIT
/usr/bin/python3 -B "$tests/server.py" "$work" "$@"
