#!/usr/bin/env bash
# Tries the cache of four shards, examples/cluster/run.sh, by cluster.py. The status is 1 where a trial fails, and 77 where
# something is missing that it needs: nutcracker, redis-tools and python3-redis of Debian, and rustc.
set -euo pipefail

tests=$(dirname "$(readlink -f "${BASH_SOURCE[0]}")")
for needed in nutcracker redis-cli redis-benchmark rustc; do
    if ! command -v "$needed" >/dev/null; then
        echo "skipped: the cluster (no $needed)"
        exit 77
    fi
done
if ! /usr/bin/python3 -c 'import redis' 2>/dev/null; then
    echo 'skipped: the cluster (no python3-redis)'
    exit 77
fi
"$tests/../bin/build" farserve >/dev/null
work=$(mktemp -d)
trap 'rm -rf "$work"' EXIT
/usr/bin/python3 -B "$tests/cluster.py" "$work"
