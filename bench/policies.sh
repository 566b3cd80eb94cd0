#!/usr/bin/env bash
# What a cache without a disk keeps, beside redis-server with as much memory: policies.sh [--quick] [MEBIBYTES]...
#
# Each server has MEBIBYTES of memory, 64 and 256 if not given, and there are four times as much data: values of 100, 512 and 1024 bytes,
# keys drawn by Zipf's law (.99), 95 gets in a hundred calls, else sets. A get that misses sets its key. Of 2,000,000 calls for each 64
# MiB the hits of the last quarter are told, and on standard error those of each quarter, and how much is resident:
#
# - bin/farserve --memory M --policy allkeys
# - redis-server --maxmemory M --maxmemory-policy allkeys-lru, and allkeys-random
#
# Then 200,000 keys of 16 bytes are set in servers with 2 GiB: what is resident beyond what was before, divided by their number, is what
# a key costs.
#
# policies.py prints both tables. Hits don't depend on how fast the machine is. --quick tries it with a hundredth of the calls. It needs
# redis-server: status 77 where it is missing.
set -euo pipefail

bench=$(cd "$(dirname "$(readlink -f "${BASH_SOURCE[0]}")")" && pwd)
if ! command -v redis-server >/dev/null; then
    echo "skipped: what a cache keeps (no redis-server)"
    exit 77
fi
work=$(mktemp -d)
trap 'rm -rf "$work"' EXIT
"$bench/../bin/build" farserve >/dev/null
/usr/bin/python3 -B "$bench/policies.py" "$work" "$@"
