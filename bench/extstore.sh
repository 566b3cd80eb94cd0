#!/usr/bin/env bash
# The server beside memcached with extstore and redis-server with a bound of memory: extstore.sh [--quick] [--cold] [ROUNDS]
#
# The data is four times the memory: 256 MiB of keys and values, and 64 MiB for each server. Values of 512 and of 4096 bytes;
# keys drawn evenly and by Zipf's law (.99); 95 and 50 gets in a hundred calls, else sets. A get that misses sets its key, as a
# cache is used. ROUNDS times, 5 if not given, each server in turn is started, filled and warmed up, and then measured:
#
# - bin/farserve --memory M --far DIR
# - memcached with extstore, four threads of each kind, with -m so much less that M bytes of it are resident
# - redis-server --maxmemory M --maxmemory-policy allkeys-lru, which has no disk: what does not fit is missed
#
# extstore.py prints a markdown table of the medians with the least and the most of the rounds, and their ratios to farserve in
# the same round; and draws docs/extstore.svg, of farserve and memcached with memory for 1/16 to all of the data, with values of
# 4096 bytes drawn by Zipf's law, 95 % gets. The seconds that it took are told after each round. --quick tries it in two minutes,
# with half of the data, one round of short runs, and a picture where it says.
#
# It needs memcached, redis-server and rustc: status 77 where one is missing. bench/load makes the load, 32
# connections over TCP. Files lie in FAR_DIR, /var/tmp if not set, which should be on a disk; memcached's may grow to 2 GB. They
# fit into the page cache, and so a read comes from memory; with --cold their pages are written and dropped 20 times a second.
# What the runs tell is kept in the file EXTSTORE_RUNS, where that is set: runs are added to those that it has.
set -euo pipefail

bench=$(cd "$(dirname "$(readlink -f "${BASH_SOURCE[0]}")")" && pwd)
for needed in memcached redis-server rustc; do
    if ! command -v "$needed" >/dev/null; then
        echo "skipped: farserve beside extstore (no $needed)"
        exit 77
    fi
done
work=$(mktemp -d)
files=$(mktemp -d "${FAR_DIR:-/var/tmp}/extstore-XXXXXX")
trap 'rm -rf "$work" "$files"' EXIT
"$bench/../bin/build" farserve >/dev/null
rustc -O --edition 2021 -o "$work/load" "$bench/load/main.rs"
/usr/bin/python3 -B "$bench/extstore.py" "$work/load" "$files" "${EXTSTORE_RUNS:-$work/runs}" "$@"
