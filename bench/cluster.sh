#!/usr/bin/env bash
# What sharding brings on one machine: cluster.sh [--quick] [ROUNDS]
#
# Runs redis-benchmark's SET and GET of 64 bytes on 100,000 keys, by 50 connections with pipelines of 16, through nutcracker before
# one, two and four farserve (examples/cluster/run.sh), and on one farserve without it. Each kind runs in turn, ROUNDS times, 5 if
# not given, and no other is there meanwhile. cluster.py prints a markdown table of the medians. --quick tries it in half a minute.
#
# It needs nutcracker, redis-cli, redis-benchmark and rustc. nutcracker has one thread, each farserve four, one that keeps frames
# free, and the gateway's. All data is in memory.
set -euo pipefail

bench=$(cd "$(dirname "$(readlink -f "${BASH_SOURCE[0]}")")" && pwd)
rounds=5 calls=1000000

say() { printf 'cluster.sh: %s\n' "$*" >&2; }

if [ "${1:-}" = --quick ]; then
    shift
    rounds=1 calls=40000
fi
rounds=${1:-$rounds}

work=$(mktemp -d)
cluster=
leave() {
    trap '' INT TERM
    if [ -n "$cluster" ]; then
        kill "$cluster" 2>/dev/null || true
        wait "$cluster" 2>/dev/null || true
    fi
    rm -rf "$work"
}
trap leave EXIT
trap 'exit 130' INT
trap 'exit 143' TERM

# Runs both commands once: measure KIND PORT
measure() {
    redis-benchmark -p "$2" -t set,get -n "$calls" -c 50 -P 16 -d 64 -r 100000 --csv 2>"$work/told" |
        awk -F '"' -v kind="$1" '$4 + 0 > 0 { print kind, $2, $4 } $4 + 0 > 0 { told++ } END { exit told != 2 }' >>"$work/results"
}

# Measures a cache of so many shards: run_once SHARDS
run_once() {
    local shards=$1 port=$((20000 + RANDOM % 10000))
    local words=(--stay --shards "$shards" --memory 256m --far "$work" --port "$port")
    : >"$work/ready"
    "$bench/../examples/cluster/run.sh" "${words[@]}" >"$work/ready" 2>"$work/said" &
    cluster=$!
    until grep -q '^ready ' "$work/ready"; do
        if ! kill -0 "$cluster" 2>/dev/null; then
            cat "$work/said" >&2
            exit 1
        fi
        sleep 0.1
    done
    measure "$shards" "$port"
    if [ "$shards" -eq 1 ]; then measure alone $((port + 2)); fi
    kill "$cluster"
    wait "$cluster" || true
    cluster=
}

"$bench/../bin/build" farserve >/dev/null
for round in $(seq "$rounds"); do
    for shards in 1 2 4; do run_once "$shards"; done
    say "round $round of $rounds is done, load $(cut -d ' ' -f 1 /proc/loadavg)"
done
/usr/bin/python3 -B "$bench/cluster.py" <"$work/results"
