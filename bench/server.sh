#!/usr/bin/env bash
# The server beside redis-server: server.sh [--quick] [ROUNDS]
#
# Runs redis-benchmark's SET and GET of 64 bytes on 100,000 keys against bin/farserve and redis-server in turn, ROUNDS times, 5 if
# not given: by one connection, by 50, and by 50 with pipelines of 16. It prints a markdown table of the medians: thousands of
# calls a second, their ratio within a round, and the milliseconds of p50, p99 and p99.9; and resident memory after the last round.
# docs/server.svg shows the calls. All data is in memory. --quick tries it in a minute, and draws into a file that it names.
#
# It needs redis-server, redis-benchmark, redis-cli and rustc. farserve has four threads, one that keeps frames free, and the
# gateway's; redis-server has one.
set -euo pipefail

bench=$(cd "$(dirname "$(readlink -f "${BASH_SOURCE[0]}")")" && pwd)
rounds=5 calls=400000 single=50000
picture=$bench/../docs/server.svg

say() { printf 'server.sh: %s\n' "$*" >&2; }

if [ "${1:-}" = --quick ]; then
    shift
    rounds=1 calls=40000 single=5000
    picture=$(mktemp --suffix=.svg)
    say "the picture is $picture"
fi
rounds=${1:-$rounds}

work=$(mktemp -d)
started=()
leave() {
    for process in "${started[@]}"; do kill "$process" 2>/dev/null || true; done
    wait || true
    rm -rf "$work"
}
trap leave EXIT

mkdir "$work/far"
own=$((20000 + RANDOM % 10000)) theirs=$((30000 + RANDOM % 10000))
"$bench/../bin/farserve" --memory 1g --far "$work/far" --port "$own" >"$work/ready" &
started+=($!)
redis-server --port "$theirs" --save '' --dir "$work" --loglevel warning >/dev/null &
started+=($!)
until grep -q '^ready ' "$work/ready"; do
    kill -0 "${started[0]}"
    sleep 0.2
done
until redis-cli -p "$theirs" ping >/dev/null 2>&1; do sleep 0.1; done

# Runs both commands once: measure ROUND KIND PORT CALLS OPTION.. Each line that is kept has what redis-benchmark tells of one.
measure() {
    local round=$1 kind=$2 port=$3 count=$4
    shift 4
    redis-benchmark -p "$port" -t set,get -d 64 -r 100000 -n "$count" "$@" --precision 3 | tr '\r' '\n' >"$work/told"
    /usr/bin/python3 -B "$bench/server.py" keep "$round" "$kind" "$*" <"$work/told" >>"$work/results"
}

for round in $(seq "$rounds"); do
    for shape in '-c 1 -P 1' '-c 50 -P 1' '-c 50 -P 16'; do
        count=$calls
        if [ "$shape" = '-c 1 -P 1' ]; then count=$single; fi
        # shellcheck disable=SC2086
        measure "$round" farserve "$own" "$count" $shape
        # shellcheck disable=SC2086
        measure "$round" redis "$theirs" "$count" $shape
    done
    say "round $round of $rounds is done, load $(cut -d ' ' -f 1 /proc/loadavg)"
done
/usr/bin/python3 -B "$bench/server.py" tell "$work/results" "$picture"
for port in "$own" "$theirs"; do
    redis-cli -p "$port" info memory | grep -E '^used_memory(_rss)?:' | tr -d '\r' | sed "s/^/port $port: /" >&2
done
resident() { awk '/^VmRSS/ { print $2 / 1024 }' "/proc/$1/status"; }
read -r -a parts <<<"$(cat "/proc/${started[0]}/task/${started[0]}/children")"
own=$(for part in "${parts[@]}"; do resident "$part"; done | tr '\n' ' ')
say "resident MiB: farserve's parts ${own}redis-server $(resident "${started[1]}")"
