#!/usr/bin/env bash
# The gateway beside redis-server: gateway.sh [ROUNDS]
#
# Runs redis-benchmark (SET and GET of 64 bytes, 100,000 keys) in turn on redis-server and on the gateway with the stand-in of
# bench/gateway/worker.rs for the server's workers, once with one worker and once with two, ROUNDS times, 5 if not given; prints
# medians in thousands a second, and the medians of what each round's ratio to redis-server was. GATEWAY_UNDER is a command
# under which the gateway and its workers are started, as `taskset -c 2`.
#
# It needs rustc, and the packages redis-server and redis-tools.
set -euo pipefail

bench=$(cd "$(dirname "$(readlink -f "${BASH_SOURCE[0]}")")" && pwd)
for needed in rustc redis-server redis-benchmark; do
    if ! command -v "$needed" >/dev/null; then
        echo "gateway.sh: this needs $needed" >&2
        exit 1
    fi
done
work=$(mktemp -d)
trap 'rm -rf "$work"' EXIT
rustc -O --edition 2021 -o "$work/gateway" "$bench/../gateway/main.rs"
rustc -O --edition 2021 -o "$work/worker" "$bench/gateway/worker.rs"
/usr/bin/python3 -B "$bench/gateway.py" "$work" "${1:-5}"
