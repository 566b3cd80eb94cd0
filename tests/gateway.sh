#!/usr/bin/env bash
# Tries the server's gateway, with workers and devices of gateway.py in the server's place: gateway.sh [--long], which has it more
# clients. The status is 1 where a trial fails, and 77 where there is no Rust compiler.
set -euo pipefail

tests=$(dirname "$(readlink -f "${BASH_SOURCE[0]}")")
clients=200 options=()
if [ "${1:-}" = --long ]; then
    # The sums that the gateway keeps are counted again.
    clients=5000 options=(-C debug-assertions=on)
fi
if ! command -v rustc >/dev/null; then
    echo 'skipped: the gateway of the server (no Rust compiler rustc)'
    exit 77
fi
work=$(mktemp -d)
trap 'rm -rf "$work"' EXIT
rustc -O "${options[@]}" --edition 2021 -o "$work/gateway" "$tests/../gateway/main.rs"
# Most of a trial is waiting, so some are made at once.
parts=3 running=()
for ((part = 0; part < parts; part++)); do
    mkdir "$work/$part"
    ln "$work/gateway" "$work/$part/gateway"
    /usr/bin/python3 -B "$tests/gateway.py" "$work/$part" "$clients" "$part/$parts" &
    running+=("$!")
done
status=0
for process in "${running[@]}"; do
    wait "$process" || status=1
done
exit "$status"
