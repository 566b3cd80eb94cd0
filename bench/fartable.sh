#!/usr/bin/env bash
# Times the program on command files, by one thread and by four, with ample frames and with few, beside the plain run,
# beside a plain Rust program that does the same, and beside work in registers, which tells what the machine has for threads:
# fartable.sh [RUNS]. fartable.py says what is printed and what is wanted.
# bin/build has the programs, proved or not; of sources that differ from the commit it builds them with checks, which take
# time. FARTABLE=PATH and FARBENCH=PATH take others.
set -euo pipefail

bench=$(cd "$(dirname "$(readlink -f "${BASH_SOURCE[0]}")")" && pwd)
work=$(mktemp -d)
trap 'rm -rf "$work"' EXIT

fartable=${FARTABLE:-$("$bench/../bin/build" fartable)}
farbench=${FARBENCH:-$("$bench/../bin/build" farbench)}
for name in main threads registers; do
    rustc --edition 2021 -O -o "$work/$name" "$bench/plain/$name.rs"
done
python3 -B "$bench/fartable.py" "$fartable" "$farbench" "$work" "${1:-5}"
