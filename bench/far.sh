#!/usr/bin/env bash
# What far memory saves and what it costs: far.sh [--quick] [ROUNDS]
#
# Runs `farbench mixed` with 1,000,000 pairs of 16 and 512 bytes in 2^20 buckets, with frames for all buckets that have a key, and for
# a half to a sixteenth of them, over devices in the process and in scratch files; beside a locked HashMap of std's with the same pairs,
# and a plain loop of preads in which as many calls find their value in memory (bench/peers/bare.rs). Each kind runs in turn, ROUNDS
# times, 5 if not given. far.py prints the medians as markdown tables, and draws them into docs/far.svg. --quick tries it in a minute,
# with a tenth of the pairs, one round, and no picture but in the folder that it names.
#
# It needs bin/build, which has farbench, and rustc. The scratch files lie in FAR_DIR, /var/tmp if not set, which should be on a disk;
# they take 3 GB there. All of them fit into the page cache, and so a read comes from memory. For the rows `cold` far.py has the
# system write and drop the pages of the scratch files, 20 times a second: there most reads come from the disk.
# What the runs print is kept in the file FAR_RUNS, where that is set: runs are added to those that it has.
set -euo pipefail

bench=$(cd "$(dirname "$(readlink -f "${BASH_SOURCE[0]}")")" && pwd)
count=1000000 buckets=1048576 value=512
rounds=5 calls=40000 cold_calls=2000
shares=(1 2 4 8 16)
# A file has the draws of all runs of a process, as in compare.sh.
runs=25
picture=$bench/../docs/far.svg

say() { printf 'far.sh: %s\n' "$*" >&2; }

work=$(mktemp -d)
trap 'rm -rf "$work"' EXIT

if [ "${1:-}" = --quick ]; then
    shift
    count=100000 buckets=131072 rounds=1 calls=5000 cold_calls=500 shares=(1 8)
    picture=$(mktemp --suffix=.svg)
    say "the picture goes to $picture"
fi
rounds=${1:-$rounds}
results=${FAR_RUNS:-$work/results}
files=${FAR_DIR:-/var/tmp}

program=$("$bench/../bin/build" farbench)
bare=$work/bare
rustc --edition 2021 -O -o "$bare" "$bench/peers/bare.rs"

mkdir "$work/warm" "$work/cold"
"$bare" keys "$count" "$buckets" 0 >"$work/warm/keys"
ln -s "$work/warm/keys" "$work/cold/keys"
for skew in uniform zipf; do
    "$bare" draws "$count" $((runs * calls)) "$skew" >"$work/warm/$skew"
    "$bare" draws "$count" $((runs * cold_calls)) "$skew" >"$work/cold/$skew"
done
used=$(cd "$work/warm" && "$bare" used "$buckets")

# Runs a kind once on the draws of a folder: run_once FOLDER KIND SHARE COMMAND.. What it prints is kept, and its peak of resident
# memory in KiB and its seconds of processor time.
run_once() {
    local folder=$1 kind=$2 share=$3 child dropper=
    shift 3
    (cd "$work/$folder" && exec /usr/bin/time -o "$work/used" -f 'used %M %U %S' "$@") >"$work/told" &
    child=$!
    if [ "$folder" = cold ]; then
        /usr/bin/python3 -B "$bench/far.py" drop "$child" &
        dropper=$!
    fi
    wait "$child"
    if [ -n "$dropper" ]; then wait "$dropper"; fi
    cat "$work/told" "$work/used" | sed "s/^/$folder $kind $share /" >>"$results"
}

# The part of evenly drawn calls, 95 gets in a hundred by 4 threads, that found their object in a frame in the last run.
hit_rate() { awk '$1 == "uniform" && $2 == 95 && $3 == 4 { print $7 / $4 }' "$work/told"; }

for round in $(seq "$rounds"); do
    run_once warm map 1 "$bare" map "$value"
    for share in "${shares[@]}"; do
        frames=$((used / share))
        run_once warm process "$share" "$program" mixed "$value" "$buckets" "$frames"
        run_once warm files "$share" "$program" mixed "$value" "$buckets" "$frames" "$files"
        run_once warm reads "$share" "$bare" reads "$value" "$(hit_rate)" "$files" 0
    done
    run_once cold files 8 "$program" mixed "$value" "$buckets" "$((used / 8))" "$files"
    run_once cold reads 8 "$bare" reads "$value" "$(hit_rate)" "$files" 2
    say "round $round of $rounds is done, load $(cut -d ' ' -f 1 /proc/loadavg)"
done
/usr/bin/python3 -B "$bench/far.py" tell "$results" "$picture"
