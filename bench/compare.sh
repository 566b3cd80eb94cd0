#!/usr/bin/env bash
# The table beside what one would take instead: compare.sh [--quick] [ROUNDS]
#
# Runs `farbench mixed` and the maps of bench/peers in turn on the same keys and draws, ROUNDS times, 5 if not given; prints
# the medians as a markdown table, and draws some of them into docs/comparison.svg. --quick tries it in a minute: one round
# of few calls on a few of the workloads, and no picture but in the folder that it names.
#
# Workloads: 1,000,000 keys of 16 bytes at random in 2^20 buckets, and 65,472 keys, each in a bucket of its own of 65,536; 64
# buckets have no key, so that puts find a frame. Values of 64 and of 512 bytes; keys drawn evenly, and by Zipf's law with .99;
# 95, 50 and 0 gets in a hundred calls, the others puts; 1, 2 and 4 threads; memory for all and for a quarter of the buckets, or
# of the pairs. Both programs read keys and draws from the same files. Every answer is copied.
#
# It needs bin/build, which has farbench; cargo; and the distribution's package librust-dashmap-dev, from which the peers are
# built without a network. COMPARE_UNDER is a command under which each measured program is started, as `taskset -c 0-3`.
# What the runs print is kept in the file COMPARE_RUNS, where that is set: runs are added to those that it has, so that
# rounds may be made at different times.
set -euo pipefail

bench=$(cd "$(dirname "$(readlink -f "${BASH_SOURCE[0]}")")" && pwd)
registry=/usr/share/cargo/registry
# Buckets without a key.
empty=64
rounds=5
folders=(one many)
values=(64 512)
shares=(1 4)
# Calls of a thread in a run, by the folder and by whether all lies in memory.
declare -A calls=([one-local]=150000 [one-far]=40000 [many-local]=60000 [many-far]=15000)
declare -A buckets=([one]=65536 [many]=1048576) counts=([one]=$((65536 - empty)) [many]=1000000)
# A file has the draws of all runs of a process: 4 threads' to warm up, and 1, 2 and 4 threads' for each of three mixes.
runs=25
picture=$bench/../docs/comparison.svg

say() { printf 'compare.sh: %s\n' "$*" >&2; }

work=$(mktemp -d)
trap 'rm -rf "$work"' EXIT

if [ "${1:-}" = --quick ]; then
    shift
    rounds=1
    folders=(one)
    values=(64)
    calls=([one-local]=20000 [one-far]=5000)
    picture=$(mktemp --suffix=.svg)
    say "the picture goes to $picture"
fi
rounds=${1:-$rounds}
results=${COMPARE_RUNS:-$work/runs}

if ! command -v cargo >/dev/null || ! compgen -G "$registry/dashmap-*" >/dev/null; then
    say "the peers need cargo and the package librust-dashmap-dev: apt-get install cargo librust-dashmap-dev"
    exit 1
fi

program=$("$bench/../bin/build" farbench)

# Builds the peers from the distribution's crates.
mkdir -p "$work/peers/.cargo"
cat >"$work/peers/Cargo.toml" <<END
[package]
name = "peers"
version = "0.0.0"
edition = "2021"

[[bin]]
name = "peers"
path = "$bench/peers/main.rs"

[dependencies]
dashmap = "*"
END
cat >"$work/peers/.cargo/config.toml" <<END
[source.crates-io]
replace-with = "distribution"

[source.distribution]
directory = "$registry"
END
if ! (cd "$work/peers" && cargo build --release --offline --quiet) >&2; then
    say "the peers could not be built from $registry"
    exit 1
fi
peers=$work/peers/target/release/peers

# The keys and draws of each folder, one for runs in memory and one for the others.
for folder in "${folders[@]}"; do
    for where in local far; do
        mkdir -p "$work/$folder-$where"
        if [ "$where" = local ]; then
            "$peers" keys "${counts[$folder]}" "${buckets[$folder]}" "$empty" >"$work/$folder-local/keys"
        else
            ln -s "$work/$folder-local/keys" "$work/$folder-far/keys"
        fi
        for skew in uniform zipf; do
            "$peers" draws "${counts[$folder]}" $((runs * calls[$folder-$where])) "$skew" >"$work/$folder-$where/$skew"
        done
    done
done

# Runs a map once: run_once KIND FOLDER VALUE SHARE.
run_once() {
    local kind=$1 folder=$2 value=$3 share=$4 where=far words
    if [ "$share" = 1 ]; then where=local; fi
    if [ "$kind" = table ]; then
        words=("$program" mixed "$value" "${buckets[$folder]}" $((buckets[$folder] / share)))
    else
        # Its shards are not all of one size: twice the pairs is room for all of them.
        local kept=$((share == 1 ? 2 * counts[$folder] : counts[$folder] / share))
        words=("$peers" run "$kind" "$value" "$kept")
    fi
    # shellcheck disable=SC2086
    (cd "$work/$folder-$where" && ${COMPARE_UNDER:-} "${words[@]}") | sed "s/^/$kind $folder $value $share /" >>"$results"
}

for round in $(seq "$rounds"); do
    for share in "${shares[@]}"; do
        for folder in "${folders[@]}"; do
            for value in "${values[@]}"; do
                kinds=(table farmap)
                if [ "$share" = 1 ]; then kinds=(table dashmap mutexes mutex farmap); fi
                for kind in "${kinds[@]}"; do run_once "$kind" "$folder" "$value" "$share"; done
            done
        done
    done
    say "round $round of $rounds is done, load $(cut -d ' ' -f 1 /proc/loadavg)"
done
python3 "$bench/compare.py" "$results" "$picture"
