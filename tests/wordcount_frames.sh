#!/usr/bin/env bash
# Counts words by several threads with few frames: wordcount_frames.sh [--long]. With two frames for each thread each of 100 runs, with
# --long 1,000, ends well. Each lower number is refused at the start, with a text that says what to do. One thread does with one frame.
# The status is 1 if something else comes.
set -euo pipefail

runs=100
if [ "${1:-}" = --long ]; then
    runs=1000
fi
program=$("$(dirname "$(readlink -f "${BASH_SOURCE[0]}")")/../bin/build" wordcount)
work=$(mktemp -d)
trap 'rm -rf "$work"' EXIT
failed=0

fail() {
    printf '%s\n' "$*"
    failed=1
}

# Eight files, of which threads take pieces in turn. Each word is in all of them, as many times.
for file in {1..8}; do
    for ((at = 0; at < 3000; at++)); do printf 'word%s\n' $(((at * 7919 + file * 31) % 300)); done >"$work/$file"
done
files=("$work"/{1..8})
told='300 distinct words, 16 buckets'

for threads in 1 2 4 8; do
    least=$((threads > 1 ? 2 * threads : 1))
    for ((frames = 1; frames < least; frames++)); do
        status=0
        said=$("$program" --threads "$threads" --buckets 16 --frames "$frames" "${files[@]}" 2>&1) || status=$?
        wanted="wordcount: $threads threads need $least frames or more, two for each: give --frames $least, or fewer --threads"
        if [ "$status" -ne 2 ] || [ "$said" != "$wanted" ]; then fail "$threads threads, $frames frames: status $status, $said"; fi
    done
    for ((run = 0; run < runs; run++)); do
        status=0
        said=$("$program" --threads "$threads" --buckets 16 --frames "$least" --top 1 "${files[@]}" 2>&1) || status=$?
        wanted=$'80 word0\n'"$told, $least frames"
        if [ "$status" -ne 0 ] || [ "$said" != "$wanted" ]; then fail "$threads threads, $least frames: status $status, $said"; fi
    done
done
# So many are asked for if nothing is said.
status=0
"$program" --frames 7 "${files[@]}" >"$work/said" 2>&1 || status=$?
[ "$status" -eq 2 ] || fail "4 threads by default, 7 frames: status $status"
exit "$failed"
