#!/usr/bin/env bash
# Runs farrun with devices in folders: what it prints is what fartable prints, 200 sets of random files on threads, with --long
# 5,000, have a history each (random_runs.py), a folder that can't be used is named, and none is left with a name in it, also by a
# run that is killed: folders.sh [--long]. The status is 1 where one differs.
set -euo pipefail

runs=200
if [ "${1:-}" = --long ]; then
    runs=5000
fi
root=$(cd "$(dirname "$(readlink -f "${BASH_SOURCE[0]}")")/.." && pwd)
fartable=$("$root/bin/build" fartable)
# Random runs are of the program itself, which starts sooner.
program=$("$root/bin/build" farrun)
farrun=$root/bin/farrun
work=$(mktemp -d)
trap 'rm -rf "$work"' EXIT
mkdir "$work/one" "$work/other"
failed=0

fail() {
    printf '%s\n' "$*"
    failed=1
}

# More pairs than frames, so that most lie in the folders.
for ((at = 0; at < 3000; at++)); do
    echo "put key$((at * 7919 % 1000)) $at"
done >"$work/many.txt"

try_same() {
    "$fartable" "$@" >"$work/wanted"
    "$farrun" --far "$work/one" --far "$work/other" "$@" >"$work/told" || fail "$*: status $?"
    cmp -s "$work/wanted" "$work/told" || fail "$*: not what fartable prints"
    "$farrun" --lanes 64 "$@" >"$work/told" || fail "$*, 64 lanes: status $?"
    cmp -s "$work/wanted" "$work/told" || fail "$*, 64 lanes: not what fartable prints"
}

try_fault() {
    local status=$1 text=$2 told is=0
    shift 2
    # (without what a launcher says of the build)
    "$farrun" "$@" >"$work/said" 2>&1 </dev/null || is=$?
    told=$(sed '/^farrun: this build was not proved;/d' "$work/said")
    if [ "$is" -ne "$status" ] || [ "$told" != "$text" ]; then
        fail "$*: status $is, $told"
    fi
}

try_same 4 2 4096 "$root/examples/first.txt"
try_same 4 2 4096 "$root/examples/swapped.txt"
try_same 4 2 4096 "$root/examples/first.txt" "$root/examples/other.txt"
try_same 256 16 4096 "$work/many.txt"
/usr/bin/python3 -B "$root/tests/random_runs.py" "$program" "$runs" 1 --far "$work/one" --far "$work/other" || failed=1

try_fault 2 "far 1: cannot open: $work/none: No such file or directory; make the folder first" --far "$work/none" 4 2 4096 "$work/no_file"
try_fault 2 'far 2: cannot open: the path is empty; name a folder' --far "$work/one" --far '' 4 2 4096 -
try_fault 2 "far 1: cannot open: $work/many.txt: Not a directory; name a folder" --far "$work/many.txt" 4 2 4096 -
try_fault 1 'file 1: cannot open' --far "$work/one" 4 2 4096 "$work/no_file"
try_fault 2 'bad config 1: BUCKETS 0: no number from 1 to 65536; 1024 would do' --far "$work/one" 0 2 4096 -
try_fault 2 'bad config 2: FRAMES 65537: no number from 1 to 65536; 256 would do' 4 65537 4096 -
try_fault 2 'bad config 3: LIMIT 3: no number from 4 to 1048576; 4096 would do' 4 2 3 -
try_fault 2 'usage: farrun [--far DIR | --far-resp-in PIPE --far-resp-out PIPE]... [--lanes N] BUCKETS FRAMES LIMIT FILE...' --far "$work/one" 4 2 x -

# Root writes to any folder.
if [ "$(id -u)" -ne 0 ]; then
    chmod a-w "$work/other"
    try_fault 2 "far 1: cannot open: $work/other: Permission denied; the run has to be able to make files in it" --far "$work/other" 4 2 4096 -
    chmod u+w "$work/other"
fi

# Its folders are open when it reads, and it waits for its first line.
mkfifo "$work/never"
exec 3<>"$work/never"
"$farrun" --far "$work/one" 4 2 4096 "$work/never" &
for ((at = 0; at < 100; at++)); do
    [ "$(find "/proc/$!/fd" -lname '*.scratch (deleted)' | wc -l)" -eq 4 ] && break
    sleep 0.1
done
[ "$at" -lt 100 ] || fail 'no scratch files without names'
{
    kill -9 "$!"
    wait "$!" || true
} 2>/dev/null

# Such a name is left where a kill falls between making and unlinking.
: >"$work/one/fazhitta-0123456789abcdef-0-0.scratch"
try_same 4 2 4096 "$root/examples/first.txt"
[ -z "$(find "$work/one" "$work/other" -type f)" ] || fail 'a name is left'
exit "$failed"
