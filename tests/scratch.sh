#!/usr/bin/env bash
# Runs farrun with its folder on disks of a few KiB and MiB: one that gets full (scratch.py), one that is full nearly at once, where
# the replies to several files still have to come from a history (random_runs.py), and two on which no file can be made. The
# status is 1 where something else comes than may, and 77 where there is no C compiler, or no leave to mount a tmpfs.
set -euo pipefail

tests=$(dirname "$(readlink -f "${BASH_SOURCE[0]}")")
if ! command -v cc >/dev/null; then
    echo 'skipped: scratch files on full disks (no C compiler cc)'
    exit 77
fi
work=$(mktemp -d)
disks=()
leave() {
    for disk in "${disks[@]}"; do
        umount "$disk"
    done
    rm -rf "$work"
}
trap leave EXIT

# A tmpfs of this name, with these options.
mount_disk() {
    mkdir "$work/$1"
    mount -t tmpfs -o "$2" none "$work/$1" 2>/dev/null && disks+=("$work/$1")
}

if ! mount_disk disk size=4m; then
    echo 'skipped: scratch files on full disks (no leave to mount a tmpfs)'
    exit 77
fi
mount_disk page size=4k
mount_disk no_file size=4m,nr_inodes=1
mount_disk read_only size=4m,ro
cc -O -Wall -shared -fPIC -o "$work/kill_unlink.so" "$tests/kill_unlink.c"
program=$("$tests/../bin/build" farrun)
status=0
/usr/bin/python3 -B "$tests/scratch.py" "$program" "$work/kill_unlink.so" "$work/disk" || status=1
runs=100
if [ "${1:-}" = --long ]; then
    runs=2000
fi
told=$(/usr/bin/python3 -B "$tests/random_runs.py" "$program" "$runs" 1 --far "$work/page") || status=1
printf 'on a full disk: %s\n' "$told"
[[ $told == *"'device'"* ]] || { echo 'WRONG: no reply is device' && status=1; }
declare -A reasons=(
    [no_file]='No space left on device; make room on its disk'
    [read_only]='Read-only file system; name a folder on a disk that takes writes'
)
for disk in no_file read_only; do
    is=0
    told=$("$program" --far "$work/page" --far "$work/$disk" 4 2 4096 "$work/none" 2>&1) || is=$?
    if [ "$is" -ne 2 ] || [ "$told" != "far 2: cannot open: $work/$disk: ${reasons[$disk]}" ]; then
        printf 'WRONG: %s: status %s, %s\n' "$disk" "$is" "$told"
        status=1
    fi
done
exit "$status"
