#!/usr/bin/env bash
# Runs bin/farserve for long under mixed load and looks whether it grows: soak.sh [--minutes N], 60 if not given.
#
# It has 64 MiB of memory, a bound of its disk and `--policy allkeys`, and more data than both: values are evicted all along. Its
# names are few, so that its map is renewed every few minutes. Two of bench/load's loads, which begin anew every ten seconds, and
# connections of redis-py with expiry, INCR, APPEND, DEL, MGET and pipelines check that no value is wrong. soak.py prints a line
# every ten seconds: resident memory, open files, disk, clients, calls a second, p99, renewals. At the end it says whether memory,
# files, disk and p99 stayed flat over the last half; the bounds stand in its head. It is no part of bin/test. On a machine with
# other work p99 may fail a short run.
#
# The status is 1 where one has grown, a value was wrong, or the server failed; and 77 where something is missing that it needs:
# python3-redis of Debian, and rustc. The scratch files lie in FAR_DIR, /var/tmp if not set, which should be on a disk.
set -euo pipefail

tests=$(dirname "$(readlink -f "${BASH_SOURCE[0]}")")
if ! command -v rustc >/dev/null; then
    echo 'skipped: the soak (no rustc)'
    exit 77
fi
if ! /usr/bin/python3 -c 'import redis' 2>/dev/null; then
    echo 'skipped: the soak (no python3-redis)'
    exit 77
fi
minutes=60
if [ "${1:-}" = --minutes ]; then
    minutes=${2:?--minutes needs a number}
    shift 2
fi
if [ "$#" -ne 0 ]; then
    echo 'usage: soak.sh [--minutes N]' >&2
    exit 2
fi
"$tests/../bin/build" farserve >/dev/null
work=$(mktemp -d)
files=$(mktemp -d "${FAR_DIR:-/var/tmp}/soak-XXXXXX")
trap 'rm -rf "$work" "$files"' EXIT
rustc -O --edition 2021 -o "$work/load" "$tests/../bench/load/main.rs"
/usr/bin/python3 -B "$tests/soak.py" "$work/load" "$files" "$minutes"
