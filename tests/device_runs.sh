#!/usr/bin/env bash
# Makes 1,000,000 random calls of a device on each disk, in place of the 20,000 of the cases, and 100,000 on each disk with a flaw, and
# compares each answer with a map's: device_runs.sh. These are the cases of tests/cases/devices/random_calls_on_disks.txt with other
# counts, played without proofs. The status is 1 where one fails.
set -euo pipefail

root=$(cd "$(dirname "$(readlink -f "${BASH_SOURCE[0]}")")/.." && pwd)
made=$(mktemp -d)
trap 'rm -rf "$made"' EXIT

sed -e 's/ calls=20000 / calls=1000000 /' -e 's/ calls=10000 / calls=100000 /' \
    "$root/tests/cases/devices/random_calls_on_disks.txt" >"$made/random_calls_on_disks.txt"
if [ "$(grep -c ' calls=1000000 \| calls=100000 ' "$made/random_calls_on_disks.txt")" -ne 7 ]; then
    echo 'device_runs.sh: the cases have other counts of calls'
    exit 1
fi
program=$("$root/bin/build" transcripts)
"$program" "$made/random_calls_on_disks.txt"
