#!/usr/bin/env bash
# Times calls of each layer: layers.sh [ROUNDS], a million if not given. Runs each of farbench's subcommands words, frames, lanes,
# table and evicting five times at several sizes, and prints the medians, row by row: the best run of threads that contend
# would be the one in which they met least.
set -euo pipefail

root=$(cd "$(dirname "$(readlink -f "${BASH_SOURCE[0]}")")/.." && pwd)
program=$("$root/bin/build" farbench)
rounds=${1:-1000000}

medians() {
    echo "== farbench $*"
    for _ in 1 2 3 4 5; do "$program" "$@"; done | awk '
        NR == 1 { head = $0; print; next }
        $0 == head { next }
        {
            row = substr($0, 1, length(head) - 24)
            if (!(row in runs)) order[++rows] = row
            times[row, ++runs[row]] = $(NF - 1)
            lost[row] += $NF
        }
        END {
            for (r = 1; r <= rows; r++) {
                row = order[r]
                count = runs[row]
                for (i = 2; i <= count; i++)
                    for (j = i; j > 1 && times[row, j - 1] > times[row, j]; j--) {
                        kept = times[row, j]; times[row, j] = times[row, j - 1]; times[row, j - 1] = kept
                    }
                printf "%s%12.1f%12.1f\n", row, times[row, int((count + 1) / 2)], lost[row] / count
            }
        }'
}

medians words "$rounds"
for frames in 16 1024 65536; do medians frames "$frames" "$rounds"; done
medians lanes "$((rounds / 10))"
for buckets in 1024 65536; do medians table "$buckets" "$rounds"; done
for frames in 1024 65536; do medians evicting "$frames"; done
