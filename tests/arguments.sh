#!/usr/bin/env bash
# Runs the program with words that are no UTF-8 text, which a stored run of the gate can't have: each ends with the usage
# text, status 2 and no output.
set -euo pipefail

program=$("$(dirname "$(readlink -f "${BASH_SOURCE[0]}")")/../bin/build" fartable)
usage='usage: fartable BUCKETS FRAMES LIMIT FILE...'
failed=0

try_words() {
    local told status=0
    told=$("$program" "$@" 2>&1 </dev/null) || status=$?
    if [ "$status" -ne 2 ] || [ "$told" != "$usage" ]; then
        printf '%q: status %s, %s\n' "$*" "$status" "$told"
        failed=1
    fi
}

"$program" 4 2 4096 - </dev/null >/dev/null
try_words 4 2 4096 $'\xff'
try_words $'\xc3' 2 4096 -
try_words 4 2 4096 - $'\x80'
try_words 4 2 4096
exit "$failed"
