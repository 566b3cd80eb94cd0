#!/usr/bin/env bash
# Tries the edits of crates/NAME/long-edits/, which the gate leaves out: long_edits.sh [NAME..], every crate that has such
# a folder if none is named.
#
# In a copy of the repository they stand in must-fail/, in place of those there, and `rt must-fail NAME` tries them: the
# prover has to refuse each. Prints a line for each crate, and above it what rt says of an edit that is not refused, as
# one that no longer fits the code; the status is 1 where there is one. The copy takes the libraries that out/ has.
set -euo pipefail

root=$(cd "$(dirname "$(readlink -f "${BASH_SOURCE[0]}")")/.." && pwd)
copy=$(mktemp -d)
trap 'rm -rf "$copy"' EXIT

shopt -s nullglob
names=("$@")
if [ $# -eq 0 ]; then
    for folder in "$root"/crates/*/long-edits; do
        names+=("$(basename "$(dirname "$folder")")")
    done
fi
for name in "${names[@]}"; do
    if [ -z "$(find "$root/crates/$name/long-edits" -name '*.edit' 2>/dev/null)" ]; then
        printf 'long_edits.sh: no edits in crates/%s/long-edits\n' "$name" >&2
        exit 2
    fi
done

# Tries the edits of a crate, and gives 1 where one is not refused.
try_edits() {
    local crate=$copy/crates/$1 count refused status=0
    rm -rf "$crate/must-fail"
    mv "$crate/long-edits" "$crate/must-fail"
    count=$(find "$crate/must-fail" -name '*.edit' | wc -l)
    (cd "$copy" && rt must-fail "$1") >"$copy/told" 2>&1 || status=1
    refused=$(grep -c ': refused, as it must be' "$copy/told" || true)
    if [ "$status" -ne 0 ] || [ "$refused" -ne "$count" ]; then
        grep -v ': refused, as it must be' "$copy/told" || true
        status=1
    fi
    printf '%s: %s of %s edits refused\n' "$1" "$refused" "$count"
    return "$status"
}

tar -C "$root" --exclude=./.git -cf - . | tar -C "$copy" -xf -
status=0
for name in "${names[@]}"; do
    try_edits "$name" || status=1
done
exit "$status"
