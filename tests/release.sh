#!/usr/bin/env bash
# Tries a release in systems without the kit and without rustc (release.py): release.sh FOLDER, where FOLDER is what `bin/release FOLDER`
# made. It needs root, the network, and the package debootstrap, and is no part of bin/test. The status is 1 where a trial fails, and 77
# where something is missing that it needs.
set -euo pipefail

tests=$(dirname "$(readlink -f "${BASH_SOURCE[0]}")")
if [ "$#" -ne 1 ] || [ ! -d "$1" ]; then
    echo 'usage: release.sh FOLDER' >&2
    exit 2
fi
if ! command -v debootstrap >/dev/null || [ "$(id -u)" -ne 0 ]; then
    echo 'skipped: the release (it needs debootstrap, and root)'
    exit 77
fi
work=$(mktemp -d)
trap 'rm -rf --one-file-system "$work"' EXIT
/usr/bin/python3 -B "$tests/release.py" "$1" "$work"
