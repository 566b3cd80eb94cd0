#!/usr/bin/env bash
# How long clients wait while a server's map is renewed: renewal.sh [--quick]
#
# Fills farserve with keys whose values lie in memory, or most of them on disk, has its map renewed three times by few names, and
# prints a markdown table: the median of the pauses that INFO tells, and the most memory. In the last row the system drops the pages
# of the scratch files, so that each object is read from the disk. The files lie in FAR_DIR, /var/tmp if not set. --quick tries it
# with a fiftieth of the keys and less memory. It needs rustc.
set -euo pipefail

bench=$(cd "$(dirname "$(readlink -f "${BASH_SOURCE[0]}")")" && pwd)
"$bench/../bin/build" farserve >/dev/null
work=$(mktemp -d "${FAR_DIR:-/var/tmp}/renewal-XXXXXX")
trap 'rm -rf "$work"' EXIT
/usr/bin/python3 -B "$bench/renewal.py" "$work" "$@"
