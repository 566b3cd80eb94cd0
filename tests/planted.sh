#!/usr/bin/env bash
# Plants the bugs of tests/planted/ in copies of the sources, one at a time, and runs the tests there without a proof:
# planted.sh [--jobs N] [NAME..], all bugs if none is named. planted.py says what is printed. The status is 1 where a bug is
# caught by nothing, does not apply or does not compile. It takes minutes for each bug.
exec /usr/bin/python3 -B "$(dirname "$(readlink -f "${BASH_SOURCE[0]}")")/planted.py" "$@"
