#!/usr/bin/env bash
# Tries the pages, the edits and the opaque facts: the links of pages, what they name, and how long their sentences are (docs.py); the first
# line of each edit, and the table that is made of these (edits.py); which proofs make opaque facts, also with planted faults (facts.py); how
# much has to be read to know what the server promises (definitions.py). The
# status is 1 if one fails.
set -uo pipefail
tests=$(dirname "$(readlink -f "${BASH_SOURCE[0]}")")
status=0
/usr/bin/python3 -B "$tests/docs.py" || status=1
/usr/bin/python3 -B "$tests/edits.py" || status=1
/usr/bin/python3 -B "$tests/facts.py" && /usr/bin/python3 -B "$tests/facts.py" --planted || status=1
/usr/bin/python3 -B "$tests/definitions.py" || status=1
exit "$status"
