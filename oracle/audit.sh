#!/usr/bin/env bash
# Gives 1,000 traces, made by hand and half of them wrong, to `audit`, and compares
# each verdict with that of a plain model (oracle/audit.py). A session on which they differ stays here
# as wrong-N.session.
. "$(dirname "$0")/../tools/program.sh"

python3 oracle/audit.py "$program" "$@"
