#!/usr/bin/env bash
# Serves 1,000 made sessions by the command `clients`, and judges each output by a plain model
# that serves the requests one at a time in the order of the printed tickets (what is asked:
# oracle/clients.py).
# First 1,000 sessions are given to `serve` in the same way, so that the model is known to be right.
# A session that isn't as it should be is left at the top of the repository, wrong-N.session.
. "$(dirname "$0")/../tools/program.sh"

python3 oracle/clients.py "$program" --serve "$@"
python3 oracle/clients.py "$program" "$@"
