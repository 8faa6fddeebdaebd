#!/usr/bin/env bash
# Serves 1,000 made sessions by `trace`, and judges each trace by a plain model
# (what is asked: oracle/trace.py). A session that isn't as it should be stays here as
# wrong-N.session.
. "$(dirname "$0")/../tools/program.sh"

python3 oracle/trace.py "$program" "$@"
