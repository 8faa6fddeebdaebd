#!/usr/bin/env bash
# Runs `rt ci` from nothing in a scratch clone of the last commit, and prints the processor seconds of
# each crate's proof, tests and must-fail edits, dearest first, as tools/gate.csv has them.
# Takes some 215 processor minutes: an hour, or more, on four processors.
# `tools/gate.sh --watch FILE STOP` only watches, until the file STOP is there, what any `rt ci`
# does, and `tools/gate.sh --table FILE..` prints the rows of what was watched.
set -euo pipefail
cd "$(dirname "$0")/.."
case ${1:-} in
  --watch | --table) exec python3 tools/gate.py "$@" ;;
esac
root=$PWD
work=$(mktemp -d)
trap 'touch "$work/stop"; wait; rm -rf "$work"' EXIT
git clone -q "$root" "$work/clone"
python3 tools/gate.py --watch "$work/times.json" "$work/stop" &
cd "$work/clone"
status=0
# A kit that keeps what passed has a word for proving it all the same; others prove all in each run.
anew=()
if rt help 2>&1 | grep -q -e --anew; then anew=(--anew); fi
rt ci "${anew[@]}" > "$work/log" 2>&1 || status=$?
touch "$work/stop"
wait
tail -n 3 "$work/log"
python3 "$root/tools/gate.py" --table "$work/times.json"
exit $status
