#!/usr/bin/env bash
# Tries the must-fail edits that are beside the gate: those of checks/edits/NAME for each NAME, or
# of all crates. They are put into a scratch clone of the last commit, in place of those of the
# gate, and `rt ci` tries them there, which proves a crate and those below it first if this machine
# hasn't. A line an edit; ends with 1 if one isn't refused. An edit takes 10 to 90 processor
# seconds, the first of a crate a proof of it more.
set -euo pipefail
cd "$(dirname "$0")/.."
root=$PWD
names=("$@")
[ $# -gt 0 ] || mapfile -t names < <(ls checks/edits)
for name in "${names[@]}"; do
  [ -d "checks/edits/$name" ] || { echo "there is no checks/edits/$name" >&2; exit 1; }
done

work=$(mktemp -d)
trap 'rm -rf "$work"' EXIT
git clone -q "$root" "$work/clone"
cd "$work/clone"
rm -rf crates/*/must-fail
wanted=0
for name in "${names[@]}"; do
  cp -r "checks/edits/$name" "crates/$name/must-fail"
  wanted=$((wanted + $(find "checks/edits/$name" -name '*.edit' | wc -l)))
done
status=0
rt ci "${names[@]}" > "$work/log" 2>&1 || status=$?
grep -E "must-fail [a-z_]+/|NOT PROVED" "$work/log" || tail -n 20 "$work/log"
refused=$(grep -cE "must-fail [a-z_]+/.*: refused, as it must be" "$work/log" || true)
echo "$refused of $wanted edits refused"
[ "$status" = 0 ] && [ "$refused" = "$wanted" ]
