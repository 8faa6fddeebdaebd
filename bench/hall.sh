#!/usr/bin/env bash
# Measures sessions through a hall: nanoseconds for each of 200,000 puts of 20,000 tickets, by 1, 2
# and 4 callers with 8 shards, from the hall's opening to its closing. Each figure is the least of
# five runs. The program (`hall_bench`) is proved and built over this
# repository's crates in a folder of its own, so that the gate has no part in it.
set -euo pipefail
cd "$(dirname "${BASH_SOURCE[0]}")/.."
work=$(mktemp -d)
trap 'rm -rf "$work"' EXIT

# Copies a crate with what earlier checks made of it, and the crates that it stands on.
copy() {
  if [ ! -d "crates/$1" ] || [ -d "$work/crates/$1" ]; then return; fi
  cp -a "crates/$1" "$work/crates"
  grep "^$1[: ]" crates.txt >> "$work/crates.txt"
  for below in $(sed -n "s/^$1[^:]*://p" crates.txt); do copy "$below"; done
}

mkdir "$work/crates"
cp HANDLES "$work"
mkdir -p "$work/crates/hall_bench/src" "$work/crates/hall_bench/proofs/puts"
cp bench/hall_bench.rattle "$work/crates/hall_bench/src/main.rt"
cp bench/hall_bench_puts.rattle "$work/crates/hall_bench/proofs/puts/Invariants.antt"
echo "hall_bench: session_values worker_gate hall_serving repeated_calls" > "$work/crates.txt"
copy hall_serving
copy repeated_calls
(cd "$work/crates/hall_bench" && rt run > "$work/first" || { cat "$work/first"; exit 1; })
program=$work/crates/hall_bench/out/hall_bench

for _ in 1 2 3 4 5; do "$program"; done | awk '
$3 != "true" { print "a ticket was not served"; exit 1 }
{
  if (!($1 in best)) order[n++] = $1
  if (!($1 in best) || $2 < best[$1]) best[$1] = $2
}
END {
  for (i = 0; i < n; i++) {
    c = order[i]
    printf "%d caller%s: %.0f ns for each put\n", c, c == 1 ? "" : "s", best[c] / 200000
  }
}'
