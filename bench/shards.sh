#!/usr/bin/env bash
# Measures the operations of a map's shard: nanoseconds for each put, get, get of an absent key and
# del, for 100, 4,000 and 200,000 keys in order, in random order, and as multiples of 2^32 and of the
# number of slots, and for 4,000 keys chosen to share one start slot. Each figure is the least of five
# runs. The program (`shard_bench`) is proved and built over this repository's crates in a folder of
# its own, so that the gate has no part in it.
set -euo pipefail
cd "$(dirname "${BASH_SOURCE[0]}")/.."
work=$(mktemp -d)
trap 'rm -rf "$work"' EXIT

# Copies a crate with what earlier checks made of it, and the crates that it stands on.
copy() {
  if [ ! -d "crates/$1" ] || [ -d "$work/crates/$1" ]; then return; fi
  cp -a "crates/$1" "$work/crates"
  grep "^$1[: ]" crates.txt >> "$work/crates.txt"
  for below in $(sed -n "s/^$1[^:]*://p" crates.txt); do copy "$below"; done
}

mkdir "$work/crates"
cp HANDLES "$work"
mkdir -p "$work/crates/shard_bench/src"
cp bench/shard_bench.rattle "$work/crates/shard_bench/src/main.rt"
echo "shard_bench: session_values shard_tables" > "$work/crates.txt"
copy shard_tables
(cd "$work/crates/shard_bench" && rt run > "$work/first")
program=$work/crates/shard_bench/out/shard_bench

for _ in 1 2 3 4 5; do "$program"; done | awk '
$7 != "true" { print "a key was lost"; exit 1 }
{
  at = $1 " " $2
  if (!(at in best)) order[n++] = at
  mean = ($3 + $4 + $5 + $6) / 4
  if (!(at in best) || mean < best[at]) { best[at] = mean; line[at] = $3 " " $4 " " $5 " " $6 }
}
END {
  for (i = 0; i < n; i++) {
    at = order[i]
    split(at, head, " "); split(line[at], t, " ")
    printf "%-24s %6d keys: put %.1f get %.1f absent %.1f del %.1f ns, mean %.1f\n", head[1], head[2], t[1] / 10, t[2] / 10, t[3] / 10, t[4] / 10, best[at] / 10
    if (head[1] == "one_start_slot") continue
    if (!(head[2] in low)) sizes[m++] = head[2]
    if (!(head[2] in low) || best[at] < low[head[2]]) low[head[2]] = best[at]
    if (best[at] > high[head[2]]) high[head[2]] = best[at]
  }
  for (i = 0; i < m; i++) printf "%d keys: the worst mean is %.1f times the best\n", sizes[i], high[sizes[i]] / low[sizes[i]]
}'
