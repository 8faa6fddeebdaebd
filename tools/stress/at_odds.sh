#!/usr/bin/env bash
# Serves sessions that set callers against each other, many times each (by default 1,000, or the first
# word), and compares each output, byte for byte, with that of one caller: one key and 32 callers, the
# size of a table between puts, and requests that declare a whole table for 10,000 calls while others
# wait. Prints for each session the runs, those that differ, and the slowest in seconds.
. "$(dirname "$0")/../program.sh"

runs=${1:-1000}
{
  printf 'map m;\nhandler raise(d) { let v = get(m, 0); if v == nil { v = 0; } let w = v + d; put(m, 0, w); reply w; }\n%%%%\n'
  for i in $(seq 400); do echo "raise $i"; done
} > "$work/one_key"
{
  printf 'map m;\nhandler keep(k) { put(m, k, k); }\nhandler many() { let n = size(m); reply n; }\n%%%%\n'
  for i in $(seq 400); do if [ $((i % 5)) -eq 0 ]; then echo many; else echo "keep $i"; fi; done
} > "$work/sizes"
{
  printf 'map m;\nhandler sweep(k) { repeat 1000 as i {\n'
  for i in 0 1 2 3 4; do printf 'let a%s = i * 5 + %s; let v%s = get(m, a%s); put(m, a%s, k);\n' $i $i $i $i $i; done
  printf '} }\nhandler look(k) { let v = get(m, k); reply v; }\n%%%%\n'
  for i in $(seq 12); do if [ $((i % 4)) -eq 1 ]; then echo "sweep $i"; else echo "look $((i * 7))"; fi; done
} > "$work/wide"

python3 - "$program" "$runs" "$work" <<'P'
import subprocess, sys, time

program, runs, work = sys.argv[1], int(sys.argv[2]), sys.argv[3]
failed = False
for name, callers in [("one_key", 32), ("sizes", 8), ("wide", 8)]:
    with open(f"{work}/{name}", "rb") as given:
        text = given.read()
    wanted = subprocess.run([program, "serve"], input=text, capture_output=True, check=True).stdout
    slowest, others = 0.0, 0
    for run in range(runs):
        begin = time.time()
        words = ["serve", "--callers", str(callers), "--shards", str(1 + run % 8)]
        others += subprocess.run([program] + words, input=text, capture_output=True, timeout=100).stdout != wanted
        slowest = max(slowest, time.time() - begin)
    print(f"{name:8} {callers:3} callers: {runs} runs, {others} differ, the slowest {slowest:.2f} s")
    failed |= others > 0
sys.exit(failed)
P
