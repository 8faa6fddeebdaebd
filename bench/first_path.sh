#!/usr/bin/env bash
# Measures `foresight serve` on a file of 20,000 requests over 5,000 keys: its time against `wc -l` of
# the same file in the same run, and its peak memory.
. "$(dirname "$0")/measure.sh"

awk 'BEGIN {
  print "map m;"
  print "handler keep(k, v) { let old = get(m, k); put(m, k, v); reply old, v; }"
  print "handler look(k) { let v = get(m, k); reply v; }"
  print "%%"
  x = 1
  for (i = 0; i < 20000; i++) {
    x = (x * 1103515245 + 12345) % 4294967296
    key = int(x / 65536) % 5000
    if (i % 2) print "look u" key; else print "keep u" key " " i
  }
}' > "$work/session"

serve() { "$program" serve < "$work/session"; }
count() { wc -l < "$work/session"; }

echo "bytes $(wc -c < "$work/session")"
serve > "$work/replies"
echo "replies $(wc -l < "$work/replies")"
served=$(least serve)
counted=$(least count)
compare serve "$served" "wc -l" "$counted"
peak "$program" serve "$work/session"
