#!/usr/bin/env bash
# Measures table parts and dumps: 100,000 table lines of a set against 20,000 request lines of as many
# words; and `dump` of 200,000 entries, which 20,000 requests put, against `serve` of the same file.
. "$(dirname "$0")/measure.sh"

{ echo 'map m; handler nop(a) {}'; echo '%% tables'; awk 'BEGIN { for (i = 0; i < 100000; i++) print "m " i * 7 " " i }'; echo '%%'; } > "$work/lines"
{ echo 'map m; handler nop(a, b) {}'; echo '%%'; awk 'BEGIN { for (i = 0; i < 20000; i++) print "nop " i * 7 " " i }'; } > "$work/requests"
{ echo 'map m; handler nop(a, b) {}'; echo '%%'; } > "$work/none"
{ echo 'map m; handler fill(n) { repeat 10 as i { let k = n * 10 + i; put(m, k, n); } }'; echo '%%'; awk 'BEGIN { for (i = 0; i < 20000; i++) print "fill " i }'; } > "$work/entries"

none() { "$program" serve --callers 1 < "$work/none"; }
lines() { "$program" serve --callers 1 < "$work/lines"; }
requests() { "$program" serve --callers 1 < "$work/requests"; }
serve() { "$program" serve --callers 1 < "$work/entries"; }
dump() { "$program" dump --callers 1 < "$work/entries"; }

base=$(least none)
echo "nothing: $base us; 100,000 table lines: $(least lines) us; 20,000 request lines: $(least requests) us (least of ten)"
compare "dump of 200,000 entries" "$(least dump)" "serving them" "$(least serve)"
peak "$program" dump "$work/entries"
