#!/usr/bin/env bash
# Measures `foresight serve` on two sessions: 10,000,000 units of work without an operation (nested
# repeats with sums, differences, products, comparisons and assignments), and 200,000 calls of 20
# requests. It prints the time of each and its peak memory.
. "$(dirname "$0")/measure.sh"

cat > "$work/arith" <<'SESSION'
handler spin(x0, y0) {
  let x = x0;
  let y = y0;
  let z = 0;
  repeat 1000 as i {
    repeat 13 as j {
      x = x * 2 + j - (i - y0) * 2;
      y = (x - j) * (i + 7) - (x - i) * 5 + j * j;
      z = (z + y * 3 - x) * 1 - y * 2 - (y - x - j);
      if 1000000 < x {
        x = x - 1500001;
      } else {
        if x < -1000000 { x = x + 1500001; }
      }
    }
    if z < 0 { z = 0 - z; } else { z = z - i; }
  }
  reply x, y, z;
}
%%
SESSION
awk 'BEGIN { for (t = 0; t < 105; t++) print "spin " t * 31 + 1 " " t % 7 }' >> "$work/arith"

cat > "$work/calls" <<'SESSION'
map m;
handler fill(n) { repeat 1000 as i { repeat 10 as j { put(m, n, j); } } reply n; }
%%
SESSION
awk 'BEGIN { for (t = 0; t < 20; t++) print "fill " t }' >> "$work/calls"

arith() { "$program" serve < "$work/arith"; }
calls() { "$program" serve < "$work/calls"; }

arith > "$work/replies"
echo "replies $(wc -l < "$work/replies")"
echo "10,000,000 units of work: $(least arith) us (least of ten)"
peak "$program" serve "$work/arith"
calls > "$work/replies"
echo "replies $(wc -l < "$work/replies")"
echo "200,000 calls: $(least calls) us (least of ten)"
peak "$program" serve "$work/calls"
