#!/usr/bin/env bash
# Measures `foresight check` on two accepted files of at most 4,194,304 bytes, each of 64 handlers: a
# dense one with statements of all forms, and one of long expressions. For each its time against `wc`
# of the same file in the same run, and its peak memory.
. "$(dirname "$0")/measure.sh"

# Handlers of 24 repeats, as many as 32 variables allow, which have the same statements again and again.
awk 'BEGIN {
  head = "map m;\nset s;\n"
  printf "%s", head
  left = 4194304 - length(head)
  for (h = 0; h < 64; h++) {
    start = "handler h" h "(k, v) { let w = v; let old = get(m, k);"
    tail = " reply old, v, -7, " "\047s" h "; }\n"
    room = int(left / (64 - h)) - length(start) - length(tail)
    body = ""
    n = 0
    for (r = 0; r < 24; r++) {
      open = " repeat 2 as i" r " {"
      until = int(room * (r + 1) / 24) - 2
      body = body open
      for (; ; n++) {
        turn = " w = v + " n " * 2 - 1; old = swap(m, k, w); if old == nil { put(m, k, w); } else { old = old * 2 + (i" r " - w) * 7; mark(s, " "\047s" n % 8 "); } if w < " n " { reply old, v, -7, " "\047s" n % 8 "; }"
        if (length(body) + length(turn) > until) break
        body = body turn
      }
      body = body " }"
    }
    line = start body tail
    printf "%s", line
    left -= length(line)
  }
}' > "$work/dense"

# Assignments with 64 operators each, the most that an expression may have.
awk 'BEGIN {
  left = 4194304
  sum = "a"
  for (i = 0; i < 64; i++) sum = sum substr("+-*", i % 3 + 1, 1) "a"
  for (h = 0; h < 64; h++) {
    line = "handler h" h "(a){"
    room = int(left / (64 - h)) - 2
    while (length(line) + length(sum) + 3 <= room) line = line "a=" sum ";"
    line = line "}\n"
    printf "%s", line
    left -= length(line)
  }
}' > "$work/operators"

measure() {
  check() { "$program" check < "$work/$1"; }
  count() { wc < "$work/$1"; }
  echo "$1: bytes $(wc -c < "$work/$1")"
  check "$1" > "$work/canonical"
  echo "canonical bytes $(wc -c < "$work/canonical")"
  checked=$(least check "$1")
  counted=$(least count "$1")
  compare check "$checked" "wc" "$counted"
  peak "$program" check "$work/$1"
}

measure dense
measure operators
