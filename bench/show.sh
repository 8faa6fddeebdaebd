#!/usr/bin/env bash
# Measures `foresight show` on a dense file of at most 4,194,304 bytes against `check` of the same file,
# and on a handler of 15 loops in one another, whose keys are copied round, against one of 5.
. "$(dirname "$0")/measure.sh"

# 64 handlers of branches and loops in a loop, with 100 to 256 symbols at a point.
awk 'BEGIN {
  srand(1)
  print "map m;"
  print "map n;"
  print "set s;"
  for (h = 0; h < 64; h++) {
    printf "handler h%d(a, b, c, d) {\n  let x = 0;\n  let y = 0;\n  let z = 0;\n  let t = 0;\n  repeat 1 as i {\n", h
    size = 300
    split("x y z t", name, " ")
    while (size < 65000) {
      v = name[1 + int(4 * rand())]
      w = name[1 + int(4 * rand())]
      key = int(24 * rand())
      r = rand() < 0.008 ? 7 : int(7 * rand())
      if (r == 0) text = sprintf("    %s = get(m, %d);\n    put(m, a, %s);\n", v, key, v)
      if (r == 1) text = sprintf("    %s = swap(n, b, %d);\n    if %s == nil {\n      del(m, %d);\n    } else {\n      mark(s, %s);\n    }\n", v, key, v, key, v)
      if (r == 2) text = sprintf("    put(n, %d, c);\n    mark(s, %d);\n", key, key)
      if (r == 3) text = sprintf("    %s = has(s, %d);\n    if %s == 0 {\n      mark(s, %d);\n    }\n", v, key, v, key)
      if (r == 7) text = sprintf("    repeat 2 as i%d {\n      put(m, %d, d);\n      %s = get(n, %d);\n    }\n", ++loops, key, v, key)
      if (r == 5) text = sprintf("    drop(s, %d);\n    del(n, %d);\n    %s = size(m);\n", key, key, v)
      if (r == 6) text = sprintf("    %s = %s;\n    put(m, %s, %d);\n", v, w, v, key % 4)
      if (r == 4) text = sprintf("    if a < %d {\n      %s = get(m, b);\n      put(n, %s, a);\n    } else {\n      put(m, %d, b);\n    }\n", key, v, v, key)
      if (r == 7 && ++own > 20) continue
      printf "%s", text
      size += length(text)
    }
    own = 0
    loops = 0
    print "  }\n}"
  }
}' > "$work/dense"

# A file of 64 handlers of so many loops in one another. Around the innermost block 12 keys are copied
# round, and behind each inner loop two of them are exchanged.
nested() {
  awk -v depth="$1" 'BEGIN {
    print "map m;"
    split("a b c d e f g h j k l n", key, " ")
    for (h = 0; h < 64; h++) {
      printf "handler h%d(a, b, c, d, e, f, g, h, j, k, l, n) {\n  let t = 0;\n", h
      for (i = 1; i <= depth; i++) printf "  repeat 1 as i%d {\n", i
      for (i = 0; i < 16; i++) printf "  put(m, a, %d);\n", i
      printf "  t = a;\n"
      for (i = 1; i < 12; i++) printf "  %s = %s;\n", key[i], key[i + 1]
      printf "  n = t;\n"
      for (i = depth; i > 0; i--) {
        x = key[1 + i % 12]
        y = key[1 + (i * 5 + 3) % 12]
        printf "  t = %s;\n  %s = %s;\n  %s = t;\n  }\n", x, x, y, y
      }
      print "}"
    }
  }' > "$work/nested$1"
}

check() { "$program" check < "$work/dense"; }
show() { "$program" show < "$work/dense"; }
deep() { "$program" check < "$work/nested15"; }
flat() { "$program" check < "$work/nested5"; }

echo "bytes $(wc -c < "$work/dense")"
show > "$work/shown"
echo "shown bytes $(wc -c < "$work/shown"), points $(grep -c mayuse "$work/shown")"
shown=$(least show)
checked=$(least check)
compare show "$shown" check "$checked"
peak "$program" check "$work/dense"
peak "$program" show "$work/dense"
nested 15
nested 5
compare "15 loops" "$(least deep)" "5 loops" "$(least flat)"
