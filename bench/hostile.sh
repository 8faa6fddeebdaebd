#!/usr/bin/env bash
# Measures the analysis on a file of 4,194,304 bytes that is made to take as much memory as can be: 64
# handlers, at each of whose points 256 operations may still come, hardly ever the same ones. In four
# groups of 64 they name four of 30 variables, and before each point a group has moved to another one.
# Prints how the program ends, its seconds and its peak memory for `check` and `show`.
. "$(dirname "$0")/measure.sh"

awk 'BEGIN {
  srand(1)
  vars = "a b c d e f g h j k l n o p q r s t u v w x y z A B C D E F"
  n = split(vars, name, " ")
  params = vars
  gsub(" ", ",", params)
  print "map m;"
  size = 65400
  for (h = 0; h < 64; h++) {
    # From the end of the body to its start: where each group stands.
    for (i = 1; i <= n; i++) at[i] = 0
    for (g = 1; g <= 4; g++) { place[g] = g; at[g] = g }
    uses = ""
    for (g = 1; g <= 4; g++) for (k = 0; k < 64 - (g == 4); k++) uses = uses "put(m," name[g] "," k ");"
    for (left = size - length(uses) - 200; left > 0; left -= 12) {
      g = 1 + int(4 * rand())
      do to = 1 + int(n * rand()); while (at[to])
      step[++steps] = name[place[g]] "=" name[to] ";size(m);"
      at[place[g]] = 0
      at[to] = g
      place[g] = to
    }
    printf "handler h%d(%s){repeat 1 as i{%s", h, params, uses
    # Each group goes back to its own variable, over one that is free.
    for (g = 1; g <= 4; g++) {
      if (place[g] == g) continue
      if (at[g]) {
        o = at[g]
        do to = 1 + int(n * rand()); while (at[to])
        step[++steps] = name[g] "=" name[to] ";size(m);"
        at[to] = o
        place[o] = to
      }
      step[++steps] = name[place[g]] "=" name[g] ";size(m);"
      at[place[g]] = 0
      at[g] = g
      place[g] = g
    }
    for (i = steps; i > 0; i--) printf "%s", step[i]
    steps = 0
    print "}}"
  }
}' > "$work/hostile"

echo "bytes $(wc -c < "$work/hostile"), points $(grep -o ');' "$work/hostile" | wc -l)"
for word in check show; do
  python3 - "$program" "$word" "$work/hostile" <<'P'
import resource, subprocess, sys, time
begin = time.time()
with open(sys.argv[3], "rb") as given:
    ran = subprocess.run([sys.argv[1], sys.argv[2]], stdin=given, stdout=subprocess.DEVNULL)
peak = resource.getrusage(resource.RUSAGE_CHILDREN).ru_maxrss
print(f"{sys.argv[2]}: status {ran.returncode}, {time.time() - begin:.1f} s, peak memory {peak} KiB")
P
done
