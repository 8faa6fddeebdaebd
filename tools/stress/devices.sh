#!/usr/bin/env bash
# Runs the program where its input, its output or the machine fails, and compares how it ends with what
# docs/LANGUAGE.md says: a folder or a closed descriptor as input, a pipe that ends in the middle of a
# line, a full device, a reader that goes away, a closed output; for each command few threads, one
# processor for 32 callers, and address space in steps, where it writes the whole text or ends with
# status 3 and nothing written. A run that hasn't ended after a minute is killed and counts as wrong.
# Prints a line for each; ends with 1 if any of them ends otherwise.
. "$(dirname "$0")/../program.sh"

session=examples/many.session
failed=0

# Sessions of so many clients with so many requests each, on keys of their own.
clients() {
  local client request
  printf 'map m;\nhandler w(k) { let a = get(m, k); put(m, k, 7); reply a; }\n%%%%\n'
  for ((client = 0; client < $1; client++)); do
    [ "$client" = 0 ] || echo '%% next'
    for ((request = 0; request < $2; request++)); do echo "w k${client}_$request"; done
  done
}
clients 3 60 > "$work/three"
clients 16 1250 > "$work/sixteen"

# What the input alone determines of a text: of several clients each line without its ticket.
known() { if [ "$1" = clients ]; then cut -d ' ' -f 1,3-; else cat; fi; }

# A case: its name, the wanted status, the wanted line on the error output, and what runs.
ends() {
  local name=$1 status=$2 line=$3 got=0
  shift 3
  "$@" > "$work/out" 2> "$work/err" || got=$?
  if [ "$got" = "$status" ] && [ "$(cat "$work/err")" = "$line" ]; then
    echo "$name: status $got ${line:+($line)}"
  else
    echo "$name: NOT AS IT SHOULD BE: status $got, $(head -c 80 "$work/err")"
    failed=1
  fi
}

# The whole text with status 0, or nothing with status 3: a name, a file, a way to run, and words.
whole_or_nothing() {
  local name=$1 file=$2 way=$3 got=0
  shift 3
  $way "$@" > "$work/out" 2> "$work/err" < "$file" || got=$?
  if [ "$got" = 0 ] && known "$1" < "$work/out" | cmp -s - "$work/whole"; then
    whole=$((whole + 1))
  elif [ "$got" = 3 ] && [ ! -s "$work/out" ]; then
    nothing=$((nothing + 1))
  elif [ "$got" = 127 ]; then
    unloaded=$((unloaded + 1))
  else
    echo "$name: NOT AS IT SHOULD BE: status $got, $(wc -c < "$work/out") bytes"
    failed=1
  fi
}

from_folder() { "$program" serve < "$work"; }
from_nowhere() { "$program" serve <&-; }
half_a_line() { head -c 700 "$session" | "$program" serve; }
to_full() { "$program" serve < "$session" > /dev/full; }
to_nowhere() { "$program" serve < "$session" >&-; }
to_nobody() {
  python3 - "$program" "$session" <<'P'
import os, subprocess, sys
reader, writer = os.pipe()
os.close(reader)
with open(sys.argv[2], "rb") as given:
    sys.exit(subprocess.run([sys.argv[1], "serve"], stdin=given, stdout=writer).returncode)
P
}
limited() { (ulimit -v "$kib" && exec timeout -k 1 60 "$program" "$@"); }
one_processor() { timeout -k 1 60 taskset -c 0 "$program" "$@"; }
# The superuser is refused no thread: as somebody else.
few_threads() {
  timeout -k 1 60 setpriv --reuid 65534 --regid 65534 --clear-groups \
    prlimit --nproc="$threads" "$work/program" "$@"
}

ends "a folder as input" 4 "read fault" from_folder
ends "a closed input" 4 "read fault" from_nowhere
head -c 700 "$session" > "$work/half"
half=0
"$program" serve < "$work/half" > "$work/half_out" 2> "$work/half_err" || half=$?
ends "a pipe that ends in the middle of a line" "$half" "$(cat "$work/half_err")" half_a_line
cmp -s "$work/out" "$work/half_out" || { echo "the pipe's text differs"; failed=1; }
ends "a full device" 5 "write fault" to_full
ends "a closed output" 5 "write fault" to_nowhere
ends "a reader that went away" 5 "write fault" to_nobody

cp "$program" "$work/program" && chmod 755 "$work" "$work/program"
while read -r file steps words; do
  read -ra words <<< "$words"
  "$program" "${words[@]}" < "$file" | known "${words[0]}" > "$work/whole"
  whole=0 nothing=0 unloaded=0
  whole_or_nothing "${words[*]}: one processor" "$file" one_processor "${words[@]}"
  if [ "$(id -u)" = 0 ]; then
    for threads in 1 2 4 8 16; do
      whole_or_nothing "${words[*]}: at most $threads threads" "$file" few_threads "${words[@]}"
    done
  fi
  for kib in $(seq ${steps//,/ }); do
    whole_or_nothing "${words[*]}: address space of $kib KiB" "$file" limited "${words[@]}"
  done
  echo "${words[*]}: few threads, one processor, address space by ${steps//,/ } KiB: $unloaded not loaded, $nothing without memory, $whole whole"
done << CASES
$session 2000,20,6000 serve --callers 1
$session 2000,20,6000 serve --callers 4
$session 2000,20,6000 serve --callers 32
examples/evening.session 2000,100,6000 dump
$session 2000,100,6000 trace --callers 1
examples/audited.trace 2000,100,6000 audit
examples/login.handlers 2000,100,6000 check
examples/login.handlers 2000,100,6000 show
examples/spans.ranges 2000,100,6000 ranges
/dev/null 2000,100,6000 work 300 7
$work/three 2000,20,8000 clients
$work/three 2000,100,8000 clients --callers 32 --shards 8
$work/sixteen 3000,1000,80000 clients
CASES
exit $failed
