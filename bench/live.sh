#!/usr/bin/env bash
# What a live session costs: bench/live.sh LIBRARY FOLDER [PEER..]. LIBRARY is the static library, as
# `rt lib` leaves it (crates/foresight_c/out/libforesight_c.a), or as embedding/library.py builds it
# over what `rt ci` left in a clone; both are proved. For each *.session of the folder:
# nanoseconds a request in this process, one line a call and a hundred a call, and, where PEER (a
# program and its words, which reads a session file and ends) is given, its processor time over the
# requests, less that for the same file without requests. Then, for work.session, requests a second
# over a unix socket, of embedding/server.c and of Redis, where there is redis-server: scripts that do
# the same (bench/live_redis.py), no persistence, a server of its own that is ended; their replies are
# compared first. Absolute times aren't stable from machine to machine: compare within a run, and see
# the load.
set -euo pipefail
[ $# -ge 2 ] || { echo "words: LIBRARY FOLDER [PEER..]" >&2; exit 2; }
library=$(realpath "$1")
folder=$(realpath "$2")
[ -s "$library" ] || { echo "no library at $library" >&2; exit 2; }
[ -d "$folder" ] || { echo "no folder at $folder" >&2; exit 2; }
shift 2
cd "$(dirname "$0")/.."
work=$(mktemp -d)
server=
trap '[ -z "$server" ] || kill "$server"; rm -rf "$work"' EXIT
. embedding/programs.sh
compile live -std=gnu99 bench/live.c
compile load -std=gnu99 -pthread bench/load.c
compile server -std=gnu99 -pthread embedding/server.c

# The least processor time of a program on a file, in nanoseconds.
least_of() {
  python3 - "$@" <<'PYTHON'
import os, resource, subprocess, sys
file, *words = sys.argv[1:]
best = None
for _ in range(7):
    before = resource.getrusage(resource.RUSAGE_CHILDREN)
    with open(file, "rb") as text:
        subprocess.run(words, stdin=text, stdout=subprocess.DEVNULL, check=True)
    after = resource.getrusage(resource.RUSAGE_CHILDREN)
    took = after.ru_utime + after.ru_stime - before.ru_utime - before.ru_stime
    best = took if best is None else min(best, took)
print(round(best * 1e9))
PYTHON
}

echo "load: $(cut -d ' ' -f 1-3 /proc/loadavg)"
printf '%-12s %9s %12s %12s %12s\n' session requests '1 a call' '100 a call' peer
for session in "$folder"/*.session; do
  requests=$(awk 'served { n++ } $0 == "%%" { served = 1 } END { print n + 0 }' "$session")
  if [ "$requests" = 0 ]; then continue; fi
  rounds=$((requests < 1000 ? 5 : 7))
  peer=-
  if [ $# -gt 0 ]; then
    sed '/^%%$/q' "$session" > "$work/none"
    peer=$((($(least_of "$session" "$@") - $(least_of "$work/none" "$@")) / requests))
  fi
  printf '%-12s %9d %12d %12d %12s\n' "$(basename "$session" .session)" "$requests" \
    "$("$work/live" "$session" 1 "$rounds")" "$("$work/live" "$session" 100 "$rounds")" "$peer"
done

# Requests a second of a server at a socket, with so many clients and so many requests at a time.
loads() {
  local name=$1 place=$2 requests=$3 how clients pipeline
  for how in "1 1" "1 100" "4 1" "4 100"; do
    read -r clients pipeline <<< "$how"
    echo "$name, $clients clients, $pipeline at a time:" \
      "$("$work/load" "$place" "$requests" "$clients" "$pipeline" 2) requests a second"
  done
}

# Waits until there is a socket.
await() {
  for _ in $(seq 50); do [ -S "$1" ] && return; sleep 0.1; done
  echo "no server at $1" >&2
  exit 1
}

# Ends the server.
ended() {
  kill "$server"
  wait "$server" || true
  server=
}

session=$folder/work.session
[ -f "$session" ] || exit 0
sed '/^%%$/q' "$session" > "$work/handlers"
sed '1,/^%%$/d' "$session" > "$work/lines"
"$work/server" "$work/handlers" unix "$work/socket" > "$work/tables" 2> "$work/log" &
server=$!
await "$work/socket"
python3 - "$work/socket" "$work/lines" > "$work/replies" <<'PYTHON'
import socket, sys
with socket.socket(socket.AF_UNIX) as at, open(sys.argv[2], "rb") as file:
    at.connect(sys.argv[1])
    got, lines = at.makefile("rb"), file.readlines()
    for first in range(0, len(lines), 100):
        at.sendall(b"".join(lines[first:first + 100]))
        for _ in lines[first:first + 100]:
            print(got.readline().decode().strip())
PYTHON
loads server "$work/socket" "$work/lines"
ended
if ! command -v redis-server > "$work/log"; then
  echo "Redis: NOT RUN, since there is no redis-server"
  exit 0
fi
redis-server --port 0 --unixsocket "$work/redis" --save '' --appendonly no --dir "$work" \
  > "$work/log" &
server=$!
await "$work/redis"
python3 bench/live_redis.py "$work/redis" "$work/lines" "$work/commands" > "$work/redis_replies"
cmp "$work/replies" "$work/redis_replies"
loads Redis "$work/redis" "$work/commands"
ended
