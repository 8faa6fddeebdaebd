#!/usr/bin/env bash
# Figures beside redis-server in one run: server/tests/figures.sh SERVER [SECONDS]. `take` adds to a
# kept number and answers it, as a handler and as a function in Lua; redis-benchmark sends both the
# same requests. Three rounds by turns; the least and the median of requests a second.
set -euo pipefail
server=$(realpath "$1")
seconds=${2:-2}
work=$(mktemp -d)
cleanup() {
  for pid in "${pids[@]}"; do kill -9 "$pid" && wait "$pid"; done 2> "$work/log" || true
  rm -rf "$work"
}
pids=()
trap cleanup EXIT
cd "$work"
cat > take.handlers <<'HANDLERS'
map kept;
handler take(k, n) {
  let had = get(kept, k);
  if had == nil { had = 0; }
  let now = had + n;
  put(kept, k, now);
  reply now;
}
HANDLERS
cat > take.lua <<'LUA'
#!lua name=figures
redis.register_function('take', function(keys, args)
  local now = (tonumber(redis.call('GET', keys[1])) or 0) + tonumber(args[1])
  redis.call('SET', keys[1], now)
  return now
end)
LUA
mkdir plain always
"$server" --handlers take.handlers --unix "$work/ours" 2> log.ours & pids+=($!)
"$server" --handlers take.handlers --data "$work/data" --unix "$work/ours_log" 2> log.data & pids+=($!)
redis-server --port 0 --unixsocket "$work/redis" --save '' --appendonly no --dir plain > log.redis & pids+=($!)
redis-server --port 0 --unixsocket "$work/redis_log" --save '' --appendonly yes --appendfsync always \
  --dir always > log.always & pids+=($!)
sleep 1
for one in redis redis_log; do
  redis-cli -s "$work/$one" -x FUNCTION LOAD < take.lua > log.load
done
# Requests a second: socket, connections, pipeline.
rate() {
  timeout "$seconds" redis-benchmark -s "$work/$1" -c "$2" -P "$3" -n 100000000 -r 10000 \
    FCALL take 1 __rand_int__ 1 2>&1 | tr '\r' '\n' | grep -oE 'rps=[0-9.]+ \(overall: [0-9.]+' | tail -n 1 \
    | grep -oE '[0-9.]+$' || echo 0
}
echo "$(date -u '+%F %T') UTC, load $(cut -d ' ' -f 1-3 /proc/loadavg), $(nproc) processors"
for round in 1 2 3; do
  for form in "1 1" "8 1" "50 1" "1 100"; do
    for one in ours redis ours_log redis_log; do
      # shellcheck disable=SC2086
      echo "$form $one $(rate "$one" $form)" >> figures
    done
  done
done
echo "connections pipeline: least, median requests a second of three rounds"
sort -k1,1n -k2,2n -k3,3 -k4,4n figures | awk '
  { key = $1 " " $2 " " $3; n[key]++; all[key, n[key]] = $4; if (!(key in seen)) { seen[key] = 1; order[++m] = key } }
  END { for (i = 1; i <= m; i++) { k = order[i]; printf "%-20s %9.0f %9.0f\n", k, all[k, 1], all[k, 2] } }'
echo "load $(cut -d ' ' -f 1-3 /proc/loadavg)"
