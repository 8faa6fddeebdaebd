# Sourced after programs.sh by .ci/embedding and oracle/embedding.sh: builds and runs what lives over
# the library that `make_look` made: sessions, tickets, servers, and packages for other languages.
# `live_wrong` takes what isn't as it should be, and `not_run` what isn't run and why: a tool isn't here.

# A case for all bindings: handlers, requests, and what the program answers to a file with both.
live_case() {
  mkdir -p "$work/case"
  cat > "$work/case/handlers" <<'HANDLERS'
map seats; set online;
handler login(u, now) { let old = swap(seats, u, now); mark(online, u); reply old; }
handler logout(u) { del(seats, u); drop(online, u); }
handler seen(u) { let at = get(seats, u); let on = has(online, u); reply at, on; }
handler crowd() { let n = count(online); reply n; }
%%
HANDLERS
  awk 'BEGIN { for (i = 0; i < 3000; i++) { u = "u" (i * 7919) % 101
    print i % 7 == 0 ? "crowd" : i % 5 == 0 ? "logout " u : i % 3 == 0 ? "seen " u : "login " u " " i
  } }' > "$work/case/requests"
  cat "$work/case/handlers" "$work/case/requests" > "$work/case/session"
  "$foresight" serve < "$work/case/session" | cut -d ' ' -f 2- > "$work/case/replies"
  "$foresight" dump < "$work/case/session" > "$work/case/tables"
}

# Servers, each tried by clients that also do what they may not: a name, how it ends, the program.
live_server() {
  if ! command -v python3 > "$work/log"; then
    not_run "$1, since there is no python3"
  else
    timeout 110 python3 embedding/tests/servers.py "$foresight" "$2" "$3" || live_wrong "$1"
  fi
}

# The shared object, for languages that load one.
live_shared() { export FORESIGHT_LIBRARY=$work/look/libforesight.so PYTHONDONTWRITEBYTECODE=1; }

# Some of what oracle/tickets.sh and oracle/sessions.sh judge: drives of tickets, sessions of each kind.
live_judged() {
  if ! command -v python3 > "$work/log"; then
    not_run "the judges of tickets and sessions, since there is no python3"
    return
  fi
  live_shared
  timeout 60 python3 oracle/tickets.py --runs 300 || live_wrong "driven tickets"
  timeout 60 python3 oracle/mixed.py --runs 300 || live_wrong "tickets beside requests"
  timeout 60 python3 oracle/sessions.py "$foresight" --runs 20 || live_wrong "sessions that live"
}

# The part in C: each call, with each request for memory refused; the server; the bank; the judges.
live_c() {
  local threads=(-std=gnu99 -pthread)
  compile sessions embedding/tests/sessions.c "${heap[@]}"
  compile tickets embedding/tests/tickets.c "${heap[@]}"
  timeout 60 "$work/sessions" || live_wrong "embedding/tests/sessions.c"
  compile held embedding/tests/held.c "${heap[@]}"
  timeout 60 "$work/held" || live_wrong "embedding/tests/held.c"
  timeout 60 "$work/tickets" || live_wrong "embedding/tests/tickets.c"
  compile server "${threads[@]}" embedding/server.c
  compile bank "${threads[@]}" embedding/bank.c
  live_server embedding/server.c term "$work/server"
  timeout 60 "$work/bank" 8 20 50 1 tickets > "$work/log" || live_wrong "embedding/bank.c: tickets"
  timeout 60 "$work/bank" 8 20 50 1 mutex > "$work/log" || live_wrong "embedding/bank.c: mutex"
  live_judged
}

# The part in Python.
live_python() {
  live_case
  if command -v python3 > "$work/log"; then
    live_shared
    timeout 60 python3 embedding/tests/package.py "$work/case" \
      || live_wrong "embedding/foresight.py"
  else
    not_run "embedding/foresight.py, since there is no python3"
  fi
}

# The parts in Python, Rust and Go.
live_others() {
  live_python
  if command -v rustc > "$work/log"; then
    rustc --edition 2024 -O embedding/server.rs -C link-arg="$library" -o "$work/server_rs"
    live_server embedding/server.rs stdin "$work/server_rs"
  else
    not_run "embedding/server.rs, since there is no rustc"
  fi
  if command -v go > "$work/log"; then
    (cd embedding/go && FORESIGHT_CASE=$work/case CGO_ENABLED=1 GOFLAGS=-mod=mod GOPROXY=off \
      GOCACHE=$work/go CGO_CFLAGS="-I$PWD/.." CGO_LDFLAGS=$library \
      timeout 110 go test -count=1 .) || live_wrong "embedding/go"
  else
    not_run "embedding/go, since there is no go"
  fi
}
