#!/usr/bin/env bash
# Plants wrong bodies, all of checks/planted/ or the NAMEs given, and tells whether the tests refuse
# them. They are about when: whether callers run beside each other, whether the book is handed over,
# whether lines and delays come in time. Clauses say little of that, so the prover accepts nearly all of
# these bodies, and tests alone stand against them. Each is put by itself into a scratch clone of the
# last commit, where `rt try` builds the tests of crates/tests_runs without proof, once. They are run
# RUNS times (10), each test in a process and an empty folder of its own, for 60 seconds at most.
# Without a NAME the tests are also run as they are, and have to pass.
#
#     tools/stress/planted.sh
#     RUNS=3 tools/stress/planted.sh meanwhile_never two_threads_at_most
#
# A line for each body, in how many runs it was refused, and one for each test that refused it. Ends
# with 1 if a body passes in a run. Some three to six minutes a body; needs `rt`.
set -euo pipefail
cd "$(dirname "$0")/../.."
root=$PWD
runs=${RUNS:-10}
kit=$(dirname "$(rt doc)")
work=$(mktemp -d)
trap 'rm -rf "$work"' EXIT
names=("$@")
[ $# -gt 0 ] || mapfile -t names < <(ls checks/planted | sed -n 's/\.patch$//p')
for name in "${names[@]}"; do
  [ -f "checks/planted/$name.patch" ] || { echo "there is no checks/planted/$name.patch" >&2; exit 1; }
done

# A kit of links, but for `rt`, which finds its kit beside itself, for `rattle`, which would look at the
# sources once more, and for the linker, which keeps what it links and then fails, so that `rt try`
# doesn't run it.
own=$work/kit
mkdir -p "$own/bin" "$own/toolchain/bin"
ln -s "$kit"/[!bt]* "$own/"
ln -s "$kit"/bin/rattle-* "$own/bin/"
cp "$kit"/bin/rt* "$own/bin/"
ln -s "$kit/toolchain/lib" "$own/toolchain/"
ln -s "$kit"/toolchain/bin/{clang,llvm-ar,rattle-x64} "$own/toolchain/bin/"
printf '#!/bin/sh\nexit 1\n' > "$own/bin/rattle"
cat > "$own/toolchain/bin/ld.lld" <<LINKER
#!/usr/bin/env bash
"$kit/toolchain/bin/ld.lld" "\$@" && cp program "$work/tests"
exit 1
LINKER
chmod +x "$own/bin/rattle" "$own/toolchain/bin/ld.lld"

# Builds the tests of the clone as it stands.
build_tests() {
  rm -f "$work/tests"
  (cd "$work/clone/crates/tests_runs" && "$own/bin/rt" try --test < /dev/null) > "$work/log" 2>&1 || true
  [ -f "$work/tests" ] || { cat "$work/log"; echo "$1: the tests aren't built" >&2; exit 1; }
}

# Runs all tests once; writes the names of those that fail.
run_tests() {
  local test empty
  for test in $("$work/tests" --list | sed -n 's/: test$//p'); do
    empty=$(mktemp -d -p "$work")
    (cd "$empty" && timeout 60 "$work/tests" "$test") > /dev/null 2>&1 || echo "$test"
    rm -rf "$empty"
  done
}

# Builds and runs; leaves the number of runs in which a test failed in `refused`.
try_body() {
  local run
  build_tests "$1"
  refused=0
  : > "$work/failed"
  for ((run = 0; run < runs; run++)); do
    run_tests > "$work/now"
    [ ! -s "$work/now" ] || refused=$((refused + 1))
    cat "$work/now" >> "$work/failed"
  done
}

git clone -q "$root" "$work/clone"
status=0
if [ $# = 0 ]; then
  try_body "as it is"
  echo "as it is: a test failed in $refused of $runs runs"
  sort "$work/failed" | uniq -c
  [ "$refused" = 0 ] || status=1
fi
for name in "${names[@]}"; do
  git -C "$work/clone" apply -p1 "$root/checks/planted/$name.patch"
  try_body "$name"
  git -C "$work/clone" checkout -q .
  echo "$name: refused in $refused of $runs runs"
  sort "$work/failed" | uniq -c
  [ "$refused" = "$runs" ] || status=1
done
exit $status
