#!/usr/bin/env bash
# Builds the static library and, over it, embedding/check.c by `cc` and embedding/check.rs by
# `rustc`, as far as these are at hand, and has each answer to every file of examples/ and checks/
# that is for `check`, `show`, `ranges`, `audit`, `serve` or `dump`; the program runs with all words
# of the file, so with its callers and shards. Then
# sessions, tickets and servers in C and Rust, and the packages for Python and Go
# (embedding/live.sh). Ends with 1 where a text, a message or a status is another than the
# program's, or where nothing was compared. Needs the program as `rt ci` leaves it, or its path as a word; a second word
# is the path of a library that is built already. The gate does the same on some of the files
# (.ci/embedding), where each call is tested and its memory counted too.
set -euo pipefail
cd "$(dirname "$0")/.."
foresight=$(realpath "${1:-crates/foresight/out/foresight}")
library=${2:-}
work=$(mktemp -d)
trap 'rm -rf "$work"' EXIT
. embedding/programs.sh
. embedding/live.sh

if [ -z "$library" ]; then
  library=$work/library.a
  embedding/library.py "$library"
fi
library=$(realpath "$library")
make_look

programs=()
if command -v cc > "$work/log"; then
  compile c embedding/check.c
  programs+=("$work/c")
fi
if command -v rustc > "$work/log"; then
  rustc --edition 2024 -O embedding/check.rs -C link-arg="$library" -o "$work/rust"
  programs+=("$work/rust")
fi

while read -r command file; do
  compare "$command" "$file" "${programs[@]}"
done < <(cases)
live=0
live_wrong() { echo "embedding: NOT AS IT SHOULD BE: $*"; live=1; }
not_run() { echo "embedding: NOT RUN: $*"; }
if command -v cc > "$work/log"; then
  live_c
  live_others
fi
echo "${#programs[@]} programs, $compared answers, $differ differences"
[ "$compared" -gt 0 ] && [ "$differ" -eq 0 ] && [ "$live" -eq 0 ]
