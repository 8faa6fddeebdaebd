# Sourced by scripts of bench/, tools/stress/ and oracle/: goes to the top of the repository, and sets
# `program`, the program as `rt ci` leaves it, or another one, an unproved build say, that PROGRAM
# names, and `work`, a folder of the script's own that is gone at its end.
set -euo pipefail
cd "$(dirname "${BASH_SOURCE[0]}")/.."
program=$(realpath "${PROGRAM:-crates/foresight/out/foresight}")
work=$(mktemp -d)
trap 'rm -rf "$work"' EXIT
