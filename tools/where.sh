#!/usr/bin/env bash
# Shows the place of a refusal: foresight refuses examples/refused.session, and foresight_where is
# given its line. Needs both programs as `rt ci` leaves them, or their paths as words.
set -euo pipefail
cd "$(dirname "$0")/.."
foresight=$(realpath "${1:-crates/foresight/out/foresight}")
where=$(realpath "${2:-crates/foresight_where/out/foresight_where}")
cd examples
mapfile -t words < refused.session.args
{ "$foresight" "${words[@]}" < refused.session 2>&1 || true; } | "$where" refused.session
