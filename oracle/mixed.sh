#!/usr/bin/env bash
# Judges tickets and requests over one session: oracle/mixed.sh LIBRARY [RUNS]. 100,000 drives of two
# to eight tickets by chance (or RUNS), each call of which a model judges that knows what an operation
# does to a table, and the rule (mixed.py). LIBRARY is the archive that `rt lib` or
# embedding/library.py leaves.
set -euo pipefail
[ $# -ge 1 ] || { echo "words: LIBRARY [RUNS]" >&2; exit 2; }
library=$(realpath "$1") runs=${2:-100000}
cd "$(dirname "$0")/.."
work=$(mktemp -d)
trap 'rm -rf "$work"' EXIT
cc -shared -o "$work/libforesight.so" -Wl,--whole-archive "$library" \
  -Wl,--no-whole-archive "$(dirname "$(rt doc)")/c/liblibc_c.a"
export FORESIGHT_LIBRARY=$work/libforesight.so PYTHONDONTWRITEBYTECODE=1
python3 oracle/mixed.py --runs "$runs"
