#!/usr/bin/env bash
# Judges sessions that live, of the library for C: oracle/sessions.sh LIBRARY [FOLDER [RUNS]]. The
# session files of FOLDER, some of eight kinds, and 1,000 made ones (or RUNS), by what the program
# writes of one file with all their lines (sessions.py). LIBRARY is the archive that `rt lib` or
# `embedding/library.py` leaves; the program is that of the gate, or the one that PROGRAM names.
[ $# -ge 1 ] || { echo "words: LIBRARY [FOLDER [RUNS]]" >&2; exit 2; }
library=$(realpath "$1") folder=${2:+$(realpath "$2")} runs=${3:-1000}
. "$(dirname "$0")/../tools/program.sh"
cc -shared -o "$work/libforesight.so" -Wl,--whole-archive "$library" \
  -Wl,--no-whole-archive "$(dirname "$(rt doc)")/c/liblibc_c.a"
export FORESIGHT_LIBRARY=$work/libforesight.so PYTHONDONTWRITEBYTECODE=1
python3 oracle/sessions.py "$program" ${folder:+"$folder"} --runs "$runs"
