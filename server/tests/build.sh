#!/usr/bin/env bash
# Builds a server over the lossy disk of cut.c, at the top of the repository:
# server/tests/build.sh LIBRARY OUT [EDIT]. EDIT is one of server/tests/planted.
set -euo pipefail
cd "$(dirname "$0")/../.."
work=$(mktemp -d)
trap 'rm -rf "$work"' EXIT
if [ $# = 3 ]; then python3 server/tests/plant.py "$3" "$work"; else cp server/src/* "$work"; fi
cc -std=gnu11 -O1 -Wall -Wextra -Iembedding -pthread "$work"/*.c server/tests/cut.c \
  -Wl,--wrap=write,--wrap=fsync,--wrap=rename,--wrap=unlink "$1" -lsqlite3 -luv -o "$2"
