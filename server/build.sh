#!/usr/bin/env bash
# Builds the server over the library: server/build.sh [LIBRARY [OUT]], at the top of the repository.
# Without words it takes target/look/libforesight.a, which tools/look.sh library leaves, and makes
# target/look/foresight-server. LIBRARY may be words of a linker. It needs libsqlite3-dev and
# libuv1-dev.
set -euo pipefail
cd "$(dirname "$0")/.."
read -ra library <<< "${1:-target/look/libforesight.a}"
out=${2:-target/look/foresight-server}
cc -std=gnu11 -O2 -g -Wall -Wextra -Werror -Iembedding -pthread server/src/*.c "${library[@]}" \
  -lsqlite3 -luv -o "$out"
