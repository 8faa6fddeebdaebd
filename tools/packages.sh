#!/usr/bin/env bash
# Makes Debian packages of what tools/install.sh installs: tools/packages.sh OUT [LIBRARY [PROGRAM]]:
# `foresight`, the programs; `libforesight2`, the shared object; `libforesight-dev`, archive and
# headers; `python3-foresight`, the package for Python; and `foresight-server`, the server with a unit
# of systemd, if libsqlite3-dev and libuv1-dev are there. Then all are unpacked again, a program in C
# is built over them as foresight.pc says, and run. Needs dpkg-deb and cc.
# tools/packages_tried.sh installs them in a fresh root.
set -euo pipefail
cd "$(dirname "$0")/.."
[ $# -ge 1 ] || { echo "words: OUT [LIBRARY [PROGRAM]]" >&2; exit 2; }
for tool in dpkg-deb cc strip; do
  command -v $tool > /dev/null || { echo "packages: NOT RUN, since there is no $tool"; exit 0; }
done
mkdir -p "$1"
out=$(realpath "$1")
shift
work=$(mktemp -d)
trap 'rm -rf "$work"' EXIT
. embedding/programs.sh
arch=$(dpkg --print-architecture)
triple=$(cc -dumpmachine)
libraries=lib/$triple
all=$work/all/usr
LIBRARIES=$libraries PC_PREFIX=/usr tools/install.sh "$all" "$@"
version=$(library_version)
major=${version%%.*}
maintainer=$(git log -1 --format='%an <%ae>')
built=$(date -R -d "$(git log -1 --format=%cI)")

# The files that a package has beside its own: what it was built with, its changes, whose it is, and
# the sums of all.
finish() {
  local name=$1 docs=$work/$1/usr/share/doc/$1
  mkdir -p "$docs"
  cp "$all/share/doc/foresight/BUILT" "$docs/"
  printf 'foresight (%s) unstable; urgency=medium\n\n  * See CHANGELOG.md of the source.\n\n -- %s  %s\n' \
    "$version" "$maintainer" "$built" | gzip -9n > "$docs/changelog.gz"
  printf 'No licence is given: see README.md of the source.\n' > "$docs/copyright"
  find "$work/$name/usr" -type f -path '*/man/*' -exec gzip -9nf {} +
  find "$work/$name" -type d -exec chmod 755 {} +
  (cd "$work/$name" && find . -type f ! -path './DEBIAN/*' -printf '%P\0' | sort -z \
    | xargs -0 md5sum > DEBIAN/md5sums)
}

# A package: its name, section, what it depends on and its first line, and after these what of /usr is
# in it.
package() {
  local name=$1 section=$2 depends=$3 line=$4 part
  shift 4
  mkdir -p "$work/$name/DEBIAN"
  for part; do
    mkdir -p "$work/$name/usr/$(dirname "$part")"
    cp -a "$all/$part" "$work/$name/usr/$(dirname "$part")/"
  done
  find "$work/$name" -type f \( -path '*/bin/*' -o -name '*.so.*' \) -exec strip {} +
  {
    printf 'Package: %s\nVersion: %s\nArchitecture: %s\nSection: %s\nPriority: optional\n' \
      "$name" "$version" "$arch" "$section"
    printf 'Maintainer: %s\nDepends: %s\n' "$maintainer" "$depends"
    printf 'Description: %s\n Handlers over session tables, with the replies of one request at a time.\n' \
      "$line"
    printf ' Built with the proved library and programs, or as BUILT in its documents says.\n'
  } > "$work/$name/DEBIAN/control"
  if [ -e "$work/hooks-$name" ]; then cp "$work/hooks-$name"/* "$work/$name/DEBIAN/"; fi
  finish "$name"
  dpkg-deb --root-owner-group --build "$work/$name" "$out" > "$work/log"
}

mkdir -p "$work/hooks-libforesight$major"
echo "libforesight $major libforesight$major (>= $major.0)" > "$work/hooks-libforesight$major/shlibs"
echo "activate-noawait ldconfig" > "$work/hooks-libforesight$major/triggers"
package foresight utils libc6 "serves files of requests over session tables" bin share/man
package "libforesight$major" libs libc6 "session tables, the shared object" \
  "$libraries/libforesight.so.$version" "$libraries/libforesight.so.$major"
package libforesight-dev libdevel "libforesight$major (= $version)" \
  "session tables, for programs in C" \
  include "$libraries/libforesight.a" "$libraries/libforesight.so" "$libraries/pkgconfig"

mkdir -p "$all/lib/python3/dist-packages"
install -m 644 embedding/foresight.py "$all/lib/python3/dist-packages/"
package python3-foresight python "python3, libforesight$major (>= $major.0)" \
  "session tables, for Python" lib/python3/dist-packages

# The server, over the shared object.
names=(foresight "libforesight$major" libforesight-dev python3-foresight)
if printf '#include <sqlite3.h>\n#include <uv.h>\n' | cc -fsyntax-only -x c - 2> "$work/log"; then
  names+=(foresight-server)
  mkdir -p "$all/sbin" "$all/lib/systemd/system" "$work/foresight-server/etc"/{default,foresight}
  server/build.sh "-L$all/$libraries -l:libforesight.so.$major" "$all/bin/foresight-server"
  install -m 644 server/service/foresight-server.service "$all/lib/systemd/system/"
  install -m 644 server/service/foresight-server.default \
    "$work/foresight-server/etc/default/foresight-server"
  install -m 644 examples/seats.handlers "$work/foresight-server/etc/foresight/handlers"
  mkdir -p "$work/hooks-foresight-server"
  printf '/etc/default/foresight-server\n/etc/foresight/handlers\n' \
    > "$work/hooks-foresight-server/conffiles"
  install -m 755 server/service/postinst "$work/hooks-foresight-server/"
  package foresight-server net \
    "adduser, libc6, libforesight$major (>= $major.0), libsqlite3-0, libuv1" \
    "session tables, a durable server" bin/foresight-server lib/systemd
else
  echo "packages: foresight-server NOT MADE, since there is no sqlite3.h or uv.h"
fi

# As a user has them.
mkdir "$work/root"
for name in "${names[@]}"; do
  dpkg-deb -x "$out/${name}_${version}_$arch.deb" "$work/root"
  grep -qF "$(rt version | head -n 1)" "$work/root/usr/share/doc/$name/BUILT"
done
pc=$work/root/usr/$libraries/pkgconfig/foresight.pc
if command -v pkg-config > "$work/log"; then
  export PKG_CONFIG_PATH= PKG_CONFIG_SYSROOT_DIR=$work/root PKG_CONFIG_LIBDIR=${pc%/*}
  read -ra words < <(pkg-config --cflags --libs foresight)
else
  words=("-I$work/root/usr/include" "-L$work/root/usr/$libraries" -lforesight)
  echo "packages: pkg-config NOT RUN, since there is none: its words are written by hand"
fi
export LD_LIBRARY_PATH=$work/root/usr/$libraries
for how in "" -static; do
  cc -std=c99 embedding/check.c $how "${words[@]}" -o "$work/check"
  "$work/check" < examples/login.handlers | cmp - <("$work/root/usr/bin/foresight" check \
    < examples/login.handlers)
done
PYTHONPATH=$work/root/usr/lib/python3/dist-packages PYTHONDONTWRITEBYTECODE=1 python3 -c '
import foresight
s = foresight.Session("map m; handler f(k) { let a = get(m, k); put(m, k, 1); reply a; }\n%%\n")
assert s.serve(["f a", "f a"]) == ["nil", "1"]'
echo "packages: $(cd "$out" && ls -- *.deb | tr '\n' ' ')of foresight $version, unpacked and tried"
