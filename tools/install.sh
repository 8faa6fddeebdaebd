#!/usr/bin/env bash
# Installs the programs and the library for C: tools/install.sh PREFIX [LIBRARY [PROGRAM]]. Without
# LIBRARY and PROGRAM they are those that `rt lib` and `rt ci` prove and leave. What tools/look.sh
# leaves, target/look/libforesight.a and target/look/foresight, is installed too if it is named:
# UNPROVED. LIBRARIES=lib/ARCH in the environment puts the libraries there, in place of lib.
#
# In PREFIX: bin/foresight, bin/foresight_where and bin/foresight_waits with their manual pages (the
# last two from beside PROGRAM, if they are there), lib/libforesight.a (the library and the kit's
# part for memory, in one archive) and the shared object of the same with its links,
# lib/pkgconfig/foresight.pc, the headers in include/, and in share/doc/foresight/ what they were
# built with.
set -euo pipefail
cd "$(dirname "$0")/.."
[ $# -ge 1 ] || { echo "words: PREFIX [LIBRARY [PROGRAM]]" >&2; exit 2; }
mkdir -p "$1"
prefix=$(realpath "$1")
library=$(realpath "${2:-crates/foresight_c/out/libforesight_c.a}")
program=$(realpath "${3:-crates/foresight/out/foresight}")
. embedding/programs.sh
libraries=${LIBRARIES:-lib}
version=$(library_version)
for file in "$library" "$program"; do
  [ -f "$file" ] || { echo "install: no $file: rt ci, and rt lib in crates/foresight_c" >&2; exit 1; }
done

install_programs() {
  local name beside
  install -m 755 "$program" "$prefix/bin/foresight"
  for name in foresight_where foresight_waits; do
    beside=crates/$name/out/$name
    if [ "$1" -ge 3 ]; then beside=$(dirname "$program")/$name; fi
    if [ -f "$beside" ]; then
      install -m 755 "$beside" "$prefix/bin/$name"
      install -m 644 "extras/man/$name.1" "$prefix/share/man/man1/"
    else
      echo "install: no $beside, so it is left out"
    fi
  done
  install -m 644 extras/man/foresight.1 "$prefix/share/man/man1/"
  install -m 644 extras/man/foresight.5 "$prefix/share/man/man5/"
}

install_library() {
  local to=$prefix/$libraries
  install -m 644 embedding/foresight*.h "$prefix/include/"
  whole_library "$library" "$to/libforesight.a"
  shared_library "$to/libforesight.a" "$to/libforesight.so.$version"
  chmod 644 "$to/libforesight.so.$version"
  ln -sf "libforesight.so.$version" "$to/$(shared_name)"
  ln -sf "$(shared_name)" "$to/libforesight.so"
  cat > "$to/pkgconfig/foresight.pc" <<PC
prefix=${PC_PREFIX:-$prefix}
includedir=\${prefix}/include
libdir=\${prefix}/$libraries

Name: foresight
Description: Session tables: sessions that live, driven tickets, and what the program answers
Version: $version
Cflags: -I\${includedir}
Libs: -L\${libdir} -lforesight
PC
}

install -d "$prefix"/{bin,include,share/man/man{1,5},share/doc/foresight} \
  "$prefix/$libraries/pkgconfig"
install_programs $#
install_library
{
  echo "foresight $version, built with:"
  rt version | head -n 1
  echo
  sha256sum "$library" "$program" | sed 's: .*/:  :'
} > "$prefix/share/doc/foresight/BUILT"
cp README.md CHANGELOG.md docs/LIBRARY.md embedding/CALLS.md "$prefix/share/doc/foresight/"
cp embedding/README.md "$prefix/share/doc/foresight/EMBEDDING.md"
