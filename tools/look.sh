#!/usr/bin/env bash
# Builds without proof, for a first look, into target/look/:
#   tools/look.sh           the programs foresight, foresight_where and foresight_waits
#   tools/look.sh library   the library for C, Rust, Go and Python: libforesight.a, with the kit's part
#                           for memory in it, and libforesight.so
#   tools/look.sh NAME..    these programs of crates/, or `library`
#
# README.md, docs/TOUR.md and embedding/README.md name them there. They do what the proved ones do,
# which come by .ci/run and, the library, by `rt lib` in crates/foresight_c; the programs are a little
# slower. `rt try` builds a program, runs it once and throws it away. So it is run here with a compiler
# that optimizes and doesn't check memory, and a linker that leaves out what checks memory (the kit's
# one archive that is linked whole), and keeps what it links. For the library
# a program is made of foresight_c, in a copy of the tree, whose `main` calls each function that C
# calls. The compiler makes these functions external, and keeps the object, which isn't linked.
set -euo pipefail
cd "$(dirname "$0")/.."
work=$(mktemp -d)
trap 'rm -rf "$work"' EXIT
. embedding/programs.sh
mkdir -p target/look

# A kit of links in a folder, but for `rt`, which finds its kit beside itself, for the compiler and the
# linker, and for `rattle`, which would look at the sources once more.
make_kit() {
  local own=$1
  mkdir -p "$own/bin" "$own/toolchain/bin"
  ln -s "$kit"/[!bt]* "$own/"
  ln -s "$kit"/bin/rattle-* "$own/bin/"
  cp "$kit"/bin/rt* "$own/bin/"
  ln -s "$kit/toolchain/lib" "$own/toolchain/"
  ln -s "$kit"/toolchain/bin/{llvm,rattle}-* "$own/toolchain/bin/"
  printf '#!/bin/sh\nexit 1\n' > "$own/bin/rattle"
  cat > "$own/toolchain/bin/ld.lld" <<LINKER
#!/usr/bin/env bash
words=()
whole=0
for word; do
  case \$word in
    --whole-archive) whole=1 ;;
    --no-whole-archive) whole=0 ;;
    *) [ "\$whole" = 1 ] || words+=("\$word") ;;
  esac
done
"$kit/toolchain/bin/ld.lld" "\${words[@]}" && cp program "$own/kept"
LINKER
  cat > "$own/toolchain/bin/clang"
  chmod +x "$own/bin/rattle" "$own"/toolchain/bin/{clang,ld.lld}
}

# Builds what `rt try` runs in a folder, without words and on an empty input; keeps `kept`.
try_in() {
  local own=$1 folder=$2
  (cd "$folder" && "$own/bin/rt" try < /dev/null) > "$own/log" 2>&1 || true
  [ -f "$own/kept" ] || { cat "$own/log"; return 1; }
}

build_program() {
  local name=$1 own=$work/$1
  make_kit "$own" <<COMPILER
#!/usr/bin/env bash
words=()
for word; do
  case \$word in -fsanitize=address) ;; -O0) words+=(-O1) ;; *) words+=("\$word") ;; esac
done
exec "$kit/toolchain/bin/clang" "\${words[@]}"
COMPILER
  try_in "$own" "crates/$name"
  mv "$own/kept" "target/look/$name"
}

# The text of a program of the library's crate, in its folder: its `main` calls each function that C
# calls, with zeros and empty handles.
main_of_library() {
  local file
  cat src/lib.rt
  cat <<'MAIN'
use crate::handle::Handle;
use crate::values::{COperation, CValue};
use std::process::ExitCode;

fn a_value() -> CValue {
    CValue { sort: 0, name: 0, number: 0 }
}

fn an_operation() -> COperation {
    COperation { kind: 0, table: 0, key: a_value(), value: a_value() }
}

fn an_answer() -> Answer {
    Answer { written: 0, needed: 0, told: 0 }
}

fn a_served() -> Served {
    Served { used: 0, written: 0, requests: 0, told: 0, older: 0 }
}

fn some_counts() -> Counts {
    Counts { names: 0, most_names: 0, tables: 0, begun: 0, open: 0, oldest: 0, generation: 0 }
}

fn main(rt: HostRuntime) -> ExitCode {
MAIN
  # The parameters of a function's head become values of their types.
  for file in src/*.rt; do
    tr '\n' ' ' < "$file" | { grep -oE 'extern "C" fn \w+\([^)]*\)' || true; } | sed -E "
      s/.* fn /let _ = crate::$(basename "$file" .rt)::/; s/\w+: //g; s/\$/;/; s/Global/rt.alloc()/
      s/\bu(8|32|64|size)\b/0/g; s/CValue/a_value()/g; s/COperation/an_operation()/
      s/Answer/an_answer()/; s/Served/a_served()/; s/Counts/some_counts()/; s/Handle/&::none()/"
  done
  echo 'ExitCode::from(0) }'
}

build_library() {
  local own=$work/library name=foresight_c
  make_kit "$own" <<COMPILER
#!/usr/bin/env bash
clang=$kit/toolchain/bin/clang
"\$clang" --target=x86_64-unknown-linux-gnu -Xclang -disable-llvm-passes -S -emit-llvm \\
  -x ir module.bc -o module.ll
# A small module comes first, which is not the library's.
grep -q '^define .*::foresight_version"' module.ll || exec "\$clang" "\$@"
sed -E 's/@"$name::\w+::(foresight_\w+)"/@\1/g; s/^define internal (.* @foresight_\w+\()/define \1/
  s/^define noundef i8 @foresight_/define noundef zeroext i8 @foresight_/
  s/^define i32 @main\(/define internal i32 @main(/' module.ll > library.ll
words=()
for word; do
  case \$word in
    -fsanitize=address) ;;
    -O0) words+=(-O2) ;;
    -fPIE) words+=(-fPIC) ;;
    module.bc) words+=(library.ll) ;;
    module.o) words+=("$own/kept") ;;
    *) words+=("\$word") ;;
  esac
done
"\$clang" "\${words[@]}"
# So nothing is linked or run.
exit 1
COMPILER
  mkdir "$own/tree"
  tar -cf - --exclude='crates/*/out' --exclude='crates/*/proofs' HANDLES crates crates.txt \
    | tar -C "$own/tree" -xf -
  sed -i "s/^$name staticlib:/$name:/" "$own/tree/crates.txt"
  (cd "$own/tree/crates/$name" && main_of_library > main.rt && rm src/lib.rt && mv main.rt src/)
  try_in "$own" "$own/tree/crates/$name"
  mv "$own/kept" "$own/foresight.o"
  symbol_faults "$own/foresight.o"
  "$kit/toolchain/bin/llvm-ar" rcs "$own/object.a" "$own/foresight.o"
  whole_library "$own/object.a" target/look/libforesight.a
  shared_library target/look/libforesight.a target/look/libforesight.so
}

[ $# -gt 0 ] || set -- foresight foresight_where foresight_waits
echo "building $* without proof (one to three minutes)"
builders=()
for name; do
  if [ "$name" = library ]; then build_library & else build_program "$name" & fi
  builders+=($!)
done
for builder in "${builders[@]}"; do wait "$builder"; done
for name; do
  case $name in
    library) echo "target/look/libforesight.a and libforesight.so are there. They are UNPROVED." ;;
    *) echo "target/look/$name is there. It is UNPROVED." ;;
  esac
done
