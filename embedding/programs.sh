# Sourced by .ci/embedding and oracle/embedding.sh, at the top of the repository: builds programs
# over the static library, and compares what they answer with the program `foresight`. The scripts
# set `work`, a folder of their own, `foresight`, the program, and `library`, the library's file.
. checks/cases.sh
kit=$(dirname "$(rt doc)")
compared=0
differ=0
# The memory of a program that is compiled with these words is counted, with the library's in it.
heap=(embedding/tests/heap.c -Wl,--wrap=malloc,--wrap=calloc,--wrap=realloc,--wrap=free)

# The symbols of an archive or an object, by words for nm.
symbols() {
  (exec -a llvm-nm "$kit/toolchain/bin/clang" --format=just-symbols "$@") | sort -u
}

# What the headers declare.
declared() {
  grep -oh '^uint[0-9]*_t foresight_[a-z_]*' embedding/foresight{,_tickets,_session}.h \
    | cut -d ' ' -f 2 | sort -u
}

# Whether an archive has the kit's part for memory in it: `rt lib` makes one without, tools/look.sh and
# tools/install.sh one with it.
has_memory() { symbols --defined-only "$1" | grep -x rattle_alloc > /dev/null; }

# Says what is wrong with the symbols of an archive or an object of the library, and then ends with 1:
# it defines what the headers declare. Of the system it needs what copies and compares bytes, and
# memory, by the kit's part for it.
symbol_faults() {
  local defined others may_call='|.*:|rattle_(alloc|realloc|dealloc)|mem(cpy|move|set|cmp)|bcmp'
  if has_memory "$1"; then may_call+='|malloc|realloc|free'; fi
  defined=$(symbols --defined-only --extern-only "$1" | grep '^foresight_[a-z_]*$') || true
  if [ "$defined" != "$(declared)" ]; then
    echo "the library doesn't define what headers declare:"
    diff <(echo "$defined") <(declared) || true
    return 1
  fi
  others=$(symbols --undefined-only "$1" | grep -vxE "$may_call") || true
  if [ -n "$others" ]; then
    echo "the library calls $others"
    return 1
  fi
}

# Makes of an archive of the library one that has the kit's part for memory too: a file, and where to.
whole_library() {
  if has_memory "$1"; then
    cp "$1" "$2"
  else
    rm -f "$2"
    "$kit/toolchain/bin/llvm-ar" -M <<ARCHIVE
create $2
addlib $1
addlib $kit/c/liblibc_c.a
save
end
ARCHIVE
  fi
}

# The version of the library, as the headers have it.
library_version() {
  sed -n 's/^#define FORESIGHT_VERSION "\(.*\)"/\1/p' embedding/foresight_tickets.h
}

# The name under which programs ask for the shared object: it changes with the first number alone.
shared_name() { echo "libforesight.so.$(library_version | cut -d . -f 1)"; }

# Makes of an archive with both parts a shared object, for languages that load one.
shared_library() {
  "$kit/toolchain/bin/ld.lld" -m elf_x86_64 -shared -z relro -z now -z noexecstack \
    -soname "$(shared_name)" -o "$2" \
    --whole-archive "$1" --no-whole-archive "$kit/toolchain/lib/libc.so.6"
}

# Makes `work`/look of the library: libforesight.a, which is the library from then on, and
# libforesight.so; and of the programs, which are beside `foresight` or where `rt ci` leaves them.
make_look() {
  local name program
  mkdir -p "$work/look"
  whole_library "$library" "$work/look/libforesight.a"
  library=$work/look/libforesight.a
  shared_library "$library" "$work/look/libforesight.so"
  ln -sf "$foresight" "$work/look/foresight"
  for name in foresight_where foresight_waits; do
    for program in "$PWD/crates/$name/out/$name" "$(dirname "$foresight")/$name"; do
      if [ -x "$program" ]; then ln -sf "$program" "$work/look/$name"; fi
    done
  done
}

# Compiles a program in C over the library: its file in `work`, and what is compiled.
compile() {
  local to=$1
  shift
  cc -std=c99 -O2 -Wall -Wextra -Werror "$@" "$library" "$kit/c/liblibc_c.a" -o "$work/$to"
}

# Runs a program with words on a file; what it wrote and its status stand under a name.
answer() {
  local name=$1 file=$2 status=0
  shift 2
  timeout 60 "$@" < "$file" > "$work/$name.out" 2> "$work/$name.err" || status=$?
  echo "$status" > "$work/$name.status"
}

# The stored cases of the six commands, each with its command before it.
cases() {
  local folder file words
  for folder in $(case_folders); do
    for file in $(cases_of "$folder"); do
      if [ ! -f "$file" ]; then continue; fi
      mapfile -t words < "$(words_of "$file")"
      case "${words[0]-}" in
        check | show | ranges | audit | serve | dump) echo "${words[0]} $file" ;;
      esac
    done
  done
}

# Compares what these programs answer to a case with what `foresight` does with all of its words.
compare() {
  local command=$1 file=$2 words program part
  shift 2
  mapfile -t words < "$(words_of "$file")"
  answer wanted "$file" "$foresight" "${words[@]}"
  # The library has no words that it could refuse.
  if [ "$(cat "$work/wanted.status")" = 2 ]; then return; fi
  for program; do
    answer given "$file" "$program" "$command"
    compared=$((compared + 1))
    for part in out err status; do
      if ! cmp -s "$work/wanted.$part" "$work/given.$part"; then
        echo "$file: $(basename "$program"): another $part"
        differ=$((differ + 1))
      fi
    done
  done
}
