# Sourced by the scripts that time the program: how they measure. tools/program.sh says which program.
. "$(dirname "${BASH_SOURCE[0]}")/../tools/program.sh"

# Microseconds of one run of a command, whose output goes into the folder.
once() { local from to; from=$(date +%s%N); "$@" > "$work/out"; to=$(date +%s%N); echo $(((to - from) / 1000)); }

# The least of ten runs.
least() { local best=999999999 t; for _ in 1 2 3 4 5 6 7 8 9 10; do t=$(once "$@"); [ "$t" -lt "$best" ] && best=$t; done; echo "$best"; }

# Two times and their ratio.
compare() { echo "$1 $2 us, $3 $4 us (least of ten), ratio $(awk "BEGIN { printf \"%.1f\", $2 / $4 }")"; }

# The peak memory of the program with one word, on a file.
peak() {
  python3 - "$1" "$2" "$3" <<'P'
import resource, subprocess, sys
with open(sys.argv[3], "rb") as given:
    subprocess.run([sys.argv[1], sys.argv[2]], stdin=given, stdout=subprocess.DEVNULL, check=True)
print("peak memory", resource.getrusage(resource.RUSAGE_CHILDREN).ru_maxrss, "KiB")
P
}
