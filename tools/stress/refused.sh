#!/usr/bin/env bash
# Refuses the program one thing a run, each in turn: every request for memory, every read, every write,
# by a small library that is loaded before the C library (needs `cc`). Wanted: if memory is refused,
# status 3 and nothing written, or status 0 and the whole text; if a read fails, status 4 and nothing
# written; if a write fails, status 5 and the text up to that write. With reads and writes of one byte,
# the whole text. A run that hasn't ended after a minute is killed and counts as wrong. Of several
# clients the tickets may differ. Prints the counts by case; ends with 1 if any run ends otherwise.
. "$(dirname "$0")/../program.sh"

cat > "$work/refuse.c" <<'C'
#define _GNU_SOURCE
#include <dlfcn.h>
#include <errno.h>
#include <stdlib.h>
#include <string.h>
#include <unistd.h>
/* Whether this call, the number-th of its sort, is the one that REFUSE names, as in "malloc 3". */
static int refused(const char *sort, long *count) {
    const char *refuse = getenv("REFUSE");
    long number = __atomic_add_fetch(count, 1, __ATOMIC_SEQ_CST);
    size_t length = strlen(sort);
    return refuse && !strncmp(refuse, sort, length) && refuse[length] == ' ' && atol(refuse + length) == number;
}
static long memory, reads, writes;
void *malloc(size_t n) {
    static void *(*real)(size_t);
    if (!real) real = dlsym(RTLD_NEXT, "malloc");
    return refused("memory", &memory) ? NULL : real(n);
}
void *realloc(void *p, size_t n) {
    static void *(*real)(void *, size_t);
    if (!real) real = dlsym(RTLD_NEXT, "realloc");
    return refused("memory", &memory) ? NULL : real(p, n);
}
ssize_t read(int f, void *p, size_t n) {
    static ssize_t (*real)(int, void *, size_t);
    if (!real) real = dlsym(RTLD_NEXT, "read");
    if (refused("read", &reads)) { errno = EIO; return -1; }
    return real(f, p, getenv("SHORT") && n > 1 ? 1 : n);
}
ssize_t write(int f, const void *p, size_t n) {
    static ssize_t (*real)(int, const void *, size_t);
    if (!real) real = dlsym(RTLD_NEXT, "write");
    if (f == 1 && refused("write", &writes)) { errno = EIO; return -1; }
    return real(f, p, getenv("SHORT") && n > 1 ? 1 : n);
}
C
cc -O1 -shared -fPIC -o "$work/refuse.so" "$work/refuse.c" -ldl

python3 - "$program" "$work/refuse.so" "$work" <<'P'
import os, subprocess, sys

program, library, work = sys.argv[1:]
failed = False
CLIENTS = "map m%s;\nhandler w(k) { let a = get(m, k); put(m, k, 7); reply a; }\n"


def clients(name, count, each, tables=""):
    """A session of so many clients with so many requests each, on keys of their own."""
    parts = ["".join(f"w k{c}_{i % 50}\n" for i in range(each)) for c in range(count)]
    path = os.path.join(work, name)
    with open(path, "w") as made:
        made.write(CLIENTS % "" + tables + "%%\n" + "%% next\n".join(parts))
    return path


CASES = [("serve", "examples/many.session"), ("serve --callers 4 --shards 8", "examples/many.session"),
         ("dump", "examples/evening.session"), ("trace --callers 1", "examples/many.session"),
         ("audit", "examples/audited.trace"), ("check", "examples/login.handlers"), ("show", "examples/login.handlers"),
         ("ranges", "examples/spans.ranges"), ("work 300 7", os.devnull),
         ("clients", clients("one", 1, 100)), ("clients", clients("three", 3, 60)),
         ("clients --callers 2", clients("rounds", 3, 200)), ("clients --shards 8", clients("sixteen", 16, 40)),
         ("clients", clients("opened", 3, 60, "%% tables\n" + "".join(f"m k0_{i} {i}\n" for i in range(50))))]


def run(words, path, **said):
    """The status, or none after a minute, and what was written."""
    with open(path, "rb") as given:
        try:
            ran = subprocess.run([program] + words.split(), stdin=given, capture_output=True, timeout=60,
                                 env=dict(os.environ, LD_PRELOAD=library, **said))
        except subprocess.TimeoutExpired:
            return None, b""
    return ran.returncode, known(words, ran.stdout)


def known(words, text):
    """What the input alone determines: of `clients` each line without its ticket, and no part of a line."""
    if not words.startswith("clients"):
        return text
    lines = [line.split(b" ") for line in text.split(b"\n")[:-1]]
    return b"".join(b" ".join(line[:1] + line[2:]) + b"\n" for line in lines)


def fine(sort, status, text, whole):
    if sort == "memory":
        return status == 3 and not text
    if sort == "read":
        return status == 4 and not text
    return status == 5 and whole.startswith(text) and len(text) <= len(whole)


for words, path in CASES:
    whole = run(words, path)[1]
    told = []
    for sort, short in [("memory", False), ("read", False), ("write", False), ("read", True), ("write", True)]:
        refused, others, number = 0, 0, 0
        # Up to the first number that no call of this sort has: the run is then as if none were refused.
        while True:
            number += 1
            status, text = run(words, path, REFUSE=f"{sort} {number}", **({"SHORT": "1"} if short else {}))
            if (status, text) == (0, whole):
                if sort != "memory" or number > refused + 40:
                    break
                continue
            refused += 1
            others += not fine(sort, status, text, whole)
        told.append(f"{sort}{' of one byte' if short else ''} {refused}" + (f" ({others} NOT AS IT SHOULD BE)" if others else ""))
        failed |= others > 0
    print(f"{words} < {os.path.basename(path)}: {', '.join(told)}", flush=True)
sys.exit(failed)
P
