#!/usr/bin/env bash
# Runs inputs at each limit of docs/LANGUAGE.md and one past it: at the limit the program ends with
# status 0, past it with the status and the line of that limit. Prints a line for each: the limit, the
# command, seconds and peak memory (by GNU time) of the input at the limit, and how the one past it
# ends. Ends with 1 where any of them ends otherwise.
. "$(dirname "$0")/../program.sh"

python3 - "$program" <<'P'
import re, subprocess, sys, tempfile, time

program, failed = sys.argv[1], False


def run(words, text):
    with tempfile.TemporaryFile() as given:
        given.write(text.encode())
        given.seek(0)
        begin = time.time()
        ran = subprocess.run(["/usr/bin/time", "-qf", "%M", program] + words, stdin=given, capture_output=True)
        seconds = time.time() - begin
    *said, peak = ran.stderr.decode().splitlines()
    return ran.returncode, "".join(said), seconds, int(peak)


def limit(name, words, most, status, line):
    """Runs the words and texts of the limit and of one past it, which are made of False and True."""
    global failed
    at, said, seconds, peak = run(words(False).split(), most(False))
    past, told, _, _ = run(words(True).split(), most(True))
    fine = (at, said, past) == (0, "", status) and re.fullmatch(line, told)
    failed |= not fine
    print(f"{name:34}{words(False):32}{seconds:7.2f} s{peak:9} KiB  past it: {told[:34]}"
          + ("" if fine else f"  NOT AS IT SHOULD BE: {at} {said}"))


def many(form, count, between="\n"):
    return between.join(form % i for i in range(count)) + "\n"


def served(handlers, form, count):
    return handlers + "\n%%\n" + many(form, count)


check, serve = lambda p: "check", lambda p: "serve --callers 4 --shards 4"
AT = r"refused %s at \d+"
limit("bytes: 4,194,304", check, lambda p: "#" * (4194304 + p), 1, "refused T1")
limit("tables: 7", check, lambda p: many("map m%d;", 7 + p), 1, AT % "K6")
limit("handlers: 64", check, lambda p: many("handler h%d() {}", 64 + p), 1, AT % "K7")
limit("variables: 32", check, lambda p: "handler h(" + many("v%d", 32 + p, ", ") + ") {}", 1, AT % "K8")
limit("a name: 64 bytes", check, lambda p: "map " + "a" * (64 + p) + ";", 1, AT % "S4")
limit("blocks in one another: 16", check,
      lambda p: "handler h() {" + "if 1 == 1 {" * (15 + p) + "}" * (16 + p), 1, AT % "S5")
limit("parentheses in one another: 16", check,
      lambda p: "handler h() { reply " + "(" * (16 + p) + "1" + ")" * (16 + p) + "; }", 1, AT % "S5")
limit("operator signs: 64", check, lambda p: "handler h() { reply 1" + "+1" * (64 + p) + "; }", 1, AT % "S5")
limit("turns of a repeat: 1,000", check,
      lambda p: "handler h() { repeat %d as i { } }" % (1000 + p), 1, AT % "K5")
limit("calls of a handler: 10,000", check,
      lambda p: "map m; handler h() { repeat 1000 as i {" + "size(m);" * 10 + "}" + "size(m);" * p + "}", 1, AT % "K9")
limit("symbols at a point: 256", check,
      lambda p: "map m; handler h() {" + many("put(m, %d, 1);", 256 + p) + "}", 1, r"refused A1 at \d+ count 257")
nop = "handler nop() {}"
ten = "map m; handler h(a) { repeat 10 as i { put(m, a, i); } } handler g(a) { put(m, a, 1); }"
busy = "handler h() { repeat 999 as i { let a = 1; " + "a = a + 1; " * 98 + "} let b = 1; " + "b = 2; " * 98
limit("work of a handler: 100,000", check, lambda p: busy + "b = 2; " * p + "}", 1, AT % "K10")
limit("requests: 20,000", serve, lambda p: served(nop, "nop%.0s", 20000 + p), 1, r"refused Q4 line \d+")
limit("calls of all requests: 200,000", serve,
      lambda p: served(ten, "h %d", 20000) if not p else served(ten.replace("10", "11"), "h %d", 20000),
      1, r"refused Q5 line \d+")
limit("work of all requests: 10,000,000", serve,
      lambda p: served(busy + "}", "h%.0s", 100 + p), 1, r"refused Q6 line \d+")
opened = "set s; handler nop() {}\n%% tables\n"
limit("table lines: 100,000", serve, lambda p: opened + many("s %d", 100000 + p) + "%%\n", 1, r"refused B5 line 100003")
USAGE = "usage: .*"
limit("callers: 32", lambda p: f"serve --callers {32 + p}", lambda p: served(ten, "h %d", 20000), 2, USAGE)
limit("callers: 1", lambda p: f"serve --callers {1 - p}", lambda p: served(ten, "h %d", 20000), 2, USAGE)
limit("shards: 8", lambda p: f"serve --shards {8 + p}", lambda p: served(ten, "h %d", 20000), 2, USAGE)
limit("callers that dump: 32", lambda p: f"dump --callers {32 + p}", lambda p: served(ten, "h %d", 20000), 2, USAGE)
limit("callers that trace: 32", lambda p: f"trace --callers {32 + p}", lambda p: served(ten, "h %d", 20000), 2, USAGE)
audit = lambda p: "audit"
put = "map m; handler h() { put(m, 1, 1); }\n%%\nh\n%% trace\nbegin 0 0\ndone 0 put m 1 1 nil\nend 0 nil\n"
limit("bytes that audit reads: 67,108,864", audit, lambda p: put + "#" * (67108864 + p - len(put)), 1, "refused T1")
limit("bytes before a trace: 4,194,304", audit,
      lambda p: "#" * (4194304 + p - len(put.split("%% trace")[0]) - 1) + "\n" + put, 1, "refused T1")
limit("events: 440,000", audit, lambda p: put + many("begin %d 0", 439997 + p), 1, r"refused F2 line 440005")
limit("made requests: 20,000", lambda p: f"work {20000 + p} 0", lambda p: "", 2, USAGE)
limit("where made requests start", lambda p: f"work 20000 {4294967295 + p}", lambda p: "", 2, USAGE)
sys.exit(failed)
P
