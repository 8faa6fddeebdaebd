#!/usr/bin/env python3
"""How long audits and several clients take beside `serve`: bench/ratios.py PROGRAM [--runs N].

Makes three sessions of 20,000 requests: seats and sign-ins, ten operations on keys of their own,
ten on one key. Of each it times, in turns and within one run, `serve` by one caller; `trace` by
one caller; `audit` of that trace, and of the same with a delay before each operation (up to
440,000 events); and `clients` over the first 600 requests, divided among three clients, and over
all, among 16, each beside `serve` of the same requests with as many callers; and so where the table
opens with 100,000 entries. A line a row: the
times of the two, the least of all runs, and their ratio; and the median of the ratios run by run.
"""
import argparse
import random
import statistics
import subprocess
import time

ARGUMENTS = {"put": 2, "swap": 2, "bump": 2, "size": 0, "count": 0}
AGAINST = {"get": "put {t} {k} any", "put": "del {t} {k}", "swap": "del {t} {k}",
           "del": "put {t} {k} any", "bump": "put {t} {k} any", "has": "add {t} {k}",
           "add": "drop {t} {k}", "mark": "drop {t} {k}", "drop": "add {t} {k}",
           "count": "add {t} any", "size": "put {t} any any"}
SEATS = """map seats;
set online;
handler login(u, now) { let old = swap(seats, u, now); mark(online, u); reply old; }
handler logout(u) { del(seats, u); drop(online, u); }
handler seen(u) { let at = get(seats, u); let on = has(online, u); reply at, on; }
handler crowd() { let n = count(online); reply n; }
"""
KEYS = """map m;
handler fill(n) { repeat 10 as i { let k = n * 10 + i; put(m, k, n); } reply n; }
"""
ONE = """map m;
handler turn(n) { repeat 5 as i { let v = get(m, 'one); put(m, 'one, n); } reply n; }
"""


def sessions():
    """Name, handlers and request lines of each session."""
    draw = random.Random(1)
    kinds = ["login u{} {}", "logout u{}", "seen u{}", "crowd"]
    seats = [draw.choice(kinds).format(draw.randrange(100), draw.randrange(1000))
             for _ in range(20000)]
    return [("seats", SEATS, seats),
            ("keys", KEYS, [f"fill {n}" for n in range(20000)]),
            ("one key", ONE, [f"turn {n}" for n in range(20000)])]


def delayed(trace):
    """The trace with a delay before each operation but those of the first ticket."""
    lines = []
    for line in trace.splitlines():
        words = line.split(" ")
        if words[0] == "done" and words[1] != "0":
            count = ARGUMENTS.get(words[2], 1)
            against = AGAINST[words[2]].format(t=words[3], k=words[4] if count else "")
            lines.append(" ".join(["delay", *words[1:4 + count], str(int(words[1]) - 1), against]))
        lines.append(line)
    return "\n".join(lines) + "\n"


def timed(program, words, text):
    """Milliseconds of one run."""
    begun = time.perf_counter()
    subprocess.run([program, *words], input=text, stdout=subprocess.DEVNULL, check=True)
    return (time.perf_counter() - begun) * 1000


def row(name, program, runs, one, other):
    """Times both commands in turns."""
    pairs = [(timed(program, *one), timed(program, *other)) for _ in range(runs)]
    least = [min(times) for times in zip(*pairs)]
    ratio = statistics.median(after / before for before, after in pairs)
    print(f"{name:45} {least[0]:7.1f} {least[1]:7.1f} {least[1] / least[0]:6.2f} {ratio:6.2f}",
          flush=True)


def judged(name, program, runs, handlers, requests):
    """The rows of `trace` and `audit`."""
    session = handlers + "%%\n" + "\n".join(requests) + "\n"
    serve = (["serve", "--callers", "1"], session.encode())
    row(f"{name}: trace", program, runs, serve, (["trace", "--callers", "1"], session.encode()))
    trace = subprocess.run([program, "trace", "--callers", "1"], input=session.encode(),
                           capture_output=True, check=True).stdout.decode()
    for what, text in (("audit", trace), ("audit with delays", delayed(trace))):
        events = text.count("\n") - 1
        row(f"{name}: {what}, {events} events", program, runs, serve,
            (["audit"], (session + text).encode()))


def gathered(name, program, runs, handlers, requests, clients):
    """The rows of `clients`."""
    share = len(requests) / clients
    parts = [requests[round(i * share):round((i + 1) * share)] for i in range(clients)]
    plain = handlers + "%%\n" + "\n".join(requests) + "\n"
    divided = handlers + "%%\n" + "\n%% next\n".join("\n".join(part) for part in parts) + "\n"
    for callers in (1, 2, 4):
        row(f"{name}: {len(requests)} of {clients} clients, {callers} callers", program, runs,
            (["serve", "--callers", str(callers)], plain.encode()),
            (["clients", "--callers", str(callers)], divided.encode()))


def main():
    """Runs all rows."""
    parser = argparse.ArgumentParser(description=__doc__.split("\n", maxsplit=1)[0])
    parser.add_argument("program")
    parser.add_argument("--runs", type=int, default=9)
    given = parser.parse_args()
    print(f"{'':45} {'serve':>7} {'other':>7} {'ratio':>6} {'median':>6}")
    for name, handlers, requests in sessions():
        judged(name, given.program, given.runs, handlers, requests)
        gathered(name, given.program, given.runs, handlers, requests[:600], 3)
        gathered(name, given.program, given.runs, handlers, requests, 16)
    entries = "".join(f"m {key} {key}\n" for key in range(100_000))
    gathered("opening", given.program, given.runs, KEYS + "%% tables\n" + entries,
             [f"fill {n}" for n in range(20000)], 16)


if __name__ == "__main__":
    main()
