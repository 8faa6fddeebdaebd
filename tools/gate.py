"""What tools/gate.sh uses: watches the processes of `rt ci`, and makes the rows of tools/gate.csv.

--watch FILE STOP: until the file STOP is there, looks once a second at the processes that some
`rt ci` began and keeps in FILE the processor seconds of each (one that lives for less than a second
is missed).
--table FILE..: prints the sums by crate as rows of CSV, dearest first (crate, proof, tests, edits),
after a comment with the sums of all. Of several files each crate's times are those of the first one
that has its proof.
"""
import collections
import json
import os
import re
import sys
import time

TICKS = os.sysconf("SC_CLK_TCK")
GATE = re.compile(r"\brt ci\b")
CRATE = re.compile(r"--crate-name (\S+)")


def processes():
    """Of each process: its number, its parent's, a name that no other one has, seconds, words."""
    for number in filter(str.isdigit, os.listdir("/proc")):
        try:
            with open(f"/proc/{number}/cmdline", encoding="utf-8", errors="replace") as given:
                words = given.read().replace("\0", " ")
            with open(f"/proc/{number}/stat", encoding="utf-8", errors="replace") as given:
                stat = given.read()
        except OSError:
            continue
        fields = stat[stat.rindex(")") + 2:].split()
        seconds = (int(fields[11]) + int(fields[12])) / TICKS
        yield int(number), int(fields[1]), f"{number}.{fields[19]}", seconds, words[:300]


def of_the_gate():
    """Name, seconds and words of each process that some `rt ci` began, and of itself."""
    found = {number: rest for number, *rest in processes()}

    def is_below(number):
        while number in found:
            if GATE.search(found[number][3]):
                return True
            number = found[number][0]
        return False
    return [rest[1:] for number, rest in found.items() if is_below(number)]


def watch(kept, stop):
    """Keeps the last seconds of each process until the file `stop` is there."""
    seen, written, ended = {}, 0, False
    while not ended:
        ended = os.path.exists(stop)
        for name, seconds, words in of_the_gate():
            # a process that is ending has no words any more
            seen[name] = [seconds, words.strip() or seen.get(name, [0, ""])[1]]
        if ended or time.time() - written > 30:
            written = time.time()
            with open(f"{kept}.new", "w", encoding="utf-8") as out:
                json.dump(seen, out)
            os.replace(f"{kept}.new", kept)
        time.sleep(1)


def sums(kept):
    """By crate the seconds of its proof, its tests and its edits; and those of all the rest."""
    proofs, tests, edits, rest = (collections.Counter() for _ in range(4))
    with open(kept, encoding="utf-8") as given:
        seen = json.load(given)
    for seconds, words in seen.values():
        crate = CRATE.search(words)
        if not crate:
            rest["others"] += seconds
        elif crate[1].startswith("tests_"):
            tests[crate[1]] += seconds
        else:
            # a crate's proof is a `build`, and so are its tests; its edits are each a `check`
            (proofs if "rattle build" in words else edits)[crate[1]] += seconds
    return proofs, tests, edits, sum(rest.values())


def table(files):
    """The rows."""
    times, rest = {}, 0
    for kept in files:
        proofs, tests, edits, others = sums(kept)
        rest += others
        for crate in proofs + tests + edits:
            if proofs[crate] + tests[crate] > 0:
                times.setdefault(crate, (proofs[crate], tests[crate], edits[crate]))
    whole = [round(sum(row[i] for row in times.values()) / 60) for i in range(3)] + [round(rest / 60)]
    print("# Processor minutes: proofs {}, tests {}, edits {}, compilers and programs {}: {} in all."
          .format(*whole, sum(whole)))
    print("crate,proof,tests,edits")
    for crate, row in sorted(times.items(), key=lambda item: -sum(item[1])):
        print(f"{crate},{row[0]:.0f},{row[1]:.0f},{row[2]:.0f}")


if sys.argv[1] == "--watch":
    watch(*sys.argv[2:])
else:
    table(sys.argv[2:])
