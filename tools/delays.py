#!/usr/bin/env python3
"""Counts who waited for whom in a run: tools/delays.py [--json] TRACE.

TRACE is a session file followed by what `trace` writes of it. The first lines are the counts of
delays, the largest first, and of equal ones that which came first: how many, the handler that
waited, its operation, the handler for which it waited, and the symbol that was against it, a tab
between two. Then come the longest chains of delays: a ticket, the older one for which it waited,
the one for which that one waited, and so on; one of each first ticket, and at most three. With
--json the same is written as one JSON value. `foresight_waits --trace` writes the same bytes, and
.ci/waits compares them; `foresight_waits` says which delays there can be.
"""
import argparse
import collections
import json

import timeline
from report_run import delays_of

MOST_CHAINS = 3


def counted(delays, requests):
    """The delays by handler, operation, the older ticket's handler and symbol, with their number."""
    def handler(ticket):
        return requests[ticket].split()[0] if ticket < len(requests) else "?"
    counts = collections.Counter(
        (handler(delay.ticket), delay.operation, handler(delay.older), delay.symbol)
        for delay in delays)
    return [[count, *row] for row, count in counts.most_common()]


def chains(delays, tickets, most=MOST_CHAINS):
    """The longest chains of tickets, each of which waited for the next; at most so many."""
    waits = collections.defaultdict(list)
    for delay in delays:
        if delay.older < delay.ticket < tickets:
            waits[delay.ticket].append(delay.older)
    longest = {}
    for ticket in sorted(waits):
        ends = [longest.get(older, [older]) for older in waits[ticket]]
        longest[ticket] = [ticket, *max(ends, key=len)]
    length = max(map(len, longest.values()), default=0)
    return [chain for chain in longest.values() if len(chain) == length][:most]


def main():
    parser = argparse.ArgumentParser(description=__doc__.split("\n", maxsplit=1)[0])
    parser.add_argument("--json", action="store_true")
    parser.add_argument("trace")
    words = parser.parse_args()
    with open(words.trace, encoding="utf-8") as given:
        requests, events = timeline.read(given.read())
    delays = delays_of(events, timeline.tickets_of(events))
    rows, longest = counted(delays, requests), chains(delays, len(requests))
    if words.json:
        names = ("count", "waits", "operation", "for", "symbol")
        told = {"delays": [dict(zip(names, row)) for row in rows], "chains": longest}
        print(json.dumps(told, sort_keys=True, separators=(",", ":")))
        return
    print(f"# {len(delays)} delays: count, waits, operation, for, symbol")
    for row in rows:
        print("\t".join(map(str, row)))
    for chain in longest:
        print("# chain, each waits for the next: " + " ".join(map(str, chain)))


if __name__ == "__main__":
    main()
