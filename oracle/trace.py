#!/usr/bin/env python3
"""Judges `trace` by a plain model: oracle/trace.py PROGRAM [--runs N] [--seed N].

Each made session has up to 300 requests, and is served with a number of callers and shards that
is drawn too. Of what is written is asked: tickets begin in order, each by a caller that has no
other open; each operation, done on plain tables in the order of the lines, gives its reply; each
ticket's operations and replies are those of serving the requests one at a time; each ends once,
with that run's reply; and each delay is of the operation that the ticket does next, and names an
open older ticket and a symbol, of which some operation doesn't commute with it: both orders are
tried on small tables. Ends with 1 where anything else comes.

In each fourth session the handlers compute for long between their calls, so that tickets overlap
though a caller keeps the book while nobody wants it; it is asked that they did in some.
"""
import argparse
import itertools
import random
import sys

import clients
import made
import model


def value_of(word):
    """The value of a literal; `any` stands for itself."""
    if word == "nil":
        return None
    if word[0] == "'":
        return word[1:]
    return word if word == "any" else int(word)


def call_of(session, words):
    """The operation or symbol at the front of some words, and what stands behind it."""
    behind = 2 + model.KINDS[session.tables[words[1]]][words[0]]
    arguments = [("any",) if word == "any" else value_of(word) for word in words[2:behind]]
    return (words[0], words[1], *arguments), words[behind:]


def disagree(session, one, other):
    """Whether two operations of one table don't commute: tried on tables of few entries."""
    keys = [call[2] for call in (one, other) if len(call) > 2] or [0]
    values = [None, 0, 1, "z"] + [call[3] for call in (one, other) if len(call) > 3]
    is_map = session.tables[one[1]] == "map"
    for bound in itertools.product([False, *([(v,) for v in values] if is_map else [True])],
                                   repeat=len(keys)):
        start = {key: v[0] if is_map else v for key, v in zip(keys, bound) if v}
        ends = []
        for first, second in ((one, other), (other, one)):
            tables = {one[1]: dict(start) if is_map else set(start)}
            replies = [session.apply(tables, first), session.apply(tables, second)]
            ends.append((tables, replies if first is one else replies[::-1]))
        if ends[0] != ends[1]:
            return True
    return False


def stands_against(session, symbol, call):
    """Whether some operation that the symbol stands for doesn't commute with the call."""
    if symbol[1] != call[1]:
        return False
    some = [call[2] if len(call) > 2 else 0, 5, -1, "z"]
    choices = [some if a == ("any",) else [a] for a in symbol[2:]]
    return any(disagree(session, (*symbol[:2], *chosen), call)
               for chosen in itertools.product(*choices))


class Judged:
    """A trace being read: the tables so far, who is open, what waits."""

    def __init__(self, session, requests):
        self.session, self.serial, self.tables = session, session.serial(requests), session.opened()
        self.open, self.begun, self.ended, self.waits = {}, 0, 0, {}
        self.left = [list(done) for done, _ in self.serial]
        self.delays = self.overlaps = 0

    def require(self, holds, what):
        if not holds:
            raise ValueError(what)

    def event(self, kind, ticket, *words):
        """One line."""
        ticket = int(ticket)
        fits = ticket == self.begun if kind == "begin" else ticket in self.open
        self.require(fits, "no such ticket, or not in its turn")
        getattr(self, kind)(ticket, words)

    def begin(self, ticket, words):
        self.require(int(words[0]) not in self.open.values(), "the caller has another ticket")
        self.overlaps += len(self.open) > 0
        self.open[ticket] = int(words[0])
        self.begun += 1

    def done(self, ticket, words):
        call, reply = call_of(self.session, words)
        self.require((call, value_of(*reply)) == self.left[ticket].pop(0), "not what is served")
        self.require(self.session.apply(self.tables, call) == value_of(*reply), "another reply")
        self.require(self.waits.pop(ticket, call) == call, "not what was delayed")

    def delay(self, ticket, words):
        call, (older, *words) = call_of(self.session, words)
        symbol, behind = call_of(self.session, words)
        self.require(ticket not in self.waits and not behind, "delayed twice")
        self.require(call == self.left[ticket][0][0], "not what comes next")
        self.require(int(older) < ticket and int(older) in self.open, "no open older ticket")
        self.require(stands_against(self.session, symbol, call), "what is named commutes with it")
        self.waits[ticket] = call
        self.delays += 1

    def end(self, ticket, words):
        self.require(not self.left[ticket], "it has not done all")
        self.require(list(map(value_of, words)) == self.serial[ticket][1], "another reply")
        del self.open[ticket]
        self.ended += 1


def judge(session, requests, output):
    """How many delays a trace has, and how many tickets begin while another is open; raises where it
    isn't as it should be."""
    lines, judged = output.split("\n"), Judged(session, requests)
    if lines[:1] != ["%% trace"] or lines[-1]:
        raise ValueError("no trace")
    for at, line in enumerate(lines[1:-1]):
        try:
            judged.event(*line.split(" "))
        except (ValueError, IndexError, KeyError, TypeError) as fault:
            raise ValueError(f"event {at}, {line}: {fault}") from fault
    if judged.ended != len(requests):
        raise ValueError(f"{judged.ended} of {len(requests)} tickets ended")
    return judged.delays, judged.overlaps


def main():
    words = argparse.ArgumentParser(description="Judges `trace` by a plain model.")
    words.add_argument("program")
    words.add_argument("--runs", type=int, default=1000)
    words.add_argument("--seed", type=int, default=20261128)
    given = words.parse_args()
    draw, wrong, delays, delayed = random.Random(given.seed), 0, 0, 0
    overlapped = {False: 0, True: 0}
    for run in range(given.runs):
        computing = run % 4 == 3
        most = 40 if computing else draw.choice([10, 300])
        session = made.Maker(draw, computing).session(1, most)
        callers, shards = draw.choice([1, 2, 4, 8, 32]), draw.randint(1, 8)
        command = ["trace", "--callers", str(callers), "--shards", str(shards)]
        text = session.written("")
        try:
            output = clients.ran(given.program, command, text)
            found, overlaps = judge(session, session.clients[0], output)
            delays, delayed = delays + found, delayed + (found > 0)
            overlapped[computing] += overlaps > 0
        except ValueError as fault:
            wrong += 1
            print(f"session {run}, {' '.join(command)}: {fault}")
            with open(f"wrong-{run}.session", "w", encoding="utf-8") as file:
                file.write(text)
    print(f"{given.runs} sessions, {wrong} wrong; {delays} delays in {delayed} sessions; tickets "
          f"overlapped in {overlapped[True]} sessions that compute and {overlapped[False]} others")
    sys.exit(wrong > 0 or given.runs >= 100 and not overlapped[True])


if __name__ == "__main__":
    main()
