#!/usr/bin/env python3
"""Judges `audit` by a plain model: oracle/audit.py PROGRAM [--runs N] [--seed N].

Each made session is served by hand: its tickets take turns by chance and do their operations on
shared plain tables, with delays between. Most such traces aren't serial, and half of them are
changed in one place besides. The model says what is wrong first (the event's rule with its line,
or the rule with its ticket), and `audit` has to print the same. Ends with 1 where it doesn't.
"""
import argparse
import collections
import random
import sys

import clients
import made
import model
import trace


def literal(value):
    """A value as traces have it."""
    return "any" if value == ("any",) else model.expression(("literal", value))


def call_words(call):
    """An operation or a symbol as traces have it."""
    return [*call[:2], *map(literal, call[2:])]


class Scheduler:
    """Serves tickets in turns by chance, and keeps the events."""

    def __init__(self, draw, session, requests):
        self.draw, self.session, self.requests = draw, session, requests
        self.tables, self.open, self.callers = session.opened(), {}, {}
        self.events, self.begun, self.delayed = [], 0, set()

    def run(self, most):
        """All tickets, at most so many open at once."""
        while self.begun < len(self.requests) or self.open:
            may_begin = self.begun < len(self.requests) and len(self.open) < most
            if may_begin and (not self.open or self.draw.random() < 0.4):
                self.begin()
            else:
                self.go_on(self.draw.choice(sorted(self.open)))
        return self.events

    def begin(self):
        caller = self.draw.choice([c for c in range(32) if c not in self.callers.values()])
        self.events.append(["begin", str(self.begun), str(caller)])
        self.open[self.begun], self.callers[self.begun] = [], caller
        self.begun += 1

    def go_on(self, ticket):
        """One step of a ticket: a delay, its next operation, or its end."""
        call, reply = self.session.step(self.requests[ticket], self.open[ticket])
        if call is None:
            self.events.append(["end", str(ticket), *map(literal, reply)])
            del self.open[ticket], self.callers[ticket]
        elif ticket > 0 and ticket not in self.delayed and self.draw.random() < 0.1:
            symbol = made_symbol(self.draw, self.session, call)
            older = str(self.draw.randrange(ticket))
            self.events.append(["delay", str(ticket), *call_words(call), older,
                                *call_words(symbol)])
            self.delayed.add(ticket)
        else:
            self.delayed.discard(ticket)
            reply = self.session.apply(self.tables, call)
            self.events.append(["done", str(ticket), *call_words(call), literal(reply)])
            self.open[ticket].append(reply)


def made_symbol(draw, session, call):
    """A symbol of the same table that doesn't commute with the call; seldom one that does."""
    for _ in range(60):
        word, arguments = draw.choice(list(model.KINDS[session.tables[call[1]]].items()))
        chosen = [draw.choice([("any",), 0, 1, 2, *call[2:]]) for _ in range(arguments)]
        if trace.stands_against(session, (word, call[1], *chosen), call):
            break
    return (word, call[1], *chosen)


def changed(draw, events):
    """The events with one change."""
    events, at = [list(event) for event in events], draw.randrange(len(events))
    sort = draw.randrange(5)
    if sort == 0:
        events.pop(at)
    elif sort == 1:
        events[at - 1], events[at] = events[at], events[at - 1]
    elif sort == 2:
        events.insert(at, list(draw.choice(events)))
    elif sort == 3:
        events[at][1] = str(max(0, int(events[at][1]) + draw.choice([-1, 1])))
    elif events[at][0] in ("done", "end"):
        events[at][-1] = literal(draw.choice([None, 0, 1, 77, "zz"]))
    return events


class Verdict(Exception):
    """What is wrong first."""


class Reader:
    """Events being judged: each rule by itself, over the tables as the events before leave them."""

    def __init__(self, session, requests):
        self.session, self.requests, self.tables = session, requests, session.opened()
        self.replies, self.ended, self.open, self.delayed = {}, set(), {}, set()
        self.entries = collections.defaultdict(list)

    def holds(self, kind, ticket, words):
        """Whether an event is allowed here; its effect."""
        ticket = int(ticket)
        if kind == "begin":
            return self.begins(ticket, int(words[0]))
        if ticket not in self.open:
            return False
        return getattr(self, kind)(ticket, words)

    def begins(self, ticket, caller):
        fits = (ticket == len(self.replies) < len(self.requests) and caller < 32
                and caller not in self.open.values())
        if fits:
            self.open[ticket], self.replies[ticket] = caller, []
        return fits

    def next(self, ticket):
        return self.session.step(self.requests[ticket], self.replies[ticket])

    def done(self, ticket, words):
        call, reply = trace.call_of(self.session, words)
        reply = trace.value_of(*reply)
        if self.next(ticket)[0] != call or self.session.apply(self.tables, call) != reply:
            return False
        self.replies[ticket].append(reply)
        self.entries[ticket].append((call, reply))
        self.delayed.discard(ticket)
        return True

    def delay(self, ticket, words):
        call, (older, *words) = trace.call_of(self.session, words)
        symbol, _ = trace.call_of(self.session, words)
        fits = (ticket not in self.delayed and self.next(ticket)[0] == call
                and int(older) < ticket and trace.stands_against(self.session, symbol, call))
        self.delayed.add(ticket)
        return fits

    def end(self, ticket, words):
        call, reply = self.next(ticket)
        fits = call is None and list(map(trace.value_of, words)) == reply
        del self.open[ticket]
        self.ended.add(ticket)
        return fits


RULES = {"begin": 1, "done": 2, "delay": 3, "end": 4}


def verdict(session, requests, events, line):
    """What `audit` has to print; the first event stands on this line."""
    reader = Reader(session, requests)
    for at, (kind, ticket, *words) in enumerate(events):
        if not reader.holds(kind, ticket, words):
            return f"rejected V{RULES[kind]} line {line + at}"
    for ticket in range(len(requests)):
        if ticket not in reader.ended:
            return f"rejected V5 ticket {ticket}"
    tables = session.opened()
    for ticket in range(len(requests)):
        if any(session.apply(tables, call) != reply for call, reply in reader.entries[ticket]):
            return f"rejected V6 ticket {ticket}"
    return f"accepted {len(events)}"


def main():
    words = argparse.ArgumentParser(description="Judges `audit` by a plain model.")
    words.add_argument("program")
    words.add_argument("--runs", type=int, default=1000)
    words.add_argument("--seed", type=int, default=20261128)
    given = words.parse_args()
    draw, wrong, seen = random.Random(given.seed), 0, collections.Counter()
    for run in range(given.runs):
        session = made.Maker(draw).session(1, draw.choice([3, 12]))
        requests = session.clients[0]
        events = Scheduler(draw, session, requests).run(draw.choice([1, 2, 5]))
        if draw.random() < 0.5:
            events = changed(draw, events)
        front = session.written("") + "%% trace\n"
        text = front + "".join(" ".join(event) + "\n" for event in events)
        wanted = verdict(session, requests, events, front.count("\n") + 1)
        try:
            found = clients.ran(given.program, ["audit"], text).rstrip("\n")
        except ValueError as fault:
            found = str(fault)
        seen[wanted.split(" line")[0].split(" ticket")[0].split()[-1] if "V" in wanted
             else "accepted"] += 1
        if found != wanted:
            wrong += 1
            print(f"session {run}: {found}, not {wanted}")
            with open(f"wrong-{run}.session", "w", encoding="utf-8") as file:
                file.write(text)
    print(f"{given.runs} traces, {wrong} wrong; " + ", ".join(
        f"{count} {name}" for name, count in sorted(seen.items())))
    sys.exit(wrong > 0)


if __name__ == "__main__":
    main()
