#!/usr/bin/env python3
"""Judges driven tickets by drives made by chance: tickets.py [--runs N] [--seed N];
FORESIGHT_LIBRARY names the shared object of the library (oracle/tickets.sh makes it).

A drive has two to eight tickets on a few tables, and every call of it is judged. The judge knows
what an operation does to a table (model.py), and the rule: a ticket does what it has declared,
unless an older one that is open has declared something that doesn't commute with it; the oldest of
those is told. Whether two operations commute it finds out by doing them in both orders on tables.
At a drive's end the operations that were done are done again, ticket after ticket, with the same
replies.
"""
import argparse
import ctypes as c
import functools
import itertools
import os
import random
import sys

sys.path.insert(0, os.path.join(os.path.dirname(os.path.abspath(__file__)), "..", "embedding"))
import foresight  # noqa: E402  pylint: disable=wrong-import-position
import model  # noqa: E402  pylint: disable=wrong-import-position

ANY = "any"
KEYS = (1, 2, "n3", None)
VALUES = (None, 0, 1, -5, "n3")
CONTENTS = (None, 0, 1, "n8")
WORDS = {"map": model.KINDS["map"], "set": model.KINDS["set"]}
FINE, UNREAD, NO_TICKET, DELAYED, UNDECLARED, MISFIT = 0, 10, 13, 20, 21, 22


def c_value(value):
    """A value for the library: names are n and a number."""
    if value == ANY:
        return foresight._Value(foresight.ANY, 0, 0)
    if value is None:
        return foresight._Value(foresight.NIL, 0, 0)
    if isinstance(value, str):
        return foresight._Value(foresight.NAME, int(value[1:]), 0)
    return foresight._Value(foresight.NUMBER, 0, value)


@functools.lru_cache(None)
def c_operation(operation):
    """An operation or a symbol for the library."""
    word, table, *arguments = operation
    key, value = (list(map(c_value, arguments)) + [c_value(None)] * 2)[:2]
    return foresight._Operation(foresight.KINDS.index(word), table, key, value)


def c_list(symbols):
    """A list of symbols for the library, with its length."""
    return (foresight._Operation * max(1, len(symbols)))(*map(c_operation, symbols)), \
        c.c_size_t(len(symbols))


def plain(value):
    """What the library replied."""
    return {foresight.NIL: None, foresight.NUMBER: value.number,
            foresight.NAME: f"n{value.name}"}[value.sort]


def kind_of(word):
    """The kind of container that has an operation."""
    return "map" if word in WORDS["map"] else "set"


def done(tables, operation):
    """Does an operation: its reply. One on a container of the other kind does nothing."""
    word, table, *arguments = operation
    if isinstance(tables[table], dict) != (kind_of(word) == "map"):
        return None
    return model.OPERATIONS[kind_of(word)][word](tables[table], *arguments)


def contents(keys):
    """Sets and maps, with these keys and without."""
    for some in itertools.product((False, True), repeat=len(keys)):
        yield {key for key, there in zip(keys, some) if there}
    for some in itertools.product((ANY, *CONTENTS), repeat=len(keys)):
        yield {key: value for key, value in zip(keys, some) if value != ANY}


def both(held, first, second):
    """Does two operations on a copy of a container: what it is then, and both replies."""
    tables = {first[1]: type(held)(held)}
    return tables, done(tables, first), done(tables, second)


@functools.lru_cache(None)
def commute(one, other):
    """Whether two operations give the same tables and replies in both orders, at all tables."""
    if one[1] != other[1]:
        return True  # each looks at its own table alone
    for held in contents(list(dict.fromkeys([*one[2:3], *other[2:3]]))):
        after, first, second = both(held, one, other)
        if both(held, other, one) != (after, second, first):
            return False
    return True


@functools.lru_cache(None)
def instances(symbol):
    """Operations that a symbol stands for: enough of them to see what doesn't commute."""
    word, table, *arguments = symbol
    rooms = [((*KEYS, 77) if place == 0 else (*VALUES, 9)) if argument == ANY else (argument,)
             for place, argument in enumerate(arguments)]
    return [(word, table, *some) for some in itertools.product(*rooms)]


@functools.lru_cache(None)
def against(operation, symbol):
    """Whether the symbol stands for something that doesn't commute with the operation."""
    return not all(commute(operation, each) for each in instances(symbol))


def stands_for(symbol, operation):
    """Whether the symbol stands for the operation, or for all that another symbol stands for."""
    return symbol[:2] == operation[:2] and all(
        mine in (ANY, its) for mine, its in zip(symbol[2:], operation[2:]))


class Drive:
    """Tickets on tables, here and in the library."""

    def __init__(self, chance):
        self.chance, self.handle = chance, foresight._Handle()
        self.kinds = ["map"] * chance.randint(1, 2) + ["set"] * chance.randint(0, 2)
        self.tables = self.empty()
        self.declared, self.calls, self.counts = {}, [], {}
        self.want(foresight._library.foresight_tables_open(
            c.byref(self.handle), c.c_uint8(self.kinds.count("map")),
            c.c_uint8(self.kinds.count("set"))), {FINE}, "tables")

    def empty(self):
        """The tables as they open."""
        return [{} if kind == "map" else set() for kind in self.kinds]

    def want(self, status, due, what):
        """A call answers one of these."""
        self.counts[status] = self.counts.get(status, 0) + 1
        if status not in due:
            raise AssertionError(f"{what}: {status}, not {sorted(due)}")
        return status

    def symbol(self, loose):
        """A symbol by chance, or an operation."""
        table = self.chance.randrange(len(self.kinds))
        word, count = self.chance.choice(list(WORDS[self.kinds[table]].items()))
        if self.chance.random() < 0.02:
            table = self.chance.randrange(len(self.kinds) + 1)
        rooms = (KEYS, VALUES)[:count]
        return (word, table, *(ANY if loose and self.chance.random() < 0.25
                               else self.chance.choice(room) for room in rooms))

    def instance(self, symbol):
        """An operation that a symbol stands for."""
        return (*symbol[:2], *(self.chance.choice(room) if mine == ANY else mine
                               for mine, room in zip(symbol[2:], (KEYS, VALUES))))

    def begin(self):
        """The next ticket begins."""
        symbols = [self.symbol(True) for _ in range(self.chance.randint(0, 5))]
        ticket = c.c_uint64(99)
        self.want(foresight._library.foresight_ticket_begin(
            c.byref(self.handle), *c_list(symbols), c.byref(ticket)), {FINE}, "begin")
        assert ticket.value == len(self.calls), f"ticket {ticket.value}"
        self.declared[ticket.value] = symbols
        self.calls.append([])

    def due(self, ticket, operation):
        """What a call may answer, and the ticket that is in the way."""
        if ticket not in self.declared:
            return {NO_TICKET}, None
        faults = set()
        table = operation[1]
        if table >= len(self.kinds) or self.kinds[table] != kind_of(operation[0]):
            faults.add(MISFIT)
        if not any(stands_for(symbol, operation) for symbol in self.declared[ticket]):
            faults.add(UNDECLARED)
        if faults:
            return faults, None
        for older in sorted(self.declared):
            if older >= ticket:
                return {FINE}, None
            if any(against(operation, symbol) for symbol in self.declared[older]):
                return {DELAYED}, older
        raise AssertionError("no ticket")

    def call(self, ticket, operation):
        """A ticket calls an operation."""
        reply, older = foresight._Value(9, 8, 7), c.c_uint64(66)
        due, in_the_way = self.due(ticket, operation)
        status = self.want(foresight._library.foresight_ticket_call(
            c.byref(self.handle), c.c_uint64(ticket), c.byref(c_operation(operation)),
            c.byref(reply), c.byref(older)), due, f"{ticket} calls {operation}")
        assert older.value == (in_the_way if status == DELAYED else 66), f"older {older.value}"
        if status != FINE:
            assert (reply.sort, reply.name, reply.number) == (9, 8, 7), "a reply"
            return
        wanted = done(self.tables, operation)
        assert plain(reply) == wanted, f"{operation} replies {plain(reply)}, not {wanted}"
        self.calls[ticket].append((operation, wanted))

    def narrow(self, ticket):
        """A ticket declares some of what it has declared, or something else."""
        symbols = [self.instance(symbol) if self.chance.random() < 0.3 else symbol
                   for symbol in self.declared.get(ticket, []) if self.chance.random() < 0.6]
        if self.chance.random() < 0.2:
            symbols.append(self.symbol(True))
        is_covered = all(any(stands_for(mine, symbol) for mine in self.declared.get(ticket, []))
                         for symbol in symbols)
        due = NO_TICKET if ticket not in self.declared else FINE if is_covered else UNDECLARED
        self.want(foresight._library.foresight_ticket_narrow(
            c.byref(self.handle), c.c_uint64(ticket), *c_list(symbols)), {due}, "narrow")
        if due == FINE:
            self.declared[ticket] = symbols

    def end(self, ticket):
        """A ticket ends."""
        due = FINE if self.declared.pop(ticket, None) is not None else NO_TICKET
        self.want(foresight._library.foresight_ticket_end(
            c.byref(self.handle), c.c_uint64(ticket)), {due}, "end")

    def act(self):
        """One act by chance, mostly of an open ticket."""
        ticket, lot = self.chance.randrange(len(self.calls) + 1), self.chance.random()
        if self.declared and self.chance.random() < 0.95:
            ticket = self.chance.choice(list(self.declared))
        declared = self.declared.get(ticket)
        if lot < 0.8:
            self.call(ticket, self.instance(self.chance.choice(declared))
                      if declared and self.chance.random() < 0.9 else self.symbol(False))
        elif lot < 0.88:
            self.narrow(ticket)
        else:
            self.end(ticket)

    def regrouped(self):
        """The operations ticket after ticket have the same replies, and leave the same tables."""
        tables = self.empty()
        for operation, reply in itertools.chain.from_iterable(self.calls):
            assert done(tables, operation) == reply, f"{operation} replies otherwise, regrouped"
        assert tables == self.tables, "other tables, regrouped"

    def run(self):
        """The drive from its beginning to its end; answers how often each status came."""
        tickets = self.chance.randint(2, 8)
        while len(self.calls) < tickets or self.declared:
            if len(self.calls) < tickets and self.chance.random() < 0.3:
                self.begin()
            else:
                self.act()
        self.regrouped()
        foresight._library.foresight_tables_close(c.byref(self.handle))
        return self.counts


def main():
    """All drives, each from a seed of its own; the first that is wrong is told."""
    words = argparse.ArgumentParser()
    words.add_argument("--runs", type=int, default=100_000)
    words.add_argument("--seed", type=int, default=1)
    given = words.parse_args()
    counts = {}
    for run in range(given.runs):
        try:
            for status, count in Drive(random.Random(given.seed * 1_000_003 + run)).run().items():
                counts[status] = counts.get(status, 0) + count
        except AssertionError as error:
            print(f"tickets: NOT AS IT SHOULD BE: drive {run} of seed {given.seed}: {error}")
            return 1
    told = ", ".join(f"{count} of status {status}" for status, count in sorted(counts.items()))
    print(f"tickets: {given.runs} drives, as they should be: {told}")
    return 0


if __name__ == "__main__":
    sys.exit(main())
