#!/usr/bin/env python3
"""Judges tickets and requests over the tables of one session by drives made by chance: mixed.py
[--runs N] [--seed N]; FORESIGHT_LIBRARY names the shared object of the library (oracle/mixed.sh makes
it).

A drive has two to eight tickets on the tables of a session and as many requests between their calls,
and every answer is judged by what tickets.py knows: what an operation does to a table, and the rule. A
request is done whole, unless an open ticket has declared something that doesn't commute with something
that its handler may call; the least of those is told, and nothing is done. It takes a number as a
ticket does. At a drive's end the operations that were done, those of requests among them, are done
again, ticket after ticket, with the same replies.
"""
import argparse
import ctypes as c
import functools
import random
import sys

import model
import tickets
from tickets import ANY, DELAYED, FINE, foresight

# A handler's name, its parameters, what it may call (`$0` is its first argument), and its body, where
# `{m}` and `{s}` are the first map and the first set.
HANDLERS = (
    ("load", 1, [("get", "m", "$0")], "let a = get({m}, k); reply a;"),
    ("store", 2, [("put", "m", "$0", "$1")], "put({m}, k, v); reply v;"),
    ("trade", 2, [("swap", "m", "$0", "$1")], "let a = swap({m}, k, v); reply a;"),
    ("raise", 2, [("bump", "m", "$0", "$1")], "bump({m}, k, v);"),
    ("copy", 2, [("get", "m", "$0"), ("put", "m", "$1", ANY)],
     "let a = get({m}, k); put({m}, v, a); reply a;"),
    ("enter", 1, [("add", "s", "$0"), ("count", "s")],
     "let a = add({s}, k); let b = count({s}); reply a, b;"),
    ("leave", 1, [("drop", "s", "$0"), ("del", "m", "$0"), ("size", "m")],
     "drop({s}, k); del({m}, k); let a = size({m}); reply a;"),
)


class Names:
    """The numbers of the session's names, and their texts."""

    def __init__(self, handle):
        self.handle, self.numbers, self.texts = handle, {}, {}

    def number(self, text):
        """The number that the library has for a text, which is always the same."""
        out = c.c_uint32(999)
        status = foresight._library.foresight_session_name(
            c.byref(self.handle), text.encode(), c.c_size_t(len(text)), c.byref(out))
        assert status == FINE, f"name {text}: {status}"
        assert self.numbers.setdefault(text, out.value) == out.value, f"another number of {text}"
        assert self.texts.setdefault(out.value, text) == text, f"the number of {text} is another's"
        return out.value

    def text(self, number):
        """The text that the library has for a number."""
        out, size = c.create_string_buffer(64), c.c_size_t()
        status = foresight._library.foresight_session_text(
            c.byref(self.handle), c.c_uint32(number), out, c.c_size_t(64), c.byref(size))
        assert status == FINE, f"text {number}: {status}"
        return out.raw[:size.value].decode()


class Mixed(tickets.Drive):
    """Tickets and requests on tables, here and in the library."""

    def __init__(self, chance):  # pylint: disable=super-init-not-called
        self.chance, self.handle = chance, foresight._Handle()
        self.kinds = ["map"] * chance.randint(1, 2) + ["set"] * chance.randint(1, 2)
        self.tables, self.declared, self.calls, self.counts = self.empty(), {}, [], {}
        self.first = {"m": 0, "s": self.kinds.index("set")}
        heads = "".join(f"{kind} t{at}; " for at, kind in enumerate(self.kinds))
        places = {name: f"t{at}" for name, at in self.first.items()}
        bodies = "\n".join(f"handler {name}({', '.join('kv'[:count])}) {{ {body.format(**places)} }}"
                           for name, count, _, body in HANDLERS)
        text, why, told = f"{heads}\n{bodies}\n%%\n".encode(), c.create_string_buffer(99), foresight._Answer()
        self.want(foresight._library.foresight_session_open(
            c.byref(self.handle), text, c.c_size_t(len(text)), c.c_uint64(chance.getrandbits(64)),
            c.c_uint32(1000), why, c.c_size_t(99), c.byref(told)), {FINE}, f"open {why.value}")
        self.names = Names(self.handle)

    # ---- the library's calls, where tickets.py has those of tables
    def c_value(self, value):
        """A value for the library."""
        if isinstance(value, str) and value != ANY:
            return foresight._Value(foresight.NAME, self.names.number(value), 0)
        return tickets.c_value(value)

    def c_operation(self, operation):
        """An operation or a symbol for the library."""
        word, table, *arguments = operation
        key, value = (list(map(self.c_value, arguments)) + [self.c_value(None)] * 2)[:2]
        return foresight._Operation(foresight.KINDS.index(word), table, key, value)

    def c_list(self, symbols):
        """A list of symbols for the library, with its length."""
        return (foresight._Operation * max(1, len(symbols)))(*map(self.c_operation, symbols)), \
            c.c_size_t(len(symbols))

    def begin(self):
        symbols = [self.symbol(True) for _ in range(self.chance.randint(0, 5))]
        ticket = c.c_uint64(99)
        self.want(foresight._library.foresight_session_begin(
            c.byref(self.handle), *self.c_list(symbols), c.byref(ticket)), {FINE}, "begin")
        assert ticket.value == len(self.calls), f"ticket {ticket.value}"
        self.declared[ticket.value] = symbols
        self.calls.append([])

    def call(self, ticket, operation):
        reply, older = foresight._Value(9, 8, 7), c.c_uint64(66)
        due, in_the_way = self.due(ticket, operation)
        status = self.want(foresight._library.foresight_session_call(
            c.byref(self.handle), c.c_uint64(ticket), c.byref(self.c_operation(operation)),
            c.byref(reply), c.byref(older)), due, f"{ticket} calls {operation}")
        assert older.value == (in_the_way if status == DELAYED else 66), f"older {older.value}"
        if status != FINE:
            assert (reply.sort, reply.name, reply.number) == (9, 8, 7), "a reply"
            return
        given = self.names.text(reply.name) if reply.sort == foresight.NAME else tickets.plain(reply)
        wanted = tickets.done(self.tables, operation)
        assert given == wanted, f"{operation} replies {given}, not {wanted}"
        self.calls[ticket].append((operation, wanted))

    def narrow(self, ticket):
        symbols = [self.instance(symbol) if self.chance.random() < 0.3 else symbol
                   for symbol in self.declared.get(ticket, []) if self.chance.random() < 0.6]
        if self.chance.random() < 0.2:
            symbols.append(self.symbol(True))
        is_covered = all(any(tickets.stands_for(mine, symbol) for mine in self.declared.get(ticket, []))
                         for symbol in symbols)
        due = tickets.NO_TICKET if ticket not in self.declared else \
            FINE if is_covered else tickets.UNDECLARED
        self.want(foresight._library.foresight_session_narrow(
            c.byref(self.handle), c.c_uint64(ticket), *self.c_list(symbols)), {due}, "narrow")
        if due == FINE:
            self.declared[ticket] = symbols

    def end(self, ticket):
        due = FINE if self.declared.pop(ticket, None) is not None else tickets.NO_TICKET
        self.want(foresight._library.foresight_session_end(
            c.byref(self.handle), c.c_uint64(ticket)), {due}, "end")

    # ---- requests
    def in_the_way(self, symbols):
        """The least open ticket that has declared something against something of these."""
        for ticket in sorted(self.declared):
            if any(against_all(mine, its) for mine in symbols for its in self.declared[ticket]):
                return ticket
        return None

    def request(self):
        """A request by chance: it is served whole, or delayed whole."""
        name, count, called, _ = self.chance.choice(HANDLERS)
        rooms = (tickets.KEYS, tickets.KEYS if name == "copy" else tickets.VALUES)
        given = [self.chance.choice(room) for room in rooms[:count]]
        symbols = [(word, self.first[table],
                    *(given[int(mine[1])] if isinstance(mine, str) and mine[0] == "$" else mine
                      for mine in arguments)) for word, table, *arguments in called]
        older = self.in_the_way(symbols)
        line = " ".join([name, *map(model.text, given)]) + "\n"
        out, why, served = c.create_string_buffer(300), c.create_string_buffer(99), foresight._Served()
        status = self.want(foresight._library.foresight_session_serve(
            c.byref(self.handle), line.encode(), c.c_size_t(len(line)), out, c.c_size_t(300), why,
            c.c_size_t(99), c.byref(served)), {FINE if older is None else DELAYED}, line)
        assert served.older == (older or 0), f"{line.strip()}: older {served.older}, not {older}"
        assert (served.used, served.requests) == ((len(line), 1) if older is None else (0, 0)), line
        if status == FINE:
            self.served(symbols, out.raw[:served.written].decode())

    def served(self, symbols, text):
        """A request was served, with this reply line: its operations, in order, here too."""
        acts = []
        for symbol in symbols:
            operation = tuple(acts[-1][1] if word is ANY else word for word in symbol)
            acts.append((operation, tickets.done(self.tables, operation)))
        self.calls.append(acts)
        replies = [reply for (word, *_), reply in acts if word in ("get", "swap", "add", "count", "size")]
        if symbols[0][0] == "put":
            replies = [symbols[0][3]]
        wanted = " ".join(map(model.text, replies or [None])) + "\n"
        assert text == wanted, f"{acts} reply {text!r}, not {wanted!r}"

    def run(self):
        count = self.chance.randint(2, 8)
        begun = 0
        while begun < count or self.declared:
            lot = self.chance.random()
            if begun < count and lot < 0.3:
                self.begin()
                begun += 1
            elif lot < 0.5 or not self.calls:
                self.request()
            else:
                self.act()
        self.regrouped()
        foresight._library.foresight_session_close(c.byref(self.handle))
        return self.counts


@functools.lru_cache(None)
def against_all(one, other):
    """Whether two symbols stand for two operations that don't commute."""
    return any(tickets.against(each, other) for each in tickets.instances(one))


def main():
    """All drives, each from a seed of its own; the first that is wrong is told."""
    words = argparse.ArgumentParser()
    words.add_argument("--runs", type=int, default=100_000)
    words.add_argument("--seed", type=int, default=1)
    given = words.parse_args()
    counts = {}
    for run in range(given.runs):
        try:
            for status, count in Mixed(random.Random(given.seed * 1_000_003 + run)).run().items():
                counts[status] = counts.get(status, 0) + count
        except AssertionError as error:
            print(f"mixed: NOT AS IT SHOULD BE: drive {run} of seed {given.seed}: {error}")
            return 1
    told = ", ".join(f"{count} of status {status}" for status, count in sorted(counts.items()))
    print(f"mixed: {given.runs} drives, as they should be: {told}")
    return 0


if __name__ == "__main__":
    sys.exit(main())
