#!/usr/bin/env python3
"""Tries foresight.py: package.py CASE, a folder of `handlers`, `requests`, `replies`, `tables`, as the
program answers them; FORESIGHT_LIBRARY names the shared object."""
import json
import os
import sys
import threading

sys.path.insert(0, os.path.join(os.path.dirname(os.path.abspath(__file__)), ".."))
import foresight  # noqa: E402  pylint: disable=wrong-import-position

UNREAD = ("status 10: no such kind, sort or name, too many tables, or a field that the kind doesn't use "
          "isn't nil")
MISFIT = ("status 22: no such table, or it has no such operation, or a symbol that is no name of the "
          "session")
PLACE = ("text:1:5: a token with which no file goes on\nmap ;\n    ^\n"
         "= unexpected `;`: a name is wanted here\n")


def read(name):
    """A file of the case."""
    with open(f"{sys.argv[1]}/{name}", encoding="utf-8") as file:
        return file.read()


def refused(call, status, why):
    """The error that a call raises, which has this status and says so."""
    try:
        call()
    except foresight.ForesightError as error:
        assert (error.status, str(error)) == (status, why), (error.status, str(error), why)
        return error
    raise AssertionError(f"not refused: {why}")


def try_session():
    """A session that is answered as the program answers a file."""
    lines = read("requests").splitlines()
    with foresight.Session(read("handlers")) as session:
        replies = session.serve(lines)
        assert "".join(f"{reply}\n" for reply in replies) == read("replies"), "other replies"
        assert session.tables() == read("tables"), "other tables"
    with foresight.Session(read("handlers")) as session:
        words = [" ".join(session.request(line)) for line in lines[:300]]
        assert words == replies[:300], "other replies one by one"
    # More replies than one call of the library writes, a refusal after them, and one line again.
    with foresight.Session("handler f(k) { reply k; }\n%%\n") as session:
        numbers = [str(-2**62 + i) for i in range(20_000)]
        lines = [f"f {number}" for number in numbers]
        assert session.serve(lines) == numbers, "other replies of many lines"
        error = refused(lambda: session.serve([*lines, "", "g", "f 1"]), 1, "unknown handler")
        assert error.replies == numbers and error.used == 20_002, (len(error.replies), error.used)
        assert session.request("f 7") == ["7"] and session.request("") == []
        try:
            session.request("f 1\nf 2")
            raise AssertionError("two lines in a request")
        except ValueError:
            pass


def try_refusals():
    """What each call refuses."""
    text = "map m; handler f(k) { let a = get(m, k); put(m, k, 1); reply a; }\n%%\n"
    error = refused(lambda: foresight.Session("map ;\n%%\n"), 1, "refused S2 at 4")
    assert error.explanation == PLACE, error.explanation
    assert foresight.explain("map ;\n%%\n", "refused S2 at 4", name="bank") == \
        PLACE.replace("text:", "bank:")
    as_json = json.loads(foresight.explain("map ;\n%%\n", "refused S2 at 4\n", form="json"))
    assert (as_json["line"], as_json["column"], as_json["rule"]) == (1, 5, "S2"), as_json
    for line in ("unknown handler", "refused S2 at 400", ""):
        assert foresight.explain("map ;\n%%\n", line) is None, line
    error = refused(lambda: foresight.Session("map m;\n%%\nf 1\n"), 1, "refused Q1 line 3")
    assert error.explanation.startswith("text:3:1: no such handler\n"), error.explanation
    refused(lambda: foresight.Session(text, most_names=2), 15, "too many names")
    session = foresight.Session(text, most_names=6)
    for line, why in (("g", "unknown handler"), ("f", "wrong number of arguments"),
                      ("f !", "a word that is no value")):
        error = refused(lambda line=line: session.serve(["f 1", line, "f 2"]), 1, why)
        assert error.used == 2 and len(error.replies) == 1, (error.used, error.replies)
    refused(lambda: session.serve(["f x", "f y", "f z", "f u"]), 15, "too many names")
    try:
        session.serve(["f 1\nf 2"])
        raise AssertionError("two lines in one")
    except ValueError:
        pass
    threads = [threading.Thread(target=session.serve, args=([f"f {i * 1000 + j}" for j in range(500)],))
               for i in range(1, 5)]
    for thread in threads:
        thread.start()
    for thread in threads:
        thread.join()
    assert len(session.tables().splitlines()) == 2004, "other tables of four threads"
    session.close()
    session.close()
    refused(lambda: session.serve(["f 1"]), 11, "status 11: the object is closed")
    refused(session.tables, 11, "status 11: the object is closed")


def try_tickets():
    """Tickets that are done, delayed and refused."""
    with foresight.Tables(maps=1, sets=1) as tables:
        older = tables.begin([("get", 0, 1), ("bump", 0, 2, any)])
        younger = tables.begin([("get", 0, 2)])
        assert tables.call(older, "get", 0, 1) is None
        assert tables.call(older, "bump", 0, 2, 5) is None
        try:
            tables.call(younger, "get", 0, 2)
            raise AssertionError("not delayed")
        except foresight.Delayed as delayed:
            assert delayed.older == older
        tables.narrow(older, [])
        assert tables.call(younger, "get", 0, 2) == 5
        refused(lambda: tables.call(older, "get", 0, 1), 21,
                "status 21: the ticket hasn't declared this operation")
        tables.end(older)
        refused(lambda: tables.end(older), 13, "status 13: the ticket has not begun, or has ended")
        refused(lambda: tables.call(younger, "add", 0, 2), 22, MISFIT)
        refused(lambda: tables.begin([("size", 0, 1)]), 10, UNREAD)
        refused(lambda: tables.begin([("get", 0, 1)] * 257), 12,
                "status 12: more than 256 symbols, or no number is left for a ticket")
        for call in (lambda: tables.begin([("fetch", 0, 1)]),
                     lambda: tables.call(younger, "fetch", 0, 2)):
            try:
                call()
                raise AssertionError("an operation that there isn't")
            except ValueError as error:
                assert str(error) == ("there is no operation 'fetch': it is one of get, put, swap, "
                                      "del, size, bump, has, add, mark, drop, count"), error
        # A name comes back as it was put, and no other value as a name.
        named = tables.begin([("put", 0, any, any), ("swap", 0, any, any), ("get", 0, any)])
        seven = foresight.Name(7)
        assert tables.call(named, "put", 0, seven, foresight.Name(3)) is None
        assert tables.call(named, "get", 0, seven) == foresight.Name(3)
        assert tables.call(named, "get", 0, 7) is None
        assert tables.call(named, "swap", 0, seven, 3) == foresight.Name(3)
        assert tables.call(named, "get", 0, seven) == 3
        tables.end(named)
        try:
            tables.call(younger, "get", 0, 2**63)
            raise AssertionError("a number past 64 bits")
        except OverflowError:
            pass
    refused(lambda: foresight.Tables(maps=8), 10, UNREAD)


def try_tickets_beside_requests():
    """Tickets on the tables of a session, and lines that wait for them."""
    text = ("map m; handler store(k, v) { put(m, k, v); reply k; }\n"
            "handler load(k) { let v = get(m, k); reply v; }\n%%\n")
    with foresight.Session(text, most_names=7) as session:
        assert session.serve(["store ann 7"]) == ["ann"]
        ann = session.name("ann")
        assert session.text(ann) == "ann"
        ticket = session.begin([("get", 0, ann), ("put", 0, ann, any)])
        assert session.call(ticket, "get", 0, ann) == 7
        try:
            session.serve(["store bob 1", "load ann", "load bob"])
            raise AssertionError("not delayed")
        except foresight.Delayed as delayed:
            assert (delayed.older, delayed.replies, delayed.used) == (ticket, ["bob"], 1)
        assert session.call(ticket, "put", 0, ann, 8) is None
        younger = session.begin([("get", 0, ann)])
        try:
            session.call(younger, "get", 0, ann)
            raise AssertionError("not delayed")
        except foresight.Delayed as delayed:
            assert delayed.older == ticket
        session.narrow(ticket, [])
        assert session.call(younger, "get", 0, ann) == 8
        assert session.serve(["load ann"]) == ["8"]
        refused(lambda: session.call(ticket, "get", 0, ann), 21,
                "status 21: the ticket hasn't declared this operation")
        session.end(ticket)
        refused(lambda: session.end(ticket), 13, "status 13: the ticket has not begun, or has ended")
        refused(lambda: session.call(younger, "add", 0, ann), 22, MISFIT)
        refused(lambda: session.text(foresight.Name(7)), 10, UNREAD)
        refused(lambda: session.name("carl"), 15, "status 15: too many names")
        refused(lambda: session.name("5"), 1, "status 1: the text is no symbol")


def try_counts():
    """What a session holds, told."""
    text = "map m; set s; handler f(k) { put(m, k, 1); mark(s, 1); reply k; }\n%%\n"
    with foresight.Session(text, most_names=7) as session:
        assert session.counts() == {"names": 4, "most_names": 7, "tables": 2, "begun": 0, "open": 0,
                                    "oldest": None, "generation": 0}, session.counts()
        session.serve(["f a", "f 1"])
        symbols = [("get", 0, session.name("a")), ("put", 0, any, 7), ("count", 1)]
        ticket = session.begin(symbols)
        assert session.declared(ticket) == symbols, session.declared(ticket)
        session.begin([])
        assert session.counts() == {"names": 5, "most_names": 7, "tables": 2, "begun": 4, "open": 2,
                                    "oldest": ticket, "generation": 0}, session.counts()
        assert [session.size(table) for table in (0, 1)] == [2, 1]
        refused(lambda: session.size(2), 22, MISFIT)
        session.end(ticket)
        refused(lambda: session.declared(ticket), 13,
                "status 13: the ticket has not begun, or has ended")
    refused(session.counts, 11, "status 11: the object is closed")


def try_renewal():
    """Names that only requests brought come back."""
    text = "map m; handler store(k) { put(m, k, 1); reply k; } handler cut(k) { del(m, k); reply k; }\n%%\n"
    with foresight.Session(text, most_names=5) as session:
        session.serve(["store a"])
        refused(lambda: session.serve(["store b"]), 15, "too many names")
        ticket = session.begin([])
        refused(session.renew, 19, "status 19: a ticket is open")
        session.end(ticket)
        for word in "bcdef":
            session.serve([f"cut {chr(ord(word) - 1)}"])
            session.renew()
            session.serve([f"store {word}"])
        assert session.tables() == "%% tables\nm f 1\n", session.tables()
        assert session.counts()["generation"] == 5


try_session()
try_refusals()
try_tickets()
try_tickets_beside_requests()
try_counts()
try_renewal()
print("package: foresight.py, as it should be")
