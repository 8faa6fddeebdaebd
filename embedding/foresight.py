"""Sessions and driven tickets for Python, over the library: the whole package is this file.

The library is a shared object: the file that FORESIGHT_LIBRARY names, else the one beside this file,
else the one that the system finds. `tools/look.sh library` leaves one in target/look/, without its
proof. Of a proved archive it is made by

    cc -shared -o libforesight.so -Wl,--whole-archive libforesight.a -Wl,--no-whole-archive

`serve` takes many lines a call, whose cost is paid once. An object has a lock of its own.
"""
import ctypes as c
import os
import secrets
import threading

MESSAGE_ROOM = 256
MOST_SYMBOLS = 256
REPLIES_ROOM = 65536
VERSION_NUMBER = 20100
NIL, NUMBER, NAME, ANY = range(4)
KINDS = ("get", "put", "swap", "del", "size", "bump", "has", "add", "mark", "drop", "count")
# How many of key and value each kind has.
_ARGUMENTS = (1, 2, 2, 1, 0, 2, 1, 1, 1, 1, 0)
_KIND_NUMBERS = {kind: number for number, kind in enumerate(KINDS)}
# What a status means that comes without a message.
STATUSES = {
    1: "the text is no symbol",
    10: "no such kind, sort or name, too many tables, or a field that the kind doesn't use isn't nil",
    11: "the object is closed",
    12: "more than 256 symbols, or no number is left for a ticket",
    13: "the ticket has not begun, or has ended",
    15: "too many names",
    16: "the text isn't UTF-8",
    17: "no refusal of this text",
    19: "a ticket is open",
    20: "a ticket is in the way",
    21: "the ticket hasn't declared this operation",
    22: "no such table, or it has no such operation, or a symbol that is no name of the session",
}


class ForesightError(Exception):
    """A call ended with this status; of a refused text `explanation` tells in plain words."""

    def __init__(self, status, why):
        super().__init__(why)
        self.status = status
        self.explanation = None


class Refused(ForesightError):
    """A file or a line breaks a rule, or has too many names."""


class Delayed(ForesightError):
    """A ticket is in the way of a call, or of a line."""

    def __init__(self, older):
        super().__init__(20, f"ticket {older} is in the way")
        self.older = older


class _Handle(c.Structure):
    _fields_ = [("live", c.c_bool), ("at", c.c_void_p)]


class _Answer(c.Structure):
    _fields_ = [(name, c.c_size_t) for name in ("written", "needed", "told")]


class _Served(c.Structure):
    _fields_ = [(name, c.c_size_t) for name in ("used", "written", "requests", "told")] + [
        ("older", c.c_uint64)]


class _Counts(c.Structure):
    _fields_ = [("names", c.c_uint32), ("most_names", c.c_uint32), ("tables", c.c_size_t),
                ("begun", c.c_uint64), ("open", c.c_size_t), ("oldest", c.c_uint64),
                ("generation", c.c_uint64)]


class _Value(c.Structure):
    _fields_ = [("sort", c.c_uint8), ("name", c.c_uint32), ("number", c.c_int64)]


class _Operation(c.Structure):
    _fields_ = [("kind", c.c_uint8), ("table", c.c_uint32), ("key", _Value), ("value", _Value)]


def _loaded():
    """The shared object, whose first number is this file's, and whose second is no lower."""
    beside = os.path.join(os.path.dirname(os.path.abspath(__file__)), "libforesight.so")
    name = os.environ.get("FORESIGHT_LIBRARY") or (
        beside if os.path.exists(beside) else f"libforesight.so.{VERSION_NUMBER // 10000}")
    library = c.CDLL(name)
    for call in ("session_open", "session_serve", "session_dump", "session_close", "session_begin",
                 "session_call", "session_narrow", "session_end", "session_name", "session_text",
                 "session_counts", "session_size", "session_renew", "session_declared", "explain", "tables_open",
                 "ticket_begin", "ticket_call", "ticket_narrow", "ticket_end", "tables_close"):
        getattr(library, f"foresight_{call}").restype = c.c_uint8
    library.foresight_version.restype = c.c_uint32
    version = library.foresight_version()
    if version < VERSION_NUMBER or version // 10000 != VERSION_NUMBER // 10000:
        raise ImportError(f"{name} is of version {version}")
    return library


_library = _loaded()
_serve = _library.foresight_session_serve


def _error(status, why):
    """The exception of a status."""
    if status == 3:
        return MemoryError("no memory")
    why = why or f"status {status}: {STATUSES.get(status, 'unknown')}"
    return (Refused if status in (1, 15) else ForesightError)(status, why)


def explain(text, refusal, name="text", form="text"):
    """What `foresight_where` tells of a refusal: of the line that a call said of a text, which goes
    by this name. As "text" it has the place, its line and advice; as "json" it is one object. None
    if the line is no refusal's, or names a place that the text doesn't have."""
    number = ("text", "json").index(form)
    text, name, refusal = (part.encode() if isinstance(part, str) else part
                           for part in (text, name, refusal))
    answer, status = _Answer(0, 4096, 0), 5
    while status == 5:
        size = answer.needed
        out = c.create_string_buffer(size)
        status = _library.foresight_explain(
            text, c.c_size_t(len(text)), name, c.c_size_t(len(name)), refusal,
            c.c_size_t(len(refusal)), c.c_uint8(number), out, c.c_size_t(size), c.byref(answer))
    if status == 17:
        return None
    if status:
        raise _error(status, None)
    return out.raw[:answer.written].decode("utf-8", "replace")


class _Kept:
    """An object of the library by its handle, closed at its end by the call of its kind."""

    def __init__(self, close):
        self._close = close
        self._handle = _Handle()
        self._lock = threading.Lock()

    def close(self):
        """Gives its memory back. Later calls answer the status 11."""
        with self._lock:
            if self._handle.live:
                self._close(c.byref(self._handle))

    def _do(self, call, *words):
        with self._lock:
            status = call(c.byref(self._handle), *words)
        if status not in (0, 20):
            raise _error(status, None)
        return status

    def __enter__(self):
        return self

    def __exit__(self, *_):
        self.close()

    def __del__(self):
        if getattr(self, "_handle", None) is not None:
            self.close()


class Session(_Kept):
    """Handlers that are read once, and requests served on tables that stay.

    >>> s = Session("map m; handler f(k) { let a = get(m, k); put(m, k, 1); reply a; }\\n%%\\n")
    >>> s.serve(["f a", "f a"])
    ['nil', '1']
    """

    def __init__(self, text, most_names=1_000_000, seed=None):
        super().__init__(_library.foresight_session_close)
        text = text.encode() if isinstance(text, str) else text
        seed = secrets.randbits(64) if seed is None else seed
        why, answer = c.create_string_buffer(MESSAGE_ROOM), _Answer()
        status = _library.foresight_session_open(
            c.byref(self._handle), text, c.c_size_t(len(text)), c.c_uint64(seed),
            c.c_uint32(most_names), why, c.c_size_t(MESSAGE_ROOM), c.byref(answer))
        if status:
            error = _error(status, why.raw[:answer.told].decode().strip())
            if isinstance(error, Refused):
                error.explanation = explain(text, why.raw[:answer.told])
            raise error
        # What each call of `serve` uses again, under the lock: made once, since that costs most of a
        # call of one line.
        self._why, self._served, self._size = why, _Served(), c.c_size_t()
        out = c.create_string_buffer(REPLIES_ROOM)
        self._out, self._session = memoryview(out).cast("B"), c.byref(self._handle)
        self._rooms = (self._size, out, c.c_size_t(REPLIES_ROOM), why, c.c_size_t(MESSAGE_ROOM),
                       c.byref(self._served))

    def serve(self, lines):
        """Serves requests, and returns their reply lines. If a line isn't served this raises, after the
        lines before it were served; `error.replies` has their replies, and `error.used` says how many
        lines are done with."""
        lines = list(lines)
        for line in lines:
            if "\n" in line:
                raise ValueError("more than one line")
        return self._replies("".join(f"{line}\n" for line in lines).encode())

    def request(self, line):
        """Serves one request, and returns the words of its reply."""
        if "\n" in line:
            raise ValueError("more than one line")
        replies = self._replies(f"{line}\n".encode())
        return replies[0].split() if replies else []

    def _replies(self, text):
        served, used = self._served, 0
        with self._lock:
            self._size.value = len(text)
            status = _serve(self._session, text, *self._rooms)
            replies = self._out[:served.written].tobytes()
            while status == 5:
                used += served.used
                self._size.value = len(text) - used
                rest = c.c_void_p(c.cast(text, c.c_void_p).value + used)
                status = _serve(self._session, rest, *self._rooms)
                replies += self._out[:served.written]
            if status:
                used += served.used
                older, why = served.older, self._why.raw[:served.told].decode().strip()
        answered = replies.decode().splitlines()
        if status == 0:
            return answered
        error = Delayed(older) if status == 20 else _error(status, why)
        error.replies, error.used = answered, text[:used].count(b"\n")
        raise error

    def name(self, text):
        """The number of a symbol's text, as `Name`, to be used as a key or a value of a ticket."""
        text, number = text.encode(), c.c_uint32()
        self._do(_library.foresight_session_name, text, c.c_size_t(len(text)), c.byref(number))
        return Name(number.value)

    def text(self, name):
        """The text of a name."""
        out, size = c.create_string_buffer(64), c.c_size_t()
        self._do(_library.foresight_session_text, c.c_uint32(name.number), out, c.c_size_t(64),
                 c.byref(size))
        return out.raw[:min(size.value, 64)].decode()

    def begin(self, declared):
        """Begins a ticket on the tables of the session; answers its number."""
        ticket = c.c_uint64()
        self._do(_library.foresight_session_begin, *_list(declared), c.byref(ticket))
        return ticket.value

    def call(self, ticket, kind, table, key=None, value=None):
        """Calls an operation of a ticket: its reply, or `Delayed`."""
        operation, reply, older = _operation(kind, table, key, value), _Value(), c.c_uint64()
        if self._do(_library.foresight_session_call, c.c_uint64(ticket), c.byref(operation),
                    c.byref(reply), c.byref(older)):
            raise Delayed(older.value)
        return _replied(reply)

    def narrow(self, ticket, declared):
        """Declares these in place of the ticket's own."""
        self._do(_library.foresight_session_narrow, c.c_uint64(ticket), *_list(declared))

    def end(self, ticket):
        """Ends a ticket."""
        self._do(_library.foresight_session_end, c.c_uint64(ticket))

    def counts(self):
        """What the session holds, by the fields of `struct foresight_counts`; `oldest` is None if no
        ticket is open."""
        counts = _Counts()
        self._do(_library.foresight_session_counts, c.byref(counts))
        held = {name: getattr(counts, name) for name, _ in _Counts._fields_}
        return held if held["open"] else {**held, "oldest": None}

    def renew(self):
        """Lets names go that neither handlers nor tables hold. Ask for the others' numbers anew."""
        self._do(_library.foresight_session_renew)

    def size(self, table):
        """How many entries the table of this number has."""
        size = c.c_uint32()
        self._do(_library.foresight_session_size, c.c_uint32(table), c.byref(size))
        return size.value

    def declared(self, ticket):
        """What an open ticket has declared, as `begin` takes it."""
        out, size = (_Operation * MOST_SYMBOLS)(), c.c_size_t()
        self._do(_library.foresight_session_declared, c.c_uint64(ticket), out,
                 c.c_size_t(MOST_SYMBOLS), c.byref(size))
        return [_symbol(given) for given in out[:size.value]]

    def tables(self):
        """The tables, as `foresight dump` writes them."""
        why, answer, status = c.create_string_buffer(MESSAGE_ROOM), _Answer(0, REPLIES_ROOM, 0), 5
        with self._lock:
            while status == 5:
                size = answer.needed
                out = c.create_string_buffer(size)
                status = _library.foresight_session_dump(
                    c.byref(self._handle), out, c.c_size_t(size), why, c.c_size_t(MESSAGE_ROOM),
                    c.byref(answer))
        if status:
            raise _error(status, why.raw[:answer.told].decode().strip())
        return out.raw[:answer.written].decode()


class Name:
    """A symbol, by its number among the names of a session."""

    def __init__(self, number):
        self.number = number

    def __eq__(self, other):
        return isinstance(other, Name) and self.number == other.number

    def __hash__(self):
        return hash(self.number)


def _replied(reply):
    """A reply: a number, a name, or None."""
    if reply.sort == NAME:
        return Name(reply.name)
    return reply.number if reply.sort == NUMBER else None


def _symbol(given):
    """A symbol, as `begin` takes it: its kind, its table, and what the kind has of key and value."""
    arguments = (any if part.sort == ANY else _replied(part) for part in (given.key, given.value))
    return (KINDS[given.kind], given.table, *list(arguments)[:_ARGUMENTS[given.kind]])


def _list(declared):
    """Symbols as the library takes them, and how many."""
    declared = [_operation(*symbol) for symbol in declared]
    return (_Operation * max(1, len(declared)))(*declared), c.c_size_t(len(declared))


def _value(given):
    """None is nil, a number itself, a `Name` its symbol, `any` any value."""
    if isinstance(given, Name):
        return _Value(NAME, given.number, 0)
    if given is None:
        return _Value(NIL, 0, 0)
    if given is any:
        return _Value(ANY, 0, 0)
    if not -2**63 <= given < 2**63:
        raise OverflowError("a number past 64 bits")
    return _Value(NUMBER, 0, given)


def _operation(kind, table, key=None, value=None):
    if kind not in _KIND_NUMBERS:
        raise ValueError(f"there is no operation {kind!r}: it is one of {', '.join(KINDS)}")
    return _Operation(_KIND_NUMBERS[kind], table, _value(key), _value(value))


class Tables(_Kept):
    """Tables on which tickets are driven call by call: maps, and after them sets.

    >>> t = Tables(maps=1)
    >>> n = t.begin([("bump", 0, 7, any)])
    >>> t.call(n, "bump", 0, 7, 1)
    >>> t.end(n)
    """

    def __init__(self, maps=0, sets=0):
        super().__init__(_library.foresight_tables_close)
        self._do(_library.foresight_tables_open, c.c_uint8(maps), c.c_uint8(sets))

    def begin(self, declared):
        """Begins a ticket that may call these; answers its number."""
        ticket = c.c_uint64()
        self._do(_library.foresight_ticket_begin, *_list(declared), c.byref(ticket))
        return ticket.value

    def call(self, ticket, kind, table, key=None, value=None):
        """Calls an operation of a ticket: its reply, or `Delayed`."""
        operation, reply, older = _operation(kind, table, key, value), _Value(), c.c_uint64()
        if self._do(_library.foresight_ticket_call, c.c_uint64(ticket), c.byref(operation),
                    c.byref(reply), c.byref(older)):
            raise Delayed(older.value)
        return _replied(reply)

    def narrow(self, ticket, declared):
        """Declares these in place of the ticket's own."""
        self._do(_library.foresight_ticket_narrow, c.c_uint64(ticket), *_list(declared))

    def end(self, ticket):
        """Ends a ticket."""
        self._do(_library.foresight_ticket_end, c.c_uint64(ticket))
