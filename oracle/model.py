"""A plain model of the handler language: what the judges of clients and of traces stand on.

A value is None for nil, an int, or a str for a symbol. Tables are dicts and sets. A request is
served whole before the next one begins; nothing here knows of callers, shards or declarations.
"""
import operator

LEAST, MOST = -(1 << 63), (1 << 63) - 1
SIGNS = {"+": operator.add, "-": operator.sub, "*": operator.mul}
COMPARES = {"==": operator.eq, "!=": operator.ne, "<": operator.lt, "<=": operator.le}


def is_number(value):
    return isinstance(value, int)


def kept(value):
    """A number of 64 bits, else nil."""
    return value if LEAST <= value <= MOST else None


def wrapped(value):
    """The number of 64 bits that is congruent to it."""
    return (value - LEAST) % (1 << 64) + LEAST


def text(value):
    """A value as requests and replies have it."""
    return "nil" if value is None else str(value)


def bump(table, key, by):
    """A key's number and another one are added."""
    if is_number(by) and (key not in table or is_number(table[key])):
        table[key] = wrapped(table.get(key, 0) + by)


def swap(table, key, value):
    """The old value of a key, which is bound to another one."""
    old = table.get(key)
    table[key] = value
    return old


def add(table, key):
    """1 where the key was no member, else 0; it is one behind this."""
    fresh = int(key not in table)
    table.add(key)
    return fresh


OPERATIONS = {
    "map": {"get": lambda t, k: t.get(k), "put": lambda t, k, v: t.__setitem__(k, v), "swap": swap,
            "del": lambda t, k: (t.pop(k, None), None)[1], "size": len, "bump": bump},
    "set": {"has": lambda t, k: int(k in t), "add": add, "mark": lambda t, k: t.add(k),
            "drop": lambda t, k: t.discard(k), "count": len},
}
KINDS = {"map": {"get": 1, "put": 2, "swap": 2, "del": 1, "size": 0, "bump": 2},
         "set": {"has": 1, "add": 1, "mark": 1, "drop": 1, "count": 0}}


class Served:
    """One request being served: the values of its variables, over tables, and what it has done."""

    def __init__(self, session, tables, variables):
        self.session, self.tables, self.variables, self.done = session, tables, variables, []

    def value(self, e):
        """The value of an expression."""
        if e[0] == "literal":
            return e[1]
        if e[0] == "variable":
            return self.variables[e[1]]
        left, right = self.value(e[1]), self.value(e[2])
        both = is_number(left) and is_number(right)
        return kept(SIGNS[e[0]](left, right)) if both else None

    def holds(self, sign, left, right):
        """Whether a comparison holds."""
        left, right = self.value(left), self.value(right)
        if sign in ("<", "<="):
            return is_number(left) and is_number(right) and COMPARES[sign](left, right)
        return COMPARES[sign](left, right)

    def right(self, right):
        """The value of a right side; an operation is done."""
        if right[0] != "do":
            return self.value(right)
        _, word, name, arguments = right
        call = (word, name, *map(self.value, arguments))
        reply = self.answer(call)
        self.done.append((call, reply))
        return reply

    def answer(self, call):
        """The reply of an operation, which is done."""
        return self.session.apply(self.tables, call)

    def block(self, block):
        """Does the statements; the values of the reply, if there is one."""
        for statement in block:
            replied = self.statement(*statement)
            if replied is not None:
                return replied
        return None

    def statement(self, kind, *parts):
        """Does one statement."""
        if kind == "reply":
            return [self.value(e) for e in parts[0]]
        if kind == "if":
            sign, left, right, then, other = parts
            return self.block(then if self.holds(sign, left, right) else other)
        if kind == "repeat":
            turns, name, block = parts
            for turn in range(turns):
                self.variables[name] = turn
                replied = self.block(block)
                if replied is not None:
                    return replied
            return None
        name, right = parts
        value = self.right(right)
        if name is not None:
            self.variables[name] = value
        return None


class Pending(Exception):
    """A call for which there is no reply yet."""


class Answered(Served):
    """One request whose operations are answered by a list of replies."""

    def __init__(self, session, variables, replies):
        super().__init__(session, None, variables)
        self.replies = iter(replies)

    def answer(self, call):
        for reply in self.replies:
            return reply
        raise Pending(call)


class Session:
    """Tables by name with their kinds, their entries, handlers, and requests by client."""

    def __init__(self, tables, opening, handlers, clients):
        self.tables, self.opening, self.handlers, self.clients = tables, opening, handlers, clients

    def apply(self, tables, call):
        """Does an operation: its word, its table and its arguments. The reply."""
        word, name, *arguments = call
        return OPERATIONS[self.tables[name]][word](tables[name], *arguments)

    def opened(self):
        """The tables as they open."""
        tables = {name: {} if kind == "map" else set() for name, kind in self.tables.items()}
        for name, *entry in self.opening:
            self.apply(tables, ("put" if len(entry) > 1 else "mark", name, *entry))
        return tables

    def serial(self, requests):
        """What each of these requests did, with its reply, where they are served in this order."""
        tables, served = self.opened(), []
        for name, *arguments in requests:
            parameters, block = self.handlers[name]
            one = Served(self, tables, dict(zip(parameters, arguments)))
            reply = one.block(block) or [None]
            served.append((one.done, reply))
        return served

    def step(self, request, replies):
        """What comes after these replies: a call, or None and the values of the reply."""
        name, *arguments = request
        parameters, block = self.handlers[name]
        try:
            served = Answered(self, dict(zip(parameters, arguments)), replies)
            return None, served.block(block) or [None]
        except Pending as pending:
            return pending.args[0], None

    def replies(self, requests):
        """The replies of serving these requests one at a time, in this order."""
        return [reply for _, reply in self.serial(requests)]

    def written(self, between):
        """The session file; between two clients' requests stands this text."""
        lines = [f"{kind} {name};" for name, kind in self.tables.items()]
        for name, (parameters, block) in self.handlers.items():
            lines += [f"handler {name}({', '.join(parameters)}) {{", *block_lines(block), "}"]
        if self.opening:
            lines += ["%% tables", *(" ".join(map(text, entry)) for entry in self.opening)]
        parts = ["".join(" ".join(map(text, request)) + "\n" for request in client)
                 for client in self.clients]
        return "\n".join([*lines, "%%", between.join(parts)])


def expression(e):
    """An expression as handlers have it."""
    if e[0] == "literal":
        return f"'{e[1]}" if isinstance(e[1], str) else text(e[1])
    if e[0] == "variable":
        return e[1]
    sides = [f"({expression(side)})" if side[0] in SIGNS else expression(side) for side in e[1:]]
    return f" {e[0]} ".join(sides)


def right_side(right):
    """An operation or an expression as handlers have it."""
    if right[0] != "do":
        return expression(right)
    _, word, name, arguments = right
    return f"{word}({', '.join([name, *map(expression, arguments)])})"


def block_lines(block):
    """The lines of a block."""
    lines = []
    for kind, *parts in block:
        if kind == "reply":
            lines.append(f"reply {', '.join(map(expression, parts[0]))};")
        elif kind == "if":
            sign, left, right, then, other = parts
            lines.append(f"if {expression(left)} {sign} {expression(right)} {{")
            lines += [*block_lines(then), "} else {", *block_lines(other), "}"]
        elif kind == "repeat":
            turns, name, inner = parts
            lines += [f"repeat {turns} as {name} {{", *block_lines(inner), "}"]
        else:
            name, right = parts
            before = {"let": f"let {name} = ", "set": f"{name} = ", "do": ""}[kind]
            lines.append(f"{before}{right_side(right)};")
    return lines
