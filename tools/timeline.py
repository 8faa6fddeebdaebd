#!/usr/bin/env python3
"""Draws a trace as an SVG: tools/timeline.py [--from N] [--count N] TRACE > PICTURE.

TRACE is what `trace` writes, or a session file followed by it: then the requests name the
tickets. Events go down the page, with their lines at the left. Each caller has a lane, each
ticket a bar from its begin to its end; a full dot is an operation that was done, a hollow one a
delay, from which an arrow goes to the ticket that was waited for, and the bar is pale until the
operation is done. Where the mouse rests on a mark its line is shown. --from and --count (60)
choose the events.
"""
import argparse
import sys

import svg

MARK = "%% trace"
ARGUMENTS = {"get": 1, "put": 2, "swap": 2, "del": 1, "size": 0, "bump": 2,
             "has": 1, "add": 1, "mark": 1, "drop": 1, "count": 0}
COLOURS = ["#8fb8de", "#9fd3a8", "#f0c987", "#d5a6d8", "#e6a39a", "#a8d5d2"]
STYLES = f"""
text {{ {svg.FONT}; font-size: 11px; fill: #222 }}
.event {{ {svg.FIXED} }}
.place, .caller {{ fill: #777 }}
.stripe {{ fill: #f5f5f5 }}
.lane {{ stroke: #ddd }}
.ticket {{ stroke: #666; stroke-width: 0.7 }}
.wait {{ fill: #fff; fill-opacity: 0.65 }}
.done {{ fill: #222 }}
.delay {{ fill: #fff; stroke: #b3261e; stroke-width: 1.6 }}
.blocked {{ stroke: #b3261e; stroke-width: 1.4 }}
.head {{ fill: #b3261e }}
"""
ROW, TOP, BAR = 18, 40, 22


class Ticket:
    """A ticket's bar: its caller, its first and last event, what it waited for and did."""

    def __init__(self, number, caller, first):
        self.number, self.caller, self.first, self.last = number, caller, first, None
        self.done, self.delays = [], []

    def waits(self):
        """From each delay to the next operation that was done: the event of each, or None."""
        for at, _ in self.delays:
            yield at, next((done for done in self.done if done > at), None)


def read(text):
    """The lines of the requests, if they stand before the trace, and of the events."""
    lines = [line.split("#")[0].rstrip(" \t\r") for line in text.split("\n")]
    if MARK not in lines:
        sys.exit(f"no line `{MARK}`")
    mark = lines.index(MARK)
    before = lines[lines.index("%%") + 1:mark] if "%%" in lines[:mark] else []
    return [line.strip() for line in before if line.split()], [
        " ".join(line.split()) for line in lines[mark + 1:] if line.split()]


def tickets_of(events):
    """Each ticket of a trace, by its number."""
    tickets = {}
    for at, line in enumerate(events):
        try:
            put_event(tickets, at, *line.split())
        except (TypeError, ValueError, IndexError, KeyError):
            sys.exit(f"no event of a trace, or one of a ticket that isn't begun: {line}")
    return tickets


def put_event(tickets, at, kind, number, *words):
    """One event joins its ticket."""
    if kind == "begin":
        tickets[int(number)] = Ticket(int(number), int(words[0]), at)
        return
    ticket = tickets[int(number)]
    if kind == "done":
        ticket.done.append(at)
    elif kind == "delay":
        older = int(words[2 + ARGUMENTS[words[0]]])
        ticket.delays.append((at, tickets[older].number))
    elif kind == "end":
        ticket.last = at
    else:
        raise ValueError


def shortened(text, room):
    """The text, or its front where it has more characters than there is room for."""
    return text if len(text) <= room else text[:max(room - 1, 0)] + "…"


class Page:
    """The part of a trace that is drawn, and where its rows and lanes stand."""

    def __init__(self, requests, events, first, count):
        self.requests, self.events, self.tickets = requests, events, tickets_of(events)
        self.first, self.behind = first, min(first + count, len(events))
        self.shown = [t for t in self.tickets.values() if t.first < self.behind and (
            t.last is None or t.last >= first)]
        self.callers = sorted({t.caller for t in self.shown})
        longest = max((len(line) for line in events[first:self.behind]), default=0)
        self.left = 50 + min(longest, 48) * 6.7
        self.lane = max(34, min(150, 700 // max(len(self.callers), 1)))

    def row(self, at):
        """The middle of an event's row; outside the page its edge."""
        return TOP + ROW * (min(max(at, self.first - 0.5), self.behind - 0.5) - self.first + 0.5)

    def middle(self, ticket):
        return self.left + self.lane * self.callers.index(ticket.caller) + BAR / 2 + 6

    def draw(self):
        """The whole picture."""
        drawing = svg.Drawing("Tickets, operations and delays of a trace", STYLES)
        self.put_ground(drawing)
        for ticket in self.shown:
            self.put_bar(drawing, ticket)
        for ticket in self.shown:
            self.put_delays(drawing, ticket)
        width = self.left + self.lane * len(self.callers) + 16
        return drawing.text(width, self.row(self.behind) + 12)

    def put_ground(self, drawing):
        """The rows with their events' lines, and the lanes."""
        right = self.left + self.lane * len(self.callers)
        for at in range(self.first, self.behind):
            if at % 2:
                drawing.box("stripe", 0, self.row(at) - ROW / 2, right, ROW)
            drawing.write("place", 28, self.row(at) + 4, str(at), text_anchor="end")
            drawing.write("event", 38, self.row(at) + 4, shortened(self.events[at], 48),
                          hover=self.events[at])
        for at, caller in enumerate(self.callers):
            x = self.left + self.lane * at
            drawing.line("lane", x, TOP - 8, x, self.row(self.behind))
            name = f"caller {caller}" if self.lane > 60 else str(caller)
            drawing.write("caller", x + 6, 24, name)

    def put_bar(self, drawing, ticket):
        """A ticket from its begin to its end, with its request and the operations that it did."""
        x, y = self.middle(ticket), self.row(ticket.first)
        last = self.behind if ticket.last is None else ticket.last
        request = (self.requests[ticket.number] if ticket.number < len(self.requests) else "")
        name = f"{ticket.number}: {request}".rstrip(": ")
        drawing.box("ticket", x - BAR / 2, y, BAR, self.row(last) - y, hover=f"ticket {name}",
                    fill=COLOURS[ticket.number % len(COLOURS)], rx=3)
        for at, behind in ticket.waits():
            end = self.row(last if behind is None else behind)
            if end > self.row(at):
                drawing.box("wait", x - BAR / 2, self.row(at), BAR, end - self.row(at),
                            hover=f"ticket {ticket.number} waits")
        drawing.write("name", x + BAR / 2 + 5, y + 12, shortened(name, int(self.lane - 36) // 6))
        for at in ticket.done:
            if self.first <= at < self.behind:
                drawing.put("circle", hover=self.events[at], class_="done",
                            cx=x, cy=self.row(at), r=4)

    def put_delays(self, drawing, ticket):
        """An arrow from each delay to the ticket that was waited for."""
        x = self.middle(ticket)
        for at, older in ticket.delays:
            if not self.first <= at < self.behind:
                continue
            y, to = self.row(at), self.middle(self.tickets[older])
            side = -1 if to < x else 1
            tip = to - side * BAR / 2
            drawing.line("blocked", x, y, tip - side * 6, y)
            drawing.put("path", class_="head",
                        d=f"M{tip:.1f} {y:.1f}l{-7 * side} -4v8z")
            drawing.put("circle", hover=self.events[at], class_="delay", cx=x, cy=y, r=4)


def main():
    words = argparse.ArgumentParser(description="Draws a trace as an SVG.")
    words.add_argument("trace")
    words.add_argument("--from", dest="first", type=int, default=0)
    words.add_argument("--count", type=int, default=60)
    given = words.parse_args()
    with open(given.trace, encoding="utf-8") as file:
        requests, events = read(file.read())
    sys.stdout.write(Page(requests, events, given.first, given.count).draw())


if __name__ == "__main__":
    main()
