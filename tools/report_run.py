"""A run of a session for the page of tools/report.py: its tickets, its delays, its timeline."""
import svg
import timeline

ROW, TOP, BAR, KINDS, LONGEST = timeline.ROW, timeline.TOP, timeline.BAR, 6, 48


class Delay:
    """An operation that waited: of which ticket, for which one and its symbol, and how long."""

    def __init__(self, at, words):
        self.at, self.ticket = at, int(words[1])
        behind = 4 + timeline.ARGUMENTS[words[2]]
        self.operation = call(words[2:behind])
        self.older, self.symbol = int(words[behind]), call(words[behind + 1:])
        self.until = None


def call(words):
    """An operation or a symbol as handlers write it."""
    return f"{words[0]}({', '.join(words[1:])})"


def delays_of(events, tickets):
    """The delays of a run, in order."""
    found = [Delay(at, line.split()) for at, line in enumerate(events) if line.startswith("delay ")]
    for delay in found:
        delay.until = next((at for at in tickets[delay.ticket].done if at > delay.at), None)
    return found


def longest_chain(delays):
    """The most tickets of which each waited for the next one when it was waited for."""
    last, chains = {}, []
    for delay in delays:
        chain = [delay.ticket, delay.older]
        if delay.older in last:
            earlier, longer = last[delay.older]
            if earlier.until is None or earlier.until > delay.at:
                chain = [delay.ticket, *longer]
        last[delay.ticket] = delay, chain
        chains.append(chain)
    return max(chains, key=len, default=[])


def replies_of(events):
    """The values of each ticket's reply."""
    ends = [line.split() for line in events if line.startswith("end ")]
    return {int(words[1]): " ".join(words[2:]) for words in ends}


class Run(timeline.Page):
    """The timeline of a run, with what is shown where the mouse rests."""

    def __init__(self, requests, events, first, count):
        super().__init__(requests, events, first, count)
        self.delays = delays_of(events, self.tickets)
        self.replies = replies_of(events)
        self.lanes = {each.number for each in self.shown}
        longest = max((len(line) for line in events[first:self.behind]), default=0)
        self.gutter = 8 + 7 * len(str(len(events)))
        self.left = self.gutter + 26 + min(longest, LONGEST) * 7.3
        self.lane = max(52, min(190, 760 // max(len(self.callers), 1)))

    def request(self, number):
        """The request of a ticket."""
        return self.requests[number] if number < len(self.requests) else ""

    def name(self, number):
        """A ticket with its request."""
        return f"{number}: {self.request(number)}".rstrip(": ")

    def told(self, at):
        """What is shown of an event."""
        kind, ticket, *words = self.events[at].split()
        if kind == "begin":
            return f"ticket {self.name(int(ticket))}\nbegins, of caller {words[0]}"
        if kind == "end":
            return f"ticket {self.name(int(ticket))}\nends, with the reply {' '.join(words)}"
        last = 2 + timeline.ARGUMENTS[words[0]]
        if kind == "done":
            return (f"ticket {self.name(int(ticket))}\n{call(words[:last])}\n"
                    f"reply: {' '.join(words[last:])}")
        older = int(words[last])
        return (f"ticket {self.name(int(ticket))}\n{call(words[:last])} waits for\n"
                f"ticket {self.name(older)},\nwhich may still call {call(words[last + 1:])}")

    def drawn(self):
        """The picture, whose colours the page says."""
        drawing = svg.Drawing("", "")
        self.put_ground(drawing)
        for ticket in self.shown:
            self.put_bar(drawing, ticket)
        for ticket in self.shown:
            self.put_delays(drawing, ticket)
        width = self.left + self.lane * len(self.callers) + 16
        height = self.row(self.behind) + 12
        return (f'<svg width="{width:.0f}" height="{height:.0f}" role="img" '
                f'viewBox="0 0 {width:.0f} {height:.0f}">'
                "<title>Events of the run, downwards; a bar is a ticket, an arrow a delay</title>"
                + "\n".join(drawing.shapes) + "</svg>")

    def put_ground(self, drawing):
        """The rows with their events' lines, and the lanes."""
        right = self.left + self.lane * len(self.callers)
        for at in range(self.first, self.behind):
            kind, ticket = self.events[at].split()[:2]
            drawing.box("stripe" if at % 2 else "row", 0, self.row(at) - ROW / 2, right + 16, ROW,
                        hover=self.told(at), data_ticket=ticket)
            drawing.write("place", self.gutter, self.row(at) + 4, str(at), text_anchor="end")
            drawing.write(f"event {kind}", self.gutter + 10, self.row(at) + 4,
                          timeline.shortened(self.events[at], LONGEST), data_ticket=ticket)
        for at, caller in enumerate(self.callers):
            x = self.left + self.lane * at
            drawing.line("lane", x, TOP - 8, x, self.row(self.behind))
            name = f"caller {caller}" if self.lane > 60 else str(caller)
            drawing.write("caller", x + 6, 24, name)

    def put_bar(self, drawing, ticket):
        """A ticket from its begin to its end, with its request and the operations that it did."""
        x, y, number = self.middle(ticket), self.row(ticket.first), ticket.number
        last = self.behind if ticket.last is None else ticket.last
        name = self.name(number)
        reply = self.replies.get(number, "none")
        drawing.box(f"ticket t{number % KINDS}", x - BAR / 2, y, BAR, self.row(last) - y,
                    hover=f"ticket {name}\nof caller {ticket.caller}\nreply: {reply}", rx=3,
                    data_ticket=number)
        for delay in self.delays:
            if delay.ticket == number:
                end = self.row(last if delay.until is None else delay.until)
                if end > self.row(delay.at):
                    drawing.box("wait", x - BAR / 2, self.row(delay.at), BAR,
                                end - self.row(delay.at), hover=self.told(delay.at),
                                data_ticket=number)
        room = int((self.lane - 38) / 6.4)
        said = timeline.shortened(name, room) if room > 4 else str(number)
        if len(said) <= room:
            drawing.write("name", x + BAR / 2 + 6, y + 12, said, data_ticket=number)
        for at in ticket.done:
            if self.first <= at < self.behind:
                drawing.put("circle", hover=self.told(at), class_="done", cx=x, cy=self.row(at),
                            r=4, data_ticket=number)

    def put_delays(self, drawing, ticket):
        """An arrow from each delay to the ticket that was waited for."""
        x, number = self.middle(ticket), ticket.number
        for at, older in ticket.delays:
            if not self.first <= at < self.behind or older not in self.lanes:
                continue
            y, to = self.row(at), self.middle(self.tickets[older])
            side = -1 if to < x else 1
            tip = to - side * BAR / 2
            drawing.line("blocked", x, y, tip - side * 6, y, data_ticket=number)
            drawing.put("path", class_="head", d=f"M{tip:.1f} {y:.1f}l{-7 * side} -4v8z",
                        data_ticket=number)
            drawing.put("circle", hover=self.told(at), class_="delay", cx=x, cy=y, r=4.5,
                        data_ticket=number)
