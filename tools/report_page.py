"""The page of tools/report.py, from what the program writes of a session."""
import os
import re
from collections import Counter
from html import escape

import report_handlers
import report_run
from report_handlers import code

HERE = os.path.dirname(os.path.realpath(__file__))
MOST = 400
LEGEND = """<p class="legend">
<span><i class="bar t0"></i> a ticket, from its begin to its end</span>
<span><i class="dot"></i> an operation that is done</span>
<span><i class="ring"></i> a delay, with an arrow to the ticket that is waited for</span>
<span><i class="bar pale"></i> the ticket waits</span></p>"""


def asset(name):
    """A file of this folder."""
    with open(os.path.join(HERE, name), encoding="utf-8") as given:
        return given.read()


def quoted(text):
    """A text with what is in back quotes as code."""
    return re.sub(r"`([^`]+)`", r"<code>\1</code>", escape(text))


def table(heads, rows):
    """A table of cells that are HTML already."""
    head = "".join(f"<th>{each}</th>" for each in heads)
    body = "".join("<tr>" + "".join(f"<td>{cell}</td>" for cell in row) + "</tr>\n"
                   for row in rows[:MOST])
    more = (f"<p class='note'>{len(rows) - MOST:,} more rows aren't shown.</p>"
            if len(rows) > MOST else "")
    return (f'<div class="wide"><table><thead><tr>{head}</tr></thead>\n'
            f"<tbody>{body}</tbody></table></div>{more}")


def ticket(run, number):
    """A ticket with its request, which lights up its events."""
    return (f'<span class="of" data-ticket="{number}"><b>{number}</b> '
            f"<code>{escape(run.request(number))}</code></span>")


def handler_of(run, number):
    """The name of a ticket's handler."""
    return (run.request(number).split() or ["?"])[0]


def kind_of(text):
    """An operation or a symbol without its values."""
    return re.sub(r", (?!any\b)[^,)]+", ", …", text)


def waits(run):
    """Who waited for whom, by handler and then each delay."""
    if not run.delays:
        return "<p>Nobody waited in this run.</p>"
    counted = Counter((handler_of(run, each.ticket), kind_of(each.operation),
                       handler_of(run, each.older), kind_of(each.symbol)) for each in run.delays)
    by_handler = [[*(f"<code>{escape(word)}</code>" for word in row), str(count)]
                  for row, count in counted.most_common()]
    each = [[ticket(run, delay.ticket), f"<code>{code(delay.operation)}</code>",
             ticket(run, delay.older), f"<code>{code(delay.symbol)}</code>",
             f"{delay.at} to {'the end' if delay.until is None else delay.until}"]
            for delay in run.delays]
    chain = report_run.longest_chain(run.delays)
    longest = " waits for ".join(ticket(run, number) for number in chain)
    heads = ["Operation", "waits for", "which may still call"]
    return (table(["Handler", *heads, "Times"], by_handler)
            + f"<p>The longest chain: {longest}.</p><h3>Each delay</h3>"
            + table(["Ticket", *heads, "Events"], each))


def requests(run):
    """Each ticket with its reply."""
    waited = Counter(delay.ticket for delay in run.delays)
    rows = [[ticket(run, number), f"<code>{code(run.replies.get(number, ''))}</code>",
             str(each.caller), str(waited[number] or "")]
            for number, each in sorted(run.tickets.items())]
    return table(["Ticket and request", "Reply", "Caller", "Delays"], rows)


def tables(shown, dumped):
    """The final tables, in the order of their declarations."""
    made = []
    lines = [line.split() for line in dumped.split("\n")[1:] if line]
    for kind, name in re.findall(r"^(map|set) (\w+);$", shown, re.M):
        rows = [[f"<code>{escape(word)}</code>" for word in words[1:]]
                for words in lines if words[0] == name]
        heads = ["Key", "Value"] if kind == "map" else ["Key"]
        size = f"{len(rows):,} {'key' if len(rows) == 1 else 'keys'}"
        made.append(f'<div class="final"><h3>{kind} <code>{name}</code>, {size}</h3>'
                    + (table(heads, rows) if rows else "") + "</div>")
    return f'<div class="finals">{"".join(made)}</div>'


def summary(session, run):
    """The numbers of the run in a sentence."""
    callers = len({each.caller for each in run.tickets.values()})
    what = ("The run with which the file ends" if session.is_stored else
            "One run; which comes is chance")
    counts = [(len(run.tickets), "ticket"), (callers, "caller"), (len(run.events), "event"),
              (len(run.delays), "delay")]
    said = ", ".join(f"{count:,} {word}{'' if count == 1 else 's'}" for count, word in counts)
    return f"{what}: {said}. <code>audit</code> says: <code>{escape(session.verdict)}</code>."


def page(session, first, count):
    """The whole page."""
    run = report_run.Run(session.requests, session.events, first, count)
    name = escape(session.name)
    remark = "".join(f"<p>{quoted(part)}</p>" for part in session.remark)
    part = ("" if run.behind - run.first == len(run.events) else
            f"<p class='note'>Events {run.first} to {run.behind - 1} of {len(run.events):,} are "
            "drawn.</p>")
    sections = [
        ("handlers", "Handlers", report_handlers.table(session.source, session.shown)),
        ("run", "A run", f"<p>{summary(session, run)}</p>{LEGEND}{part}"
         f'<div class="wide">{run.drawn()}</div>'),
        ("waits", "Who waited for whom", waits(run)),
        ("requests", "Requests and replies", requests(run)),
        ("tables", "Final tables", tables(session.shown, session.dumped))]
    links = " ".join(f'<a href="#{key}">{title}</a>' for key, title, _ in sections)
    body = "\n".join(f'<section id="{key}"><h2>{title}</h2>\n{text}</section>'
                     for key, title, text in sections)
    return (f'<!DOCTYPE html>\n<html lang="en"><head><meta charset="utf-8"><title>{name}</title>\n'
            '<meta name="viewport" content="width=device-width, initial-scale=1">\n'
            f"<style>\n{asset('report.css')}</style></head>\n<body><header><h1>{name}</h1>"
            f"{remark}<nav>{links}</nav></header>\n<main>{body}</main>\n"
            f'<div id="tip" hidden></div><script>\n{asset("report.js")}</script></body></html>\n')
