#!/usr/bin/env python3
"""Judges `clients` by a plain model: oracle/clients.py PROGRAM [--serve] [--runs N] [--seed N].

Each made session has 1 to 16 clients with up to 120 requests in all, each tenth with up to 2,000,
which takes eight rounds, and is served with a number of callers and shards that is drawn too. The
output has to have a line for each request, client by client and in order, with the client's number,
a ticket and the reply. The tickets have to be 0, 1, 2 and so on, each once, and rise within a
client; and the replies those of the model, which serves the requests one at a time in the order of
the tickets. With --serve the model itself is looked at: the command is `serve`, and the tickets are
the order of the file. Ends with 1 where anything else comes.
"""
import argparse
import random
import subprocess
import sys

import made
import model

# The most requests of a session; a round serves 256.
MOST = [5, 5, 5, 30, 30, 30, 120, 120, 120, 2000]


def ran(program, words, text):
    """What the program writes."""
    done = subprocess.run([program, *words], input=text, capture_output=True, text=True, timeout=60)
    if done.returncode or done.stderr:
        raise ValueError(f"status {done.returncode}: {done.stderr.strip()}")
    return done.stdout


def told(session, output, serve):
    """Each request with its ticket and its reply, as the output has them in order."""
    requests = [(client, request) for client, part in enumerate(session.clients)
                for request in part]
    lines = output.split("\n")
    if lines.pop() or len(lines) != len(requests):
        raise ValueError(f"{len(lines)} lines for {len(requests)} requests")
    found = []
    for line, (client, request) in zip(lines, requests):
        words = line.split(" ")
        if not serve and words.pop(0) != str(client):
            raise ValueError(f"another client than {client}: {line}")
        found.append((client, request, int(words[0]), words[1:]))
    return found


def judge(session, output, serve):
    """Raises where the output isn't what the model says of the tickets' order."""
    found = told(session, output, serve)
    tickets = [ticket for _, _, ticket, _ in found]
    if sorted(tickets) != list(range(len(found))):
        raise ValueError("the tickets aren't the numbers from 0 on, each once")
    last = {}
    for client, _, ticket, _ in found:
        if ticket < last.get(client, 0):
            raise ValueError(f"the tickets of client {client} don't rise")
        last[client] = ticket
    found.sort(key=lambda row: row[2])
    replies = session.replies([request for _, request, _, _ in found])
    for (client, request, ticket, values), reply in zip(found, replies):
        wanted = list(map(model.text, reply))
        if values != wanted:
            raise ValueError(f"ticket {ticket}, client {client}, {request}: {values}, not {wanted}")


def main():
    words = argparse.ArgumentParser(description="Judges `clients` by a plain model.")
    words.add_argument("program")
    words.add_argument("--serve", action="store_true")
    words.add_argument("--runs", type=int, default=1000)
    words.add_argument("--seed", type=int, default=20261128)
    given = words.parse_args()
    draw, wrong, requests, out_of_order = random.Random(given.seed), 0, 0, 0
    for run in range(given.runs):
        session = made.Maker(draw).session(draw.randint(1, 16), draw.choice(MOST))
        callers, shards = draw.choice([1, 2, 4, 8, 32]), draw.randint(1, 8)
        command = ["serve" if given.serve else "clients",
                   "--callers", str(callers), "--shards", str(shards)]
        text = session.written("" if given.serve else "%% next\n")
        try:
            output = ran(given.program, command, text)
            judge(session, output, given.serve)
            order = [ticket for _, _, ticket, _ in told(session, output, given.serve)]
            requests, out_of_order = requests + len(order), out_of_order + (order != sorted(order))
        except (ValueError, subprocess.TimeoutExpired) as fault:
            wrong += 1
            print(f"session {run}, {' '.join(command)}: {fault}")
            with open(f"wrong-{run}.session", "w", encoding="utf-8") as file:
                file.write(text)
    print(f"{given.runs} sessions, {requests} requests, {wrong} wrong; "
          f"in {out_of_order} the clients' requests were served in turns")
    sys.exit(wrong > 0)


if __name__ == "__main__":
    main()
