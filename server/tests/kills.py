#!/usr/bin/env python3
"""Kills under load: kills.py SERVER COUNT CONNECTIONS CHECK [snapshots] [words of the server..]

SERVER is killed by SIGKILL COUNT times at random moments while CONNECTIONS clients each send a
request, wait for its answer, and send the next. Each request has a number (ONCE), and one that has
no answer is sent again with its number to the next start. So each `take` of a client has to answer
how many there were, in order: none is lost, none is done twice; and the sum that all `plus` to is
exact. A client that only reads the sum may never see one that is later gone. At the end the server
is ended in order, and without `snapshots` its tables are compared with those that CHECK
(embedding/check.c) dumps of the log.
"""
import os
import random
import selectors
import subprocess
import sys
import tempfile
import time

from served import Client, Server, command

ROUNDS_A_SERIES = 10


class Sender:
    """A client with numbers; it survives its connections."""

    def __init__(self, name):
        self.name, self.number, self.takes, self.adds = name, 0, 0, 0
        self.waits, self.socket, self.read = False, None, b""

    def words(self):
        """Its request with the present number: `plus` and `take` by turns."""
        if self.number % 2:
            return ("ONCE", self.name, self.number, "take", self.name, 1)
        return ("ONCE", self.name, self.number, "plus", "all", 1)

    def send(self):
        """The next request, or once more the one that has no answer."""
        if not self.waits:
            self.number += 1
            self.waits = True
        self.socket.send(command(*self.words()))

    def took(self):
        """Reads; whether an answer came, which it checks."""
        some = self.socket.recv(4096)
        if not some:
            raise ConnectionError("gone")
        self.read += some
        lines = 2 if self.read.startswith(b"$") else 1
        if not self.read.endswith(b"\r\n") or self.read.count(b"\n") < lines:
            return False
        answer, self.read, self.waits = self.read, b"", False
        if self.number % 2:
            self.takes += 1
            wanted = b":%d\r\n" % self.takes
        else:
            self.adds += 1
            wanted = b"$2\r\nok\r\n"
        if answer != wanted:
            raise AssertionError(f"{self.name} {self.number}: {answer!r} in place of {wanted!r}")
        return True


class Reader:
    """A client that reads the sum: it never falls."""

    def __init__(self):
        self.seen, self.socket, self.read = 0, None, b""

    def send(self):
        """Asks for it."""
        self.socket.send(command("sum", "all"))

    def took(self):
        """Reads it."""
        some = self.socket.recv(4096)
        if not some:
            raise ConnectionError("gone")
        self.read += some
        if not self.read.endswith(b"\r\n"):
            return False
        answer, self.read = self.read, b""
        now = 0 if answer.startswith(b"$") else int(answer[1:])
        if now < self.seen:
            raise AssertionError(f"the sum was {self.seen}, and is {now}: what was seen is lost")
        self.seen = now
        return True


def load(server, clients, until):
    """Sends and reads until the moment `until` of the clock."""
    chosen = selectors.DefaultSelector()
    for client in clients:
        client.socket, client.read = server.connect(), b""
        chosen.register(client.socket, selectors.EVENT_READ, client)
        client.send()
    count = 0
    while time.monotonic() < until:
        for key, _ in chosen.select(0.01):
            if key.data.took():
                count += 1
                key.data.send()
    chosen.close()
    return count


def settle(server, clients):
    """Sends again what has no answer."""
    for client in clients:
        client.socket.close()
        if isinstance(client, Sender) and client.waits:
            client.socket, client.read = server.connect(), b""
            client.send()
            while not client.took():
                pass
            client.socket.close()


def compare(server, check):
    """The tables beside those that the library makes of the log."""
    status, text, why = server.run("--print-log")
    assert status == 0, why
    wanted = subprocess.run([check, "dump"], input=text, capture_output=True, check=False)
    assert wanted.returncode == 0, wanted.stderr
    status, tables, why = server.run("--print-tables")
    assert status == 0, why
    assert tables == wanted.stdout, "the tables aren't those of the log"
    return text.count(b"\n")


def series(program, rounds, connections, check, snapshots, words):
    """Some kills over the same data: how many answers came."""
    with tempfile.TemporaryDirectory() as folder:
        more = ["--snapshot-every", "0", "--keep-log"]
        if snapshots:
            more = ["--snapshot-every", "300", "--checkpoint", "30"]
        server = Server(program, folder, *more, *words)
        clients = [Sender(f"c{i}") for i in range(connections)] + [Reader()]
        count = 0
        for _ in range(rounds):
            server.start()
            settle(server, [c for c in clients if c.socket is not None])
            count += load(server, clients, time.monotonic() + random.uniform(0.02, 0.3))
            server.kill()
        server.start()
        settle(server, clients)
        last, adds = Client(server), sum(c.adds for c in clients if isinstance(c, Sender))
        assert last("sum", "all") in (adds, "nil"), (last("sum", "all"), adds)
        for client in clients[:-1]:
            assert last("taken", client.name) in (client.takes, "nil"), client.name
        last.close()
        assert server.stop() == 0, server.told()
        if not snapshots:
            compare(server, check)
        server.start()
        last = Client(server)
        assert last("sum", "all") in (adds, "nil"), "after the end"
        last.close()
        assert server.stop() == 0, server.told()
        return count


def main():
    """Runs all series."""
    program, kills, connections = sys.argv[1], int(sys.argv[2]), int(sys.argv[3])
    check, words = sys.argv[4], sys.argv[5:]
    snapshots = words[:1] == ["snapshots"]
    answers, left = 0, kills
    while left > 0:
        rounds = min(left, ROUNDS_A_SERIES)
        answers += series(program, rounds, connections, check, snapshots, words[snapshots:])
        left -= rounds
    print(f"kills: {os.path.basename(program)}: {kills} kills under {connections} connections"
          f"{', with snapshots' if snapshots else ''}: {answers} answers,"
          " none lost, none done twice")


main()
