#!/usr/bin/env python3
"""Tries a server over the library: servers.py FORESIGHT term|stdin SERVER..: `term` where it ends by
SIGTERM, `stdin` where it ends with its input.

Clients' replies are compared with those of `FORESIGHT serve` to the same lines, and the tables that
the server writes at its end with those of `FORESIGHT dump`. Then what a client may do wrong: lines that
break each rule, one too long, bytes that are no text, half a line at its end, and no reading at all.
"""
import os
import signal
import socket
import subprocess
import sys
import tempfile
import threading
import time

HANDLERS = """map seats;
set online;
handler login(u, now) { let old = swap(seats, u, now); mark(online, u); reply old; }
handler logout(u) { del(seats, u); drop(online, u); }
handler seen(u) { let at = get(seats, u); let on = has(online, u); reply at, on; }
handler crowd() { let n = count(online); reply n; }
%%
"""
LONG = 65536
failures = []


def want(is_well, what):
    """Notes what isn't as it should be."""
    if not is_well:
        failures.append(what)
        print(f"servers: {what}")


def made(count, name, start):
    """Lines of requests, of users with this name."""
    x, lines = start, []
    for _ in range(count):
        x = (x * 1103515245 + 12345) % 4294967296
        user = f"{name}{x // 65536 % 100}"
        lines.append([f"login {user} {x % 1000}", f"logout {user}", f"seen {user}"][x // 7 % 3])
    return lines


def answers(program, command, lines):
    """What the program answers to a file with these lines."""
    text = HANDLERS + "".join(f"{line}\n" for line in lines)
    ran = subprocess.run([program, command], input=text.encode(), capture_output=True, check=True)
    return ran.stdout.decode().splitlines()


def due(program, lines):
    """The replies of lines, without their tickets."""
    return [line.split(" ", 1)[1] if " " in line else "" for line in answers(program, "serve", lines)]


class Client:
    """A client that sends bytes and reads lines."""

    def __init__(self, at):
        self.at = socket.socket(socket.AF_UNIX if isinstance(at, str) else socket.AF_INET)
        self.at.settimeout(20)
        self.at.connect(at)
        self.read = b""

    def lines(self, count):
        """So many lines."""
        while self.read.count(b"\n") < count:
            got = self.at.recv(65536)
            if not got:
                raise EOFError("the server closed the connection")
            self.read += got
        *lines, self.read = self.read.split(b"\n", count)
        return [line.decode() for line in lines]

    def ask(self, *lines):
        """Sends lines; answers as many."""
        sent = [line if isinstance(line, bytes) else line.encode() for line in lines]
        self.at.sendall(b"".join(line + b"\n" for line in sent))
        return self.lines(len(lines))


def in_pieces(client, lines, size):
    """Sends lines in pieces that end anywhere, while their replies are read."""
    text = "".join(f"{line}\n" for line in lines).encode()

    def send():
        for at in range(0, len(text), size):
            client.at.sendall(text[at:at + size])

    sender = threading.Thread(target=send)
    sender.start()
    got = client.lines(len(lines))
    sender.join()
    return got


def try_clients(program, places):
    """Clients one after another, and some at a time; answers the lines that were served."""
    first, second = made(4000, "u", 1), made(300, "u", 2)
    wanted = due(program, first + second)
    want(in_pieces(Client(places[0]), first, 1013) == wanted[:4000], "other replies to one client")
    client = Client(places[1])
    want([client.ask(line)[0] for line in second] == wanted[4000:], "other replies one by one")
    lots = [made(500, f"c{i}x", i) for i in range(8)]
    got = [None] * len(lots)

    def run(i):
        got[i] = in_pieces(Client(places[i % 2]), lots[i], 97 + i)

    threads = [threading.Thread(target=run, args=(i,)) for i in range(len(lots))]
    for thread in threads:
        thread.start()
    for thread in threads:
        thread.join()
    for i, lot in enumerate(lots):
        want(got[i] == due(program, lot), f"other replies to client {i} of {len(lots)} at a time")
    return first + second + [line for lot in lots for line in lot]


def try_faults(place):
    """What a client may do wrong. It leaves the tables as they are."""
    client = Client(place)
    crowd, = client.ask("crowd")
    rows = [("nobody 1", "! unknown handler"), ("login u1", "! wrong number of arguments"),
            ("login u1 9223372036854775808", "! a word that is no value"),
            (b"seen \xff", "! not text"), (b"\xc3\x28", "! not text"), ("crowd", crowd),
            ("seen " + "u" * (LONG - 10), "! a word that is no value"),
            ("seen " + "u" * LONG, "! a line too long"), ("x" * (5 * LONG), "! a line too long")]
    want(client.ask(*[line for line, _ in rows]) == [answer for _, answer in rows],
         "other answers to lines that break a rule")
    for line, answer in rows:
        want(client.ask(line) == [answer], f"another answer to {line[:40]}")
    client.at.sendall(b"\n  \n# none\ncrowd\n")
    want(client.lines(1) == [crowd], "an answer to lines without words")
    for half in (b"login half 1", b"login half", b"logout"):
        ends = Client(place)
        ends.at.sendall(b"crowd\n" + half)
        want(ends.lines(1) == [crowd], "another answer before half a line")
        ends.at.close()
    time.sleep(0.3)
    want(client.ask("seen half", "crowd") == ["nil 0", crowd], "half a line was served")
    ends = Client(place)
    ends.at.sendall(b"crowd\n" * 5000)
    ends.at.close()
    want(client.ask("crowd") == [crowd], "another answer behind a client that went away")


def try_no_reader(place):
    """A client that sends without end and never reads hinders nobody, and is let go."""
    client, mute = Client(place), Client(place)
    mute.at.setblocking(False)
    until, sent = time.monotonic() + 15, 0
    slowest = 0.0
    while time.monotonic() < until:
        try:
            sent += mute.at.send(b"crowd\n" * 1000)
        except BlockingIOError:
            time.sleep(0.05)
        except OSError:
            break
        began = time.monotonic()
        client.ask("crowd")
        slowest = max(slowest, time.monotonic() - began)
    want(time.monotonic() < until, "a client that never reads isn't let go")
    want(slowest < 4, f"a client waited {slowest:.1f} s for one that never reads")
    return sent


def main():
    """Runs the server in a folder of its own."""
    program, how, *server = sys.argv[1:]
    with tempfile.TemporaryDirectory() as work:
        handlers, path = f"{work}/handlers", f"{work}/socket"
        with open(handlers, "w", encoding="utf-8") as file:
            file.write(HANDLERS)
        with subprocess.Popen([*server, handlers, "unix", path, "tcp", "0"], stdin=subprocess.PIPE,
                              stdout=subprocess.PIPE, stderr=subprocess.PIPE, text=True) as run:
            said = [run.stderr.readline() for _ in range(2)]
            places = [path, ("127.0.0.1", int(said[1].split()[-1]))]
            lines = try_clients(program, places)
            try_faults(places[0])
            try_faults(places[1])
            try_no_reader(places[1])
            if how == "term":
                run.send_signal(signal.SIGTERM)
            tables, _ = run.communicate(timeout=20)
            want(run.returncode == 0, f"the server ended with {run.returncode}")
            want(sorted(tables.splitlines()) == sorted(answers(program, "dump", lines)),
                 "other tables at the server's end")
    print(f"servers: {os.path.basename(server[-1])}: {len(lines)} requests"
          f"{', as they should be' if not failures else ''}")
    return bool(failures)


if __name__ == "__main__":
    sys.exit(main())
