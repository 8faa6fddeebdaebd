#!/usr/bin/env python3
"""What clients meet: clients.py SERVER LOSSY_SERVER [test_NAME..]

Each `test_` below is one case. LOSSY_SERVER is one over the disk of cut.c, whose syncs can be made
slow or fail.
"""
import socket
import subprocess
import sys
import time

from served import Client, Server, command, run_cases

PROGRAM, LOSSY = sys.argv[1], sys.argv[2]


def lines(server, text, count):
    """Sends lines; the next `count` lines of answers."""
    with server.connect() as made:
        made.settimeout(10)
        made.sendall(text.encode())
        with made.makefile("r", encoding="utf-8") as read:
            return [read.readline().rstrip("\n") for _ in range(count)]


def test_lines(folder):
    """Lines: replies, refusals, comments, PING, a retry, a long line, bytes that are no text."""
    server = Server(PROGRAM, folder).start()
    asked = "PING\ntake a 1\n\n# comment\ntake a 1 # two\nnone 1\ntake a\ntake a 'b\n" \
        "@x:1 take a 1\n@x:1 take a 1\n@x:1 take a 2\n@x take a 1\nboth a\n"
    got = lines(server, asked, 11)
    assert got[:3] == ["PONG", "1", "2"], got
    assert [g[:13] for g in got[3:6]] == [f"! refused Q{i}:" for i in (1, 2, 3)], got
    assert got[6:9] == ["3", "3", "! the number was used for another request"], got
    assert got[9:] == ["! @client:number handler args..", "nil 3 x nil"], got
    assert lines(server, "x" * 200000 + "\ntake a 1\n", 2) == ["! a line too long", "4"]
    with server.connect() as made:
        made.sendall(b"\xff\x00\x1b 1\ntake a \xc3\xa4\ntake a 1\n")
        read = made.makefile("rb")
        got = [read.readline() for _ in range(3)]
        assert [line[:1] for line in got] == [b"!", b"!", b"5"] and b"\x1b" not in got[0], got
        read.close()
    assert server.stop() == 0


def test_resp(folder):
    """RESP: forms of replies, words that aren't values, Redis' words, requests in many pieces."""
    server = Server(PROGRAM, folder).start()
    client = Client(server)
    assert client("PING") == "PONG" and client("ping", "x") == "x"
    assert client("FCALL", "take", 1, "a", 5) == 5 and client("take", "a", -7) == -2
    assert client("both", "a") == ["nil", -2, "x", "nil"] and client("sum", "no") == "nil"
    for word in ("a b", "a#", "", "a\nstore a 9", "'a", "9223372036854775808", "+1", "a\0", "-",
                 "x" * 65):
        assert client("store", "a", word).startswith("-ERR refused Q3"), word
        assert client("FCALL", "store", 0, word, 1).startswith("-ERR refused Q3"), word
    for word in ("9223372036854775807", "-9223372036854775808", "007", "a@b.c:d-e_f", "x" * 64,
                 "nil"):
        assert str(client("store", "b", word)).lstrip("0") == word.lstrip("0"), word
    assert client("taken", "a") == -2
    assert client("FCALL", "take", 3, "a", 5)[:4] == "-ERR"
    assert client("take", *range(100))[:4] == "-ERR"
    assert client("HELLO", 3).startswith("-NOPROTO") and client("HELLO", 2)[3] == 2
    assert client("MULTI").startswith("-ERR there is no MULTI") and client("SELECT", 0) == "OK"
    assert client("SELECT", 1)[:4] == "-ERR" and client("COMMAND", "DOCS") == []
    assert "position:" in client("INFO") and "foresight_served_total" in client("METRICS")
    for byte in command("take", "slow", 1):
        client.socket.sendall(bytes([byte]))
        time.sleep(0.001)
    assert client.answer() == 1
    client.socket.sendall(command("take", "many", 1) * 1000)
    assert [client.answer() for _ in range(1000)] == list(range(1, 1001))
    assert client("QUIT") == "OK" and client.answer() is None
    for wrong in (b"*x\r\n", b"*1\r\n:1\r\n", b"*1\r\n$99999999\r\n", b"*99999\r\n",
                  b"*" + b"1" * 40):
        client = Client(server)
        client.socket.sendall(wrong)
        assert client.answer().startswith("-ERR Protocol error"), wrong
        assert client.answer() is None
    assert server.stop() == 0


def test_redis_programs(folder):
    """redis-cli and redis-benchmark as they are."""
    server = Server(PROGRAM, folder).start()
    cli = ["redis-cli", "-s", server.path]
    said = subprocess.run([*cli, "FCALL", "take", "1", "a", "3"], capture_output=True, check=True)
    assert said.stdout == b"3\n", said
    said = subprocess.run(cli, input=b"take a 4\nboth a\nQUIT\n", capture_output=True, check=True)
    assert said.stdout.startswith(b"7\n\n7\nx\n"), said
    bench = ["redis-benchmark", "-s", server.path, "-n", "2000", "-c", "20", "-q"]
    subprocess.run([*bench, "-t", "ping_mbulk"], capture_output=True, check=True, timeout=60)
    done = subprocess.run([*bench, "-r", "100", "FCALL", "take", "1", "__rand_int__", "1"],
                          capture_output=True, check=True, timeout=60)
    assert b"requests per second" in done.stdout, done
    client = Client(server)
    got = [client("taken", f"{key:012}") for key in range(100)]
    assert sum(g for g in got if g != "nil") == 2000, got
    assert server.stop() == 0


def test_password(folder):
    """Beyond loopback only with a password; before AUTH nothing is served."""
    with open(f"{folder}/password", "w", encoding="utf-8") as out:
        out.write("secret word\n")
    server = Server(PROGRAM, folder)
    status, _, why = server.run("--listen", "0.0.0.0:0")
    assert status == 2 and "password" in why, (status, why)
    server.start("--password-file", f"{folder}/password", "--listen", "0.0.0.0:0")
    while "port " not in server.told():
        time.sleep(0.01)
    port = int(server.told().rsplit("port ", 1)[1].split()[0])
    client = Client(socket.create_connection(("127.0.0.1", port)))
    assert client("take", "a", 1).startswith("-NOAUTH")
    assert client("AUTH", "x").startswith("-WRONGPASS")
    assert client("PING").startswith("-NOAUTH") and client("AUTH", "secret word") == "OK"
    assert client("take", "a", 1) == 1
    assert lines(server, "take a 1\n", 1)[0].startswith("! NOAUTH")
    assert server.stop() == 0


def test_bounds(folder):
    """Connections, silence, a client that doesn't read, names, a full queue, names of commands."""
    handlers = "map m; handler info(k) { reply k; } handler store(k, v) { put(m, k, v); reply v; }"
    server = Server(LOSSY, folder, "--connections", "3", "--idle", "1", "--send", "1", "--queue",
                    "5", "--most-names", "12", env={"CUT_FAULT": "slow:200"}, handlers=handlers)
    server.start()
    time.sleep(0.3)  # so that the connection that start tried is gone
    assert "`info` has a command's name" in server.told()
    held = [Client(server) for _ in range(3)]
    assert held[0]("FCALL", "info", 0, 7) == 7 and held[1]("PING") == held[2]("PING") == "PONG"
    more = Client(server)
    assert more.answer() == "-ERR max number of clients reached" and more.answer() is None
    time.sleep(2.5)
    assert held[0].answer() is None, "silent for too long"
    deaf = Client(server)
    deaf.socket.setsockopt(socket.SOL_SOCKET, socket.SO_RCVBUF, 4096)
    deaf.socket.settimeout(8)
    try:
        while True:
            deaf.socket.sendall(command("INFO") * 100)
    except OSError as ended:
        assert not isinstance(ended, TimeoutError), "it doesn't read, and keeps its connection"
    client = Client(server)
    client.socket.sendall(command("store", 1, 1) * 40)
    got = [client.answer() for _ in range(40)]
    assert 1 in got and any(str(g).startswith("-BUSY") for g in got), got
    got = [client("store", f"word{i}", i) for i in range(12)]
    assert got[0] == 0 and got[-1].startswith("-ERR too many names"), got
    assert client("store", 1, 2) == 2
    assert server.stop() == 0


def test_silent(folder):
    """Silent connections keep nobody out."""
    server = Server(PROGRAM, folder, "--connections", "20", data=False).start()
    time.sleep(0.3)
    silent = [server.connect() for _ in range(20)]
    time.sleep(1.2)
    clients = [Client(server) for _ in range(20)]
    assert [client("PING") for client in clients] == ["PONG"] * 20
    more = Client(server)
    assert more.answer() == "-ERR max number of clients reached", "those that have spoken stay"
    for one in silent:
        one.close()
    assert server.stop() == 0


def test_fair(folder):
    """Beside a client that asks for heavy handlers without end another one is answered soon."""
    server = Server(PROGRAM, folder, data=False).start()
    heavy, client, times = Client(server), Client(server), []
    heavy.socket.setblocking(False)
    for _ in range(100):
        try:
            heavy.socket.send(command("heavy") * 200)
            heavy.socket.recv(1 << 20)
        except OSError:
            pass
        began = time.monotonic()
        assert client("take", "a", 1) > 0
        times.append(time.monotonic() - began)
    print(f"    beside heavy requests: median {sorted(times)[50] * 1e3:.1f} ms,"
          f" worst {max(times) * 1e3:.1f} ms")
    server.kill()


run_cases("clients", globals(), sys.argv[3:])
