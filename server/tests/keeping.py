#!/usr/bin/env python3
"""What is kept: keeping.py SERVER LOSSY_SERVER [test_NAME..]

Each `test_` below is one case, as in clients.py: commits, faults of the disk, retries, snapshots,
copies, other handlers.
"""
import os
import shutil
import signal
import sys
import time

from served import HANDLERS, Client, Server, run_cases

PROGRAM, LOSSY = sys.argv[1], sys.argv[2]


def test_held_commit(folder):
    """While a commit is held, no answer that may depend on it goes out; a retry waits for it."""
    server = Server(LOSSY, folder, env={"CUT_FAULT": "slow:500"}).start()
    one, two, three = Client(server), Client(server), Client(server)
    began = time.monotonic()
    one.send("ONCE", "c", 1, "take", "a", 1)
    time.sleep(0.1)
    two.send("taken", "a")
    three.send("ONCE", "c", 1, "take", "a", 1)
    two.socket.settimeout(0.2)
    try:
        got = two.answer()
    except OSError:
        got = "waits"
    assert got == "waits", got
    two.read.close()
    assert one.answer() == 1 and three.answer() == 1 and time.monotonic() - began > 0.45
    four = Client(server)
    assert four("taken", "a") == 1
    server.kill()


def test_faults(folder):
    """A sync that fails, a disk that is full: UNKNOWN, a status of its own, nothing tried again;
    the next start has all that was answered, and a retry isn't done twice."""
    told = []
    for fault in ("sync:30", "write:40", *(f"sync:{n}" for n in range(20, 26)), "write:61",
                  "write:62"):
        shutil.rmtree(folder)
        os.mkdir(folder)
        server = Server(LOSSY, folder, "--checkpoint", "12").start(env={"CUT_FAULT": fault})
        client, number, got = Client(server), 0, 0
        while got == number < 200:
            number += 1
            try:
                got = client("ONCE", "c", number, "take", "a", 1)
            except OSError:
                got = None  # it was gone before
        assert got in ("-UNKNOWN: retry with your number", None), (fault, got)
        told.append(got)
        assert server.process.wait(timeout=10) == 6, server.told()
        assert "AGAIN" not in server.told(), server.told()
        server.start()
        client = Client(server)
        assert client("taken", "a") in (number - 1, number, "nil")
        assert client("ONCE", "c", number, "take", "a", 1) == number
        assert client("ONCE", "c", number + 1, "take", "a", 1) == number + 1
        assert server.stop() == 0
    assert len([got for got in told if got]) > len(told) / 2, told


def test_once(folder):
    """Windows, forgotten clients, and both after a start, from the log and from a snapshot."""
    server = Server(PROGRAM, folder, "--once-window", "4", "--once-clients", "2",
                    "--snapshot-every", "0").start()
    client = Client(server)
    for number in range(1, 9):
        assert client("ONCE", "c", number, "take", "a", 1) == number
    for how in ("kill", "stop", "kill"):
        assert [client("ONCE", "c", n, "take", "a", 1) for n in (5, 8)] == [5, 8], how
        assert client("ONCE", "c", 4, "take", "a", 1).startswith("-TOO OLD"), how
        assert client("ONCE", "c", 8, "take", "a", 2).startswith("-ERR the number"), how
        getattr(server, how)()
        server.start()
        client = Client(server)
    assert client("ONCE", "d", 1, "taken", "a") == 8 and client("ONCE", "e", 1, "taken", "a") == 8
    assert "once_forgotten:1" in client("INFO")
    assert client("ONCE", "c", 8, "take", "a", 1) == 9, "a client that is forgotten"
    assert server.stop() == 0


def test_now(folder):
    """`@now` is the server's time, never less than before, and the log has the number."""
    server = Server(PROGRAM, folder).start()
    client, last = Client(server), int(time.time() * 1000) - 10
    for _ in range(5):
        now = client("store", "t", "@now")
        assert last <= now <= int(time.time() * 1000) + 10, (last, now)
        last = now
    server.kill()
    assert Client(server.start())("taken", "t") == last
    server.kill()
    assert f"store t {last}\n".encode() in server.run("--print-log")[1]


def test_opening_tables(folder):
    """Handlers with opening tables; the log is a session file."""
    server = Server(PROGRAM, folder, handlers=HANDLERS + "%% tables\nkept a 7\n%%\n").start()
    client = Client(server)
    assert client("take", "a", 1) == 8
    server.kill()
    wanted = f"{HANDLERS}%% tables\nkept a 7\n%%\ntake a 1\n".encode()
    assert server.run("--print-log")[1] == wanted
    for how in ("kill", "stop", "kill"):
        client = Client(server.start())
        assert client("taken", "a") == 8, how
        getattr(server, how)()


def test_names(folder):
    """Names of words that no table has any more are given back; held ones never are."""
    handlers = "map m; handler hold(k) { put(m, k, 1); reply k; }" \
        " handler free(k) { del(m, k); reply k; }"
    server = Server(PROGRAM, folder, "--most-names", "40", "--snapshot-every", "0",
                    handlers=handlers)
    client = Client(server.start())
    for word in range(120):
        assert client("hold", f"w{word}") == f"w{word}" == client("free", f"w{word}")
    server.kill()
    client = Client(server.start())
    got = [client("hold", f"held{i}") for i in range(60)]
    kept = [word for word in got if not word.startswith("-")]
    assert 20 < len(kept) < 40 and got[-1].startswith("-ERR too many names"), got
    server.kill()
    client = Client(server.start())
    assert [client("hold", word) for word in kept] == kept and client("hold", "one_more")[0] == "-"
    assert [client("free", word) for word in kept] == kept
    assert [client("hold", f"new{i}") for i in range(20)][-1] == "new19"
    assert server.stop() == 0 and server.start() and server.stop() == 0


def test_snapshot_steps(folder):
    """Killed before and after each step of a snapshot: a start has all that was answered, and one
    snapshot at most. A snapshot that can't be written stops nobody."""
    died = 0
    for moment in range(1, 31):
        shutil.rmtree(folder)
        os.mkdir(folder)
        server = Server(LOSSY, folder, "--snapshot-every", "0")
        client, number, got = Client(server.start()), 0, 0
        while number < 10:
            number += 1
            assert client("take", "a", 1) == number
        assert client("SNAPSHOT") == "Snapshot begins"
        number = snapshots_until(server, number)
        assert server.stop() == 0
        client = Client(server.start(env={"CUT_FAULT": f"die:{moment}"}))
        assert client("ONCE", "c", number + 1, "take", "a", 1) == number + 1
        try:
            client("SNAPSHOT")
            while number < 60:
                number += 1
                got = client("ONCE", "c", number, "take", "a", 1)
                if got is None:
                    break
                assert got == number, got
        except OSError:
            pass
        if server.process.poll() is None:
            server.process.kill()
        died += server.process.wait() == -9 and number < 60
        client = Client(server.start())
        assert client("ONCE", "c", number, "take", "a", 1) == number, (moment, number)
        assert client("ONCE", "c", number, "take", "a", 1) == number
        assert len([name for name in os.listdir(folder) if "snapshot-" in name]) == 1, moment
        server.kill()
    assert died > 15, died
    server = Server(LOSSY, folder, "--snapshot-every", "0")
    client = Client(server.start(env={"CUT_FAULT": "file:1"}))
    number = client("take", "a", 1)
    client("SNAPSHOT")
    assert snapshots_until(server, number, "no snapshot: a file can't be written") == number
    assert client("take", "a", 1) == number + 1 and client("SNAPSHOT") == "Snapshot begins"
    assert server.stop() == 0


def snapshots_until(server, number, told="snapshot of position"):
    """Waits until it tells of a snapshot."""
    for _ in range(1000):
        if told in server.told().rsplit("unix", 1)[-1]:
            return number
        time.sleep(0.005)
    raise AssertionError(server.told())


def test_end(folder):
    """SIGHUP doesn't end it; by SIGTERM all that was served is answered and a snapshot is written,
    which a second one skips."""
    server = Server(LOSSY, folder, env={"CUT_FAULT": "slow:500"})
    for count in (2, 1):
        client = Client(server.start())
        server.process.send_signal(signal.SIGHUP)
        client.send("take", "a", 1)
        for _ in range(count):
            time.sleep(0.1)
            server.process.send_signal(signal.SIGTERM)
        assert server.process.wait(timeout=30) == 0 and client.answer() == 3 - count
        written = [name for name in os.listdir(folder) if "snapshot-" in name]
        assert len(written) == 2 - count, written


def test_backup(folder):
    """A copy while it runs, a start of it at an earlier position; no other log is cut."""
    server = Server(PROGRAM, folder, "--keep-log").start()
    client = Client(server)
    for number in range(1, 21):
        assert client("take", "a", 1) == number
        if number == 10:
            assert client("SNAPSHOT") == "Snapshot begins"
    assert server.run("--backup", f"{folder}/copy")[0] == 0
    assert client("take", "a", 1) == 21
    assert server.stop() == 0
    assert server.run("--until", "15", "--print-tables")[0] == 1, "not a copy"
    server.data = f"{folder}/copy"
    for until in (20, 15, 3):
        status, tables, why = server.run("--until", str(until), "--print-tables")
        assert status == 0 and tables == b"%%%% tables\nkept a %d\n" % until, (until, tables, why)
    assert server.run("--until", "15", "--print-tables")[0] == 8, "behind the end"


def test_change(folder):
    """Other handlers over the same tables: in new data, with what ONCE knows; the old stays."""
    server = Server(PROGRAM, folder).start()
    client = Client(server)
    assert [client("ONCE", "c", n, "take", "a", 1) for n in (1, 2)] == [1, 2]
    assert server.stop() == 0
    for handlers, status, said in (("map sums; handler h(k) { reply k; }", 1, "refused B1"),
                                   ("map none; " + HANDLERS + "handler twice(k) {"
                                    " let s = get(kept, k); s = s * 2; reply s; }", 0,
                                    "position 2")):
        with open(server.file, "w", encoding="utf-8") as out:
            out.write(handlers)
        got, _, why = server.run("--change", f"{folder}/changed")
        assert got == status and said in why, (got, why)
        assert os.path.exists(f"{folder}/changed") == (status == 0)
    server.data = f"{folder}/changed"
    client = Client(server.start())
    assert client("twice", "a") == 4 and client("ONCE", "c", 2, "take", "a", 1) == 2
    assert client("ONCE", "c", 3, "take", "a", 1) == 3
    server.kill()
    client = Client(server.start())
    assert client("twice", "a") == 6 and "position:3" in client("INFO")
    assert server.stop() == 0


run_cases("keeping", globals(), sys.argv[3:])
