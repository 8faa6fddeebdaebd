#!/usr/bin/env python3
"""Damaged data: damage.py SERVER [STEP]

Data is left by SIGKILL (its log is in the -wal file), once with a snapshot, and in order (all is
in the database). Each byte of the last pages of each file, or each STEPth, is turned over, or a bit
of it, or the file is cut there. A start over it has to have exactly what the first N requests left,
with a position N that it tells and that ended a commit, or to refuse the data.
"""
import glob
import os
import re
import shutil
import subprocess
import sys
import tempfile
from collections import Counter

from served import Client, Server

PROGRAM = sys.argv[1]
STEP = int(sys.argv[2]) if len(sys.argv) > 2 else 1
LAST = 3 * 4096 + 100
REQUESTS = 40


def made(folder, ends):
    """Data of some requests of one client, each its own commit: `take` counts, so tables tell N."""
    server = Server(PROGRAM, folder, "--snapshot-every", "0").start()
    client = Client(server)
    for number in range(1, REQUESTS + 1):
        assert client("ONCE", "c", number, "take", "a", 1) == number
        if number == 20 and ends == "snapshot":
            assert client("SNAPSHOT") == "Snapshot begins"
    client.close()
    if ends == "stop":
        server.process.send_signal(15)
        server.process.send_signal(15)
        assert server.process.wait(timeout=40) == 0
    else:
        server.kill()
    return server


def judged(server, folder):
    """How a start over damaged data went: a prefix with its position, or refused."""
    done = subprocess.run([PROGRAM, "--data", f"{folder}/data", "--print-tables"],
                          capture_output=True, check=False, timeout=20)
    told = done.stderr.decode()
    if done.returncode != 0:
        assert done.returncode in (1, 4, 8), (done.returncode, told)
        assert told.startswith("foresight-server: ") and len(told) > 30, told
        return "refused"
    position = int(re.search(r"position (\d+):", told).group(1))
    wanted = b"%% tables\n" + (b"kept a %d\n" % position if position else b"")
    assert done.stdout == wanted, (position, done.stdout)
    return "whole" if position == REQUESTS else "prefix"


def tried(server, name, how, at):
    """One damage of one file."""
    with tempfile.TemporaryDirectory() as folder:
        for path in glob.glob(f"{server.folder}/data*"):
            if not path.endswith(("-shm", ".lock")):
                shutil.copy(path, folder)
        with open(f"{folder}/{name}", "r+b") as file:
            if how == "cut":
                file.truncate(at)
            else:
                file.seek(at)
                byte = file.read(1)[0]
                file.seek(at)
                file.write(bytes([byte ^ (0xFF if how == "turned" else 1 << at % 8)]))
        return judged(server, folder)


def main():
    """All damages of all files."""
    for ends in ("kill", "stop", "snapshot"):
        with tempfile.TemporaryDirectory() as folder:
            server = made(folder, ends)
            for path in sorted(glob.glob(f"{folder}/data*")):
                name, size = os.path.basename(path), os.path.getsize(path)
                if name.endswith(("-shm", ".lock")):
                    continue
                for how in ("turned", "bit", "cut"):
                    places = range(max(0, size - LAST), size, STEP)
                    count = Counter(tried(server, name, how, at) for at in places)
                    print(f"damage: {ends}: {name}: {len(places)} times {how}: {dict(count)}",
                          flush=True)


main()
