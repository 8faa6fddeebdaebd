#!/usr/bin/env python3
"""Judges sessions that live by what the program writes of one file with all their lines:
sessions.py PROGRAM [FOLDER] [--runs N] [--seed N]; FORESIGHT_LIBRARY names the shared object of the
library (oracle/sessions.sh makes it).

For each *.session of the folder, for a session of each kind (kinds.py), and for N that are made by
chance, a session is opened over what stands before the requests, and the requests are served one
line a call, sixteen a call, and as many as chance has it, with lines between them that are refused
or have no words. The replies have to be those of `serve`, line by line without their tickets, and
the tables those of `dump`.
"""
import argparse
import glob
import os
import random
import subprocess
import sys

sys.path.insert(0, os.path.join(os.path.dirname(os.path.abspath(__file__)), "..", "embedding"))
import foresight  # noqa: E402  pylint: disable=wrong-import-position
import kinds  # noqa: E402  pylint: disable=wrong-import-position
import made  # noqa: E402  pylint: disable=wrong-import-position

# Lines that change nothing: two without words, and what is refused.
BETWEEN = ["", "# none", "nobody 1", "no.name", "h0 1 2 3 4 5 6 7 8 9"]


def written(program, command, text):
    """What the program writes."""
    done = subprocess.run([program, command], input=text, capture_output=True, text=True,
                          timeout=60, check=False)
    if done.returncode or done.stderr:
        raise AssertionError(f"{command}: status {done.returncode}: {done.stderr.strip()}")
    return done.stdout


def parts(text):
    """What stands before the requests, with its last line, and the requests."""
    at = text.index("\n%%\n") + 4
    return text[:at], text[at:].splitlines()


def served(session, lines, size):
    """The replies of lines, so many a call; what is refused is as if it weren't there."""
    replies, at = [], 0
    while at < len(lines):
        some = lines[at:at + size()]
        try:
            replies += session.serve(some)
            at += len(some)
        except foresight.Refused as refused:
            replies += refused.replies
            at += refused.used
    return replies


def judge(program, text, draw):
    """Raises where a session answers something else; tells how many requests there were."""
    before, requests = parts(text)
    replies = [line.split(" ", 1)[1] for line in written(program, "serve", text).splitlines()]
    tables = written(program, "dump", text)
    mixed = [line for each in requests for line in
             ([draw.choice(BETWEEN)] if draw.random() < 0.05 else []) + [each]]
    ways = [(requests, lambda: 1), (requests, lambda: 16), (mixed, lambda: draw.randint(1, 400))]
    for place, (lines, size) in enumerate(ways):
        with foresight.Session(before, seed=draw.getrandbits(64)) as session:
            if served(session, lines, size) != replies:
                raise AssertionError(f"other replies, way {place}")
            if session.tables() != tables:
                raise AssertionError(f"other tables, way {place}")
    return len(replies)


def main():
    """The sessions of the folder, and those that are made."""
    words = argparse.ArgumentParser()
    words.add_argument("program")
    words.add_argument("folder", nargs="?")
    words.add_argument("--runs", type=int, default=1000)
    words.add_argument("--seed", type=int, default=1)
    given = words.parse_args()
    files = sorted(glob.glob(f"{given.folder}/*.session")) if given.folder else []
    count, requests = 0, 0
    for name in [*kinds.KINDS, *files, *range(given.runs)]:
        draw = random.Random(f"{given.seed} {name}")
        if name in kinds.KINDS:
            text = kinds.KINDS[name](5 if name in ("long", "arith") else 300)
        elif isinstance(name, int):
            text = made.Maker(draw).session(1, draw.choice([5, 30, 120, 2000])).written("")
        else:
            with open(name, encoding="utf-8") as file:
                text = file.read()
            if not parts(text)[1]:
                continue
        try:
            requests += judge(given.program, text, draw)
            count += 1
        except AssertionError as error:
            print(f"sessions: NOT AS IT SHOULD BE: {name} of seed {given.seed}: {error}")
            return 1
    print(f"sessions: {count} of {requests} requests, each in three ways, as they should be")
    return 0


if __name__ == "__main__":
    sys.exit(main())
