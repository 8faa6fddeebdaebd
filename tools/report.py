#!/usr/bin/env python3
"""Writes a page about a session: tools/report.py [options] SESSION > PAGE.html

The page has the handlers with what `show` infers beside each line, the timeline of a run, who
waited for whom in it, each request with its reply, and the final tables. It is one file, with
nothing from elsewhere. The run is the trace with which the session file ends, if it has one, or
else a run of `trace` (by 4 callers over 4 shards, or --callers N, --shards S). --from and --count
choose the events that are drawn (400). --program PATH is the program; else it is the one that
tools/look.sh leaves, or the one of .ci/run. A session that is refused ends this as it ends the
program.
"""
import argparse
import os
import re
import subprocess
import sys

HERE = os.path.dirname(os.path.realpath(__file__))
ROOT = os.path.join(HERE, "..")
sys.path.insert(0, os.path.join(ROOT, "extras/editors"))
sys.dont_write_bytecode = True
import report_page  # noqa: E402
import timeline  # noqa: E402

PROGRAMS = ["target/look/foresight", "crates/foresight/out/foresight"]
MARKER = re.compile(r"^%%(?: tables| next| trace)?[ \t\r]*$", re.M)
TRACE = re.compile(r"^%% trace[ \t\r]*$", re.M)


class Program:
    """The program, and what it writes of a text."""

    def __init__(self, path):
        there = [name for name in (os.path.join(ROOT, each) for each in PROGRAMS)
                 if os.path.exists(name)]
        if not path and not there:
            sys.exit("there is no program: run tools/look.sh, or name one with --program")
        self.path = os.path.realpath(path or there[0])

    def written(self, words, text, name):
        """What a command writes; a refusal ends this script, with its place if it can be told."""
        ran = subprocess.run([self.path, *words], input=text.encode(), capture_output=True)
        if ran.returncode == 0:
            return ran.stdout.decode()
        places = os.path.join(os.path.dirname(self.path), "foresight_where")
        said = ran.stderr
        if os.path.exists(places):
            said = subprocess.run([places, name], input=said, capture_output=True).stdout
        sys.stderr.write(said.decode())
        sys.exit(ran.returncode)


class Session:
    """A session file, and what the program writes of it."""

    def __init__(self, name, program, options):
        text = read(name)
        self.name = os.path.basename(name)
        trace = TRACE.search(text)
        self.is_stored = bool(trace)
        asked = text[:trace.start()] if trace else text
        asked += "" if asked.endswith("\n") else "\n"
        self.dumped = program.written(["dump", *options], asked, name)
        events = (text[trace.start():] if trace else
                  program.written(["trace", *options], asked, name))
        self.verdict = program.written(["audit"], asked + events, name).strip()
        self.requests, self.events = timeline.read(asked + events)
        head = MARKER.search(asked)
        self.remark = first_comment(asked)
        self.source = asked[:head.start()]
        self.shown = program.written(["show"], self.source, name)


def read(name):
    """The text of a file."""
    try:
        with open(name, encoding="utf-8", newline="") as given:
            return given.read()
    except OSError as fault:
        sys.exit(f"{name}: {fault.strerror}")
    except UnicodeDecodeError:
        sys.exit(f"{name}: no UTF-8")


def first_comment(text):
    """The paragraphs of the comment with which a file begins, each item of a list on a line."""
    lines = []
    for line in text.split("\n"):
        if not line.startswith("#"):
            break
        words = line.lstrip("#").strip()
        lines.append(("\n" if words.startswith("- ") else " ") + words if words else "\n\n")
    return [part.strip() for part in "".join(lines).split("\n\n") if part.strip()]


def main():
    words = argparse.ArgumentParser(description="Writes a page about a session.")
    words.add_argument("session")
    words.add_argument("--program")
    words.add_argument("--callers")
    words.add_argument("--shards")
    words.add_argument("--from", dest="first", type=int, default=0)
    words.add_argument("--count", type=int, default=400)
    given = words.parse_args()
    options = [word for name, number in (("--callers", given.callers), ("--shards", given.shards))
               if number for word in (name, number)]
    session = Session(given.session, Program(given.program), options)
    sys.stdout.write(report_page.page(session, given.first, given.count))


if __name__ == "__main__":
    main()
