#!/usr/bin/env python3
"""Runs the commands of a page: embedding/page.py PAGE LOOK, where LOOK is what target/look is to be.

Each line that four blanks begin is a command, with the lines that it goes on in after a `\\`. They are
run in order, each by a bash of its own at the top of a copy of the tree, whose target/look is LOOK:
they may write there. Each has to end with 0 within 60 seconds. A block ```prints is what the last
command before it writes. A line that begins with `tools/look.sh` isn't run, since that builds what is
in LOOK, and none that needs a tool that isn't here; so it says, and if CI is `true` that is wrong.
Other blocks aren't run.
"""
import os
import re
import shutil
import signal
import subprocess
import sys
import tempfile

ROOT = os.path.dirname(os.path.dirname(os.path.realpath(__file__)))
TOOLS = ("cc", "g++", "go", "python3", "rustc")
SECONDS = 60


def pieces(lines):
    """The commands of a page and its blocks of what they print: the line of each, its kind, its text."""
    at = 0
    while at < len(lines):
        start, line = at, lines[at]
        at += 1
        if line.startswith("```"):
            at = lines.index("```", at) + 1
            if line == "```prints":
                yield start + 1, "prints", "".join(f"{it}\n" for it in lines[start + 1:at - 1])
        elif re.match(r" {4}\S", line):
            while line.endswith("\\") and at < len(lines):
                line, at = f"{line}\n{lines[at]}", at + 1
            yield start + 1, "command", line.strip()


def why_not(command):
    """Why a command isn't run, or nothing."""
    if command.startswith("tools/look.sh"):
        return "it builds the library"
    absent = [it for it in TOOLS if it in re.split(r"[\s;&|()]+", command) and not shutil.which(it)]
    return f"there is no {absent[0]}" if absent else None


def run(command, top, shown):
    """What is wrong with how a command ends, or nothing; and what it writes, the error output last."""
    # What is shown may be cut off by `head`, which ends the program before it.
    words = ["bash", "-c", command] if shown else ["bash", "-eo", "pipefail", "-c", command]
    with subprocess.Popen(words, cwd=top, stdin=subprocess.DEVNULL, stdout=subprocess.PIPE,
                          stderr=subprocess.PIPE, start_new_session=True) as ran:
        try:
            wrote = b"".join(ran.communicate(timeout=SECONDS)).decode(errors="replace")
        except subprocess.TimeoutExpired:
            os.killpg(ran.pid, signal.SIGKILL)
            return f"doesn't end in {SECONDS} seconds", ""
    return (f"ends with {ran.returncode}:\n{wrote.rstrip()}" if ran.returncode else None), wrote


def main():
    """Runs them; what is wrong is said, and ends this with 1."""
    page, look = os.path.relpath(os.path.realpath(sys.argv[1]), ROOT), os.path.realpath(sys.argv[2])
    with open(f"{ROOT}/{page}", encoding="utf-8") as text:
        found = list(pieces(text.read().split("\n")))
    os.environ["PYTHONDONTWRITEBYTECODE"] = "1"
    ran, compared, left_out, wrong, wrote = 0, 0, [], [], None
    with tempfile.TemporaryDirectory() as top:
        leave = shutil.ignore_patterns(".git", "target", "out", "__pycache__")
        shutil.copytree(ROOT, top, symlinks=True, dirs_exist_ok=True, ignore=leave)
        os.mkdir(f"{top}/target")
        os.symlink(look, f"{top}/target/look")
        for at, (line, kind, text) in enumerate(found):
            shown = kind == "command" and found[at + 1:at + 2] and found[at + 1][1] == "prints"
            if kind == "prints":
                compared += wrote is not None
                if wrote not in (None, text):
                    wrong.append(f"{page}:{line}: this is what comes:\n{wrote}")
            elif why := why_not(text):
                left_out.append(f"{page}:{line}, since {why}")
                if os.environ.get("CI") == "true" and why.startswith("there is no"):
                    wrong.append(f"{page}:{line} isn't run, and CI is set")
                wrote = None
            else:
                ran += 1
                fault, wrote = run(text, top, shown)
                if fault:
                    wrong.append(f"{page}:{line}: `{text}` {fault}")
    print("\n".join(wrong + [f"NOT RUN: {it}" for it in left_out]
                    + [f"{page}: {ran} commands run, {compared} outputs compared"]))
    return int(bool(wrong))


if __name__ == "__main__":
    sys.exit(main())
