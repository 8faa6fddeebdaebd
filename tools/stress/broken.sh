#!/usr/bin/env bash
# Breaks the files of examples/ and tells how the program ends. Each byte of each file is changed to
# another one (drawn with a fixed seed), cut out, and doubled, each place by itself; each such file goes
# to the command that the example belongs to, and a session also to `check` and a text of handlers to
# `serve`. An ending counts as documented where the status is one of docs/LANGUAGE.md, the error output
# is empty or that status's one line, and nothing was written beside a refusal. Prints the number of
# runs by command and line, a rule's places taken together, and ends with 1 if any ending is another.
. "$(dirname "$0")/../program.sh"

python3 - "$program" "${1:-20261128}" <<'P'
import collections, concurrent.futures, glob, os, random, re, subprocess, sys

program, seed = sys.argv[1], int(sys.argv[2])
refused = re.compile(
    rb"refused (T[1-5]|S[1-5] at \d+|K([1-9]|10) at \d+|A1 at \d+ count \d+|B[1-5] line \d+|Q[1-6] line \d+|G[1-5] line \d+|F[12] line \d+)\n")
draw = random.Random(seed)


def broken(text):
    for at, byte in enumerate(text):
        other = draw.randrange(255)
        yield text[:at] + bytes([other + (other >= byte)]) + text[at + 1:]
        yield text[:at] + text[at + 1:]
        yield text[:at] + text[at:at + 1] + text[at:]


def ending(command, text):
    try:
        ran = subprocess.run([program] + command, input=text, capture_output=True, timeout=20)
    except subprocess.TimeoutExpired:
        return "does not end"
    if ran.returncode == 0 and not ran.stderr:
        return "status 0"
    if ran.returncode == 1 and not ran.stdout and refused.fullmatch(ran.stderr):
        rule, *place = ran.stderr.decode().split()[1:]
        return " ".join(["refused", rule] + ["N" if word.isdigit() else word for word in place])
    return f"UNKNOWN status {ran.returncode}: {ran.stderr[:60]!r}"


cases = []
for words in sorted(glob.glob("examples/**/*.args", recursive=True)):
    path = words.removesuffix(".args")
    if not os.path.exists(path):
        continue
    with open(path, "rb") as given:
        text = given.read()
    with open(words) as given:
        commands = [given.read().split()]
    commands += [["check"]] if commands[0][0] in ("serve", "dump", "ranges", "audit") else [["serve", "--callers", "2"]]
    cases += [(command, other) for other in broken(text) for command in commands]

with concurrent.futures.ThreadPoolExecutor(os.cpu_count()) as pool:
    endings = list(pool.map(lambda case: (case[0][0], ending(*case)), cases))
print(f"{len(cases)} runs, seed {seed}")
for (command, line), count in sorted(collections.Counter(endings).items()):
    print(f"{command:8}{count:8}  {line}")
sys.exit(any("UNKNOWN" in line or "does not" in line for _, line in endings))
P
