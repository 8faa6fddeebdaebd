#!/usr/bin/env python3
"""Compares the numbers that documents tell of the repository: tools/repository_counts.py [--write].

With --write it puts the right ones into the documents. COUNTS has what is counted, PHRASES the
words beside which a number is one of these: `#` is the number, in digits or in words up to
ninety-nine. Any other number beside one of NOUNS is what the noun counts; if that may be several
things, it is a fault. A bound or a difference (`at most 14 crates`, `ten crates fewer`) is neither,
nor is a word that means some of them (`two crates`, `these three crates`). A paragraph or a cell of
a table that has a date (2026-..) is of that day, and is left as it is.
"""
import functools
import glob
import os
import re
import subprocess
import sys

DOCUMENTS = ["README.md", "SECURITY.md", "CONTRIBUTING.md", "*/README.md", "*/*/README.md",
             "docs/*.md", "embedding/CALLS.md"]


def files(*patterns):
    """How many files there are of these patterns."""
    return len([name for pattern in patterns for name in glob.glob(pattern, recursive=True)])


def cases():
    """How many cases are stored in examples/ and checks/: each input, and each file of words of a
    command that reads none."""
    names = [name for name in glob.glob("examples/**/*", recursive=True) + glob.glob("checks/*/*")
             if not name.startswith("checks/mistakes/")]
    return len([name for name in names
                if re.search(r"\.(?:handlers|session|trace|ranges)$|/[^./]+\.args$", name)])


def thousands(*patterns):
    """How many lines files of these patterns have, in thousands."""
    lines = 0
    for pattern in patterns:
        for name in glob.glob(pattern, recursive=True):
            with open(name, encoding="utf-8") as given:
                lines += len(given.readlines())
    return round(lines / 1000)


def crates():
    """How many crates there are."""
    with open("crates.txt", encoding="utf-8") as given:
        return len([line for line in given if line.strip() and not line.startswith("#")])


def uses():
    """For each crate those that it uses, by crates.txt."""
    with open("crates.txt", encoding="utf-8") as given:
        lines = [line.split("#")[0].partition(":") for line in given]
    found = {head.split()[0]: below.split() for head, _, below in lines if head.strip()}
    return {name: [each for each in below if each in found] for name, below in found.items()}


def edges():
    """How many edges there are between crates, as tools/layers.py does."""
    return sum(map(len, uses().values()))


def chain(top):
    """How many crates the longest chain up to a crate has."""
    crates_below, known = uses(), {}

    def depth(name):
        if name not in known:
            known[name] = 1 + max(map(depth, crates_below[name]), default=0)
        return known[name]
    return depth(top)


def library_crates():
    """How many crates are proved for the library for C: its own, and all below it."""
    crates_below, found, todo = uses(), set(), ["foresight_c"]
    while todo:
        name = todo.pop()
        if name not in found:
            found.add(name)
            todo += crates_below[name]
    return len(found)


def promises():
    """How many rows the table of promises has."""
    with open("docs/PROVED.md", encoding="utf-8") as given:
        return len(re.findall(r"^\| .* \| `(?:rt ci|rt must-fail|\w+/edits\.sh) \w+` \|$",
                              given.read(), re.M))


def texts(expression, *patterns):
    """The texts that an expression finds in files of these patterns."""
    found = set()
    for pattern in patterns:
        for name in glob.glob(pattern, recursive=True):
            with open(name, encoding="utf-8") as given:
                found |= set(re.findall(expression, given.read(), re.M))
    return found


def crates_with_tests():
    """How many crates have tests: the test crates, and those that have their own."""
    return len([name for name in glob.glob("crates/*/")
                if texts(r"#\[test\]", f"{name}src/**/*.rt")])


def folders():
    """How many folders there are at the top, but for those that begin with a dot: those of git, or
    where there is no git, those but for what is built."""
    ran = subprocess.run("git ls-files", shell=True, capture_output=True, text=True, check=False)
    tracked = {line.split("/")[0] for line in ran.stdout.splitlines() if "/" in line}
    there = tracked or set(os.listdir()) - {"target", "out"}
    return len([name for name in there if os.path.isdir(name) and not name.startswith(".")])


def layer_rules():
    """How many rules of layers docs/MAP.md has, which .ci/layers reads."""
    with open("docs/MAP.md", encoding="utf-8") as given:
        part = re.search(r"^## What never happens\n(.*?)(?=^## |\Z)", given.read(), re.M | re.S)
    return len(re.findall(r"^- ", part[1], re.M)) if part else 0


def commands():
    """How many commands the program has, by its usage line."""
    with open("crates/serve_words/specs/Commands.antt", encoding="utf-8") as given:
        usage = re.search(r"^usage_line =$(.*?)^$", given.read(), re.M | re.S)[1]
    text = "".join(re.findall(r'"(.*?)"', usage))
    return len(text.partition("foresight ")[2].split(" | "))


def calls(header, names="foresight_"):
    """How many calls the headers of the library for C declare whose names begin so."""
    return len(texts(rf"^uint\d+_t ({names}[a-z_]*)", f"embedding/foresight{header}.h"))


COUNTS = {
    "crates": crates,
    "test crates": lambda: files("crates/tests_*/"),
    "crates with tests": crates_with_tests,
    "crates with a page": lambda: files("crates/*/README.md"),
    "crates of the library for C": library_crates,
    "edges": edges,
    "folders": folders,
    "rules of layers": layer_rules,
    "commands": commands,
    "calls for C": lambda: sum(map(calls, ["", "_tickets", "_session"])),
    "calls over bytes": lambda: calls(""),
    "calls of tickets": lambda: calls("_tickets") - calls("_tickets", "foresight_version"),
    "calls of a session": lambda: calls("_session"),
    "mistakes": lambda: files("checks/mistakes/*.told"),
    "edits in the gate": lambda: files("crates/*/must-fail/*.edit"),
    "crates with edits in the gate": lambda: files("crates/*/must-fail/"),
    "edits beside the gate": lambda: files("checks/edits/*/*.edit"),
    "crates with edits beside the gate": lambda: files("checks/edits/*/"),
    "edits": lambda: files("crates/*/must-fail/*.edit", "checks/edits/*/*.edit"),
    "stored cases": cases,
    "promises": promises,
    "chain up to the program": lambda: chain("foresight"),
    "chain up to the library for C": lambda: chain("foresight_c"),
    "thousand lines of code": lambda: thousands("crates/*/src/**/*.rt"),
    "thousand lines of specs and proofs": lambda: thousands("crates/*/specs/**/*.antt",
                                                            "crates/*/proofs/**/*.antt"),
}
PHRASES = {
    "all # crates": "crates",
    "# crates in all": "crates",
    "# crates of tests": "test crates",
    "# crates `tests_*`": "test crates",
    "tests in # crates": "crates with tests",
    "# crates by which a reader enters": "crates with a page",
    "# rules of layers": "rules of layers",
    "# rules of the layers": "rules of layers",
    "# rules about layers": "rules of layers",
    "# layer rules": "rules of layers",
    "`.ci/layers` checks # rules": "rules of layers",
    "its # commands": "commands",
    "the # commands of": "commands",
    "each of the # calls": "calls for C",
    "# calls of the library": "calls for C",
    "# calls for C": "calls for C",
    "declare # calls": "calls for C",
    "the library with all below it, # crates": "crates of the library for C",
    "# calls do over bytes in memory": "calls over bytes",
    "# work on bytes and keep nothing": "calls over bytes",
    "one of the # calls": "calls over bytes",
    "# drive tickets on tables of their own": "calls of tickets",
    "# keep a session of handlers": "calls of a session",
    "tries # must-fail edits": "edits in the gate",
    "# must-fail edits in the gate, in": "edits in the gate",
    "must-fail edits in the gate, in # crates": "crates with edits in the gate",
    "# edits beside it": "edits beside the gate",
    "edits beside it, for # crates": "crates with edits beside the gate",
    "# edits in all": "edits",
    "longest chain of crates is # up to the program": "chain up to the program",
    "up to the program, # with the C library": "chain up to the library for C",
    "# thousand lines of code": "thousand lines of code",
    "# thousand of definitions and proofs": "thousand lines of specs and proofs",
}


# What a number beside a noun counts that no phrase compares; of crates, edits and lines there are
# several numbers, so that there is to be a phrase.
NOUNS = {
    "crates": None, "edits": None, "must-fail edits": None, "thousand lines": None,
    "commands": "commands", "edges": "edges", "folders": "folders", "mistakes": "mistakes",
    "promises": "promises", "stored cases": "stored cases",
}
ONES = ("zero one two three four five six seven eight nine ten eleven twelve thirteen fourteen "
        "fifteen sixteen seventeen eighteen nineteen").split()
TENS = "twenty thirty forty fifty sixty seventy eighty ninety".split()
WORDS = ONES + [ten + one for ten in TENS for one in ["", *("-" + each for each in ONES[1:10])]]
NUMBER = (rf"(?P<number>\d[\d,]*|(?:{'|'.join(TENS)})(?:-(?:{'|'.join(ONES[1:10])}))?"
          rf"|{'|'.join(reversed(ONES))})")
OTHER = re.compile(rf"(?<![\w-])(?:(?P<before>at most|at least|the|these|those|its|or|and|to)\s+)?"
                   rf"{NUMBER}\s+(?P<noun>{'|'.join(map(re.escape, NOUNS))})"
                   r"\b(?!/)(?P<after>\s+fewer|\s+more)?".replace("\\ ", r"\s+"), re.I)


def number_of(word):
    """The number that digits or words say."""
    return WORDS.index(word.lower()) if word[0].isalpha() else int(word.replace(",", ""))


def written(number, like):
    """A number in digits, or in words where another one is."""
    if not like[0].isalpha() or number >= len(WORDS):
        return f"{number:,}"
    return WORDS[number].capitalize() if like[0].isupper() else WORDS[number]


def is_of_some(match):
    """Whether a number beside a noun is a bound or a difference, or a word for some of them."""
    before, number = (match["before"] or "").lower(), match["number"]
    return bool(before.startswith("at ") or match["after"]
                or number[0].isalpha() and (before or number_of(number) < 3))


@functools.cache
def pattern_of(phrase):
    """The expression of a phrase: any blanks between its words, a number at its sign."""
    before, after = phrase.split("#")
    first, last = (re.escape(part).replace("\\ ", r"\s+") for part in (before, after))
    return re.compile(rf"(?<![\w-]){first}{NUMBER}{last}(?!\w)", re.I)


def numbers(text):
    """Where a text has numbers of the repository: what each counts, and the words beside it."""
    found, small = {}, text.lower()
    for phrase, what in PHRASES.items():
        # Few texts have the words of a phrase, and finding numbers takes longer.
        if all(word in small for word in phrase.lower().replace("#", "").split()):
            for match in pattern_of(phrase).finditer(text):
                found.setdefault(match.span("number"), (what, match[0]))
    for match in OTHER.finditer(text):
        if not is_of_some(match):
            what = NOUNS[" ".join(match["noun"].lower().split())]
            found.setdefault(match.span("number"), (what, match[0]))
    return sorted(found.items(), reverse=True)


def pieces(text):
    """The paragraphs and the cells of rows of a text, and what is between them."""
    return re.split(r"(\n\n|\n(?=\||- |\d+\. )| \| )", text)


def look(name, counted, write):
    """How many numbers a document tells, and those that are wrong."""
    with open(name, encoding="utf-8") as document:
        text = pieces(document.read())
    found, wrong = 0, []
    for at, piece in enumerate(text):
        if re.search(r"\b20\d\d-\d\d", piece):
            continue
        for (start, end), (what, words) in numbers(piece):
            found += 1
            said = " ".join(words.split())
            if not what:
                wrong.append(f"{name}: no phrase of tools/repository_counts.py has '{said}'")
            elif number_of(piece[start:end]) != counted[what]:
                wrong.append(f"{name}: {said}: there are {counted[what]}")
                piece = piece[:start] + written(counted[what], piece[start:end]) + piece[end:]
        text[at] = piece
    if write and wrong:
        with open(name, "w", encoding="utf-8") as document:
            document.write("".join(text))
    return found, wrong


def compare(write=False):
    """How many numbers all documents tell, and what is wrong with them."""
    counted = {what: count() for what, count in COUNTS.items()}
    total, failed = 0, []
    for name in [each for pattern in DOCUMENTS for each in sorted(glob.glob(pattern))]:
        found, wrong = look(name, counted, write)
        total, failed = total + found, failed + wrong
    return total, failed


if __name__ == "__main__":
    os.chdir(os.path.join(os.path.dirname(os.path.realpath(__file__)), ".."))
    number, faults = compare("--write" in sys.argv[1:])
    print("\n".join(faults) or f"numbers: {number}, as they should be")
    sys.exit(bool(faults) and "--write" not in sys.argv[1:])
