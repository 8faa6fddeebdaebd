#!/usr/bin/env python3
"""Looks at the passages of all documents: tools/passages.py.

No paragraph, bullet or row of a table has more than 900 characters; a file that is named in back
quotes, alone or in a command, is there, and so are the clauses that README.md names; README.md is
a page of 120 lines and 1,500 words at most, and docs/ has 34,000; there are ten folders at the top
at most; no document has the words of PLAIN. The pages of crates are documents too, and
tools/crate_pages.py looks at what they name.
"""
import glob
import os
import re
import sys

import crate_pages
import repository_counts

LONGEST, LINES, WORDS, ALL_WORDS, FOLDERS = 900, 120, 1500, 34000, 10
USERS = ["README.md", "SECURITY.md", "CONTRIBUTING.md", "docs/TOUR.md", "docs/LANGUAGE.md",
         "docs/LIBRARY.md", "docs/PERFORMANCE.md", "docs/TESTING.md", "embedding/CALLS.md",
         "bench/HISTORY.md"]
READERS = ["docs/MAP.md", "docs/PROOF.md", "docs/PROVED.md", "docs/DEFINITIONS.md",
           "docs/DECISIONS.md"]
PLAIN = re.compile(r"\b(wants? of memory|wants? memory|wanted? memory|in vain|(?:is|are) told|"
                   r"stands? behind|hangs? on|where it is there)\b")
CODE = re.compile(r"`([^`\n]+)`")
FILE = re.compile(r"(?<![\w./~$*-])(?:crates|docs|bench|stress|oracle|tools|checks|examples|extras"
                  r"|embedding|\.ci)/[\w./*-]+(?![\w./*{-])")
UNNAMED = re.compile(r"/out/|NAME|/X/")
BELOW = re.compile(r"`(\w+/(?:src|specs|proofs)(?:/[\w/]+\.(?:rt|antt))?)`")
CLAUSE = re.compile(r"\| .* \| ((?:`\w+`,? )+(?:of `\w+`)?,? ?)`(crates/[\w/]+\.(?:rt|antt))`")


def passages(text):
    """The paragraphs, bullets and rows of a text, each with its first line; no block of code."""
    inside, first, lines = False, 0, []
    for at, line in enumerate(text.split("\n") + [""], 1):
        mark = line.startswith("```")
        if inside or mark or not line.strip() or re.match(r"\s*(- |\d+\. |\||#|    )", line):
            if lines:
                yield first, "\n".join(lines)
            first, lines = at, []
        inside = inside != mark
        if not inside and not mark and line.strip():
            lines.append(line)


def clauses(text):
    """The clauses that the first page names and their files don't have."""
    for names, path in CLAUSE.findall(text):
        with open(path, encoding="utf-8") as given:
            code = given.read()
        for each in re.findall(r"`(\w+)`", names):
            if not re.search(rf"\b{each}\b", code):
                yield f"README.md: no {each} in {path}"


def absent(name, text):
    """The files that a document names in back quotes and that aren't there, at the top of the
    repository or beside the document."""
    for code in CODE.findall(re.sub(r"^```.*?^```$", "", text, flags=re.M | re.S)):
        for file in FILE.findall(code):
            path = file.rstrip(".")
            beside = os.path.join(os.path.dirname(name), path)
            if not (glob.glob(path) or glob.glob(beside) or UNNAMED.search(path)):
                yield path


def walk_faults():
    """What is wrong with the walk of one request in docs/MAP.md: a function that its crate lacks, or
    other numbers of functions and crates than the walk has."""
    with open("docs/MAP.md", encoding="utf-8") as document:
        text = document.read()
    found, named = [], set()
    walk = re.search(r"```walk\n(.*?)```", text, re.S)[1]
    for line in walk.splitlines():
        for part in re.sub(r"\((the others|else):|\)", "", line[12:]).split(";"):
            crate, *functions = part.split()
            code = ""
            for file in glob.glob(f"crates/{crate}/src/*.rt"):
                with open(file, encoding="utf-8") as given:
                    code += given.read()
            named |= {(crate, function) for function in functions}
            found += [f"docs/MAP.md: {crate} has no function {function}" for function in functions
                      if not re.search(rf"\bfn {function}\b", code)]
    counts = f"{len(named)} functions, in {len({crate for crate, _ in named})} of the crates"
    if counts not in text:
        found.append(f"docs/MAP.md: the walk has {counts}")
    return found


def faults():
    """What is wrong with the documents."""
    found = []
    pages = sorted(glob.glob("crates/*/README.md"))
    others = {"CHANGELOG.md", *glob.glob("*/README.md"),
              *glob.glob("extras/*/README.md"), *glob.glob("*/*/README.md")} - set(pages)
    for name in USERS + READERS + pages + sorted(others):
        if not os.path.exists(name):
            continue
        with open(name, encoding="utf-8") as document:
            text = document.read()
        for first, passage in passages(text):
            if len(passage) > LONGEST:
                found.append(f"{name}:{first}: {len(passage)} characters")
            if name in USERS + READERS + pages and (said := PLAIN.search(passage)):
                found.append(f"{name}:{first}: '{said[0]}'")
        found += [f"{name}: there is no {path}" for path in absent(name, text)]
        found += [f"{name}: there is no crates/{path}" for path in BELOW.findall(text)
                  if not os.path.exists("crates/" + path)]
        if name == "README.md":
            found += clauses(text)
            if text.count("\n") > LINES or len(text.split()) > WORDS:
                found.append(f"{name}: more than {LINES} lines or {WORDS} words")
    words = sum(len(open(name, encoding="utf-8").read().split()) for name in glob.glob("docs/*.md"))
    if words > ALL_WORDS:
        found.append(f"docs/ has {words:,} words, more than {ALL_WORDS:,}")
    if (folders := repository_counts.folders()) > FOLDERS:
        found.append(f"there are {folders} folders at the top, more than {FOLDERS}")
    return found + walk_faults() + crate_pages.faults()


if __name__ == "__main__":
    os.chdir(os.path.join(os.path.dirname(os.path.realpath(__file__)), ".."))
    print("\n".join(faults()) or "passages: as they should be")
    sys.exit(bool(faults()))
