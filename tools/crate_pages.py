#!/usr/bin/env python3
"""Looks at the pages of crates, crates/*/README.md: tools/crate_pages.py.

Each has the parts of PARTS and at most 45 lines. Paths are below the page's crate, or begin with
another crate's name. What stands before a path is looked up in that file: `LABEL` of `OWNER`, `PATH`
has to be a clause of that function, method or record (`ensures` one without a name), and a name
beside a path has to occur there. Each line that 'Use' shows is one of the file that it names.
"""
import glob
import os
import re
import sys

LINES = 45
PARTS = ["What a contract sees", "What is proved", "What is tested only", "What isn't claimed", "Use"]
PATH = r"`((?:\w+/)?(?:src|specs|proofs)/[\w/]+\.(?:rt|antt))`"
NAMES = r"((?:`[\w:]+`(?:, | and ))*`[\w:]+`)"
CLAUSES = re.compile(NAMES + r" of `(?:\w+::)*(\w+)`, " + PATH)
NAMED = re.compile(NAMES + r"(?:, | of | \()" + PATH)
USE = re.compile(r"^From `([\w./]+)`.*:\n\n```\w+\n(.*?)```", re.S | re.M)
OWNER = re.compile(
    r"\s*(?:pub(?:\(crate\))? )?(?:extern \"C\" )?(?:fn|record|abbrev)(?: pub)? (\w+)")


def place(crate, path):
    """Where the path of a page is."""
    inner = re.match(r"(src|specs|proofs)/", path)
    return f"crates/{crate}/{path}" if inner else f"crates/{path}"


def text_of(path):
    """The text of a file, or an empty one where there is none."""
    if not os.path.isfile(path):
        return ""
    with open(path, encoding="utf-8") as given:
        return given.read()


def labels_of(code, owner):
    """The names of the clauses of a function or record, `ensures` for one without a name."""
    found, inside = set(), False
    for line in code.split("\n"):
        if name := OWNER.match(line):
            inside = name[1] == owner
        words = line.split("--")[0].split()[:3] if inside else []
        if words[:1] == ["ensures"]:
            found.add("ensures" if words[1] == "{" else words[1])
        elif words[:1] == ["pub"] and words[2:] == [":"]:
            found.add(words[1])
    return found


def names_in(text):
    """The names between back quotes, of a method its own."""
    return [name.split("::")[-1] for name in re.findall(r"`([\w:]+)`", text)]


def cited(crate, text):
    """The clauses, names and paths of a page that aren't there."""
    for path in re.findall(PATH, text):
        if not os.path.isfile(place(crate, path)):
            yield f"there is no {path}"
    for labels, owner, path in CLAUSES.findall(text):
        clauses = labels_of(text_of(place(crate, path)), owner)
        for label in set(names_in(labels)) - clauses:
            yield f"{owner} has no clause {label} in {path}"
    for names, path in NAMED.findall(text):
        for name in names_in(names):
            if not re.search(rf"\b{name}\b", text_of(place(crate, path))):
                yield f"no {name} in {path}"


def shown(text):
    """The lines of 'Use' that aren't in the file that it names, and whether it names one."""
    found = USE.findall(text)
    if len(found) != 1:
        yield "'Use' has one block, after a line `From FILE:`"
    for path, block in found:
        lines = {line.strip() for line in text_of(path).split("\n")}
        for line in block.split("\n"):
            if line.strip() not in lines | {""}:
                yield f"{path} has no line {line.strip()}"


def faults():
    """What is wrong with the pages."""
    found = []
    for page in sorted(glob.glob("crates/*/README.md")):
        crate, text = page.split("/")[1], text_of(page)
        parts = re.findall(r"^## (.*)$", text, re.M)
        wrong = [*cited(crate, text), *shown(text)]
        if not text.startswith(f"# `{crate}`\n") or parts != PARTS:
            wrong.append(f"its parts are {', '.join(PARTS)}")
        if text.count("\n") > LINES:
            wrong.append(f"more than {LINES} lines")
        found += [f"{page}: {each}" for each in wrong]
    return found


if __name__ == "__main__":
    os.chdir(os.path.join(os.path.dirname(os.path.realpath(__file__)), ".."))
    print("\n".join(faults()) or "pages of crates: as they should be")
    sys.exit(bool(faults()))
