#!/usr/bin/env python3
"""Lists the public clauses that changed since a commit: tools/clauses.py COMMIT [ENTRIES].

A clause is one behind `requires` or `ensures` of a public function, of a method of a public trait,
or of an exported C function. Functions are compared by their names, with the type or trait whose
they are (`Type::name`): a crate or a file may have another name meanwhile. Layout doesn't count.

For each clause that is gone, and each whose text changed, a line:

  gone Type::name label
  changed Type::name label

With ENTRIES, a file of such lines without their first word, each followed by `: ` and what says the
same or more today (a clause, a type, a law), the entry is printed behind the line, and the script
ends with 1 if a line has none. A line `Type::name *: ..` is an entry for the whole function,
`crate NAME *: ..` for every function of a crate that is gone.
"""
import collections
import re
import subprocess
import sys

HEAD = re.compile(r"\s*(pub )?(?:extern \"C\" )?fn (\w+)")
OWNER = re.compile(r"(?:pub )?(?P<kind>impl|trait)\b(?:<[^{]*?>)?\s+(?:(?:[\w:]+(?:<[^{]*?>)?) for )?"
                   r"(?P<name>\w+)")
CLAUSE = re.compile(r"\s*(requires|ensures)\b\s*\*?\s*(\w*)")


def git(*words):
    """What git writes."""
    return subprocess.run(["git", *words], capture_output=True, text=True, check=True).stdout


def files_at(commit):
    """The source files of the crates, with their texts; of the working tree where there is no
    commit."""
    words = ["ls-tree", "-r", "--name-only", commit] if commit else ["ls-files"]
    for file in git(*words, "crates" if not commit else "--", *(["crates"] if commit else [])).split():
        if re.fullmatch(r"crates/(?!tests_)\w+/src/.*\.rt", file):
            yield file, git("show", f"{commit}:{file}") if commit else open(file, encoding="utf-8").read()


def head_of(lines, at):
    """The lines of a function's head from its name to its body."""
    found = []
    for line in lines[at:]:
        if line.strip() == "{" or line.rstrip().endswith(";"):
            return found + [line]
        found.append(line)
        if line.rstrip().endswith("{") and not CLAUSE.match(line) and not found[1:]:
            return found
    return found


def clauses_of(head):
    """The clauses of a head: label to text."""
    found, label = collections.OrderedDict(), None
    for line in head[1:]:
        if begun := CLAUSE.match(line):
            label = f"{begun[1]} {begun[2]}".strip()
            while label in found:
                label += "'"
            found[label] = ""
        if label and line.strip() != "{":
            found[label] += " " + line.strip()
    return {name: re.sub(r"\s+", "", text) for name, text in found.items()}


def functions_of(text):
    """The public functions of a file with their clauses."""
    owner, is_public = None, False
    lines = text.split("\n")
    for at, line in enumerate(lines):
        if line and not line[0].isspace():
            begun = OWNER.match(line)
            if begun or line.startswith("}"):
                owner = begun and begun["name"]
                is_public = bool(begun) and begun["kind"] == "trait" and line.startswith("pub ")
        begun = HEAD.match(line)
        if begun and (begun[1] or is_public):
            name = f"{owner}::{begun[2]}" if line[0].isspace() and owner else begun[2]
            yield name, clauses_of(head_of(lines, at))


def read(commit):
    """All functions by name: the crates that have one, and their clauses."""
    found = collections.defaultdict(list)
    for file, text in files_at(commit):
        for name, clauses in functions_of(text):
            found[name].append((file.split("/")[1], clauses))
    return found


def compared(old, new):
    """What is gone or changed: (word, function, label, crate)."""
    for name, those in sorted(old.items()):
        left = [clauses for _, clauses in new.get(name, [])]
        rest = []
        for crate, clauses in those:
            if clauses in left:
                left.remove(clauses)
            else:
                rest.append((crate, clauses))
        for crate, clauses in rest:
            best = max(left, key=lambda it: sum(it.get(k) == v for k, v in clauses.items()), default=None)
            if best is not None:
                left.remove(best)
            for label, text in clauses.items() or [("-", "")]:
                if best is None or label not in best and text not in best.values():
                    yield "gone", name, label, crate
                elif label in best and best[label] != text and label != "-":
                    yield "changed", name, label, crate


def entries_of(file):
    """The entries by what they are about."""
    with open(file, encoding="utf-8") as given:
        rows = [line.rstrip("\n").split(": ", 1) for line in given if ": " in line and line[0] != "#"]
    return {about: why for about, why in rows}


def main():
    """Prints the list."""
    if len(sys.argv) not in (2, 3):
        sys.exit(__doc__)
    entries = entries_of(sys.argv[2]) if len(sys.argv) == 3 else {}
    lacking = count = 0
    for word, name, label, crate in compared(read(sys.argv[1]), read(None)):
        why = next((entries[it] for it in (f"{name} {label}", f"{name} *", f"crate {crate} *")
                    if it in entries), None)
        count += 1
        lacking += why is None
        print(f"{word} {name} {label} ({crate})" + (f": {why}" if why else ""))
    print(f"clauses: {count} gone or changed, {lacking} without an entry")
    sys.exit(1 if len(sys.argv) == 3 and lacking else 0)


main()
