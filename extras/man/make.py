#!/usr/bin/env python3
"""Makes the manual pages: extras/man/make.py [FOLDER].

The pages are written into the folder of this script, or into FOLDER. PAGES says of each page what
is written here, and of which document it takes sections: a line `<HEADING|PART` takes a part of a
section, or all of it; without a heading it is what the document says before its first section.
Version and date are those of the newest release in CHANGELOG.md.
"""
import os
import re
import sys
import textwrap

HERE = os.path.dirname(os.path.realpath(__file__))
ROOT = os.path.join(HERE, "..", "..")
WIDTH = 76
# What is written before a cell, where it isn't its column's head; and texts that a page says
# otherwise, since what they point at is elsewhere there.
LABELS = {"Meaning": "", "Line": "Error output: ", "On a": "On a "}
OTHERWISE = {
    " (below)": "",
    "one of the next table": "a line of those below",
    "the table in `docs/LANGUAGE.md`": "the table in *foresight*(1)",
    "`LIBRARY.md`": "the project's `LIBRARY.md`",
}

RUNNER = r"""
# NAME
foresight \- run request handlers over shared tables, with the replies of one request at a time
# SYNOPSIS
@ `foresight` `check` | `show` | `ranges` | `audit`
@ `foresight` `serve` | `dump` | `trace` | `clients` [`--callers` *N*] [`--shards` *S*]
@ `foresight` `work` *N* *START*
# DESCRIPTION
`foresight` reads its standard input and writes to its standard output. The input of `check` and
`show` is a file of handlers; `work` reads nothing; `ranges` reads a range session; every other
command reads a session file: tables and handlers, a line `%%`, and requests, one a line.
*foresight*(5) describes these files and the texts that are printed.

Handlers are run under deterministic concurrency control, and the replies are exactly those of
running the requests one at a time, in the order of the file. From each handler's text the program
infers, at every point, which operations the handler may still perform. An operation is delayed only
while an older, unfinished handler may still perform one that doesn't commute with it.
# COMMANDS
<Commands
# EXIT STATUS
<Exit status and the line on the error output|Status
# DIAGNOSTICS
<Exit status and the line on the error output|The line names
# EXAMPLES
Serve a session, and show what is inferred of its handlers:

```
$ foresight serve < seats.session
$ sed '/^%%/,$d' seats.session | foresight show
```

Serve it by eight callers, and keep the final tables in place of the replies:

```
$ foresight dump --callers 8 < seats.session > tables
```

Print the events of a run, and have them judged:

```
$ foresight trace < seats.session > events
$ cat seats.session events | foresight audit
```
# SEE ALSO
*foresight_where*(1), *foresight_waits*(1), *foresight*(5)
"""

PLACES = r"""
# NAME
foresight_where \- turn a refusal of foresight into line and column
# SYNOPSIS
@ `foresight_where` [`--json`] *FILE*
@ `foresight_where` `--rules`
@ `foresight_where` `--version`
# DESCRIPTION
<|first
# EXIT STATUS
<|Status
# EXAMPLES
Show where a session is refused:

```
$ foresight serve < refused.session 2>&1 | foresight_where refused.session
refused.session:2:37: a token with which no file goes on
handler look(k) { let v = get(m, k) reply v; }
                                    ^
= unexpected reserved word `reply`: `;` is wanted here
= a statement ends with `;`
```
# SEE ALSO
*foresight*(1), *foresight*(5)
"""

WAITS = r"""
# NAME
foresight_waits \- list which operations may wait for which handlers, or count which ones waited in a trace
# SYNOPSIS
@ `foresight_waits` [`--json`] [*FILE*]
@ `foresight_waits` `--trace` [`--json`] [*FILE*]
@ `foresight_waits` `--version`
# DESCRIPTION
<|first
# EXIT STATUS
<|Status
# EXAMPLES
How often each handler is waited for, and what waits for the handler `book`:

```
$ foresight_waits seats.handlers | cut -f 3 | sort | uniq -c
$ foresight_waits seats.handlers | awk -F '\t' '$3 == "book"'
```

The same of the JSON, by *jq*(1):

```
$ foresight_waits --json seats.handlers | jq '.[] | select(.for == "book")'
```

How often each handler waited in a run, and the longest chain of tickets of which each waited for the
next:

```
$ (cat seats.session; foresight trace < seats.session) > run.trace
$ foresight_waits --trace --json run.trace | jq -r '.delays[] | [.waits, .count] | @tsv'
$ foresight_waits --trace run.trace | grep '^# chain' | head -n 1
```
# SEE ALSO
*foresight*(1), *foresight*(5)
"""

FORMAT = r"""
# NAME
foresight \- handlers, session files, and what is printed of them
# DESCRIPTION
A file of handlers has tables and handlers. A session file has them, perhaps a line `%% tables` and
the entries with which the tables open, then a line `%%`, and requests, one a line. Commands of
*foresight*(1) read these files; each is text in UTF-8. A `#` begins a comment in every part.
# A WORKED EXAMPLE
<A worked example: seats
# VALUES
<Values
# STATEMENTS
<Statements
# OPERATIONS
<Operations
# RESERVED WORDS
<Reserved words
# WHAT ISN'T THERE
<What isn't there
# COMMUTING OPERATIONS
<Which operations commute, and how to wait little
# REQUESTS
<Requests
# OPENING TABLES
<Opening tables, and dumps
# SEVERAL CLIENTS
<Several clients
# TRACES
<Traces and audits
# RANGE SESSIONS
<Range sessions
# LIMITS
<Limits
# SEE ALSO
*foresight*(1), *foresight_where*(1), *foresight_waits*(1)
"""

LANGUAGE = "docs/LANGUAGE.md"
PAGES = {"foresight.1": (LANGUAGE, RUNNER),
         "foresight_where.1": ("crates/foresight_where/README.md", PLACES),
         "foresight_waits.1": ("crates/foresight_waits/README.md", WAITS),
         "foresight.5": (LANGUAGE, FORMAT)}


def read(name):
    """The text of a file of the repository."""
    with open(os.path.join(ROOT, name), encoding="utf-8") as given:
        return given.read()


def sections_of(text):
    """The lines of each section of a document, by its heading; none for what comes before."""
    _, _, text = text.partition("\n")
    lines = []
    found, inside = {"": lines}, False
    for line in text.split("\n"):
        inside = inside != line.startswith("```")
        if line.startswith("## ") and not inside:
            lines = found[line[3:]] = []
        else:
            lines.append(line)
    return found


def blocks_of(lines):
    """The blocks of some lines: paragraphs, bullets, tables, code."""
    blocks, at = [], 0
    while at < len(lines):
        line = lines[at]
        kind = kind_of(line)
        end = at + 1
        if kind == "fence":
            end = lines.index("```", end) + 1
        elif kind in ("table", "code", "text", "synopsis"):
            while end < len(lines) and kind_of(lines[end]) == kind:
                end += 1
        if kind != "blank":
            blocks.append((kind, lines[at:end]))
        at = end
    return blocks


def kind_of(line):
    """What a line is a part of."""
    if not line.strip():
        return "blank"
    for mark, kind in (("```", "fence"), ("| ", "table"), ("|-", "table"), ("- ", "bullet"),
                       ("    ", "code"), ("@ ", "synopsis"), ("<", "section"), ("# ", "head")):
        if line.startswith(mark):
            return kind
    return "text"


def chosen(blocks, part):
    """The blocks of a section that a page takes."""
    heads = [block[1][0] for block in blocks]
    if part == "Status":
        return [statuses(block) for block in blocks
                if block[1][0].startswith(("| Status", "Status "))]
    if part == "first":
        return [block for block in blocks if not block[1][0].startswith("Status ")]
    if part:
        return blocks[next((at for at, head in enumerate(heads) if head.startswith(part)),
                           len(blocks)):]
    return blocks


def statuses(block):
    """A table of exit statuses, also of a paragraph `Status 0: .. 1: ..`."""
    kind, lines = block
    if kind == "table":
        return block
    rows = re.findall(r"(\d): (.*?)\.(?= \d: |$)", " ".join(lines))
    return "table", ["| Status | Meaning |", "|---|---|",
                     *(f"| {number} | {meaning} |" for number, meaning in rows)]


def escaped(text):
    """A text as roff takes it."""
    for sign, name in (("\\", r"\e"), ("'", r"\(aq"), ("`", r"\(ga"), ("^", r"\(ha"),
                       ("~", r"\(ti"), ("-", r"\-")):
        text = text.replace(sign, name)
    return text


def prose(text):
    """A text of a document with its marks, as roff takes it."""
    parts = re.split(r"(`[^`]+`|\*\*[^*]+\*\*|\*\w[\w ]*\*(?:\(\d\))?)", text)
    made = []
    for part in parts:
        if part.startswith("`"):
            made.append(rf"\fB{escaped(part[1:-1])}\fR")
        elif part.startswith("**"):
            made.append(rf"\fB{prose(part[2:-2])}\fR")
        elif part.startswith("*") and (found := re.fullmatch(r"\*(.*)\*(\(\d\))", part)):
            made.append(rf"\fB{found[1]}\fR{found[2]}")
        elif part.startswith("*") and len(part) > 2:
            made.append(rf"\fI{part[1:-1]}\fR")
        else:
            made.append(re.sub(r"\[([^]]+)\]\([^)]+\)", r"\1", part).replace(
                "\\-", "\0").replace("\\", r"\e").replace("\0", r"\-"))
    return "".join(made)


def filled(text):
    """Lines of prose, a sentence on a line of its own."""
    for said, instead in OTHERWISE.items():
        text = text.replace(said, instead)
    text = prose(re.sub(r"\s+", " ", text).strip())
    lines = []
    for sentence in re.split(r"(?<=[.:?!]) (?=[A-Z\\])", text):
        lines += textwrap.wrap(sentence, WIDTH, break_long_words=False, break_on_hyphens=False)
    return ["\\&" + line if line[:1] in ".'" else line for line in lines]


def example(lines):
    """Lines that are shown as they are."""
    made = [".PP", ".RS 4", ".EX"]
    for line in lines:
        text = escaped(line)
        made += wrapped("\\&" + text if text[:1] in (".", "'") else text)
    return made + [".EE", ".RE"]


def wrapped(text):
    """One line of output, whose source goes on behind a backslash where it is long."""
    pieces = []
    while len(text) > WIDTH:
        cut = text.rfind(" ", 1, WIDTH)
        if cut < 1:
            break
        pieces.append(text[:cut] + "\\")
        text = text[cut:]
    return [*pieces, text]


def cells(row):
    """The cells of a table's row."""
    parts = re.split(r"(?<!\\)\|", row.strip())[1:-1]
    return [part.strip().replace("\\|", "|") for part in parts]


def table(lines):
    """A list of a table's rows: the first cell, then the others, each with its head."""
    heads = cells(lines[0])[1:]
    made = []
    for row in lines[2:]:
        tag, *rest = cells(row)
        if len(heads) > 1:
            rest = [labelled(head, cell) for head, cell in zip(heads, rest)]
        made += [".TP", *wrapped(prose(tag)), *filled(". ".join(rest))]
    return made


def labelled(head, cell):
    """A cell of a table with several columns, as a sentence without its full stop."""
    label = LABELS.get(head, f"{head}: ")
    return label + cell if label else cell[:1].upper() + cell[1:]


def synopsis(lines):
    """The command lines, each on a line of its own."""
    return [row for line in lines for row in (".br", prose(line[2:]))][1:]


def page(name, document, text, sections, release):
    """A manual page."""
    title, number = name.rsplit(".", 1)
    version, date = release
    made = [rf'.\" Made by extras/man/make.py from {document}: change these.',
            f'.TH {title.upper()} {number} "{date}" "foresight {version}" "foresight"']
    for kind, lines in blocks_of(text.strip().split("\n")):
        if kind == "section":
            heading, _, part = lines[0][1:].partition("|")
            taken = chosen(blocks_of(sections.get(heading, [])), part)
            if not taken:
                sys.exit(f"extras/man/make.py: {document} has no section `{heading}` `{part}`")
            for inner in taken:
                made += block(*inner)
        else:
            made += block(kind, lines)
    return "\n".join(tidied(made)) + "\n"


def block(kind, lines):
    """One block of a document."""
    if kind == "head":
        return [".SH " + lines[0][2:].replace("'", r"\(aq")]
    if kind == "fence":
        return example(lines[1:-1])
    if kind == "code":
        return example([line[4:] for line in lines])
    if kind == "table":
        return table(lines)
    if kind == "bullet":
        return [".IP \\(bu 2", *filled(lines[0][2:])]
    if kind == "synopsis":
        return synopsis(lines)
    return [".PP", *filled(" ".join(lines))]


def tidied(lines):
    """No paragraph begins right after a heading."""
    return [line for at, line in enumerate(lines)
            if line != ".PP" or not lines[at - 1].startswith(".SH")]


def release_of(changes):
    """The version and the date of the newest release."""
    return re.search(r"^## (\d[\d.]*),.*\((\d{4}-\d\d-\d\d)\)$", changes, re.M).groups()


def made_pages():
    """Each page that is made, with its text."""
    release = release_of(read("CHANGELOG.md"))
    return {name: page(name, document, text, sections_of(read(document)), release)
            for name, (document, text) in PAGES.items()}


if __name__ == "__main__":
    folder = sys.argv[1] if len(sys.argv) > 1 else HERE
    for made, written in made_pages().items():
        with open(os.path.join(folder, made), "w", encoding="utf-8") as file:
            file.write(written)
