"""The handlers of a session with what `show` infers beside them, for the page of report.py."""
import os
import re
from html import escape

import make

HERE = os.path.dirname(os.path.realpath(__file__))
WORDS = make.words_of(os.path.join(HERE, "../extras/editors/words.txt"))
KINDS = {"keyword": WORDS["declare"] + WORDS["statement"], "constant": WORDS["constant"],
         "operation": WORDS["on-map"] + WORDS["on-set"]}
PIECE = re.compile(r"#.*|'[A-Za-z][\w.@:-]*|[A-Za-z]\w*|\d+|\s+|[=!<]=|.")
HEAD = ('<table class="handlers"><thead><tr><th></th><th>Line</th>'
        "<th>What may still be called, from here on</th></tr></thead>\n<tbody>")


def code(text):
    """A text of the language with its words marked."""
    made = []
    for piece in PIECE.findall(text):
        kind = next((kind for kind, words in KINDS.items() if piece in words), None)
        kind = {"'": "symbol", "#": "comment"}.get(piece[0], "number" if piece.isdigit() else kind)
        made.append(f'<span class="{kind}">{escape(piece)}</span>' if kind else escape(piece))
    return "".join(made)


def rows_of(shown):
    """Each line of the handlers in canonical form, with what is declared before it, if something
    is, and whether that is for the case that a condition doesn't hold."""
    lines, rows, declared = shown.rstrip("\n").split("\n"), [], None
    at = 0
    while at < len(lines):
        line = lines[at]
        word = line.strip()
        if word.startswith("mayuse "):
            declared = word[len("mayuse "):-1]
        elif word == "} else {" and lines[at + 2].strip() == "}":
            # the file has no such block: it is there for the declaration alone
            rows.append((lines[at + 2], lines[at + 1].strip()[len("mayuse "):-1], True))
            at += 2
        else:
            rows.append((line, declared, False))
            declared = None
        at += 1
    return rows


def tokens_of(text):
    """The tokens of a text with their lines, from 0; no parentheses, no empty second blocks."""
    found = [(piece, at) for at, line in enumerate(text.split("\n"))
             for piece in PIECE.findall(line) if not piece.isspace() and piece[0] not in "#()"]
    kept, at = [], 0
    while at < len(found):
        if [piece for piece, _ in found[at:at + 3]] == ["else", "{", "}"]:
            at += 3
        else:
            kept.append(found[at])
            at += 1
    return kept


def changes(rows):
    """The tokens of these lines, and by a token's place what is declared before it, if that is
    another list than the one before in the same block."""
    pieces, declared, last = [], {}, None
    for line, said, otherwise in rows:
        if said is not None:
            if otherwise or said != last:
                declared[len(pieces)] = said, otherwise
            last = said
        words = [piece for piece, _ in tokens_of(line)]
        pieces += words
        if "}" in words or "handler" in words:
            last = None
    return pieces, declared


def beside(source, shown):
    """Each line of the source with what is declared at its tokens; in canonical form where the two
    texts have other tokens."""
    rows = rows_of(shown)
    pieces, declared = changes(rows)
    written = tokens_of(source)
    if [piece for piece, _ in written] != pieces:
        source = "\n".join(line for line, _, _ in rows)
        written = tokens_of(source)
    lines = [(line.rstrip("\r"), []) for line in source.rstrip().split("\n")]
    for at, said in declared.items():
        lines[written[at][1]][1].append(said)
    return lines


def symbols(declared):
    """Symbols, each in a box of its own."""
    if declared == "nothing":
        return '<span class="nothing">nothing</span>'
    return " ".join(f'<code class="chip">{code(each)}</code>'
                    for each in re.findall(r"\w+\([^)]*\)", declared))


def said_of(declared):
    """What is declared at a line."""
    made = []
    for text, otherwise in declared:
        before = "if not" if otherwise else "then" if made else ""
        made.append(f'<div class="said"><span class="then">{before}</span> {symbols(text)}</div>')
    return "".join(made)


def table(source, shown):
    """The handlers with what each may still call beside its lines, but for the first comment."""
    made, begun = [], False
    for number, (line, declared) in enumerate(beside(source, shown), 1):
        begun = begun or not (line.startswith("#") or not line.strip())
        if begun:
            made.append(f'<tr><td class="place">{number}</td>'
                        f'<td><pre>{code(line) or "&nbsp;"}</pre></td>'
                        f"<td>{said_of(declared)}</td></tr>")
    return HEAD + "\n".join(made) + "</tbody></table>"
