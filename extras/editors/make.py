#!/usr/bin/env python3
"""Makes the files of each editor from words.txt: extras/editors/make.py [FOLDER].

The files (of Vim by vim_files.py, of Tree-sitter by tree_sitter_files.py) are written into the
folder of this script, or into FOLDER.
"""
import json
import os
import sys

sys.dont_write_bytecode = True
import tree_sitter_files  # noqa: E402
import vim_files  # noqa: E402
from patterns import MARKS, SYMBOL, words_of  # noqa: E402

HERE = os.path.dirname(os.path.realpath(__file__))


def scoped(name, match):
    """What a TextMate grammar calls such a text."""
    return {"name": f"{name}.foresight", "match": match}


COMMENT = scoped("comment.line.number-sign", "#.*$")
QUOTED = scoped("string.other.symbol", f"'{SYMBOL}")
MARK = "^(?:" + "|".join(reversed(MARKS)) + r")[ \t\r]*$"


def any_of(words, *names):
    """A pattern of the words of these lines of the list."""
    return r"\b(?:" + "|".join(word for name in names for word in words[name]) + r")\b"


def handlers(words):
    """The patterns of handlers."""
    return [
        COMMENT,
        {"match": r"\b(handler)\s+([A-Za-z]\w*)", "captures": {
            "1": {"name": "storage.type.foresight"},
            "2": {"name": "entity.name.function.foresight"}}},
        scoped("storage.type", any_of(words, "declare")),
        scoped("keyword.control", any_of(words, "statement")),
        scoped("constant.language", any_of(words, "constant")),
        scoped("keyword.other", any_of(words, "foresight")),
        scoped("support.function", any_of(words, "on-map", "on-set")),
        scoped("constant.numeric", r"\b\d+\b"),
        QUOTED,
        scoped("keyword.operator", r"[=!<]=|[=<+*-]"),
    ]


def lines(first):
    """The patterns of lines of words, of which these are those of the first ones."""
    return [
        COMMENT,
        scoped("meta.separator", MARK),
        *first,
        scoped("constant.numeric", r"(?<=[ \t])-?\d+(?=[ \t\r#]|$)"),
        scoped("constant.language", r"(?<=[ \t])nil(?=[ \t\r#]|$)"),
        QUOTED,
    ]


def grammar(words):
    """The TextMate grammar."""
    requests = lines([scoped("entity.name.function", rf"^[ \t]*{SYMBOL}")])
    events = lines([
        scoped("keyword.control", r"^[ \t]*(?:" + "|".join(words["event"]) + r")\b"),
        scoped("support.function", any_of(words, "on-map", "on-set") + r"(?=[ \t\r#]|$)"),
        scoped("constant.language", r"(?<=[ \t])any(?=[ \t\r#]|$)")])
    trace = {"name": "meta.trace.foresight", "begin": r"(?=^%% trace[ \t\r]*$)",
             "end": r"(?!x)x", "patterns": events}
    return {
        "$schema": "https://raw.githubusercontent.com/martinring/tmlanguage/master/tmlanguage.json",
        "name": "foresight",
        "comment": "Made by extras/editors/make.py: change words.txt.",
        "scopeName": "source.foresight",
        "fileTypes": ["handlers", "session", "trace"],
        "patterns": [
            trace,
            {"name": "meta.lines.foresight", "begin": f"(?={MARK})", "end": r"(?!x)x",
             "patterns": [trace, *requests]},
            *handlers(words)],
    }


def made(words):
    """Each file that is made, with its text."""
    return {
        **vim_files.files(words),
        **tree_sitter_files.files(words),
        "foresight.tmLanguage.json": json.dumps(grammar(words), indent=2) + "\n",
    }


def main():
    folder = sys.argv[1] if len(sys.argv) > 1 else HERE
    for name, text in made(words_of(os.path.join(HERE, "words.txt"))).items():
        path = os.path.join(folder, name)
        os.makedirs(os.path.dirname(path), exist_ok=True)
        with open(path, "w", encoding="utf-8") as file:
            file.write(text)


if __name__ == "__main__":
    main()
