#!/usr/bin/env python3
"""Compares the Tree-sitter grammar with the program's parser: compare.py PROGRAM [COMMAND ..].

COMMAND makes src/parser.c in the folder that it is run in (`tree-sitter generate` if none is
given); a C compiler and Tree-sitter's library (Debian's libtree-sitter-dev) are needed too. Of each
file of examples/ and checks/, and of each of these with one token left out, put twice or exchanged,
the handlers are parsed by both: what `check` accepts, or refuses for a rule beyond the grammar, has
to have a tree without a fault, and what it refuses as S1 or S2 a fault. Of whole files of examples/
those that their command accepts have to have a tree without a fault. The queries have to fit the
grammar.
"""
import glob
import os
import random
import re
import shutil
import subprocess
import sys
import tempfile

HERE = os.path.dirname(os.path.realpath(__file__))
ROOT = os.path.join(HERE, "../../..")
# Compiles the queries that its words name, then parses the files that its input names, a line each,
# and writes 1 for a tree with a fault and 0 for one without.
JUDGE = r"""
#include <stdio.h>
#include <stdlib.h>
#include <string.h>
#include <tree_sitter/api.h>
const TSLanguage *tree_sitter_foresight(void);
static char *text_of(const char *name, uint32_t *size) {
  FILE *file = fopen(name, "rb");
  char *text = malloc(1 << 23);
  *size = file ? fread(text, 1, 1 << 23, file) : 0;
  if (file) fclose(file);
  return text;
}
int main(int count, char **names) {
  uint32_t size, place;
  for (int at = 1; at < count; at++) {
    char *text = text_of(names[at], &size);
    TSQueryError fault;
    if (!ts_query_new(tree_sitter_foresight(), text, size, &place, &fault)) {
      fprintf(stderr, "%s: fault %d at %u\n", names[at], fault, place);
      return 1;
    }
    free(text);
  }
  TSParser *parser = ts_parser_new();
  if (!ts_parser_set_language(parser, tree_sitter_foresight())) return 2;
  char line[4096];
  while (fgets(line, sizeof line, stdin)) {
    line[strcspn(line, "\n")] = 0;
    char *text = text_of(line, &size);
    TSTree *tree = ts_parser_parse_string(parser, NULL, text, size);
    puts(ts_node_has_error(ts_tree_root_node(tree)) ? "1" : "0");
    ts_tree_delete(tree);
    free(text);
  }
}
"""
TOKEN = re.compile(rb"#[^\n]*|[A-Za-z]\w*|'[\w.@:-]*|\d+|[=!<]=|[^\s\w]")


def built(folder, command):
    """The program that parses files by the grammar."""
    for name in ("grammar.js", "tree-sitter.json"):
        shutil.copy(os.path.join(HERE, name), folder)
    subprocess.run(command, cwd=folder, check=True)
    with open(os.path.join(folder, "judge.c"), "w", encoding="utf-8") as file:
        file.write(JUDGE)
    subprocess.run(["cc", "-O1", "-Isrc", "-o", "judge", "judge.c", "src/parser.c",
                    "-ltree-sitter"], cwd=folder, check=True)
    return os.path.join(folder, "judge")


def read(name):
    """The bytes of a file."""
    with open(name, "rb") as given:
        return given.read()


def handlers_of(text):
    """The part of a file before its first marker line."""
    return re.split(rb"(?m)^%%(?: tables| next| trace)?[ \t\r]*$", text)[0]


def changed(text, draw):
    """The text with one token left out, put twice, or in another's place."""
    tokens = [found for found in TOKEN.finditer(text) if not found[0].startswith(b"#")]
    if not tokens:
        return text
    one, other = draw.choice(tokens), draw.choice(tokens)
    instead = draw.choice([b"", one[0] + b" " + one[0], b" " + other[0] + b" ", other[0]])
    return text[:one.start()] + instead + text[one.end():]


def ended(program, words, text):
    """The status of a command on a text, and the rule of its refusal."""
    ran = subprocess.run([program, *words], input=text, capture_output=True)
    rule = re.match(r"refused (\w+)", ran.stderr.decode())
    return ran.returncode, rule[1] if rule else ""


def texts(program):
    """Each text with what it is from, and whether it has to have a fault (None: either)."""
    draw = random.Random(7)
    for name in sorted(glob.glob("examples/*") + glob.glob("checks/*/*")):
        if not name.endswith((".handlers", ".session", ".trace")) \
                or os.path.getsize(name) > 1000000:
            continue
        whole = read(name)
        handlers = handlers_of(whole)
        for text in [handlers, *(changed(handlers, draw) for _ in range(6))]:
            status, rule = ended(program, ["check"], text)
            fault = rule in ("S1", "S2")
            beyond = rule[:1] in ("K", "A")
            yield name, text, None if status and not fault and not beyond else fault
        words = read(name + ".args").decode().split() if os.path.exists(name + ".args") else []
        if name.startswith("examples/") and words and ended(program, words, whole)[0] == 0:
            yield name + " (whole)", whole, False


def main():
    program = os.path.realpath(sys.argv[1])
    command = sys.argv[2:] or ["tree-sitter", "generate"]
    os.chdir(ROOT)
    wrong, counts = [], {True: 0, False: 0, None: 0}
    with tempfile.TemporaryDirectory() as folder:
        judge = built(folder, command)
        rows = list(texts(program))
        names = []
        for at, (_, text, _) in enumerate(rows):
            names.append(os.path.join(folder, f"text{at}"))
            with open(names[-1], "wb") as file:
                file.write(text)
        queries = glob.glob(os.path.join(HERE, "queries/*.scm"))
        ran = subprocess.run([judge, *queries], input="\n".join(names) + "\n", text=True,
                             capture_output=True, check=False)
        if ran.returncode:
            sys.exit(ran.stderr)
        for (name, text, fault), found in zip(rows, ran.stdout.split()):
            counts[fault] += 1
            if fault is not None and fault != (found == "1"):
                wrong.append(f"{name}: the parser says {'a' if fault else 'no'} fault:\n"
                             + text.decode(errors="replace")[:600])
    print("\n".join(wrong) or f"tree-sitter: {counts[False]} texts without a fault, {counts[True]} "
          f"with one, as they should be ({counts[None]} are refused for a limit)")
    sys.exit(bool(wrong))


if __name__ == "__main__":
    main()
