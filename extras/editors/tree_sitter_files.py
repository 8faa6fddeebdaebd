"""The Tree-sitter grammar with its queries, made from the list of words."""
import json
import re

from patterns import SYMBOL

GRAMMAR = r"""// Tree-sitter's grammar of handlers and sessions.
// Made by extras/editors/make.py: change words.txt.
//
// A name is no reserved word and a symbol isn't 'nil: their patterns are written out so that a word
// is refused where the parser refuses it. The limits of the language aren't here.
const list = (rule) => seq(rule, repeat(seq(",", rule)));
const up_to_three_more = (rule) =>
  seq(rule, optional(seq(",", rule, optional(seq(",", rule, optional(seq(",", rule)))))));

module.exports = grammar({
  name: "foresight",
  word: ($) => $._word,
  extras: ($) => [/[ \t\r\n]/, $.comment],
  supertypes: ($) => [$._statement],

  rules: {
    source_file: ($) => seq(
      repeat($.table),
      repeat($.handler),
      optional($.tables_part),
      optional($.requests_part),
      optional($.trace_part),
    ),

    table: ($) => seq(field("kind", choice(KINDS)), field("name", $.name), ";"),
    handler: ($) => seq(
      "handler",
      field("name", $.name),
      field("parameters", $.parameters),
      field("body", $.block),
    ),
    parameters: ($) => seq("(", optional(list($.name)), ")"),
    block: ($) => seq("{", repeat($._statement), "}"),

    _statement: ($) => choice(
      $.let_statement,
      $.assignment,
      $.operation_statement,
      $.if_statement,
      $.repeat_statement,
      $.reply_statement,
    ),
    let_statement: ($) => seq("let", field("name", $.name), "=", field("value", $._right), ";"),
    assignment: ($) => seq(field("name", $.name), "=", field("value", $._right), ";"),
    operation_statement: ($) => seq($.operation, ";"),
    if_statement: ($) => seq(
      "if",
      field("condition", $.comparison),
      field("then", $.block),
      optional(seq("else", field("else", $.block))),
    ),
    repeat_statement: ($) => seq(
      "repeat",
      field("times", $.number),
      "as",
      field("name", $.name),
      field("body", $.block),
    ),
    reply_statement: ($) => seq("reply", up_to_three_more($._expression), ";"),

    comparison: ($) => seq(
      field("left", $._expression),
      choice(COMPARISONS),
      field("right", $._expression),
    ),
    _right: ($) => choice($.operation, $._expression),
    operation: ($) => seq(
      field("operation", $.operation_word),
      "(",
      field("table", $.name),
      optional(seq(",", $._atom, optional(seq(",", $._atom)))),
      ")",
    ),
    operation_word: () => choice(
      OPERATIONS
    ),

    _expression: ($) => choice($.binary_expression, $._factor),
    binary_expression: ($) => choice(
      prec.left(1, seq($._expression, choice("+", "-"), $._expression)),
      prec.left(2, seq($._expression, "*", $._expression)),
    ),
    _factor: ($) => choice($._atom, $.parenthesized_expression),
    parenthesized_expression: ($) => seq("(", $._expression, ")"),
    _atom: ($) => choice($.name, $.nil, $.symbol, $.number, $.negative_number),
    negative_number: ($) => seq("-", $.number),
    nil: () => "nil",

    // Behind the handlers each line is an entry of a table, a request or an event.
    tables_part: ($) => seq($.tables_mark, repeat(seq($._end_of_line, optional($.entry)))),
    requests_part: ($) => seq(
      $.requests_mark,
      repeat(seq($._end_of_line, optional(choice($.request, $.client_mark)))),
    ),
    trace_part: ($) => seq($.trace_mark, repeat(seq($._end_of_line, optional($.event)))),
    entry: ($) => seq(field("table", $.text), repeat($._value)),
    request: ($) => seq(field("handler", $.text), repeat($._value)),
    event: ($) => seq(
      field("kind", choice(EVENTS)),
      repeat(choice($.operation_word, $.any, $.nil, $.symbol, $.signed_number, $.name)),
    ),
    _value: ($) => choice($.nil_text, $.signed_number, $.text),
    any: () => "any",
    nil_text: () => token(prec(1, "nil")),

    tables_mark: () => /%% tables[ \t\r]*/,
    requests_mark: () => /%%[ \t\r]*/,
    client_mark: () => /%% next[ \t\r]*/,
    trace_mark: () => /%% trace[ \t\r]*/,
    _end_of_line: () => token(prec(1, "\n")),
    text: () => /TEXT/,
    signed_number: () => /-?[0-9]+/,

    number: () => /[0-9]+/,
    symbol: () => /'(SYMBOL)/,
    name: () => token(prec(1, /NAME/)),
    _word: () => /[A-Za-z][A-Za-z0-9_]*/,
    comment: () => /#[^\n]*/,
  },
});
"""
TREE_HIGHLIGHTS = """\
; Made by extras/editors/make.py: change words.txt.
(comment) @comment
[DECLARE] @keyword
[STATEMENT] @keyword
[EVENTS] @keyword
[COMPARISONS "+" "-" "*" "="] @operator
["," ";"] @punctuation.delimiter
["(" ")" "{" "}"] @punctuation.bracket
(nil) @constant.builtin
(nil_text) @constant.builtin
(any) @constant.builtin
[(number) (negative_number) (signed_number)] @number
(symbol) @string
(operation_word) @function.builtin
(table name: (name) @type)
(operation table: (name) @type)
(handler name: (name) @function)
(parameters (name) @variable.parameter)
(entry table: (text) @type)
(request handler: (text) @function)
[(tables_mark) (requests_mark) (client_mark) (trace_mark)] @label
"""
TREE_FOLDS = """\
; Made by extras/editors/make.py.
[
  (handler)
  (if_statement)
  (repeat_statement)
  (tables_part)
  (requests_part)
  (trace_part)
] @fold
"""
TREE_CONFIGURATION = {
    "grammars": [{
        "name": "foresight", "camelcase": "Foresight", "scope": "source.foresight", "path": ".",
        "file-types": ["handlers", "session", "trace"], "highlights": "queries/highlights.scm"}],
    "metadata": {"version": "1.2.0", "description": "Handlers and sessions of foresight"},
}


def but(first, more, words):
    """A pattern of a character of `first` and any of `more`, but none of these words."""
    def behind(prefix):
        """What may follow this prefix of a word."""
        following = sorted({word[len(prefix)] for word in words if word.startswith(prefix)
                            and len(word) > len(prefix)})
        others = without(first if not prefix else more, following)
        branches = [f"{others}[{more}]*"]
        branches += [f"{sign}{behind(prefix + sign)}" for sign in following]
        text = f"(?:{'|'.join(branches)})"
        return text + "?" if prefix and prefix not in words else text
    return behind("")


def without(signs, others):
    """A class of these signs (ranges, as in a pattern) but the others."""
    ends = re.findall(r"(.)-(.)|(.)", signs)
    listed = [chr(at) for low, high, one in ends for at in
              (range(ord(low), ord(high) + 1) if low else [ord(one)])]
    kept = [sign for sign in listed if sign not in others]
    return "[" + ranges(kept) + "]"


def ranges(signs):
    """Signs as a class has them: three or more in a row as a range, a minus last."""
    text, at = "", 0
    codes = sorted(ord(sign) for sign in signs if sign != "-")
    while at < len(codes):
        end = at
        while end + 1 < len(codes) and codes[end + 1] == codes[end] + 1:
            end += 1
        run = "".join(map(chr, codes[at:end + 1]))
        text += run if len(run) < 3 else f"{run[0]}-{run[-1]}"
        at = end + 1
    return text + ("-" if "-" in signs else "")


def tree_sitter(words, text):
    """A file of the Tree-sitter grammar."""
    def quoted(row):
        return ", ".join(f'"{word}"' for word in row)
    operations = words["on-map"] + words["on-set"]
    reserved = [word for name in ("declare", "statement", "constant", "foresight")
                for word in words[name]] + operations
    compared = [sign for sign in words["sign"] if sign in ("==", "!=", "<", "<=")]
    spaced = {"DECLARE": words["declare"], "STATEMENT": words["statement"],
              "COMPARISONS": compared, "EVENTS": words["event"]}
    lists = {"KINDS": [word for word in words["declare"] if word != "handler"],
             "COMPARISONS": compared, "EVENTS": words["event"], "OPERATIONS": operations}
    for name, row in spaced.items():
        text = re.sub(rf"(?<=\[){name}\b", quoted(row).replace(",", ""), text)
    for name, row in lists.items():
        text = re.sub(rf"\b{name}\b", quoted(row), text)
    name, symbol = "A-Za-z0-9_", "A-Za-z0-9_.@:-"
    return (text.replace("/NAME/", f"/{but('A-Za-z', name, reserved)}/")
            .replace("(SYMBOL)", but("A-Za-z", symbol, ["nil"]))
            .replace("/TEXT/", f"/{SYMBOL}/"))


def files(words):
    """Each file with its text."""
    folder = "tree-sitter-foresight/"
    return {
        folder + "grammar.js": tree_sitter(words, GRAMMAR),
        folder + "queries/highlights.scm": tree_sitter(words, TREE_HIGHLIGHTS),
        folder + "queries/folds.scm": TREE_FOLDS,
        folder + "tree-sitter.json": json.dumps(TREE_CONFIGURATION, indent=2) + "\n",
    }
