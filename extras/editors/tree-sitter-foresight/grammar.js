// Tree-sitter's grammar of handlers and sessions.
// Made by extras/editors/make.py: change words.txt.
//
// A name is no reserved word and a symbol isn't 'nil: their patterns are written out so that a word
// is refused where the parser refuses it. The limits of the language aren't here.
const list = (rule) => seq(rule, repeat(seq(",", rule)));
const up_to_three_more = (rule) =>
  seq(rule, optional(seq(",", rule, optional(seq(",", rule, optional(seq(",", rule)))))));

module.exports = grammar({
  name: "foresight",
  word: ($) => $._word,
  extras: ($) => [/[ \t\r\n]/, $.comment],
  supertypes: ($) => [$._statement],

  rules: {
    source_file: ($) => seq(
      repeat($.table),
      repeat($.handler),
      optional($.tables_part),
      optional($.requests_part),
      optional($.trace_part),
    ),

    table: ($) => seq(field("kind", choice("map", "set")), field("name", $.name), ";"),
    handler: ($) => seq(
      "handler",
      field("name", $.name),
      field("parameters", $.parameters),
      field("body", $.block),
    ),
    parameters: ($) => seq("(", optional(list($.name)), ")"),
    block: ($) => seq("{", repeat($._statement), "}"),

    _statement: ($) => choice(
      $.let_statement,
      $.assignment,
      $.operation_statement,
      $.if_statement,
      $.repeat_statement,
      $.reply_statement,
    ),
    let_statement: ($) => seq("let", field("name", $.name), "=", field("value", $._right), ";"),
    assignment: ($) => seq(field("name", $.name), "=", field("value", $._right), ";"),
    operation_statement: ($) => seq($.operation, ";"),
    if_statement: ($) => seq(
      "if",
      field("condition", $.comparison),
      field("then", $.block),
      optional(seq("else", field("else", $.block))),
    ),
    repeat_statement: ($) => seq(
      "repeat",
      field("times", $.number),
      "as",
      field("name", $.name),
      field("body", $.block),
    ),
    reply_statement: ($) => seq("reply", up_to_three_more($._expression), ";"),

    comparison: ($) => seq(
      field("left", $._expression),
      choice("==", "!=", "<", "<="),
      field("right", $._expression),
    ),
    _right: ($) => choice($.operation, $._expression),
    operation: ($) => seq(
      field("operation", $.operation_word),
      "(",
      field("table", $.name),
      optional(seq(",", $._atom, optional(seq(",", $._atom)))),
      ")",
    ),
    operation_word: () => choice(
      "get", "put", "swap", "del", "size", "bump", "has", "add", "mark", "drop", "count"
    ),

    _expression: ($) => choice($.binary_expression, $._factor),
    binary_expression: ($) => choice(
      prec.left(1, seq($._expression, choice("+", "-"), $._expression)),
      prec.left(2, seq($._expression, "*", $._expression)),
    ),
    _factor: ($) => choice($._atom, $.parenthesized_expression),
    parenthesized_expression: ($) => seq("(", $._expression, ")"),
    _atom: ($) => choice($.name, $.nil, $.symbol, $.number, $.negative_number),
    negative_number: ($) => seq("-", $.number),
    nil: () => "nil",

    // Behind the handlers each line is an entry of a table, a request or an event.
    tables_part: ($) => seq($.tables_mark, repeat(seq($._end_of_line, optional($.entry)))),
    requests_part: ($) => seq(
      $.requests_mark,
      repeat(seq($._end_of_line, optional(choice($.request, $.client_mark)))),
    ),
    trace_part: ($) => seq($.trace_mark, repeat(seq($._end_of_line, optional($.event)))),
    entry: ($) => seq(field("table", $.text), repeat($._value)),
    request: ($) => seq(field("handler", $.text), repeat($._value)),
    event: ($) => seq(
      field("kind", choice("begin", "done", "delay", "end")),
      repeat(choice($.operation_word, $.any, $.nil, $.symbol, $.signed_number, $.name)),
    ),
    _value: ($) => choice($.nil_text, $.signed_number, $.text),
    any: () => "any",
    nil_text: () => token(prec(1, "nil")),

    tables_mark: () => /%% tables[ \t\r]*/,
    requests_mark: () => /%%[ \t\r]*/,
    client_mark: () => /%% next[ \t\r]*/,
    trace_mark: () => /%% trace[ \t\r]*/,
    _end_of_line: () => token(prec(1, "\n")),
    text: () => /[A-Za-z][A-Za-z0-9_.@:-]*/,
    signed_number: () => /-?[0-9]+/,

    number: () => /[0-9]+/,
    symbol: () => /'(?:[A-Za-mo-z][A-Za-z0-9_.@:-]*|n(?:[.0-:@-Z_a-hj-z-][A-Za-z0-9_.@:-]*|i(?:[.0-:@-Z_a-km-z-][A-Za-z0-9_.@:-]*|l(?:[.0-:@-Z_a-z-][A-Za-z0-9_.@:-]*))?)?)/,
    name: () => token(prec(1, /(?:[A-Zfjkoqt-z][A-Za-z0-9_]*|a(?:[0-9A-Z_a-ce-mo-rt-z][A-Za-z0-9_]*|d(?:[0-9A-Z_a-ce-z][A-Za-z0-9_]*|d(?:[0-9A-Z_a-z][A-Za-z0-9_]*))?|n(?:[0-9A-Z_a-xz][A-Za-z0-9_]*|y(?:[0-9A-Z_a-z][A-Za-z0-9_]*))?|s(?:[0-9A-Z_a-z][A-Za-z0-9_]*))?|b(?:[0-9A-Z_a-tv-z][A-Za-z0-9_]*|u(?:[0-9A-Z_a-ln-z][A-Za-z0-9_]*|m(?:[0-9A-Z_a-oq-z][A-Za-z0-9_]*|p(?:[0-9A-Z_a-z][A-Za-z0-9_]*))?)?)?|c(?:[0-9A-Z_a-np-z][A-Za-z0-9_]*|o(?:[0-9A-Z_a-tv-z][A-Za-z0-9_]*|u(?:[0-9A-Z_a-mo-z][A-Za-z0-9_]*|n(?:[0-9A-Z_a-su-z][A-Za-z0-9_]*|t(?:[0-9A-Z_a-z][A-Za-z0-9_]*))?)?)?)?|d(?:[0-9A-Z_a-df-qs-z][A-Za-z0-9_]*|e(?:[0-9A-Z_a-km-z][A-Za-z0-9_]*|l(?:[0-9A-Z_a-z][A-Za-z0-9_]*))?|r(?:[0-9A-Z_a-np-z][A-Za-z0-9_]*|o(?:[0-9A-Z_a-oq-z][A-Za-z0-9_]*|p(?:[0-9A-Z_a-z][A-Za-z0-9_]*))?)?)?|e(?:[0-9A-Z_a-km-z][A-Za-z0-9_]*|l(?:[0-9A-Z_a-rt-z][A-Za-z0-9_]*|s(?:[0-9A-Z_a-df-z][A-Za-z0-9_]*|e(?:[0-9A-Z_a-z][A-Za-z0-9_]*))?)?)?|g(?:[0-9A-Z_a-df-z][A-Za-z0-9_]*|e(?:[0-9A-Z_a-su-z][A-Za-z0-9_]*|t(?:[0-9A-Z_a-z][A-Za-z0-9_]*))?)?|h(?:[0-9A-Z_b-z][A-Za-z0-9_]*|a(?:[0-9A-Z_a-mo-rt-z][A-Za-z0-9_]*|n(?:[0-9A-Z_a-ce-z][A-Za-z0-9_]*|d(?:[0-9A-Z_a-km-z][A-Za-z0-9_]*|l(?:[0-9A-Z_a-df-z][A-Za-z0-9_]*|e(?:[0-9A-Z_a-qs-z][A-Za-z0-9_]*|r(?:[0-9A-Z_a-z][A-Za-z0-9_]*))?)?)?)?|s(?:[0-9A-Z_a-z][A-Za-z0-9_]*))?)?|i(?:[0-9A-Z_a-eg-z][A-Za-z0-9_]*|f(?:[0-9A-Z_a-z][A-Za-z0-9_]*))?|l(?:[0-9A-Z_a-df-z][A-Za-z0-9_]*|e(?:[0-9A-Z_a-su-z][A-Za-z0-9_]*|t(?:[0-9A-Z_a-z][A-Za-z0-9_]*))?)?|m(?:[0-9A-Z_b-z][A-Za-z0-9_]*|a(?:[0-9A-Z_a-oqs-xz][A-Za-z0-9_]*|p(?:[0-9A-Z_a-z][A-Za-z0-9_]*)|r(?:[0-9A-Z_a-jl-z][A-Za-z0-9_]*|k(?:[0-9A-Z_a-z][A-Za-z0-9_]*))?|y(?:[0-9A-Z_a-tv-z][A-Za-z0-9_]*|u(?:[0-9A-Z_a-rt-z][A-Za-z0-9_]*|s(?:[0-9A-Z_a-df-z][A-Za-z0-9_]*|e(?:[0-9A-Z_a-z][A-Za-z0-9_]*))?)?)?)?)?|n(?:[0-9A-Z_a-hj-np-z][A-Za-z0-9_]*|i(?:[0-9A-Z_a-km-z][A-Za-z0-9_]*|l(?:[0-9A-Z_a-z][A-Za-z0-9_]*))?|o(?:[0-9A-Z_a-su-z][A-Za-z0-9_]*|t(?:[0-9A-Z_a-gi-z][A-Za-z0-9_]*|h(?:[0-9A-Z_a-hj-z][A-Za-z0-9_]*|i(?:[0-9A-Z_a-mo-z][A-Za-z0-9_]*|n(?:[0-9A-Z_a-fh-z][A-Za-z0-9_]*|g(?:[0-9A-Z_a-z][A-Za-z0-9_]*))?)?)?)?)?)?|p(?:[0-9A-Z_a-tv-z][A-Za-z0-9_]*|u(?:[0-9A-Z_a-su-z][A-Za-z0-9_]*|t(?:[0-9A-Z_a-z][A-Za-z0-9_]*))?)?|r(?:[0-9A-Z_a-df-z][A-Za-z0-9_]*|e(?:[0-9A-Z_a-oq-z][A-Za-z0-9_]*|p(?:[0-9A-Z_a-df-km-z][A-Za-z0-9_]*|e(?:[0-9A-Z_b-z][A-Za-z0-9_]*|a(?:[0-9A-Z_a-su-z][A-Za-z0-9_]*|t(?:[0-9A-Z_a-z][A-Za-z0-9_]*))?)?|l(?:[0-9A-Z_a-xz][A-Za-z0-9_]*|y(?:[0-9A-Z_a-z][A-Za-z0-9_]*))?)?)?)?|s(?:[0-9A-Z_a-df-hj-vx-z][A-Za-z0-9_]*|e(?:[0-9A-Z_a-su-z][A-Za-z0-9_]*|t(?:[0-9A-Z_a-z][A-Za-z0-9_]*))?|i(?:[0-9A-Z_a-y][A-Za-z0-9_]*|z(?:[0-9A-Z_a-df-z][A-Za-z0-9_]*|e(?:[0-9A-Z_a-z][A-Za-z0-9_]*))?)?|w(?:[0-9A-Z_b-z][A-Za-z0-9_]*|a(?:[0-9A-Z_a-oq-z][A-Za-z0-9_]*|p(?:[0-9A-Z_a-z][A-Za-z0-9_]*))?)?)?)/)),
    _word: () => /[A-Za-z][A-Za-z0-9_]*/,
    comment: () => /#[^\n]*/,
  },
});
