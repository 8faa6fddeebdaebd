/* Words of requests. */
#ifndef WORDS_H
#define WORDS_H

#include <stdbool.h>
#include <stddef.h>
#include <stdint.h>

struct word {
    const char *at;
    size_t size;
};

/* Whether a word is a value of the language: `nil`, a number of 64 bits, a symbol's text. This is
 * the only place where that is decided: nothing else becomes part of a line. */
bool word_is_value(struct word word);
/* The words of a line, up to its comment: how many there are, at most `most` + 1. */
size_t words_of_line(const char *line, size_t size, struct word *words, size_t most);
bool word_is(struct word word, const char *text);
/* In any case of letters. */
bool word_names(struct word word, const char *text);
/* Whether a word is a number without a sign, within 63 bits. */
bool word_number(struct word word, uint64_t *number);

#endif
