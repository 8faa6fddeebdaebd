#include "words.h"

#include <string.h>
#include <strings.h>

enum { MOST_NAME = 64 };

static bool is_digit(char c) { return c >= '0' && c <= '9'; }

static bool is_letter(char c) { return (c >= 'a' && c <= 'z') || (c >= 'A' && c <= 'Z'); }

static bool is_symbol_byte(char c) {
    return is_letter(c) || is_digit(c) || (c != 0 && strchr("_.-@:", c) != NULL);
}

/* Whether digits, of which leading zeros don't count, are at most `most` as a text. */
static bool within(const char *digits, size_t size, const char *most) {
    while (size > 0 && *digits == '0') digits++, size--;
    size_t have = strlen(most);
    return size < have || (size == have && memcmp(digits, most, size) <= 0);
}

static bool are_digits(const char *at, size_t size) {
    for (size_t i = 0; i < size; i++) {
        if (!is_digit(at[i])) return false;
    }
    return size > 0;
}

static bool is_number(struct word word) {
    bool minus = word.size > 0 && *word.at == '-';
    const char *digits = word.at + minus;
    size_t size = word.size - minus;
    return are_digits(digits, size)
           && within(digits, size, minus ? "9223372036854775808" : "9223372036854775807");
}

static bool is_symbol(struct word word) {
    if (word.size == 0 || word.size > MOST_NAME || !is_letter(*word.at)) return false;
    for (size_t i = 0; i < word.size; i++) {
        if (!is_symbol_byte(word.at[i])) return false;
    }
    return true;
}

/* `nil` is a symbol's text but for its meaning, so a value too. */
bool word_is_value(struct word word) { return is_symbol(word) || is_number(word); }

static bool is_blank(char c) { return c == ' ' || c == '\t' || c == '\r'; }

size_t words_of_line(const char *line, size_t size, struct word *words, size_t most) {
    size_t count = 0, at = 0;
    while (at < size && line[at] != '#' && count <= most) {
        size_t from = at;
        while (at < size && !is_blank(line[at]) && line[at] != '#') at++;
        if (at > from) words[count++] = (struct word){ line + from, at - from };
        while (at < size && is_blank(line[at])) at++;
    }
    return count;
}

bool word_is(struct word word, const char *text) {
    return word.size == strlen(text) && memcmp(word.at, text, word.size) == 0;
}

bool word_names(struct word word, const char *text) {
    return word.size == strlen(text) && strncasecmp(word.at, text, word.size) == 0;
}

bool word_number(struct word word, uint64_t *number) {
    if (!are_digits(word.at, word.size)) return false;
    if (!within(word.at, word.size, "9223372036854775807")) return false;
    *number = 0;
    for (size_t i = 0; i < word.size; i++) *number = 10 * *number + (uint64_t)(word.at[i] - '0');
    return true;
}
