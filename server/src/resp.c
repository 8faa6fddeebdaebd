#include "resp.h"

#include <inttypes.h>
#include <stdio.h>
#include <string.h>

enum { MOST_BULK = 65536, MOST_COUNT = 1024 };

/* A number behind a sign, up to the end of its line: how many bytes, 0 if the line isn't whole. */
static size_t read_number(const char *at, size_t size, char sign, uint64_t *number,
    const char **fault) {
    const char *feed = memchr(at, '\n', size < 32 ? size : 32);
    if (feed == NULL) {
        if (size >= 32) *fault = "ERR Protocol error: too big a number";
        return 0;
    }
    struct word digits = { at + 1, (size_t)(feed - at) - 1 };
    if (digits.size > 0 && digits.at[digits.size - 1] == '\r') digits.size--;
    if (*at != sign || !word_number(digits, number)) {
        *fault = sign == '$' ? "ERR Protocol error: expected '$' and a length"
                             : "ERR Protocol error: invalid multibulk length";
        return 0;
    }
    return (size_t)(feed - at) + 1;
}

size_t resp_read(const char *at, size_t size, struct word *words, size_t *count,
    const char **fault) {
    uint64_t want = 0, length = 0;
    size_t used = read_number(at, size, '*', &want, fault);
    *count = 0;
    if (used == 0) return 0;
    if (want > MOST_COUNT) *fault = "ERR Protocol error: invalid multibulk length";
    while (*fault == NULL && *count < want) {
        if (used == size) return 0;
        size_t some = read_number(at + used, size - used, '$', &length, fault);
        if (some == 0) return 0;
        if (length > MOST_BULK) *fault = "ERR Protocol error: invalid bulk length";
        used += some;
        if (*fault != NULL || size - used < length + 2) return 0;
        if (*count < MOST_WORDS) words[*count] = (struct word){ at + used, length };
        (*count)++;
        used += length + 2;
    }
    return *fault == NULL ? used : 0;
}

void resp_simple(struct bytes *out, const char *text) { bytes_format(out, "+%s\r\n", text); }

void resp_error(struct bytes *out, const char *text, size_t size) {
    bytes_put(out, "-", 1);
    for (size_t i = 0; i < size; i++) {
        char c = text[i];
        bytes_put(out, c == '\r' || c == '\n' ? " " : &c, 1);
    }
    bytes_put(out, "\r\n", 2);
}

void resp_bulk(struct bytes *out, const void *text, size_t size) {
    char head[32];
    bytes_put(out, head, (size_t)snprintf(head, sizeof head, "$%zu\r\n", size));
    bytes_put(out, text, size);
    bytes_put(out, "\r\n", 2);
}

void resp_integer(struct bytes *out, uint64_t number) {
    bytes_format(out, ":%" PRIu64 "\r\n", number);
}

void resp_array(struct bytes *out, size_t size) {
    char head[32];
    bytes_put(out, head, (size_t)snprintf(head, sizeof head, "*%zu\r\n", size));
}

static void put_value(struct bytes *out, struct word word) {
    bool is_number = *word.at == '-' || (*word.at >= '0' && *word.at <= '9');
    if (word_is(word, "nil")) {
        bytes_put(out, "$-1\r\n", 5);
    } else if (is_number) {
        bytes_put(out, ":", 1);
        bytes_put(out, word.at, word.size);
        bytes_put(out, "\r\n", 2);
    } else {
        resp_bulk(out, word.at, word.size);
    }
}

void resp_values(struct bytes *out, const char *text, size_t size) {
    struct word values[5];
    size_t count = words_of_line(text, size, values, 4);
    if (count > 1) resp_array(out, count);
    for (size_t i = 0; i < count; i++) put_value(out, values[i]);
}
