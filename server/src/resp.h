/* The protocol of Redis, version 2. */
#ifndef RESP_H
#define RESP_H

#include "bytes.h"
#include "words.h"

enum { MOST_WORDS = 64, MOST_COMMAND = 131072 };

/* Reads a command, an array of bulk strings: how many bytes it has, 0 if it isn't whole. `count` is
 * how many words it has, of which the first MOST_WORDS are there. With a fault the connection ends.
 */
size_t resp_read(const char *at, size_t size, struct word *words, size_t *count,
    const char **fault);

void resp_simple(struct bytes *out, const char *text);
void resp_error(struct bytes *out, const char *text, size_t size);
void resp_bulk(struct bytes *out, const void *text, size_t size);
void resp_integer(struct bytes *out, uint64_t number);
void resp_array(struct bytes *out, size_t size);
/* The values of a reply line: an array of them if there are several. */
void resp_values(struct bytes *out, const char *text, size_t size);

#endif
