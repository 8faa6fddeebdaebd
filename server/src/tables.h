/* The session: the one place where the library's session is called. */
#ifndef TABLES_H
#define TABLES_H

#include "bytes.h"
#include "words.h"

enum { ANSWER_ROOM = 400 };

/* What a request is answered: the values of its reply, one blank between them; or, refused, a
 * sentence, which begins with the code of an error in capitals. */
struct outcome {
    bool refused;
    size_t size;
    char text[ANSWER_ROOM];
};

void refuse(struct outcome *out, const char *format, ...) __attribute__((format(printf, 2, 3)));

/* The log is served again with as many names as there are: how often names were given back, and
 * when, is not in it. */
enum { NAMES_WITHOUT_BOUND = 2000000000 };

/* Whether a text has the line `%%` before requests. */
bool tables_divides(const struct bytes *text);
/* Opens it over a session file without requests; a line `%%` is added if there is none. */
void tables_open(const struct bytes *text, uint32_t most_names);
/* Serves handler and arguments, each of which is a value. May become the library's typed call. */
void tables_request(const struct word *words, size_t count, struct outcome *out);
/* Serves a line of the log. */
void tables_line(const void *line, size_t size, struct outcome *out);
/* From now on there are at most so many names, if the tables can be opened with them. */
void tables_bound(uint32_t most_names);
/* What the session holds: names, how many there may be, how often those that nobody holds were given
 * back, and the entries of all tables. */
struct held {
    uint32_t names, most_names;
    uint64_t renewals, entries;
};

void tables_counts(struct held *held);
/* What `foresight dump` writes. */
void tables_dump(struct bytes *out);
/* Whether a dump can be opened again, and a new session over handlers and a dump. These two are to
 * change once tables can be loaded in pieces. */
bool tables_can_load(const struct bytes *handlers, const struct bytes *dump);
void tables_load(const struct bytes *handlers, const struct bytes *dump, uint32_t most_names);

#endif
