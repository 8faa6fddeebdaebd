/* Requests with a client's number: a retry is answered, and not done again. */
#ifndef ONCE_H
#define ONCE_H

#include "bytes.h"
#include "tables.h"
#include "words.h"

struct once_id {
    struct word client;
    uint64_t number;
};

enum once_answer { ONCE_NEW, ONCE_AGAIN, ONCE_OTHER, ONCE_TOO_OLD };

void once_open(size_t most_clients, size_t window);
/* What is known of a number, and with ONCE_AGAIN what it was answered. `asked` is the hash of the
 * request as it was sent. */
enum once_answer once_look(const struct once_id *id, uint64_t asked, struct outcome *out);
/* Keeps what a request was answered, in the order of the log: the client that was longest without
 * a new request is forgotten if there are too many. */
void once_keep(const struct once_id *id, uint64_t asked, const struct outcome *out);
/* As lines of a snapshot; and from them, one by one: whether it was one. */
void once_write(struct bytes *out);
bool once_read_line(const char *line, size_t size);
size_t once_clients(void);
uint64_t once_forgotten(void);

#endif
