/* The log of requests, in SQLite. After a fault of any call the program ends: none is repeated. */
#ifndef LOG_H
#define LOG_H

#include "bytes.h"

#include <stdbool.h>

/* What all replies depend on besides the requests; it never changes. */
struct head {
    struct bytes handlers;
    uint32_t version, most_names;
    size_t once_clients, once_window;
    uint8_t seal[CHAIN_SIZE];
};

/* A served request. Texts are places in the batch's text. */
struct row {
    uint64_t position, reply; /* the hash of its reply */
    size_t line, line_size, client, client_size;
    bool once, has_now;
    uint64_t number, asked, now;
};

struct batch {
    struct bytes text;
    struct row *rows;
    size_t count, room;
};

/* Where a log stands: the last position, and the checksum over all rows up to there. */
struct stand {
    uint64_t position;
    uint8_t chain[CHAIN_SIZE];
};

/* A snapshot that has been written, and is to be named or is named. */
struct named {
    struct stand stand;
    uint8_t sum[SUM_SIZE];
};

void batch_add(struct batch *batch, const struct row *row, const char *line, const char *client);
void batch_clear(struct batch *batch);
void chain_row(uint8_t chain[CHAIN_SIZE], const struct row *row, const uint8_t *line,
    const uint8_t *client);
void seal_of(struct head *head);

/* Opens the file; whether it has a log. `create` writes the head of a new one, and
 * perhaps the name of a snapshot with which it begins. */
bool log_open(const char *path, bool may_make);
void log_create(const struct head *head, const struct named *named);
/* Reads the head, and the snapshot that is named: its position is 0 if there is none. */
void log_head(struct head *head, struct named *named);
void log_named(struct named *named);
/* Reads all rows by position. `each` is given the place of a row's texts as addresses. */
typedef void log_each(const struct row *row, const uint8_t *line, const uint8_t *client,
    const uint8_t *chain, void *with);
void log_rows(log_each *each, void *with);
struct stand log_tail(void);
/* Says where the log stands that has been read, before the first answer: it is on the disk then. */
void log_begin(const struct stand *stand);
struct stand log_stand(void);

/* What one transaction does: rows; a snapshot's name; rows up to `trim`, some of them, are taken
 * out. NULL, or what failed; `more` says whether there is more to trim. */
struct work {
    const struct batch *rows;
    const struct named *name;
    uint64_t trim;
    bool more;
};
const char *log_commit(struct work *work);
/* Copies the pages of the WAL into the database, once there are this many: whether there are. */
bool log_is_long(uint64_t pages);
const char *log_checkpoint(void);

/* Takes out all rows behind a position, of a copy alone. */
void log_cut(const struct stand *stand);
/* A copy of the data, while others may write. */
void log_copy(const char *path, const char *to);
bool log_is_copy(void);
void log_close(void);

#endif
