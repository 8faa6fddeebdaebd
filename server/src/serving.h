/* Serving requests, and serving the log again. */
#ifndef SERVING_H
#define SERVING_H

#include "log.h"
#include "once.h"
#include "tables.h"

/* Where it stands: the position of the last change that was served, and the time of the last `@now`
 * among these. */
struct serving {
    uint64_t position, now;
    struct batch *pending; /* NULL: nothing is kept */
};

extern struct serving serving;

/* Serves a request: handler and arguments, with a client's number if `id` isn't NULL. */
void serve(const struct word *words, size_t count, const struct once_id *id, struct outcome *out);
/* Reads head, snapshot and log, and serves the log again, up to `until`. Ends where anything isn't
 * as it was. */
void serve_log(const char *data, struct head *head, uint64_t until);

#endif
