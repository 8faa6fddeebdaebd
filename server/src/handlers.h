/* The handlers of a session, read from their canonical text. */
#ifndef HANDLERS_H
#define HANDLERS_H

#include "bytes.h"
#include "words.h"

enum { MOST_HANDLERS = 64, HANDLER_ROOM = 65 };

struct handler {
    char name[HANDLER_ROOM];
    size_t parameters;
    bool reads; /* it has no operation but get, size, has and count */
    uint64_t served, nanoseconds;
};

extern struct handler handlers[MOST_HANDLERS];
extern size_t handlers_count;

/* Reads them from a session file without requests, which `tables_open` has taken. */
void handlers_read(const struct bytes *text);
struct handler *handler_of(struct word name);

#endif
