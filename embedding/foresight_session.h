/* A session that lives, for programs in C and for those that call C: more of the library that
 * foresight.h declares, whose first lines hold here too.
 *
 * HOW LONG A CALL TAKES is up to the handlers: one may call 10,000 operations and do 100,000 units
 * of work, which may take milliseconds, and a call runs the handlers of all its lines. Whoever
 * waits for the handle meanwhile waits as long.
 *
 * A handle owns the session. The program has to see to this: once a handle is initialized, only the
 * calls write it; if a handle is copied, only one copy is used from then on; a handle is used by
 * one call at a time, from any thread, and the program orders these calls by a lock of its own, or
 * by a thread's start or join; a handle that is dropped without `close` leaks its memory. Each
 * pointer points to what its call says, which has been initialized; these don't overlap, and no
 * pointer is NULL. The functions of foresight_session_guard.h check for NULL first. A handle of a
 * session isn't one of tables.
 */
#ifndef FORESIGHT_SESSION_H
#define FORESIGHT_SESSION_H

#include "foresight_tickets.h"

#ifdef __cplusplus
extern "C" {
#endif

/* How a call over such a handle ends, and what was done. */
enum foresight_session_status {
    /* All was done. */
    FORESIGHT_SESSION_FINE = 0,
    /* The text to be opened, or a line, breaks a rule, which the message names. The session isn't
     * opened; or the line has no reply, and changes nothing. */
    FORESIGHT_SESSION_REFUSED = 1,
    /* Out of memory. Nothing was done of the call, or of the line. */
    FORESIGHT_SESSION_NO_MEMORY = 3,
    /* The buffer may be too small for one more reply; or a dump is longer than its buffer. */
    FORESIGHT_SESSION_NO_ROOM = 5,
    /* A number has no meaning: there is no such kind, sort or name, or a field that the kind
     * doesn't use isn't nil. Nothing was done. */
    FORESIGHT_SESSION_UNREAD = 10,
    /* The handle has no session, or `open` was given one that has a session already. Nothing was
     * done. */
    FORESIGHT_SESSION_WRONG = 11,
    /* There are more than 256 symbols, or all 2^64 - 1 numbers of tickets are used up: a request
     * takes one too. Nothing was done of the call, or of the line. */
    FORESIGHT_SESSION_FULL = 12,
    /* The ticket has not begun, or has ended. Nothing was done. */
    FORESIGHT_SESSION_NO_TICKET = 13,
    /* With its names there would be more than the session may have. Otherwise as 1. */
    FORESIGHT_SESSION_TOO_MANY_NAMES = 15,
    /* The lines, or the text of a name, aren't UTF-8. Nothing was done, not even for lines that
     * are: a program that wants those served gives lines one by one. */
    FORESIGHT_SESSION_NOT_TEXT = 16,
    /* A ticket is open, so names can't be renewed. Nothing was done. */
    FORESIGHT_SESSION_OPEN = 19,
    /* A ticket delays the call or the line: it may still call something that doesn't commute with
     * the operation, or with something that the line's handler may call. Nothing was done of the
     * call, or of the line; try again after that ticket, or another one that delays it, has
     * narrowed or ended. */
    FORESIGHT_SESSION_DELAYED = 20,
    /* The ticket hasn't declared this. Nothing was done. */
    FORESIGHT_SESSION_UNDECLARED = 21,
    /* There is no such table, it has no such operation, or a symbol is no name of the session.
     * Nothing was done. */
    FORESIGHT_SESSION_MISFIT = 22,
    /* A pointer is NULL. Only foresight_session_guard.h returns this, without calling the
     * library. */
    FORESIGHT_SESSION_NULL = 23
};

struct foresight_session {
    bool live;
    void *at;
};

#define FORESIGHT_NO_SESSION { false, NULL }

/* ---- A session: handlers that are read once, and requests that are served one by one, on tables
 * that stay. If no ticket is driven on it and `name` adds no name, its replies and tables are those
 * that `foresight serve` and `foresight dump` write of one file with all the lines that it served,
 * in whatever calls they came.
 */

/* No reply line has more bytes than this, with its line feed. */
#define FORESIGHT_REPLY_ROOM 264

/* One call writes no more bytes of replies than this. */
#define FORESIGHT_REPLIES_ROOM 65536

/* What a call that serves lines returns besides its status. */
struct foresight_served {
    /* The number of bytes of the lines that are done with, from the start. Continue from there;
     * never resubmit them, or requests run twice. */
    size_t used;
    /* The number of bytes of replies at the start of `out`. */
    size_t written;
    /* How many requests were served: each has a reply line, in order. */
    size_t requests;
    /* The number of bytes of the message at the start of `message`. */
    size_t told;
    /* With 20 the lowest number of a ticket that delays the line at `used`, else 0. */
    uint64_t older;
};

/* Opens a session for a handle that is FORESIGHT_NO_SESSION, over a session file without requests:
 * handlers, perhaps a line `%% tables` and entries, and a line `%%`. What `dump` wrote may come
 * between handlers and `%%`, but only up to 100,000 entries and 4,194,304 bytes of text, handlers,
 * table lines and all: a session that has grown past that can't be opened from its dump.
 *
 * Lookups in the tables and among the names depend on `seed`. Take it from where those who send
 * requests can't know it, such as getrandom. At most `most_names` names are kept, of handlers,
 * tables, variables and symbols together (never more than 4,000,000,000). Each new symbol in a line
 * that is served is one more, for the session's life. */
uint8_t foresight_session_open(struct foresight_session *session, const uint8_t *text,
    size_t text_size, uint64_t seed, uint32_t most_names, uint8_t *message, size_t message_size,
    struct foresight_answer *answer);

/* Serves lines of requests, one after another: `handler argument..`, as in the last part of a
 * session file. Each request that is served has one reply line: that of `foresight serve` without
 * the ticket and the blank after it. A line without words is done with and has no reply. The last
 * line may end without a line feed; a program that reads parts of lines gives only the whole ones.
 *
 * 0: all lines are done with. 1, 15: the last line of those that are done with breaks a rule, or
 * has too many names; it has no reply, and the message says why. 3: there is no memory for the line
 * at `used`. 12: no number of a ticket is left for it. 20: the open ticket `older` delays it. With
 * 3, 12 and 20 that line isn't done with and may be given again. 5: fewer than 264 bytes are left
 * of the buffer, or of 65,536. 16: nothing is done with. With 1, 3, 5, 12, 15 and 20 the lines
 * before are served and all their replies are in the buffer: take them and continue at `used`. So
 * no request is served twice, and none is lost. */
uint8_t foresight_session_serve(struct foresight_session *session, const uint8_t *lines,
    size_t lines_size, uint8_t *out, size_t out_size, uint8_t *message, size_t message_size,
    struct foresight_served *served);

/* Writes the tables as they are, as `foresight dump`: a line `%% tables` and the entries. It
 * changes nothing, so after 5 it can be called again with a buffer of `needed` bytes. */
uint8_t foresight_session_dump(struct foresight_session *session, uint8_t *out, size_t out_size,
    uint8_t *message, size_t message_size, struct foresight_answer *answer);

/* ---- Tickets that the program drives on the tables of the session, as foresight_tickets.h has
 * them on tables of their own. A ticket that is never ended delays others without limit.
 *
 * A line is a ticket too, with the next number, which begins, does all it does and ends at once. It
 * can't be delayed in the middle, so it is delayed whole if something that its handler may call
 * doesn't commute with something that an open ticket may still call. Whatever lines and calls are
 * given, the operations that were done, ticket after ticket in the order in which they began,
 * replay with the same replies and give the same tables.
 */

/* Begins the next ticket, which declares `size` symbols, at most 256, and writes its number to
 * `ticket`. */
uint8_t foresight_session_begin(struct foresight_session *session,
    const struct foresight_operation *declared, size_t size, uint64_t *ticket);

/* Calls an operation of a ticket. A table is its place in the file, from 0 on, and a symbol the
 * number of its name. 0: it was done, with `reply`. 20: nothing was done, and `older` is the lowest
 * number of a ticket that delays it. */
uint8_t foresight_session_call(struct foresight_session *session, uint64_t ticket,
    const struct foresight_operation *operation, struct foresight_value *reply, uint64_t *older);

/* Replaces what a ticket declares by these symbols, which its own have to cover. */
uint8_t foresight_session_narrow(struct foresight_session *session, uint64_t ticket,
    const struct foresight_operation *declared, size_t size);

/* Ends a ticket. What it did stays. */
uint8_t foresight_session_end(struct foresight_session *session, uint64_t ticket);

/* Writes the number of a symbol's text among the names to `number`: a value of the sort
 * FORESIGHT_NAME with this number is that symbol. A new name is added. 1: the text is no symbol.
 * 15: there would be too many names. 16: the text isn't UTF-8. */
uint8_t foresight_session_name(struct foresight_session *session, const uint8_t *text,
    size_t text_size, uint32_t *number);

/* Writes the text of the name with this number to the start of `out`, as much of it as the buffer
 * takes, and its length to `size`: at most 64 if a value has this name. 10: there is no such
 * name. */
uint8_t foresight_session_text(struct foresight_session *session, uint32_t number, uint8_t *out,
    size_t out_size, size_t *size);

/* Renews the names: those of the file and those that a table holds stay, as keys, members or what
 * keys are bound to; all others go, as if no request had ever brought them. Tables stay as they are,
 * by text, and a dump writes the same. The numbers of names change, but for those of the file: ask
 * for them anew, by `name`. It takes as long as opening tables of this size, and as much memory again
 * meanwhile. 19: a ticket is open. 3: nothing was done. So a program that is answered 15 ends its
 * tickets, renews, and gives the line again. */
uint8_t foresight_session_renew(struct foresight_session *session);

/* ---- What a session holds. These calls change nothing. */

struct foresight_counts {
    /* Names of handlers, tables, variables and symbols together, and how many there may be. */
    uint32_t names;
    uint32_t most_names;
    /* Tables: their numbers are those below this. */
    size_t tables;
    /* Tickets that have begun: each request that was served is one. */
    uint64_t begun;
    /* Tickets that are open, and the lowest number of one; 0 if none is open. */
    size_t open;
    uint64_t oldest;
    /* How often the names were renewed. The number of a name is good while this stays the same. */
    uint64_t generation;
};

/* Writes what the session holds to `counts`. */
uint8_t foresight_session_counts(struct foresight_session *session,
    struct foresight_counts *counts);

/* Writes the number of entries of a table, keys or members, to `size`. 22: there is no such
 * table. */
uint8_t foresight_session_size(struct foresight_session *session, uint32_t table, uint32_t *size);

/* Writes what an open ticket declares to the start of `declared`, as many symbols as the `room`
 * takes, and their number to `size`: at most 256. 13: it isn't open. A ticket whose owner is gone is
 * ended by foresight_session_end; what it did stays. */
uint8_t foresight_session_declared(struct foresight_session *session, uint64_t ticket,
    struct foresight_operation *declared, size_t room, size_t *size);

/* Gives back all memory of the handle, and leaves FORESIGHT_NO_SESSION. */
uint8_t foresight_session_close(struct foresight_session *session);

#ifdef __cplusplus
}
#endif

#endif
