/* Tickets that a program drives, for programs in C and for those that call C: more of the library
 * that foresight.h declares, whose first lines hold here too.
 *
 * A TICKET THAT IS NEVER ENDED delays all younger ones that don't commute with what it has
 * declared, without limit: there is no time-out. A program whose connection dies ends its tickets
 * (what they did stays).
 *
 * A handle owns the tables. The program has to see to this: once a handle is initialized, only the
 * calls write it; if a handle is copied, only one copy is used from then on; a handle is used by
 * one call at a time, from any thread, and the program orders these calls by a lock of its own, or
 * by a thread's start or join; a handle that is dropped without `close` leaks its memory. Each
 * pointer points to what its call says, which has been initialized; these don't overlap, and no
 * pointer is NULL. The functions of foresight_guard.h check for NULL first.
 */
#ifndef FORESIGHT_TICKETS_H
#define FORESIGHT_TICKETS_H

#include "foresight.h"

#ifdef __cplusplus
extern "C" {
#endif

/* The version of this header; `foresight_version` returns that of the archive. */
#define FORESIGHT_VERSION "2.1"
#define FORESIGHT_VERSION_NUMBER 20100

/* 10,000 times the first number of the archive's version, plus 100 times the second. */
uint32_t foresight_version(void);

/* How a call over such a handle ends. */
enum foresight_ticket_status {
    /* All was done. */
    FORESIGHT_TICKET_FINE = 0,
    /* Out of memory. Nothing was done. */
    FORESIGHT_TICKET_NO_MEMORY = 3,
    /* A number has no meaning: there are too many tables, there is no such kind or sort, or a field
     * that the kind doesn't use isn't nil. Nothing was done. */
    FORESIGHT_TICKET_UNREAD = 10,
    /* The handle has no tables, or `open` was given one that has some already. Nothing was
     * done. */
    FORESIGHT_TICKET_WRONG = 11,
    /* There are more than 256 symbols, or all 2^64 - 1 numbers of tickets are used up. Nothing was
     * done. */
    FORESIGHT_TICKET_FULL = 12,
    /* The ticket has not begun, or has ended. Nothing was done. */
    FORESIGHT_TICKET_NONE = 13,
    /* An older ticket delays the operation. Nothing was done; try again after that ticket, or
     * another one that delays it, has narrowed or ended. */
    FORESIGHT_TICKET_DELAYED = 20,
    /* The ticket hasn't declared this. Nothing was done. */
    FORESIGHT_TICKET_UNDECLARED = 21,
    /* There is no such table, or it has no such operation. Nothing was done. */
    FORESIGHT_TICKET_MISFIT = 22,
    /* A pointer is NULL. Only foresight_guard.h returns this, without calling the library. */
    FORESIGHT_TICKET_NULL = 23
};

struct foresight_tables {
    bool live;
    void *at;
};

#define FORESIGHT_NO_TABLES { false, NULL }

/* ---- Tickets that the program drives, on tables of their own. A ticket declares at its beginning
 * what it may call, calls while the program does other things, narrows what it may still call, and
 * ends. A call is done at once, unless an older ticket delays it, which may still call something
 * that doesn't commute with it. Nothing is undone. Whatever the calls are, the operations that were
 * done, ticket after ticket in the order in which they began, replay with the same replies and give
 * the same tables.
 */

/* Gives a handle that is FORESIGHT_NO_TABLES empty tables: `maps` maps, from 0 on, followed by
 * `sets` sets, at most 7 together. */
uint8_t foresight_tables_open(struct foresight_tables *tables, uint8_t maps, uint8_t sets);

/* Begins the next ticket, which declares `size` symbols, at most 256, and writes its number to
 * `ticket`. A symbol's key and value may be FORESIGHT_ANY. */
uint8_t foresight_ticket_begin(struct foresight_tables *tables,
    const struct foresight_operation *declared, size_t size, uint64_t *ticket);

/* Calls an operation of a ticket. 0: it was done, with `reply`. 20: nothing was done, and `older`
 * is the lowest number of a ticket that delays it. */
uint8_t foresight_ticket_call(struct foresight_tables *tables, uint64_t ticket,
    const struct foresight_operation *operation, struct foresight_value *reply, uint64_t *older);

/* Replaces what a ticket declares by these symbols, which its own have to cover. */
uint8_t foresight_ticket_narrow(struct foresight_tables *tables, uint64_t ticket,
    const struct foresight_operation *declared, size_t size);

/* Ends a ticket. What it did stays. */
uint8_t foresight_ticket_end(struct foresight_tables *tables, uint64_t ticket);

/* Gives back all memory of the handle, and leaves FORESIGHT_NO_TABLES. */
uint8_t foresight_tables_close(struct foresight_tables *tables);

#ifdef __cplusplus
}
#endif

#endif
