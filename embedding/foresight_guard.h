/* The calls of foresight_tickets.h for programs that don't know whether a pointer is NULL. Each
 * checks that first. If a pointer is NULL that may not be, it returns FORESIGHT_TICKET_NULL without
 * calling the library. NULL with the size 0 is an empty list, text or buffer.
 */
#ifndef FORESIGHT_GUARD_H
#define FORESIGHT_GUARD_H

#include "foresight_tickets.h"

/* Whether a pointer is NULL although its size isn't 0. */
static inline bool foresight_guard_null(const void *at, size_t size) {
    return at == NULL && size != 0;
}

/* The same pointer, or one to an empty list. */
static inline const struct foresight_operation *foresight_guard_list(
    const struct foresight_operation *at) {
    static const struct foresight_operation empty[1] = {
        { FORESIGHT_GET, 0, { 0, 0, 0 }, { 0, 0, 0 } }
    };
    return at == NULL ? empty : at;
}

static inline uint8_t foresight_guard_begin(struct foresight_tables *tables,
    const struct foresight_operation *declared, size_t size, uint64_t *ticket) {
    if (tables == NULL || ticket == NULL || foresight_guard_null(declared, size)) {
        return FORESIGHT_TICKET_NULL;
    }
    return foresight_ticket_begin(tables, foresight_guard_list(declared), size, ticket);
}

static inline uint8_t foresight_guard_call(struct foresight_tables *tables, uint64_t ticket,
    const struct foresight_operation *operation, struct foresight_value *reply, uint64_t *older) {
    if (tables == NULL || operation == NULL || reply == NULL || older == NULL) {
        return FORESIGHT_TICKET_NULL;
    }
    return foresight_ticket_call(tables, ticket, operation, reply, older);
}

static inline uint8_t foresight_guard_narrow(struct foresight_tables *tables, uint64_t ticket,
    const struct foresight_operation *declared, size_t size) {
    if (tables == NULL || foresight_guard_null(declared, size)) return FORESIGHT_TICKET_NULL;
    return foresight_ticket_narrow(tables, ticket, foresight_guard_list(declared), size);
}

static inline uint8_t foresight_guard_end(struct foresight_tables *tables, uint64_t ticket) {
    if (tables == NULL) return FORESIGHT_TICKET_NULL;
    return foresight_ticket_end(tables, ticket);
}

#endif
