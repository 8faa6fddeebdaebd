/* The calls of foresight_session.h for programs that don't know whether a pointer is NULL, as
 * foresight_guard.h has those of tickets. They return FORESIGHT_SESSION_NULL.
 */
#ifndef FORESIGHT_SESSION_GUARD_H
#define FORESIGHT_SESSION_GUARD_H

#include "foresight_guard.h"
#include "foresight_session.h"

/* The same pointer, or one to an empty buffer. */
static inline uint8_t *foresight_guard_room(uint8_t *at) {
    static uint8_t empty[1];
    return at == NULL ? empty : at;
}

/* The same pointer, or one to an empty text. */
static inline const uint8_t *foresight_guard_text(const uint8_t *at) {
    static const uint8_t empty[1] = { 0 };
    return at == NULL ? empty : at;
}

static inline uint8_t foresight_guard_open(struct foresight_session *session, const uint8_t *text,
    size_t text_size, uint64_t seed, uint32_t most_names, uint8_t *message, size_t message_size,
    struct foresight_answer *answer) {
    if (session == NULL || answer == NULL || foresight_guard_null(text, text_size)
        || foresight_guard_null(message, message_size)) {
        return FORESIGHT_SESSION_NULL;
    }
    return foresight_session_open(session, foresight_guard_text(text), text_size, seed, most_names,
        foresight_guard_room(message), message_size, answer);
}

static inline uint8_t foresight_guard_serve(struct foresight_session *session, const uint8_t *lines,
    size_t lines_size, uint8_t *out, size_t out_size, uint8_t *message, size_t message_size,
    struct foresight_served *served) {
    if (session == NULL || served == NULL || foresight_guard_null(lines, lines_size)
        || foresight_guard_null(out, out_size) || foresight_guard_null(message, message_size)) {
        return FORESIGHT_SESSION_NULL;
    }
    return foresight_session_serve(session, foresight_guard_text(lines), lines_size,
        foresight_guard_room(out), out_size, foresight_guard_room(message), message_size, served);
}

static inline uint8_t foresight_guard_dump(struct foresight_session *session, uint8_t *out,
    size_t out_size, uint8_t *message, size_t message_size, struct foresight_answer *answer) {
    if (session == NULL || answer == NULL || foresight_guard_null(out, out_size)
        || foresight_guard_null(message, message_size)) {
        return FORESIGHT_SESSION_NULL;
    }
    return foresight_session_dump(session, foresight_guard_room(out), out_size,
        foresight_guard_room(message), message_size, answer);
}

static inline uint8_t foresight_guard_session_begin(struct foresight_session *session,
    const struct foresight_operation *declared, size_t size, uint64_t *ticket) {
    if (session == NULL || ticket == NULL || foresight_guard_null(declared, size)) {
        return FORESIGHT_SESSION_NULL;
    }
    return foresight_session_begin(session, foresight_guard_list(declared), size, ticket);
}

static inline uint8_t foresight_guard_session_call(struct foresight_session *session,
    uint64_t ticket, const struct foresight_operation *operation, struct foresight_value *reply,
    uint64_t *older) {
    if (session == NULL || operation == NULL || reply == NULL || older == NULL) {
        return FORESIGHT_SESSION_NULL;
    }
    return foresight_session_call(session, ticket, operation, reply, older);
}

static inline uint8_t foresight_guard_session_narrow(struct foresight_session *session,
    uint64_t ticket, const struct foresight_operation *declared, size_t size) {
    if (session == NULL || foresight_guard_null(declared, size)) {
        return FORESIGHT_SESSION_NULL;
    }
    return foresight_session_narrow(session, ticket, foresight_guard_list(declared), size);
}

static inline uint8_t foresight_guard_session_end(struct foresight_session *session,
    uint64_t ticket) {
    if (session == NULL) return FORESIGHT_SESSION_NULL;
    return foresight_session_end(session, ticket);
}

static inline uint8_t foresight_guard_session_name(struct foresight_session *session,
    const uint8_t *text, size_t text_size, uint32_t *number) {
    if (session == NULL || number == NULL || foresight_guard_null(text, text_size)) {
        return FORESIGHT_SESSION_NULL;
    }
    return foresight_session_name(session, foresight_guard_text(text), text_size, number);
}

static inline uint8_t foresight_guard_session_text(struct foresight_session *session,
    uint32_t number, uint8_t *out, size_t out_size, size_t *size) {
    if (session == NULL || size == NULL || foresight_guard_null(out, out_size)) {
        return FORESIGHT_SESSION_NULL;
    }
    return foresight_session_text(session, number, foresight_guard_room(out), out_size, size);
}

static inline uint8_t foresight_guard_counts(struct foresight_session *session,
    struct foresight_counts *counts) {
    if (session == NULL || counts == NULL) return FORESIGHT_SESSION_NULL;
    return foresight_session_counts(session, counts);
}

static inline uint8_t foresight_guard_size(struct foresight_session *session, uint32_t table,
    uint32_t *size) {
    if (session == NULL || size == NULL) return FORESIGHT_SESSION_NULL;
    return foresight_session_size(session, table, size);
}

static inline uint8_t foresight_guard_declared(struct foresight_session *session, uint64_t ticket,
    struct foresight_operation *declared, size_t room, size_t *size) {
    struct foresight_operation none[1] = { { FORESIGHT_GET, 0, { 0, 0, 0 }, { 0, 0, 0 } } };
    if (session == NULL || size == NULL || foresight_guard_null(declared, room)) {
        return FORESIGHT_SESSION_NULL;
    }
    return foresight_session_declared(session, ticket, declared == NULL ? none : declared, room,
        size);
}

static inline uint8_t foresight_guard_renew(struct foresight_session *session) {
    if (session == NULL) return FORESIGHT_SESSION_NULL;
    return foresight_session_renew(session);
}

static inline uint8_t foresight_guard_close(struct foresight_session *session) {
    if (session == NULL) return FORESIGHT_SESSION_NULL;
    return foresight_session_close(session);
}

#endif
