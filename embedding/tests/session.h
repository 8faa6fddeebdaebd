/* What sessions.c and held.c call over a handle of a session, and what they say is wrong: SAYS is the
 * name of the program. */
#ifndef SESSION_H
#define SESSION_H

#include "../foresight_session_guard.h"
#include "heap.h"

#include <stdio.h>
#include <stdlib.h>
#include <string.h>

typedef struct foresight_session handle;
typedef struct foresight_served served;
typedef struct foresight_answer answer;

static const handle none = FORESIGHT_NO_SESSION;
static const char handlers[] = "map m; set s; handler f(n) { let old = swap(m, n, 1); mark(s, n);"
    " let c = size(m); reply old, c; }\nhandler g() { let c = count(s); reply c; }\n"
    "%% tables\nm a 3\ns 4\n%%\n";
/* Its names are f, g, m, s, n, old, c and a. */
enum { NAMES = 8, ROOM = 4096, SEED = 7 };

static size_t failures;

static inline void want(bool is_well, const char *what) {
    if (is_well) return;
    fprintf(stderr, SAYS ": %s\n", what);
    failures++;
}

#define WANT(due, call) want((call) == (due), #call " isn't " #due)

/* What the last call wrote, with a byte behind it that nobody may write. */
static uint8_t out[ROOM + 1], why[FORESIGHT_MESSAGE_ROOM + 1];
static answer told;
static served done;

/* Fills what a call writes, so that each byte that it doesn't write shows. */
static inline void fill(void) {
    memset(out, '#', sizeof out);
    memset(why, '#', sizeof why);
    memset(&told, 0xff, sizeof told);
    memset(&done, 0xff, sizeof done);
}

static inline int open_with(handle *session, const char *text, uint32_t most_names) {
    fill();
    return foresight_session_open(session, (const uint8_t *)text, strlen(text), SEED, most_names,
        why, FORESIGHT_MESSAGE_ROOM, &told);
}

static inline int serve_bytes(handle *session, const char *lines, size_t size, size_t room) {
    fill();
    return foresight_session_serve(session, (const uint8_t *)lines, size, out, room, why,
        FORESIGHT_MESSAGE_ROOM, &done);
}

static inline int serve(handle *session, const char *lines) {
    return serve_bytes(session, lines, strlen(lines), ROOM);
}

/* Whether a text stands at the front of a room, and nothing was written behind it. */
static inline bool stands(const uint8_t *room, size_t size, const char *text, size_t length) {
    if (length != strlen(text) || memcmp(room, text, length) != 0) return false;
    for (size_t i = length; i < size; i++) {
        if (room[i] != '#') return false;
    }
    return true;
}

/* Wants of the last call that served lines that it used so many bytes and wrote these. */
static inline void want_served(size_t used, size_t requests, const char *replies, const char *message) {
    want(done.used == used && done.requests == requests, replies);
    want(stands(out, sizeof out, replies, done.written), replies);
    want(stands(why, sizeof why, message, done.told), message);
}

static inline bool dump_is(handle *session, const char *text) {
    fill();
    int status = foresight_session_dump(session, out, ROOM, why, FORESIGHT_MESSAGE_ROOM, &told);
    return status == 0 && told.needed == told.written && told.told == 0
        && stands(out, sizeof out, text, told.written);
}

#endif
