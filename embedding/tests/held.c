/* What a session holds, told, and names that come back: each call with what it refuses, and a renewal
 * with each request for memory refused. .ci/embedding builds and runs it. */
#define SAYS "held"
#include "session.h"

/* ---- what a session holds */

/* Whether a session says that it holds this. */
static bool holds(handle *session, uint32_t names, uint64_t begun, size_t open, uint64_t oldest) {
    struct foresight_counts counts;
    memset(&counts, 0xff, sizeof counts);
    return foresight_session_counts(session, &counts) == 0 && counts.names == names
        && counts.most_names == 10 && counts.tables == 2 && counts.begun == begun
        && counts.open == open && counts.oldest == oldest;
}

static void want_counts(void) {
    static const struct foresight_operation declared[3] = {
        { FORESIGHT_GET, 0, { FORESIGHT_NUMBER, 0, 5 }, { FORESIGHT_NIL, 0, 0 } },
        { FORESIGHT_PUT, 0, { FORESIGHT_NAME, 7, 0 }, { FORESIGHT_ANY, 0, 0 } },
        { FORESIGHT_COUNT, 1, { FORESIGHT_NIL, 0, 0 }, { FORESIGHT_NIL, 0, 0 } },
    };
    struct foresight_operation told_of[4];
    struct foresight_counts counts = { 1, 2, 3, 4, 5, 6, 7 };
    uint64_t first = 0, second = 0;
    uint32_t entries = 99;
    size_t size = 99;
    handle session = none;
    WANT(11, foresight_session_counts(&session, &counts));
    WANT(11, foresight_session_size(&session, 0, &entries));
    WANT(11, foresight_session_declared(&session, 0, told_of, 4, &size));
    want(counts.names == 1 && counts.oldest == 6 && entries == 99 && size == 99,
        "a handle of nothing tells something");
    WANT(0, open_with(&session, handlers, 10));
    want(holds(&session, NAMES, 0, 0, 0), "what a session holds as it opens");
    WANT(0, serve(&session, "f b\nf 5\ng\n"));
    want(holds(&session, NAMES + 1, 3, 0, 0), "what a session holds after three requests");
    WANT(0, foresight_session_size(&session, 0, &entries));
    want(entries == 3, "the entries of the map");
    WANT(0, foresight_session_size(&session, 1, &entries));
    want(entries == 3, "the members of the set");
    WANT(22, foresight_session_size(&session, 2, &entries));
    WANT(0, foresight_session_begin(&session, declared, 0, &first));
    WANT(0, foresight_session_begin(&session, declared, 3, &second));
    want(holds(&session, NAMES + 1, 5, 2, first), "two open tickets");
    WANT(0, foresight_session_declared(&session, first, told_of, 4, &size));
    want(size == 0, "a ticket that has declared nothing");
    memset(told_of, 0, sizeof told_of);
    WANT(0, foresight_session_declared(&session, second, told_of, 4, &size));
    want(size == 3, "a ticket that has declared three symbols");
    for (size_t i = 0; i < 3; i++) {
        const struct foresight_operation *is = &told_of[i], *due = &declared[i];
        want(is->kind == due->kind && is->table == due->table && is->key.sort == due->key.sort
            && is->key.name == due->key.name && is->key.number == due->key.number
            && is->value.sort == due->value.sort, "another symbol");
    }
    /* A room for one symbol takes one. */
    memset(told_of, 0, sizeof told_of);
    WANT(0, foresight_session_declared(&session, second, told_of, 1, &size));
    want(size == 3 && told_of[0].key.number == 5 && told_of[1].kind == 0, "a room for one symbol");
    WANT(0, foresight_session_end(&session, first));
    want(holds(&session, NAMES + 1, 5, 1, second), "one open ticket");
    WANT(13, foresight_session_declared(&session, first, told_of, 4, &size));
    WANT(13, foresight_session_declared(&session, 99, told_of, 4, &size));
    WANT(0, foresight_session_end(&session, second));
    want(holds(&session, NAMES + 1, 5, 0, 0), "no open ticket");
    WANT(23, foresight_guard_counts(&session, NULL));
    WANT(23, foresight_guard_counts(NULL, &counts));
    WANT(23, foresight_guard_size(&session, 0, NULL));
    WANT(23, foresight_guard_declared(&session, 0, NULL, 1, &size));
    WANT(23, foresight_guard_declared(&session, 0, told_of, 1, NULL));
    WANT(13, foresight_guard_declared(&session, 0, NULL, 0, &size));
    size_t before = heap_requests();
    want(holds(&session, NAMES + 1, 5, 0, 0) && heap_requests() == before, "counting takes memory");
    WANT(0, foresight_session_close(&session));
    want(heap_blocks() == 0, "memory is kept after close");
}

/* ---- names that come back */

/* Words that only requests brought go, those that a table holds stay, and the tables are the same. */
static void want_renewed(void) {
    static const char some[] = "map m;\nhandler store(k, v) { put(m, k, v); reply k; }\n"
        "handler cut(k) { del(m, k); reply k; }\nhandler see(k) { let v = get(m, k); reply v; }\n%%\n";
    static const struct foresight_operation nothing = { FORESIGHT_GET, 0, { 0, 0, 0 }, { 0, 0, 0 } };
    struct foresight_counts counts;
    uint64_t ticket = 0;
    uint32_t of_ann = 0, of_bob = 0;
    static uint8_t before[ROOM];
    size_t length = 0;
    handle session = none;
    WANT(11, foresight_session_renew(&session));
    WANT(0, open_with(&session, some, 10));
    WANT(0, serve(&session, "store ann bob\nstore eve 1\n"));
    /* Its six names and three words: one more has room. */
    WANT(0, serve(&session, "cut eve\nsee x\n"));
    WANT(15, serve(&session, "see y\n"));
    WANT(0, foresight_session_begin(&session, &nothing, 0, &ticket));
    WANT(19, foresight_session_renew(&session));
    WANT(0, foresight_session_end(&session, ticket));
    WANT(0, foresight_session_dump(&session, out, ROOM, why, FORESIGHT_MESSAGE_ROOM, &told));
    length = told.written;
    memcpy(before, out, length);
    WANT(0, foresight_session_renew(&session));
    WANT(0, foresight_session_counts(&session, &counts));
    want(counts.names == 8 && counts.generation == 1 && counts.begun == 5, "names after a renewal");
    WANT(0, foresight_session_dump(&session, out, ROOM, why, FORESIGHT_MESSAGE_ROOM, &told));
    want(told.written == length && memcmp(before, out, length) == 0, "other tables after a renewal");
    WANT(0, foresight_session_name(&session, (const uint8_t *)"ann", 3, &of_ann));
    WANT(0, foresight_session_name(&session, (const uint8_t *)"bob", 3, &of_bob));
    want(of_ann != of_bob && of_ann < 8 && of_bob < 8, "a name that is held was lost");
    WANT(0, serve(&session, "see ann\nsee y\n"));
    want_served(14, 2, "bob\nnil\n", "");
    WANT(23, foresight_guard_renew(NULL));
    WANT(0, foresight_session_close(&session));
    want(heap_blocks() == 0, "memory is kept after close");
}

/* A renewal with each of its requests for memory refused in turn changes nothing. */
static void want_refused_renewals(void) {
    handle session = none;
    struct foresight_counts counts;
    size_t number = 1;
    WANT(0, open_with(&session, handlers, 10));
    WANT(0, serve(&session, "f a\nf b\n"));
    for (;; number++) {
        heap_refuse(number, false);
        int status = foresight_session_renew(&session);
        heap_refuse(0, false);
        WANT(0, foresight_session_counts(&session, &counts));
        if (status == 0) break;
        want(status == 3 && counts.generation == 0 && counts.names == NAMES + 1, "a refused renewal");
        if (number > 1000) break;
    }
    want(number > 3 && counts.generation == 1, "a renewal takes no memory");
    WANT(0, foresight_session_close(&session));
    want(heap_blocks() == 0, "memory is kept after close");
}

int main(void) {
    want_counts();
    want_renewed();
    want_refused_renewals();
    return failures == 0 ? 0 : 1;
}
