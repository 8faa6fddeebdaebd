/* Calls each of the calls over a handle of a session: where all is done, with what each refuses, with
 * a room of each size, and with each request for memory refused.
 * .ci/embedding builds and runs it. */
#define SAYS "sessions"
#include "session.h"

/* ---- a session */

static void want_lines(void) {
    handle session = none;
    WANT(0, open_with(&session, handlers, 10));
    want(told.written == 0 && told.needed == 0 && told.told == 0, "open tells something");
    want(dump_is(&session, "%% tables\nm a 3\ns 4\n"), "the tables as they open");
    WANT(0, serve(&session, ""));
    want_served(0, 0, "", "");
    WANT(0, serve(&session, "\n  \n# none\nf a\n\ng\nf 5"));
    want_served(21, 3, "3 1\n2\nnil 2\n", "");
    want(dump_is(&session, "%% tables\nm 5 1\nm a 1\ns 4\ns 5\ns a\n"),
        "the tables after three requests");
    /* A line that isn't served is used, and changes nothing; the lines behind it go on. */
    WANT(1, serve(&session, "f a\nnobody 1\nf a\n"));
    want_served(13, 1, "1 2\n", "unknown handler\n");
    WANT(1, serve(&session, "f\nf a\n"));
    want_served(2, 0, "", "wrong number of arguments\n");
    WANT(1, serve(&session, "f 9223372036854775808\n"));
    want_served(22, 0, "", "a word that is no value\n");
    WANT(1, serve(&session, "f a!\n"));
    want_served(5, 0, "", "a word that is no value\n");
    /* A refused line keeps no name: two new names may still come, and no third. */
    WANT(1, serve(&session, "f x y\nf q\n"));
    want_served(6, 0, "", "wrong number of arguments\n");
    WANT(15, serve(&session, "f b\nf d\nf e\nf b\n"));
    want_served(12, 2, "nil 3\nnil 4\n", "too many names\n");
    WANT(0, serve(&session, "f b\n"));
    /* Bytes that are no UTF-8: none is used. */
    WANT(16, serve(&session, "f a\nf \xff\n"));
    want_served(0, 0, "", "not text\n");
    WANT(16, serve_bytes(&session, "\xc3", 1, ROOM));
    want(dump_is(&session, "%% tables\nm 5 1\nm a 1\nm b 1\nm d 1\ns 4\ns 5\ns a\ns b\ns d\n"),
        "the tables at the end");
    WANT(0, foresight_session_close(&session));
    want(heap_blocks() == 0, "memory is kept after close");
}

/* Rooms that are too small: what was served is never served again, and nothing is lost. */
static void want_rooms(void) {
    handle session = none;
    WANT(0, open_with(&session, handlers, 10));
    WANT(5, serve_bytes(&session, "g\n", 2, FORESIGHT_REPLY_ROOM - 1));
    want_served(0, 0, "", "");
    WANT(0, serve_bytes(&session, "g\n", 2, FORESIGHT_REPLY_ROOM));
    want_served(2, 1, "1\n", "");
    WANT(5, serve_bytes(&session, "f 1\nf 1\nf 1\n", 12, FORESIGHT_REPLY_ROOM + 3));
    want_served(4, 1, "nil 2\n", "");
    WANT(5, serve_bytes(&session, "f 1\nf 1\n", 8, FORESIGHT_REPLY_ROOM + 3));
    want_served(4, 1, "1 2\n", "");
    WANT(0, serve_bytes(&session, "f 1\n", 4, FORESIGHT_REPLY_ROOM + 3));
    /* A dump changes nothing, so it may be asked for again. */
    fill();
    WANT(5, foresight_session_dump(&session, out, 3, why, 4, &told));
    want(told.written == 3 && told.needed > 3 && told.told == 4, "a front of the dump");
    want(out[3] == '#' && why[4] == '#', "bytes behind a room are written");
    /* A message has room for no byte. */
    fill();
    WANT(1, foresight_session_serve(&session, (const uint8_t *)"x\n", 2, out, ROOM, why, 0, &done));
    want(done.told == 0 && why[0] == '#', "a message without room");
    WANT(0, foresight_session_close(&session));
}

/* A line past the limit of an input has a status, and the next is served. */
static void want_long_line(void) {
    enum { LONG = (1 << 22) + 1 };
    handle session = none;
    WANT(0, open_with(&session, handlers, 10));
    char *lines = malloc(LONG + 3);
    if (lines == NULL) return want(false, "no memory for a long line");
    memset(lines, ' ', LONG);
    memcpy(lines + LONG, "\ng\n", 3);
    WANT(1, serve_bytes(&session, lines, LONG + 3, ROOM));
    want_served(LONG + 1, 0, "", "a line too long\n");
    WANT(0, serve_bytes(&session, lines + done.used, LONG + 3 - done.used, ROOM));
    want_served(2, 1, "1\n", "");
    free(lines);
    WANT(0, foresight_session_close(&session));
}

/* What `open` refuses. */
static void want_unopened(void) {
    static const struct {
        const char *text;
        uint32_t most_names;
        int status;
        const char *message;
    } rows[] = {
        { "map m;\n", 10, 1, "refused T2\n" },
        { "map m; handler f(n) { }\n%%\nf 1\n", 10, 1, "refused T3\n" },
        { "map m;\n%%\nf 1\n", 10, 1, "refused Q1 line 3\n" },
        { "map m;\n\xff%%\n", 10, 1, "refused T4\n" },
        { "map ;\n%%\n", 10, 1, "refused S2 at 4\n" },
        { "map m;\n%% tables\nm 1\n%%\n", 10, 1, NULL },
        { handlers, NAMES - 1, 15, "too many names\n" },
    };
    for (size_t i = 0; i < sizeof rows / sizeof rows[0]; i++) {
        handle session = none;
        int status = open_with(&session, rows[i].text, rows[i].most_names);
        want(status == rows[i].status && !session.live, rows[i].text);
        if (rows[i].message != NULL) {
            want(stands(why, sizeof why, rows[i].message, told.told), rows[i].message);
        }
        want(told.written == 0 && told.needed == 0 && heap_blocks() == 0, rows[i].text);
    }
    handle session = none;
    WANT(0, open_with(&session, handlers, NAMES));
    WANT(15, serve(&session, "f z\n"));
    WANT(0, foresight_session_close(&session));
}

/* Each call over a handle of nothing answers 11, and writes nothing but its counts. */
static void want_none(handle *session) {
    WANT(11, serve(session, "g\n"));
    want_served(0, 0, "", "");
    fill();
    WANT(11, foresight_session_dump(session, out, ROOM, why, FORESIGHT_MESSAGE_ROOM, &told));
    want(told.written == 0 && told.needed == 0 && told.told == 0, "a dump tells something");
    want(out[0] == '#' && why[0] == '#', "a dump writes something");
    WANT(11, foresight_session_close(session));
    want(!session->live, "a handle of nothing has something");
}

static void want_handles(void) {
    handle session = none;
    want_none(&session);
    WANT(0, open_with(&session, handlers, 10));
    WANT(0, serve(&session, "f 5\n"));
    /* Opened again, it answers 11 and stays as it is. */
    WANT(11, open_with(&session, handlers, 10));
    want(told.written == 0 && told.needed == 0 && told.told == 0 && why[0] == '#', "open writes");
    WANT(11, open_with(&session, "map ;", 10));
    WANT(0, serve(&session, "f 5\n"));
    want_served(4, 1, "1 2\n", "");
    WANT(0, foresight_session_close(&session));
    want_none(&session);
    want(heap_blocks() == 0, "memory is kept after close");
    /* A handle that was closed opens again. */
    WANT(0, open_with(&session, handlers, 10));
    WANT(0, foresight_session_close(&session));
    want(heap_blocks() == 0, "memory is kept after another close");
}

/* ---- with requests for memory refused */

/* A session from its opening to its end, with the request of this number refused; whatever was
 * refused, calls made again go on, and the replies are the same. Whether one was refused. */
static bool is_refused(size_t number) {
    static const char lines[] = "f a\nf 5\nf b\nf 6\nf 7\nf 8\nf 9\nf 10\nf 11\nf 12\nf 13\nf 14\ng\n";
    static const char due[] = "3 1\nnil 2\nnil 3\nnil 4\nnil 5\nnil 6\nnil 7\nnil 8\nnil 9\nnil 10\n"
        "nil 11\nnil 12\n13\n";
    handle session = none;
    heap_refuse(number, false);
    int status = open_with(&session, handlers, 12);
    if (status == 3) {
        want(stands(why, sizeof why, "no memory\n", told.told) && heap_blocks() == 0, "a refusal");
        status = open_with(&session, handlers, 12);
    }
    WANT(0, status);
    char replies[256] = "";
    size_t at = 0;
    while (at < sizeof lines - 1) {
        status = serve_bytes(&session, lines + at, sizeof lines - 1 - at, ROOM);
        want(status == 0 || (status == 3 && stands(why, sizeof why, "no memory\n", done.told)),
            "lines where memory was wanting");
        strncat(replies, (const char *)out, done.written);
        at += done.used;
    }
    want(strcmp(replies, due) == 0, "other replies where memory was wanting");
    fill();
    status = foresight_session_dump(&session, out, ROOM, why, FORESIGHT_MESSAGE_ROOM, &told);
    want(status == 0 || (status == 3 && told.written == 0 && told.needed == 0), "a dump");
    bool was_refused = heap_has_refused();
    heap_refuse(0, false);
    WANT(0, foresight_session_close(&session));
    want(heap_blocks() == 0, "memory is kept where it was wanting");
    return was_refused;
}

/* ---- NULL, by the guard */
static void want_null(void) {
    handle session = none;
    fill();
    WANT(23, foresight_guard_open(NULL, out, 1, SEED, 1, why, 1, &told));
    WANT(23, foresight_guard_open(&session, NULL, 1, SEED, 1, why, 1, &told));
    WANT(23, foresight_guard_open(&session, out, 1, SEED, 1, why, 1, NULL));
    want(!session.live, "a session over NULL");
    WANT(1, foresight_guard_open(&session, NULL, 0, SEED, 1, NULL, 0, &told));
    WANT(0, open_with(&session, handlers, 10));
    fill();
    WANT(23, foresight_guard_serve(&session, NULL, 2, out, ROOM, why, 1, &done));
    WANT(23, foresight_guard_serve(&session, out, 2, NULL, ROOM, why, 1, &done));
    WANT(23, foresight_guard_serve(&session, out, 2, out, ROOM, why, 1, NULL));
    want(out[0] == '#' && why[0] == '#', "a guard writes something");
    WANT(0, foresight_guard_serve(&session, NULL, 0, NULL, 0, NULL, 0, &done));
    WANT(23, foresight_guard_dump(&session, NULL, 1, why, 1, &told));
    WANT(5, foresight_guard_dump(&session, NULL, 0, NULL, 0, &told));
    WANT(0, foresight_guard_close(&session));
    WANT(23, foresight_guard_close(NULL));
}

/* ---- tickets on the tables of a session */
static void want_tickets(void) {
    static const struct foresight_operation get_5 = {
        FORESIGHT_GET, 0, { FORESIGHT_NUMBER, 0, 5 }, { FORESIGHT_NIL, 0, 0 }
    };
    struct foresight_operation get_a = get_5, other = get_5;
    struct foresight_value reply = { 9, 9, 9 };
    uint64_t ticket = 9, older = 9;
    uint32_t name = 99;
    size_t size = 99;
    handle session = none;
    WANT(11, foresight_session_begin(&session, &get_5, 1, &ticket));
    WANT(11, foresight_session_name(&session, (const uint8_t *)"a", 1, &name));
    want(ticket == 9 && name == 99, "a handle of nothing tells a number");
    WANT(0, open_with(&session, handlers, 9));
    /* The first line commutes with what the ticket has declared, the second doesn't, and isn't used. */
    WANT(0, foresight_session_begin(&session, &get_5, 1, &ticket));
    want(ticket == 0, "the first ticket has another number");
    WANT(20, serve(&session, "f a\nf 5\nf a\n"));
    want_served(4, 1, "3 1\n", "delayed\n");
    want(done.older == 0, "another ticket is in the way");
    WANT(0, foresight_session_call(&session, ticket, &get_5, &reply, &older));
    want(reply.sort == FORESIGHT_NIL && older == 9, "the reply of a call");
    /* A name has the number of its text, and the text of its number. */
    WANT(0, foresight_session_name(&session, (const uint8_t *)"a", 1, &name));
    fill();
    WANT(0, foresight_session_text(&session, name, out, ROOM, &size));
    want(stands(out, sizeof out, "a", size), "the text of a name");
    WANT(10, foresight_session_text(&session, 1000, out, ROOM, &size));
    WANT(1, foresight_session_name(&session, (const uint8_t *)"5", 1, &name));
    get_a.key.sort = FORESIGHT_NAME;
    get_a.key.name = name;
    WANT(21, foresight_session_call(&session, ticket, &get_a, &reply, &older));
    other.key = get_a.key;
    other.key.name = 1000;
    WANT(22, foresight_session_call(&session, ticket, &other, &reply, &older));
    other = get_5;
    other.kind = 200;
    WANT(10, foresight_session_call(&session, ticket, &other, &reply, &older));
    WANT(13, foresight_session_call(&session, 7, &get_5, &reply, &older));
    WANT(21, foresight_session_narrow(&session, ticket, &get_a, 1));
    /* Once it has narrowed it is in nobody's way. */
    WANT(0, foresight_session_narrow(&session, ticket, &get_5, 0));
    WANT(0, serve(&session, "f 5\n"));
    want_served(4, 1, "nil 2\n", "");
    WANT(0, foresight_session_end(&session, ticket));
    WANT(13, foresight_session_end(&session, ticket));
    /* Each line took a number: two were served. */
    WANT(0, foresight_session_begin(&session, &get_a, 1, &ticket));
    want(ticket == 3, "the next ticket has another number");
    WANT(0, foresight_session_call(&session, ticket, &get_a, &reply, &older));
    want(reply.sort == FORESIGHT_NUMBER && reply.number == 1, "the reply of a call by name");
    WANT(0, foresight_session_close(&session));
    want(heap_blocks() == 0, "memory is kept after close");
}

int main(void) {
    want(foresight_version() == FORESIGHT_VERSION_NUMBER, "header and archive are of two versions");
    want_lines();
    want_rooms();
    want_long_line();
    want_unopened();
    want_handles();
    want_null();
    want_tickets();
    want(!is_refused(0), "memory is wanting");
    size_t requests = 0;
    while (is_refused(requests + 1)) requests++;
    want(requests > 20, "few requests for memory");
    return failures == 0 ? 0 : 1;
}
