#define _GNU_SOURCE
#include "tables.h"

#include "foresight_session.h"

#include <stdarg.h>
#include <stdio.h>
#include <string.h>
#include <sys/random.h>

static const char TOO_MANY_NAMES[] = "ERR too many names";

enum { MOST_ENTRIES = 100000, MOST_TEXT = 4194304 };

static struct foresight_session session = FORESIGHT_NO_SESSION;
static struct bytes opened; /* the text that it was opened with: its handlers are needed again */
static uint32_t names;
static uint64_t since; /* lines that were served since its names were given back */

void refuse(struct outcome *out, const char *format, ...) {
    va_list given;
    va_start(given, format);
    int size = vsnprintf(out->text, sizeof out->text, format, given);
    va_end(given);
    out->size = (size_t)size < sizeof out->text ? (size_t)size : sizeof out->text - 1;
    out->refused = true;
    /* Some of it may be a client's, and go to a terminal. */
    for (size_t i = 0; i < out->size; i++) {
        if (out->text[i] < ' ' || out->text[i] > '~') out->text[i] = '?';
    }
}

/* Opens a session in place of the one that there is; what is wrong is in `why`. */
static int open_over(const struct bytes *text, uint32_t most_names,
    char why[FORESIGHT_MESSAGE_ROOM]) {
    struct foresight_answer answer = { 0, 0, 0 };
    uint64_t seed = 0;
    if (getrandom(&seed, sizeof seed, 0) != sizeof seed) give_up(STATUS_NO_FILE, "no seed");
    if (session.live) foresight_session_close(&session);
    memset(why, 0, FORESIGHT_MESSAGE_ROOM);
    int status = foresight_session_open(&session, text->at, text->size, seed, most_names,
        (uint8_t *)why, FORESIGHT_MESSAGE_ROOM - 1, &answer);
    if (answer.told > 0) why[answer.told - 1] = 0;
    names = most_names;
    since = 0;
    return status;
}

bool tables_divides(const struct bytes *text) {
    return memmem(text->at, text->size, "\n%%\n", 4) != NULL;
}

void tables_open(const struct bytes *text, uint32_t most_names) {
    struct bytes whole = { NULL, 0, 0 };
    char why[FORESIGHT_MESSAGE_ROOM];
    bytes_put(&whole, text->at, text->size);
    if (!tables_divides(text)) bytes_text(&whole, "\n%%\n");
    if (open_over(&whole, most_names, why) != FORESIGHT_SESSION_FINE) {
        give_up(STATUS_REFUSED, "handlers or tables: %s", why);
    }
    bytes_free(&opened);
    opened = whole;
}

void tables_counts(struct held *held) {
    struct foresight_counts counts;
    uint32_t size = 0;
    memset(&counts, 0, sizeof counts);
    foresight_session_counts(&session, &counts);
    *held = (struct held){ counts.names, counts.most_names, counts.generation, 0 };
    for (uint32_t table = 0; table < counts.tables; table++) {
        foresight_session_size(&session, table, &size);
        held->entries += size;
    }
}

void tables_dump(struct bytes *out) {
    uint8_t why[FORESIGHT_MESSAGE_ROOM];
    struct foresight_answer answer = { 0, 65536, 0 };
    int status = FORESIGHT_SESSION_NO_ROOM;
    memset(why, 0, sizeof why);
    while (status == FORESIGHT_SESSION_NO_ROOM) {
        size_t room = answer.needed;
        memset(bytes_reserve(out, room), 0, room);
        status =
            foresight_session_dump(&session, out->at + out->size, room, why, sizeof why, &answer);
    }
    if (status != FORESIGHT_SESSION_FINE)
        give_up(STATUS_MEMORY, "no dump: %.*s", (int)answer.told, why);
    out->size += answer.written;
}

/* The handlers' own part: opening tables of the file are in the dump already. */
static size_t own_part(const struct bytes *handlers) {
    if (handlers->size >= 2 && memcmp(handlers->at, "%%", 2) == 0) return 0;
    uint8_t *end = memmem(handlers->at, handlers->size, "\n%%", 3);
    return end == NULL ? handlers->size : (size_t)(end - handlers->at) + 1;
}

bool tables_can_load(const struct bytes *handlers, const struct bytes *dump) {
    size_t lines = 0;
    for (size_t i = 0; i < dump->size; i++) lines += dump->at[i] == '\n';
    return lines <= MOST_ENTRIES + 1 && own_part(handlers) + dump->size + 8 <= MOST_TEXT;
}

static void text_to_load(const struct bytes *handlers, const struct bytes *dump,
    struct bytes *whole) {
    bytes_put(whole, handlers->at, own_part(handlers));
    bytes_text(whole, "\n");
    bytes_put(whole, dump->at, dump->size);
    bytes_text(whole, "%%\n");
}

/* Opens the session again over its own tables, with another bound on names. Replies and tables don't
 * depend on it. It takes as long as a start. */
static bool reopen(uint32_t most_names) {
    struct bytes dump = { NULL, 0, 0 }, whole = { NULL, 0, 0 };
    char why[FORESIGHT_MESSAGE_ROOM];
    tables_dump(&dump);
    bool can = tables_can_load(&opened, &dump);
    if (can) {
        text_to_load(&opened, &dump, &whole);
        if (open_over(&whole, most_names, why) != FORESIGHT_SESSION_FINE
            && open_over(&whole, NAMES_WITHOUT_BOUND, why) != FORESIGHT_SESSION_FINE) {
            give_up(STATUS_REFUSED, "tables: %s", why);
        }
    }
    bytes_free(&dump);
    bytes_free(&whole);
    return can;
}

void tables_bound(uint32_t most_names) {
    reopen(most_names);
    if (names != most_names) say("names have no bound: these tables can't be opened with one");
}

static void serve_line(const void *line, size_t size, struct outcome *out) {
    uint8_t reply[FORESIGHT_REPLY_ROOM + 1], why[FORESIGHT_MESSAGE_ROOM];
    struct foresight_served served = { 0, 0, 0, 0, 0 };
    memset(reply, 0, sizeof reply);
    memset(why, 0, sizeof why);
    int status = foresight_session_serve(&session, line, size, reply, sizeof reply, why, sizeof why,
        &served);
    size_t told = served.told > 0 ? served.told - 1 : 0;
    if (status == FORESIGHT_SESSION_FINE && served.requests == 1 && served.written > 0) {
        out->refused = false;
        out->size = served.written - 1;
        memcpy(out->text, reply, out->size);
        since++;
    } else if (status == FORESIGHT_SESSION_TOO_MANY_NAMES) {
        refuse(out, "%s: a new word can't be kept; known ones are served", TOO_MANY_NAMES);
    } else {
        refuse(out, "ERR %.*s", (int)told, why);
    }
}

void tables_line(const void *line, size_t size, struct outcome *out) {
    serve_line(line, size, out);
    bool full = out->refused && strncmp(out->text, TOO_MANY_NAMES, strlen(TOO_MANY_NAMES)) == 0;
    /* Not so often that those who send new words could keep it busy. */
    if (full && since >= names / 8) {
        since = 0;
        if (foresight_session_renew(&session) == FORESIGHT_SESSION_FINE) serve_line(line, size, out);
    }
}

void tables_request(const struct word *words, size_t count, struct outcome *out) {
    static struct bytes line;
    line.size = 0;
    for (size_t i = 0; i < count; i++) {
        if (i > 0) bytes_put(&line, " ", 1);
        bytes_put(&line, words[i].at, words[i].size);
    }
    tables_line(line.at, line.size, out);
}

void tables_load(const struct bytes *handlers, const struct bytes *dump, uint32_t most_names) {
    struct bytes whole = { NULL, 0, 0 };
    text_to_load(handlers, dump, &whole);
    tables_open(&whole, most_names);
    bytes_free(&whole);
}
