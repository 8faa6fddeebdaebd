#define _GNU_SOURCE
#include "serving.h"

#include "handlers.h"
#include "metrics.h"
#include "options.h"
#include "snapshot.h"

#include <inttypes.h>
#include <stdio.h>
#include <string.h>
#include <time.h>

struct serving serving;

static const char NOW[] = "@now";

/* Whether handler and arguments can be served. Its refusals are those of the language, Q1 to Q3. */
static struct handler *checked(const struct word *words, size_t count, struct outcome *out) {
    struct handler *handler = handler_of(words[0]);
    if (handler == NULL) {
        int size = words[0].size > 64 ? 64 : (int)words[0].size;
        refuse(out, "ERR refused Q1: there is no handler `%.*s`", size, words[0].at);
        return NULL;
    }
    if (count - 1 != handler->parameters) {
        refuse(out, "ERR refused Q2: `%s` takes %zu arguments, and got %zu", handler->name,
            handler->parameters, count - 1);
        return NULL;
    }
    for (size_t i = 1; i < count; i++) {
        if (word_is_value(words[i]) || word_is(words[i], NOW)) continue;
        refuse(out,
            "ERR refused Q3: argument %zu of `%s` is no value: nil, a number of 64 bits, or a"
            " symbol (a letter, then letters, digits, _ . - @ :, at most 64 bytes)",
            i, handler->name);
        return NULL;
    }
    return handler;
}

/* The hash of a request as it was sent. Its words have no blanks. */
static uint64_t asked_of(const struct word *words, size_t count) {
    static struct bytes text;
    text.size = 0;
    for (size_t i = 0; i < count; i++) {
        bytes_put(&text, words[i].at, words[i].size);
        bytes_put(&text, " ", 1);
    }
    return hash_of(text.at, text.size);
}

/* Replaces `@now`: whether there was one. Time doesn't go back behind what is logged. */
static bool put_now(struct word *words, size_t count, char text[24], uint64_t *now) {
    struct timespec time;
    bool has = false;
    for (size_t i = 1; i < count; i++) {
        if (!word_is(words[i], NOW)) continue;
        if (!has) {
            clock_gettime(CLOCK_REALTIME, &time);
            *now = (uint64_t)time.tv_sec * 1000 + (uint64_t)time.tv_nsec / 1000000;
            if (*now < serving.now) *now = serving.now;
            snprintf(text, 24, "%" PRIu64, *now);
            has = true;
        }
        words[i] = (struct word){ text, strlen(text) };
    }
    return has;
}

static void add_row(const struct word *words, size_t count, struct row *row,
    const struct once_id *id, const struct outcome *out) {
    static struct bytes line;
    line.size = 0;
    for (size_t i = 0; i < count; i++) {
        if (i > 0) bytes_put(&line, " ", 1);
        bytes_put(&line, words[i].at, words[i].size);
    }
    row->position = ++serving.position;
    row->reply = hash_of(out->text, out->size);
    row->line_size = line.size;
    row->once = id != NULL;
    row->client_size = id != NULL ? id->client.size : 0;
    row->number = id != NULL ? id->number : 0;
    if (!row->has_now) row->now = 0;
    else serving.now = row->now;
    batch_add(serving.pending, row, (const char *)line.at, id != NULL ? id->client.at : "");
}

/* Whether the number has an answer already. */
static bool answered_before(const struct once_id *id, uint64_t asked, struct outcome *out) {
    switch (once_look(id, asked, out)) {
    case ONCE_NEW: return false;
    case ONCE_AGAIN: break;
    case ONCE_OTHER: refuse(out, "ERR the number was used for another request"); break;
    case ONCE_TOO_OLD:
        refuse(out, "TOO OLD: the last %" PRIu64 " numbers of a client are known",
            options.once_window);
        break;
    }
    return true;
}

void serve(const struct word *words, size_t count, const struct once_id *id, struct outcome *out) {
    struct word given[33];
    struct row row = { 0 };
    char time[24];
    struct handler *handler = checked(words, count, out);
    if (handler == NULL) {
        metrics_refused(out);
        return;
    }
    if (id != NULL) row.asked = asked_of(words, count);
    if (id != NULL && answered_before(id, row.asked, out)) {
        metrics_again(out);
        return;
    }
    bool logs = serving.pending != NULL && (id != NULL || !handler->reads);
    if (logs && serving.pending->count >= options.queue) {
        refuse(out, "BUSY too many changes wait for the disk: try again");
        metrics_refused(out);
        return;
    }
    memcpy(given, words, count * sizeof *words);
    uint64_t began = metrics_clock();
    row.has_now = put_now(given, count, time, &row.now);
    tables_request(given, count, out);
    metrics_served(handler, began, given, count, out);
    if (out->refused) return;
    if (logs) add_row(given, count, &row, id, out);
    if (id != NULL) once_keep(id, row.asked, out);
}

/* ---- The log again. */

struct again {
    struct stand stand; /* what was read and checked so far */
    struct stand from;  /* the snapshot's */
    uint64_t until, served;
    bool known; /* whether the checksum before the next row is known */
};

static void check_row(const struct row *row, const uint8_t *line, const uint8_t *client,
    const uint8_t *chain, struct again *again) {
    if (again->known && row->position != again->stand.position + 1) {
        give_up(STATUS_DIFFERS, "position %" PRIu64 " isn't there", again->stand.position + 1);
    }
    if (again->known) {
        chain_row(again->stand.chain, row, line, client);
        if (memcmp(again->stand.chain, chain, CHAIN_SIZE) != 0) {
            give_up(STATUS_DIFFERS, "position %" PRIu64 ": the row isn't what was written",
                row->position);
        }
    }
    memcpy(again->stand.chain, chain, CHAIN_SIZE);
    again->stand.position = row->position;
    again->known = true;
    if (row->position == again->from.position
        && memcmp(chain, again->from.chain, CHAIN_SIZE) != 0) {
        give_up(STATUS_DIFFERS, "position %" PRIu64 ": the snapshot is of another log",
            row->position);
    }
}

static void serve_row(const struct row *row, const uint8_t *line, const uint8_t *client,
    const uint8_t *chain, void *with) {
    struct again *again = with;
    struct outcome out;
    if (row->position > again->until) return;
    if (row->position > again->from.position && !again->known) {
        again->stand = again->from;
        again->known = true;
    }
    check_row(row, line, client, chain, again);
    if (row->position <= again->from.position) return;
    tables_line(line, row->line_size, &out);
    if (out.refused) {
        give_up(STATUS_DIFFERS, "position %" PRIu64 " was served, and is refused now: %.*s",
            row->position, (int)out.size, out.text);
    }
    if (hash_of(out.text, out.size) != row->reply) {
        give_up(STATUS_DIFFERS, "position %" PRIu64 " has another reply now: %.*s", row->position,
            (int)out.size, out.text);
    }
    if (row->once) {
        struct once_id id = { { (const char *)client, row->client_size }, row->number };
        once_keep(&id, row->asked, &out);
    }
    if (row->has_now && row->now > serving.now) serving.now = row->now;
    again->served++;
}

void serve_log(const char *data, struct head *head, uint64_t until) {
    struct named named;
    struct again again = { .until = until };
    log_head(head, &named);
    once_open(head->once_clients, head->once_window);
    if (named.stand.position > until) named = (struct named){ 0 };
    if (named.stand.position > 0) {
        serving.now = snapshot_load(data, &named, head);
        again.from = named.stand;
    } else {
        tables_open(&head->handlers, NAMES_WITHOUT_BOUND);
        memcpy(again.from.chain, head->seal, CHAIN_SIZE);
    }
    log_rows(serve_row, &again);
    if (!again.known) again.stand = again.from;
    struct stand tail = log_tail();
    if (again.stand.position < again.from.position) {
        give_up(STATUS_DIFFERS, "position %" PRIu64 " isn't there", again.stand.position + 1);
    }
    bool whole = until == tail.position || until == INT64_MAX;
    if (whole ? memcmp(&tail, &again.stand, sizeof tail) != 0 : again.stand.position != until) {
        give_up(STATUS_DIFFERS, "the log ends at position %" PRIu64 ", and should at %" PRIu64,
            again.stand.position, whole ? tail.position : until);
    }
    serving.position = again.stand.position;
    say("position %" PRIu64 ": snapshot of %" PRIu64 ", %" PRIu64 " requests served again",
        serving.position, again.from.position, again.served);
    tables_bound(head->most_names);
    if (!whole) log_cut(&again.stand);
    log_begin(&again.stand);
}
